//! Quantities as text, in MW with up to three digits behind the point.

use crate::block::HIGHEST_QUANTITY;

/// Not a quantity, or above the highest one.
pub const NO_QUANTITY: u8 = 30;
/// A minus before what would otherwise be a quantity.
pub const NEGATIVE: u8 = 31;
/// The lent buffer cannot hold the text.
pub const BUFFER_SHORT: u8 = 32;

/// Reads a text; gives the number of the answer and the quantity in kW (0 if refused).
pub fn read(text: &[u8]) -> (u8, u32) {
    if let Some(quantity) = unsigned(text) {
        return (0, quantity);
    }
    match text.split_first() {
        Some((b'-', rest)) if unsigned(rest).is_some() => (NEGATIVE, 0),
        _ => (NO_QUANTITY, 0),
    }
}

/// One to four digits, then perhaps a point and one to three more.
fn unsigned(text: &[u8]) -> Option<u32> {
    let (whole, parts) = match text.iter().position(|&byte| byte == b'.') {
        None => (text, None),
        Some(point) => (&text[..point], Some(&text[point + 1..])),
    };
    let megawatts = digits(whole, 4)?;
    let kilowatts = match parts {
        None => 0,
        // Missing digits behind the point count as zeros: .5 is 500 kW.
        Some(parts) => digits(parts, 3)? * 10u32.pow(3 - parts.len() as u32),
    };
    Some(megawatts * 1_000 + kilowatts)
}

/// One digit at least and `most` at most; anything else is nothing.
fn digits(text: &[u8], most: usize) -> Option<u32> {
    if text.is_empty() || text.len() > most || !text.iter().all(u8::is_ascii_digit) {
        return None;
    }
    Some(text.iter().fold(0, |number, &digit| number * 10 + u32::from(digit - b'0')))
}

/// Prints a quantity into the front of a lent buffer; gives the number of the answer and the
/// length of the text (0 if refused). A refused print writes nothing, and bytes behind the text
/// stay as they are.
pub fn print(quantity: u32, buffer: &mut [u8]) -> (u8, usize) {
    if quantity > HIGHEST_QUANTITY {
        return (NO_QUANTITY, 0);
    }
    let text = format!("{}.{:03}", quantity / 1_000, quantity % 1_000);
    match buffer.get_mut(..text.len()) {
        None => (BUFFER_SHORT, 0),
        Some(front) => {
            front.copy_from_slice(text.as_bytes());
            (0, text.len())
        }
    }
}

//! Random names, quantities and days for the generator.

use crate::block::{Field, HIGHEST_QUANTITY, POSITIONS};
use crate::identifier::{check_value, fails_by_hyphen_alone, is_valid_eic, wrong_character, LAST_CHARACTER};
use crate::random::Random;

const ALPHABET: &[u8] = b"0123456789ABCDEFGHIJKLMNOPQRSTUVWXYZ-";

/// Bytes that no code holds: those next to the alphabet's, its own with the top bit set, and others.
const NOT_ALLOWED: &[u8] = b"/:@[,.`a_ xz\0\xad\xb0\xc1\xff";

/// Some character of the alphabet.
pub fn character(random: &mut Random) -> u8 {
    random.pick(ALPHABET)
}

/// A valid EIC.
pub fn valid_eic(random: &mut Random) -> Field {
    loop {
        let mut code = [0; 16];
        for character in code.iter_mut() {
            *character = random.pick(ALPHABET);
        }
        let first_fifteen = code[..15].try_into().expect("fifteen characters");
        if let Some(value) = check_value(first_fifteen).filter(|&value| value < 36) {
            code[15] = ALPHABET[usize::from(value)];
            return code;
        }
    }
}

/// A code whose one fault is that its sixteenth character is a hyphen: its first fifteen ask for the
/// value 36, which a hyphen has.
pub fn hyphen_eic(random: &mut Random) -> Field {
    loop {
        let mut code = [b'-'; 16];
        for character in code.iter_mut().take(15) {
            *character = random.pick(ALPHABET);
        }
        if fails_by_hyphen_alone(&code) {
            return code;
        }
    }
}

/// The characters that a careless reckoning of values takes for those of the alphabet: the bytes next
/// to its ranges, small letters, and bytes with their top bit set.
pub fn read_carelessly(code: &Field) -> Field {
    code.map(|byte| match byte & 127 {
        b':' => b'A',
        b'@' => b'9',
        b'[' => b'-',
        other => other.to_ascii_uppercase(),
    })
}

/// A code that a careless reckoning takes for an EIC: one of its characters is outside the alphabet.
pub fn look_alike_eic(random: &mut Random) -> Field {
    loop {
        let mut code = valid_eic(random);
        let at = random.below(16);
        code[at] = match (random.below(3), code[at]) {
            (0, b'A') => b':',
            (0, b'9') => b'@',
            (0, b'-') => b'[',
            (1, letter @ b'A'..=b'Z') => letter.to_ascii_lowercase(),
            (2, character) => character | 128,
            _ => continue,
        };
        return code;
    }
}

/// A field that is close to an EIC but is none.
pub fn invalid_eic(random: &mut Random) -> Field {
    loop {
        let mut code = valid_eic(random);
        match random.below(9) {
            6 | 7 => return hyphen_eic(random),
            8 => return look_alike_eic(random),
            0 => code[15] = b'-',
            1 => code = [b'0'; 16],
            2 => code[random.below(16)] = random.byte(),
            3 => code[random.below(16)] = random.pick(NOT_ALLOWED),
            4 => code = [0; 16],
            _ => code[random.below(16)] = random.pick(ALPHABET),
        }
        if !is_valid_eic(&code) {
            return code;
        }
    }
}

/// The number of some character of a code.
pub fn character_number(random: &mut Random) -> u8 {
    random.between(1, usize::from(LAST_CHARACTER)) as u8
}

/// A field that is no EIC and tells this character. Behind a character that is not allowed there
/// sometimes stands a second one, which must not be told.
pub fn wrong_at(random: &mut Random, character: u8) -> Field {
    if character == LAST_CHARACTER {
        return wrong_at_last(random);
    }
    let mut code = valid_eic(random);
    code[usize::from(character) - 1] = random.pick(NOT_ALLOWED);
    if random.percent(40) {
        code[random.between(usize::from(character), 15)] = random.pick(NOT_ALLOWED);
    }
    code
}

/// A field that is no EIC, though its first fifteen characters are allowed.
fn wrong_at_last(random: &mut Random) -> Field {
    loop {
        let mut code = valid_eic(random);
        match random.below(8) {
            0 | 1 | 7 => code = hyphen_eic(random),
            2 => code[15] = b'-',
            3 => code[15] = random.pick(NOT_ALLOWED),
            4 => code[..15].fill(b'0'),
            5 => code = [b'0'; 16],
            _ => code[15] = random.pick(ALPHABET),
        }
        if wrong_character(&code) == LAST_CHARACTER {
            return code;
        }
    }
}

/// A text that tells this character, often one that is too short or too long.
pub fn wrong_text_at(random: &mut Random, character: u8) -> Vec<u8> {
    let mut code = wrong_at(random, character).to_vec();
    match random.below(6) {
        // Nothing is wrong but that it ends before this character.
        0 => code.truncate(usize::from(character) - 1),
        1 => code.truncate(random.between(usize::from(character), 16)),
        2 | 3 => {
            if character == LAST_CHARACTER && random.percent(60) {
                code = valid_eic(random).to_vec();
            }
            let more = if random.percent(80) { random.between(1, 3) } else { random.between(4, 48) };
            code.extend((0..more).map(|_| random.pick(b"0AZ-a\0")));
        }
        _ => {}
    }
    code
}

/// A well-formed id of random length.
pub fn id(random: &mut Random) -> Field {
    let mut id = [0; 16];
    let length = if random.percent(10) { 16 } else { random.between(1, 16) };
    for character in id.iter_mut().take(length) {
        *character = random.pick(ALPHABET);
    }
    id
}

/// A field that no id can be.
pub fn malformed_id(random: &mut Random) -> Field {
    let mut id = id(random);
    match random.below(5) {
        0 => id = [0; 16],
        1 => id[0] = 0,
        2 => id[random.below(16)] = random.pick(b"a_ .\xff@[/:"),
        3 => {
            // A zero byte with text behind it.
            let gap = random.between(1, 14);
            id[gap] = 0;
            id[random.between(gap + 1, 15)] = b'7';
        }
        _ => id[random.below(16)] = b'a',
    }
    if id[0] != 0 && crate::identifier::is_well_formed_id(&id) {
        id[0] = b'a';
    }
    if crate::identifier::is_well_formed_id(&id) {
        id = [0; 16];
    }
    id
}

pub fn day(random: &mut Random) -> [u8; 8] {
    let mut day = *b"20190131";
    if random.percent(70) {
        for digit in day.iter_mut() {
            *digit = b'0' + random.below(10) as u8;
        }
    }
    day
}

/// A quantity, often at an edge.
pub fn quantity(random: &mut Random) -> u32 {
    match random.below(6) {
        0 => 0,
        1 => HIGHEST_QUANTITY,
        2 => 1_000 * random.below(100) as u32,
        3 => random.below(10) as u32,
        _ => random.below(HIGHEST_QUANTITY as usize + 1) as u32,
    }
}

/// Quantities for the first n positions, zeros above.
pub fn profile(random: &mut Random, n: usize) -> [u32; POSITIONS] {
    let mut values = [0; POSITIONS];
    match random.below(5) {
        0 => values[..n].fill(45_000),
        1 => values[..n].fill(quantity(random)),
        2 => values[..n].iter_mut().for_each(|value| *value = quantity(random)),
        3 => {
            let (from, to) = (random.below(n), random.below(n));
            values[from.min(to)..=from.max(to)].fill(quantity(random));
        }
        _ => values[..n].fill(HIGHEST_QUANTITY),
    }
    values
}

#[cfg(test)]
mod tests {
    use super::*;

    #[test]
    fn a_code_made_wrong_at_a_character_tells_that_character() {
        let mut random = Random::new(5);
        for _ in 0..500 {
            for character in 1..=LAST_CHARACTER {
                assert_eq!(wrong_character(&wrong_at(&mut random, character)), character);
                assert_eq!(wrong_character(&wrong_text_at(&mut random, character)), character);
            }
        }
    }

    /// What a program may put in place of a code that has not sixteen characters (docs/REPLAY.md).
    #[test]
    fn fifteen_bytes_filled_up_with_zero_bytes_tell_the_same_character() {
        let mut random = Random::new(6);
        for _ in 0..500 {
            for character in 1..=LAST_CHARACTER {
                let text = wrong_text_at(&mut random, character);
                let mut code = [0; 16];
                let kept = text.len().min(15);
                code[..kept].copy_from_slice(&text[..kept]);
                assert!(text.len() == 16 || wrong_character(&code) == character);
            }
        }
    }
}

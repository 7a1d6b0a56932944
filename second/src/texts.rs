//! Texts and blocks for the calls that need no book.

use crate::block::{seal, Block, Field, BLOCK_BYTES, HIGHEST_QUANTITY};
use crate::names;
use crate::random::Random;

/// A valid EIC, or a text that is close to one.
pub fn eic(random: &mut Random, valid: &Field) -> Vec<u8> {
    let mut code = valid.to_vec();
    match random.below(14) {
        0 | 1 => {}
        2 => code[random.below(16)] = random.byte(),
        3 => code[15] = random.byte(),
        4 => code.truncate(random.below(16)),
        5 | 10 => code.push(b'0'),
        6 | 12 => {
            code = vec![b'0'; 16];
            code[15] = names::character(random);
        }
        7 | 13 => code = names::hyphen_eic(random).to_vec(),
        8 | 9 => code = names::look_alike_eic(random).to_vec(),
        _ => code = names::invalid_eic(random).to_vec(),
    }
    code
}

/// An id, or a text that is close to one.
pub fn id(random: &mut Random) -> Vec<u8> {
    let mut id = if random.percent(50) { names::id(random) } else { names::malformed_id(random) }.to_vec();
    match random.below(8) {
        0 => id.truncate(random.below(16)),
        1 => id.push(random.pick(b"\0A")),
        _ => {}
    }
    id
}

/// A block of random bytes, or all zero but for one of the last; sometimes its check is right.
pub fn block(random: &mut Random) -> Box<Block> {
    let mut block = Box::new([0; BLOCK_BYTES]);
    if random.percent(70) {
        block.iter_mut().for_each(|byte| *byte = random.byte());
    } else {
        block[random.between(500, 511)] = random.byte();
    }
    if random.percent(40) {
        seal(&mut block);
    }
    block
}

/// A text that is a quantity or nearly one.
pub fn quantity(random: &mut Random) -> Vec<u8> {
    let digits =
        |random: &mut Random, count: usize| -> Vec<u8> { (0..count).map(|_| b'0' + random.below(10) as u8).collect() };
    let whole = if random.percent(85) { random.between(1, 4) } else { random.below(7) };
    let mut text = digits(random, whole);
    if random.percent(60) {
        text.push(b'.');
        let parts = if random.percent(80) { random.between(1, 3) } else { random.below(6) };
        text.extend(digits(random, parts));
    }
    if random.percent(20) {
        text.insert(0, b'-');
    }
    if random.percent(15) && !text.is_empty() {
        let at = random.below(text.len());
        match random.below(3) {
            0 => text[at] = random.pick(b"-+. ,x\0/:\xff"),
            1 => text.insert(at, random.pick(b"-+. ,0")),
            _ => {
                text.remove(at);
            }
        }
    }
    text
}

/// A quantity to be printed, sometimes one that is too high.
pub fn quantity_to_print(random: &mut Random) -> u32 {
    match random.below(6) {
        0 => random.pick(&[0, 1, 999, 1_000, 9_999, 10_000, 99_999, 999_999, 1_000_000, HIGHEST_QUANTITY]),
        1 | 2 => random.pick(&[HIGHEST_QUANTITY + 1, u32::MAX, 1 << 31]),
        _ => names::quantity(random),
    }
}

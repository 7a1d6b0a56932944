//! The listing of a small book.

use crate::block::*;
use crate::book::SoundBook;
use crate::identifier::id_text;

/// The listing takes 64 blocks at most.
pub const MOST_BYTES: usize = 64 * BLOCK_BYTES;

/// The text of the listing program. The length is judged before anything else; the two messages
/// end in a newline like every line.
pub fn listing(book: &[u8]) -> Vec<u8> {
    if book.len() > MOST_BYTES {
        return b"too long\n".to_vec();
    }
    let sound = match SoundBook::of(book) {
        None => return b"not sound\n".to_vec(),
        Some(sound) => sound,
    };
    let mut text = b"slot sender series in out differ first partner\n".to_vec();
    for (slot, block) in sound.series() {
        let kept = mark(block);
        text.extend_from_slice(format!("{} ", slot.0).as_bytes());
        for name in [&sound.owner(block), &field(block, ID), &field(block, IN_PARTY), &field(block, OUT_PARTY)] {
            text.extend_from_slice(id_text(name));
            text.push(b' ');
        }
        text.extend_from_slice(format!("{} {} {}\n", kept.differ, kept.first.0, kept.partner.0).as_bytes());
    }
    text
}

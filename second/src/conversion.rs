//! Converting a book of the old layout, in which byte 104 of a series is a state.

use crate::block::*;
use crate::book::SoundBook;
use crate::readings::{plain_marks, plain_nets, NOT_SOUND};
use crate::sound::is_sound_in_old_layout;

/// Writes every mark and every net by the plain rule and changes nothing else. What the old marks and nets
/// said does not matter. A book that is not sound in the old layout stays as it is.
pub fn convert(book: &mut [u8]) -> u8 {
    if !is_sound_in_old_layout(book) {
        return NOT_SOUND;
    }
    // States 1 to 3 are counts that the new layout takes, so the old book can be read like any other.
    let sound = SoundBook::of(book).expect("a book sound in the old layout is sound");
    let (marks, sums) = (plain_marks(&sound), plain_nets(&sound));
    for (slot, mark) in marks {
        let series = block_at_mut(book, usize::from(slot.0));
        put_mark(series, mark);
        seal(series);
    }
    for (slot, nets) in sums {
        let sender = block_at_mut(book, usize::from(slot.0));
        put_nets(sender, &nets);
        seal(sender);
    }
    0
}

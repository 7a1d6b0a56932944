//! What marks, the plain run and conversions show.

use super::{held, Sight};
use crate::block::*;
use crate::book::SoundBook;
use crate::difference::Difference;
use crate::listing::MOST_BYTES;
use crate::old_book::{state_of, BadState};
use crate::readings::{plain_marks, plain_nets};
use crate::sound::{broken_clauses, Layout, SoundClause};

/// Which of the things a book keeps differ from the plain rule, in some series or sender.
#[derive(Default, PartialEq, Eq)]
struct False {
    byte_104: bool,
    first: bool,
    partner: bool,
    net: bool,
}

impl False {
    /// Of a sound book, whose byte 104 is by this layout what it ought to be.
    fn of(book: &SoundBook, layout: Layout) -> Self {
        let mut found = False::default();
        for (slot, truth) in plain_marks(book) {
            let kept = mark(book.block(slot));
            let byte_104 = match layout {
                Layout::Old => state_of(truth),
                Layout::New => truth.differ,
            };
            found.byte_104 |= kept.differ != byte_104;
            found.first |= kept.first != truth.first;
            found.partner |= kept.partner != truth.partner;
        }
        found.net = plain_nets(book).into_iter().any(|(slot, truth)| !nets(book.block(slot)).eq(truth));
        found
    }

    fn number(&self) -> usize {
        [self.byte_104, self.first, self.partner, self.net].iter().filter(|&&one| one).count()
    }
}

/// What a mark that was read shows.
pub fn mark_read(mark: &Mark, book: &[u8]) -> Vec<Sight> {
    let n = block_at(book, 0)[N];
    held(&[
        (*mark == Mark::ALONE, Sight::MarkAlone),
        (mark.differ == 0 && mark.partner.0 != 0, Sight::MarkAgrees),
        ((1..=3).contains(&mark.differ), Sight::Mark1To3),
        (mark.differ > 3 && mark.differ < n, Sight::Mark4Up),
        (mark.differ == n, Sight::MarkAll),
        (mark.differ > 0 && mark.first.0 == 1, Sight::MarkFirst1),
        (mark.differ > 0 && mark.first.0 == u16::from(n), Sight::MarkFirstN),
    ])
}

/// What a plain run that says no found to be false alone.
pub fn plain_says_no(book: &[u8]) -> Vec<Sight> {
    let found = match SoundBook::of(book) {
        None => return Vec::new(),
        Some(sound) => False::of(&sound, Layout::New),
    };
    let alone = found.number() == 1;
    held(&[
        (true, Sight::PlainNo),
        (blocks(book).skip(1).any(|b| b[KIND] == KIND_SERIES && is_external(b)), Sight::PlainNoExternal),
        (alone && found.byte_104, Sight::PlainNoCount),
        (alone && found.first, Sight::PlainNoFirst),
        (alone && found.partner, Sight::PlainNoPartner),
        (alone && found.net, Sight::PlainNoNet),
    ])
}

/// Whether some series of a sound book keeps a count of n.
pub fn keeps_count_of_n(book: &[u8]) -> bool {
    blocks(book).skip(1).any(|block| block[KIND] == KIND_SERIES && block[DIFFER] == block[N])
}

/// In which ways the series of an accepted message differ from their counterparts, each once.
pub fn differences(message: &[u8], book: &[u8]) -> Vec<Difference> {
    let sound = SoundBook::of(book).expect("an acceptance leaves a sound book");
    let own = sound.sender_slot(&field(block_at(message, 0), SENDER)).expect("an accepted sender has a slot");
    let mut seen = Vec::new();
    for (_, series) in sound.series_of(own) {
        let kept = mark(series);
        if kept.partner.0 != 0 {
            let way = Difference::between(series, sound.block(kept.partner), sound.n());
            if !seen.contains(&way) {
                seen.push(way);
            }
        }
    }
    seen
}

/// What a conversion shows, with the book before it and after it.
pub fn conversion(number: u8, before: &[u8], book: &[u8]) -> Vec<Sight> {
    if number != 0 {
        return Vec::new();
    }
    let (old, new) = match (SoundBook::of(before), SoundBook::of(book)) {
        (Some(old), Some(new)) => (old, new),
        _ => return Vec::new(),
    };
    let marks: Vec<Mark> = new.series().map(|(_, series)| mark(series)).collect();
    let any = |of: &dyn Fn(&Mark) -> bool| marks.iter().any(of);
    let (empty, same, n) = (marks.is_empty(), before == book, new.n());
    let found = False::of(&old, Layout::Old);
    held(&[
        (empty, Sight::ConvertedEmpty),
        (!empty && same, Sight::ConvertedUnchanged),
        (!empty && !same && found.number() == 0, Sight::ConvertedTrue),
        (!same && found.byte_104, Sight::ConvertedState),
        (!same && found.first, Sight::ConvertedFirst),
        (!same && found.partner, Sight::ConvertedPartner),
        (!same && found.net, Sight::ConvertedNet),
        (!same && any(&|mark| *mark == Mark::ALONE), Sight::ConvertedAlone),
        (!same && any(&|mark| mark.differ == 0 && mark.partner.0 != 0), Sight::ConvertedAgrees),
        (!same && any(&|mark| (1..=3).contains(&mark.differ)), Sight::Converted1To3),
        (!same && any(&|mark| mark.differ > 3 && mark.differ < n), Sight::Converted4Up),
        (!same && any(&|mark| mark.differ == n), Sight::ConvertedAll),
        (!same && n == 92, Sight::ConvertedN92),
        (!same && n == 96, Sight::ConvertedN96),
        (!same && n == 100, Sight::ConvertedN100),
        (!same && book.len() > MOST_BYTES, Sight::ConvertedLarge),
    ])
}

/// What a refused conversion of a book in the new layout rests on, where nothing is wrong but its counts.
pub fn new_layout_refused(book: &[u8]) -> Vec<Sight> {
    if broken_clauses(book, Layout::New) != 0 {
        return Vec::new();
    }
    let counts = || blocks(book).skip(1).filter(|block| block[KIND] == KIND_SERIES).map(|block| block[DIFFER]);
    let (zero, above) = (counts().any(|count| count == 0), counts().any(|count| count > 3));
    held(&[
        (zero && !above, Sight::ConvertNewZero),
        (above && !zero, Sight::ConvertNewAbove),
        (zero && above, Sight::ConvertNewBoth),
    ])
}

/// The states for which a conversion is refused, each once, where nothing else is wrong.
pub fn bad_states(book: &[u8]) -> Vec<BadState> {
    let mut seen = Vec::new();
    if broken_clauses(book, Layout::Old) == SoundClause::Byte104.bit() {
        for block in blocks(book).skip(1).filter(|block| block[KIND] == KIND_SERIES) {
            seen.extend(BadState::of(block[DIFFER], block[N]).filter(|bad| !seen.contains(bad)));
        }
    }
    seen
}

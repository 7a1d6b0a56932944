//! What settled positions show.

use super::{held, Sight};
use crate::block::*;
use crate::book::SoundBook;
use crate::counts::Position;
use crate::final_case::{last_closed, sides, FinalCase};
use crate::readings::{final_in, plain_run};
use crate::settlement::{pairs, parties, Settled};
use crate::stream::MOST_TEXT_BYTES;

/// One trade of the party that was asked for.
pub struct Share {
    pub buys: bool,
    /// Who filed what of it; nothing where every rule gives 0.
    pub case: Option<FinalCase>,
    pair: (Field, Field),
    value: u32,
}

/// The trades of a party in a sound book, at a closed position.
pub fn shares(book: &[u8], party: &[u8], position: Position) -> Vec<Share> {
    let sound = match SoundBook::of(book) {
        None => return Vec::new(),
        Some(sound) => sound,
    };
    let of_pair = |pair: (Field, Field)| Share {
        buys: pair.1 == *party,
        case: FinalCase::of(sides(book, &pair.0, &pair.1, position)),
        pair,
        value: final_in(&sound, &pair.0, &pair.1, position).1,
    };
    pairs(&sound).into_iter().filter(|pair| pair.0 == *party || pair.1 == *party).map(of_pair).collect()
}

/// What a settled position shows, by the number that answered it.
pub fn asked(party: &[u8], position: u16, number: u8, settled: &Settled, book: &[u8]) -> Vec<Sight> {
    let day = match blocks(book).next() {
        None => return Vec::new(),
        Some(day) => day,
    };
    let n = u16::from(day[N]);
    match number {
        0 => [given(party, Position(position), settled, book), strangers(party, book), place(position, day)].concat(),
        24 => {
            let low_byte = (1..=last_closed(day)).contains(&(position & 255));
            held(&[
                (position == 0, Sight::SettledZeroth),
                (position == n + 1, Sight::SettledNextToN),
                (position > n + 1, Sight::SettledAboveN),
                (position > 255 && low_byte, Sight::SettledLowByte),
            ])
        }
        25 => held(&[
            (position == last_closed(day) + 1, Sight::SettledFirstOpen),
            (position == n, Sight::SettledLastOpen),
        ]),
        _ => held(&[(position == 0 || position > n, Sight::SettledUnsoundNowhere)]),
    }
}

/// Where on the day it was given.
fn place(position: u16, day: &Block) -> Vec<Sight> {
    let n = u16::from(day[N]);
    held(&[
        (position == 1, Sight::SettledFirst),
        (position < n && position == last_closed(day), Sight::SettledLastClosed),
        (position == n, Sight::SettledLast),
    ])
}

/// What the sums of a party rest on.
fn given(party: &[u8], position: Position, settled: &Settled, book: &[u8]) -> Vec<Sight> {
    let shares = shares(book, party, position);
    if shares.is_empty() {
        return Vec::new();
    }
    let (buys, sells) = (shares.iter().any(|one| one.buys), shares.iter().any(|one| !one.buys));
    let something = settled.bought + settled.sold > 0;
    let is_sender = blocks(book).skip(1).any(|block| block[KIND] == KIND_SENDER && field(block, SENDER) == *party);
    let turned = |one: &Share| {
        let back = |other: &Share| other.pair == (one.pair.1, one.pair.0) && other.value > 0;
        one.buys && one.value > 0 && shares.iter().any(back)
    };
    let several = |buys: bool| shares.iter().filter(|one| one.buys == buys && one.value > 0).count() > 2;
    let external = |one: &Share| has_external(book, one.pair, position);
    let truth = plain_run(book).1;
    held(&[
        (settled.bought > 0 && !sells, Sight::SettledOnlyBuys),
        (settled.sold > 0 && !buys, Sight::SettledOnlySells),
        (settled.bought > 0 && settled.sold > 0, Sight::SettledBoth),
        (!something, Sight::SettledNothing),
        (settled.bought > 0 && !is_sender, Sight::SettledNoSender),
        (!something && !is_sender, Sight::SettledNoSenderNothing),
        (shares.iter().any(turned), Sight::SettledTurned),
        (several(true), Sight::SettledSeveralBought),
        (several(false), Sight::SettledSeveralSold),
        (settled.bought.max(settled.sold) > u64::from(HIGHEST_QUANTITY), Sight::SettledAboveOne),
        (shares.iter().any(external), Sight::SettledExternalToo),
        (something && truth, Sight::SettledTrueMarks),
        (something && !truth, Sight::SettledFalseMarks),
        (settled.bought.max(settled.sold) > u64::from(u32::MAX), Sight::SettledAbove32Bits),
    ])
}

/// Whether an external schedule has this pair too, with something at the position.
fn has_external(book: &[u8], (out_party, in_party): (Field, Field), position: Position) -> bool {
    let external = |block: &Block| block[KIND] == KIND_SERIES && is_external(block);
    let such = |block: &Block| external(block) && pair(block) == (in_party, out_party) && quantity(block, position) > 0;
    blocks(book).skip(1).any(such)
}

/// What a name shows that is no party's.
fn strangers(name: &[u8], book: &[u8]) -> Vec<Sight> {
    let known = SoundBook::of(book).map(|sound| parties(&sound)).unwrap_or_default();
    if known.iter().any(|party| name == *party) {
        return Vec::new();
    }
    let differs_once = |party: &Field| party.iter().zip(name).filter(|(one, other)| one != other).count() == 1;
    let names_it = |block: &Block, at: usize| field(block, at) == *name;
    let in_external = |block: &Block| {
        let external = block[KIND] == KIND_SERIES && is_external(block);
        external && (names_it(block, IN_PARTY) || names_it(block, OUT_PARTY))
    };
    let holds = |block: &Block| block[KIND] == KIND_RIGHT && names_it(block, HOLDER);
    held(&[
        (known.is_empty(), Sight::SettledNoTrades),
        (name.len() == 16, Sight::StrangerCode),
        (name.len() == 16 && known.iter().any(differs_once), Sight::StrangerNear),
        (name == [0; 16], Sight::StrangerZeros),
        (blocks(book).skip(1).any(in_external), Sight::StrangerExternal),
        (blocks(book).skip(1).any(holds), Sight::StrangerHolder),
        (name.len() == 15 && known.iter().any(|party| party.starts_with(name)), Sight::StrangerShort),
        (name.len() == 17 && known.iter().any(|party| name.starts_with(party)), Sight::StrangerLong),
        (name.len() == MOST_TEXT_BYTES, Sight::StrangerLongest),
        (name.is_empty(), Sight::StrangerEmpty),
    ])
}

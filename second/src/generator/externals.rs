//! External schedules in the cases that no message comes to by chance: limits met and passed, rights that are nearly
//! the series' own, and keys that differ in one part alone.

use super::{senders_of, Generator};
use crate::block::*;
use crate::counts::{Position, Slot, DAY_START, LATEST_MINUTE};
use crate::crafted::{reordered, sealed};
use crate::draft::{Draft, Growth, New, Version};
use crate::external::{self, foreign_area, other_agreement, KeyPart, RightPart};
use crate::final_case::last_closed;
use crate::listing;
use crate::names;
use crate::random::Random;
use crate::right::{but_for_limits, names as names_right};
use crate::sound::{is_sound, MOST_BLOCKS};
use crate::stream::Record;
use crate::submission::submit;
use crate::versions::kept_version;

/// What is to be shown of external schedules.
#[derive(Clone, Copy, Debug, PartialEq, Eq)]
pub(super) enum ExternalTurn {
    /// So many series on one right meet its limit at a position.
    Met(usize),
    /// So many series pass it by one at a position, the last of them.
    Passed(usize),
    /// Two rights, the limit of each met.
    TwoRights,
    /// Another's right, else the same, has a lower limit, or a higher one.
    OthersLimit {
        lower: bool,
    },
    /// A kept series and a new one meet a limit, or pass it by this.
    KeptAndNew(u32),
    /// A kept series above a limit at a closed position.
    ClosedAbove,
    /// A series without capacity that has an agreement, or a contract type.
    NeedlessCapacity {
        agreement: bool,
    },
    /// The series breaks this rule beside 18, or 19.
    Beside {
        rule: u8,
        above: bool,
    },
    /// The right is another's.
    OthersRight,
    /// The sender's right differs in this.
    Lacks(RightPart),
    NoRight,
    /// A kept id has another key, which differs in this part alone.
    Kept {
        external: bool,
        part: KeyPart,
    },
    /// Two series have keys that differ in this part alone.
    Apart {
        external: bool,
        part: KeyPart,
    },
    /// A kept internal trade becomes an external schedule, after positions have closed.
    TradeTurned,
    /// Another's external schedule has the pair of an internal trade, or the other way about.
    PairOfAnother {
        trade: bool,
    },
}

impl ExternalTurn {
    /// One round of them.
    pub(super) fn all() -> Vec<ExternalTurn> {
        use ExternalTurn::*;
        let of_parts = |of_part: fn(bool, KeyPart) -> ExternalTurn| {
            let parts = KeyPart::ALL.iter();
            parts.flat_map(move |&part| [of_part(false, part), of_part(true, part)])
        };
        let kept = of_parts(|external, part| Kept { external, part });
        let apart = of_parts(|external, part| Apart { external, part });
        // An internal trade whose key differs from another's in a party alone is any other trade.
        let apart =
            apart.filter(|turn| !matches!(turn, Apart { external: false, part: KeyPart::InParty | KeyPart::OutParty }));
        let lacks = RightPart::ALL.iter().filter(|&&part| part != RightPart::Holder).map(|&part| Lacks(part));
        let others = [
            Met(1),
            Met(2),
            Met(3),
            Passed(1),
            Passed(2),
            Passed(3),
            Passed(3),
            TwoRights,
            OthersLimit { lower: true },
            OthersLimit { lower: false },
            KeptAndNew(0),
            KeptAndNew(1),
            ClosedAbove,
            OthersRight,
            NoRight,
            NeedlessCapacity { agreement: true },
            NeedlessCapacity { agreement: false },
            Beside { rule: 12, above: false },
            Beside { rule: 14, above: false },
            Beside { rule: 12, above: true },
            Beside { rule: 14, above: true },
            Beside { rule: 14, above: true },
            Beside { rule: 14, above: true },
            TradeTurned,
            PairOfAnother { trade: true },
            PairOfAnother { trade: false },
        ];
        kept.chain(apart).chain(lacks).chain(others).collect()
    }

    /// A book, mostly this one with a few blocks more, and a message that shows it. Nothing if the book lacks what is
    /// needed.
    fn made(self, random: &mut Random, book: &[u8], partners: &[Field]) -> Option<(Vec<u8>, Vec<u8>)> {
        let mut early = book.to_vec();
        if random.percent(35) {
            // All positions are open.
            put_u16(block_at_mut(&mut early, 0), CLOCK, 0);
            seal(block_at_mut(&mut early, 0));
        }
        let book = &early;
        let sender = some_sender(random, book, partners)?;
        let stage = Stage { book, sender, partners };
        let (staged, draft) = match self {
            ExternalTurn::Met(series) => stage.at_limit(random, series, 0)?,
            ExternalTurn::Passed(series) => stage.at_limit(random, series, 1)?,
            ExternalTurn::TwoRights => stage.two_rights(random)?,
            ExternalTurn::OthersLimit { lower } => stage.others_limit(random, lower)?,
            ExternalTurn::KeptAndNew(more) => stage.kept_and_new(random, more)?,
            ExternalTurn::ClosedAbove => stage.closed_above(random)?,
            ExternalTurn::NeedlessCapacity { agreement } => stage.needless_capacity(random, agreement)?,
            ExternalTurn::Beside { rule, above } => stage.beside(random, rule, above)?,
            ExternalTurn::OthersRight => stage.without_right(random, RightPart::Holder)?,
            ExternalTurn::Lacks(part) => stage.without_right(random, part)?,
            ExternalTurn::NoRight => stage.with_no_right(random)?,
            ExternalTurn::Kept { external, part } => stage.kept(random, external, part)?,
            ExternalTurn::Apart { external, part } => stage.apart(random, external, part)?,
            ExternalTurn::TradeTurned => stage.trade_turned(random)?,
            ExternalTurn::PairOfAnother { trade } => stage.pair_of_another(random, trade)?,
        };
        let message = draft.finished(random, &[]);
        Some((staged, message))
    }
}

/// A sender that may still file; if it is new, there is need of one slot more.
fn some_sender(random: &mut Random, book: &[u8], partners: &[Field]) -> Option<Field> {
    let candidates = [senders_of(book), partners.to_vec()].concat();
    let may_file = |sender: &Field| kept_version(book, sender) != Some(HIGHEST_VERSION);
    (0..8).map(|_| random.pick(&candidates)).find(may_file)
}

/// So many parts of a sum, the last of which is at least this and the first at least 1 if there are several.
fn parts(random: &mut Random, sum: u32, count: usize, last: u32) -> Vec<u32> {
    let mut ends: Vec<u32> = (1..count).map(|_| random.between(1, (sum - last) as usize) as u32).collect();
    ends.push(sum);
    ends.sort_unstable();
    let starts = std::iter::once(0).chain(ends.iter().copied());
    starts.zip(&ends).map(|(start, end)| end - start).collect()
}

/// Whether this is the right that a series of this sender is on.
fn is_right_for(right: &Block, series: &Block, sender: &Field) -> bool {
    right[KIND] == KIND_RIGHT && field(right, HOLDER) == *sender && names_right(series, right)
}

/// The sender of a series in a sound book.
fn owner_in(list: &[Block], series: &Block) -> Field {
    field(&list[usize::from(u16_at(series, SENDER_SLOT))], SENDER)
}

/// A sound book, and who files in it.
struct Stage<'book> {
    book: &'book [u8],
    sender: Field,
    partners: &'book [Field],
}

type Staged = Option<(Vec<u8>, Draft)>;

impl Stage<'_> {
    fn day(&self) -> &Block {
        block_at(self.book, 0)
    }

    fn right(&self, random: &mut Random) -> Block {
        external::right(random, self.day(), &self.sender, self.partners)
    }

    /// The book with these rights and so many free slots for a message. In half of the small ones the blocks stand in
    /// another order.
    fn with_rights(&self, random: &mut Random, rights: &[Block], room: usize) -> Option<Vec<u8>> {
        let mut list: Vec<Block> = blocks(self.book).filter(|block| block[KIND] != 0).copied().collect();
        let stored = |right: &Block| list.iter().any(|block| but_for_limits(block) == but_for_limits(right));
        if rights.iter().any(stored) {
            return None;
        }
        list.extend(rights);
        let used = list.len() - 1;
        let length = (used + 1 + room).max(self.book.len() / BLOCK_BYTES);
        if length > MOST_BLOCKS {
            return None;
        }
        list.resize(length, [0; BLOCK_BYTES]);
        let staged = sealed(list);
        let mut order: Vec<Slot> = (1..=used as u16).map(Slot).collect();
        if staged.len() > listing::MOST_BYTES || random.percent(50) {
            return Some(staged);
        }
        random.shuffle(&mut order);
        Some(reordered(&staged, &order))
    }

    /// A lawful message, with a few internal trades that are new. A new sender needs a series.
    fn draft(&self, random: &mut Random, staged: &[u8], new: usize) -> Draft {
        let growth = Growth { new: New::UpTo(new), changed: 35, side: None, external: 0, version: Version::Lawful };
        Draft::lawful(random, staged, self.sender, self.partners, &growth)
    }

    /// Some open position of the day, often the first or the last.
    fn open_position(&self, random: &mut Random) -> Option<u16> {
        let (first, n) = (last_closed(self.day()) + 1, u16::from(self.day()[N]));
        if first > n {
            return None;
        }
        let any = random.between(usize::from(first), usize::from(n)) as u16;
        Some(random.pick(&[first, n, any, any]))
    }

    /// So many series whose sum at one position is the limit of their right, and so much more. What they claim at the
    /// others stays within it.
    fn at_limit(&self, random: &mut Random, series: usize, more: u32) -> Staged {
        let position = Position(self.open_position(random)?);
        let mut right = self.right(random);
        let any = random.between(0, HIGHEST_QUANTITY as usize) as u32;
        let limit = random.pick(&[0, 0, 0, 1, 45_000, HIGHEST_QUANTITY, any, any]);
        let fewest = if series > 1 { 9 } else { 0 };
        let limit = limit.clamp(fewest, HIGHEST_QUANTITY - more);
        put_quantity(&mut right, position, limit);
        let staged = self.with_rights(random, &[right], series + 3)?;
        let mut draft = self.draft(random, &staged, 1);
        let share = if random.percent(30) { u32::MAX } else { series as u32 };
        for part in parts(random, limit + more, series, more) {
            let value = |open| if open == position { part } else { quantity(&right, open) / share };
            draft.claim(random, &right, self.partners, value)?;
        }
        Some((staged, draft))
    }

    /// A series on each of two rights that differ in one part alone, both limits met. Taken together they are above
    /// either.
    fn two_rights(&self, random: &mut Random) -> Staged {
        let right = self.right(random);
        let parts = [RightPart::ContractType, RightPart::Agreement, RightPart::OtherArea, RightPart::Direction];
        let other = random.pick(&parts).altered(random, &right, &field(self.day(), AREA));
        let staged = self.with_rights(random, &[right, other], 5)?;
        let mut draft = self.draft(random, &staged, 1);
        for right in [right, other] {
            draft.claim(random, &right, self.partners, |open| quantity(&right, open))?;
        }
        Some((staged, draft))
    }

    /// The sender's right, and another's that is the same but for its limit.
    fn others_limit(&self, random: &mut Random, lower: bool) -> Staged {
        let position = Position(self.open_position(random)?);
        let mut right = self.right(random);
        let limit = random.between(1, HIGHEST_QUANTITY as usize - 1) as u32;
        put_quantity(&mut right, position, limit);
        let mut other = right;
        let holder = self.partners.iter().copied().find(|partner| *partner != self.sender);
        external::put_holder(
            &mut other,
            &holder.filter(|_| random.percent(70)).unwrap_or_else(|| names::valid_eic(random)),
        );
        put_quantity(&mut other, position, if lower { limit - 1 } else { HIGHEST_QUANTITY });
        let staged = self.with_rights(random, &[right, other], 4)?;
        let mut draft = self.draft(random, &staged, 1);
        let claimed = limit + u32::from(!lower);
        draft.claim(random, &right, self.partners, |open| if open == position { claimed } else { 0 })?;
        Some((staged, draft))
    }

    /// A right that its holder has a series on, what is left of it at a position claimed by a new one, and so much more.
    fn kept_and_new(&self, random: &mut Random, more: u32) -> Staged {
        let position = Position(self.open_position(random)?);
        let (series, holder) = self.some_claim(random)?;
        let staged = self.with_rights(random, &[], 4)?;
        let mut list: Vec<Block> = blocks(&staged).copied().collect();
        let on_right = |block: &&Block| {
            let with_capacity = block[KIND] == KIND_SERIES && block[BUSINESS_TYPE] == WITH_CAPACITY;
            with_capacity && names_right(block, &series) && owner_in(&list, block) == holder
        };
        let kept: u32 = list.iter().filter(on_right).map(|block| quantity(block, position)).sum();
        let limit = (kept + random.pick(&[0, 1, 5_000])).min(HIGHEST_QUANTITY);
        let claimed = limit.checked_sub(kept)? + more;
        put_quantity(list.iter_mut().find(|right| is_right_for(right, &series, &holder))?, position, limit);
        let staged = sealed(list);
        let growth = Growth { new: New::Exactly(0), changed: 0, side: None, external: 0, version: Version::Lawful };
        let mut draft = Draft::lawful(random, &staged, holder, self.partners, &growth);
        draft.claim(random, &series, self.partners, |open| if open == position { claimed } else { 0 })?;
        Some((staged, draft))
    }

    /// A series on a right that its sender holds, and who that is. The sender may still file.
    fn some_claim(&self, random: &mut Random) -> Option<(Block, Field)> {
        let list: Vec<Block> = blocks(self.book).copied().collect();
        let claims: Vec<(Block, Field)> = list
            .iter()
            .filter(|block| block[KIND] == KIND_SERIES && block[BUSINESS_TYPE] == WITH_CAPACITY)
            .map(|series| (*series, owner_in(&list, series)))
            .filter(|(series, holder)| list.iter().any(|right| is_right_for(right, series, holder)))
            .filter(|(_, holder)| kept_version(self.book, holder) != Some(HIGHEST_VERSION))
            .collect();
        (!claims.is_empty()).then(|| random.pick(&claims))
    }

    /// A new series without capacity that has one of the capacity fields, often as a right of the sender has it.
    fn needless_capacity(&self, random: &mut Random, agreement: bool) -> Staged {
        let right = self.right(random);
        let staged = self.with_rights(random, &[right], 4)?;
        let mut draft = self.draft(random, &staged, 1);
        let place = draft.claim(random, &right, self.partners, |_| 0)?;
        let series = &mut draft.blocks[place];
        series[BUSINESS_TYPE] = WITHOUT_CAPACITY;
        if agreement {
            series[CONTRACT_TYPE] = 0;
        } else {
            put_field(series, AGREEMENT, &[0; 16]);
        }
        Some((staged, draft))
    }

    /// A new series that breaks a rule, and has no right or is above its limit.
    fn beside(&self, random: &mut Random, rule: u8, above: bool) -> Staged {
        let right = self.right(random);
        let closed = if rule == 14 { self.with_closed(random)? } else { self.book.to_vec() };
        let stage = Stage { book: &closed, ..*self };
        let rights = [right];
        let staged = stage.with_rights(random, if above { &rights } else { &[] }, 4)?;
        let mut draft = stage.draft(random, &staged, 1);
        let place = draft.claim(random, &right, self.partners, |_| 0)?;
        if above {
            draft.break_rule(random, 19, place);
        }
        draft.break_rule(random, rule, place);
        Some((staged, draft))
    }

    /// The book with some positions closed and some open.
    fn with_closed(&self, random: &mut Random) -> Option<Vec<u8>> {
        let mut book = self.book.to_vec();
        let day = block_at_mut(&mut book, 0);
        if last_closed(day) == 0 {
            let minute = (DAY_START + 15 * random.below(60) as u16 + 1).saturating_sub(u16_at(day, LEAD));
            put_u16(day, CLOCK, minute.clamp(u16_at(day, CLOCK), LATEST_MINUTE));
            seal(day);
        }
        let closed = last_closed(block_at(&book, 0));
        (closed > 0 && closed < u16::from(self.day()[N])).then_some(book)
    }

    /// A right whose limit is lower at a closed position than what its holder filed.
    fn closed_above(&self, random: &mut Random) -> Staged {
        let mut list: Vec<Block> = blocks(&self.with_closed(random)?).copied().collect();
        let last = usize::from(last_closed(&list[0]));
        let (series, holder) = self.some_claim(random)?;
        let position = (0..20).map(|_| Position(random.between(1, last) as u16)).find(|&p| quantity(&series, p) > 0)?;
        let right = list.iter_mut().find(|right| is_right_for(right, &series, &holder))?;
        put_quantity(right, position, quantity(&series, position) - 1);
        let staged = sealed(list);
        let draft = Stage { sender: holder, ..*self }.draft(random, &staged, 0);
        Some((staged, draft))
    }

    /// A series whose right the sender lacks: the one in the book differs in this part alone.
    fn without_right(&self, random: &mut Random, part: RightPart) -> Staged {
        let wanted = self.right(random);
        let mut other = part.altered(random, &wanted, &field(self.day(), AREA));
        if part == RightPart::Holder && random.percent(70) {
            let holder = random.pick(self.partners);
            if holder != self.sender {
                external::put_holder(&mut other, &holder);
            }
        }
        let staged = self.with_rights(random, &[other], 4)?;
        let mut draft = self.draft(random, &staged, 1);
        let zero = random.percent(50);
        draft.claim(random, &wanted, self.partners, |open| if zero { 0 } else { quantity(&wanted, open) })?;
        Some((staged, draft))
    }

    /// The sender has no right at all, or none that is near.
    fn with_no_right(&self, random: &mut Random) -> Staged {
        let wanted = self.right(random);
        let staged = self.with_rights(random, &[], 4)?;
        let mut draft = self.draft(random, &staged, 1);
        let zero = random.percent(50);
        draft.claim(random, &wanted, self.partners, |open| if zero { 0 } else { quantity(&wanted, open) })?;
        Some((staged, draft))
    }

    /// A kept series whose key is altered in one part.
    fn kept(&self, random: &mut Random, external: bool, part: KeyPart) -> Staged {
        let staged = self.book.to_vec();
        let mut draft = self.draft(random, &staged, 1);
        let mut places = draft.stored_places();
        places.retain(|&place| is_external(&draft.blocks[place]) == external);
        if places.is_empty() {
            return None;
        }
        let place = random.pick(&places);
        let to = self.altered(random, &draft.blocks[place], part);
        draft.blocks[place][part.bytes()].copy_from_slice(&to);
        Some((staged, draft))
    }

    /// Another value for a part of a key.
    fn altered(&self, random: &mut Random, series: &Block, part: KeyPart) -> Vec<u8> {
        let kept = series[part.bytes()].to_vec();
        loop {
            let to = match part {
                KeyPart::BusinessType => vec![random.pick(&[INTERNAL_TRADE, WITH_CAPACITY, WITHOUT_CAPACITY])],
                KeyPart::ContractType => vec![random.pick(&[0, 1, 2, 99, 100])],
                KeyPart::InArea | KeyPart::OutArea => {
                    let area = field(self.day(), AREA);
                    let other = foreign_area(random, &area, self.partners);
                    random.pick(&[other, other, area]).to_vec()
                }
                KeyPart::InParty | KeyPart::OutParty => {
                    let (any, new) = (random.pick(self.partners), names::valid_eic(random));
                    random.pick(&[any, self.sender, new]).to_vec()
                }
                KeyPart::Agreement if random.percent(20) => vec![0; 16],
                KeyPart::Agreement => other_agreement(random, series).to_vec(),
            };
            if to != kept {
                return to;
            }
        }
    }

    /// Two series that are told apart by one part of their keys. Where it can be, both are lawful.
    fn apart(&self, random: &mut Random, external: bool, part: KeyPart) -> Staged {
        let area = field(self.day(), AREA);
        if !external {
            let staged = self.with_rights(random, &[], 4)?;
            let mut draft = self.draft(random, &staged, 1);
            let place = draft.any_place(random);
            if !is_internal(&draft.blocks[place]) {
                return None;
            }
            let to = self.altered(random, &draft.blocks[place], part);
            draft.twin(random, place, part, &to)?;
            return Some((staged, draft));
        }
        // Both rights of two series that are on one each.
        let right = self.right(random);
        let other = match part {
            KeyPart::ContractType => RightPart::ContractType.altered(random, &right, &area),
            KeyPart::Agreement => RightPart::Agreement.altered(random, &right, &area),
            _ => RightPart::OtherArea.altered(random, &right, &area),
        };
        let staged = self.with_rights(random, &[right, other], 5)?;
        let mut draft = self.draft(random, &staged, 1);
        let place = draft.claim(random, &right, self.partners, |open| quantity(&right, open) / 2)?;
        if matches!(part, KeyPart::InArea | KeyPart::OutArea | KeyPart::InParty | KeyPart::OutParty)
            && random.percent(50)
        {
            // The same without capacity.
            let series = &mut draft.blocks[place];
            series[BUSINESS_TYPE] = WITHOUT_CAPACITY;
            series[CONTRACT_TYPE] = 0;
            put_field(series, AGREEMENT, &[0; 16]);
        }
        let to = match part {
            KeyPart::ContractType | KeyPart::Agreement => other[part.bytes()].to_vec(),
            KeyPart::InArea | KeyPart::OutArea => {
                // The area that is not the book's is another, as in the other right.
                let at = part.bytes().start;
                if field(&right, at) == area {
                    external::turn_round(&mut draft.blocks[place]);
                    names::valid_eic(random).to_vec()
                } else {
                    field(&other, at).to_vec()
                }
            }
            KeyPart::InParty | KeyPart::OutParty => {
                let (other_party, at) = match part {
                    KeyPart::InParty => (OUT_PARTY, IN_PARTY),
                    _ => (IN_PARTY, OUT_PARTY),
                };
                // The sender is the party that stays, so that the other may be anyone.
                put_field(&mut draft.blocks[place], other_party, &self.sender);
                let kept = field(&draft.blocks[place], at);
                let (any, new) = (random.pick(self.partners), names::valid_eic(random));
                let party = random.pick(&[any, self.sender, new]);
                (if party == kept { new } else { party }).to_vec()
            }
            KeyPart::BusinessType => self.altered(random, &draft.blocks[place], part),
        };
        draft.twin(random, place, part, &to)?;
        Some((staged, draft))
    }

    /// A kept trade of which a position is closed, in its place a lawful external schedule with the same quantities.
    fn trade_turned(&self, random: &mut Random) -> Staged {
        let staged = self.with_closed(random)?;
        let mut draft = self.draft(random, &staged, 0);
        let mut places = draft.stored_places();
        let closed = usize::from(last_closed(block_at(&staged, 0)));
        places.retain(|&place| {
            let series = &draft.blocks[place];
            is_internal(series) && quantities(series).take(closed).any(|value| value > 0)
        });
        if places.is_empty() {
            return None;
        }
        let area = field(self.day(), AREA);
        let series = &mut draft.blocks[random.pick(&places)];
        series[BUSINESS_TYPE] = WITHOUT_CAPACITY;
        let other = foreign_area(random, &area, self.partners);
        external::put_areas(random, series, &area, &other);
        Some((staged, draft))
    }

    /// A message with an internal trade, and another's external schedule has its pair; or the other way about.
    fn pair_of_another(&self, random: &mut Random, trade: bool) -> Staged {
        let list: Vec<&Block> = blocks(self.book).collect();
        let owner = |series: &Block| field(list[usize::from(u16_at(series, SENDER_SLOT))], SENDER);
        let mut found: Vec<(Field, &Block)> = Vec::new();
        for &series in list.iter().skip(1).filter(|block| block[KIND] == KIND_SERIES && is_external(block) == trade) {
            let (in_party, out_party) = pair(series);
            let others = [in_party, out_party].into_iter().filter(|party| *party != owner(series));
            others.filter(|party| kept_version(self.book, party) != Some(HIGHEST_VERSION)).for_each(|party| {
                found.push((party, series));
            });
        }
        if found.is_empty() {
            return None;
        }
        let (sender, theirs) = random.pick(&found);
        let stage = Stage { sender, ..*self };
        let staged = stage.with_rights(random, &[], 4)?;
        let mut draft = stage.draft(random, &staged, 1);
        let place = draft.new_trade(random, self.partners);
        let (in_party, out_party) = pair(theirs);
        let area = field(self.day(), AREA);
        let mut series = draft.blocks[place];
        put_field(&mut series, IN_PARTY, &in_party);
        put_field(&mut series, OUT_PARTY, &out_party);
        if !trade {
            series[BUSINESS_TYPE] = WITHOUT_CAPACITY;
            let other = foreign_area(random, &area, self.partners);
            external::put_areas(random, &mut series, &area, &other);
        }
        let twice = (1..draft.blocks.len()).any(|other| key(&draft.blocks[other]) == key(&series));
        draft.blocks[place] = series;
        (!twice).then_some((staged, draft))
    }
}

impl Generator {
    /// External schedules in the way that is next in turn. The book is mostly put back.
    pub(super) fn external(&mut self, book: &[u8]) {
        if !is_sound(book) {
            return;
        }
        let partners = &self.partners;
        let dealt = self.externals.deal_serving(&mut self.random, |random, turn| turn.made(random, book, partners));
        if let Some((_, (mut staged, message))) = dealt {
            self.set_book(book, &staged);
            if self.random.percent(8) {
                self.judge_and_show(message.clone());
            }
            self.queue.push_back(Record::Submit(message.clone()));
            let accepted = submit(&mut staged, &message).0.broken.is_none();
            self.show_after(accepted && staged.len() <= listing::MOST_BYTES);
            if self.random.percent(70) {
                self.set_book(&staged, book);
            }
        }
    }
}

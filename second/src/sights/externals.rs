//! What external schedules and rights show.

use super::{held, Sight};
use crate::block::*;
use crate::book::SoundBook;
use crate::counts::{Position, Slot};
use crate::external::{KeyPart, RightFault, RightPart};
use crate::final_case::last_closed;
use crate::message::{self, MessageClause};
use crate::right::{self, direction, named_among, names, Direction};
use crate::sound::NS;
use crate::submission::{Broken, Verdict};

/// The series of a message that one sender files, beside what the book keeps of it.
struct Filed<'book> {
    book: SoundBook<'book>,
    sender: Field,
    series: Vec<&'book Block>,
    kept: Vec<(Slot, &'book Block)>,
    rights: Vec<(Slot, &'book Block)>,
}

impl<'book> Filed<'book> {
    /// Of a message whose form is right, and a book that is sound.
    fn of(message: &'book [u8], book: &'book [u8]) -> Option<Self> {
        let book = SoundBook::of(book)?;
        let sender = field(block_at(message, 0), SENDER);
        let kept = book.sender_slot(&sender).map_or_else(Vec::new, |slot| book.series_of(slot).collect());
        let rights = book.rights_of(&sender);
        Some(Filed { book, sender, series: blocks(message).skip(1).collect(), kept, rights })
    }

    fn any(&self, such: impl Fn(&Block) -> bool) -> bool {
        self.series.iter().any(|series| such(series))
    }

    fn kept_as(&self, id: &Field) -> Option<&'book Block> {
        self.kept.iter().map(|(_, block)| *block).find(|block| field(block, ID) == *id)
    }

    /// The right that a series is on.
    fn right_of(&self, series: &Block) -> Option<&'book Block> {
        let named = named_among(series, &self.rights).filter(|_| series[BUSINESS_TYPE] == WITH_CAPACITY);
        named.map(|(_, right)| right)
    }

    /// The series of the message up to this number that are on a right.
    fn on(&self, right: &Block, upto: usize) -> Vec<&'book Block> {
        let claims = self.series.iter().take(upto).copied();
        claims.filter(|series| series[BUSINESS_TYPE] == WITH_CAPACITY && names(series, right)).collect()
    }

    fn positions(&self) -> impl Iterator<Item = Position> {
        (1..=u16::from(self.book.n())).map(Position)
    }

    /// Rights of others that the series might name, were they the sender's.
    fn of_others(&self, series: &Block) -> Vec<&'book Block> {
        let others = self.book.rights().map(|(_, right)| right);
        others.filter(|right| field(*right, HOLDER) != self.sender && names(series, right)).collect()
    }
}

/// What an acceptance shows, with the book before it and after it.
pub fn acceptance(message: &[u8], before: &[u8], book: &[u8]) -> Vec<Sight> {
    let (filed, after) = match (Filed::of(message, before), SoundBook::of(book)) {
        (Some(filed), Some(after)) => (filed, after),
        _ => return Vec::new(),
    };
    let of_type = |business_type: u8| filed.any(|series| series[BUSINESS_TYPE] == business_type);
    let others = |such: &dyn Fn(&Block) -> bool| {
        after.series().any(|(_, block)| after.owner(block) != filed.sender && such(block))
    };
    let alone =
        |series: &Block| is_internal(series) && !others(&|other| is_internal(other) && pair(other) == pair(series));
    let of_external = |series: &Block| others(&|other| is_external(other) && pair(other) == pair(series));
    let paired =
        |series: &Block| is_external(series) && others(&|other| is_internal(other) && pair(other) == pair(series));
    let shared = |one: &Block, other: &Block| is_internal(one) && is_external(other) && pair(one) == pair(other);
    let was_false = |series: &Block| {
        is_external(series) && filed.kept_as(&field(series, ID)).map_or(false, |kept| mark(kept) != Mark::ALONE)
    };
    let own = after.sender_slot(&filed.sender).map_or(0, |slot| slot.0);
    let mut seen = held(&[
        (of_type(2) && of_type(3) && of_type(6), Sight::MixedTypes),
        (!of_type(2), Sight::ExternalsAlone),
        (filed.any(|one| filed.any(|other| shared(one, other))), Sight::SharedPair),
        (filed.any(|series| alone(series) && of_external(series)), Sight::AnothersExternal),
        (filed.any(paired), Sight::AnothersTrade),
        (filed.any(was_false), Sight::ExternalMarkFalse),
        (after.rights().any(|(slot, _)| slot.0 < own), Sight::RightBelowSender),
        (after.rights().any(|(slot, _)| slot.0 > own), Sight::RightAboveSender),
        (filed.any(|series| above_others(&filed, series)), Sight::AboveOthersLimit),
        (filed.any(|series| above_with_others(&filed, series)), Sight::SeveralRights),
        (filed.any(|series| kept_on_right(&filed, series)), Sight::KeptOnRight),
    ]);
    for series in filed.series.iter().filter(|series| is_external(series)) {
        seen.push(side(&filed, series));
    }
    for (_, right) in &filed.rights {
        let claims = filed.on(right, filed.series.len());
        let met = |position: &Position| {
            let sum: u32 = claims.iter().map(|series| quantity(series, *position)).sum();
            sum > 0 && sum == quantity(right, *position)
        };
        let several = claims.iter().filter(|series| quantities(series).any(|value| value > 0)).count() > 1;
        if filed.positions().any(|position| met(&position)) {
            seen.push(if several { Sight::SumMet } else { Sight::LimitMet });
        }
    }
    seen.sort_unstable_by_key(|sight| *sight as usize);
    seen.dedup();
    [seen, keys_apart(&filed, filed.series.len())].concat()
}

/// Which area is ours, and which party the sender.
fn side(filed: &Filed, series: &Block) -> Sight {
    use Sight::*;
    let comes_in = field(series, IN_AREA) == filed.book.area();
    let parties = (field(series, IN_PARTY) == filed.sender, field(series, OUT_PARTY) == filed.sender);
    match (series[BUSINESS_TYPE], comes_in, parties) {
        (WITH_CAPACITY, true, (true, true)) => CapacityInBoth,
        (WITH_CAPACITY, true, (true, _)) => CapacityInBuyer,
        (WITH_CAPACITY, true, _) => CapacityInSeller,
        (WITH_CAPACITY, false, (true, true)) => CapacityOutBoth,
        (WITH_CAPACITY, false, (true, _)) => CapacityOutBuyer,
        (WITH_CAPACITY, false, _) => CapacityOutSeller,
        (_, true, (true, true)) => PlainInBoth,
        (_, true, (true, _)) => PlainInBuyer,
        (_, true, _) => PlainInSeller,
        (_, false, (true, true)) => PlainOutBoth,
        (_, false, (true, _)) => PlainOutBuyer,
        (_, false, _) => PlainOutSeller,
    }
}

/// Whether a series claims more than another's right allows that is the same but for its holder.
fn above_others(filed: &Filed, series: &Block) -> bool {
    let above = |right: &Block| filed.positions().any(|p| quantity(series, p) > quantity(right, p));
    filed.right_of(series).is_some() && filed.of_others(series).into_iter().any(above)
}

/// Whether a series and those on the sender's other rights claim together more than its right allows.
fn above_with_others(filed: &Filed, series: &Block) -> bool {
    let right = match filed.right_of(series) {
        None => return false,
        Some(right) => right,
    };
    let claims = || filed.series.iter().filter(|series| filed.right_of(series).is_some());
    filed.positions().any(|p| claims().map(|series| quantity(series, p)).sum::<u32>() > quantity(right, p))
}

/// Whether a kept series and a new one are on one right.
fn kept_on_right(filed: &Filed, series: &Block) -> bool {
    let is_kept = |series: &Block| filed.kept_as(&field(series, ID)).is_some();
    let right = filed.right_of(series).filter(|_| is_kept(series));
    right.map_or(false, |right| filed.on(right, filed.series.len()).into_iter().any(|other| !is_kept(other)))
}

/// The parts in which alone keys of a message's first series differ, from each other or from a kept one's.
fn keys_apart(filed: &Filed, upto: usize) -> Vec<Sight> {
    use Sight::*;
    let list: Vec<&Block> = filed.series.iter().take(upto).copied().collect();
    let external = |one: &Block, other: &Block| is_external(one) || is_external(other);
    let mut seen = Vec::new();
    // A message of many series shows nothing that one of few does not.
    for (place, one) in list.iter().enumerate().take(40) {
        for other in list.iter().skip(place + 1).take(40).filter(|other| external(one, other)) {
            seen.extend(KeyPart::alone(one, other).map(|part| match part {
                KeyPart::BusinessType => ApartType,
                KeyPart::ContractType => ApartContract,
                KeyPart::InArea => ApartInArea,
                KeyPart::OutArea => ApartOutArea,
                KeyPart::InParty => ApartInParty,
                KeyPart::OutParty => ApartOutParty,
                KeyPart::Agreement => ApartAgreement,
            }));
        }
    }
    seen.sort_unstable_by_key(|sight| *sight as usize);
    seen.dedup();
    seen
}

/// What a refusal at a series shows, beside the clause that decided.
pub fn refusal(message: &[u8], verdict: &Verdict, broken: Broken, book: &[u8]) -> Vec<Sight> {
    if verdict.series == 0 {
        let form = (broken == Broken::MessageForm).then(|| message::broken_clauses(message));
        let kind = form == Some(MessageClause::LaterKind.bit());
        let of_right = kind && blocks(message).skip(1).any(|block| block[KIND] == KIND_RIGHT);
        return held(&[(of_right, Sight::KindOfRight)]);
    }
    let filed = match Filed::of(message, book) {
        Some(filed) => filed,
        None => return Vec::new(),
    };
    let number = usize::from(verdict.series);
    let series = filed.series[number - 1];
    let mut seen = match broken {
        Broken::SeriesIdStored => id_kept(&filed, series),
        Broken::NoRight => no_right(&filed, series),
        Broken::AboveLimit => above_limit(&filed, series, number, verdict.position),
        Broken::InParty | Broken::OutParty if is_external(series) => vec![Sight::ExternalParty],
        Broken::NeitherSender if is_external(series) => {
            held(&[(true, Sight::ExternalNeither), (pair(series).0 == pair(series).1, Sight::ExternalNeitherEqual)])
        }
        Broken::InArea | Broken::OutArea => {
            let seen_earlier =
                filed.series[..number - 1].iter().any(|one| is_internal(one) && pair(one) == pair(series));
            held(&[(seen_earlier, Sight::PairElsewhere)])
        }
        Broken::ContractType if is_external(series) => vec![Sight::PlainWithContract],
        Broken::Agreement if is_external(series) => vec![Sight::PlainWithAgreement],
        Broken::BusinessType => held(&[(direction(series, &filed.book.area()) == Direction::Within, Sight::TypeAlone)]),
        _ => Vec::new(),
    };
    if verdict.number() > 7 {
        // Rule 7 has told the keys of this series and of those before it apart.
        seen.extend(keys_apart(&filed, number));
    }
    if matches!(broken, Broken::NoRight | Broken::AboveLimit) {
        seen.extend(beside_later_rules(&filed, series, verdict));
    } else if matches!(verdict.number(), 10..=13) && series[BUSINESS_TYPE] == WITH_CAPACITY {
        let lost = filed.right_of(series).is_none();
        seen.extend(held(&[
            (verdict.number() == 10 && lost, Sight::TenAndNoRight),
            (verdict.number() > 10 && lost, Sight::QuantityAndNoRight),
            (verdict.number() > 10 && is_above(&filed, series, number), Sight::QuantityAndAboveLimit),
        ]));
    }
    seen
}

/// Whether a series passes the limit of its right somewhere.
fn is_above(filed: &Filed, series: &Block, number: usize) -> bool {
    let sum = |right: &Block, p: Position| -> u64 {
        filed.on(right, number).iter().map(|series| u64::from(quantity(series, p))).sum()
    };
    filed.right_of(series).map_or(false, |right| filed.positions().any(|p| sum(right, p) > quantity(right, p).into()))
}

/// In what a kept id's key differs from the one that is sent.
fn id_kept(filed: &Filed, series: &Block) -> Vec<Sight> {
    use Sight::*;
    let kept = match filed.kept_as(&field(series, ID)) {
        None => return Vec::new(),
        Some(kept) => kept,
    };
    let trade = is_internal(kept);
    let part = KeyPart::alone(kept, series).map(|part| match (part, trade) {
        (KeyPart::BusinessType, true) => TradeOtherType,
        (KeyPart::ContractType, true) => TradeOtherContract,
        (KeyPart::InArea, true) => TradeOtherInArea,
        (KeyPart::OutArea, true) => TradeOtherOutArea,
        (KeyPart::InParty, true) => TradeOtherInParty,
        (KeyPart::OutParty, true) => TradeOtherOutParty,
        (KeyPart::Agreement, true) => TradeOtherAgreement,
        (KeyPart::BusinessType, false) => ExternalOtherType,
        (KeyPart::ContractType, false) => ExternalOtherContract,
        (KeyPart::InArea, false) => ExternalOtherInArea,
        (KeyPart::OutArea, false) => ExternalOtherOutArea,
        (KeyPart::InParty, false) => ExternalOtherInParty,
        (KeyPart::OutParty, false) => ExternalOtherOutParty,
        (KeyPart::Agreement, false) => ExternalOtherAgreement,
    });
    let closed = usize::from(last_closed(filed.book.day()));
    let lawful = matches!(direction(series, &filed.book.area()), Direction::In(_) | Direction::Out(_));
    let turned = trade && is_external(series) && lawful && pair(kept) == pair(series);
    let settled = quantities(kept).take(closed).any(|value| value > 0);
    let mut seen: Vec<Sight> = part.into_iter().collect();
    seen.extend(held(&[(turned && settled, TradeTurned)]));
    seen
}

/// What the book has in place of the right that is missing.
fn no_right(filed: &Filed, series: &Block) -> Vec<Sight> {
    let mut wanted = [0; BLOCK_BYTES];
    wanted[CONTRACT_TYPE] = series[CONTRACT_TYPE];
    wanted[IN_AREA..IN_PARTY].copy_from_slice(&series[IN_AREA..IN_PARTY]);
    wanted[AGREEMENT..MARK].copy_from_slice(&series[AGREEMENT..MARK]);
    let (area, own) = (filed.book.area(), &filed.rights);
    let lacks = |part: RightPart| {
        let alike = |right: &Block| {
            let mut bare = *right;
            bare[BUSINESS_TYPE] = 0;
            bare[HOLDER..AGREEMENT].fill(0);
            RightPart::alone(&wanted, &bare, &area) == Some(part)
        };
        own.iter().any(|(_, right)| alike(right))
    };
    held(&[
        (!filed.of_others(series).is_empty(), Sight::OthersRight),
        (lacks(RightPart::ContractType), Sight::RightOtherContract),
        (lacks(RightPart::Agreement), Sight::RightOtherAgreement),
        (lacks(RightPart::OtherArea), Sight::RightOtherArea),
        (lacks(RightPart::Direction), Sight::RightTurned),
        (own.is_empty(), Sight::HoldsNone),
        (quantities(series).all(|value| value == 0), Sight::NoRightZero),
    ])
}

/// How a limit is passed.
fn above_limit(filed: &Filed, series: &Block, number: usize, position: Position) -> Vec<Sight> {
    let right = match filed.right_of(series) {
        None => return Vec::new(),
        Some(right) => right,
    };
    let claims = filed.on(right, number);
    let sum: u32 = claims.iter().map(|series| quantity(series, position)).sum();
    let (own, limit) = (quantity(series, position), quantity(right, position));
    let closed = position.is_closed(filed.book.clock(), filed.book.lead());
    let others_allow = filed.of_others(series).into_iter().any(|other| quantity(other, position) >= sum);
    let parts = claims.iter().filter(|series| quantity(series, position) > 0).count();
    held(&[
        (own == sum, Sight::PassedAlone),
        (own < sum && own <= limit && parts == 2, Sight::PassedBySecond),
        (own < sum && own <= limit && parts > 2, Sight::PassedByThird),
        (sum == limit + 1, Sight::PassedByOne),
        (position.0 == 1, Sight::PassedFirst),
        (position.0 == u16::from(filed.book.n()), Sight::PassedLast),
        (closed, Sight::PassedClosed),
        (others_allow, Sight::OthersAllow),
        (limit == 0, Sight::PassedZero),
    ])
}

/// The later rules that a series refused by 18 or 19 breaks too.
fn beside_later_rules(filed: &Filed, series: &Block, verdict: &Verdict) -> Vec<Sight> {
    let kept = filed.kept_as(&field(series, ID));
    let old = |p: Position| kept.map_or(0, |kept| quantity(kept, p));
    let is_closed = |p: &Position| p.is_closed(filed.book.clock(), filed.book.lead());
    let changed: Vec<Position> = filed.positions().filter(|&p| quantity(series, p) != old(p)).collect();
    let closed = changed.iter().any(is_closed);
    let below = changed.iter().any(|p| is_closed(p) && *p < verdict.position);
    let none = verdict.number() == 18;
    held(&[
        (none && closed, Sight::NoRightAndClosed),
        (!none && closed, Sight::AboveAndClosed),
        (!none && below, Sight::AboveAndClosedBelow),
    ])
}

/// What entering a right shows.
pub fn entering(body: &[u8], number: u8, before: &[u8]) -> Vec<Sight> {
    let right: Option<&Block> = body.try_into().ok();
    let mut seen = held(&[
        (number == 40 && body.is_empty(), Sight::RightNothing),
        (number == 40 && body.len() == BLOCK_BYTES - 1, Sight::RightByteLess),
        (number == 40 && body.len() == BLOCK_BYTES + 1, Sight::RightByteMore),
        (number == 40 && body.len() == 2 * BLOCK_BYTES, Sight::RightBlockMore),
    ]);
    if let (Some(right), Some(book)) = (right, SoundBook::of(before)) {
        seen.extend(entering_block(right, number, &book));
    } else if let (Some(right), Some(day)) = (right, blocks(before).next()) {
        let lawful = NS.contains(&day[N]) && check_is_right(right) && right::broken_clauses(right, day) == 0;
        seen.extend(held(&[(lawful, Sight::RightUnsound), (!lawful, Sight::NoRightUnsound)]));
    }
    seen
}

fn entering_block(right: &Block, number: u8, book: &SoundBook) -> Vec<Sight> {
    let stored: Vec<&Block> = book.rights().map(|(_, right)| right).collect();
    let equal = stored.iter().find(|stored| right::but_for_limits(stored) == right::but_for_limits(right));
    let (full, last) = (book.free_slots() == 0, book.free_slots() == 1);
    let sender = book.sender_slot(&field(right, HOLDER)).is_some();
    let entered = number == 0;
    let near = |part| entered && stored.iter().any(|one| RightPart::alone(one, right, &book.area()) == Some(part));
    held(&[
        (entered && last, Sight::RightLastSlot),
        (entered && book.used_slots() == 0, Sight::RightFirstSlot),
        (entered && sender, Sight::RightOfSender),
        (entered && !sender, Sight::RightOfStranger),
        (entered && last_closed(book.day()) > 0, Sight::RightAfterClosing),
        (near(RightPart::Holder), Sight::NearHolder),
        (near(RightPart::ContractType), Sight::NearContract),
        (near(RightPart::Agreement), Sight::NearAgreement),
        (near(RightPart::OtherArea), Sight::NearArea),
        (near(RightPart::Direction), Sight::NearDirection),
        (number == 40 && equal == Some(&right), Sight::RightEqual),
        (number == 40 && equal.map_or(false, |equal| *equal != right), Sight::RightOtherLimits),
        (number == 40 && equal.is_some() && full, Sight::RightEqualFull),
        (number == 40 && equal.is_none() && full, Sight::NoRightFull),
    ])
}

/// In which way a block is no right, if the call was refused for it.
pub fn right_fault(body: &[u8], number: u8, before: &[u8]) -> Option<RightFault> {
    let right: &Block = body.try_into().ok().filter(|_| number == 40)?;
    RightFault::of(right, blocks(before).next()?)
}

/// What a final shows that is asked for a pair of external schedules.
pub fn final_asked(out_party: &[u8], in_party: &[u8], number: u8, book: &[u8]) -> Vec<Sight> {
    let of_pair = |block: &Block| field(block, OUT_PARTY) == *out_party && field(block, IN_PARTY) == *in_party;
    let external = blocks(book).skip(1).any(|b| b[KIND] == KIND_SERIES && is_external(b) && of_pair(b));
    held(&[
        (number == 26 && external && out_party != in_party, Sight::FinalExternal),
        (number == 26 && external && out_party == in_party, Sight::FinalExternalEqual),
        (number == 0 && external, Sight::FinalBoth),
    ])
}

/// What a reading shows of a book that has rights and external schedules.
pub fn reading(book: &[u8], external: Sight, with_right: Sight) -> Vec<Sight> {
    let any = |such: &dyn Fn(&Block) -> bool| blocks(book).skip(1).any(such);
    held(&[
        (any(&|block| block[KIND] == KIND_SERIES && is_external(block)), external),
        (any(&|block| block[KIND] == KIND_RIGHT), with_right),
    ])
}

/// Whether a sender's series of this id is an external schedule.
pub fn is_of_external(sender: &[u8], id: &[u8], book: &[u8]) -> bool {
    let series = SoundBook::of(book).and_then(|book| book.find_series(sender, id).map(|(_, series)| series));
    series.map_or(false, is_external)
}

/// What a conversion shows, with the book before it.
pub fn conversion(before: &[u8]) -> Vec<Sight> {
    let externals = || blocks(before).skip(1).filter(|block| block[KIND] == KIND_SERIES && is_external(block));
    let falsely = |block: &Block| block[DIFFER] != 1 || block[FIRST] != 0 || u16_at(block, PARTNER) != 0;
    let mut seen = reading(before, Sight::ConvertedExternal, Sight::ConvertedRight);
    seen.extend(held(&[(externals().any(falsely), Sight::ConvertedExternalFalse)]));
    seen
}

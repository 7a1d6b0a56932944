//! Things worth seeing that no number tells.

use crate::block::*;
use crate::book::SoundBook;
use crate::clause::cases;
use crate::counts::{Position, LATEST_MINUTE};
use crate::crafted::sealed;
use crate::desk::Reply;
use crate::identifier::{fails_by_hyphen_alone, is_valid_eic, wrong_character, NO_VALUE, VALUES as CHARACTERS};
use crate::listing::MOST_BYTES;
use crate::names::read_carelessly;
use crate::sound::MOST_BLOCKS;
use crate::stream::Record;
use crate::submission::{judge, Broken, Verdict};
use crate::versions::{kept_sender, kept_version};

pub mod externals;
mod looks;
pub mod marks;
mod openings;
pub mod rules;
pub mod settlements;

const FIFTEEN_ZEROS: [u8; 15] = [b'0'; 15];

cases! {
    /// What a call showed beside its number.
    Sight {
        AcceptedN92 "accepted, n 92",
        AcceptedN96 "accepted, n 96",
        AcceptedN100 "accepted, n 100",
        NewSender "accepted, new sender",
        NothingChanged "accepted, nothing changed",
        Series21To99 "accepted, 21 to 99 series",
        Series100To199 "accepted, 100 to 199 series",
        Series200 "accepted, 200 series",
        AllBlocksUsed "accepted, all 1,001 blocks used",
        LooksFirstSender "accepted, the book's first sender",
        LooksSecondSender "accepted, a new sender, a partner is there",
        LooksRenewed "accepted, a partner, no slot more is used",
        LooksGrown "accepted, a partner, a known sender's new series",
        LooksInVain "accepted, no partner among others' series",
        LooksOnePartner "accepted, just one partner",
        LooksSeveralSenders "accepted, partners of several senders",
        LooksSeveralOfOne "accepted, several partners of one sender",
        LooksSomeAlone "accepted, a partner, and a series alone",
        LooksNoneAlone "accepted, several series, each with a partner",
        LooksSlot1 "accepted, a partner in slot 1",
        LooksSlot2 "accepted, a partner in slot 2",
        LooksLastSlot "accepted, a partner in the last used slot",
        LooksBothEnds "accepted, a partner in slot 1 or 2 and one in the last used slot",
        LooksBelow "accepted, a partner below its series",
        LooksAbove "accepted, a partner above its series",
        LooksTurned "accepted, a series alone, another's has its parties exchanged",
        LooksKeptFalse "accepted, a partner, the mark kept before named another series",
        LooksHighSlot "accepted, a partner in a slot above 255",
        LooksLowByte "accepted, a partner, its sender's slot and the sender's have one low byte",
        Looks256To999 "accepted, 256 to 999 looks",
        NetHighest "accepted, a net at its upper limit",
        NetNextToHighest "accepted, a net one below its upper limit",
        NetLowest "accepted, a net at its lower limit",
        NetNextToLowest "accepted, a net one above its lower limit",
        Version256To998 "accepted, version 256 to 998",
        Version999 "accepted, version 999",
        JumpAllKept "accepted, versions left out, every series unchanged",
        JumpSomeKept "accepted, versions left out, a series unchanged and one changed or new",
        JumpLowByteFalls "accepted, version higher, its low byte lower",
        RaisedAfterRefusal "accepted, after a refusal of a version between",
        LowerLowByteRises "rule 6, version lower, its low byte higher",
        OtherIdAndJump "rule 6 for the message id, versions left out",
        SeriesCountsOn "rule 15, versions left out, a series one above the kept message",
        NewSenderSeries1 "rule 15, new sender beginning above 1, its series at 1",
        RefusedAtSeries21To199 "refused at series 21 to 199",
        TopBitBelowTooHigh "rule 11, and 12 at a higher position",
        TooHighBelowTopBit "rule 12, and 11 at a higher position",
        QuantityAndAboveN "rule 11 or 12, and 13",
        QuantityAboveClosed "rule 11, 12 or 13, and 14 at a lower position",
        LaterSeriesEarlierRule "a later series breaks an earlier rule",
        ClockBeyondLast "clock refused a minute after the last",
        LeadBeyondLongest "open refused for a lead of 1,441",
        HyphenArea "open refused for the area's hyphen",
        HyphenReceiver "open refused for the receiver's hyphen",
        HyphenSender "rule 4 for the hyphen",
        HyphenInParty "rule 8 for the in party's hyphen",
        HyphenOutParty "rule 8 for the out party's hyphen",
        HyphenEic "eic refused for its hyphen",
        LookAlikeEic "eic refused for a look-alike of a character",
        EicZeros "eic of fifteen zeros",
        EicSecondWrong "eic with a second character that is not allowed",
        EicEndsEarly "eic too short, nothing else wrong",
        EicShortAndWrong "eic too short, and wrong before its end",
        EicTooLong "eic too long, nothing else wrong",
        EicLongAndWrong "eic too long, and wrong before the sixteenth",
        OpenBothCodes "open 21, area and receiver wrong at different characters",
        OpenReceiverAlone "open 21, of the two codes the receiver alone wrong",
        OpenCodeAndOther "open 21, a code and n, lead or day wrong",
        OpenCodeShort "open 21, area or receiver too short, nothing else wrong in it",
        OpenCodeLong "open 21, area or receiver too long, nothing else wrong in it",
        OpenLengthAndCode "open 20, a code wrong",
        OpenLengthAndRule "open 20, the rule wrong",
        OpenedBySellers "open 0, the seller's rule named",
        OpenedByLesser "open 0, the lesser value named",
        RuleNext "open 21 for the rule 2 alone",
        RuleHighest "open 21 for the rule 255 alone",
        RuleOther "open 21 for a rule of 3 to 254 alone",
        RuleAndCode "open 21, the rule and a code wrong",
        RuleAndOther "open 21, the rule and n, lead or day wrong, both codes good",
        BothParties "rule 8, both parties wrong at different characters",
        EqualWrongParties "rule 8, one wrong code as both parties",
        Zeros "rule 4 or 8 for fifteen zeros",
        UnjudgedSender "rule 1, 2 or 3, the sender not an EIC",
        UnjudgedParty "rule 7, a party not an EIC",
        UnjudgedArea "rule 9, an area not an EIC",
        MarkAlone "mark of a series without counterpart",
        MarkAgrees "mark of an agreeing series",
        Mark1To3 "mark, 1 to 3 positions differ",
        Mark4Up "mark, 4 to n - 1 positions differ",
        MarkAll "mark, all n positions differ",
        MarkFirst1 "mark, the first is 1",
        MarkFirstN "mark, the first is n",
        CountOfN "not refused, a series keeps a count of n",
        FinalAbove0 "final with a value above 0",
        FinalSellerMissing "final with a missing seller series",
        LateBuyerSellers "final by the seller's rule, again after a late buyer",
        LateSellerSellers "final by the seller's rule, again after a late seller",
        LateBuyerLesser "final by the lesser value, again after a late buyer",
        LateSellerLesser "final by the lesser value, again after a late seller",
        ClockSellers "clock moved in a book of the seller's rule",
        ClockLesser "clock moved in a book of the lesser value",
        AcceptedSellers "accepted in a book of the seller's rule",
        AcceptedLesser "accepted in a book of the lesser value",
        ConvertedSellers "converted, a book of the seller's rule",
        ConvertedLesser "converted, a book of the lesser value",
        PlainYes "plain run says yes",
        PlainNo "plain run says no",
        PlainNoCount "plain run says no, counts alone false",
        PlainNoFirst "plain run says no, firsts alone false",
        PlainNoPartner "plain run says no, partners alone false",
        PlainNoNet "plain run says no, nets alone false",
        ListingPrinted "listing printed",
        ListingLongest "listing of a book of 64 blocks",
        ListingByteMore "listing too long by a byte",
        ListingBlockMore "listing too long by a block",
        ListingTooLong "listing too long",
        ListingNotSound "listing not sound",
        SoundYes "sound yes",
        SoundNo "sound no",
        ReaderSeries "reader gives a series",
        ReaderEmpty "reader gives an empty part",
        WalkWhole "walk over a whole message",
        WalkNothing "walk over nothing",
        IdWellFormed "id well formed",
        IdMalformed "id malformed",
        CheckRight "check right",
        CheckWrong "check wrong",
        Seal "seal",
        Code "code",
        ConvertedEmpty "converted, no series",
        ConvertedUnchanged "converted in the new layout, no byte of any series changed",
        ConvertedTrue "converted, old marks and nets true",
        ConvertedState "converted, a state was false",
        ConvertedFirst "converted, a first was false",
        ConvertedPartner "converted, a partner was false",
        ConvertedNet "converted, a net was false",
        ConvertedAlone "converted, a series without counterpart",
        ConvertedAgrees "converted, an agreeing series",
        Converted1To3 "converted, 1 to 3 positions differ",
        Converted4Up "converted, 4 to n - 1 positions differ",
        ConvertedAll "converted, all n positions differ",
        ConvertedN92 "converted, n 92",
        ConvertedN96 "converted, n 96",
        ConvertedN100 "converted, n 100",
        ConvertedLarge "converted, more than 64 blocks",
        ConvertNewZero "convert 1 in the new layout, counts of 0 and none above 3",
        ConvertNewAbove "convert 1 in the new layout, counts above 3 and none of 0",
        ConvertNewBoth "convert 1 in the new layout, counts of 0 and above 3",
        ConvertTooLate "convert 1, an old book that took a message before",
        ConvertedAgain "converted a second time, 0",
        ConvertAgainRefused "converted a second time, 1",
        OldAccepted "old book before its conversion: a message accepted",
        OldJudged "old book before its conversion: a message judged good",
        OldMark "old book before its conversion: a mark",
        OldBlock "old book before its conversion: a block",
        OldFinalSellers "old book before its conversion: a final by the seller's rule",
        OldFinalLesser "old book before its conversion: a final by the lesser value",
        OldPlainNo "old book before its conversion: the plain run says no",
        OldListing "old book before its conversion: a listing printed",
        OldClock "old book before its conversion: the clock moved",
        NewAccepted "first after a conversion: a message accepted",
        NewJudged "after a conversion, nothing accepted since: a message judged good",
        NewMark "after a conversion, nothing accepted since: a mark",
        NewBlock "after a conversion, nothing accepted since: a block",
        NewFinalSellers "after a conversion, nothing accepted since: a final by the seller's rule",
        NewFinalLesser "after a conversion, nothing accepted since: a final by the lesser value",
        AgainSellers "after a conversion: a final by the seller's rule that was given before it",
        AgainLesser "after a conversion: a final by the lesser value that was given before it",
        NewPlainYes "after a conversion, nothing accepted since: the plain run says yes",
        NewListing "after a conversion, nothing accepted since: a listing printed",
        NewClock "after a conversion, nothing accepted since: the clock moved",
        MixedTypes "accepted, A02, A03 and A06 in one message",
        ExternalsAlone "accepted, external series alone",
        CapacityInBoth "accepted, A03, in area ours, sender both parties",
        CapacityInBuyer "accepted, A03, in area ours, sender the in party",
        CapacityInSeller "accepted, A03, in area ours, sender the out party",
        CapacityOutBoth "accepted, A03, out area ours, sender both parties",
        CapacityOutBuyer "accepted, A03, out area ours, sender the in party",
        CapacityOutSeller "accepted, A03, out area ours, sender the out party",
        PlainInBoth "accepted, A06, in area ours, sender both parties",
        PlainInBuyer "accepted, A06, in area ours, sender the in party",
        PlainInSeller "accepted, A06, in area ours, sender the out party",
        PlainOutBoth "accepted, A06, out area ours, sender both parties",
        PlainOutBuyer "accepted, A06, out area ours, sender the in party",
        PlainOutSeller "accepted, A06, out area ours, sender the out party",
        LimitMet "accepted, a limit met by one series",
        SumMet "accepted, a limit met, several series on the right",
        AboveOthersLimit "accepted, above the limit of another's right that is else the same",
        SeveralRights "accepted, series on several rights together above the limit of one",
        KeptOnRight "accepted, a kept series and a new one on one right",
        SharedPair "accepted, an internal and an external series with one pair",
        AnothersExternal "accepted, an internal series alone, another's external one has its pair",
        AnothersTrade "accepted, an external series, another's internal one has its pair",
        ExternalMarkFalse "accepted, the kept mark of an external series was not that of one alone",
        RightBelowSender "accepted, a right in a slot below the sender's",
        RightAboveSender "accepted, a right in a slot above the sender's",
        ApartType "past rule 7, keys that differ in the business type alone",
        ApartContract "past rule 7, keys that differ in the contract type alone",
        ApartInArea "past rule 7, keys that differ in the in area alone",
        ApartOutArea "past rule 7, keys that differ in the out area alone",
        ApartInParty "past rule 7, external keys that differ in the in party alone",
        ApartOutParty "past rule 7, external keys that differ in the out party alone",
        ApartAgreement "past rule 7, keys that differ in the capacity agreement alone",
        TradeOtherType "rule 7, an internal series' id with another business type alone",
        TradeOtherContract "rule 7, an internal series' id with another contract type alone",
        TradeOtherInArea "rule 7, an internal series' id with another in area alone",
        TradeOtherOutArea "rule 7, an internal series' id with another out area alone",
        TradeOtherInParty "rule 7, an internal series' id with another in party alone",
        TradeOtherOutParty "rule 7, an internal series' id with another out party alone",
        TradeOtherAgreement "rule 7, an internal series' id with another capacity agreement alone",
        ExternalOtherType "rule 7, an external series' id with another business type alone",
        ExternalOtherContract "rule 7, an external series' id with another contract type alone",
        ExternalOtherInArea "rule 7, an external series' id with another in area alone",
        ExternalOtherOutArea "rule 7, an external series' id with another out area alone",
        ExternalOtherInParty "rule 7, an external series' id with another in party alone",
        ExternalOtherOutParty "rule 7, an external series' id with another out party alone",
        ExternalOtherAgreement "rule 7, an external series' id with another capacity agreement alone",
        TradeTurned "rule 7, an internal series that has closed positions turned external",
        ExternalParty "rule 8, a party of an external series not an EIC",
        ExternalNeither "rule 8, an external series, the sender neither party",
        ExternalNeitherEqual "rule 8, an external series, two equal parties that are not the sender",
        PairElsewhere "rule 9, an internal series whose pair was seen earlier",
        PlainWithContract "rule 10, an A06 series with a contract type",
        PlainWithAgreement "rule 10, an A06 series with a capacity agreement",
        TypeAlone "rule 10, an unknown business type, both areas ours",
        TenAndNoRight "rule 10, and 18",
        QuantityAndNoRight "rule 11, 12 or 13, and 18",
        QuantityAndAboveLimit "rule 11, 12 or 13, and 19",
        OthersRight "rule 18, the right is another's",
        RightOtherContract "rule 18, the sender's right has another contract type",
        RightOtherAgreement "rule 18, the sender's right has another agreement",
        RightOtherArea "rule 18, the sender's right has another area",
        RightTurned "rule 18, the sender's right has its areas exchanged",
        HoldsNone "rule 18, the sender holds no right",
        NoRightZero "rule 18, all quantities 0",
        NoRightAndClosed "rule 18, and 14",
        PassedAlone "rule 19, by the series itself",
        PassedBySecond "rule 19, by two series, each within the limit",
        PassedByThird "rule 19, by three series or more, the last within the limit",
        PassedByOne "rule 19, by one kW",
        PassedFirst "rule 19 at position 1",
        PassedLast "rule 19 at position n",
        PassedClosed "rule 19 at a closed position",
        PassedZero "rule 19, a limit of 0",
        OthersAllow "rule 19, another's right that is else the same would allow it",
        AboveAndClosed "rule 19, and 14",
        AboveAndClosedBelow "rule 19, and 14 at a lower position",
        KindOfRight "rule 2 for a later block of kind 4 alone",
        RightNothing "right 40, no byte",
        RightByteLess "right 40, 511 bytes",
        RightByteMore "right 40, 513 bytes",
        RightBlockMore "right 40, 1,024 bytes",
        RightEqual "right 40, it stands there",
        RightOtherLimits "right 40, it stands there with other limits",
        RightEqualFull "right 40, it stands there and the book is full",
        NoRightFull "right 40, malformed and the book is full",
        RightUnsound "right 1, nothing wrong in the block",
        NoRightUnsound "right 1, and malformed",
        RightLastSlot "right 0 in the last slot",
        RightFirstSlot "right 0 in the first slot",
        RightOfSender "right 0, its holder is a sender",
        RightOfStranger "right 0, its holder is no sender",
        RightAfterClosing "right 0, positions are closed",
        NearHolder "right 0, a kept right differs in its holder alone",
        NearContract "right 0, a kept right differs in its contract type alone",
        NearAgreement "right 0, a kept right differs in its agreement alone",
        NearArea "right 0, a kept right differs in its other area alone",
        NearDirection "right 0, a kept right differs in its direction alone",
        FinalExternal "final 26, external series alone have the pair",
        FinalExternalEqual "final 26, equal parties that an external series has",
        FinalBoth "final 0, an external series has the pair too",
        MarkExternal "mark of an external series",
        BlockExternal "block of an external series",
        ListingExternal "listing printed, with an external series",
        ListingRight "listing printed, a right in the book",
        PlainYesExternal "plain run says yes, with an external series",
        PlainYesRight "plain run says yes, a right in the book",
        PlainNoExternal "plain run says no, with an external series",
        ConvertedExternal "converted, an external series",
        ConvertedExternalFalse "converted, the state, first or partner of an external series was false",
        ConvertedRight "converted, a right in the book",
        OldRight "old book before its conversion: a right entered",
        NewRight "after a conversion, nothing accepted since: a right entered",
        SettledOnlyBuys "settled above 0, a party that only buys",
        SettledOnlySells "settled above 0, a party that only sells",
        SettledBoth "settled above 0 on both sides",
        SettledNothing "settled 0 0, a party",
        SettledNoSender "settled above 0, a party that is no sender",
        SettledNoSenderNothing "settled 0 0, a party that is no sender",
        SettledTurned "settled, a pair and the same turned round, both above 0",
        SettledSeveralBought "settled, three pairs or more bought above 0",
        SettledSeveralSold "settled, three pairs or more sold above 0",
        SettledAboveOne "settled above the highest quantity",
        SettledExternalToo "settled, an external series above 0 has the pair too",
        SettledTrueMarks "settled above 0, marks and nets true",
        SettledFalseMarks "settled above 0, a mark or net false",
        SettledAbove32Bits "settled above 4,294,967,295",
        SettledFirst "settled 0 at position 1",
        SettledLastClosed "settled 0 at the last closed position, below n",
        SettledLast "settled 0 at position n",
        SettledFirstOpen "settled 25 at the first open position",
        SettledLastOpen "settled 25 at position n",
        SettledZeroth "settled 24 at position 0",
        SettledNextToN "settled 24 at position n + 1",
        SettledAboveN "settled 24 above n + 1",
        SettledLowByte "settled 24 above 255, the low byte a closed position",
        SettledUnsoundNowhere "settled 1, and position 0 or above n",
        SettledNoTrades "settled 0 0, no internal trade in the book",
        StrangerCode "settled 0 0, a name of sixteen characters that is no party's",
        StrangerNear "settled 0 0, a name that differs from a party's in one character",
        StrangerZeros "settled 0 0, a name of sixteen zero bytes",
        StrangerExternal "settled 0 0, a party of external series alone",
        StrangerHolder "settled 0 0, the holder of a right that is no party",
        StrangerShort "settled 0 0, a party's name without its last character",
        StrangerLong "settled 0 0, a party's name and a byte more",
        StrangerLongest "settled 0 0, a name of 64 bytes",
        StrangerEmpty "settled 0 0, an empty name",
    }
}

impl Sight {
    /// How often is enough, whatever is asked of other sights: a sum that 32 bits don't hold takes a round of 431
    /// calls, one of which has it.
    pub fn enough(self) -> u64 {
        match self {
            Sight::SettledAbove32Bits => 2,
            _ => u64::MAX,
        }
    }
}

/// What one call shows, with the book before it and after it; a refusal has left it alone.
pub fn sights(record: &Record, reply: &Reply, before: &[u8], book: &[u8]) -> Vec<Sight> {
    match (record, reply) {
        (Record::Submit(message), Reply::Submit { verdict, looked }) => {
            let of_verdict = match verdict.broken {
                None => [
                    acceptance(message, book),
                    looks::looks(message, *looked, before, book),
                    externals::acceptance(message, before, book),
                ]
                .concat(),
                Some(broken) => [
                    refusal(message, verdict, broken, book),
                    codes_of_refusal(message, verdict),
                    externals::refusal(message, verdict, broken, book),
                ]
                .concat(),
            };
            [of_verdict, versions(message, verdict, before)].concat()
        }
        (Record::Open(opening), Reply::Open { number, .. }) => openings::opening(opening, None, *number),
        (Record::OpenBy { rule, opening }, Reply::OpenBy { number, .. }) => {
            openings::opening(opening, Some(*rule), *number)
        }
        (Record::Clock(minute), Reply::Clock { number: 22, .. }) => {
            held(&[(*minute == LATEST_MINUTE + 1, Sight::ClockBeyondLast)])
        }
        (Record::Eic(text), Reply::Eic(character)) => code_checked(text, *character),
        (Record::Listing, Reply::Listing(text)) => {
            let printed = text.starts_with(b"slot");
            let more = externals::reading(book, Sight::ListingExternal, Sight::ListingRight);
            [listing_given(text, book.len()), if printed { more } else { Vec::new() }].concat()
        }
        (Record::Mark { sender, id }, Reply::Mark { number: 0, mark }) => {
            let external = externals::is_of_external(sender, id, book);
            [marks::mark_read(mark, book), held(&[(external, Sight::MarkExternal)])].concat()
        }
        (Record::Block { sender, id }, Reply::Block { number: 0, .. }) => {
            held(&[(externals::is_of_external(sender, id, book), Sight::BlockExternal)])
        }
        (Record::Right(body), Reply::Right(number)) => externals::entering(body, *number, before),
        (Record::Plain, Reply::Plain { number: 0, yes: true }) => {
            let more = externals::reading(book, Sight::PlainYesExternal, Sight::PlainYesRight);
            [vec![Sight::PlainYes], more].concat()
        }
        (Record::Plain, Reply::Plain { number: 0, yes: false }) => marks::plain_says_no(book),
        (Record::Convert, Reply::Convert(number)) => {
            let more = if *number == 0 { externals::conversion(before) } else { Vec::new() };
            [marks::conversion(*number, before, book), more].concat()
        }
        (Record::Final { out_party, in_party, .. }, Reply::Final { number, value }) => {
            let given = if *number == 0 { final_given(out_party, in_party, *value, book) } else { Vec::new() };
            [given, externals::final_asked(out_party, in_party, *number, book)].concat()
        }
        (Record::Settled { party, position }, Reply::Settled { number, settled }) => {
            settlements::asked(party, *position, *number, settled, book)
        }
        _ => plain_sight(reply).into_iter().collect(),
    }
}

/// The one thing a reply shows by itself.
fn plain_sight(reply: &Reply) -> Option<Sight> {
    let either = |yes: bool, if_yes: Sight, if_no: Sight| Some(if yes { if_yes } else { if_no });
    match reply {
        Reply::Sound(yes) => either(*yes, Sight::SoundYes, Sight::SoundNo),
        Reply::Reader(series) => either(series.is_empty(), Sight::ReaderEmpty, Sight::ReaderSeries),
        Reply::Walk { count, .. } => either(*count == 0, Sight::WalkNothing, Sight::WalkWhole),
        Reply::Id(yes) => either(*yes, Sight::IdWellFormed, Sight::IdMalformed),
        Reply::Check { right, .. } => either(*right, Sight::CheckRight, Sight::CheckWrong),
        Reply::Seal(_) => Some(Sight::Seal),
        Reply::Code(_) => Some(Sight::Code),
        _ => None,
    }
}

/// The sights of a list whose condition holds.
fn held(list: &[(bool, Sight)]) -> Vec<Sight> {
    list.iter().filter(|(holds, _)| *holds).map(|&(_, sight)| sight).collect()
}

fn acceptance(message: &[u8], book: &[u8]) -> Vec<Sight> {
    let head = block_at(message, 0);
    let (n, version, series) = (head[N], u16_at(head, VERSION), blocks(message).len() - 1);
    let kept = kept_sender(book, &field(head, SENDER));
    let has_net = |limit: i32| kept.map_or(false, |block| nets(block).any(|net| net == limit));
    let full = book.len() == MOST_BLOCKS * BLOCK_BYTES && block_at(book, MOST_BLOCKS - 1)[KIND] != 0;
    held(&[
        (n == 92, Sight::AcceptedN92),
        (n == 96, Sight::AcceptedN96),
        (n == 100, Sight::AcceptedN100),
        ((21..=99).contains(&series), Sight::Series21To99),
        ((100..=199).contains(&series), Sight::Series100To199),
        (series == 200, Sight::Series200),
        (full, Sight::AllBlocksUsed),
        (has_net(HIGHEST_NET), Sight::NetHighest),
        (has_net(HIGHEST_NET - 1), Sight::NetNextToHighest),
        (has_net(-HIGHEST_NET), Sight::NetLowest),
        (has_net(1 - HIGHEST_NET), Sight::NetNextToLowest),
        ((256..HIGHEST_VERSION).contains(&version), Sight::Version256To998),
        (version == HIGHEST_VERSION, Sight::Version999),
    ])
}

/// What the versions of a message show beside the kept ones.
fn versions(message: &[u8], verdict: &Verdict, before: &[u8]) -> Vec<Sight> {
    let head = match blocks(message).next() {
        Some(head) if verdict.number() == 0 || verdict.number() >= 6 => head,
        _ => return Vec::new(),
    };
    let (version, kept) = (u16_at(head, VERSION), kept_version(before, &field(head, SENDER)));
    let stored = kept.unwrap_or(0);
    let jump = kept.is_some() && version > stored + 1 && version <= HIGHEST_VERSION;
    let of_series: Vec<u16> = blocks(message).skip(1).map(|series| u16_at(series, VERSION)).collect();
    let (carried, unchanged) = (of_series.contains(&version), of_series.iter().any(|&one| one != version));
    let at_series = of_series.get(usize::from(verdict.series).wrapping_sub(1)).copied().unwrap_or(0);
    let (accepted, number) = (verdict.broken.is_none(), verdict.number());
    held(&[
        (accepted && kept.is_none(), Sight::NewSender),
        (accepted && !carried, Sight::NothingChanged),
        (accepted && jump && !carried, Sight::JumpAllKept),
        (accepted && jump && carried && unchanged, Sight::JumpSomeKept),
        (accepted && kept.is_some() && version & 255 < stored & 255, Sight::JumpLowByteFalls),
        (number == 6 && version < stored && version & 255 > stored & 255, Sight::LowerLowByteRises),
        (verdict.broken == Some(Broken::OtherMessageId) && jump, Sight::OtherIdAndJump),
        (number == 15 && jump && at_series == stored + 1, Sight::SeriesCountsOn),
        (number == 15 && kept.is_none() && version > 1 && at_series == 1, Sight::NewSenderSeries1),
    ])
}

fn refusal(message: &[u8], verdict: &Verdict, broken: Broken, book: &[u8]) -> Vec<Sight> {
    if verdict.series == 0 {
        let sender = message.get(SENDER..SENDER + 16);
        let hyphen = broken == Broken::SenderEic && sender.map_or(false, fails_by_hyphen_alone);
        return held(&[(hyphen, Sight::HyphenSender)]);
    }
    let series = block_at(message, usize::from(verdict.series));
    let (in_party, out_party) = pair(series);
    let mut seen = held(&[
        ((21..=199).contains(&verdict.series), Sight::RefusedAtSeries21To199),
        (broken == Broken::InParty && fails_by_hyphen_alone(&in_party), Sight::HyphenInParty),
        (broken == Broken::OutParty && fails_by_hyphen_alone(&out_party), Sight::HyphenOutParty),
        (later_series_breaks_earlier_rule(message, verdict, book), Sight::LaterSeriesEarlierRule),
    ]);
    if (11..=13).contains(&verdict.number()) {
        seen.extend(mixed_quantities(message, verdict, book));
    }
    seen
}

/// What else the quantities of the refused series break, beside the rule of 11 to 13 that decided.
fn mixed_quantities(message: &[u8], verdict: &Verdict, book: &[u8]) -> Vec<Sight> {
    let series = block_at(message, usize::from(verdict.series));
    let n = u16::from(series[N]);
    let at = |position: u16| quantity(series, Position(position));
    let above = || (verdict.position.0 + 1)..=n;
    let top_bit = above().any(|position| at(position) >> 31 != 0);
    let too_high = above().any(|position| at(position) > HIGHEST_QUANTITY && at(position) >> 31 == 0);
    let above_n = (n + 1..=100).any(|position| at(position) != 0);
    let number = verdict.number();
    held(&[
        (number == 11 && too_high, Sight::TopBitBelowTooHigh),
        (number == 12 && top_bit, Sight::TooHighBelowTopBit),
        (number != 13 && above_n, Sight::QuantityAndAboveN),
        (closed_before(message, verdict, book), Sight::QuantityAboveClosed),
    ])
}

/// Whether a closed position below the one that decided differs from what is kept.
fn closed_before(message: &[u8], verdict: &Verdict, book: &[u8]) -> bool {
    let series = block_at(message, usize::from(verdict.series));
    let sound = match SoundBook::of(book) {
        None => return false,
        Some(sound) => sound,
    };
    let kept = sound.find_series(&field(block_at(message, 0), SENDER), &field(series, ID)).map(|(_, block)| block);
    (1..verdict.position.0).map(Position).any(|position| {
        position.is_closed(sound.clock(), sound.lead())
            && quantity(series, position) != kept.map_or(0, |block| quantity(block, position))
    })
}

/// Whether the series behind the refused one, filed without those before them, would be refused by a
/// lower rule.
fn later_series_breaks_earlier_rule(message: &[u8], verdict: &Verdict, book: &[u8]) -> bool {
    let mut list: Vec<Block> = blocks(message).copied().collect();
    list.drain(1..=usize::from(verdict.series));
    let count = list.len() as u16 - 1;
    put_u16(&mut list[0], COUNT, count);
    let later = judge(book, &sealed(list));
    later.series > 0 && later.number() < verdict.number()
}

/// What the codes of a refused message show that its number and character don't tell.
fn codes_of_refusal(message: &[u8], verdict: &Verdict) -> Vec<Sight> {
    let number = verdict.number();
    if verdict.series == 0 {
        let sender = message.get(SENDER..SENDER + 16).unwrap_or(&[]);
        return held(&[
            (number == 4 && sender.starts_with(&FIFTEEN_ZEROS), Sight::Zeros),
            (number <= 3 && sender.len() == 16 && !is_valid_eic(sender), Sight::UnjudgedSender),
        ]);
    }
    let series = block_at(message, usize::from(verdict.series));
    let (in_party, out_party) = pair(series);
    let (of_in, of_out) = (wrong_character(&in_party), wrong_character(&out_party));
    let decided = if of_in != 0 { in_party } else { out_party };
    let areas_valid = is_valid_eic(&field(series, IN_AREA)) && is_valid_eic(&field(series, OUT_AREA));
    held(&[
        (number == 8 && of_in != 0 && of_out != 0 && of_in != of_out, Sight::BothParties),
        (number == 8 && of_in != 0 && in_party == out_party, Sight::EqualWrongParties),
        (number == 8 && decided.starts_with(&FIFTEEN_ZEROS), Sight::Zeros),
        (number == 7 && (of_in != 0 || of_out != 0), Sight::UnjudgedParty),
        (number == 9 && !areas_valid, Sight::UnjudgedArea),
    ])
}

fn code_checked(code: &[u8], character: u8) -> Vec<Sight> {
    let character = usize::from(character);
    let not_allowed = code.iter().take(16).filter(|&&byte| CHARACTERS[usize::from(byte)] == NO_VALUE).count();
    let careless = <Field>::try_from(code).map_or(false, |code| is_valid_eic(&read_carelessly(&code)));
    held(&[
        (fails_by_hyphen_alone(code), Sight::HyphenEic),
        (character != 0 && careless, Sight::LookAlikeEic),
        (code.len() == 16 && code.starts_with(&FIFTEEN_ZEROS), Sight::EicZeros),
        (not_allowed > 1, Sight::EicSecondWrong),
        (ends_early(code), Sight::EicEndsEarly),
        (code.len() < 16 && character <= code.len(), Sight::EicShortAndWrong),
        (only_too_long(code), Sight::EicTooLong),
        (code.len() > 16 && character < 16, Sight::EicLongAndWrong),
    ])
}

/// Whether a code lacks characters, and those it has are allowed.
fn ends_early(code: &[u8]) -> bool {
    code.len() < 16 && usize::from(wrong_character(code)) == code.len() + 1
}

/// Whether a code would be valid, did it end with its sixteenth character.
fn only_too_long(code: &[u8]) -> bool {
    code.len() > 16 && is_valid_eic(&code[..16])
}

fn listing_given(text: &[u8], length: usize) -> Vec<Sight> {
    let (too_long, not_sound) = (text == b"too long\n", text == b"not sound\n");
    let printed = !too_long && !not_sound;
    held(&[
        (too_long, Sight::ListingTooLong),
        (not_sound, Sight::ListingNotSound),
        (printed, Sight::ListingPrinted),
        (printed && length == MOST_BYTES, Sight::ListingLongest),
        (length == MOST_BYTES + 1, Sight::ListingByteMore),
        (length == MOST_BYTES + BLOCK_BYTES, Sight::ListingBlockMore),
    ])
}

fn final_given(out_party: &[u8], in_party: &[u8], value: u32, book: &[u8]) -> Vec<Sight> {
    let filed_by_seller = blocks(book).skip(1).any(|block| {
        block[KIND] == KIND_SERIES
            && is_internal(block)
            && field(block, OUT_PARTY) == *out_party
            && field(block, IN_PARTY) == *in_party
            && field(block_at(book, usize::from(u16_at(block, SENDER_SLOT))), SENDER) == *out_party
    });
    held(&[(value > 0, Sight::FinalAbove0), (!filed_by_seller, Sight::FinalSellerMissing)])
}

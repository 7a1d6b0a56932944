//! What openings show.

use super::{ends_early, held, only_too_long, Sight};
use crate::block::{LESSER_RULE, SELLERS_RULE};
use crate::counts::LONGEST_LEAD;
use crate::identifier::{fails_by_hyphen_alone, is_valid_eic, wrong_character};
use crate::sound::{is_day, is_rule, NS};
use crate::stream::Opening;

/// What an opening shows that was answered by this number. It may name a rule.
pub fn opening(opening: &Opening, rule: Option<u8>, number: u8) -> Vec<Sight> {
    let codes_valid = is_valid_eic(&opening.area) && is_valid_eic(&opening.receiver);
    let wrong_rule = rule.filter(|&rule| !is_rule(rule));
    match number {
        20 => held(&[(!codes_valid, Sight::OpenLengthAndCode), (wrong_rule.is_some(), Sight::OpenLengthAndRule)]),
        21 => {
            let other = !NS.contains(&opening.n) || opening.lead > LONGEST_LEAD || !is_day(&opening.day);
            let mut seen = held(&[(opening.lead == LONGEST_LEAD + 1, Sight::LeadBeyondLongest)]);
            seen.extend(codes(&opening.area, &opening.receiver, other));
            wrong_rule.into_iter().for_each(|rule| seen.extend(wrong_rules(rule, codes_valid, other)));
            seen
        }
        _ => held(&[
            (rule == Some(SELLERS_RULE), Sight::OpenedBySellers),
            (rule == Some(LESSER_RULE), Sight::OpenedByLesser),
        ]),
    }
}

/// What the codes of an opening refused by 21 show; other tells whether n, lead or day is wrong too.
fn codes(area: &[u8], receiver: &[u8], other: bool) -> Vec<Sight> {
    let (of_area, of_receiver) = (wrong_character(area), wrong_character(receiver));
    let decided = if of_area != 0 { area } else { receiver };
    held(&[
        (fails_by_hyphen_alone(area) && of_receiver == 0, Sight::HyphenArea),
        (fails_by_hyphen_alone(receiver) && of_area == 0, Sight::HyphenReceiver),
        (of_area != 0 && of_receiver != 0 && of_area != of_receiver, Sight::OpenBothCodes),
        (of_area == 0 && of_receiver != 0, Sight::OpenReceiverAlone),
        (other && (of_area != 0 || of_receiver != 0), Sight::OpenCodeAndOther),
        (ends_early(decided), Sight::OpenCodeShort),
        (only_too_long(decided), Sight::OpenCodeLong),
    ])
}

/// What a rule that there is not shows in an opening refused by 21.
fn wrong_rules(rule: u8, codes_valid: bool, other: bool) -> Vec<Sight> {
    let alone = codes_valid && !other;
    held(&[
        (alone && rule == LESSER_RULE + 1, Sight::RuleNext),
        (alone && rule == 255, Sight::RuleHighest),
        (alone && (3..255).contains(&rule), Sight::RuleOther),
        (!codes_valid, Sight::RuleAndCode),
        (codes_valid && other, Sight::RuleAndOther),
    ])
}

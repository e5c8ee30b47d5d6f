//! Meters that go wrong in one point of a family box, each of which the
//! comparison finds. Rules family-1 to family-14, library-3 to library-7.

use reference::coverage::cards::{broken_cards, CardFault};
use reference::coverage::soundness::broken;
use reference::differ::{Differ, Mismatch};
use reference::family::any::{faulty, ALONE};
use reference::family::interface::{code, BoxStep};
use reference::family::Card;
use reference::numbers::{at, Numbers};
use reference::rng::Rng;
use reference::sides::{Side, ACCEPTED, REFERENCE};
use std::cell::Cell;

const SEEDS: u64 = 600;

fn compared(other: Side) -> Result<(), Box<Mismatch>> {
    let mut differ = Differ::new(other);
    (1..=SEEDS).try_for_each(|seed| differ.boxes(seed))
}

/// A meter with one function of its own, and what the mismatch must tell.
macro_rules! wrong {
    ($test:ident, $field:ident: $function:expr, $told:literal) => {
        #[test]
        fn $test() {
            let other = Side {
                $field: $function,
                ..REFERENCE
            };
            let told = compared(other).expect_err("a wrong meter").what;
            assert!(told.contains($told), "{told}");
        }
    };
}

wrong!(another_card_that_is_changed_is_found, box_call: |account, cards, step, answer| {
    let returned = (REFERENCE.box_call)(account, cards, step, answer);
    if returned == ACCEPTED && step.call == code::USE && step.card > 0 {
        cards[0].monthly = 0;
    }
    returned
}, "card 0 is ");

wrong!(a_refused_use_that_counts_is_found, box_call: |account, cards, step, answer| {
    let returned = (REFERENCE.box_call)(account, cards, step, answer);
    if returned == 6 && step.which == 0 {
        cards[step.card].monthly += 1;
    }
    returned
}, "card ");

wrong!(a_refused_use_that_marks_is_found, box_call: |account, cards, step, answer| {
    let returned = (REFERENCE.box_call)(account, cards, step, answer);
    if returned == 20 {
        account[at::MARKS] |= 1;
    }
    returned
}, "number 1632 of the account");

wrong!(a_refused_use_that_answers_is_found, box_call: |account, cards, step, answer| {
    let returned = (REFERENCE.box_call)(account, cards, step, answer);
    if returned == 20 {
        answer[0] = 0;
    }
    returned
}, "answered [");

wrong!(a_month_that_turns_a_day_late_is_found, box_call: |account, cards, step, answer| {
    let before: Vec<u64> = cards.iter().map(|card| card.monthly).collect();
    let returned = (REFERENCE.box_call)(account, cards, step, answer);
    if step.call == code::NEXT_DAY && before.iter().any(|monthly| *monthly > 0) {
        for (card, monthly) in cards.iter_mut().zip(before) {
            card.monthly = monthly;
        }
    }
    returned
}, "monthly: 0");

wrong!(a_card_cut_to_a_word_is_found, box_call: |account, cards, step, answer| {
    let card = step.card & 0xFFFF_FFFF;
    (REFERENCE.box_call)(account, cards, BoxStep { card, ..step }, answer)
}, "not 19");

wrong!(a_call_cut_to_a_word_is_found, box_call: |account, cards, step, answer| {
    let call = step.call & 0xFFFF_FFFF;
    (REFERENCE.box_call)(account, cards, BoxStep { call, ..step }, answer)
}, "not 1001");

wrong!(a_kind_cut_to_a_word_is_found, box_call: |account, cards, step, answer| {
    let which = step.which & 0xFFFF_FFFF;
    (REFERENCE.box_call)(account, cards, BoxStep { which, ..step }, answer)
}, "not 1001");

wrong!(units_cut_to_a_word_are_found, box_call: |account, cards, step, answer| {
    let n = step.n & 0xFFFF_FFFF;
    (REFERENCE.box_call)(account, cards, BoxStep { n, ..step }, answer)
}, "returned ");

wrong!(a_card_asked_for_by_a_top_up_is_found, box_call: |account, cards, step, answer| {
    let before = account.to_vec();
    let returned = (REFERENCE.box_call)(account, cards, step, answer);
    if returned == ACCEPTED && step.call == code::TOP_UP && step.card >= cards.len() {
        account.copy_from_slice(&before);
        return 19;
    }
    returned
}, "returned 19, not 1000");

wrong!(a_kind_asked_for_by_a_day_change_is_found, box_call: |account, cards, step, answer| {
    match step.call {
        code::NEXT_DAY if step.which > 3 => 1001,
        _ => (REFERENCE.box_call)(account, cards, step, answer),
    }
}, "returned 1001, not ");

wrong!(an_empty_list_that_is_refused_is_found, box_call: |account, cards, step, answer| {
    let before = account.to_vec();
    let returned = (REFERENCE.box_call)(account, cards, step, answer);
    if returned == ACCEPTED && cards.is_empty() {
        account.copy_from_slice(&before);
        return 19;
    }
    returned
}, "returned 19, not 1000");

wrong!(an_afford_of_the_whole_allowance_is_found, box_call: |account, cards, step, answer| {
    let mut fresh = cards.to_vec();
    match step {
        BoxStep { call: code::AFFORD, which: 0, card, .. } if card < cards.len() => {
            fresh[card].monthly = 0;
        }
        _ => return (REFERENCE.box_call)(account, cards, step, answer),
    }
    (REFERENCE.box_call)(account, &mut fresh, step, answer)
}, "BoxStep { call: 4, ");

wrong!(a_short_answer_that_is_taken_is_found, box_call: |account, cards, step, answer| {
    match (step.call, answer.len()) {
        (code::AFFORD, 0) => (REFERENCE.box_call)(account, cards, step, &mut [0]),
        _ => (REFERENCE.box_call)(account, cards, step, answer),
    }
}, "not 1001");

wrong!(an_account_of_1648_numbers_is_found, box_call: |account, cards, step, answer| {
    match account.len() {
        1648 => 19,
        _ => (REFERENCE.box_call)(account, cards, step, answer),
    }
}, "with an account of 1648 numbers: returned 19, not 0");

wrong!(an_opening_that_leaves_the_month_is_found, box_open: |account, cards, plan| {
    let before = cards.to_vec();
    let returned = (REFERENCE.box_open)(account, cards, plan);
    for (card, before) in cards.iter_mut().zip(before) {
        card.monthly = before.monthly;
    }
    returned
}, "BoxOpen: card 0 is ");

wrong!(an_opening_that_clears_allowances_is_found, box_open: |account, cards, plan| {
    let returned = (REFERENCE.box_open)(account, cards, plan);
    if returned == ACCEPTED {
        cards[cards.len() - 1].allowance = 0;
    }
    returned
}, "BoxOpen: card ");

wrong!(a_refused_opening_that_clears_is_found, box_open: |account, cards, plan| {
    let returned = (REFERENCE.box_open)(account, cards, plan);
    if returned == 20 {
        cards[0].lifetime = [0; 4];
    }
    returned
}, "BoxOpen: card 0 is ");

wrong!(a_refused_opening_that_writes_the_account_is_found, box_open: |account, cards, plan| {
    let returned = (REFERENCE.box_open)(account, cards, plan);
    if returned == 19 {
        (REFERENCE.open)(account, plan);
    }
    returned
}, "BoxOpen: number 0 of the account");

wrong!(a_bad_plan_told_after_the_cards_is_found, box_open: |account, cards, plan| {
    match (REFERENCE.box_open)(account, cards, plan) {
        2 if cards.len() > 16 => 19,
        returned => returned,
    }
}, "BoxOpen: returned 19, not 2");

wrong!(an_opening_of_17_cards_is_found, box_open: |account, cards, plan| {
    match cards.len() {
        17 => (REFERENCE.box_open)(account, &mut cards[..16], plan),
        _ => (REFERENCE.box_open)(account, cards, plan),
    }
}, "not 19");

wrong!(a_plan_of_eight_numbers_is_found, box_open: |account, cards, plan| {
    (REFERENCE.box_open)(account, cards, &plan[..plan.len().min(7)])
}, "not 1001");

thread_local! {
    /// The fault that soundness is not to look at, and whether only where the
    /// sums are right in 64 bits.
    static LEFT_OUT: Cell<(CardFault, bool)> = const { Cell::new(ALONE[0]) };
}

/// A registration that lets one fault pass.
fn lenient(account: &mut [u64], cards: &mut [Card], step: BoxStep, answer: &mut [u64]) -> u64 {
    let returned = (REFERENCE.box_call)(account, cards, step, answer);
    let Some(all) = <&Numbers>::try_from(&*account).ok() else {
        return returned;
    };
    let faults = broken_cards(all, cards);
    let (left_out, wraps) = LEFT_OUT.get();
    let passes =
        |(fault, by): &(CardFault, u128)| *fault == left_out && by.is_multiple_of(1 << 64) == wraps;
    let lets_pass = !faults.is_empty() && faults.iter().all(passes) && broken(all).is_empty();
    match step.call {
        code::REGISTER if returned == 0 && lets_pass => ACCEPTED,
        _ => returned,
    }
}

/// family-11: a meter whose soundness leaves out any one condition of cards is
/// found.
#[test]
fn every_condition_of_cards_is_looked_at() {
    let other = Side {
        box_call: lenient,
        ..REFERENCE
    };
    for fault in ALONE {
        LEFT_OUT.set(fault);
        let told = compared(other).err();
        let told = told.unwrap_or_else(|| panic!("{fault:?} is not missed"));
        let what = &told.what;
        assert!(what.contains("returned 1000, not 0"), "{what}");
        assert!(!told.cards.is_empty());
    }
}

/// family-11: boxes with a fault have it alone.
#[test]
fn faulty_boxes_are_what_they_are_made_for() {
    let mut rng = Rng::new(41);
    for (fault, wraps) in ALONE {
        let mut by_one = 0;
        for _ in 0..60 {
            let (all, cards) = faulty(&mut rng, (fault, wraps));
            assert_eq!(broken(&all), []);
            let faults = broken_cards(&all, &cards);
            let [(found, by)] = faults[..] else {
                panic!("{fault:?}: {faults:?}");
            };
            assert_eq!((found, by.is_multiple_of(1 << 64)), (fault, wraps));
            by_one += u64::from(by == 1);
        }
        assert!(wraps || by_one > 10, "{fault:?}");
    }
}

//! The two functions of include/meter.h for a family box, as this crate's meter
//! gives them, and the events that they come to, by hand. Rules family-1 to
//! family-14, library-3 to library-7.

mod common;
use common::*;
use reference::coverage::boxes::BoxObserved;
use reference::coverage::seen::{rest, Seen};
use reference::coverage::{Coverage, TripEvents};
use reference::family::interface::{code, BoxStep, KeptBox};
use reference::family::{Card, CardCall, Family, MAX_ALLOWANCE};
use reference::numbers::{at, numbers, Numbers, ACCOUNT_NUMBERS};
use reference::plan::Plan;
use reference::sides::{ACCEPTED, BAD_ARGUMENT, REFERENCE};
use reference::terms::{Call, Kind};

/// Prepaid from day 1461, 10,000 points a GB, 600 a minute, 500 an SMS.
const PLAN: [u64; 7] = [0, 1461, 10_000, 600, 500, 0, 0];
const ANY: Numbers = [u64::MAX; ACCOUNT_NUMBERS];

/// Two cards as they may lie in memory before the opening.
fn old_cards() -> [Card; 2] {
    [100, 3_000_000].map(|allowance| Card {
        lifetime: [7; 4],
        monthly: 9,
        allowance,
    })
}

fn step(call: u64, card: usize, which: u64, n: u64) -> BoxStep {
    BoxStep {
        call,
        card,
        which,
        n,
    }
}

fn call(account: &mut [u64], cards: &mut [Card], step: BoxStep) -> (u64, [u64; 5]) {
    let mut answer = [9; 5];
    let returned = (REFERENCE.box_call)(account, cards, step, &mut answer);
    (returned, answer)
}

/// A card is six numbers of 8 bytes, in the order of the header.
#[test]
fn the_layout_of_a_card() {
    assert_eq!((size_of::<Card>(), align_of::<Card>()), (48, 8));
    let card = Card {
        lifetime: [1, 2, 3, 4],
        monthly: 5,
        allowance: 6,
    };
    // SAFETY: both are six numbers without gaps.
    let six: [u64; 6] = unsafe { std::mem::transmute(card) };
    assert_eq!(six, [1, 2, 3, 4, 5, 6]);
}

/// family-3, family-6, library-6: a box call by call. 2,097,152 kB cost 20,000
/// points, and the credit of 22,000 bought L.
#[test]
fn a_box_call_by_call() {
    let (mut account, mut cards) = (ANY, old_cards());
    let opened = (REFERENCE.box_open)(&mut account, &mut cards, &PLAN);
    assert_eq!(opened, ACCEPTED);
    assert_eq!(cards, [Card::new(100), Card::new(3_000_000)]);
    let top_up = step(code::TOP_UP, usize::MAX, u64::MAX, 22_000);
    assert_eq!(call(&mut account, &mut cards, top_up).0, ACCEPTED);
    let register = step(code::REGISTER, usize::MAX, 1, u64::MAX);
    assert_eq!(call(&mut account, &mut cards, register).0, ACCEPTED);
    let of_second = step(code::USE, 1, 0, 2_097_152);
    let told = call(&mut account, &mut cards, of_second);
    assert_eq!(told, (ACCEPTED, [20_000, 0, 0, 2_097_152, 1]));
    let (account_now, cards_now) = (account, cards);
    let of_first = step(code::USE, 0, 0, 101);
    assert_eq!(call(&mut account, &mut cards, of_first), (20, [9; 5]));
    let of_third = step(code::USE, 2, 0, 1);
    assert_eq!(call(&mut account, &mut cards, of_third), (19, [9; 5]));
    assert_eq!((account, cards), (account_now, cards_now));
    let of_first = step(code::USE, 0, 3, 1);
    let told = call(&mut account, &mut cards, of_first);
    assert_eq!(told, (ACCEPTED, [500, 0, 0, 1, 0]));
    let afford = step(code::AFFORD, 0, 0, u64::MAX);
    let told = call(&mut account, &mut cards, afford);
    assert_eq!(told, (ACCEPTED, [100, 9, 9, 9, 9]));
    assert_eq!(cards[0].lifetime, [0, 0, 0, 1]);
    assert_eq!(cards[1].lifetime, [2_097_152, 0, 0, 0]);
    assert_eq!((cards[0].monthly, cards[1].monthly), (0, 2_097_152));
    assert_eq!(
        account[at::LIFETIME..at::CHARGED_SECONDS],
        [2_097_152, 0, 0, 1]
    );
    let next = step(code::NEXT_DAY, usize::MAX, u64::MAX, u64::MAX);
    assert_eq!(call(&mut account, &mut cards, next).0, ACCEPTED);
    assert_eq!(account[at::DAY], 1462);
}

/// library-4, family-11, family-12: what comes before what, all at once: the
/// account is none, and the list too long.
#[test]
fn bad_arguments_come_first() {
    let (mut account, mut cards) = (ANY, [old_cards()[0]; 17]);
    let before = cards;
    let bad = [
        step(5, 0, 0, 1),
        step(1 << 32, 0, 0, 1),
        step(u64::MAX, 0, 0, 1),
        step(code::REGISTER, 0, 3, 0),
        step(code::REGISTER, 0, 1 << 32, 0),
        step(code::USE, 0, 4, 0),
        step(code::AFFORD, 99, 4, 0),
    ];
    for step in bad {
        assert_eq!(call(&mut account, &mut cards, step), (BAD_ARGUMENT, [9; 5]));
    }
    for (call, room) in [(code::USE, 4), (code::AFFORD, 0)] {
        let mut answer = [9; 5];
        let room = &mut answer[..room];
        let returned = (REFERENCE.box_call)(&mut account, &mut cards, step(call, 0, 0, 1), room);
        assert_eq!(returned, BAD_ARGUMENT);
    }
    for plan in [&PLAN[..6], &[0; 8]] {
        let returned = (REFERENCE.box_open)(&mut account[1..], &mut cards, plan);
        assert_eq!(returned, BAD_ARGUMENT);
    }
    for count in [0, 1648] {
        let returned = (REFERENCE.box_open)(&mut account[..count], &mut cards, &[9; 7]);
        assert_eq!(returned, 0);
    }
    for number in 0..5 {
        let step = step(number, 99, 0, 0);
        assert_eq!(call(&mut account, &mut cards, step), (0, [9; 5]));
        assert_eq!(call(&mut account[1..], &mut cards, step), (0, [9; 5]));
    }
    assert_eq!((REFERENCE.box_open)(&mut account, &mut cards, &PLAN), 19);
    cards[0].allowance = MAX_ALLOWANCE + 1;
    let opened = (REFERENCE.box_open)(&mut account, &mut cards[..16], &PLAN);
    assert_eq!(opened, 20);
    cards[0] = before[0];
    assert_eq!((account, cards), (ANY, before));
}

/// A box that is kept goes as its numbers do.
#[test]
fn kept_boxes_go_as_their_numbers() {
    for seed in 0..150 {
        let case = reference::family::generate::case(seed);
        let mut kept = KeptBox::new(case.begin());
        let mut all = *kept.numbers;
        let mut cards = kept.family.cards.clone();
        for made in case.calls.iter().take(300) {
            let step = BoxStep::from(*made);
            assert_eq!(step.made(), Some(*made));
            let (mut ours, mut theirs) = ([9; 6], [9; 6]);
            let returned = kept.make(step, &mut ours);
            let other = (REFERENCE.box_call)(&mut all, &mut cards, step, &mut theirs);
            assert_eq!((returned, ours), (other, theirs), "{made:?}");
            assert_eq!((&*kept.numbers, &kept.family.cards), (&all, &cards));
        }
    }
}

/// A box of these allowances, opened under a plan.
fn family(plan: Plan, allowances: &[u64]) -> Family {
    let cards = allowances.iter().map(|most| Card::new(*most)).collect();
    Family::open(plan, cards).unwrap()
}

/// The events of some calls on a box.
fn box_events(family: &Family, calls: &[(usize, Call)]) -> Coverage {
    let mut kept = KeptBox::new(family.clone());
    let mut events = TripEvents::default();
    for (card, call) in calls {
        let made = CardCall {
            card: *card,
            call: *call,
        };
        let (step, before) = (BoxStep::from(made), *rest(&kept.numbers));
        let (cards, mut answer) = (kept.family.cards.clone(), [0; 5]);
        let mut alone = [0];
        let asked = (REFERENCE.afford)(&*kept.numbers, step.which, &mut alone);
        let returned = kept.make(step, &mut answer);
        let seen = BoxObserved {
            step,
            returned,
            answer: &answer,
            before: Seen(&before),
            now: Seen(rest(&kept.numbers)),
            cards: &cards,
            cards_now: &kept.family.cards,
            alone: (asked == ACCEPTED).then_some(alone[0]),
        };
        events.box_call(&seen).expect("a known return");
    }
    let mut coverage = Coverage::new();
    coverage.add(&events);
    coverage
}

/// Which of some events the calls come to.
fn reached(family: &Family, calls: &[(usize, Call)], names: &[&str]) -> Vec<u64> {
    let events = box_events(family, calls);
    names.iter().map(|name| events.count(name)).collect()
}

/// family-13, refusal-6: 10 points pay for 1,153 kB at 10,000 points a GB.
#[test]
fn events_of_allowance_and_credit() {
    let plan = prepaid(1461, 10_000, 0, 0);
    let mut family = family(plan, &[1152, 1153, 1154, 0]);
    family
        .apply(CardCall {
            card: 0,
            call: Call::TopUp(10),
        })
        .unwrap();
    let afford = Call::Afford(Kind::Data);
    let names = [
        "card's Afford cut by the allowance",
        "card's Afford cut by both alike",
        "card's Afford cut by the credit",
        "card's Afford 0 by the allowance alone",
    ];
    let told = |card| reached(&family, &[(0, home()), (card, afford)], &names);
    assert_eq!(told(0), [1, 0, 0, 0]);
    assert_eq!(told(1), [0, 1, 0, 0]);
    assert_eq!(told(2), [0, 0, 1, 0]);
    assert_eq!(told(3), [1, 0, 0, 1]);
    let names = [
        "box use 20 before 6",
        "box use 20 by one kB",
        "data that just comes to the allowance",
        "box use 20, allowance 0",
    ];
    let told = |card, n| reached(&family, &[(0, home()), (card, data(n))], &names);
    assert_eq!(told(0, 1153), [0, 1, 0, 0]);
    assert_eq!(told(0, 1154), [1, 0, 0, 0]);
    assert_eq!(told(0, 1152), [0, 0, 1, 0]);
    assert_eq!(told(2, 1154), [0; 4], "6 alone");
    assert_eq!(told(3, 1), [0, 1, 0, 1]);
    let unplaced = reached(
        &family,
        &[(4, data(1)), (0, data(1153))],
        &[
            "box use 19 before 3",
            "box use 3 before 20",
            "box use 4 before 20",
        ],
    );
    assert_eq!(unplaced, [1, 1, 0]);
}

/// family-4: the month that begins on day 1492 (1 February 2026).
#[test]
fn events_of_months() {
    let names = [
        "month turn of a card's kB, prepaid",
        "month turn of a card's kB, bundle",
        "month turn of a card's kB, unlimited",
        "month turn of several cards' kB",
        "data after 20 and a month's turn",
        "day change within a month, cards' kB kept",
    ];
    let next = (0, Call::NextDay);
    let plans = [
        prepaid(1490, 0, 0, 0),
        bundle(1490, 0, 0, 5),
        unlimited(1490, 0),
    ];
    for (form, plan) in plans.into_iter().enumerate() {
        let family = family(plan, &[10, 10]);
        let used = [(0, elsewhere()), (0, data(10)), (0, data(1)), next];
        let mut wanted = [0, 0, 0, 0, 0, 1];
        assert_eq!(reached(&family, &used, &names), wanted);
        let turned = [&used[..], &[next, (1, data(1))]].concat();
        wanted[form] = 1;
        assert_eq!(reached(&family, &turned, &names), wanted);
        let again = [&used[..], &[(1, data(9)), next, (0, data(1))]].concat();
        (wanted[3], wanted[4]) = (1, 1);
        assert_eq!(reached(&family, &again, &names), wanted);
    }
}

/// family-11, family-12: 0 before 19, and lists of another length.
#[test]
fn events_of_lists_of_cards() {
    let mut long = family(prepaid(1461, 0, 0, 0), &[5; 16]);
    long.cards.push(Card::new(5));
    let names = ["box use 19, 17 cards", "box use 0 before 19, over 16 cards"];
    assert_eq!(reached(&long, &[(16, data(1))], &names), [1, 0]);
    long.cards[3].lifetime[2] = 1;
    assert_eq!(reached(&long, &[(16, data(1))], &names), [0, 1]);
    long.cards.truncate(16);
    let names = [
        "box use 0 before 19, no such card",
        "box use 19, no such card",
    ];
    assert_eq!(reached(&long, &[(16, data(1))], &names), [1, 0]);
    long.cards[3].lifetime[2] = 0;
    assert_eq!(reached(&long, &[(16, data(1))], &names), [0, 1]);
    long.cards.clear();
    let names = ["box register accepted, no cards", "box use 19, no cards"];
    assert_eq!(reached(&long, &[(0, home()), (0, data(1))], &names), [1, 1]);
}

/// A third opinion: a box that is told sound though it is not, or the other
/// way, is a failure; so is an Afford that is not the lesser of two.
#[test]
fn events_that_must_not_be() {
    let mut family = family(prepaid(1461, 0, 0, 0), &[5, 5]);
    let all = numbers(&family.account);
    let told = |cards: &[Card], returned| {
        let mut events = TripEvents::default();
        events.box_sound(&all, cards, returned).is_ok()
    };
    assert!(told(&family.cards, ACCEPTED) && !told(&family.cards, 0));
    family.cards[1].lifetime[0] = 1;
    assert!(!told(&family.cards, ACCEPTED) && told(&family.cards, 0));
    let cards = [Card::new(5)];
    let seen = |most: &'static [u64; 5], alone| BoxObserved {
        step: step(code::AFFORD, 0, 0, 0),
        returned: ACCEPTED,
        answer: most,
        before: Seen(rest(&all)),
        now: Seen(rest(&all)),
        cards: &cards,
        cards_now: &cards,
        alone: Some(alone),
    };
    let mut events = TripEvents::default();
    assert!(events.box_call(&seen(&[5; 5], 9)).is_ok());
    assert!(events.box_call(&seen(&[9; 5], 9)).is_err());
    assert!(events.box_call(&seen(&[4; 5], 4)).is_ok());
    assert!(events.box_call(&seen(&[4; 5], 9)).is_err());
    let plan = PLAN;
    assert!(events.box_open(1649, &cards, &plan, ACCEPTED).is_ok());
    assert!(events.box_open(1649, &cards, &plan, 19).is_err());
    assert!(events.box_open(1649, &[], &plan, 19).is_ok());
    assert!(events.box_open(1649, &[], &plan, 5).is_err());
}

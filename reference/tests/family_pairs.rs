//! Pairs of lists on family boxes, by hand (family-10), the lists that pairs
//! are made of, and some random boxes through all checks. Rules family-8 to
//! family-10, half-1, list-9.

mod common;
use common::*;
use reference::coverage::{Coverage, TripEvents};
use reference::family::check::{check_box, check_box_pairs};
use reference::family::generate::{case, BoxCase};
use reference::family::matching::{exchanged, rearranged, trace, BoxTrace};
use reference::family::{Card, CardCall};
use reference::rng::Rng;
use reference::terms::{Call, Kind};

/// A box of two cards, with credit.
fn run_of(calls: &[(usize, Call)]) -> BoxTrace {
    trace(&case_of(calls))
}

fn case_of(calls: &[(usize, Call)]) -> BoxCase {
    let paid = [(0, Call::TopUp(1_000_000))];
    let all = paid.iter().chain(calls);
    BoxCase {
        plan: prepaid(1461, 10_000, 600, 500),
        cards: vec![Card::new(1000), Card::new(2000)],
        calls: all
            .map(|(card, call)| CardCall {
                card: *card,
                call: *call,
            })
            .collect(),
    }
}

/// Whether stretches and boxes of two lists agree; the claim must hold.
fn agree(first: &[(usize, Call)], second: &[(usize, Call)]) -> [bool; 2] {
    let (first, second) = (run_of(first), run_of(second));
    assert_eq!(first.stretches.cuts, second.stretches.cuts);
    assert!(first.matches(&second) && second.matches(&first));
    [
        first.stretches.agree(&second.stretches),
        first.boxes == second.boxes,
    ]
}

/// family-10: the order of uses and how they are split do not matter.
#[test]
fn the_same_stretches() {
    let first = [(0, home()), (0, data(30)), (1, data(5)), (1, Call::NextDay)];
    let second = [
        (1, home()),
        (1, data(5)),
        (1, Call::Afford(Kind::Data)),
        (0, data(10)),
        (2, data(7)),
        (0, data(20)),
        (0, data(0)),
        (0, Call::NextDay),
    ];
    assert_eq!(agree(&first, &second), [true; 2]);
}

/// family-10: the same units of the box, and not of each card.
#[test]
fn another_card() {
    let first = [(0, home()), (0, data(30)), (1, data(5))];
    let second = [(0, home()), (0, data(29)), (1, data(6))];
    assert_eq!(agree(&first, &second), [false; 2]);
    let (first, second) = (run_of(&first), run_of(&second));
    let [ours, theirs] = [&first, &second].map(|trace| trace.boxes.last().unwrap());
    assert_eq!(ours.account, theirs.account);
    assert_ne!(ours.cards, theirs.cards);
}

/// family-10: the box's charged seconds count, and not those of each card. Card
/// 0 speaks for 20 s, card 1 for 30 s, both with 90 s charged together.
#[test]
fn charged_seconds_of_the_whole_box() {
    let first = [
        (0, zone()),
        (0, outgoing(9)),
        (0, outgoing(11)),
        (1, outgoing(30)),
    ];
    let second = [
        (0, zone()),
        (0, outgoing(20)),
        (1, outgoing(1)),
        (1, outgoing(29)),
    ];
    assert_eq!(agree(&first, &second), [true; 2]);
    let (first, second) = (run_of(&first), run_of(&second));
    assert_eq!(first.stretches.charged.last(), Some(&vec![60, 30]));
    assert_eq!(second.stretches.charged.last(), Some(&vec![30, 60]));
    assert_eq!(first.boxes.last().unwrap().account.charged, 90);
    // The same seconds in fewer records: 60 charged.
    let fewer = [(0, zone()), (0, outgoing(20)), (1, outgoing(30))];
    let more = [
        (0, zone()),
        (0, outgoing(20)),
        (1, outgoing(10)),
        (1, outgoing(20)),
    ];
    assert_eq!(agree(&fewer, &more), [false; 2]);
}

/// list-9: equal at the end, and not before every cut.
#[test]
fn a_use_on_the_other_side_of_a_cut() {
    let first = [(0, home()), (1, data(1)), (0, home())];
    let second = [(0, home()), (0, home()), (1, data(1))];
    assert_eq!(agree(&first, &second), [false; 2]);
    let (first, second) = (run_of(&first), run_of(&second));
    assert_eq!(first.boxes.last(), second.boxes.last());
}

/// family-2, family-4: a card's month does not tell an earlier month, the
/// lifetime units do; a prepaid plan's month turns no L (day 1461 is 1 January
/// 2026).
#[test]
fn a_use_before_and_after_the_month() {
    let days = vec![(0, Call::NextDay); 31];
    let use_first = [vec![(0, home()), (0, data(9))], days.clone()].concat();
    let use_last = [vec![(0, home())], days, vec![(0, data(9))]].concat();
    assert_eq!(agree(&use_first, &use_last), [false; 2]);
    let last = |calls: &[(usize, Call)]| run_of(calls).boxes.pop().unwrap();
    assert_eq!(last(&use_first).cards[0].monthly, 0);
    assert_eq!(last(&use_last).cards[0].monthly, 9);
    assert_eq!(
        last(&use_first).cards[0].lifetime,
        last(&use_last).cards[0].lifetime
    );
}

/// The lists that pairs are made of have the same stretches, and mostly are
/// other lists; some exchange charged seconds between cards.
#[test]
fn lists_that_are_made_to_agree() {
    let mut rng = Rng::new(3);
    let (mut others, mut exchanges) = (0, 0);
    for seed in 0..300 {
        let case = case(seed);
        let first = trace(&case);
        let calls = rearranged(&mut rng, &first);
        others += u64::from(calls != case.calls);
        let run = |calls: Vec<CardCall>| {
            trace(&BoxCase {
                calls,
                ..case.clone()
            })
        };
        let other = run(calls);
        assert!(first.stretches.agree(&other.stretches), "seed {seed}");
        assert_eq!(first.boxes, other.boxes, "seed {seed}");
        if let Some(calls) = exchanged(&mut rng, &first) {
            let other = run(calls);
            assert!(first.stretches.agree(&other.stretches), "seed {seed}");
            assert_ne!(first.stretches.charged, other.stretches.charged);
            exchanges += 1;
        }
    }
    assert!(others > 200 && exchanges > 10, "{others}, {exchanges}");
}

/// What the pairs of a case come to.
fn events_of_pairs(case: &BoxCase) -> Coverage {
    let mut coverage = Coverage::new();
    for seed in 0..100 {
        let mut events = TripEvents::default();
        let lists = check_box_pairs(case, &mut Rng::new(seed), &mut events).unwrap();
        assert!(lists.len() >= 2);
        coverage.add(&events);
    }
    coverage
}

/// Events of pairs mean what they say.
#[test]
fn events_of_pairs_are_what_they_say() {
    let went = "box: charged seconds that went from a card to another";
    let cards = "box: the same units of other cards";
    let charged = "box: the same units with other charged seconds";
    let called = [
        (0, zone()),
        (0, outgoing(9)),
        (0, outgoing(11)),
        (1, outgoing(30)),
    ];
    let events = events_of_pairs(&case_of(&called));
    assert!(events.count(went) > 0 && events.count(charged) > 0);
    // At home nothing is charged otherwise.
    let at_home = called.map(|(card, call)| (card, if call == zone() { home() } else { call }));
    let events = events_of_pairs(&case_of(&at_home));
    assert_eq!((events.count(went), events.count(charged)), (0, 0));
    assert!(events.count(cards) > 0);
    let one = [(0, home()), (0, Call::Afford(Kind::Data))];
    let events = events_of_pairs(&case_of(&one));
    assert_eq!(events.count("box: the same cuts with other stretches"), 0);
    assert_eq!(events.count(cards), 0);
}

/// family-8, family-10, book-12: some random boxes through all checks.
#[test]
fn random_boxes_hold() {
    let mut calls = 0;
    for seed in 2_000_000..2_000_200 {
        let mut events = TripEvents::default();
        let checked = check_box(seed, &mut events);
        calls += checked.unwrap_or_else(|what| panic!("seed {seed}: {what}"));
    }
    assert!(calls > 5000, "{calls} calls");
}

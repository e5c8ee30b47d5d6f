//! The comparison itself: the meter agrees with itself and comes to every
//! event, and the cases are what they are made for. Meters that go wrong in one
//! point are in wrong_sides.rs, wrong_boxes.rs and wrong_texts.rs. Rules
//! promise-3, library-3.

use reference::accounts::edges::at_edge;
use reference::accounts::{made, reached};
use reference::coverage::returns::Function;
use reference::coverage::soundness::{broken, Condition};
use reference::coverage::{events, list_events, Coverage, TripEvents};
use reference::differ::{Differ, ACCOUNTS_OF_A_SEED, BOXES_OF_A_SEED, LAST_DAY, TEXTS_OF_A_SEED};
use reference::faults::{bad_plan, faults_of, first_number};
use reference::lines::calls::{line_of, sized_calls, some_call, text_of};
use reference::lines::exports::{ExportCase, ExportEdge};
use reference::lines::faults::{fault_of, right, LineFault};
use reference::lines::texts::{Edge, TextCase};
use reference::numbers::account;
use reference::plan::Plan;
use reference::rng::Rng;
use reference::sides::{ACCEPTED, BAD_ARGUMENT, END, REFERENCE};
use reference::writes::WriteCase;
use std::collections::BTreeSet;

/// So many of the seeds have a list on a box, too, and so many have texts.
const BOXES: u64 = 2000;
const TEXTS: u64 = 500;

/// A run of so many seeds, the days included.
fn compared(seeds: u64) -> Differ {
    let mut differ = Differ::new(REFERENCE);
    differ.days(1).expect("the same meter");
    for seed in 1..=seeds {
        differ.trip(seed).expect("the same meter");
        differ.file(seed).expect("the same meter");
        differ.write(seed).expect("the same meter");
        differ.accounts(seed).expect("the same meter");
        if seed <= BOXES {
            differ.boxes(seed).expect("the same meter");
        }
        if seed <= TEXTS {
            differ.texts(seed).expect("the same meter");
        }
    }
    differ
}

/// promise-3: some more than a tenth of a full run comes to every event, and to
/// none that the list lacks.
#[test]
fn a_part_of_a_full_run_comes_to_every_event() {
    let differ = compared(3000);
    assert!(differ.trips > 2800 && differ.longest > 8000);
    assert_eq!(differ.files, 3000);
    assert_eq!(differ.accounts, 3000 * ACCOUNTS_OF_A_SEED);
    assert_eq!(differ.boxes, BOXES);
    assert_eq!(differ.any_boxes, BOXES * BOXES_OF_A_SEED);
    assert_eq!(differ.texts, TEXTS * TEXTS_OF_A_SEED);
    assert!(differ.days > 2 * LAST_DAY);
    let coverage = differ.coverage();
    assert_eq!(coverage.missing(&events()), [""; 0]);
    assert_eq!(coverage.unknown(), [""; 0]);
}

/// No event has two names, and those of lists are among all.
#[test]
fn every_event_is_there_once() {
    let all = events();
    let distinct: BTreeSet<&str> = all.iter().copied().collect();
    assert_eq!(distinct.len(), all.len());
    assert!(list_events().iter().all(|event| distinct.contains(event)));
    assert!(all.len() > 900, "{} events", all.len());
}

/// Only what both sides came to counts.
#[test]
fn events_of_one_side_do_not_count() {
    let (mut ours, mut theirs) = (Coverage::new(), Coverage::new());
    let mut trip = TripEvents::default();
    trip.returned(Function::Read, 10).unwrap();
    ours.add(&trip);
    ours.add(&trip);
    assert_eq!(ours.common(&theirs).count("read 10"), 0);
    theirs.add(&trip);
    assert_eq!(ours.common(&theirs).count("read 10"), 1);
    assert_eq!(theirs.common(&ours).count("read 10"), 1);
    assert_eq!(ours.without(&["read 10"]).count("read 10"), 0);
}

/// order-4: random writes return what they were made for.
#[test]
fn writes_are_what_they_are_made_for() {
    let mut rng = Rng::new(5);
    let mut seen = BTreeSet::new();
    for _ in 0..2000 {
        let case = WriteCase::random(&mut rng);
        let mut answer = [0; 3];
        let room = &mut answer[..case.room];
        let returned = case.run(&REFERENCE, &mut case.buffer.clone(), room);
        assert_eq!(returned, case.expected, "{}", case.outline());
        seen.insert(returned);
    }
    let all = [1, 2, 14, 15, 16, 17, 18, ACCEPTED, BAD_ARGUMENT];
    assert_eq!(Vec::from_iter(seen), all);
}

/// fault-1 to fault-4: bad plans get the number of what is wrong with them.
#[test]
fn bad_plans_are_what_they_are_made_for() {
    let mut rng = Rng::new(17);
    for _ in 0..4000 {
        let (words, number) = bad_plan(&mut rng, &[u64::from(u32::MAX)]);
        assert_eq!(first_number(&faults_of(&words)), number, "{words:?}");
        let plan = Plan::from_words(words.map(|word| word as u32));
        assert_eq!(plan.check(), Err(number), "{words:?}");
    }
}

/// refusal-22: bad lines have the fault that they are made for, and no other.
#[test]
fn bad_lines_are_what_they_are_made_for() {
    let mut rng = Rng::new(43);
    for fault in LineFault::ALL {
        for _ in 0..200 {
            let line = fault.made(&mut rng);
            let shown = String::from_utf8_lossy(&line);
            assert_eq!(right(&line), None, "{fault:?}: {shown:?}");
            assert_eq!(fault_of(&line), Some(fault), "{shown:?}");
        }
    }
    for _ in 0..2000 {
        let call = some_call(&mut rng);
        assert_eq!(right(line_of(call).as_bytes()), Some(call));
    }
}

/// lines-3: lines by the bytes that they have together.
#[test]
fn calls_by_the_bytes_of_their_lines() {
    let mut rng = Rng::new(47);
    for (count, bytes) in [
        (1, 5),
        (1, 17),
        (3, 51),
        (7, 60),
        (500, 4000),
        (8184, 65_536),
    ] {
        let calls = sized_calls(&mut rng, count, bytes);
        assert_eq!((calls.len(), text_of(&calls).len()), (count, bytes));
    }
}

/// What reading a text returns, and answers, where the lists are long enough.
fn read_alone(text: &[u8]) -> (u64, u64) {
    let (mut codes, mut numbers, mut answer) = ([0; 9000], [0; 9000], [0]);
    let returned = (REFERENCE.text_read)(text, &mut codes, &mut numbers, &mut answer);
    (returned, answer[0])
}

/// lines-4: texts at the edges, with a bad line or without.
#[test]
fn texts_at_the_edges_are_what_they_are_made_for() {
    let mut rng = Rng::new(53);
    for edge in Edge::ALL {
        let mut seen = BTreeSet::new();
        for _ in 0..24 {
            let text = TextCase::at_edge(&mut rng, edge).text;
            let (returned, _) = read_alone(&text);
            seen.insert((text.len().min(65_538), returned));
        }
        let numbers: BTreeSet<u64> = seen.iter().map(|(_, returned)| *returned).collect();
        let wanted: &[u64] = match edge {
            Edge::MostLines | Edge::MostBytes | Edge::MostOfBoth => &[22, ACCEPTED],
            Edge::LastUnended | Edge::MostBytesUnended => &[22],
            Edge::OneLineMore | Edge::OneByteMore | Edge::OverBoth | Edge::UnendedMore => &[21],
            Edge::Feeds | Edge::NoFeeds => &[21, 22],
        };
        assert_eq!(Vec::from_iter(numbers), wanted, "{edge:?}");
        let length = |bytes: usize| seen.iter().all(|(length, _)| *length == bytes);
        match edge {
            Edge::MostBytes | Edge::MostOfBoth | Edge::MostBytesUnended => assert!(length(65_536)),
            Edge::OneByteMore => assert!(length(65_537)),
            _ => assert!(!length(65_536)),
        }
    }
}

/// lines-9: exports at the edges, and those of short lists, come to every
/// number.
#[test]
fn exports_are_what_they_are_made_for() {
    let mut rng = Rng::new(59);
    let returned = |case: &ExportCase| {
        let mut answer = [0; 3];
        let room = &mut answer[..case.room];
        case.run(&REFERENCE, &mut case.buffer.clone(), room)
    };
    for edge in ExportEdge::ALL {
        for _ in 0..6 {
            let case = ExportCase::at_edge(&mut rng, edge);
            let wanted: &[u64] = match edge {
                ExportEdge::TooLong(reasons) if reasons.count => &[14, BAD_ARGUMENT],
                ExportEdge::TooLong(reasons) if reasons.call => &[15, BAD_ARGUMENT],
                ExportEdge::TooLong(_) => &[21, BAD_ARGUMENT],
                ExportEdge::OneCallMore => &[14, BAD_ARGUMENT],
                _ => &[16, ACCEPTED, BAD_ARGUMENT],
            };
            let told = returned(&case);
            assert!(
                wanted.contains(&told),
                "{edge:?}, {told}: {}",
                case.outline()
            );
        }
    }
    let short = (0..1000).map(|_| returned(&ExportCase::random(&mut rng)));
    let seen: BTreeSet<u64> = short.collect();
    assert_eq!(Vec::from_iter(seen), [14, 15, 16, ACCEPTED, BAD_ARGUMENT]);
}

/// sound-1 to sound-11: accounts at an edge are sound; past it they break that
/// condition alone, by one.
#[test]
fn accounts_at_the_edges_are_what_they_are_made_for() {
    let mut rng = Rng::new(29);
    for condition in Condition::ALL {
        for _ in 0..40 {
            let edge = at_edge(&mut rng, *condition, false);
            assert_eq!(broken(&edge), [], "{condition:?}");
            assert_eq!((REFERENCE.is_sound)(&*edge), ACCEPTED, "{condition:?}");
            let past = at_edge(&mut rng, *condition, true);
            assert_eq!(broken(&past), [(*condition, 1)]);
            assert_eq!((REFERENCE.is_sound)(&*past), 0, "{condition:?}");
        }
    }
}

/// Accounts that are made are sound, and so are those that lists lead to.
#[test]
fn accounts_are_sound() {
    let mut rng = Rng::new(31);
    let mut full = 0;
    for _ in 0..2000 {
        let all = made(&mut rng);
        assert_eq!(broken(&all), []);
        let account = account(&*all).expect("the numbers of an account");
        assert!(account.sound());
        full += u64::from(account.log.len() == 123);
    }
    assert!((200..1800).contains(&full), "{full} with a full log");
    for _ in 0..200 {
        let all = reached(&mut rng);
        assert_eq!(broken(&all), []);
        assert_eq!((REFERENCE.is_sound)(&*all), ACCEPTED);
    }
}

/// library-3: a number that a function never returns is no event.
#[test]
fn unknown_returns_are_failures() {
    let mut events = TripEvents::default();
    let known: [(Function, &[u64]); 7] = [
        (Function::Read, &[1, 2, 10, 11, 12, 13, 14, 15, 17, 18]),
        (Function::Find, &[10, 11, 12, 13]),
        (Function::Write, &[1, 2, 14, 15, 16, 17, 18]),
        (Function::Use, &[0, 3, 4, 5, 6]),
        (Function::NextDay, &[0, 9]),
        (Function::TextRead, &[16, 21, 22]),
        (Function::TextWrite, &[14, 15, 16, 21]),
    ];
    for (function, numbers) in known {
        for number in 0..30 {
            let right = numbers.contains(&number);
            let known = events.returned(function, number).is_ok();
            assert_eq!(known, right, "{function:?} {number}");
        }
        assert!(events.returned(function, ACCEPTED).is_ok());
        assert!(events.returned(function, END).is_err());
        assert!(events.returned(function, u64::MAX).is_err());
    }
    assert!(events.returned(Function::Call, END).is_ok());
    assert!(events.returned(Function::TopUp, BAD_ARGUMENT).is_err());
}

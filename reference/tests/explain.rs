//! The explanation of a trip file, and the words of its refusals. The texts
//! here were written by hand from the rules, among them file-8, limit-6,
//! limit-7, half-1, order-3, order-4.

mod common;
use common::*;
use reference::explain::{explained, sentences, with_words};
use reference::stored::{cases, named, sentences_table};
use reference::tripfile::read;

/// 01's printed example (statement-1).
const FERRY: &str = "\
open: accepted
    day 1461, place none, credit 0, limit 0, roamed 0
1 topup 22000: accepted
    day 1461, place none, credit 22000, limit 0, roamed 0
2 register zone: accepted
    day 1461, place zone, credit 22000, limit 2097152, roamed 0
3 data 2097152: accepted, home 20000, extra 0, charged 2097152 kB, surcharged 0 kB, notice
    day 1461, place zone, credit 2000, limit 2097152, roamed 2097152
4 data 1: accepted, home 0, extra 0, charged 1 kB, surcharged 1 kB
    day 1461, place zone, credit 2000, limit 2097152, roamed 2097153
5 data 104857: refused 6
    day 1461, place zone, credit 2000, limit 2097152, roamed 2097153
6 sms 1: accepted, home 500, extra 0, charged 1 SMS, surcharged 0 SMS
    day 1461, place zone, credit 1500, limit 2097152, roamed 2097153
";

/// limit-6: under a bundle that is not open.
const BUNDLE_TRIP: &str = "\
open: accepted
    day 1460, place none, credit 0, limit none, roamed 0
1 out 1: refused 3
    day 1460, place none, credit 0, limit none, roamed 0
2 topup 100: accepted
    day 1460, place none, credit 100, limit none, roamed 0
3 register home: accepted
    day 1460, place home, credit 100, limit none, roamed 0
4 in 61: accepted, home 0, extra 0, charged 61 s, surcharged 0 s
    day 1460, place home, credit 100, limit none, roamed 0
5 register zone: accepted
    day 1460, place zone, credit 100, limit none, roamed 0
6 out 29: accepted, home 30, extra 0, charged 30 s, surcharged 0 s
    day 1460, place zone, credit 70, limit none, roamed 0
7 data 7: accepted, home 0, extra 0, charged 7 kB, surcharged 0 kB
    day 1460, place zone, credit 70, limit none, roamed 7
8 register elsewhere: accepted
    day 1460, place elsewhere, credit 70, limit none, roamed 7
9 sms 2: accepted, home 0, extra 0, charged 2 SMS, surcharged 0 SMS
    day 1460, place elsewhere, credit 70, limit none, roamed 7
10 nextday: accepted
    day 1461, place elsewhere, credit 70, limit none, roamed 0
11 topup 0: refused 7
    day 1461, place elsewhere, credit 70, limit none, roamed 0
";

#[test]
fn the_example_call_by_call() {
    assert_eq!(explained(&named("ferry").bytes), FERRY);
}

/// Every name of a call, every place, a short zone call (half-1), a limit of
/// none (limit-6), and a month's first day, on which R is cleared (limit-7).
#[test]
fn names_places_and_units() {
    let plan = bundle(1460, 0, 13_000, 1_048_576);
    let calls = [
        (3, 1),
        (6, 100),
        (1, 0),
        (4, 61),
        (1, 1),
        (3, 29),
        (2, 7),
        (1, 2),
        (5, 2),
        (7, 0),
        (6, 0),
    ];
    assert_eq!(explained(&file(&plan, &calls)), BUNDLE_TRIP);
}

/// As a statement is (statement-2).
#[test]
fn a_bad_file_is_one_line() {
    for case in cases() {
        let text = explained(&case.bytes);
        match read(&case.bytes) {
            Err(number) => assert_eq!(text, format!("file {number}\n"), "{}", case.name),
            Ok(trip) => assert_eq!(text.lines().count(), 2 + 2 * trip.calls.len()),
        }
    }
}

#[test]
fn words_follow_refusals_alone() {
    let table = "# 6 no sentence\n6 Pay more.\n17 Ask less: it is too dear.\n";
    assert_eq!(
        with_words("file 17\n", table),
        "file 17: Ask less: it is too dear.\n"
    );
    let line = "5 data 104857: refused 6\n";
    let worded = FERRY.replace(line, "5 data 104857: refused 6: Pay more.\n");
    assert_ne!(worded, FERRY);
    assert_eq!(with_words(FERRY, table), worded);
    assert_eq!(with_words("file 2\n", table), "file 2\n");
}

/// order-3, order-4, lines-9, lines-10: the numbers of all operations are 0 to
/// 22, and each has its sentence.
#[test]
fn every_number_has_a_sentence() {
    let table = sentences_table();
    let sentences = sentences(&table);
    let numbers: Vec<u32> = sentences.keys().copied().collect();
    assert_eq!(numbers, Vec::from_iter(0..=22));
    for (number, sentence) in sentences {
        assert!(sentence.ends_with('.'), "{number}");
        assert!(sentence.is_ascii() && sentence.len() > 10, "{number}");
    }
    for case in cases() {
        let text = explained(&case.bytes);
        let worded = with_words(&text, &table);
        for (plain, line) in text.lines().zip(worded.lines()) {
            let refused = plain.contains("refused") || plain.starts_with("file");
            assert_eq!(line != plain, refused, "{line}");
        }
    }
}

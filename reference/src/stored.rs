//! The stored inputs of the programs and what they must print: trip files made
//! here, each with a name and a line that says what it is, and the output that
//! this crate's meter gives.

use crate::damage::{assemble, resum, set, to_bytes};
use crate::explain::{explained, with_words};
use crate::meter::{Account, Answer};
use crate::plan::{Plan, BUNDLE, PREPAID, UNLIMITED};
use crate::statement::{figures_of, limit_text, statement};
use crate::terms::{Kind, Place};
use crate::tripfile::{write, BEFORE_CALLS, MAX_CALLS, MAX_FILE};
use std::path::Path;

/// A trip file, or bytes that are none.
#[derive(Clone, Debug)]
pub struct StoredCase {
    pub name: &'static str,
    pub what: &'static str,
    pub bytes: Vec<u8>,
}

/// Where the inputs of `statement` are, by pairs NAME.trip and NAME.out.
pub const STATEMENT_FOLDER: &str = "examples/statement";

/// Where those of `explain` are, likewise; the texts have their words.
pub const EXPLAIN_FOLDER: &str = "examples/explain";

/// The sentences of the refusal numbers, in the repository.
pub const SENTENCES: &str = "refusals.txt";

/// Code and number of a call.
type Words = (u32, u32);

const HOME: Words = (1, 0);
const ZONE: Words = (1, 1);
const ELSEWHERE: Words = (1, 2);
const NEXT_DAY: Words = (7, 0);

/// statement-1: the plan and the calls of 01's printed example.
const FERRY_PLAN: [u32; 7] = [PREPAID, 1461, 10_000, 600, 500, 0, 0];
const FERRY_CALLS: [Words; 6] = [
    (6, 22_000),
    ZONE,
    (2, 2_097_152),
    (2, 1),
    (2, 104_857),
    (5, 1),
];

/// order-4: a bad file for each number that reading gives, in the order in
/// which it looks. Both programs are run on them.
const BAD_FILES: [&str; 10] = [
    "eleven_bytes",
    "other_start_day",
    "gap_before_calls",
    "no_calls_section",
    "plan_of_32_bytes",
    "code_8",
    "form_3",
    "price_1000001",
    "volume_0",
    "start_180",
];

/// What else the program `statement` is run on.
const OF_STATEMENT: [&str; 12] = [
    "ferry",
    "empty",
    "price_and_fee",
    "unused_too_large",
    "fee_and_day",
    "limit_none",
    "off_days_cleared",
    "row_of_1826",
    "half_minute",
    "largest",
    "largest_and_a_byte",
    "largest_and_a_word",
];

/// What else the program `explain` is run on.
const OF_EXPLAIN: [&str; 4] = ["ferry", "half_minute", "limit_none", "every_refusal"];

/// All cases, in the order in which they are stored.
pub fn cases() -> Vec<StoredCase> {
    let mut all = vec![case("ferry", "the example of 01", ferry())];
    all.extend(bad_tables());
    all.extend(bad_bodies());
    all.extend(bad_prices());
    all.extend(bad_fees());
    all.extend(two_faults());
    all.extend(trips());
    all.extend(plan_trips());
    all.extend(service_trips());
    all.extend(off_day_trips());
    all.extend(row_trips());
    all.extend(half_minute_trips());
    all.extend(large_files());
    all
}

/// Those of `statement`.
pub fn statement_cases() -> Vec<StoredCase> {
    cases_among(&OF_STATEMENT)
}

/// Those of `explain`.
pub fn explain_cases() -> Vec<StoredCase> {
    cases_among(&OF_EXPLAIN)
}

/// The cases of these names, and the bad files.
fn cases_among(names: &[&str]) -> Vec<StoredCase> {
    let mut all = cases();
    all.retain(|case| names.contains(&case.name) || BAD_FILES.contains(&case.name));
    all
}

fn case(name: &'static str, what: &'static str, bytes: Vec<u8>) -> StoredCase {
    StoredCase { name, what, bytes }
}

/// The file of a plan and calls that the writer takes.
fn file(plan: [u32; 7], calls: &[Words]) -> Vec<u8> {
    let (codes, numbers): (Vec<u32>, Vec<u32>) = calls.iter().copied().unzip();
    let mut bytes = vec![0; BEFORE_CALLS + 8 * calls.len()];
    write(&Plan::from_words(plan), &codes, &numbers, &mut bytes)
        .expect("a plan and calls to write");
    bytes
}

/// The body of a calls section.
fn calls_body(calls: &[Words]) -> Vec<u8> {
    let words = calls.iter().flat_map(|(code, number)| [*code, *number]);
    to_bytes(&words.collect::<Vec<u32>>())
}

/// The file of a plan body and of calls of any words.
fn any_file(plan: &[u32], calls: &[Words]) -> Vec<u8> {
    assemble(&[(1, to_bytes(plan)), (2, calls_body(calls))])
}

fn ferry() -> Vec<u8> {
    file(FERRY_PLAN, &FERRY_CALLS)
}

/// The example with one word of the file altered and the sum made right.
fn ferry_with(index: usize, word: u32) -> Vec<u8> {
    let mut bytes = ferry();
    set(&mut bytes, index, word);
    resum(&mut bytes);
    bytes
}

/// The example with one call more.
fn ferry_and(call: Words) -> Vec<u8> {
    let mut calls = FERRY_CALLS.to_vec();
    calls.push(call);
    any_file(&FERRY_PLAN, &calls)
}

/// refusal-10 to refusal-13: bad files.
fn bad_tables() -> Vec<StoredCase> {
    let mut longer = ferry();
    longer.extend([0; 4]);
    let mut other_day = ferry();
    set(&mut other_day, 10, 1460);
    let half = 1 << 31;
    let mut wraps = ferry_with(4, 36 + half);
    set(&mut wraps, 5, 28 + half);
    resum(&mut wraps);
    vec![
        case("empty", "10: no bytes at all", Vec::new()),
        case(
            "eleven_bytes",
            "10: the first 11 bytes of the example",
            ferry()[..11].to_vec(),
        ),
        case("a_word_more", "10: the example and 4 bytes more", longer),
        case(
            "other_start_day",
            "11: the example with another start day and the old sum",
            other_day,
        ),
        case(
            "gap_before_calls",
            "12: the calls section starts 4 bytes late",
            ferry_with(7, 68),
        ),
        case(
            "nine_sections",
            "12: a count of nine sections",
            ferry_with(2, 9),
        ),
        case(
            "plan_wraps",
            "12: the plan's start and length are right only if sums wrap",
            wraps,
        ),
        case(
            "plan_twice",
            "13: both sections are plans",
            ferry_with(6, 1),
        ),
        case(
            "no_calls_section",
            "13: a section of kind 3 in the place of the calls",
            ferry_with(6, 3),
        ),
    ]
}

/// refusal-14, refusal-15, refusal-1, refusal-2: bad files.
fn bad_bodies() -> Vec<StoredCase> {
    let longer_plan = [&FERRY_PLAN[..], &[0]].concat();
    vec![
        case(
            "plan_of_32_bytes",
            "14: the plan section has 32 bytes",
            any_file(&longer_plan, &FERRY_CALLS),
        ),
        case(
            "no_calls",
            "14: the calls section is empty",
            any_file(&FERRY_PLAN, &[]),
        ),
        case("code_8", "15: a seventh call of code 8", ferry_and((8, 0))),
        case(
            "register_3",
            "15: a seventh call registers at place 3",
            ferry_and((1, 3)),
        ),
        case(
            "next_day_1",
            "15: a seventh call is a next day of number 1",
            ferry_and((7, 1)),
        ),
        case("form_3", "1: a plan of form 3", ferry_with(9, 3)),
        case(
            "prepaid_with_fee",
            "1: a prepaid plan with a fee",
            ferry_with(14, 1),
        ),
        case(
            "start_180",
            "2: a start day before the first",
            ferry_with(10, 180),
        ),
    ]
}

/// A bundle that Open accepts, of two GB a month.
const BUNDLE_PLAN: [u32; 7] = [BUNDLE, 1461, 10_000, 600, 500, 5000, 2_097_152];
/// An unlimited one.
const UNLIMITED_PLAN: [u32; 7] = [UNLIMITED, 1461, 0, 600, 500, 5000, 0];

/// The example's calls under a plan with some of its seven words altered.
fn altered_plan(mut plan: [u32; 7], words: &[(usize, u32)]) -> Vec<u8> {
    for (index, word) in words {
        plan[*index] = *word;
    }
    any_file(&plan, &FERRY_CALLS)
}

/// fault-2: prices that are too high.
fn bad_prices() -> Vec<StoredCase> {
    let with = |index| altered_plan(FERRY_PLAN, &[(index, 1_000_001)]);
    vec![
        case(
            "price_1000001",
            "17: a data price of 1,000,001 points a GB",
            with(2),
        ),
        case(
            "minute_price_1000001",
            "17: a price of 1,000,001 points an outgoing minute",
            with(3),
        ),
        case(
            "sms_price_1000001",
            "17: a price of 1,000,001 points an SMS",
            with(4),
        ),
    ]
}

/// fault-3: fees and V out of range.
fn bad_fees() -> Vec<StoredCase> {
    vec![
        case(
            "fee_10000001",
            "18: a bundle with a fee of 10,000,001 points",
            altered_plan(BUNDLE_PLAN, &[(5, 10_000_001)]),
        ),
        case(
            "unlimited_fee_10000001",
            "18: an unlimited plan with a fee of 10,000,001 points",
            altered_plan(UNLIMITED_PLAN, &[(5, 10_000_001)]),
        ),
        case(
            "volume_0",
            "18: a bundle with a V of 0 kB",
            altered_plan(BUNDLE_PLAN, &[(6, 0)]),
        ),
        case(
            "volume_1073741825",
            "18: a bundle with a V of 1,073,741,825 kB",
            altered_plan(BUNDLE_PLAN, &[(6, 1_073_741_825)]),
        ),
    ]
}

/// fault-1 to fault-4: the number that is told first, where two would do.
fn two_faults() -> Vec<StoredCase> {
    vec![
        case(
            "price_and_fee",
            "17: a bundle with an SMS price of 1,000,001 and a fee of 10,000,001 points",
            altered_plan(BUNDLE_PLAN, &[(4, 1_000_001), (5, 10_000_001)]),
        ),
        case(
            "unused_and_price",
            "1: a prepaid plan with a V of 1 kB and a data price of 1,000,001 points",
            altered_plan(FERRY_PLAN, &[(2, 1_000_001), (6, 1)]),
        ),
        case(
            "fee_and_day",
            "18: a bundle with a fee of 10,000,001 points that starts on day 180",
            altered_plan(BUNDLE_PLAN, &[(1, 180), (5, 10_000_001)]),
        ),
        case(
            "unused_too_large",
            "1: a prepaid plan with a fee of 10,000,001 points",
            altered_plan(FERRY_PLAN, &[(5, 10_000_001)]),
        ),
        case(
            "form_3_and_price",
            "1: a plan of form 3 with a price of 1,000,001 points an outgoing minute",
            altered_plan(FERRY_PLAN, &[(0, 3), (3, 1_000_001)]),
        ),
    ]
}

/// plan-2 to plan-4: under a bundle with every field at its limit, a minute and
/// an SMS at home, a million points each; then zone data up to a GB past V, and
/// all SMS that the credit pays for.
fn largest_plan() -> Vec<u8> {
    let most = 1_000_000;
    let plan = [BUNDLE, 1461, most, most, most, 10_000_000, 1_073_741_824];
    let calls = [
        (6, 10_000_000),
        HOME,
        (2, 1_048_576),
        (3, 60),
        (5, 1),
        ZONE,
        (2, 1_000_000_000),
        (2, 73_741_824),
        (5, 7),
        (5, 1),
    ];
    file(plan, &calls)
}

/// refusal-3 to refusal-9: a trip in which a call is refused by each number
/// that a call of a file can be refused by, and calls of each kind are
/// accepted.
fn every_refusal() -> Vec<u8> {
    let top_up = (6, 10_000_000);
    let mut calls = vec![(2, 1), (6, 0), (6, 10_000_001), top_up];
    calls.extend([HOME, (2, 1_048_576), (2, 0), (3, 60), (4, 60)]);
    calls.extend([(5, 1_000_000_001), (3, 1_000_000), ZONE, (3, 1), (4, 7)]);
    calls.extend([(2, 1_000_000_000), (2, 47_988_797), (2, 1_048_576)]);
    calls.extend([ELSEWHERE, (2, 1000), (3, 5), (4, 5)]);
    calls.extend([(5, 1_000_000_000); 1000]);
    calls.extend([(5, 1), NEXT_DAY, NEXT_DAY]);
    calls.extend([top_up; 99]);
    calls.extend([(6, 1), HOME, (3, 90)]);
    file([PREPAID, 3832, 5000, 600, 500, 0, 0], &calls)
}

fn plan_trips() -> Vec<StoredCase> {
    vec![
        case(
            "largest_plan",
            "a bundle with all prices, fee and V at their limits: 60 s out and 1 SMS at home, 1 GB past V in the zone, \
             7 SMS there, and one more, refused by 6",
            largest_plan(),
        ),
        case(
            "every_refusal",
            "prepaid, refused by 3, 7 (0 and 10,000,001), 4 (0 and 1,000,000,001), 6, 5 (1,000 uses of 1,000,000,000 SMS, \
             then 1), 9 and 8 (100 top-ups of 10,000,000, then 1), with accepted calls between",
            every_refusal(),
        ),
    ]
}

fn trips() -> Vec<StoredCase> {
    let turned = assemble(&[
        (2, calls_body(&FERRY_CALLS)),
        (1, to_bytes(&FERRY_PLAN)),
        (9, to_bytes(&[1, 2, 3])),
    ]);
    let closed = [BUNDLE, 1096, 5000, 600, 500, 20_000, 1_048_576];
    let limit_none = [
        (6, 10_000),
        ZONE,
        (2, 2_000_000),
        NEXT_DAY,
        (3, 90),
        (4, 90),
    ];
    let unlimited = [UNLIMITED, 181, 0, 100, 50, 300_000, 0];
    let mut heavy = vec![(6, 500_000), ZONE];
    for _ in 0..40 {
        heavy.extend([(2, 20_000_000), NEXT_DAY]);
    }
    vec![
        case(
            "calls_first",
            "the example with the calls first and a section of kind 9",
            turned,
        ),
        case(
            "limit_none",
            "a bundle that is not open: no limit",
            file(closed, &limit_none),
        ),
        case(
            "past_the_limit",
            "unlimited, 20,000,000 zone kB a day: two a month accepted, the second partly past L",
            file(unlimited, &heavy),
        ),
    ]
}

/// From day 181 on: zone days until the service is Surcharged, which is at the
/// 138th day change (service-7: 123 to be Warned; service-8: 15 to decide),
/// uses that then bear the surcharge (use-8), so much at home that the service
/// is Clear at the next change (service-9), and uses in the zone without a
/// surcharge.
fn service_trip(daily: &[Words], borne: &[Words], at_home: Words, spared: &[Words]) -> Vec<u8> {
    let mut calls = vec![(6, 10_000_000), ZONE];
    for _ in 0..138 {
        calls.extend(daily);
        calls.push(NEXT_DAY);
    }
    calls.extend(borne);
    calls.extend([HOME, at_home, NEXT_DAY, ZONE]);
    calls.extend(spared);
    file([PREPAID, 181, 10_000, 600, 500, 0, 0], &calls)
}

fn service_trips() -> Vec<StoredCase> {
    let gb = 1_048_576;
    let calls = [(3, 60), (4, 60)];
    let mut wavering = vec![(6, 10_000_000), ZONE];
    for day in 0..138 {
        wavering.extend([if day == 123 { HOME } else { (2, 100) }, NEXT_DAY]);
    }
    wavering.extend([ZONE, (2, gb)]);
    vec![
        case(
            "data_service",
            "data Warned, Surcharged (1 GB bears it) and cleared",
            service_trip(&[(2, 100)], &[(2, gb)], (2, 2 * gb), &[(2, gb)]),
        ),
        case(
            "calls_service",
            "calls Warned, Surcharged (a minute out and one in bear it) and cleared",
            service_trip(&calls, &calls, (3, 20_000), &calls),
        ),
        case(
            "message_service",
            "SMS Warned, Surcharged (10 SMS bear it) and cleared",
            service_trip(&[(5, 1)], &[(5, 10)], (5, 200), &[(5, 10)]),
        ),
        case(
            "data_spared",
            "data Warned and, after 15 days at home, Clear again: no surcharge",
            file([PREPAID, 181, 10_000, 600, 500, 0, 0], &wavering),
        ),
    ]
}

/// From day 181 on, a box that is mostly off: for each pair the calls of a
/// day and the number of day changes after them; at the end 1 GB in the zone.
fn off_day_trip(days: &[(&[Words], usize)]) -> Vec<u8> {
    let mut calls = vec![(6, 10_000_000)];
    for (of_day, changes) in days {
        calls.extend(*of_day);
        calls.extend(vec![NEXT_DAY; *changes]);
    }
    calls.extend([ZONE, (2, 1_048_576)]);
    file([PREPAID, 181, 10_000, 600, 500, 0, 0], &calls)
}

/// off-1: Warned at the 123rd day change, decided at the 138th.
fn off_day_trips() -> Vec<StoredCase> {
    let zone: &[Words] = &[ZONE, (2, 100)];
    let home: &[Words] = &[HOME];
    vec![
        case(
            "off_days",
            "1 zone day of 123, the others off: data Warned; 1 of 15: Surcharged (1 GB bears it)",
            off_day_trip(&[(zone, 123), (zone, 15)]),
        ),
        case(
            "off_days_tied",
            "1 zone day and 1 home day of 123, the others off: not Warned, and 1 GB bears nothing",
            off_day_trip(&[(zone, 1), (home, 137)]),
        ),
        case(
            "off_days_spared",
            "1 zone day of 123: Warned; 1 zone day and 1 home day of 15, the others off: Clear",
            off_day_trip(&[(zone, 123), (zone, 1), (home, 14)]),
        ),
        case(
            "off_days_cleared",
            "Surcharged as in `off_days` (1 GB bears it), Clear once 2 home days stand beside 2 zone days",
            off_day_trip(&[
                (zone, 123),
                (zone, 15),
                (&[ZONE, (2, 1_048_576)], 1),
                (home, 1),
                (home, 1),
            ]),
        ),
    ]
}

/// use-6: a gigabyte in the zone on the day before a row of caps begins, and
/// one on its first day. L is 0, as the fee is, so that both bear the
/// surcharge.
fn row_trip(first: u32) -> Vec<u8> {
    let gb = (2, 1_048_576);
    let calls = [(6, 100_000), ZONE, gb, NEXT_DAY, gb];
    file([UNLIMITED, first - 1, 0, 0, 0, 0, 0], &calls)
}

/// caps-2, rows-1: every row of caps is found, on both sides of its first day.
fn row_trips() -> Vec<StoredCase> {
    vec![
        case(
            "row_of_365",
            "1 GB past L on day 364 and one on day 365: 20,000 and 18,000 points",
            row_trip(365),
        ),
        case(
            "row_of_730",
            "the same on days 729 and 730: 18,000 and 15,500",
            row_trip(730),
        ),
        case(
            "row_of_1096",
            "the same on days 1095 and 1096: 15,500 and 13,000",
            row_trip(1096),
        ),
        case(
            "row_of_1461",
            "the same on days 1460 and 1461: 13,000 and 11,000",
            row_trip(1461),
        ),
        case(
            "row_of_1826",
            "the same on days 1825 and 1826: 11,000 and 10,000",
            row_trip(1826),
        ),
    ]
}

/// half-1, half-2: outgoing records of 1, 29, 30 and 31 seconds at home, in the
/// zone and elsewhere, at ten points a second.
fn half_minute() -> Vec<u8> {
    let mut calls = vec![(6, 100_000)];
    for place in [HOME, ZONE, ELSEWHERE] {
        calls.extend([place, (3, 1), (3, 29), (3, 30), (3, 31)]);
    }
    file(FERRY_PLAN, &calls)
}

/// half-5: elsewhere, 50 seconds less than the limit of refusal-5; one in the
/// zone is charged 30 of them, and another is refused; then 21 elsewhere are
/// refused, 20 accepted, and one more refused. As spoken all of them would fit.
fn charged_seconds_full() -> Vec<u8> {
    let mut calls = vec![(6, 1000), ELSEWHERE];
    calls.extend([(3, 1_000_000_000); 999]);
    calls.extend([(3, 999_999_950), ZONE, (3, 1), (3, 1)]);
    calls.extend([ELSEWHERE, (3, 21), (3, 20), (3, 1)]);
    file(FERRY_PLAN, &calls)
}

/// half-1: outgoing zone records are charged half a minute at least.
fn half_minute_trips() -> Vec<StoredCase> {
    let credit = [(6, 300), ZONE, (3, 1), (6, 299), (3, 1), HOME, (3, 1)];
    vec![
        case(
            "half_minute",
            "1, 29, 30 and 31 s out at home, in the zone and elsewhere, 10 points a second: 910 + 1,210 + 0, \
             as 30 + 30 + 30 + 31 s are charged in the zone",
            half_minute(),
        ),
        case(
            "half_minute_surcharged",
            "1 s out a day, charged 30, until calls are Surcharged: 1 s and 31 s then bear 61 x 220 / 60 = 223 points; \
             Clear again by 154 spoken zone s against 200 at home",
            service_trip(&[(3, 1)], &[(3, 1), (3, 31)], (3, 200), &[(3, 1)]),
        ),
        case(
            "half_minute_credit",
            "300 points pay for 1 s in the zone; 299 do not, by refusal 6, and pay for it at home: 310 points in all",
            file(FERRY_PLAN, &credit),
        ),
        case(
            "charged_seconds_full",
            "50 s out below 1,000,000,000,000: 1 s in the zone (charged 30, 300 points) and 20 s elsewhere fill them; \
             1, 21 and 1 s are refused by charged seconds alone",
            charged_seconds_full(),
        ),
    ]
}

/// refusal-14: a prepaid plan with as many calls as a file can hold. Each kind
/// of use on each day, 150 days in the zone and 150 outside it in turn, so that
/// all services are Warned, Surcharged and cleared; a top-up every 30 days, and
/// now and then a use that is refused.
fn largest() -> Vec<u8> {
    let mut calls = Vec::new();
    for day in 0.. {
        let place = match day / 150 % 2 {
            0 => 1,
            _ if day % 5 == 0 => 2,
            _ => 0,
        };
        if day % 30 == 0 {
            calls.extend([(6, 4_000_000 + day), (2, 0)]);
        }
        calls.extend([
            (1, place),
            (2, 90_000 + day),
            (3, 90),
            (4, 45),
            (5, 3),
            NEXT_DAY,
        ]);
        if calls.len() >= MAX_CALLS {
            break;
        }
    }
    calls.truncate(MAX_CALLS);
    file([PREPAID, 181, 20_000, 600, 500, 0, 0], &calls)
}

fn large_files() -> Vec<StoredCase> {
    let largest = largest();
    assert_eq!(largest.len(), MAX_FILE);
    let mut byte_over = largest.clone();
    byte_over.push(0);
    let mut word_over = largest.clone();
    word_over.extend([0; 4]);
    set(&mut word_over, 0, MAX_FILE as u32 + 4);
    resum(&mut word_over);
    vec![
        case(
            "largest",
            "the largest file: 8,184 calls, 65,536 bytes",
            largest,
        ),
        case(
            "largest_and_a_byte",
            "10: the largest file and one byte more",
            byte_over,
        ),
        case(
            "largest_and_a_word",
            "10: the largest file and a word more, length and sum right",
            word_over,
        ),
    ]
}

/// What the program `test_trips` prints of a file: the figures in a line.
fn line(bytes: &[u8]) -> String {
    let [day, paid, credit, home, extra, limit, roamed, past, refused] = match figures_of(bytes) {
        Ok(figures) => figures,
        Err(number) => return format!("file {number}"),
    };
    let limit = limit_text(limit);
    format!("{day} {paid} {credit} {home} {extra} {limit} {roamed} {past} {refused}")
}

/// The input of the program `test_trips`: each file after its length.
fn test_trips_input() -> Vec<u8> {
    let with_length =
        |case: StoredCase| [to_bytes(&[case.bytes.len() as u32]), case.bytes].concat();
    cases().into_iter().flat_map(with_length).collect()
}

fn test_trips_output() -> String {
    cases()
        .iter()
        .map(|case| line(&case.bytes) + "\n")
        .collect()
}

/// The list of the cases as text.
fn test_trips_list() -> String {
    let mut text = "# The stored trip files\n\n\
        `stdin` holds these files, each after its length as a word; `stdout` what the program prints, one line for each.\n\
        `cargo run --release --bin stored_cases` in `reference/` makes all three; the lines come from the second\n\
        implementation. A test there holds them to what it makes. A number before a colon is the one that reading gives.\n\n\
        | line | name | bytes | what it is |\n|---|---|---|---|\n"
        .to_string();
    for (index, case) in cases().iter().enumerate() {
        let (line, bytes) = (index + 1, case.bytes.len());
        text += &format!("| {line} | `{}` | {bytes} | {} |\n", case.name, case.what);
    }
    text
}

/// The calls that the program `test_cost` is asked for: a letter and a
/// digit, which stands for hundreds.
pub const TEST_COST: &str = "u1r1t1n1a1";

/// What `test_cost` prints for a letter and a digit: how many calls were
/// accepted, and the credit, the day or the most that Afford then gives. The
/// account is prepaid, in the zone, topped up a hundred times by 1,000 points,
/// and has gone through 130 days.
fn test_cost_line(letter: char, hundreds: u32) -> String {
    let plan = Plan::from_words([PREPAID, 181, 1_000_000, 600, 500, 0, 0]);
    let mut account = Account::open(plan).expect("a plan in its ranges");
    let mut accepted = account.register(Place::Zone).is_ok();
    for _ in 0..100 {
        accepted &= account.top_up(1000).is_ok();
    }
    for _ in 0..130 {
        accepted &= account.next_day().is_ok();
    }
    assert!(accepted, "the calls before are accepted");
    let mut call = || match letter {
        'u' => account.use_units(Kind::Data, 1),
        'r' => account.register(Place::Zone),
        't' => account.top_up(1000),
        'n' => account.next_day(),
        _ => account.afford(Kind::Data),
    };
    let answers: Vec<_> = (0..100 * hundreds).map(|_| call()).collect();
    let accepted = answers.iter().filter(|answer| answer.is_ok()).count();
    let shown = match (letter, answers.last()) {
        ('n', _) => u64::from(account.day),
        ('a', Some(Ok(Answer::Most(most)))) => *most,
        _ => account.credit,
    };
    format!("{letter} {accepted} {shown}\n")
}

fn test_cost_output() -> String {
    let letters: Vec<char> = TEST_COST.chars().collect();
    let pair = |pair: &[char]| test_cost_line(pair[0], pair[1].to_digit(10).unwrap_or(0));
    letters.chunks_exact(2).map(pair).collect()
}

/// All stored files that are made here, by their paths in the repository.
pub fn files() -> Vec<(String, Vec<u8>)> {
    let mut all = vec![
        ("crates/test_trips/stdin".to_string(), test_trips_input()),
        (
            "crates/test_trips/stdout".to_string(),
            test_trips_output().into_bytes(),
        ),
        (
            "crates/test_trips/CASES.md".to_string(),
            test_trips_list().into_bytes(),
        ),
        ("crates/test_cost/stdin".to_string(), TEST_COST.into()),
        (
            "crates/test_cost/stdout".to_string(),
            test_cost_output().into_bytes(),
        ),
    ];
    for StoredCase { name, bytes, .. } in statement_cases() {
        let printed = statement(&bytes).into_bytes();
        all.push((format!("{STATEMENT_FOLDER}/{name}.trip"), bytes));
        all.push((format!("{STATEMENT_FOLDER}/{name}.out"), printed));
    }
    all.extend(explain_files());
    all
}

/// The file and the text of the program `explain` alone, and those of the
/// command with its words.
fn explain_files() -> Vec<(String, Vec<u8>)> {
    let StoredCase { bytes, .. } = named("ferry");
    let printed = explained(&bytes).into_bytes();
    let mut all = vec![
        ("crates/explain/stdin".to_string(), bytes),
        ("crates/explain/stdout".to_string(), printed),
    ];
    let table = sentences_table();
    for StoredCase { name, bytes, .. } in explain_cases() {
        let printed = with_words(&explained(&bytes), &table).into_bytes();
        all.push((format!("{EXPLAIN_FOLDER}/{name}.trip"), bytes));
        all.push((format!("{EXPLAIN_FOLDER}/{name}.out"), printed));
    }
    all
}

/// The table of sentences, as it stands in the repository.
pub fn sentences_table() -> String {
    let place = Path::new(env!("CARGO_MANIFEST_DIR"))
        .join("..")
        .join(SENTENCES);
    std::fs::read_to_string(place).expect("a table of sentences")
}

/// The case of a name.
pub fn named(name: &str) -> StoredCase {
    let found = cases().into_iter().find(|case| case.name == name);
    found.expect("a case of that name")
}

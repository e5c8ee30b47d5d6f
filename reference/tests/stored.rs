//! The stored inputs and outputs of the programs are those that the maker
//! gives, and hold what they are for. Figures here were worked out by hand.
//! Rules statement-1, statement-2, service-7 to service-9, use-11, use-12,
//! caps-2, half-1 to half-5, limit-5, register-2, topup-2, order-4.

use reference::meter::Account;
use reference::services::State;
use reference::statement::{figures_of, statement};
use reference::stored::{cases, explain_cases, files, named, statement_cases, StoredCase};
use reference::stored::{EXPLAIN_FOLDER, STATEMENT_FOLDER};
use reference::terms::{Call, Service};
use reference::tripfile::read;
use std::collections::BTreeSet;
use std::path::{Path, PathBuf};

fn in_repository(path: &str) -> PathBuf {
    Path::new(env!("CARGO_MANIFEST_DIR")).join("..").join(path)
}

/// To make them anew: cargo run --release --bin stored_cases.
#[test]
fn stored_files_are_those_of_the_maker() {
    for (path, bytes) in files() {
        let stored = std::fs::read(in_repository(&path)).unwrap_or_default();
        assert!(stored == bytes, "{path} is not what stored_cases makes");
    }
    let made: BTreeSet<PathBuf> = files().iter().map(|f| in_repository(&f.0)).collect();
    for folder in [STATEMENT_FOLDER, EXPLAIN_FOLDER] {
        for entry in std::fs::read_dir(in_repository(folder)).unwrap() {
            let path = entry.unwrap().path();
            assert!(made.contains(&path), "{} has no maker", path.display());
        }
    }
}

#[test]
fn names_are_unique_and_numbers_are_as_told() {
    let names: BTreeSet<&str> = cases().iter().map(|case| case.name).collect();
    assert_eq!(names.len(), cases().len());
    for case in cases() {
        let told = case.what.split_once(':').map(|(number, _)| number.parse());
        let told = told.and_then(|number| number.ok());
        assert_eq!(figures_of(&case.bytes).err(), told, "{}", case.name);
    }
}

/// order-4: every number that reading gives.
const READ_NUMBERS: [u32; 10] = [1, 2, 10, 11, 12, 13, 14, 15, 17, 18];

/// The numbers of the bad files among cases, in order.
fn bad_numbers(cases: Vec<StoredCase>) -> Vec<u32> {
    let numbers = cases.iter().filter_map(|case| read(&case.bytes).err());
    let mut numbers: Vec<u32> = numbers.collect();
    numbers.sort();
    numbers
}

/// statement-1, statement-2; refusal-10: the lengths.
#[test]
fn statement_is_run_on_each_number_and_length() {
    let mut numbers = bad_numbers(statement_cases());
    numbers.dedup();
    assert_eq!(numbers, READ_NUMBERS);
    let lengths: BTreeSet<usize> = statement_cases()
        .iter()
        .map(|case| case.bytes.len())
        .collect();
    for length in [0, 65_536, 65_537, 65_540] {
        assert!(lengths.contains(&length));
    }
    let ferry = "day 1461\npaid 22000\ncredit 1500\nhome 20500\nextra 0\nlimit 2097152\n\
                 roamed 2097153\npast 1\nrefused 1\n";
    assert_eq!(statement(&named("ferry").bytes), ferry);
    assert!(statement(&named("limit_none").bytes).contains("\nlimit none\n"));
}

#[test]
fn explain_is_run_on_trips_and_on_each_number() {
    assert_eq!(bad_numbers(explain_cases()), READ_NUMBERS);
    assert_eq!(explain_cases().len(), 4 + READ_NUMBERS.len());
}

/// The states that a service goes through in a case.
fn states(name: &str, service: Service) -> Vec<State> {
    let trip = read(&named(name).bytes).unwrap();
    let mut account = Account::open(trip.plan).unwrap();
    let mut states = vec![State::Clear];
    for (code, number) in trip.calls {
        account
            .apply(Call::from_words(code, number).unwrap())
            .unwrap();
        let state = match account.states[service as usize] {
            State::Warned(_) => State::Warned(0),
            state => state,
        };
        if states.last() != Some(&state) {
            states.push(state);
        }
    }
    states
}

/// Credit, home charges, surcharges and surcharged kB of a case.
fn money(name: &str) -> [u64; 4] {
    let figures = figures_of(&named(name).bytes).unwrap();
    [figures[2], figures[3], figures[4], figures[7]]
}

/// service-7 to service-9.
#[test]
fn each_service_is_warned_surcharged_and_cleared() {
    let all = [
        State::Clear,
        State::Warned(0),
        State::Surcharged,
        State::Clear,
    ];
    assert_eq!(states("data_service", Service::Data), all);
    assert_eq!(states("calls_service", Service::Calls), all);
    assert_eq!(states("message_service", Service::Sms), all);
    let spared = [State::Clear, State::Warned(0), State::Clear];
    assert_eq!(states("data_spared", Service::Data), spared);
}

/// use-11: home charges; use-12: surcharges.
#[test]
fn charges_of_the_services() {
    // 13,800 kB and 4 GB at 10,000 points a GB; one GB at the cap of 20,000.
    assert_eq!(
        money("data_service"),
        [9_939_869, 40_131, 20_000, 1_048_576]
    );
    // 28,400 s at 600 points a minute; a minute at 220 and one at 55.
    assert_eq!(money("calls_service"), [9_715_725, 284_000, 275, 0]);
    // 358 SMS at 500 points; ten at 40.
    assert_eq!(money("message_service"), [9_820_600, 179_000, 400, 0]);
    // 13,700 kB and 1 GB at 10,000 points a GB.
    assert_eq!(money("data_spared"), [9_989_870, 10_130, 0, 0]);
}

/// caps-2, use-6: two GB, one under each of two rows, of 100,000 points; no
/// home price.
#[test]
fn surcharges_on_both_sides_of_each_row() {
    let gigabytes = 2 * 1_048_576;
    for (name, extra) in [
        ("row_of_365", 20_000 + 18_000),
        ("row_of_730", 18_000 + 15_500),
        ("row_of_1096", 15_500 + 13_000),
        ("row_of_1461", 13_000 + 11_000),
        ("row_of_1826", 11_000 + 10_000),
    ] {
        assert_eq!(money(name), [100_000 - extra, 0, extra, gigabytes]);
    }
}

/// The figures of a case in which L is a number, with that number.
fn all_figures(name: &str) -> [u64; 9] {
    let mut figures = figures_of(&named(name).bytes).unwrap();
    figures[5] -= 1;
    figures
}

/// half-2: at home 91 s are 910 points; half-1: in the zone 30 + 30 + 30 + 31 =
/// 121 s are charged, 1,210 points; use-10: elsewhere nothing. register-2: L
/// comes from the credit on entry: 99,090 x 1,048,576 / 11,000 = 9,445,763.
#[test]
fn short_calls_at_each_place() {
    let wanted = [1461, 100_000, 97_880, 2120, 0, 9_445_763, 0, 0, 0];
    assert_eq!(all_figures("half_minute"), wanted);
    let printed = "day 1461\npaid 100000\ncredit 97880\nhome 2120\nextra 0\nlimit 9445763\n\
                   roamed 0\npast 0\nrefused 0\n";
    assert_eq!(statement(&named("half_minute").bytes), printed);
}

/// half-9: 138 x 30 + 30 + 31 + 200 + 30 = 4,431 s at ten points; (30 + 31) x
/// 220 / 60 = 223 points. The credit on the last entry is 300 points more than
/// at the end: 9,955,767 x 1,048,576 / 20,000 = 521,968,916.
#[test]
fn surcharged_short_calls() {
    let all = [
        State::Clear,
        State::Warned(0),
        State::Surcharged,
        State::Clear,
    ];
    let name = "half_minute_surcharged";
    assert_eq!(states(name, Service::Calls), all);
    let wanted = [
        320,
        10_000_000,
        9_955_467,
        44_310,
        223,
        521_968_916,
        0,
        0,
        0,
    ];
    assert_eq!(all_figures(name), wanted);
}

/// half-1: 300 points for a second in the zone, ten for one at home. topup-2: L
/// comes from the top-up in the zone, with a credit of 299: 299 x 1,048,576 /
/// 11,000 = 28,502.
#[test]
fn credit_for_half_a_minute_and_a_point_less() {
    let wanted = [1461, 599, 289, 310, 0, 28_502, 0, 0, 1];
    assert_eq!(all_figures("half_minute_credit"), wanted);
}

/// half-5: 300 points for the one second that was accepted in the zone; three
/// refused. On entry 1,000 x 1,048,576 / 11,000 = 95,325.
#[test]
fn charged_seconds_come_to_their_limit_first() {
    let wanted = [1461, 1000, 700, 300, 0, 95_325, 0, 0, 3];
    assert_eq!(all_figures("charged_seconds_full"), wanted);
    let trip = read(&named("charged_seconds_full").bytes).unwrap();
    let mut account = Account::open(trip.plan).unwrap();
    let mut refused = Vec::new();
    for (code, number) in trip.calls {
        if let Err(by) = account.apply(Call::from_words(code, number).unwrap()) {
            refused.push((number, by));
        }
    }
    assert_eq!(refused, [(1, 5), (21, 5), (1, 5)]);
    assert_eq!(account.charged, 1_000_000_000_000);
    assert_eq!(account.lifetime[1], 999_999_999_971);
}

/// plan-2 to plan-4: a million points each for a minute, a GB past V and eight
/// SMS. limit-5: L is 2 x 10,000,000 x 1,048,576 / 11,000 = 1,906,501,818.
#[test]
fn a_plan_with_every_field_at_its_limit() {
    let wanted = [
        1461,
        10_000_000,
        0,
        10_000_000,
        0,
        1_906_501_818,
        1_073_741_824,
        0,
        1,
    ];
    assert_eq!(all_figures("largest_plan"), wanted);
}

/// The numbers by which the calls of a case were refused, in order.
fn refusals(name: &str) -> Vec<u32> {
    let trip = read(&named(name).bytes).unwrap();
    let mut account = Account::open(trip.plan).unwrap();
    let calls = trip.calls.into_iter();
    let calls = calls.map(|(code, number)| Call::from_words(code, number).unwrap());
    calls.filter_map(|call| account.apply(call).err()).collect()
}

/// refusal-3 to refusal-9. Home: 1,050,085,949 kB at 5,000 points a GB are
/// 5,007,199 points, and 60 + 30 + 90 s at ten points 1,800. A GB past L bears
/// 10,000. On entry L is 9,994,400 x 1,048,576 / 10,000 = 1,047,988,797.
#[test]
fn a_trip_with_every_refusal() {
    assert_eq!(refusals("every_refusal"), [3, 7, 7, 4, 4, 6, 5, 9, 8]);
    let wanted = [
        3833,
        1_000_000_000,
        994_981_001,
        5_008_999,
        10_000,
        1_047_988_797,
        1_049_037_373,
        1_048_576,
        9,
    ];
    assert_eq!(all_figures("every_refusal"), wanted);
}

/// service-1, service-7 to service-9.
#[test]
fn the_largest_file_takes_all_services_through_all_states() {
    let trip = read(&named("largest").bytes).unwrap();
    let mut account = Account::open(trip.plan).unwrap();
    let mut steps = BTreeSet::new();
    for (code, number) in trip.calls {
        let before = account.states;
        let _ = account.apply(Call::from_words(code, number).unwrap());
        for (service, states) in before.into_iter().zip(account.states).enumerate() {
            match states {
                (State::Clear, State::Warned(_)) => steps.insert((service, 0)),
                (State::Warned(_), State::Surcharged) => steps.insert((service, 1)),
                (State::Surcharged, State::Clear) => steps.insert((service, 2)),
                _ => false,
            };
        }
    }
    assert_eq!(steps.len(), 9);
}

/// 100 kB at 1,000,000 points a GB cost 95 points; registering again costs
/// nothing; 100 top-ups of 1,000; 100 days after day 311; 104,858 kB cost
/// 100,000 points, and one more 100,001.
#[test]
fn calls_of_test_cost() {
    let (_, bytes) = files()
        .into_iter()
        .find(|file| file.0 == "crates/test_cost/stdout")
        .unwrap();
    let lines = "u 100 99905\nr 100 100000\nt 100 200000\nn 100 411\na 100 104858\n";
    assert_eq!(String::from_utf8(bytes).unwrap(), lines);
}

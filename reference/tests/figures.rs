//! The eleven marked figures (figure-1 to figure-5), windows with off days
//! (off-1, off-2), the table of caps (caps-1 to caps-3, rows-1 to rows-3), the
//! calendar (month-1 to month-3) and the printed statement (statement-1,
//! statement-2).

mod common;
use common::*;
use reference::calendar::{is_first_day, month_of, FIRST_DAYS};
use reference::caps::{caps_on, search, ROWS};
use reference::charges::home_points;
use reference::plan::prepaid_limit;
use reference::services::{prevalent, Day, Log};
use reference::statement::statement;
use reference::terms::Service;

/// figure-1, limit-5.
#[test]
fn figure_1_and_2_limits_at_cap_77000() {
    assert_eq!(unlimited(1461, 900_000).limit(77_000), Some(24_512_166));
    assert_eq!(unlimited(1461, 100_000).limit(77_000), Some(2_723_574));
}

/// figure-2, plan-7.
#[test]
fn figure_3_4_5_open_bundles_at_cap_77000() {
    assert!(bundle(1461, 0, 100_000, 3_145_728).is_open(77_000));
    assert!(!bundle(1461, 0, 100_000, 1_048_576).is_open(77_000));
    assert!(!bundle(1461, 0, 77_000, 1_048_576).is_open(77_000));
}

/// figure-3: L by register-2, its cost by use-11.
#[test]
fn figure_6_and_7_prepaid_credit_2000() {
    let limit = prepaid_limit(2000, 970);
    assert_eq!(limit, 2_162_012);
    assert_eq!(
        home_points(&prepaid(1461, 500, 0, 0), &[limit, 0, 0, 0]),
        1030
    );
}

/// A log with so many zone days first and home days after them, 10 kB on each
/// zone day and so many kB at home on the last day.
fn log_of(zone_days: usize, days: usize, home_kb: u64) -> Log {
    let mut log = Log::new();
    for index in 0..days {
        let mut day = Day::default();
        let zone = index < zone_days;
        day.marks = [!zone, zone, false];
        day.units[0][1] = if zone { 10 } else { 0 };
        log.push_back(day);
    }
    log[days - 1].units[0][0] = home_kb;
    log
}

/// figure-4, service-4, off-4.
#[test]
fn figure_8_and_9_prevalence_over_123_days() {
    assert!(!prevalent(&log_of(61, 123, 0), 123, Service::Data));
    assert!(prevalent(&log_of(62, 123, 619), 123, Service::Data));
    assert!(!prevalent(&log_of(62, 123, 620), 123, Service::Data));
}

/// service-4, off-4: 8 zone days of 15.
#[test]
fn e33_prevalence_over_15_days() {
    assert!(!prevalent(&log_of(7, 123, 0), 15, Service::Data));
    assert!(prevalent(&log_of(8, 123, 0), 15, Service::Data));
    assert!(prevalent(&log_of(8, 15, 79), 15, Service::Data));
    assert!(!prevalent(&log_of(8, 15, 80), 15, Service::Data));
}

/// A log of so many zone days with 10 kB each, home days and off days.
fn log_with_off_days(zone_days: usize, home_days: usize, off_days: usize) -> Log {
    let mut log = log_of(zone_days, zone_days + home_days + 1, 0);
    log.pop_back();
    log.extend(vec![Day::default(); off_days]);
    log
}

/// off-1: more than half of the days on; off-2: no days on.
#[test]
fn off_days_of_02() {
    for w in [15, 123] {
        let prevails = |zone, home, off| {
            let log = log_with_off_days(zone, home, off);
            assert_eq!(log.len(), w);
            prevalent(&log, w, Service::Data)
        };
        assert!(prevails(1, 0, w - 1));
        assert!(!prevails(1, 1, w - 2));
        assert!(!prevails(0, 0, w));
        assert!(prevails(2, 1, w - 3));
        assert!(!prevails(4, 4, w - 8));
    }
}

/// figure-5, caps-2.
#[test]
fn figure_10_and_11_caps_of_days_1460_and_1461() {
    assert_eq!(caps_on(1460)[0], 13_000);
    assert_eq!(caps_on(1461)[0], 11_000);
}

/// caps-1 to caps-3.
#[test]
fn caps_of_every_row() {
    assert_eq!(caps_on(181), [20_000, 220, 55, 40]);
    assert_eq!(caps_on(364), [20_000, 220, 55, 40]);
    assert_eq!(caps_on(365), [18_000, 220, 40, 40]);
    assert_eq!(caps_on(730), [15_500, 220, 20, 40]);
    assert_eq!(caps_on(1096), [13_000, 190, 20, 30]);
    assert_eq!(caps_on(1461), [11_000, 190, 20, 30]);
    assert_eq!(caps_on(1826), [10_000, 190, 20, 30]);
    assert_eq!(caps_on(3833), [10_000, 190, 20, 30]);
}

/// rows-1, rows-2: the row of the day and the newer ones are read; all of them
/// on a day before the first row.
#[test]
fn rows_read_from_the_last_one_back() {
    let read = |day| search(day).read;
    let figures = [
        (181, 6),
        (364, 6),
        (365, 5),
        (1825, 2),
        (1826, 1),
        (3833, 1),
    ];
    for (day, rows) in figures {
        assert_eq!(read(day), rows, "day {day}");
    }
    assert_eq!(
        [729, 730, 1095, 1096, 1460, 1461].map(read),
        [5, 4, 4, 3, 3, 2]
    );
    assert_eq!([0, 180].map(read), [6, 6]);
    assert_eq!([4000, u64::MAX].map(read), [1, 1]);
}

/// rows-3: caps are as if all rows were read from the first on.
#[test]
fn caps_of_every_day_are_as_before() {
    for day in 0..=4000 {
        let mut begun = ROWS.iter().filter(|(first, _)| *first <= day);
        let (_, caps) = begun.next_back().unwrap_or(&ROWS[0]);
        assert_eq!(caps_on(day), *caps, "day {day}");
    }
}

/// month-1 to month-3.
#[test]
fn months_by_the_gregorian_rule() {
    assert_eq!(FIRST_DAYS[..4], [0, 31, 59, 90]);
    assert_eq!((FIRST_DAYS[6], FIRST_DAYS[12]), (181, 365));
    assert_eq!((FIRST_DAYS[26], FIRST_DAYS[25]), (790, 761));
    assert_eq!(FIRST_DAYS[131], 3987);
    assert_eq!(FIRST_DAYS[126], 3834);
    assert!(is_first_day(1461) && is_first_day(1826) && !is_first_day(3833));
    assert_eq!((month_of(0), month_of(30), month_of(31)), (0, 0, 1));
    let caps_begin_months = [181, 365, 730, 1096, 1461, 1826];
    assert!(caps_begin_months.iter().all(|day| is_first_day(*day)));
}

/// statement-1: 01's printed example.
const PRINTED: &str = "day 1461
paid 22000
credit 1500
home 20500
extra 0
limit 2097152
roamed 2097153
past 1
refused 1
";

/// statement-1: the example's nine lines.
#[test]
fn statement_that_01_prints() {
    let calls = [
        (6, 22_000),
        (1, 1),
        (2, 2_097_152),
        (2, 1),
        (2, 104_857),
        (5, 1),
    ];
    let bytes = file(&prepaid(1461, 10_000, 600, 500), &calls);
    assert_eq!(bytes.len(), 112);
    assert_eq!(statement(&bytes), PRINTED);
}

/// statement-1: L none; statement-2: bad files.
#[test]
fn statement_of_a_limit_none_and_of_bad_files() {
    let bytes = file(&bundle(1461, 0, 11_000, 1_048_576), &[(7, 0), (6, 0)]);
    let wanted =
        "day 1462\npaid 0\ncredit 0\nhome 0\nextra 0\nlimit none\nroamed 0\npast 0\nrefused 1\n";
    assert_eq!(statement(&bytes), wanted);
    assert_eq!(statement(&[]), "file 10\n");
    let mut damaged = bytes;
    damaged[8] ^= 1;
    assert_eq!(statement(&damaged), "file 11\n");
}

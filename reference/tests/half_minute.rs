//! Outgoing zone calls are charged half a minute at least. Rules half-1 to
//! half-9. Where a plan has a minute price, it is 600 points, ten a second.

mod common;
use common::*;
use reference::matching::trace;
use reference::meter::{Account, Answer};
use reference::plan::Plan;
use reference::services::State;
use reference::terms::{Call, Kind, Place, Service};

const LENGTHS: [u64; 4] = [1, 29, 30, 31];
/// half-5: the limit of charged seconds.
const MOST: u64 = 1_000_000_000_000;

fn priced_plan() -> Plan {
    prepaid(1461, 0, 600, 0)
}

fn free_plan() -> Plan {
    prepaid(1461, 0, 0, 0)
}

/// An account with credit, at a place.
fn at(plan: Plan, credit: u64, place: Place) -> Account {
    let mut account = open(plan);
    if credit > 0 {
        account.top_up(credit).unwrap();
    }
    account.register(place).unwrap();
    account
}

fn surcharged(mut account: Account) -> Account {
    account.states[Service::Calls as usize] = State::Surcharged;
    account
}

fn most(account: &Account) -> u64 {
    match account.afford(Kind::Outgoing) {
        Ok(Answer::Most(n)) => n,
        other => panic!("Afford answered {other:?}"),
    }
}

/// Spoken, charged, priced and surcharged outgoing seconds of a life.
fn seconds(account: &Account) -> [u64; 4] {
    let spoken = account.lifetime[1];
    [
        spoken,
        account.charged,
        account.priced[1],
        account.surcharged[1],
    ]
}

/// half-2: at home.
#[test]
fn at_home_every_second_counts_as_it_is() {
    let mut account = at(priced_plan(), 100_000, Place::Home);
    let points = [10, 290, 300, 310];
    for (n, home) in LENGTHS.into_iter().zip(points) {
        assert_eq!(account.apply(outgoing(n)), used(home, 0, 0, n, false));
    }
    // 1 + 29 + 30 + 31 = 91 seconds.
    assert_eq!(seconds(&account), [91, 91, 91, 0]);
    assert_eq!((account.home, account.credit), (910, 99_090));
    assert_eq!(account.today.units[1], [91, 0, 0]);
}

/// half-1, half-3, half-4: in the zone.
#[test]
fn in_the_zone_half_a_minute_is_the_least() {
    let mut account = at(priced_plan(), 100_000, Place::Zone);
    let charges = [(300, 30), (300, 30), (300, 30), (310, 31)];
    for (n, (home, charged)) in LENGTHS.into_iter().zip(charges) {
        assert_eq!(account.apply(outgoing(n)), used(home, 0, 0, charged, false));
    }
    // 91 seconds spoken; 30 + 30 + 30 + 31 = 121 charged.
    assert_eq!(seconds(&account), [91, 121, 121, 0]);
    assert_eq!((account.home, account.credit), (1210, 98_790));
    assert_eq!(account.today.units[1], [0, 91, 0], "as spoken");
}

/// half-2, use-10: elsewhere.
#[test]
fn elsewhere_records_are_free_and_count_as_they_are() {
    let mut account = at(priced_plan(), 100_000, Place::Elsewhere);
    for n in LENGTHS {
        assert_eq!(account.apply(outgoing(n)), used(0, 0, 0, n, false));
    }
    assert_eq!(seconds(&account), [91, 91, 0, 0]);
    assert_eq!((account.home, account.credit), (0, 100_000));
    assert_eq!(account.today.units[1], [0, 0, 91]);
}

/// half-1, use-12: the cap of day 1461 is 190 points a minute. 30 s are 95
/// points, and the sum over 121 s is 22,990 / 60 = 383 points, 98 more than
/// over 90 s.
#[test]
fn the_surcharge_bears_on_charged_seconds() {
    let mut account = surcharged(at(priced_plan(), 100_000, Place::Zone));
    let charges = [(300, 95, 30), (300, 95, 30), (300, 95, 30), (310, 98, 31)];
    for (n, (home, extra, charged)) in LENGTHS.into_iter().zip(charges) {
        let wanted = used(home, extra, charged, charged, false);
        assert_eq!(account.apply(outgoing(n)), wanted);
    }
    assert_eq!(seconds(&account), [91, 121, 121, 121]);
    assert_eq!((account.cap_sums[1], account.extra), (22_990, 383));
    assert_eq!(account.credit, 100_000 - 1210 - 383);
    for place in [Place::Home, Place::Elsewhere] {
        let mut account = surcharged(at(priced_plan(), 100_000, place));
        run(&mut account, &LENGTHS.map(outgoing));
        assert_eq!((account.surcharged[1], account.extra), (0, 0));
    }
}

/// service-8: a second a day in the zone from day 181 on, Surcharged at the
/// 138th change. half-1: the cap of day 319 is 220 points a minute, so that
/// half a minute is 110.
#[test]
fn calls_that_became_surcharged_bear_110_points_for_a_second() {
    let mut account = at(prepaid(181, 0, 600, 0), 100_000, Place::Zone);
    for _ in 0..138 {
        assert_eq!(account.apply(outgoing(1)), used(300, 0, 0, 30, false));
        account.next_day().unwrap();
    }
    assert_eq!((account.day, account.states[1]), (319, State::Surcharged));
    assert_eq!(account.apply(outgoing(1)), used(300, 110, 30, 30, false));
    // 139 records: 4,170 seconds charged, 41,700 points.
    assert_eq!(seconds(&account), [139, 4170, 4170, 30]);
    assert_eq!((account.home, account.extra), (41_700, 110));
    assert_eq!(account.credit, 100_000 - 41_810);
}

/// half-2: other kinds.
#[test]
fn other_kinds_in_the_zone_count_as_they_are() {
    let mut account = at(prepaid(1461, 10_000, 600, 500), 100_000, Place::Zone);
    assert_eq!(
        account.use_units(Kind::Incoming, 1),
        used(0, 0, 0, 1, false)
    );
    assert_eq!(account.use_units(Kind::Sms, 1), used(500, 0, 0, 1, false));
    assert_eq!(account.use_units(Kind::Data, 1), used(0, 0, 0, 1, false));
    assert_eq!(seconds(&account), [0; 4]);
}

/// half-9: 60 points a minute, so that a second is a point; two records of a
/// second each in the zone, with one at home between them, are 30, 1 and 30
/// points. At 1 point a minute it takes two short records to make one point.
#[test]
fn charged_seconds_are_divided_once_over_the_life() {
    let mut account = at(prepaid(1461, 0, 60, 0), 100, Place::Zone);
    assert_eq!(account.apply(outgoing(1)), used(30, 0, 0, 30, false));
    run(&mut account, &[home()]);
    assert_eq!(account.apply(outgoing(1)), used(1, 0, 0, 1, false));
    run(&mut account, &[zone()]);
    assert_eq!(account.apply(outgoing(1)), used(30, 0, 0, 30, false));
    assert_eq!((seconds(&account), account.credit), ([3, 61, 61, 0], 39));
    let mut account = at(prepaid(1461, 0, 1, 0), 1, Place::Zone);
    assert_eq!(account.apply(outgoing(1)), used(0, 0, 0, 30, false));
    assert_eq!(account.apply(outgoing(1)), used(1, 0, 0, 30, false));
}

/// Elsewhere, as many seconds as leave so many up to the limit.
fn all_but(plan: Plan, left: u64) -> Account {
    let mut account = at(plan, 10_000, Place::Elsewhere);
    for _ in 0..999 {
        account.apply(outgoing(1_000_000_000)).unwrap();
    }
    account.apply(outgoing(1_000_000_000 - left)).unwrap();
    assert_eq!(seconds(&account), [MOST - left, MOST - left, 0, 0]);
    account
}

/// half-5: 20 seconds are left, and half a minute would be charged.
#[test]
fn refusal_5_by_charged_seconds_alone() {
    let mut account = all_but(priced_plan(), 20);
    run(&mut account, &[zone()]);
    let before = account.clone();
    for n in [1, 19, 20, 21, 30] {
        assert_eq!(account.apply(outgoing(n)), Err(5), "{n} s");
    }
    assert_eq!((most(&account), &account), (0, &before));
    // Outside the zone the 20 seconds are there, to the last.
    run(&mut account, &[elsewhere()]);
    assert_eq!(most(&account), 20);
    assert_eq!(account.apply(outgoing(21)), Err(5));
    assert_eq!(account.apply(outgoing(20)), used(0, 0, 0, 20, false));
    assert_eq!(seconds(&account), [MOST, MOST, 0, 0]);
}

/// half-5: up to the limit, afford-1 with it.
#[test]
fn charged_seconds_may_come_to_the_limit_and_no_further() {
    let mut account = all_but(priced_plan(), 30);
    run(&mut account, &[zone()]);
    assert_eq!(most(&account), 30);
    assert_eq!(account.apply(outgoing(1)), used(300, 0, 0, 30, false));
    assert_eq!(seconds(&account), [MOST - 29, MOST, 30, 0]);
    assert!(account.sound());
    // 29 spoken seconds are left, but no charged one at any place.
    for place in Place::ALL {
        account.register(place).unwrap();
        assert_eq!(account.apply(outgoing(1)), Err(5));
        assert_eq!(most(&account), 0);
    }
    assert_eq!(
        account.use_units(Kind::Incoming, 1),
        used(0, 0, 0, 1, false)
    );
}

/// half-5, order-3.
#[test]
fn refusal_5_by_charged_seconds_comes_before_6_and_after_4() {
    let mut account = open(priced_plan());
    run(&mut account, &[zone()]);
    assert_eq!(account.apply(outgoing(1)), Err(6));
    account.charged = MOST - 29;
    assert_eq!(account.apply(outgoing(1)), Err(5));
    assert_eq!(account.apply(outgoing(0)), Err(4));
    account.charged = MOST - 30;
    assert_eq!(account.apply(outgoing(1)), Err(6));
}

/// half-4: 62 zone days with a second each, 1,860 charged ones, and 61 days at
/// home. With two seconds on each of these, 122 stand against 62; with one, 61.
#[test]
fn prevalence_over_123_days_is_by_spoken_seconds() {
    for (at_home, wanted) in [(2, State::Clear), (1, State::Warned(0))] {
        let mut account = open(prepaid(181, 0, 0, 0));
        for day in 0..123 {
            let (place, n) = if day < 62 {
                (zone(), 1)
            } else {
                (home(), at_home)
            };
            run(&mut account, &[place, outgoing(n), Call::NextDay]);
        }
        assert_eq!(account.charged, 62 * 30 + 61 * at_home);
        assert_eq!((account.day, account.states[1]), (304, wanted));
    }
}

/// half-4: the same over the 15 days after the warning, 8 zone days with a
/// second each, 240 charged ones, against 14 or 7 at home.
#[test]
fn prevalence_over_15_days_is_by_spoken_seconds() {
    for (at_home, wanted) in [(2, State::Clear), (1, State::Surcharged)] {
        let mut account = open(prepaid(181, 0, 0, 0));
        for day in 0..138 {
            let (place, n) = if day < 131 {
                (zone(), 1)
            } else {
                (home(), at_home)
            };
            run(&mut account, &[place, outgoing(n), Call::NextDay]);
        }
        assert_eq!((account.day, account.states[1]), (319, wanted));
    }
}

/// half-6: ten zone records of a second each, surcharged: 10 seconds spoken,
/// and 300 charged, priced and surcharged ones. Without prices and with cap
/// sums that stay, no other rule of soundness looks at the seconds altered
/// here.
#[test]
fn charged_seconds_bound_the_priced_and_the_surcharged_ones() {
    let mut account = surcharged(at(free_plan(), 10_000, Place::Zone));
    run(&mut account, &[outgoing(1); 10]);
    assert_eq!(seconds(&account), [10, 300, 300, 300]);
    assert!(account.sound(), "300 above the 10 spoken ones");
    let above: [fn(&mut Account); 4] = [
        |a| a.priced[1] = 301,
        |a| a.surcharged[1] = 301,
        |a| a.charged = 299,
        |a| a.today.units[1][1] = 11,
    ];
    for change in above {
        let mut other = account.clone();
        change(&mut other);
        assert_eq!((other.sound(), other.apply(outgoing(1))), (false, Err(0)));
    }
    account.charged = MOST;
    assert!(account.sound(), "at its limit");
    account.charged = MOST + 1;
    assert!(!account.sound(), "over its limit");
}

/// half-6: charged and spoken seconds do not bound each other.
#[test]
fn charged_seconds_below_the_spoken_ones_are_sound() {
    let mut account = at(free_plan(), 0, Place::Elsewhere);
    run(&mut account, &[outgoing(100)]);
    for charged in [99, 1, 0] {
        account.charged = charged;
        assert!(account.sound());
    }
    assert_eq!(account.apply(outgoing(5)), used(0, 0, 0, 5, false));
    assert_eq!(seconds(&account), [105, 5, 0, 0]);
    account.lifetime[1] = MOST - 2;
    assert_eq!((most(&account), account.apply(outgoing(3))), (2, Err(5)));
}

/// afford-1, half-1: half a minute is 300 points, 31 seconds are 310. With the
/// surcharge of day 1461 they are 300 + 95 and 310 + 98 (5,890 / 60).
#[test]
fn afford_in_the_zone_is_0_or_at_least_30() {
    let figures = [(0, 0), (299, 0), (300, 30), (309, 30), (310, 31)];
    for (credit, n) in figures {
        let account = at(priced_plan(), credit, Place::Zone);
        assert_eq!(most(&account), n, "{credit} points");
        let first = account.clone().apply(outgoing(1));
        assert_eq!(first.is_ok(), n > 0);
        assert_eq!(first.err(), (n == 0).then_some(6));
        let mut whole = account.clone();
        assert!(n == 0 || whole.apply(outgoing(n)).is_ok());
        assert_eq!(account.clone().apply(outgoing(n + 1)), Err(6));
    }
    for (credit, n) in [(394, 0), (395, 30), (407, 30), (408, 31)] {
        let account = surcharged(at(priced_plan(), credit, Place::Zone));
        assert_eq!(most(&account), n, "{credit} points");
    }
    assert_eq!(
        most(&at(free_plan(), 0, Place::Zone)),
        1_000_000_000,
        "where calls cost nothing"
    );
}

/// afford-1, half-2.
#[test]
fn afford_at_home_is_by_the_second() {
    for (credit, n) in [(9, 0), (10, 1), (299, 29), (300, 30), (310, 31)] {
        assert_eq!(most(&at(priced_plan(), credit, Place::Home)), n);
    }
    // At 1 point a minute, 59 seconds cost nothing. After half a minute 29 do
    // so at home, and none in the zone, where one more is charged 30.
    let mut account = at(prepaid(1461, 0, 1, 0), 0, Place::Zone);
    assert_eq!(most(&account), 59);
    assert_eq!(account.apply(outgoing(30)), used(0, 0, 0, 30, false));
    assert_eq!(most(&account), 0);
    run(&mut account, &[home()]);
    assert_eq!(most(&account), 29);
}

/// afford-1, half-5: 100 seconds up to the limit, of which one in the zone
/// takes 30.
#[test]
fn afford_heeds_the_limit_of_charged_seconds() {
    let mut account = all_but(priced_plan(), 100);
    run(&mut account, &[zone()]);
    assert_eq!(most(&account), 100);
    run(&mut account, &[outgoing(1)]);
    assert_eq!(seconds(&account), [MOST - 99, MOST - 70, 30, 0]);
    for place in Place::ALL {
        account.register(place).unwrap();
        assert_eq!(most(&account), 70);
    }
    run(&mut account, &[home(), outgoing(41), zone()]);
    assert_eq!(most(&account), 0, "29 left");
}

/// The calls of a trip with 10,000 points that begins in the zone.
fn in_zone(calls: &[Call]) -> Vec<Call> {
    [&[Call::TopUp(10_000), zone()], calls].concat()
}

/// half-8: 20 + 40 and 30 + 30 are both a minute, charged as 30 + 40 = 70 and
/// as 60 seconds, which are 700 and 600 points.
#[test]
fn equal_units_with_other_charged_seconds_do_not_match() {
    let first = trace(priced_plan(), &in_zone(&[outgoing(20), outgoing(40)]));
    let second = trace(priced_plan(), &in_zone(&[outgoing(30), outgoing(30)]));
    assert_eq!(first.cuts, second.cuts);
    assert_eq!(first.units, second.units);
    assert_eq!(first.units[2], [0, 60, 0, 0]);
    assert_eq!((first.charged[2], second.charged[2]), (70, 60));
    assert_eq!(
        (first.accounts[2].home, second.accounts[2].home),
        (700, 600)
    );
    assert_ne!(first.accounts, second.accounts);
    assert!(first.matches(&second));
    // So it is where nothing is charged for them.
    let first = trace(free_plan(), &in_zone(&[outgoing(20), outgoing(40)]));
    let second = trace(free_plan(), &in_zone(&[outgoing(30), outgoing(30)]));
    assert_eq!(first.accounts[2].credit, second.accounts[2].credit);
    assert_ne!(first.accounts[2], second.accounts[2]);
}

/// half-8, list-9: both agree.
#[test]
fn equal_units_and_charged_seconds_match() {
    let pairs = [
        // 30 seconds, 60 charged.
        ([10, 20], [15, 15]),
        // 75 seconds, 75 charged.
        ([40, 35], [30, 45]),
        // 50 seconds, 30 + 40 = 70 charged.
        ([10, 40], [40, 10]),
    ];
    for (ours, theirs) in pairs {
        let first = trace(priced_plan(), &in_zone(&ours.map(outgoing)));
        let second = trace(priced_plan(), &in_zone(&theirs.map(outgoing)));
        assert!(first.stretches_agree(&second));
        assert_eq!(first.accounts, second.accounts);
    }
    let at_home = |calls: &[Call]| trace(priced_plan(), &[&[home()], calls].concat());
    let first = at_home(&[outgoing(20), outgoing(40)]);
    let second = at_home(&[outgoing(60)]);
    assert!(first.stretches_agree(&second) && first.accounts == second.accounts);
}

/// half-8: charged seconds alone agree.
#[test]
fn equal_charged_seconds_with_other_units_do_not_match() {
    let first = trace(priced_plan(), &in_zone(&[outgoing(20)]));
    let second = trace(priced_plan(), &in_zone(&[outgoing(21)]));
    assert_eq!(first.charged, second.charged);
    assert_eq!(first.accounts[2].home, second.accounts[2].home);
    assert_ne!(first.accounts, second.accounts);
    assert!(first.matches(&second));
}

/// half-8: the same lists of seconds before and after a cut, and the other way
/// round: 130 charged seconds in both at the end, but not before the cut.
#[test]
fn charged_seconds_are_held_against_each_other_by_stretches() {
    let (uneven, even) = ([20, 40].map(outgoing), [30, 30].map(outgoing));
    let both = |before: &[Call], after: &[Call]| {
        let calls = [before, &[zone()], after].concat();
        trace(priced_plan(), &in_zone(&calls))
    };
    let first = both(&uneven, &even);
    let second = both(&even, &uneven);
    assert_eq!((first.cuts.len(), &first.cuts), (3, &second.cuts));
    assert_eq!(first.units, second.units);
    assert_eq!(first.charged[2..], [70, 60]);
    assert_eq!(second.charged[2..], [60, 70]);
    assert_eq!(first.accounts[3], second.accounts[3]);
    assert_ne!(first.accounts[2], second.accounts[2]);
    assert!(first.matches(&second));
}

/// half-5; refusal-6 of half a minute.
#[test]
fn events_of_limits_tell_charged_seconds_alone() {
    let afford = Call::Afford(Kind::Outgoing);
    let mut account = all_but(priced_plan(), 20);
    run(&mut account, &[zone()]);
    let refused = "use 5 by charged seconds alone";
    let limited = "afford limited by charged seconds alone";
    assert_eq!(events_of(&account, &[outgoing(20)]).count(refused), 1);
    assert_eq!(events_of(&account, &[outgoing(21)]).count(refused), 0);
    assert_eq!(events_of(&account, &[afford]).count(limited), 1);
    run(&mut account, &[elsewhere()]);
    assert_eq!(
        events_of(&account, &[afford]).count(limited),
        0,
        "both limits"
    );
    let refused = "use 6 of a zone record affordable as spoken";
    for (credit, n, count) in [(9, 1, 0), (10, 1, 1), (299, 29, 1), (299, 30, 0)] {
        let account = at(priced_plan(), credit, Place::Zone);
        assert_eq!(events_of(&account, &[outgoing(n)]).count("use 6"), 1);
        assert_eq!(events_of(&account, &[outgoing(n)]).count(refused), count);
    }
}

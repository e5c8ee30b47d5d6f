//! Open points, as docs/DECISIONS.md decides them. Rules limit-1 to limit-7,
//! register-1, register-2, topup-2, use-1 to use-15, day-1 to day-3, service-2
//! to service-10, off-1 to off-3.

mod common;
use common::*;
use reference::meter::{Account, Answer};
use reference::services::{prevalent, step, Day, Log, State};
use reference::terms::{Call, Kind, Place, Service};

fn next_days(account: &mut Account, count: usize) {
    for _ in 0..count {
        account.next_day().unwrap();
    }
}

/// limit-7, mistake-4: a prepaid L and R stay.
#[test]
fn a_prepaid_limit_stays_over_months_and_cap_changes() {
    let mut account = open(prepaid(1460, 0, 0, 0));
    run(&mut account, &[Call::TopUp(13_000), zone(), data(7)]);
    next_days(&mut account, 1);
    assert_eq!((account.day, account.l, account.r), (1461, Some(GB), 7));
}

/// limit-7: a bundle's L by the new cap, H and R 0.
#[test]
fn a_bundle_turns_with_the_new_days_cap() {
    let mut account = open(bundle(1450, 0, 12_000, GB as u32));
    let first = 2 * 12_000 * GB / 13_000;
    assert_eq!(account.l, Some(first));
    run(&mut account, &[zone(), data(7), home(), data(5)]);
    next_days(&mut account, 10);
    assert_eq!((account.day, account.l), (1460, Some(first)));
    assert_eq!((account.h, account.r), (12, 7));
    next_days(&mut account, 1);
    assert_eq!((account.day, account.l), (1461, None));
    assert_eq!((account.h, account.r), (0, 0));
}

/// register-2, mistake-5: it marks, and L and R stay.
#[test]
fn registering_again_in_the_zone_sets_nothing() {
    let mut account = open(prepaid(1460, 10_000, 0, 0));
    run(&mut account, &[Call::TopUp(13_000), zone(), data(GB / 2)]);
    next_days(&mut account, 1);
    let before = account.clone();
    account.register(Place::Zone).unwrap();
    assert_eq!((account.l, account.r), (before.l, before.r));
    assert_eq!(account.today.marks, [false, true, false]);
}

/// limit-4, register-2.
#[test]
fn leaving_keeps_l_and_r_and_entering_renews_them() {
    let mut account = open(prepaid(1461, 10_000, 0, 0));
    assert_eq!((account.l, account.r), (Some(0), 0));
    run(&mut account, &[Call::TopUp(11_000), zone(), data(GB / 2)]);
    for place in [Place::Home, Place::Elsewhere] {
        account.register(place).unwrap();
        assert_eq!((account.l, account.r), (Some(GB), GB / 2));
    }
    account.register(Place::Zone).unwrap();
    assert_eq!((account.l, account.r), (Some(6000 * GB / 11_000), 0));
}

/// topup-2, mistake-2: from the credit; topup-1: no mark.
#[test]
fn top_ups_move_the_limit_of_a_prepaid_account_in_the_zone_only() {
    let mut account = open(prepaid(1461, 0, 0, 0));
    account.top_up(500).unwrap();
    assert_eq!((account.l, account.today), (Some(0), Day::default()));
    run(&mut account, &[zone(), data(9), Call::TopUp(10_500)]);
    assert_eq!(
        (account.l, account.r),
        (Some(GB), 0),
        "from the whole credit"
    );
    run(&mut account, &[home(), Call::TopUp(1)]);
    assert_eq!((account.l, account.credit), (Some(GB), 11_001));
    let mut other = open(unlimited(1461, 11_000));
    run(&mut other, &[zone(), data(9), Call::TopUp(5)]);
    assert_eq!((other.l, other.r), (Some(2 * GB), 9));
}

/// day-3: no marks at first; register-1, use-1: what marks.
#[test]
fn a_day_without_registration_or_use_is_off() {
    let mut account = open(prepaid(1461, 0, 0, 0));
    run(&mut account, &[zone(), Call::NextDay]);
    assert_eq!(account.place, Some(Place::Zone));
    assert_eq!(account.apply(data(1_000_000_001)), Err(4));
    account.afford(Kind::Data).unwrap();
    assert_eq!(account.today.marks, [false; 3]);
    run(&mut account, &[data(1)]);
    assert_eq!(account.today.marks, [false, true, false]);
}

/// limit-1: nothing is past none, everything past 0.
#[test]
fn limits_none_and_0() {
    let mut closed = open(bundle(1461, 0, 11_000, GB as u32));
    run(&mut closed, &[zone()]);
    assert_eq!(closed.apply(data(5 * GB)), used(0, 0, 0, 5 * GB, false));
    assert_eq!((closed.l, closed.r), (None, 5 * GB));
    let mut free = open(unlimited(1461, 0));
    run(&mut free, &[Call::TopUp(11_000), zone()]);
    assert_eq!(free.l, Some(0));
    assert_eq!(free.apply(data(GB)), used(0, 11_000, GB, GB, false));
}

/// use-15: a notice at L; use-7: a record on both sides of it.
#[test]
fn notice_at_exactly_l_and_split_records() {
    let plan = unlimited(1461, 11_000);
    let mut account = open(plan);
    run(&mut account, &[Call::TopUp(100_000), zone()]);
    let mut below = account.clone();
    assert_eq!(
        below.apply(data(2 * GB - 1)),
        used(0, 0, 0, 2 * GB - 1, false)
    );
    assert_eq!(below.apply(data(1)), used(0, 0, 0, 1, true));
    assert_eq!(below.apply(data(1)), used(0, 0, 1, 1, false));
    assert_eq!(
        account.apply(data(3 * GB)),
        used(0, 11_000, GB, 3 * GB, true)
    );
    account.states[0] = State::Surcharged;
    account.r = 0;
    assert_eq!(
        account.apply(data(2 * GB)),
        used(0, 22_000, 2 * GB, 2 * GB, true)
    );
}

/// use-4, use-7: in one record; use-9: once.
#[test]
fn v_and_l_crossed_in_one_record() {
    let mut account = open(bundle(1461, 1000, 11_000, 3 * GB as u32));
    assert_eq!(account.l, Some(2 * GB));
    run(&mut account, &[Call::TopUp(100_000), zone()]);
    let got = account.apply(data(5 * GB));
    assert_eq!(got, used(2000, 33_000, 3 * GB, 5 * GB, true));
    account.states[0] = State::Surcharged;
    assert_eq!(account.apply(data(GB)), used(1000, 11_000, GB, GB, false));
}

/// limit-2: H; limit-1: R; use-1: lifetime kB.
#[test]
fn h_grows_for_bundles_at_home_and_in_the_zone() {
    for (plan, wanted) in [
        (bundle(1461, 0, 0, 5), 3),
        (unlimited(1461, 0), 3),
        (prepaid(1461, 0, 0, 0), 0),
    ] {
        let mut account = open(plan);
        run(&mut account, &[home(), data(1), zone(), data(2)]);
        run(&mut account, &[elsewhere(), data(4)]);
        assert_eq!((account.h, account.r, account.lifetime[0]), (wanted, 2, 7));
    }
}

/// use-2, use-5, use-10.
#[test]
fn incoming_and_elsewhere_bear_no_home_price() {
    let mut account = open(prepaid(1461, 1000, 1000, 1000));
    run(&mut account, &[elsewhere()]);
    for kind in Kind::ALL {
        let got = account.use_units(kind, 1_000_000);
        assert_eq!(got, used(0, 0, 0, 1_000_000, false));
        assert_eq!(account.afford(kind), Ok(Answer::Most(1_000_000_000)));
    }
    run(&mut account, &[home()]);
    let got = account.use_units(Kind::Incoming, 60);
    assert_eq!((got, account.priced), (used(0, 0, 0, 60, false), [0; 4]));
    assert_eq!(account.today.units[2], [60, 0, 1_000_000]);
    assert_eq!(account.today.marks, [true, false, true]);
}

/// use-8, use-6; use-12: divided over the records.
#[test]
fn surcharged_services_bear_the_caps_of_the_day() {
    let mut account = open(unlimited(1461, 11_000));
    run(&mut account, &[Call::TopUp(100_000), zone()]);
    account.states = [State::Surcharged; 3];
    assert_eq!(
        account.use_units(Kind::Outgoing, 59),
        used(59, 186, 59, 59, false)
    );
    assert_eq!(
        account.use_units(Kind::Outgoing, 1),
        used(30, 95, 30, 30, false)
    );
    assert_eq!((account.lifetime[1], account.charged), (60, 89));
    assert_eq!(
        account.use_units(Kind::Incoming, 2),
        used(0, 0, 2, 2, false)
    );
    assert_eq!(
        account.use_units(Kind::Incoming, 1),
        used(0, 1, 1, 1, false)
    );
    assert_eq!(account.use_units(Kind::Sms, 3), used(30, 90, 3, 3, false));
    assert_eq!(
        account.use_units(Kind::Data, GB),
        used(0, 11_000, GB, GB, false)
    );
    run(&mut account, &[home()]);
    assert_eq!(account.use_units(Kind::Sms, 1), used(10, 0, 0, 1, false));
}

fn day_of(marks: [bool; 3], kind: Kind, units: [u64; 3]) -> Day {
    let mut day = Day {
        marks,
        ..Day::default()
    };
    day.units[kind as usize] = units;
    day
}

/// service-2, service-3, day-2.
#[test]
fn units_count_whatever_the_day_counts_as() {
    let zone_day = day_of([false, true, false], Kind::Sms, [0, 1, 0]);
    let mixed = day_of([true, true, false], Kind::Sms, [0, 0, 62]);
    let mut log: Log = vec![zone_day; 62].into();
    log.resize(123, Day::default());
    assert!(prevalent(&log, 123, Service::Sms));
    log[122] = mixed;
    assert!(!prevalent(&log, 123, Service::Sms));
    log[121] = day_of([true, true, false], Kind::Sms, [0, 1, 0]);
    assert!(prevalent(&log, 123, Service::Sms));
}

/// service-2, service-3: of calls.
#[test]
fn units_of_calls_by_place() {
    let mut day = Day::default();
    day.units[Kind::Outgoing as usize] = [1, 10, 100];
    day.units[Kind::Incoming as usize] = [1000, 10_000, 100_000];
    assert_eq!(day.zone_units(Service::Calls), 10_010);
    assert_eq!(day.other_units(Service::Calls), 100_101);
}

/// service-7, service-8, service-10.
#[test]
fn warned_counts_and_one_step_a_day() {
    let zone_day = day_of([false, true, false], Kind::Data, [0, 1, 0]);
    let log: Log = vec![zone_day; 123].into();
    let mut state = State::Clear;
    for count in 0..=14 {
        state = step(state, &log, Service::Data);
        assert_eq!(state, State::Warned(count));
    }
    assert_eq!(step(state, &log, Service::Data), State::Surcharged);
    // service-10: prevalent over 123 days, not over 15: clear now, warned a
    // step later.
    let mut late = log.clone();
    late.iter_mut().take(8).for_each(|day| day.marks[0] = true);
    assert_eq!(step(state, &late, Service::Data), State::Clear);
    assert_eq!(step(State::Clear, &late, Service::Data), State::Warned(0));
    assert_eq!(
        step(State::Surcharged, &late, Service::Data),
        State::Surcharged
    );
}

/// service-5: all days there are; service-4: 0 units do not prevail.
#[test]
fn short_logs_and_no_units() {
    let zone_day = day_of([false, true, false], Kind::Data, [0, 1, 0]);
    let mut log: Log = vec![zone_day; 122].into();
    assert!(prevalent(&log, 123, Service::Data));
    assert_eq!(step(State::Clear, &log, Service::Data), State::Clear);
    assert_eq!(
        step(State::Surcharged, &log, Service::Data),
        State::Surcharged
    );
    assert!(!prevalent(&log, 123, Service::Sms), "0 against 0");
    log.truncate(1);
    assert!(prevalent(&log, 15, Service::Data), "all days there are");
    log.push_back(day_of([false, false, true], Kind::Data, [0, 0, 0]));
    assert!(!prevalent(&log, 15, Service::Data), "one of two");
    log.clear();
    assert!(!prevalent(&log, 15, Service::Data), "no day");
}

/// off-1, off-3: off days count for neither side.
#[test]
fn a_month_in_a_drawer_counts_neither_way() {
    // 63 days in the zone, a month off, 30 days at home.
    let zone_day = day_of([false, true, false], Kind::Data, [0, 2, 0]);
    let home_day = day_of([true, false, false], Kind::Data, [1, 0, 0]);
    let mut log: Log = vec![home_day; 30].into();
    log.extend([Day::default(); 30]);
    log.extend([zone_day; 63]);
    assert!(prevalent(&log, 123, Service::Data), "63 against 30");
    log.iter_mut()
        .rev()
        .take(33)
        .for_each(|day| *day = Day::default());
    assert!(!prevalent(&log, 123, Service::Data), "30 against 30");
    log[100] = zone_day;
    assert!(prevalent(&log, 123, Service::Data), "31 against 30");
    let state = step(State::Surcharged, &log, Service::Data);
    assert_eq!(state, State::Surcharged);
    log.push_front(home_day);
    log.truncate(123);
    let state = step(State::Surcharged, &log, Service::Data);
    assert_eq!(state, State::Clear, "a home day joined: 31 against 31");
}

/// day-1: 123 days; sound-10.
#[test]
fn the_log_drops_its_oldest_day() {
    let mut account = open(prepaid(181, 0, 0, 0));
    run(&mut account, &[home(), data(5)]);
    next_days(&mut account, 123);
    assert_eq!(
        (account.log.len(), account.log[122].units[0]),
        (123, [5, 0, 0])
    );
    assert!(account.log[122].marks[0] && !account.log[121].marks[0]);
    next_days(&mut account, 1);
    assert_eq!((account.log.len(), account.log[122]), (123, Day::default()));
    assert!(account.sound());
}

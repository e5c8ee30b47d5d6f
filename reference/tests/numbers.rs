//! Accounts as numbers and back, by the layout of include/meter.h. Rules
//! library-1, library-2, library-5, account-2 to account-4.

mod common;
use common::*;
use reference::generate::case;
use reference::meter::Account;
use reference::numbers::{account, at, numbers, ACCOUNT_NUMBERS, DAY_NUMBERS};
use reference::rng::Rng;
use reference::services::State;
use reference::terms::{Call, Kind, Place};

/// The accounts after each call of some random lists.
fn some_accounts() -> Vec<Account> {
    let mut all = Vec::new();
    for seed in 1..=60 {
        let case = case(seed);
        let mut account = open(case.plan);
        all.push(account.clone());
        for call in case.calls.iter().take(2000) {
            let _ = account.apply(*call);
            all.push(account.clone());
        }
    }
    all
}

/// An account with a number of its own in every place, 123 logged days.
fn full() -> Account {
    let mut next = 100;
    let mut fresh = || {
        next += 1;
        next
    };
    let mut account = open(bundle(700, 5000, 1000, 100_000));
    account.day = 900;
    account.place = Some(Place::Elsewhere);
    for field in [
        &mut account.credit,
        &mut account.paid_in,
        &mut account.home,
        &mut account.extra,
        &mut account.charged,
        &mut account.h,
        &mut account.r,
    ] {
        *field = fresh();
    }
    for units in [
        &mut account.lifetime,
        &mut account.priced,
        &mut account.surcharged,
        &mut account.cap_sums,
    ] {
        *units = [0; 4].map(|_: u64| fresh());
    }
    account.l = Some(fresh());
    account.today.marks = [false, true, true];
    account.today.units = [[0; 3]; 4].map(|places| places.map(|_: u64| fresh()));
    for _ in 0..123 {
        let mut day = account.today;
        day.marks = [true, false, true];
        day.units = day.units.map(|places| places.map(|_| fresh()));
        account.log.push_back(day);
    }
    account.states = [State::Clear, State::Surcharged, State::Warned(14)];
    account
}

/// account-4, library-1: the numbers hold all of an account.
#[test]
fn every_account_is_that_of_its_numbers() {
    let mut accounts = some_accounts();
    accounts.push(full());
    assert!(accounts.len() > 10_000);
    let mut logged = 0;
    for one in &accounts {
        assert_eq!(account(&numbers(one)).as_ref(), Some(one));
        logged = logged.max(one.log.len());
    }
    assert_eq!(logged, 123);
}

/// library-1: numbers of an account are those of the account that they stand
/// for.
#[test]
fn numbers_come_back() {
    let mut rng = Rng::new(3);
    let sound = numbers(&full());
    for place in 0..ACCOUNT_NUMBERS {
        for value in [0, 1, 2, rng.below(1 << 32), u64::from(u32::MAX)] {
            let mut all = sound;
            all[place] = value;
            if let Some(account) = account(&all) {
                assert_eq!(numbers(&account), all, "place {place}, {value}");
            }
        }
    }
}

/// account-2, library-1: each place of the layout by itself.
#[test]
fn every_place_holds_its_own_field() {
    let account = full();
    let all = numbers(&account);
    assert_eq!(
        all[at::PLAN..at::DAY],
        [1, 700, 5000, 60, 10, 1000, 100_000]
    );
    assert_eq!(all[at::DAY..=at::PLACE], [900, 3]);
    let money = [account.credit, account.paid_in, account.home, account.extra];
    assert_eq!(all[at::CREDIT..at::LIFETIME], money);
    assert_eq!(all[1612..1616], account.lifetime);
    assert_eq!(all[1616], account.charged);
    assert_eq!(all[1617..1621], account.priced);
    assert_eq!(all[1621..1625], account.surcharged);
    assert_eq!(all[1625..1629], account.cap_sums);
    assert_eq!(
        all[1629..1632],
        [account.h, account.r, account.l.unwrap() + 1]
    );
    assert_eq!(all[1632], 6);
    assert_eq!(all[1645..], [123, 0, 1, 16]);
    for (k, kind) in Kind::ALL.into_iter().enumerate() {
        for place in Place::ALL {
            let units = account.today.units[kind as usize][place as usize];
            assert_eq!(all[1633 + 4 * place as usize + k], units);
            let units = account.log[122].units[kind as usize][place as usize];
            assert_eq!(all[122 * 13 + 1 + 4 * place as usize + k], units);
        }
    }
    assert_eq!(all[122 * 13], 5);
    let distinct: std::collections::BTreeSet<u64> = all.into_iter().collect();
    assert!(distinct.len() > 1500);
}

/// account-3, plan-5: all is 0 but plan, day and L.
#[test]
fn a_newly_opened_account_in_numbers() {
    let all = numbers(&open(prepaid(1461, 10_000, 600, 500)));
    let mut wanted = [0; ACCOUNT_NUMBERS];
    wanted[1599..1607].copy_from_slice(&[0, 1461, 10_000, 600, 500, 0, 0, 1461]);
    wanted[1631] = 1;
    assert_eq!(all, wanted);
    assert_eq!(numbers(&open(unlimited(1461, 11_000)))[1631], 2_097_153);
}

/// library-5: another count, place or mark, or another log.
#[test]
fn numbers_of_no_account() {
    let mut sound = open(prepaid(1461, 10_000, 600, 500));
    run(
        &mut sound,
        &[Call::TopUp(1000), zone(), data(1), Call::NextDay],
    );
    let sound = numbers(&sound);
    assert!(account(&sound).is_some_and(|account| account.sound()));
    assert_eq!(account(&sound[..1648]), None);
    assert_eq!(account(&[]), None);
    assert_eq!(account(&[&sound[..], &[0]].concat()), None);
    let changes = [
        (at::PLACE, 4),
        (at::MARKS, 8),
        (0, 8),
        (0, u64::MAX),
        (DAY_NUMBERS, 1),
        (DAY_NUMBERS + 5, 1),
        (1598, u64::MAX),
        (at::LOGGED, 0),
        (at::LOGGED, 124),
        (at::LOGGED, u64::MAX),
    ];
    for (place, value) in changes {
        let mut all = sound;
        all[place] = value;
        assert_eq!(account(&all), None, "place {place}, {value}");
    }
}

/// sound-1, sound-11: what is wider than a word is outside the range of a
/// plan's field, of the day or of a warning.
#[test]
fn wide_numbers_are_not_sound() {
    let sound = numbers(&open(bundle(1461, 5000, 1000, 100_000)));
    assert!(account(&sound).is_some_and(|account| account.sound()));
    let places = (at::PLAN..=at::DAY).chain(at::SERVICES..ACCOUNT_NUMBERS);
    for place in places {
        for wide in [1 << 32, (1 << 32) + sound[place], u64::MAX] {
            let mut all = sound;
            all[place] = wide;
            let account = account(&all).expect("an account");
            assert!(!account.sound(), "place {place}, {wide}");
        }
    }
}

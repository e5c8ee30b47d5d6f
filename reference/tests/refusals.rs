//! Soundness (refusal-0), the numbers and order of the refusals. Rules sound-1
//! to sound-11, half-6, refusal-0 to refusal-9, order-1 to order-4, fault-1 to
//! fault-4.

mod common;
use common::*;
use reference::damage::{assemble, to_bytes};
use reference::meter::{Account, Answer};
use reference::plan::Plan;
use reference::rng::Rng;
use reference::services::{Day, State};
use reference::terms::{Call, Kind, Place};
use reference::tripfile::{read, write};
use std::collections::BTreeMap;
use std::hint::black_box;
use std::ops::RangeInclusive;
use std::panic::catch_unwind;

fn every_call() -> Vec<Call> {
    let mut calls = vec![Call::TopUp(1), Call::TopUp(0), Call::NextDay];
    calls.extend(Place::ALL.map(Call::Register));
    for kind in Kind::ALL {
        calls.extend([Call::Use(kind, 1), Call::Use(kind, 0), Call::Afford(kind)]);
    }
    calls
}

/// An account with something in every field, on its 41st day.
fn busy() -> Account {
    let mut account = open(bundle(700, 5000, 1000, 100_000));
    run(&mut account, &[Call::TopUp(1_000_000), zone()]);
    for _ in 0..40 {
        run(&mut account, &[data(5000), Call::Use(Kind::Outgoing, 61)]);
        run(&mut account, &[Call::Use(Kind::Sms, 2), Call::NextDay]);
    }
    run(&mut account, &[data(10), Call::Use(Kind::Incoming, 7)]);
    account
}

fn assert_refused(account: &Account) {
    assert!(!account.sound());
    for call in every_call() {
        let mut copy = account.clone();
        assert_eq!(copy.apply(call), Err(0), "{call:?}");
        assert_eq!(&copy, account);
    }
}

/// sound-1 to sound-11, half-6: each break is refused with 0.
#[test]
fn each_rule_of_soundness_by_itself() {
    let sound = busy();
    assert!(sound.sound());
    let breaks: [fn(&mut Account); 27] = [
        |a| a.plan.form = 3,
        |a| a.plan.volume = 0,
        |a| a.plan.fee = 10_000_001,
        |a| a.plan.start = 180,
        |a| a.day = 180,
        |a| a.day = 3834,
        |a| a.day = a.plan.start - 1,
        |a| a.day += 1,
        |a| a.lifetime[3] = 1_000_000_000_001,
        |a| a.charged = 1_000_000_000_001,
        |a| a.paid_in = 1_000_000_001,
        |a| a.home += 1,
        |a| a.extra -= 1,
        |a| a.credit += 1,
        |a| (a.credit, a.home) = (a.credit - 1, a.home + 1),
        |a| a.r = a.lifetime[0] + 1,
        |a| a.h = a.lifetime[0] + 1,
        |a| a.priced[2] = a.lifetime[2] + 1,
        |a| a.surcharged[2] = a.lifetime[2] + 1,
        |a| a.today.units[2][0] += 1,
        |a| a.log[39].units[3][2] += 1,
        |a| a.cap_sums[2] = 1,
        |a| a.l = Some(2_000_000_000_000_001),
        |a| a.log.truncate(39),
        |a| a.log.push_back(Day::default()),
        |a| a.states[1] = State::Warned(15),
        |a| a.log[0].units[0] = [u64::MAX; 3],
    ];
    for change in breaks {
        let mut account = sound.clone();
        change(&mut account);
        assert_refused(&account);
    }
}

/// sound-2: paid in by itself.
#[test]
fn paid_in_over_its_limit_is_unsound_though_the_sums_agree() {
    let mut account = open(prepaid(700, 0, 0, 0));
    (account.paid_in, account.credit) = (1_000_000_000, 1_000_000_000);
    assert!(account.sound());
    (account.paid_in, account.credit) = (1_000_000_001, 1_000_000_001);
    assert_refused(&account);
}

/// Soundness is sound-1 to sound-11, half-6, and nothing more.
#[test]
fn odd_accounts_that_are_sound() {
    let changes: [fn(&mut Account); 8] = [
        |a| a.l = None,
        |a| a.l = Some(2_000_000_000_000_000),
        |a| a.today.marks = [false; 3],
        |a| a.log[3].marks = [true; 3],
        |a| a.log[3].units = [[0; 3]; 4],
        |a| a.states = [State::Warned(14), State::Surcharged, State::Warned(0)],
        |a| a.place = None,
        |a| a.charged = 1_000_000_000_000,
    ];
    for change in changes {
        let mut account = busy();
        change(&mut account);
        assert!(account.sound());
    }
    let mut account = open(prepaid(700, 0, 0, 0));
    account.l = None;
    assert!(account.sound());
}

/// Sets a field to any number.
fn alter(account: &mut Account, rng: &mut Rng) {
    let value = match rng.below(4) {
        0 => u64::MAX,
        1 => rng.below(1000),
        2 => rng.scaled(u64::MAX >> 2),
        _ => rng.word(),
    };
    let k = rng.below(4) as usize;
    match rng.below(15) {
        0 => account.credit = value,
        1 => account.paid_in = value,
        2 => account.home = value,
        3 => account.extra = value,
        4 => account.lifetime[k] = value,
        5 => account.priced[k] = value,
        6 => account.surcharged[k] = value,
        7 => account.cap_sums[k] = value,
        8 => account.h = value,
        9 => account.r = value,
        10 => account.l = Some(value),
        11 => account.log[k].units[k] = [value, u64::MAX, 1],
        12 => account.day = value as u32,
        13 => account.charged = value,
        _ => account.plan.fee = value as u32,
    }
}

/// refusal-0: any values at all are refused or sound, and nothing overflows.
/// Where sums wrap, as in a release build, an overflow would not show.
#[test]
#[cfg_attr(
    not(debug_assertions),
    ignore = "shows nothing where sums wrap: cargo test --profile checked"
)]
fn any_values_never_overflow() {
    let most = black_box(u64::MAX);
    assert!(catch_unwind(|| most + black_box(1)).is_err(), "sums wrap");
    let mut rng = Rng::new(7);
    for _ in 0..4_000 {
        let mut account = busy();
        for _ in 0..rng.between(1, 3) {
            alter(&mut account, &mut rng);
        }
        for call in every_call() {
            let mut copy = account.clone();
            let got = copy.apply(call);
            assert_eq!(got == Err(0), !account.sound());
            assert!(got.is_ok() || copy == account);
        }
    }
}

/// fault-1 to fault-4, order-4.
#[test]
fn open_tells_the_faults_of_a_plan_apart() {
    for words in GOOD_PLANS {
        let got = Account::open(Plan::from_words(words)).map(|account| account.day);
        assert_eq!(got, Ok(words[1]), "{words:?}");
    }
    for (number, words) in bad_plans() {
        let got = Account::open(Plan::from_words(words)).map(|account| account.day);
        assert_eq!(got, Err(number), "{words:?}");
    }
}

/// plan-2 to plan-6, refusal-2: what each field may be, by form.
const RANGES: [[RangeInclusive<u32>; 6]; 3] = {
    const START: RangeInclusive<u32> = 181..=3833;
    const PRICE: RangeInclusive<u32> = 0..=1_000_000;
    const FEE: RangeInclusive<u32> = 0..=10_000_000;
    const UNUSED: RangeInclusive<u32> = 0..=0;
    [
        [START, PRICE, PRICE, PRICE, UNUSED, UNUSED],
        [START, PRICE, PRICE, PRICE, FEE, 1..=1_073_741_824],
        [START, UNUSED, PRICE, PRICE, FEE, UNUSED],
    ]
};

/// fault-1 to fault-4: the number that a plan must get, 0 if it must be
/// accepted.
fn number_by_ranges(words: [u32; 7]) -> u32 {
    let Some(ranges) = RANGES.get(words[0] as usize) else {
        return 1;
    };
    let wrong: Vec<usize> = (0..6)
        .filter(|i| !ranges[*i].contains(&words[*i + 1]))
        .collect();
    if wrong.iter().any(|i| ranges[*i] == (0..=0)) {
        1
    } else if wrong.iter().any(|i| [1, 2, 3].contains(i)) {
        17
    } else if wrong.iter().any(|i| [4, 5].contains(i)) {
        18
    } else if wrong == [0] {
        2
    } else {
        0
    }
}

/// Seven words in their ranges, some of them then moved to an edge or past it.
fn words_near_the_edges(rng: &mut Rng) -> [u32; 7] {
    let edges: [&[u32]; 7] = [
        &[0, 1, 2, 3, 4, u32::MAX],
        &[0, 180, 181, 3833, 3834, u32::MAX],
        &[0, 1, 999_999, 1_000_000, 1_000_001, u32::MAX],
        &[0, 1, 999_999, 1_000_000, 1_000_001, u32::MAX],
        &[0, 1, 999_999, 1_000_000, 1_000_001, u32::MAX],
        &[0, 1, 9_999_999, 10_000_000, 10_000_001, u32::MAX],
        &[0, 1, 1_073_741_823, 1_073_741_824, 1_073_741_825, u32::MAX],
    ];
    let form = rng.below(3) as u32;
    let mut words = [form, 1461, 0, 5, 5, 0, u32::from(form == 1)];
    for _ in 0..rng.between(0, 4) {
        let at = rng.below(7) as usize;
        words[at] = rng.pick(edges[at]);
    }
    words
}

/// order-4: a plan is accepted just where all ranges are kept, and gets one
/// number at Open, in reading and in writing.
#[test]
fn plans_near_the_edges() {
    let mut rng = Rng::new(413);
    let mut seen = BTreeMap::new();
    for _ in 0..100_000 {
        let words = words_near_the_edges(&mut rng);
        let number = number_by_ranges(words);
        let plan = Plan::from_words(words);
        let opened = Account::open(plan).err().unwrap_or(0);
        let bytes = assemble(&[(1, to_bytes(&words)), (2, to_bytes(&[7, 0]))]);
        let read = read(&bytes).err().unwrap_or(0);
        let written = write(&plan, &[7], &[0], &mut [0; 72]).err().unwrap_or(0);
        assert_eq!([opened, read, written], [number; 3], "{words:?}");
        *seen.entry(number).or_insert(0) += 1;
    }
    assert_eq!(Vec::from_iter(seen.keys()), [&0, &1, &2, &17, &18]);
    assert!(seen.values().all(|count| *count > 1000), "{seen:?}");
}

/// sound-1: the plan of a sound account keeps the same ranges.
#[test]
fn accounts_under_bad_plans_are_not_sound() {
    for (number, words) in bad_plans() {
        let mut account = open(prepaid(1461, 0, 0, 0));
        account.plan = Plan::from_words(words);
        assert!(!account.sound(), "{number}, {words:?}");
        assert_eq!(account.apply(data(1)), Err(0));
    }
}

/// order-3, refusal-3 to refusal-6; afford-1.
#[test]
fn use_refuses_in_the_order_3_4_5_6() {
    let mut account = open(prepaid(181, 1_000_000, 1_000_000, 1_000_000));
    assert_eq!(account.apply(data(0)), Err(3));
    assert_eq!(account.afford(Kind::Sms), Err(3));
    run(&mut account, &[elsewhere()]);
    account.lifetime[0] = 999_999_999_999;
    assert_eq!(account.apply(data(0)), Err(4));
    assert_eq!(account.apply(data(1_000_000_001)), Err(4));
    assert_eq!(account.apply(data(2)), Err(5));
    assert_eq!(account.afford(Kind::Data), Ok(Answer::Most(1)));
    run(&mut account, &[home()]);
    assert_eq!(account.apply(data(1_000_000_000)), Err(5));
    assert_eq!(account.apply(Call::Use(Kind::Sms, 1)), Err(6));
    assert_eq!(account.afford(Kind::Sms), Ok(Answer::Most(0)));
    // refusal-6: one kB costs 0 points of its own, accepted with credit 0.
    assert_eq!(account.apply(data(1)), used(0, 0, 0, 1, false));
    assert_eq!(account.apply(data(1)), Err(5));
    assert_eq!(account.afford(Kind::Data), Ok(Answer::Most(0)));
}

/// order-3, refusal-7 to refusal-9; register-2 on the last day.
#[test]
fn top_up_and_next_day_refusals() {
    let mut account = open(prepaid(3832, 0, 0, 0));
    assert_eq!(account.top_up(0), Err(7));
    assert_eq!(account.top_up(10_000_001), Err(7));
    assert_eq!(account.top_up(u64::MAX), Err(7));
    for _ in 0..100 {
        assert_eq!(account.top_up(10_000_000), Ok(Answer::Done));
    }
    assert_eq!(account.top_up(1), Err(8));
    assert_eq!(account.top_up(10_000_001), Err(7));
    assert_eq!(account.next_day(), Ok(Answer::Done));
    let last = account.clone();
    assert_eq!((account.day, account.next_day()), (3833, Err(9)));
    assert_eq!(account, last);
    assert_eq!(account.register(Place::Zone), Ok(Answer::Done));
    assert_eq!(account.l, Some(104_857_600_000));
}

/// mistake-1, use-11: one division over the life.
#[test]
fn a_thousand_records_of_one_kb_cost_as_much_as_one() {
    let mut split = open(prepaid(181, 1_000_000, 0, 0));
    run(&mut split, &[Call::TopUp(10_000), home()]);
    let mut whole = split.clone();
    for _ in 0..1000 {
        split.apply(data(1)).unwrap();
    }
    assert_eq!(whole.apply(data(1000)), used(953, 0, 0, 1000, false));
    assert_eq!(split, whole);
}

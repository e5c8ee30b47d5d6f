//! Accounts for the comparison, as numbers: those that lists lead to, sound
//! ones that no list leads to, and other numbers to damage them with. Accounts
//! at the edge of a condition of soundness are in `edges`. Rules sound-1 to
//! sound-11, half-6.

pub mod edges;

use crate::generate::{plan_of, trip};
use crate::meter::Account;
use crate::numbers::{at, numbers, Numbers, ACCOUNT_NUMBERS, DAY_NUMBERS};
use crate::plan::{BUNDLE, PREPAID, UNLIMITED};
use crate::rng::Rng;
use crate::services::LOG_DAYS;
use crate::terms::GB;

/// sound-2: the most lifetime units (refusal-5).
const LIFETIME_LIMIT: u64 = 1_000_000_000_000;
/// sound-2: the most that is paid in (refusal-8).
const PAID_LIMIT: u64 = 1_000_000_000;
/// sound-9: the largest L.
const LIMIT_LIMIT: u64 = 2_000_000_000_000_000;
/// sound-1: the days of an account (refusal-2).
const LAST_DAY: u64 = 3833;
const FIRST_DAY: u64 = 181;
/// No sort of charge of a made account is over this, so that all of them
/// together stay within what can be paid in.
const MOST_POINTS: u64 = 100_000_000;

/// The account after some calls of a random trip.
pub fn reached(rng: &mut Rng) -> Box<Numbers> {
    let case = trip(rng.word());
    let mut account = Account::open(case.plan).expect("generated plans keep their ranges");
    let count = rng.below(case.calls.len() as u64 + 1) as usize;
    for call in &case.calls[..count] {
        let _ = account.apply(*call);
    }
    Box::new(numbers(&account))
}

/// A sound account, most often one that no list of calls leads to.
pub fn made(rng: &mut Rng) -> Box<Numbers> {
    let mut all = Box::new([0; ACCOUNT_NUMBERS]);
    let form = rng.pick(&[PREPAID, BUNDLE, UNLIMITED]);
    let plan = plan_of(rng, form).to_words().map(u64::from);
    all[at::PLAN..at::DAY].copy_from_slice(&plan);
    let since = match rng.below(4) {
        0 => rng.below(4),
        1 => rng.pick(&[14, 15, 16, 60, 61, 122]),
        2 => rng.pick(&[123, 124, 125, 400]),
        _ => rng.below(400),
    };
    let day = some_day(rng);
    stand_on(&mut all, day, since);
    for k in 0..4 {
        let units = some_of(rng, LIFETIME_LIMIT);
        all[at::LIFETIME + k] = units;
        fill_days(rng, &mut all, k, units);
    }
    all[at::CHARGED_SECONDS] = match rng.below(3) {
        0 => all[at::LIFETIME + 1],
        1 => LIFETIME_LIMIT - rng.below(62),
        _ => some_of(rng, LIFETIME_LIMIT),
    };
    mark_days(rng, &mut all);
    all[at::PLACE] = rng.pick(&[0, 1, 2, 2, 2, 3]);
    for service in 0..3 {
        all[at::SERVICES + service] = match rng.below(5) {
            0 | 1 => 1,
            2 => 2 + 14,
            3 => 2 + rng.below(15),
            _ => 0,
        };
    }
    charge(rng, &mut all);
    limits(rng, &mut all);
    all
}

/// A number up to another: often 0, or that one, or a little less.
pub(crate) fn some_of(rng: &mut Rng, most: u64) -> u64 {
    match rng.below(6) {
        0 => 0,
        1 => most,
        2 => most.saturating_sub(rng.below(40)),
        _ => rng.scaled(most),
    }
}

/// A day, often one before a month's turn, a change of caps or the end.
fn some_day(rng: &mut Rng) -> u64 {
    match rng.below(4) {
        0 => rng.pick(&[364, 365, 729, 730, 1095, 1096, 1460, 1461, 1825, 1826]),
        1 => rng.pick(&[181, 182, 211, 788, 789, 3832, 3833]),
        _ => rng.between(FIRST_DAY, LAST_DAY),
    }
}

/// sound-10: puts an account with an empty log on a day, so many days after its
/// start or as many as there can be.
fn stand_on(all: &mut Numbers, day: u64, since: u64) {
    let since = since.min(day - FIRST_DAY);
    all[at::PLAN + 1] = day - since;
    all[at::DAY] = day;
    all[at::LOGGED] = since.min(LOG_DAYS as u64);
}

/// sound-7: spreads up to so many units of a kind over today and the logged
/// days. Where there are few, most places stay 0.
fn fill_days(rng: &mut Rng, all: &mut Numbers, k: usize, units: u64) {
    let logged = all[at::LOGGED] as usize;
    let places = 3 * (logged as u64 + 1);
    let (mut left, most) = (units, units / places);
    let zone = rng.pick(&[1, 1, 2, 3]);
    for index in 0..=logged {
        for p in 0..3 {
            let most = if p == 1 { most } else { most / zone };
            let part = match most {
                0 => rng.below(2).min(left),
                _ => rng.below(most + 1).min(left),
            };
            left -= part;
            let day = if index == logged {
                at::MARKS
            } else {
                DAY_NUMBERS * index
            };
            all[day + 1 + 4 * p + k] = part;
        }
    }
}

/// Marks today and the logged days, by chance.
fn mark_days(rng: &mut Rng, all: &mut Numbers) {
    let zone = rng.pick(&[5, 45, 50, 55, 95]);
    let off = rng.pick(&[0, 0, 30, 90]);
    let mark = |rng: &mut Rng| {
        if rng.chance(off) {
            0
        } else if rng.chance(zone) {
            2
        } else {
            rng.pick(&[1, 1, 3, 4, 5, 6, 7])
        }
    };
    all[at::MARKS] = mark(rng);
    for index in 0..all[at::LOGGED] as usize {
        all[DAY_NUMBERS * index] = mark(rng);
    }
}

/// sound-6, sound-8, half-6: priced and surcharged units with their cap sums;
/// charges, credit and what was paid in.
fn charge(rng: &mut Rng, all: &mut Numbers) {
    let divisors = [GB, 60, 60, 1];
    let prices = [2, 3, 0, 4].map(|field| all[at::PLAN + field]);
    for k in 0..4 {
        let bound = if k == 1 {
            at::CHARGED_SECONDS
        } else {
            at::LIFETIME + k
        };
        let most = match (k, prices[k]) {
            (2, _) | (_, 0) => all[bound],
            (_, price) => all[bound].min(MOST_POINTS * divisors[k] / price),
        };
        all[at::PRICED + k] = some_of(rng, most);
        let surcharged = some_of(rng, all[bound]);
        all[at::SURCHARGED + k] = surcharged;
        let most = (20_000 * surcharged).min(MOST_POINTS * divisors[k]);
        all[at::CAP_SUMS + k] = some_of(rng, most);
    }
    let left = PAID_LIMIT - charges(all);
    let credit = some_of(rng, left);
    balance(all, credit);
}

/// sound-3: both charges from the amounts held.
fn charges(all: &Numbers) -> u64 {
    home_charges(all) + surcharges(all)
}

fn home_charges(all: &Numbers) -> u64 {
    let [data, minute, sms] = [2, 3, 4].map(|field| all[at::PLAN + field]);
    let priced = &all[at::PRICED..];
    data * priced[0] / GB + minute * priced[1] / 60 + sms * priced[3]
}

fn surcharges(all: &Numbers) -> u64 {
    let sums = &all[at::CAP_SUMS..];
    sums[0] / GB + sums[1] / 60 + sums[2] / 60 + sums[3]
}

/// sound-4: puts the charges in their places, with a credit, and what was paid
/// in.
fn balance(all: &mut Numbers, credit: u64) {
    all[at::HOME_CHARGES] = home_charges(all);
    all[at::SURCHARGES] = surcharges(all);
    all[at::CREDIT] = credit;
    all[at::PAID] = credit + all[at::HOME_CHARGES] + all[at::SURCHARGES];
}

/// sound-5, sound-9: H, R and L, often near V and near each other.
fn limits(rng: &mut Rng, all: &mut Numbers) {
    let data = all[at::LIFETIME];
    let volume = all[at::PLAN + 6];
    let near = (volume + rng.below(3)).saturating_sub(1);
    all[at::MONTHLY] = match rng.below(2) {
        0 => near.min(data),
        _ => some_of(rng, data),
    };
    all[at::ROAMED] = some_of(rng, data);
    let r = all[at::ROAMED];
    all[at::LIMIT] = match rng.below(7) {
        0 => 0,
        1 => 1,
        2 => LIMIT_LIMIT + 1,
        3 | 4 => r + rng.below(4),
        _ => 1 + rng.scaled(1 << 40),
    };
}

/// Numbers at which some condition has its edge.
const LIMITS: [u64; 16] = [
    1,
    2,
    3,
    7,
    16,
    123,
    181,
    3833,
    1_000_000,
    10_000_000,
    1_073_741_824,
    1_000_000_000,
    1_000_000_000_000,
    2_000_000_000_000_001,
    1 << 50,
    1 << 40,
];

/// Another number in place of one: near it, near a limit, or huge.
pub fn other_number(rng: &mut Rng, old: u64) -> u64 {
    let other = match rng.below(8) {
        0 => rng.below(3),
        1 => old.wrapping_add(1),
        2 => old.wrapping_sub(1),
        3 | 4 => rng.pick(&LIMITS) + rng.below(3) - 1,
        5 => rng.pick(&[1 << 32, (1 << 32) + old % (1 << 32), 1 << 40, 1 << 63]),
        6 => u64::MAX - rng.below(2),
        _ => rng.word() >> rng.below(64),
    };
    if other == old {
        old.wrapping_add(1)
    } else {
        other
    }
}

/// Random numbers, of any length in bits.
pub fn random(rng: &mut Rng) -> Box<Numbers> {
    let most = rng.below(65);
    Box::new(std::array::from_fn(|_| {
        rng.word().checked_shr(64 - most as u32).unwrap_or(0)
    }))
}

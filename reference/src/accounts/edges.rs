//! Accounts at the edge of a condition of soundness, or past it by one. Rules
//! sound-1 to sound-11, half-6, library-5.

use super::{balance, charges, fill_days, mark_days, stand_on};
use super::{FIRST_DAY, LAST_DAY, LIFETIME_LIMIT, LIMIT_LIMIT, PAID_LIMIT};
use crate::coverage::soundness::{self, Condition};
use crate::generate::{any_plan, plan_of};
use crate::numbers::{at, Numbers, ACCOUNT_NUMBERS, DAY_NUMBERS};
use crate::plan::{BUNDLE, PREPAID, UNLIMITED};
use crate::rng::Rng;
use crate::services::LOG_DAYS;

/// A sound account with room on all sides, for the edges.
pub(crate) fn roomy(rng: &mut Rng, form: u32) -> Box<Numbers> {
    let mut all = Box::new([0; ACCOUNT_NUMBERS]);
    let mut plan = plan_of(rng, form);
    (plan.minute_price, plan.sms_price) = (rng.below(1000) as u32, rng.below(1000) as u32);
    let plan = plan.to_words().map(u64::from);
    all[at::PLAN..at::DAY].copy_from_slice(&plan);
    let (day, since) = (rng.between(400, 3700), rng.between(1, 200));
    stand_on(&mut all, day, since);
    for k in 0..4 {
        let units = rng.between(1_000_000, LIFETIME_LIMIT / 2);
        all[at::LIFETIME + k] = units;
        all[at::PRICED + k] = rng.between(1, 60);
        all[at::SURCHARGED + k] = rng.between(1, 60);
        all[at::CAP_SUMS + k] = rng.below(20_000 * all[at::SURCHARGED + k]);
        fill_days(rng, &mut all, k, units / 2);
    }
    all[at::CHARGED_SECONDS] = rng.between(1_000_000, LIFETIME_LIMIT / 2);
    mark_days(rng, &mut all);
    all[at::PLACE] = rng.below(4);
    all[at::MONTHLY] = rng.below(1000);
    all[at::ROAMED] = rng.below(1000);
    all[at::LIMIT] = rng.scaled(1 << 40);
    let credit = rng.between(1, 1_000_000);
    balance(&mut all, credit);
    all
}

/// An account at the edge of a condition, or past it by one; it keeps all
/// others.
pub fn at_edge(rng: &mut Rng, condition: Condition, past: bool) -> Box<Numbers> {
    let form = match condition {
        Condition::PrepaidFee | Condition::PrepaidVolume => PREPAID,
        Condition::BundleFee | Condition::LeastVolume | Condition::MostVolume => BUNDLE,
        Condition::UnusedDataPrice | Condition::UnlimitedFee => UNLIMITED,
        Condition::UnlimitedVolume | Condition::Form => UNLIMITED,
        Condition::DataPrice => rng.pick(&[PREPAID, BUNDLE]),
        _ => any_plan(rng).form,
    };
    let mut all = roomy(rng, form);
    let by = u64::from(past);
    put_plan(&mut all, condition, by);
    put_day(rng, &mut all, condition, by);
    put_log(rng, &mut all, condition, by);
    put_units(rng, &mut all, condition, by);
    put_money(rng, &mut all, condition, by);
    all
}

/// sound-1: a condition of the plan; prices move the charges.
fn put_plan(all: &mut Numbers, condition: Condition, by: u64) {
    let (field, value) = match condition {
        Condition::Form => (0, 2 + by),
        Condition::DataPrice => (2, 1_000_000 + by),
        Condition::UnusedDataPrice => (2, by),
        Condition::MinutePrice => (3, 1_000_000 + by),
        Condition::SmsPrice => (4, 1_000_000 + by),
        Condition::BundleFee | Condition::UnlimitedFee => (5, 10_000_000 + by),
        Condition::PrepaidFee => (5, by),
        Condition::LeastVolume => (6, 1 - by),
        Condition::MostVolume => (6, 1_073_741_824 + by),
        Condition::PrepaidVolume | Condition::UnlimitedVolume => (6, by),
        _ => return,
    };
    all[at::PLAN + field] = value;
    balance(all, all[at::CREDIT]);
}

/// sound-1, sound-10: a condition of day and log length.
fn put_day(rng: &mut Rng, all: &mut Numbers, condition: Condition, by: u64) {
    let blank = |all: &mut Numbers| all[at::LOG..at::PLAN].fill(0);
    match condition {
        Condition::StartDay => {
            all[at::PLAN + 1] = FIRST_DAY - by;
            blank(all);
            let since = rng.below(200);
            all[at::DAY] = all[at::PLAN + 1] + since;
            all[at::LOGGED] = since.min(123);
        }
        Condition::LastDay => {
            blank(all);
            let since = rng.between(1, 200);
            stand_on(all, LAST_DAY, since);
            all[at::DAY] += by;
            all[at::LOGGED] = (since + by).min(123);
        }
        Condition::DayFromStart => {
            blank(all);
            all[at::LOGGED] = 0;
            all[at::DAY] = all[at::PLAN + 1] - by;
        }
        Condition::LoggedMore => {
            blank(all);
            all[at::LOGGED] += by;
        }
        Condition::LoggedFewer => {
            blank(all);
            all[at::LOGGED] -= by;
        }
        Condition::Place => all[at::PLACE] = 3 + by,
        _ => {}
    }
}

/// sound-11: a condition of warnings; sound-10: of marks in the log, and of
/// places past the logged days; library-2: of today's marks.
fn put_log(rng: &mut Rng, all: &mut Numbers, condition: Condition, by: u64) {
    let warned = soundness::WARNED.iter().position(|one| *one == condition);
    if let Some(service) = warned {
        all[at::SERVICES + service] = 2 + 14 + by;
        return;
    }
    match condition {
        Condition::TodayMarks => all[at::MARKS] = 7 + by,
        Condition::LoggedMarks => {
            let day = rng.below(all[at::LOGGED]) as usize;
            all[DAY_NUMBERS * day] = 7 + by;
        }
        Condition::PastMarks | Condition::PastUnits => {
            let logged = rng.below(123);
            all[at::PLAN + 1] = all[at::DAY] - logged;
            all[at::LOGGED] = logged;
            all[DAY_NUMBERS * logged as usize..at::PLAN].fill(0);
            let day = DAY_NUMBERS * rng.between(logged, 122) as usize;
            let number = match condition {
                Condition::PastMarks => 0,
                _ => rng.between(1, 12) as usize,
            };
            all[day + number] = by;
        }
        _ => {}
    }
}

/// sound-2, sound-5 to sound-9, half-6: a condition of units.
fn put_units(rng: &mut Rng, all: &mut Numbers, condition: Condition, by: u64) {
    let kind = |of: [Condition; 4]| of.iter().position(|one| *one == condition);
    let bound = |k: usize| {
        if k == 1 {
            at::CHARGED_SECONDS
        } else {
            at::LIFETIME + k
        }
    };
    match condition {
        Condition::ChargedSeconds => all[at::CHARGED_SECONDS] = LIFETIME_LIMIT + by,
        Condition::Roamed => all[at::ROAMED] = all[at::LIFETIME] + by,
        Condition::Monthly => all[at::MONTHLY] = all[at::LIFETIME] + by,
        Condition::Limit => all[at::LIMIT] = LIMIT_LIMIT + 1 + by,
        _ => {}
    }
    if let Some(k) = kind(soundness::LIFETIME) {
        all[at::LIFETIME + k] = LIFETIME_LIMIT + by;
    }
    if let Some(k) = kind(soundness::PRICED) {
        lone_units(all, k);
        all[at::PRICED + k] = all[bound(k)] + by;
        (all[at::SURCHARGED + k], all[at::CAP_SUMS + k]) = (0, 0);
    }
    if let Some(k) = kind(soundness::SURCHARGED) {
        lone_units(all, k);
        all[at::SURCHARGED + k] = all[bound(k)] + by;
        (all[at::PRICED + k], all[at::CAP_SUMS + k]) = (0, 0);
    }
    if let Some(k) = kind(soundness::DAYS) {
        put_days(rng, all, k, by);
    }
    if let Some(k) = kind(soundness::CAP_SUMS) {
        all[at::CAP_SUMS + k] = 20_000 * all[at::SURCHARGED + k] + by;
    }
    balance(all, all[at::CREDIT]);
}

/// Few units of a kind, none of them on a day, so that others can be held
/// against them.
fn lone_units(all: &mut Numbers, k: usize) {
    for day in (0..LOG_DAYS)
        .map(|day| DAY_NUMBERS * day)
        .chain([at::MARKS])
    {
        for p in 0..3 {
            all[day + 1 + 4 * p + k] = 0;
        }
    }
    all[at::LIFETIME + k] = 50;
    match k {
        0 => (all[at::MONTHLY], all[at::ROAMED]) = (0, 0),
        1 => all[at::CHARGED_SECONDS] = 50,
        _ => {}
    }
}

/// sound-7: units of today or of a logged day that make up all the lifetime
/// units.
fn put_days(rng: &mut Rng, all: &mut Numbers, k: usize, by: u64) {
    lone_units(all, k);
    all[at::PRICED + k] = 0;
    (all[at::SURCHARGED + k], all[at::CAP_SUMS + k]) = (0, 0);
    let logged = all[at::LOGGED];
    let day = match rng.below(2) {
        0 => at::MARKS,
        _ => DAY_NUMBERS * rng.below(logged) as usize,
    };
    let p = rng.below(3) as usize;
    all[day + 1 + 4 * p + k] = 50 + by;
    if rng.chance(50) {
        // The units may lie on two days, or at two places.
        all[day + 1 + 4 * p + k] -= 20;
        all[at::MARKS + 1 + 4 * ((p + 1) % 3) + k] += 20;
    }
}

/// sound-2 to sound-4: a condition of money.
fn put_money(rng: &mut Rng, all: &mut Numbers, condition: Condition, by: u64) {
    if condition == Condition::PaidIn {
        let credit = PAID_LIMIT + by - charges(all);
        balance(all, credit);
    }
    // Where a charge is to be lower, there has to be one.
    if matches!(condition, Condition::HomeLess | Condition::ExtraLess) {
        all[at::PLAN + 4] = 1 + rng.below(1000);
        all[at::CAP_SUMS + 3] = 1 + rng.below(20_000 * all[at::SURCHARGED + 3]);
        balance(all, all[at::CREDIT]);
    }
    match condition {
        Condition::HomeMore => all[at::HOME_CHARGES] += by,
        Condition::HomeLess => all[at::HOME_CHARGES] -= by,
        Condition::ExtraMore => all[at::SURCHARGES] += by,
        Condition::ExtraLess => all[at::SURCHARGES] -= by,
        Condition::PaidMore => all[at::PAID] += by,
        Condition::PaidLess => all[at::PAID] -= by,
        _ => {}
    }
    match condition {
        Condition::HomeMore | Condition::ExtraMore => all[at::CREDIT] -= by,
        Condition::HomeLess | Condition::ExtraLess => all[at::CREDIT] += by,
        _ => {}
    }
}

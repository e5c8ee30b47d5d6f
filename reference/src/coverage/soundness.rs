//! The conditions of a sound account, each worked out by itself from the
//! account's numbers: sound-1 to sound-11 with half-6, and what the header asks
//! of numbers that stand for an account (library-2, library-5).

use super::returns::Function;
use super::TripEvents;
use crate::numbers::{at, Numbers, ACCOUNT_NUMBERS, DAY_NUMBERS};
use crate::services::LOG_DAYS;
use crate::sides::ACCEPTED;
use crate::terms::GB;

/// Conditions with their names: at most one event each for a sound account at
/// the edge, for one that is past it by one and keeps all others, and for a box
/// with such an account (family-11).
macro_rules! conditions {
    ($($condition:ident $name:literal),* $(,)?) => {
        /// Each says that some amount is at most another.
        #[derive(Clone, Copy, PartialEq, Eq, Debug)]
        pub enum Condition {
            $($condition),*
        }

        impl Condition {
            pub const ALL: &[Condition] = &[$(Condition::$condition),*];
        }

        const AT_THE_EDGE: &[&str] = &[$(concat!("sound at the edge: ", $name)),*];
        const BY_ONE: &[&str] = &[$(concat!("not sound by one alone: ", $name)),*];
        const BOX_BY_ONE: &[&str] = &[$(concat!("box 0 by one alone: ", $name)),*];
    };
}

conditions! {
    Form "form",
    StartDay "start day 181",
    DataPrice "data price",
    UnusedDataPrice "unused data price",
    MinutePrice "minute price",
    SmsPrice "SMS price",
    BundleFee "fee of a bundle",
    UnlimitedFee "fee of an unlimited plan",
    PrepaidFee "unused fee",
    LeastVolume "least V",
    MostVolume "largest V",
    PrepaidVolume "unused V of a prepaid plan",
    UnlimitedVolume "unused V of an unlimited plan",
    LastDay "day 3833",
    DayFromStart "day from the start on",
    LoggedMore "logged days, one more",
    LoggedFewer "logged days, one fewer",
    Place "place",
    TodayMarks "today's marks",
    LoggedMarks "marks of a logged day",
    PastMarks "marks past the logged days",
    PastUnits "units past the logged days",
    LifetimeData "lifetime kB",
    LifetimeOutgoing "lifetime outgoing seconds",
    LifetimeIncoming "lifetime incoming seconds",
    LifetimeSms "lifetime SMS",
    ChargedSeconds "charged seconds",
    PaidIn "paid in",
    Roamed "R",
    Monthly "H",
    PricedData "priced kB",
    PricedOutgoing "priced outgoing seconds",
    PricedIncoming "priced incoming seconds",
    PricedSms "priced SMS",
    SurchargedData "surcharged kB",
    SurchargedOutgoing "surcharged outgoing seconds",
    SurchargedIncoming "surcharged incoming seconds",
    SurchargedSms "surcharged SMS",
    DaysData "kB of today and the log",
    DaysOutgoing "outgoing seconds of today and the log",
    DaysIncoming "incoming seconds of today and the log",
    DaysSms "SMS of today and the log",
    CapSumData "cap sum of data",
    CapSumOutgoing "cap sum of outgoing seconds",
    CapSumIncoming "cap sum of incoming seconds",
    CapSumSms "cap sum of SMS",
    Limit "L",
    WarnedData "day changes since the warning of data",
    WarnedCalls "day changes since the warning of calls",
    WarnedSms "day changes since the warning of SMS",
    HomeMore "home charges, a point more",
    HomeLess "home charges, a point less",
    ExtraMore "surcharges, a point more",
    ExtraLess "surcharges, a point less",
    PaidMore "paid in against credit and charges, a point more",
    PaidLess "paid in against credit and charges, a point less",
}

/// Conditions of one sort, by kind or service.
pub const LIFETIME: [Condition; 4] = [
    Condition::LifetimeData,
    Condition::LifetimeOutgoing,
    Condition::LifetimeIncoming,
    Condition::LifetimeSms,
];
pub const PRICED: [Condition; 4] = [
    Condition::PricedData,
    Condition::PricedOutgoing,
    Condition::PricedIncoming,
    Condition::PricedSms,
];
pub const SURCHARGED: [Condition; 4] = [
    Condition::SurchargedData,
    Condition::SurchargedOutgoing,
    Condition::SurchargedIncoming,
    Condition::SurchargedSms,
];
pub const DAYS: [Condition; 4] = [
    Condition::DaysData,
    Condition::DaysOutgoing,
    Condition::DaysIncoming,
    Condition::DaysSms,
];
pub const CAP_SUMS: [Condition; 4] = [
    Condition::CapSumData,
    Condition::CapSumOutgoing,
    Condition::CapSumIncoming,
    Condition::CapSumSms,
];
pub const WARNED: [Condition; 3] = [
    Condition::WarnedData,
    Condition::WarnedCalls,
    Condition::WarnedSms,
];

/// library-5: another count of numbers than an account has, by function: none,
/// one fewer, one more.
macro_rules! counts {
    ($($name:literal),*) => {
        &[$([
            concat!($name, " 0, no numbers"),
            concat!($name, " 0, 1,648 numbers"),
            concat!($name, " 0, 1,650 numbers"),
        ]),*]
    };
}

const COUNTS: &[[&str; 3]] =
    counts!("open", "register", "use", "top-up", "next day", "afford", "sound", "run");

/// What accounts of any numbers come to.
pub fn events() -> impl Iterator<Item = &'static str> {
    let conditions = AT_THE_EDGE.iter().chain(BY_ONE).chain(BOX_BY_ONE);
    let all = conditions.chain(COUNTS.as_flattened()).chain(OTHERS);
    all.copied()
}

const OTHERS: &[&str] = &[
    "every number of the layout changed by itself",
    "random numbers",
];

/// Sums over the days of an account.
struct Days {
    /// sound-7: units of today and of the logged days, by kind.
    units: [u128; 4],
    /// The largest marks of a logged day.
    marks: u64,
    /// The largest marks and the largest unit past the logged days.
    past: [u64; 2],
}

impl Days {
    fn of(all: &Numbers) -> Days {
        let mut days = Days {
            units: [0; 4],
            marks: 0,
            past: [0; 2],
        };
        days.add_units(&all[at::TODAY..at::LOGGED]);
        let logged = usize::try_from(all[at::LOGGED]).unwrap_or(LOG_DAYS);
        let places = all[at::LOG..at::PLAN].chunks_exact(DAY_NUMBERS);
        for (index, day) in places.enumerate() {
            if index < logged {
                days.marks = days.marks.max(day[0]);
                days.add_units(&day[1..]);
            } else {
                days.past[0] = days.past[0].max(day[0]);
                let largest = day[1..].iter().copied().max().unwrap_or(0);
                days.past[1] = days.past[1].max(largest);
            }
        }
        days
    }

    fn add_units(&mut self, units: &[u64]) {
        for (place, units) in units.iter().enumerate() {
            self.units[place % 4] += u128::from(*units);
        }
    }
}

/// By how much the first is over the second; as far as an i128 goes.
fn over(value: u128, most: u128) -> i128 {
    let clamp = |by: u128| i128::try_from(by).unwrap_or(i128::MAX);
    if value >= most {
        clamp(value - most)
    } else {
        -clamp(most - value)
    }
}

/// sound-3, use-11: home charges from the amounts held.
fn home_charges(all: &Numbers) -> u128 {
    let product = |price: usize, kind: usize| {
        u128::from(all[at::PLAN + price]) * u128::from(all[at::PRICED + kind])
    };
    let data = product(2, 0) / u128::from(GB);
    let calls = product(3, 1) / 60;
    product(4, 3).saturating_add(data).saturating_add(calls)
}

/// sound-3, use-12: surcharges from the amounts held.
fn surcharges(all: &Numbers) -> u128 {
    let sum = |kind: usize| u128::from(all[at::CAP_SUMS + kind]);
    sum(0) / u128::from(GB) + sum(1) / 60 + sum(2) / 60 + sum(3)
}

/// Conditions with by how much they are passed; 0 at the edge.
type Passed = Vec<(Condition, i128)>;

/// Every condition that applies to the account's form.
fn conditions(all: &Numbers) -> Passed {
    let mut list = Vec::with_capacity(Condition::ALL.len());
    of_plan(all, &mut list);
    of_days(all, &mut list);
    of_units(all, &mut list);
    of_money(all, &mut list);
    list
}

/// sound-1: the ranges of the plan (plan-1 to plan-6). Of an unknown form it is
/// not known which fields are used.
fn of_plan(all: &Numbers, list: &mut Passed) {
    let field = |field: usize| u128::from(all[at::PLAN + field]);
    let [data, fee, volume] = [2, 5, 6].map(field);
    list.extend([
        (Condition::Form, over(field(0), 2)),
        (Condition::StartDay, over(181, field(1))),
        (Condition::MinutePrice, over(field(3), 1_000_000)),
        (Condition::SmsPrice, over(field(4), 1_000_000)),
    ]);
    match field(0) {
        0 => list.extend([
            (Condition::DataPrice, over(data, 1_000_000)),
            (Condition::PrepaidFee, over(fee, 0)),
            (Condition::PrepaidVolume, over(volume, 0)),
        ]),
        1 => list.extend([
            (Condition::DataPrice, over(data, 1_000_000)),
            (Condition::BundleFee, over(fee, 10_000_000)),
            (Condition::LeastVolume, over(1, volume)),
            (Condition::MostVolume, over(volume, 1_073_741_824)),
        ]),
        2 => list.extend([
            (Condition::UnusedDataPrice, over(data, 0)),
            (Condition::UnlimitedFee, over(fee, 10_000_000)),
            (Condition::UnlimitedVolume, over(volume, 0)),
        ]),
        _ => {}
    }
}

/// sound-1, sound-7, sound-10, sound-11: day, log and states; library-5: place
/// and marks.
fn of_days(all: &Numbers, list: &mut Passed) {
    let number = |place: usize| u128::from(all[place]);
    let (start, day, logged) = (number(at::PLAN + 1), number(at::DAY), number(at::LOGGED));
    let days = Days::of(all);
    list.extend([
        (Condition::LastDay, over(day, 3833)),
        (Condition::DayFromStart, over(start, day)),
        (Condition::LoggedMore, over(logged, days_to_log(all))),
        (Condition::LoggedFewer, over(days_to_log(all), logged)),
        (Condition::Place, over(number(at::PLACE), 3)),
        (Condition::TodayMarks, over(number(at::MARKS), 7)),
        (Condition::LoggedMarks, over(days.marks.into(), 7)),
        (Condition::PastMarks, over(days.past[0].into(), 0)),
        (Condition::PastUnits, over(days.past[1].into(), 0)),
    ]);
    for (k, condition) in DAYS.into_iter().enumerate() {
        list.push((condition, over(days.units[k], number(at::LIFETIME + k))));
    }
    for (s, condition) in WARNED.into_iter().enumerate() {
        list.push((condition, over(number(at::SERVICES + s), 2 + 14)));
    }
}

/// sound-2, sound-5, sound-6, sound-8, sound-9: units and cap sums of each
/// kind, H, R and L. half-6: what bounds priced and surcharged seconds.
fn of_units(all: &Numbers, list: &mut Passed) {
    let number = |place: usize| u128::from(all[place]);
    let (charged, limit) = (number(at::CHARGED_SECONDS), 1_000_000_000_000);
    for k in 0..4 {
        let lifetime = number(at::LIFETIME + k);
        let most = if k == 1 { charged } else { lifetime };
        let surcharged = number(at::SURCHARGED + k);
        let cap_sum = number(at::CAP_SUMS + k);
        list.extend([
            (LIFETIME[k], over(lifetime, limit)),
            (PRICED[k], over(number(at::PRICED + k), most)),
            (SURCHARGED[k], over(surcharged, most)),
            (CAP_SUMS[k], over(cap_sum, 20_000 * surcharged)),
        ]);
    }
    let data = number(at::LIFETIME);
    let most = 2_000_000_000_000_000;
    list.extend([
        (Condition::ChargedSeconds, over(charged, limit)),
        (Condition::Roamed, over(number(at::ROAMED), data)),
        (Condition::Monthly, over(number(at::MONTHLY), data)),
        (Condition::Limit, over(number(at::LIMIT), most + 1)),
    ]);
}

/// sound-2 to sound-4: charges, and what was paid in.
fn of_money(all: &Numbers, list: &mut Passed) {
    let number = |place: usize| u128::from(all[place]);
    let (home, extra) = (number(at::HOME_CHARGES), number(at::SURCHARGES));
    let paid = number(at::PAID);
    let held = number(at::CREDIT) + home + extra;
    list.extend([
        (Condition::PaidIn, over(paid, 1_000_000_000)),
        (Condition::HomeMore, over(home, home_charges(all))),
        (Condition::HomeLess, over(home_charges(all), home)),
        (Condition::ExtraMore, over(extra, surcharges(all))),
        (Condition::ExtraLess, over(surcharges(all), extra)),
        (Condition::PaidMore, over(paid, held)),
        (Condition::PaidLess, over(held, paid)),
    ]);
}

/// sound-10: how many days must be logged.
fn days_to_log(all: &Numbers) -> u128 {
    u128::from(all[at::DAY].saturating_sub(all[at::PLAN + 1]).min(123))
}

/// The conditions that an account breaks, and by how much.
pub fn broken(all: &Numbers) -> Vec<(Condition, i128)> {
    let mut list = conditions(all);
    list.retain(|(_, by)| *by > 0);
    list
}

impl TripEvents {
    /// What `is_sound` returned of numbers. That it should have returned
    /// something else by the conditions above is a failure.
    pub fn sound(&mut self, all: &[u64], returned: u64) -> Result<(), String> {
        self.returned(Function::IsSound, returned)?;
        let Ok(all) = <&Numbers>::try_from(all) else {
            return match returned {
                0 => Ok(()),
                _ => Err(format!("{} numbers are told to be sound", all.len())),
            };
        };
        let mut list = conditions(all);
        for (condition, by) in &list {
            let edge = returned == ACCEPTED && *by == 0;
            self.hit(AT_THE_EDGE[*condition as usize], edge);
        }
        list.retain(|(_, by)| *by > 0);
        if list.is_empty() != (returned == ACCEPTED) {
            return Err(format!("is_sound returned {returned}, broken: {list:?}"));
        }
        if let [(condition, 1)] = list[..] {
            self.hit(BY_ONE[condition as usize], true);
        }
        Ok(())
    }

    /// family-11: a box with cards that are at no fault, and an account that
    /// breaks these conditions.
    pub(super) fn account_alone(&mut self, broken: &[(Condition, i128)]) {
        self.hit("box 0 by the account alone", true);
        if let [(condition, 1)] = broken[..] {
            self.hit(BOX_BY_ONE[condition as usize], true);
        }
    }

    /// library-5: what a function returned of another count of numbers.
    pub fn counted(&mut self, function: Function, count: usize, returned: u64) {
        let functions = [
            Function::Open,
            Function::Register,
            Function::Use,
            Function::TopUp,
            Function::NextDay,
            Function::Afford,
            Function::IsSound,
            Function::Run,
        ];
        let counts = [0, ACCOUNT_NUMBERS - 1, ACCOUNT_NUMBERS + 1];
        let row = functions.iter().position(|one| *one == function);
        let column = counts.iter().position(|one| *one == count);
        if let (Some(row), Some(column)) = (row, column) {
            self.hit(COUNTS[row][column], returned == 0);
        }
    }

    /// An account of random numbers.
    pub fn random_numbers(&mut self) {
        self.hit("random numbers", true);
    }

    /// Every number of the layout was changed by itself.
    pub fn every_number_changed(&mut self) {
        self.hit("every number of the layout changed by itself", true);
    }
}

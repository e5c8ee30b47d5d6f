//! Events of plans: their faults one by one and two at once, told by Open, by
//! reading and by writing, and plans at their limits. Rules fault-1 to fault-4,
//! plan-2 to plan-6, refusal-2, library-4.

use super::causes::of_plan;
use super::returns::Function;
use super::TripEvents;
use crate::faults::{faults_of, unused_too_large, Fault, Sort, Words, PAIRS};
use crate::sides::{ACCEPTED, BAD_ARGUMENT};

/// fault-1 to fault-4: one fault, by `Fault`.
macro_rules! one_fault {
    ($name:literal) => {
        [
            concat!($name, " 1, unknown form"),
            concat!($name, " 1, fee of a prepaid plan"),
            concat!($name, " 1, V of a prepaid plan"),
            concat!($name, " 1, V of an unlimited plan"),
            concat!($name, " 1, data price of an unlimited plan"),
            concat!($name, " 17, data price"),
            concat!($name, " 17, minute price"),
            concat!($name, " 17, SMS price"),
            concat!($name, " 18, fee of a bundle"),
            concat!($name, " 18, fee of an unlimited plan"),
            concat!($name, " 18, V 0 of a bundle"),
            concat!($name, " 18, V of a bundle too large"),
            concat!($name, " 2, start day"),
        ]
    };
}

/// fault-1: one fault, and that an unused field which is too large as well:
/// fee, V, data price.
macro_rules! unused_large {
    ($name:literal) => {
        [
            concat!($name, " 1, unused fee too large"),
            concat!($name, " 1, unused V too large"),
            concat!($name, " 1, unused data price too large"),
        ]
    };
}

/// order-1, order-4: faults of two sorts, by `PAIRS`.
macro_rules! two_faults {
    ($name:literal) => {
        [
            concat!($name, " 1, unknown form and price"),
            concat!($name, " 1, unused field and price"),
            concat!($name, " 1, unused field and start day"),
            concat!($name, " 17, price and fee"),
            concat!($name, " 17, price and V"),
            concat!($name, " 17, price and start day"),
            concat!($name, " 18, fee and start day"),
            concat!($name, " 18, V and start day"),
        ]
    };
}

/// plan-2 to plan-4, refusal-2: plans at their limits that were accepted.
macro_rules! limits {
    ($name:literal) => {
        [
            concat!($name, " accepted, data price 1,000,000"),
            concat!($name, " accepted, minute price 1,000,000"),
            concat!($name, " accepted, SMS price 1,000,000"),
            concat!($name, " accepted, fee 10,000,000 of a bundle"),
            concat!($name, " accepted, fee 10,000,000 of an unlimited plan"),
            concat!($name, " accepted, V 1"),
            concat!($name, " accepted, V 1,073,741,824"),
            concat!($name, " accepted, start day 181"),
            concat!($name, " accepted, start day 3833"),
        ]
    };
}

/// The events of an operation that is given a plan.
struct Names {
    one: [&'static str; 13],
    unused: [&'static str; 3],
    two: [&'static str; 8],
    limits: [&'static str; 9],
}

macro_rules! names {
    ($name:literal) => {
        Names {
            one: one_fault!($name),
            unused: unused_large!($name),
            two: two_faults!($name),
            limits: limits!($name),
        }
    };
}

static OPEN: Names = names!("open");
static READ: Names = names!("read");
static WRITE: Names = names!("write");

/// Those of reading and writing.
pub const EVENTS: &[&[&str]] = &[
    &one_fault!("read"),
    &unused_large!("read"),
    &two_faults!("read"),
    &limits!("read"),
    &one_fault!("write"),
    &unused_large!("write"),
    &two_faults!("write"),
    &limits!("write"),
];

/// Those of Open, and of numbers that no file has.
pub const OF_OPENING: &[&[&str]] = &[
    &one_fault!("open"),
    &unused_large!("open"),
    &two_faults!("open"),
    &limits!("open"),
    &BEYOND_OPENED,
    &BEYOND_WRITTEN,
    &["open, plan of six numbers", "open, plan of eight numbers"],
];

/// A plan in which one number alone is at fault and is beyond a word.
macro_rules! beyond {
    ($name:literal) => {
        [
            concat!($name, " 1, form beyond a word"),
            concat!($name, " 2, start day beyond a word"),
            concat!($name, " 17, data price beyond a word"),
            concat!($name, " 17, minute price beyond a word"),
            concat!($name, " 17, SMS price beyond a word"),
            concat!($name, " 18, fee beyond a word"),
            concat!($name, " 18, V beyond a word"),
        ]
    };
}

const BEYOND_OPENED: [&str; 7] = beyond!("open");
const BEYOND_WRITTEN: [&str; 7] = beyond!("write");

impl TripEvents {
    /// A plan that Open was given, with any count of numbers, and what it
    /// returned.
    pub fn open(&mut self, plan: &[u64], returned: u64) -> Result<(), String> {
        self.returned(Function::Open, returned)?;
        match <&Words>::try_from(plan) {
            Ok(words) => self.plan(Function::Open, words, returned)?,
            Err(_) => {
                let declined = returned == BAD_ARGUMENT;
                self.hit("open, plan of six numbers", declined && plan.len() == 6);
                self.hit("open, plan of eight numbers", declined && plan.len() == 8);
            }
        }
        Ok(())
    }

    /// A plan that a function was given, and what it returned. Another number
    /// of a plan than that of its faults is a failure.
    pub fn plan(&mut self, function: Function, words: &Words, returned: u64) -> Result<(), String> {
        let wanted = of_plan(words);
        if wanted != ACCEPTED && returned != wanted {
            return Err(format!(
                "{function:?} returned {returned} for a plan of {wanted}"
            ));
        }
        let (names, beyond) = match function {
            Function::Open => (&OPEN, Some(&BEYOND_OPENED)),
            Function::Write => (&WRITE, Some(&BEYOND_WRITTEN)),
            _ => (&READ, None),
        };
        if returned == ACCEPTED {
            self.limits(names, words);
            return Ok(());
        }
        let faults = faults_of(words);
        if let [fault] = faults[..] {
            let told = returned == u64::from(fault.number());
            self.hit(names.one[fault as usize], told);
            if unused_too_large(fault, words) {
                self.hit(names.unused[unused_field(fault)], told);
            }
            let wide = words.iter().position(|word| *word > u64::from(u32::MAX));
            if let (Some(beyond), Some(field)) = (beyond, wide) {
                // fault-1: an unused field is told as 1 and is no event here.
                let used = fault.sort() != Sort::Unused;
                self.hit(beyond[field], told && used);
            }
        }
        if let Some(pair) = pair_of(&faults) {
            let told = returned == u64::from(PAIRS[pair].0.number());
            self.hit(names.two[pair], told);
        }
        Ok(())
    }

    /// A plan that was accepted.
    fn limits(&mut self, names: &Names, words: &Words) {
        let [form, start, data, minute, sms, fee, volume] = *words;
        let reached = [
            data == 1_000_000,
            minute == 1_000_000,
            sms == 1_000_000,
            fee == 10_000_000 && form == 1,
            fee == 10_000_000 && form == 2,
            volume == 1,
            volume == 1_073_741_824,
            start == 181,
            start == 3833,
        ];
        for (event, reached) in names.limits.into_iter().zip(reached) {
            self.hit(event, reached);
        }
    }
}

/// Which of the unused fields a fault is about: fee, V, data price.
fn unused_field(fault: Fault) -> usize {
    match fault {
        Fault::PrepaidFee => 0,
        Fault::UnlimitedDataPrice => 2,
        _ => 1,
    }
}

/// The pair of sorts that the faults of a plan are of, and of no others.
fn pair_of(faults: &[Fault]) -> Option<usize> {
    let has = |sort: Sort| faults.iter().any(|fault| fault.sort() == sort);
    PAIRS.iter().position(|(first, second)| {
        let mut all = faults.iter().map(|fault| fault.sort());
        has(*first) && has(*second) && all.all(|sort| sort == *first || sort == *second)
    })
}

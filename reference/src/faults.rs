//! What can be wrong with a plan, field by field. Bad plans are made here with
//! the number that they must get, and any seven words are told what is wrong
//! with them. Nothing here asks the meter. Rules fault-1 to fault-4, plan-1 to
//! plan-6, refusal-2.

use crate::generate::plan_of;
use crate::plan::{BUNDLE, PREPAID, UNLIMITED};
use crate::rng::Rng;

/// The seven words of a plan, as wide as the writer takes them.
pub type Words = [u64; 7];

/// A fault of one field. Fields that a form leaves out have faults apart from
/// those that it uses.
#[derive(Clone, Copy, PartialEq, Eq, Debug)]
pub enum Fault {
    UnknownForm,
    PrepaidFee,
    PrepaidVolume,
    UnlimitedVolume,
    UnlimitedDataPrice,
    DataPrice,
    MinutePrice,
    SmsPrice,
    BundleFee,
    UnlimitedFee,
    NoVolume,
    LargeVolume,
    StartDay,
}

/// Faults that are of the same sort, whichever field they are in.
#[derive(Clone, Copy, PartialEq, Eq, Debug)]
pub enum Sort {
    Form,
    Unused,
    Price,
    Fee,
    Volume,
    Day,
}

impl Sort {
    /// fault-1 to fault-4: the number of a plan with faults of this sort alone.
    pub fn number(self) -> u32 {
        match self {
            Sort::Form | Sort::Unused => 1,
            Sort::Price => 17,
            Sort::Fee | Sort::Volume => 18,
            Sort::Day => 2,
        }
    }
}

/// order-4: two sorts of faults at once, the one whose number is told first in
/// front.
pub const PAIRS: [(Sort, Sort); 8] = [
    (Sort::Form, Sort::Price),
    (Sort::Unused, Sort::Price),
    (Sort::Unused, Sort::Day),
    (Sort::Price, Sort::Fee),
    (Sort::Price, Sort::Volume),
    (Sort::Price, Sort::Day),
    (Sort::Fee, Sort::Day),
    (Sort::Volume, Sort::Day),
];

/// order-4: the numbers of a plan, in the order in which they are told.
const ORDER: [u32; 4] = [1, 17, 18, 2];

/// plan-1: the three forms.
const FORMS: [u32; 3] = [PREPAID, BUNDLE, UNLIMITED];
/// plan-2: the highest price.
const MOST_PRICE: u64 = 1_000_000;
/// plan-3: the highest fee.
const MOST_FEE: u64 = 10_000_000;
/// plan-4: the largest V.
const MOST_VOLUME: u64 = 1_073_741_824;

impl Fault {
    pub const ALL: [Fault; 13] = [
        Fault::UnknownForm,
        Fault::PrepaidFee,
        Fault::PrepaidVolume,
        Fault::UnlimitedVolume,
        Fault::UnlimitedDataPrice,
        Fault::DataPrice,
        Fault::MinutePrice,
        Fault::SmsPrice,
        Fault::BundleFee,
        Fault::UnlimitedFee,
        Fault::NoVolume,
        Fault::LargeVolume,
        Fault::StartDay,
    ];

    pub fn sort(self) -> Sort {
        match self {
            Fault::UnknownForm => Sort::Form,
            Fault::PrepaidFee | Fault::PrepaidVolume => Sort::Unused,
            Fault::UnlimitedVolume | Fault::UnlimitedDataPrice => Sort::Unused,
            Fault::DataPrice | Fault::MinutePrice | Fault::SmsPrice => Sort::Price,
            Fault::BundleFee | Fault::UnlimitedFee => Sort::Fee,
            Fault::NoVolume | Fault::LargeVolume => Sort::Volume,
            Fault::StartDay => Sort::Day,
        }
    }

    /// The number of a plan with this fault alone.
    pub fn number(self) -> u32 {
        self.sort().number()
    }

    /// Whether a plan has the fault.
    pub fn is_in(self, words: &Words) -> bool {
        let [form, start, data, minute, sms, fee, volume] = *words;
        match self {
            Fault::UnknownForm => form > 2,
            Fault::PrepaidFee => form == 0 && fee > 0,
            Fault::PrepaidVolume => form == 0 && volume > 0,
            Fault::UnlimitedVolume => form == 2 && volume > 0,
            Fault::UnlimitedDataPrice => form == 2 && data > 0,
            Fault::DataPrice => form != 2 && data > MOST_PRICE,
            Fault::MinutePrice => minute > MOST_PRICE,
            Fault::SmsPrice => sms > MOST_PRICE,
            Fault::BundleFee => form == 1 && fee > MOST_FEE,
            Fault::UnlimitedFee => form == 2 && fee > MOST_FEE,
            Fault::NoVolume => form == 1 && volume == 0,
            Fault::LargeVolume => form == 1 && volume > MOST_VOLUME,
            Fault::StartDay => !(181..=3833).contains(&start),
        }
    }

    /// Whether plans of a form can have it.
    fn suits(self, form: u32) -> bool {
        match self {
            Fault::PrepaidFee | Fault::PrepaidVolume => form == PREPAID,
            Fault::UnlimitedVolume | Fault::UnlimitedDataPrice => form == UNLIMITED,
            Fault::UnlimitedFee => form == UNLIMITED,
            Fault::BundleFee | Fault::NoVolume | Fault::LargeVolume => form == BUNDLE,
            Fault::DataPrice => form != UNLIMITED,
            _ => true,
        }
    }

    /// Puts the fault into a plan of a form that it suits. An unused field
    /// becomes 1 or more than its range would allow; `wide` are the largest
    /// numbers that the plan's words may be.
    fn put(self, rng: &mut Rng, words: &mut Words, wide: &[u64]) {
        let above = |rng: &mut Rng, most: u64| match rng.below(4) {
            0 => rng.pick(wide),
            _ => most + 1,
        };
        let unused = |rng: &mut Rng, most: u64| match rng.below(2) {
            0 => 1,
            _ => above(rng, most),
        };
        match self {
            Fault::UnknownForm => words[0] = above(rng, 2),
            Fault::PrepaidFee => words[5] = unused(rng, MOST_FEE),
            Fault::PrepaidVolume | Fault::UnlimitedVolume => words[6] = unused(rng, MOST_VOLUME),
            Fault::UnlimitedDataPrice => words[2] = unused(rng, MOST_PRICE),
            Fault::DataPrice => words[2] = above(rng, MOST_PRICE),
            Fault::MinutePrice => words[3] = above(rng, MOST_PRICE),
            Fault::SmsPrice => words[4] = above(rng, MOST_PRICE),
            Fault::BundleFee | Fault::UnlimitedFee => words[5] = above(rng, MOST_FEE),
            Fault::NoVolume => words[6] = 0,
            Fault::LargeVolume => words[6] = above(rng, MOST_VOLUME),
            Fault::StartDay => words[1] = no_start_day(rng, wide),
        }
    }
}

/// refusal-2: a start day outside its range; where words are wide, also one
/// that would be inside if it were cut to 32 bits.
fn no_start_day(rng: &mut Rng, wide: &[u64]) -> u64 {
    match rng.below(5) {
        0 => 0,
        1 => 180,
        2 => 3834,
        3 if wide.iter().any(|word| *word > u64::from(u32::MAX)) => (1 << 32) + 181,
        _ => rng.pick(wide),
    }
}

/// What is wrong with a plan.
pub fn faults_of(words: &Words) -> Vec<Fault> {
    let all = Fault::ALL.into_iter();
    all.filter(|fault| fault.is_in(words)).collect()
}

/// The number of a plan with these faults, 0 where there are none.
pub fn first_number(faults: &[Fault]) -> u32 {
    let told = |number: &u32| faults.iter().any(|fault| fault.number() == *number);
    ORDER.into_iter().find(told).unwrap_or(0)
}

/// fault-1: whether an unused field is not only other than 0, but also larger
/// than any form may have it.
pub fn unused_too_large(fault: Fault, words: &Words) -> bool {
    match fault {
        Fault::PrepaidFee => words[5] > MOST_FEE,
        Fault::PrepaidVolume | Fault::UnlimitedVolume => words[6] > MOST_VOLUME,
        Fault::UnlimitedDataPrice => words[2] > MOST_PRICE,
        _ => false,
    }
}

/// A plan with one, two or three faults, and the number that it must get. Half
/// of the plans have two of those that stand in `PAIRS`.
pub fn bad_plan(rng: &mut Rng, wide: &[u64]) -> (Words, u32) {
    loop {
        let faults = match rng.below(10) {
            0 => vec![Fault::StartDay],
            1..=3 => vec![rng.pick(&Fault::ALL)],
            4..=8 => {
                let (first, second) = rng.pick(&PAIRS);
                vec![of_sort(rng, first), of_sort(rng, second)]
            }
            _ => (0..3).map(|_| rng.pick(&Fault::ALL)).collect(),
        };
        let suited = |form: &u32| faults.iter().all(|fault| fault.suits(*form));
        let suited: Vec<u32> = FORMS.into_iter().filter(suited).collect();
        if suited.is_empty() {
            continue;
        }
        let form = rng.pick(&suited);
        let mut words = plan_of(rng, form).to_words().map(u64::from);
        for fault in &faults {
            fault.put(rng, &mut words, wide);
        }
        return (words, first_number(&faults));
    }
}

/// One of the faults of a sort.
fn of_sort(rng: &mut Rng, sort: Sort) -> Fault {
    let all: Vec<Fault> = Fault::ALL
        .into_iter()
        .filter(|f| f.sort() == sort)
        .collect();
    rng.pick(&all)
}

//! The plan, its ranges, and the zone data limit worked out from a cap. Rules
//! plan-1 to plan-7, fault-1 to fault-4, limit-3 to limit-6, refusal-2.

use crate::planted::{planted, Wrong};
use crate::terms::GB;

/// plan-1, file-7: the forms.
pub const PREPAID: u32 = 0;
pub const BUNDLE: u32 = 1;
pub const UNLIMITED: u32 = 2;

/// refusal-2: the first start day.
pub const FIRST_DAY: u32 = 181;
/// refusal-2, refusal-9: the last day (caps-3).
pub const LAST_DAY: u32 = 3833;
/// plan-2: the highest price, in points.
pub const MAX_PRICE: u32 = 1_000_000;
/// plan-3: the highest fee, in points.
pub const MAX_FEE: u32 = 10_000_000;
/// plan-4: the largest V, in kB.
pub const MAX_VOLUME: u32 = 1_073_741_824;

/// file-7: a plan as the seven words of its section. The form may be any word;
/// see `check`.
#[derive(Clone, Copy, PartialEq, Eq, Debug)]
pub struct Plan {
    pub form: u32,
    pub start: u32,
    pub data_price: u32,
    pub minute_price: u32,
    pub sms_price: u32,
    pub fee: u32,
    pub volume: u32,
}

impl Plan {
    /// file-7: the seven words in the order of the file.
    pub fn to_words(&self) -> [u32; 7] {
        [
            self.form,
            self.start,
            self.data_price,
            self.minute_price,
            self.sms_price,
            self.fee,
            self.volume,
        ]
    }

    pub fn from_words(words: [u32; 7]) -> Plan {
        let [form, start, data_price, minute_price, sms_price, fee, volume] = words;
        Plan {
            form,
            start,
            data_price,
            minute_price,
            sms_price,
            fee,
            volume,
        }
    }

    /// order-4: the first reason to decline the plan, of 1, 17, 18, 2. Opening,
    /// reading and writing all ask here.
    pub fn check(&self) -> Result<(), u32> {
        let first = self.reasons().into_iter().find(|(_, holds)| *holds);
        first.map_or(Ok(()), |(number, _)| Err(number))
    }

    /// order-1: each reason, with whether it holds by itself. After 1 the
    /// fields that the form leaves out are known to be 0, so that the ranges
    /// need not look at the form, but for the least V.
    fn reasons(&self) -> [(u32, bool); 4] {
        let mut all = [
            (1, !self.keeps_form()),
            (17, !self.prices_in_range()),
            (18, !self.fee_and_volume_in_range()),
            (2, !day_in_range(self.start)),
        ];
        if planted(Wrong::FeeBeforePrices) {
            all.swap(1, 2);
        }
        if planted(Wrong::PricesBeforeUnused) {
            all.swap(0, 1);
        }
        if planted(Wrong::DayBeforeFee) {
            all.swap(2, 3);
        }
        if planted(Wrong::PricesToldAsForm) {
            all[1].0 = 1;
        }
        all
    }

    /// fault-1: a known form, and 0 where it leaves a field out (plan-6).
    fn keeps_form(&self) -> bool {
        let past_range = planted(Wrong::UnusedToldAsFee);
        let unused = |word: u32, most: u32| word == 0 || (past_range && word > most);
        let no_volume = unused(self.volume, MAX_VOLUME);
        match self.form {
            PREPAID => unused(self.fee, MAX_FEE) && no_volume,
            BUNDLE => true,
            UNLIMITED => self.data_price == 0 && no_volume,
            _ => false,
        }
    }

    /// fault-2: none of the three prices is too high (plan-2).
    fn prices_in_range(&self) -> bool {
        let prices = [self.data_price, self.minute_price, self.sms_price];
        prices.into_iter().all(|price| price <= MAX_PRICE)
    }

    /// fault-3: fee and V are not too large (plan-3, plan-4), and a bundle with
    /// a volume has some.
    fn fee_and_volume_in_range(&self) -> bool {
        let none = self.form == BUNDLE && self.volume == 0 && !planted(Wrong::NoVolumeAccepted);
        self.fee <= MAX_FEE && self.volume <= MAX_VOLUME && !none
    }

    pub fn is_prepaid(&self) -> bool {
        self.form == PREPAID
    }

    /// plan-7: unlimited, or a fee that buys less than V at the cap.
    pub fn is_open(&self, data_cap: u64) -> bool {
        match self.form {
            UNLIMITED => true,
            BUNDLE => u64::from(self.fee) * GB < data_cap * u64::from(self.volume),
            _ => false,
        }
    }

    /// limit-7: L at opening and where a month begins. limit-4: 0 if prepaid;
    /// limit-5: what twice the fee of an open bundle buys; limit-6: else none.
    pub fn limit(&self, data_cap: u64) -> Option<u64> {
        if self.is_prepaid() {
            Some(0)
        } else if self.is_open(data_cap) {
            Some(2 * u64::from(self.fee) * GB / data_cap)
        } else {
            None
        }
    }
}

/// refusal-2: whether an account can have the day.
pub fn day_in_range(day: u32) -> bool {
    (FIRST_DAY..=LAST_DAY).contains(&day)
}

/// register-2, topup-2: a prepaid L, the kB that the credit buys.
pub fn prepaid_limit(credit: u64, data_cap: u64) -> u64 {
    credit * GB / data_cap
}

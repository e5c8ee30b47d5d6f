//! The conditions of sound cards, each worked out by itself from the numbers of
//! account and cards. Rules family-8, family-11.

use super::soundness::broken;
use super::TripEvents;
use crate::family::Card;
use crate::numbers::{at, Numbers};

/// family-11: what can be wrong with the cards of a box.
#[derive(Clone, Copy, PartialEq, Eq, Debug)]
pub enum CardFault {
    /// The cards have more units of a kind than the account.
    More(usize),
    Fewer(usize),
    MonthPastLifetime,
    MonthPastAllowance,
    Allowance,
}

/// One fault alone, by one, or in sums by so much that 64 bits would not tell.
macro_rules! of_kinds {
    ($before:literal, $after:literal) => {
        [
            concat!($before, "kB", $after),
            concat!($before, "outgoing seconds", $after),
            concat!($before, "incoming seconds", $after),
            concat!($before, "SMS", $after),
        ]
    };
}

const MORE: [&str; 4] = of_kinds!("box 0 alone: cards' ", " one more than the account's");
const FEWER: [&str; 4] = of_kinds!("box 0 alone: cards' ", " one fewer than the account's");
const WRAPPED: [&str; 4] = of_kinds!("box 0 alone: cards' ", " add up but for 64 bits");

const OTHERS: &[&str] = &[
    "box 0 alone: monthly kB one over the lifetime kB",
    "box 0 alone: monthly kB one over the allowance",
    "box 0 alone: allowance one over its range",
    "box 0 by the account alone",
    "box 0 by account and cards",
    "box 0, no cards for the account's units",
    "random cards",
    "sound box: monthly kB all of the lifetime kB",
    "sound box: monthly kB at the allowance",
    "sound box: allowance at its limit",
    "sound box: all units are one card's",
    "sound box: units at their limit, of several cards",
    "sound box: no cards",
    "sound box: over 16 cards",
];

pub const EVENTS: &[&[&str]] = &[&MORE, &FEWER, &WRAPPED, OTHERS];

/// What the cards of a box break, and by how much.
pub fn broken_cards(all: &Numbers, cards: &[Card]) -> Vec<(CardFault, u128)> {
    let mut faults = Vec::new();
    for kind in 0..4 {
        let units = cards.iter().map(|card| u128::from(card.lifetime[kind]));
        let (sum, wanted) = (units.sum::<u128>(), u128::from(all[at::LIFETIME + kind]));
        faults.push((CardFault::More(kind), sum.saturating_sub(wanted)));
        faults.push((CardFault::Fewer(kind), wanted.saturating_sub(sum)));
    }
    let over = |fault: CardFault, by: fn(&Card) -> u64| {
        let most = cards.iter().map(by).max().unwrap_or(0);
        (fault, u128::from(most))
    };
    faults.extend([
        over(CardFault::MonthPastLifetime, |card| {
            card.monthly.saturating_sub(card.lifetime[0])
        }),
        over(CardFault::MonthPastAllowance, |card| {
            card.monthly.saturating_sub(card.allowance)
        }),
        over(CardFault::Allowance, |card| {
            card.allowance.saturating_sub(1_000_000_000_000)
        }),
    ]);
    faults.retain(|(_, by)| *by > 0);
    faults
}

impl TripEvents {
    /// What a call returned, by which a box was taken for sound or not: 0 alone
    /// means that it was not. A box that is told the other way by the
    /// conditions above is a failure.
    pub fn box_sound(
        &mut self,
        all: &Numbers,
        cards: &[Card],
        returned: u64,
    ) -> Result<(), String> {
        let (account, faults) = (broken(all), broken_cards(all, cards));
        let sound = account.is_empty() && faults.is_empty();
        if sound != (returned != 0) {
            return Err(format!(
                "a box call returned {returned}, broken: {account:?}, {faults:?}"
            ));
        }
        if sound {
            self.sound_cards(all, cards);
            return Ok(());
        }
        if faults.is_empty() {
            self.account_alone(&account);
        }
        let both = !account.is_empty() && !faults.is_empty();
        self.hit("box 0 by account and cards", both);
        if account.is_empty() {
            self.fault_alone(&faults);
            self.hit("box 0, no cards for the account's units", cards.is_empty());
        }
        Ok(())
    }

    fn fault_alone(&mut self, faults: &[(CardFault, u128)]) {
        let [(fault, by)] = faults[..] else {
            return;
        };
        match fault {
            CardFault::More(kind) => {
                self.hit(MORE[kind], by == 1);
                self.hit(WRAPPED[kind], by.is_multiple_of(1 << 64));
            }
            CardFault::Fewer(kind) => self.hit(FEWER[kind], by == 1),
            CardFault::MonthPastLifetime => self.hit(OTHERS[0], by == 1),
            CardFault::MonthPastAllowance => self.hit(OTHERS[1], by == 1),
            CardFault::Allowance => self.hit(OTHERS[2], by == 1),
        }
    }

    fn sound_cards(&mut self, all: &Numbers, cards: &[Card]) {
        let any = |holds: fn(&Card) -> bool| cards.iter().any(holds);
        self.hit(
            "sound box: monthly kB all of the lifetime kB",
            any(|card| card.monthly > 0 && card.monthly == card.lifetime[0]),
        );
        self.hit(
            "sound box: monthly kB at the allowance",
            any(|card| card.monthly > 0 && card.monthly == card.allowance),
        );
        self.hit(
            "sound box: allowance at its limit",
            any(|card| card.allowance == 1_000_000_000_000),
        );
        let whole = |card: &Card| card.lifetime == all[at::LIFETIME..at::CHARGED_SECONDS];
        let one = cards.len() > 1 && cards.iter().any(whole) && all[at::LIFETIME] > 0;
        self.hit("sound box: all units are one card's", one);
        let shared = cards.iter().filter(|card| card.lifetime[0] > 0).count() > 1;
        let full = all[at::LIFETIME] == 1_000_000_000_000 && shared;
        self.hit("sound box: units at their limit, of several cards", full);
        self.hit("sound box: no cards", cards.is_empty());
        self.hit("sound box: over 16 cards", cards.len() > 16);
    }

    /// Cards of random numbers.
    pub fn random_cards(&mut self) {
        self.hit("random cards", true);
    }
}

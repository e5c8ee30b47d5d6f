//! Events of the opening of a family box. Rules family-1, family-3, family-14,
//! library-4, library-5.

use super::causes::of_plan;
use super::returns::Function;
use super::TripEvents;
use crate::family::{Card, MAX_ALLOWANCE, MAX_CARDS};
use crate::faults::Words;
use crate::numbers::ACCOUNT_NUMBERS;
use crate::sides::{ACCEPTED, BAD_ARGUMENT};

/// family-1, family-3: openings.
const OPENED: &[&str] = &[
    "box of one card opened",
    "box of 16 cards opened",
    "box opened over cards with units",
    "box opened with an allowance of 0",
    "box opened with the largest allowance",
    "box open 19, no card",
    "box open 19, 17 cards",
    "box open 19, 40 cards",
];

/// family-14: openings.
const OPENINGS: &[&str] = &[
    "box open 20, one kB over",
    "box open 20, the last number",
    "box open 20, the last of 16 cards",
    "box open 19 before 20",
    "box open 1 before 19",
    "box open 17 before 19",
    "box open 18 before 19",
    "box open 2 before 19",
    "box open 2 before 20",
    "box open, plan of six numbers",
    "box open, plan of eight numbers",
    "box open 0, no numbers",
    "box open 0, 1,648 numbers",
    "box open 0, 1,650 numbers",
    "box open 0 before 2",
    "box open, bad argument before 0",
];

pub const OF_LISTS: &[&[&str]] = &[OPENED];
pub const OF_BOXES: &[&[&str]] = &[OPENINGS];

impl TripEvents {
    /// family-14: an opening, with any count of numbers, cards and numbers of
    /// the plan. A number that it never returns is a failure, and so is another
    /// one of a plan than that of its faults.
    pub fn box_open(
        &mut self,
        numbers: usize,
        cards: &[Card],
        plan: &[u64],
        returned: u64,
    ) -> Result<(), String> {
        self.returned(Function::BoxOpen, returned)?;
        let counted = numbers == ACCOUNT_NUMBERS;
        let Ok(words) = <&Words>::try_from(plan) else {
            let told = returned == BAD_ARGUMENT;
            self.hit("box open, plan of six numbers", told && plan.len() == 6);
            self.hit("box open, plan of eight numbers", told && plan.len() == 8);
            self.hit("box open, bad argument before 0", told && !counted);
            return Ok(());
        };
        let faults = of_plan(words);
        if !counted {
            let told = returned == 0;
            let fewer = numbers + 1 == ACCOUNT_NUMBERS;
            self.hit("box open 0, no numbers", told && numbers == 0);
            self.hit("box open 0, 1,648 numbers", told && fewer);
            let more = numbers == ACCOUNT_NUMBERS + 1;
            self.hit("box open 0, 1,650 numbers", told && more);
            self.hit("box open 0 before 2", told && faults == 2);
            return Ok(());
        }
        let wanted = match cards.len() {
            _ if faults != ACCEPTED => faults,
            0 | 17.. => 19,
            _ if cards.iter().any(is_out_of_range) => 20,
            _ => ACCEPTED,
        };
        if returned != wanted {
            return Err(format!("BoxOpen returned {returned}, not {wanted}"));
        }
        self.box_opened(cards, returned);
        Ok(())
    }

    fn box_opened(&mut self, cards: &[Card], returned: u64) {
        let count = cards.len();
        let bad_list = !(1..=MAX_CARDS).contains(&count);
        let out_of_range = cards.iter().any(is_out_of_range);
        match returned {
            1 => self.hit("box open 1 before 19", bad_list),
            17 => self.hit("box open 17 before 19", bad_list),
            18 => self.hit("box open 18 before 19", bad_list),
            2 => {
                self.hit("box open 2 before 19", bad_list);
                self.hit("box open 2 before 20", !bad_list && out_of_range);
            }
            19 => {
                self.hit("box open 19, no card", count == 0);
                self.hit("box open 19, 17 cards", count == 17);
                self.hit("box open 19, 40 cards", count == 40);
                self.hit("box open 19 before 20", out_of_range);
            }
            20 => self.allowance_refused(cards),
            _ => self.cards_opened(cards),
        }
    }

    fn allowance_refused(&mut self, cards: &[Card]) {
        let bad: Vec<usize> = (0..cards.len())
            .filter(|at| is_out_of_range(&cards[*at]))
            .collect();
        let [at] = bad[..] else {
            return;
        };
        let allowance = cards[at].allowance;
        self.hit("box open 20, one kB over", allowance == MAX_ALLOWANCE + 1);
        self.hit("box open 20, the last number", allowance == u64::MAX);
        self.hit("box open 20, the last of 16 cards", at == 15);
    }

    fn cards_opened(&mut self, cards: &[Card]) {
        self.hit("box of one card opened", cards.len() == 1);
        self.hit("box of 16 cards opened", cards.len() == 16);
        let used = |card: &Card| card.lifetime != [0; 4];
        self.hit("box opened over cards with units", cards.iter().any(used));
        let has = |allowance: u64| cards.iter().any(|card| card.allowance == allowance);
        self.hit("box opened with an allowance of 0", has(0));
        self.hit("box opened with the largest allowance", has(MAX_ALLOWANCE));
    }
}

/// family-3: an allowance above its range.
fn is_out_of_range(card: &Card) -> bool {
    card.allowance > MAX_ALLOWANCE
}

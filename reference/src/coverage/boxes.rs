//! Events of calls on family boxes: of cards, of months, and of pairs of lists.
//! Openings are in `openings`, and what is wrong with cards in `cards`. Rules
//! family-2, family-4 to family-13, afford-1, library-4, library-5.

use super::returns::Function;
use super::seen::Seen;
use super::TripEvents;
use crate::calendar::is_first_day;
use crate::family::interface::{code, BoxStep};
use crate::family::matching::BoxStretches;
use crate::family::{Card, MAX_CARDS};
use crate::meter::{MAX_LIFETIME, MAX_UNITS};
use crate::numbers::ACCOUNT_NUMBERS;
use crate::sides::{ACCEPTED, BAD_ARGUMENT};
use crate::terms::{Kind, Place, GB};

/// family-2: kB that a card's month gained, by place.
const COUNTED: [&str; 3] = [
    "kB at home counted in a card's month",
    "kB in the zone counted in a card's month",
    "kB elsewhere counted in a card's month",
];

/// family-4: a month's first day with kB of a card, by form of plan.
const TURNED: [&str; 3] = [
    "month turn of a card's kB, prepaid",
    "month turn of a card's kB, bundle",
    "month turn of a card's kB, unlimited",
];

/// family-6, family-7, family-12, family-13: uses.
const USED: &[&str] = &[
    "use of the only card",
    "use of the first of 16 cards",
    "use of the last of 16 cards",
    "data that just comes to the allowance",
    "seconds or SMS with no allowance left",
    "seconds or SMS with an allowance of 0",
    "data after 20 and a month's turn",
    "box use 20 by one kB",
    "box use 20, allowance 0",
    "box use 20 before 6",
    "box use 3 before 20",
    "box use 4 before 20",
    "box use 19, no such card",
    "box use 19, one place past the last card",
    "box use 19 before 3",
    "box use 19 before 4",
    "box afford 19, no such card",
    "box afford 19 before 3",
];

/// family-4: day changes.
const MONTHS: &[&str] = &[
    "month turn of several cards' kB",
    "month turn of an allowance used up",
    "month turn with 16 cards",
    "day change within a month, cards' kB kept",
];

/// afford-1, family-13: what Afford answers of a card, and why no more.
const AFFORDED: &[&str] = &[
    "card's Afford cut by the allowance",
    "card's Afford cut by the credit",
    "card's Afford cut by both alike",
    "card's Afford 0 by the allowance alone",
    "Afford of seconds or SMS with no allowance left",
];

/// family-10: pairs of lists.
const PAIRS: &[&str] = &[
    "box: another list with the same stretches",
    "box: the same cuts with other stretches",
    "box: the same units with other charged seconds",
    "box: the same units of other cards",
    "box: charged seconds that went from a card to another",
];

/// What lists of calls come to.
pub const OF_LISTS: &[&[&str]] = &[&COUNTED, &TURNED, USED, MONTHS, AFFORDED, PAIRS];

/// family-12: a list of over 16 cards, by call: of 17, of more; and refused
/// with 0 all the same.
macro_rules! long_lists {
    ($what:literal) => {
        [
            concat!("box register ", $what),
            concat!("box use ", $what),
            concat!("box top-up ", $what),
            concat!("box next day ", $what),
            concat!("box afford ", $what),
        ]
    };
}

const SEVENTEEN: [&str; 5] = long_lists!("19, 17 cards");
const LONGER: [&str; 5] = long_lists!("19, over 17 cards");
const UNSOUND_AND_LONG: [&str; 5] = long_lists!("0 before 19, over 16 cards");
const NO_CARDS: [&str; 5] = [
    "box register accepted, no cards",
    "box use 19, no cards",
    "box top-up accepted, no cards",
    "box next day accepted, no cards",
    "box afford 19, no cards",
];

/// library-4, library-5: arguments of no call, and other counts of numbers.
const ARGUMENTS: &[&str] = &[
    "box call, number 5",
    "box call, number beyond a word",
    "box register, place 3",
    "box register, place beyond a word",
    "box use, kind 4",
    "box use, kind beyond a word",
    "box use, short answer",
    "box afford, kind 4",
    "box afford, kind beyond a word",
    "box afford, short answer",
    "box call, bad argument before 0",
    "box call, bad argument before 19",
    "box call 0, no numbers",
    "box call 0, 1,648 numbers",
    "box call 0, 1,650 numbers",
];

/// family-11 to family-14: what comes before what.
const ORDERED: &[&str] = &[
    "box use 0 before 19, no such card",
    "box afford 0 before 19, no such card",
    "box use 5 before 20",
    "box use 4, the last number",
    "as many kB as a card's Afford answers",
    "one kB more than a card's Afford answers, 20",
    "one kB more than a card's Afford answers, 6",
    "box use of a card's place beyond a word, 19",
];

/// What boxes come to that no list leads to.
pub const OF_BOXES: &[&[&str]] = &[
    &SEVENTEEN,
    &LONGER,
    &UNSOUND_AND_LONG,
    &NO_CARDS,
    ARGUMENTS,
    ORDERED,
];

/// A call that a side made on a box: what it returned, its answer, account and
/// cards before and after.
#[derive(Clone, Copy, Debug)]
pub struct BoxObserved<'a> {
    pub step: BoxStep,
    pub returned: u64,
    pub answer: &'a [u64],
    pub before: Seen<'a>,
    pub now: Seen<'a>,
    pub cards: &'a [Card],
    pub cards_now: &'a [Card],
    /// Of Afford, what the side answers for the account alone.
    pub alone: Option<u64>,
}

impl BoxObserved<'_> {
    /// The card that is named, as it was.
    fn card(&self) -> Option<&Card> {
        self.cards.get(self.step.card)
    }

    fn kind(&self) -> Option<Kind> {
        Kind::ALL.get(self.step.which as usize).copied()
    }

    /// family-13: whether a use is data that the allowance does not leave.
    fn is_past_allowance(&self) -> bool {
        let past = |card: &Card| {
            let month = u128::from(card.monthly) + u128::from(self.step.n);
            month > u128::from(card.allowance)
        };
        self.kind() == Some(Kind::Data) && self.card().is_some_and(past)
    }
}

/// What earlier calls on a box leave to be known: the cards that were refused
/// with 20 this month, and in the month before.
#[derive(Clone, Debug, Default)]
pub struct Past {
    refused: Vec<usize>,
    last_month: Vec<usize>,
}

impl TripEvents {
    /// A call on a box. A number that it never returns is a failure, and so is
    /// an Afford that is not the lesser of what account and card leave.
    pub fn box_call(&mut self, seen: &BoxObserved) -> Result<(), String> {
        let Some(function) = Function::of_box(seen.step) else {
            let known = seen.returned == BAD_ARGUMENT;
            self.hit("box call, number 5", seen.step.call == 5);
            self.hit("box call, number beyond a word", seen.step.call >= 1 << 32);
            return known.then_some(()).ok_or("an unknown call".to_string());
        };
        self.returned(function, seen.returned)?;
        let call = seen.step.call as usize;
        let count = seen.cards.len();
        match seen.returned {
            BAD_ARGUMENT => self.no_box_call(seen.step),
            0 => self.hit(UNSOUND_AND_LONG[call], count > MAX_CARDS),
            19 => self.no_card(seen, call),
            ACCEPTED => self.hit(NO_CARDS[call], count == 0),
            _ => {}
        }
        match (seen.returned, function) {
            (0, Function::BoxUse) => {
                let event = "box use 0 before 19, no such card";
                self.hit(event, seen.card().is_none() && count <= MAX_CARDS);
            }
            (0, Function::BoxAfford) => {
                let event = "box afford 0 before 19, no such card";
                self.hit(event, seen.card().is_none() && count <= MAX_CARDS);
            }
            (ACCEPTED, Function::BoxUse) => self.card_used(seen),
            (ACCEPTED, Function::BoxNextDay) => self.card_months(seen),
            (ACCEPTED, Function::BoxAfford) => return self.card_afforded(seen),
            (number, Function::BoxUse) => self.card_use_refused(seen, number),
            _ => {}
        }
        Ok(())
    }

    /// library-4: arguments that are of no call.
    fn no_box_call(&mut self, step: BoxStep) {
        let wide = step.which >= 1 << 32;
        match step.call {
            code::REGISTER => {
                self.hit("box register, place 3", step.which == 3);
                self.hit("box register, place beyond a word", wide);
            }
            code::USE => {
                self.hit("box use, kind 4", step.which == 4);
                self.hit("box use, kind beyond a word", wide);
                self.hit("box use, short answer", step.which < 4);
            }
            _ => {
                self.hit("box afford, kind 4", step.which == 4);
                self.hit("box afford, kind beyond a word", wide);
                self.hit("box afford, short answer", step.which < 4);
            }
        }
    }

    /// library-4: the same where another reason holds as well.
    pub fn no_box_call_before(&mut self, returned: u64, sound: bool, cards: usize) {
        let told = returned == BAD_ARGUMENT;
        self.hit("box call, bad argument before 0", told && !sound);
        let long = sound && cards > MAX_CARDS;
        self.hit("box call, bad argument before 19", told && long);
    }

    /// library-5: another count of numbers than an account has.
    pub fn box_counted(&mut self, count: usize, returned: u64) {
        let told = returned == 0;
        self.hit("box call 0, no numbers", told && count == 0);
        let [fewer, more] = [ACCOUNT_NUMBERS - 1, ACCOUNT_NUMBERS + 1];
        self.hit("box call 0, 1,648 numbers", told && count == fewer);
        self.hit("box call 0, 1,650 numbers", told && count == more);
    }

    /// family-12: 19, by its reasons.
    fn no_card(&mut self, seen: &BoxObserved, call: usize) {
        let (count, step) = (seen.cards.len(), seen.step);
        // A place within the list, where one is named: the length is at fault.
        let within = step.card < count || !matches!(step.call, code::USE | code::AFFORD);
        self.hit(SEVENTEEN[call], count == 17 && within);
        self.hit(LONGER[call], count > 17 && within);
        self.hit(NO_CARDS[call], count == 0);
        if count > MAX_CARDS || count == 0 {
            return;
        }
        let nowhere = seen.before.place().is_none();
        if step.call == code::USE {
            self.hit("box use 19, no such card", true);
            let next = step.card == count;
            self.hit("box use 19, one place past the last card", next);
            self.hit("box use 19 before 3", nowhere);
            let out = step.n == 0 || step.n > MAX_UNITS;
            self.hit("box use 19 before 4", !nowhere && out);
            let wide = "box use of a card's place beyond a word, 19";
            self.hit(wide, step.card >= 1 << 32);
        } else {
            self.hit("box afford 19, no such card", true);
            self.hit("box afford 19 before 3", nowhere);
        }
    }

    fn card_used(&mut self, seen: &BoxObserved) {
        let (Some(card), Some(place)) = (seen.card(), seen.before.place()) else {
            return;
        };
        let (count, at) = (seen.cards.len(), seen.step.card);
        self.hit("use of the only card", count == 1);
        self.hit("use of the first of 16 cards", count == 16 && at == 0);
        self.hit("use of the last of 16 cards", count == 16 && at == 15);
        let now = &seen.cards_now[at];
        let full = card.monthly == card.allowance;
        if seen.kind() != Some(Kind::Data) {
            self.hit("seconds or SMS with no allowance left", full);
            let none = card.allowance == 0;
            self.hit("seconds or SMS with an allowance of 0", none);
            return;
        }
        self.hit(COUNTED[place as usize], now.monthly > card.monthly);
        let reached = !full && now.monthly == card.allowance;
        self.hit("data that just comes to the allowance", reached);
        let again = self.box_past.last_month.contains(&at);
        self.hit("data after 20 and a month's turn", again);
    }

    fn card_use_refused(&mut self, seen: &BoxObserved, number: u64) {
        let (Some(card), step) = (seen.card(), seen.step) else {
            return;
        };
        let past = seen.is_past_allowance();
        match number {
            3 => self.hit("box use 3 before 20", past),
            4 => {
                self.hit("box use 4 before 20", past);
                self.hit("box use 4, the last number", step.n == u64::MAX);
            }
            5 => {
                let full = seen.before.lifetime(Kind::Data) + step.n > MAX_LIFETIME;
                self.hit("box use 5 before 20", past && full);
            }
            20 => {
                let one = card.monthly + step.n == card.allowance + 1;
                self.hit("box use 20 by one kB", one);
                self.hit("box use 20, allowance 0", card.allowance == 0);
                self.hit("box use 20 before 6", is_too_dear(seen));
                self.box_past.refused.push(step.card);
            }
            _ => {}
        }
    }

    /// family-4: a day change.
    fn card_months(&mut self, seen: &BoxObserved) {
        let used = seen.cards.iter().filter(|card| card.monthly > 0);
        let used = used.count();
        if !is_first_day(seen.now.day() as u32) {
            self.hit("day change within a month, cards' kB kept", used > 0);
            return;
        }
        if let Some(event) = TURNED.get(seen.now.form() as usize) {
            self.hit(event, used > 0);
        }
        self.hit("month turn of several cards' kB", used > 1);
        let up = |card: &Card| card.monthly > 0 && card.monthly == card.allowance;
        let used_up = seen.cards.iter().any(up);
        self.hit("month turn of an allowance used up", used_up);
        self.hit(
            "month turn with 16 cards",
            seen.cards.len() == 16 && used > 0,
        );
        self.box_past.last_month = std::mem::take(&mut self.box_past.refused);
    }

    /// afford-1, family-13: the answer beside that for the account alone.
    fn card_afforded(&mut self, seen: &BoxObserved) -> Result<(), String> {
        let (Some(card), Some(alone)) = (seen.card(), seen.alone) else {
            return Ok(());
        };
        let (most, room) = (seen.answer[0], card.allowance - card.monthly);
        let data = seen.kind() == Some(Kind::Data);
        if most != if data { alone.min(room) } else { alone } {
            return Err(format!(
                "Afford {most}, the account alone {alone}, the card's kB {room}"
            ));
        }
        if !data {
            let event = "Afford of seconds or SMS with no allowance left";
            self.hit(event, room == 0 && most > 0);
            return Ok(());
        }
        self.hit("card's Afford cut by the allowance", most < alone);
        let full = seen.before.lifetime(Kind::Data) + most == MAX_LIFETIME;
        let by_credit = alone < MAX_UNITS && !full;
        let credit = most < room && by_credit;
        self.hit("card's Afford cut by the credit", credit);
        let alike = most > 0 && room == alone && by_credit;
        self.hit("card's Afford cut by both alike", alike);
        let nothing = room == 0 && alone > 0;
        self.hit("card's Afford 0 by the allowance alone", nothing);
        Ok(())
    }

    /// afford-1: a use of so many kB by a card of which Afford answered.
    pub fn box_use_after_afford(&mut self, most: u64, n: u64, returned: u64) {
        let whole = n == most && n > 0 && returned == ACCEPTED;
        self.hit("as many kB as a card's Afford answers", whole);
        if n == most + 1 {
            let event = "one kB more than a card's Afford answers, 20";
            self.hit(event, returned == 20);
            let event = "one kB more than a card's Afford answers, 6";
            self.hit(event, returned == 6);
        }
    }

    /// family-10: a pair of lists with the same cuts, and whether the lists are
    /// the same.
    pub fn box_pair(&mut self, first: &BoxStretches, other: &BoxStretches, lists_agree: bool) {
        let units = first.units == other.units;
        let charged = first.together() == other.together();
        let both = units && charged;
        let event = "box: another list with the same stretches";
        self.hit(event, both && !lists_agree);
        self.hit("box: the same cuts with other stretches", !both);
        let event = "box: the same units with other charged seconds";
        self.hit(event, units && !charged);
        let sums = charged && first.of_all_cards() == other.of_all_cards();
        self.hit("box: the same units of other cards", sums && !units);
        let went = both && first.charged != other.charged;
        let event = "box: charged seconds that went from a card to another";
        self.hit(event, went);
    }
}

/// refusal-6: whether data is surely above the credit: under a prepaid plan, at
/// home or in the zone, the home price of these kB alone is.
fn is_too_dear(seen: &BoxObserved) -> bool {
    let priced = matches!(seen.before.place(), Some(Place::Home | Place::Zone));
    let home = seen.before.data_price() * seen.step.n / GB;
    seen.before.is_prepaid() && priced && home > seen.before.credit()
}

//! Events of single calls: what is refused, registrations and top-ups. Those of
//! accepted uses and of Afford are in `uses`, those of day changes in `days`.
//! Rules register-1, register-2, topup-1, topup-2, refusal-3 to refusal-8,
//! order-3, library-4.

use super::returns::Function;
use super::seen::{Observed, Seen};
use super::uses::can_pay;
use super::TripEvents;
use crate::caps::caps_on;
use crate::meter::{LEAST_CHARGED, MAX_LIFETIME, MAX_PAID_IN, MAX_TOP_UP, MAX_UNITS};
use crate::sides::{Step, ACCEPTED, BAD_ARGUMENT};
use crate::terms::{Kind, Place};

/// register-1, register-2: registrations by the place before (none, home, zone,
/// elsewhere).
const REGISTERED: [[&str; 3]; 4] = [
    [
        "registered at home from nowhere",
        "registered in the zone from nowhere",
        "registered elsewhere from nowhere",
    ],
    [
        "registered at home from home",
        "registered in the zone from home",
        "registered elsewhere from home",
    ],
    [
        "registered at home from the zone",
        "registered in the zone again",
        "registered elsewhere from the zone",
    ],
    [
        "registered at home from elsewhere",
        "registered in the zone from elsewhere",
        "registered elsewhere again",
    ],
];

/// refusal-5, by kind.
const FULL: [&str; 4] = [
    "use 5, data",
    "use 5, outgoing seconds",
    "use 5, incoming seconds",
    "use 5, SMS",
];

/// register-2, topup-2: what sets L or leaves it.
const PLACED: &[&str] = &[
    "entry into the zone again",
    "prepaid L 0 on entry",
    "registered in the zone again on a later day",
    "registered in the zone again under another cap",
    "prepaid top-up in the zone",
    "prepaid top-up outside the zone",
    "bundle top-up in the zone",
    "top-up without a place",
    "top-up on a day without marks, at a place",
];

/// refusal-3 to refusal-5, refusal-7, refusal-8, and their order (order-3).
const REFUSED: &[&str] = &[
    "use 4, no units",
    "use 4, one unit too many",
    "use 5 by one unit",
    "use 3 before 4",
    "top-up 7, no points",
    "top-up 7, one point too many",
    "top-up 7 before 8",
    "top-up 8 by one point",
    "paid in at its limit",
    "top-up of the most points",
];

/// What lists of calls come to.
pub const OF_LISTS: &[&[&str]] = &[REGISTERED.as_flattened(), PLACED, REFUSED];

/// What arguments that no list has come to, and sound accounts that no list
/// leads to.
pub const OF_ARGUMENTS: &[&[&str]] = &[
    &FULL,
    &[
        "use 4 before 5",
        "use 5 before 6",
        "use 4, n beyond a word",
        "use 4, the last number",
        "top-up 7, points beyond a word",
        "top-up 7, the last number",
        "register, place 3",
        "register, place beyond a word",
        "use, kind 4",
        "use, kind beyond a word",
        "use, short answer",
        "afford, kind 4",
        "afford, kind beyond a word",
        "afford, short answer",
        "register, bad argument before 0",
        "use, bad argument before 0",
        "afford, bad argument before 0",
    ],
];

/// What earlier calls of a list leave to be known.
#[derive(Clone, Debug, Default)]
pub struct Past {
    /// The day of the last registration in the zone.
    pub registered: Option<u64>,
    /// The data cap under which a prepaid L was last set.
    pub limit_cap: Option<u64>,
    /// A use was refused today, before any mark.
    pub refused_unmarked: bool,
    /// The services that went from Warned to Clear at the last day change.
    pub spared: [bool; 3],
}

impl TripEvents {
    /// A call that a side made. A number that it never returns is a failure.
    pub fn call(&mut self, seen: &Observed) -> Result<(), String> {
        self.returned(Function::of(seen.step), seen.returned)?;
        match (seen.returned, seen.step) {
            (0, _) => {}
            (BAD_ARGUMENT, _) => self.no_call(seen.step),
            (ACCEPTED, Step::Register(_)) => self.registered(seen),
            (ACCEPTED, Step::Use(kind, n)) => self.used(seen, Kind::ALL[kind as usize], n),
            (ACCEPTED, Step::TopUp(points)) => self.topped_up(seen, points),
            (ACCEPTED, Step::NextDay) => self.next_day(seen),
            (ACCEPTED, Step::Afford(kind)) => self.afforded(seen, Kind::ALL[kind as usize]),
            (number, Step::Use(kind, n)) => {
                self.use_refused(seen.before, Kind::ALL[kind as usize], n, number);
            }
            (number, Step::TopUp(points)) => self.top_up_refused(seen.before, points, number),
            (_, Step::Register(_) | Step::NextDay | Step::Afford(_)) => {}
        }
        Ok(())
    }

    /// library-4: arguments that are of no call. A known kind means a short
    /// answer.
    fn no_call(&mut self, step: Step) {
        let wide = 1 << 32;
        match step {
            Step::Register(place) => {
                self.hit("register, place 3", place == 3);
                self.hit("register, place beyond a word", place >= wide);
            }
            Step::Use(kind, _) => {
                self.hit("use, kind 4", kind == 4);
                self.hit("use, kind beyond a word", kind >= wide);
                self.hit("use, short answer", kind < 4);
            }
            Step::Afford(kind) => {
                self.hit("afford, kind 4", kind == 4);
                self.hit("afford, kind beyond a word", kind >= wide);
                self.hit("afford, short answer", kind < 4);
            }
            Step::TopUp(_) | Step::NextDay => {}
        }
    }

    /// library-4: the same on numbers that are no sound account.
    pub fn no_call_before_0(&mut self, step: Step, returned: u64) {
        if returned == BAD_ARGUMENT {
            match step {
                Step::Register(_) => self.hit("register, bad argument before 0", true),
                Step::Use(..) => self.hit("use, bad argument before 0", true),
                Step::Afford(_) => self.hit("afford, bad argument before 0", true),
                Step::TopUp(_) | Step::NextDay => {}
            }
        }
    }

    fn use_refused(&mut self, before: Seen, kind: Kind, n: u64, number: u64) {
        self.past.refused_unmarked |= before.marks() == 0;
        let overfills = before.lifetime(kind).saturating_add(n) > MAX_LIFETIME;
        match number {
            3 => self.hit("use 3 before 4", n == 0 || n > MAX_UNITS),
            4 => {
                self.hit("use 4, no units", n == 0);
                self.hit("use 4, one unit too many", n == MAX_UNITS + 1);
                self.hit("use 4, n beyond a word", n >= 1 << 32);
                self.hit("use 4, the last number", n == u64::MAX);
                self.hit("use 4 before 5", overfills);
            }
            5 => {
                self.hit(FULL[kind as usize], overfills);
                let by_one = before.lifetime(kind) + n == MAX_LIFETIME + 1;
                self.hit("use 5 by one unit", by_one);
                let priced = before.place() != Some(Place::Elsewhere) && before.sms_price() > 0;
                let no_credit = kind == Kind::Sms && priced && before.credit() == 0;
                self.hit("use 5 before 6", no_credit);
                let by_charged = kind == Kind::Outgoing && !overfills;
                self.hit("use 5 by charged seconds alone", by_charged);
            }
            6 if kind == Kind::Outgoing => {
                let short = before.in_zone() && n < LEAST_CHARGED;
                self.hit(
                    "use 6 of a zone record affordable as spoken",
                    short && can_pay(before, n),
                );
            }
            _ => {}
        }
    }

    fn top_up_refused(&mut self, before: Seen, points: u64, number: u64) {
        let after = before.paid_in().saturating_add(points);
        match number {
            7 => {
                self.hit("top-up 7, no points", points == 0);
                self.hit("top-up 7, one point too many", points == MAX_TOP_UP + 1);
                self.hit("top-up 7, points beyond a word", points >= 1 << 32);
                self.hit("top-up 7, the last number", points == u64::MAX);
                self.hit("top-up 7 before 8", after > MAX_PAID_IN);
            }
            8 => self.hit("top-up 8 by one point", after == MAX_PAID_IN + 1),
            _ => {}
        }
    }

    fn registered(&mut self, seen: &Observed) {
        let (before, now) = (seen.before, seen.now);
        let Some(place) = now.place() else {
            return;
        };
        let from = before.place().map_or(0, |place| 1 + place as usize);
        self.hit(REGISTERED[from][place as usize], true);
        if place != Place::Zone {
            return;
        }
        let day = now.day();
        if before.in_zone() {
            let later = self.past.registered.filter(|last| *last < day);
            let again = "registered in the zone again on a later day";
            self.hit(again, later.is_some());
            let another = later.is_some_and(|last| data_cap(last) != data_cap(day));
            self.hit("registered in the zone again under another cap", another);
        } else {
            self.hit("entry into the zone again", before.r() > 0);
            let zero = now.is_prepaid() && now.l() == Some(0);
            self.hit("prepaid L 0 on entry", zero);
            self.past.limit_cap = Some(data_cap(day));
        }
        self.past.registered = Some(day);
    }

    fn topped_up(&mut self, seen: &Observed, points: u64) {
        let before = seen.before;
        let (zone, prepaid) = (before.in_zone(), before.is_prepaid());
        self.hit("prepaid top-up in the zone", prepaid && zone);
        self.hit("prepaid top-up outside the zone", prepaid && !zone);
        self.hit("bundle top-up in the zone", !prepaid && zone);
        let nowhere = before.place().is_none();
        self.hit("top-up without a place", nowhere);
        let unmarked = !nowhere && before.marks() == 0;
        self.hit("top-up on a day without marks, at a place", unmarked);
        self.hit("paid in at its limit", seen.now.paid_in() == MAX_PAID_IN);
        self.hit("top-up of the most points", points == MAX_TOP_UP);
        if prepaid && zone {
            self.past.limit_cap = Some(data_cap(before.day()));
        }
    }
}

pub(super) fn data_cap(day: u64) -> u64 {
    caps_on(day as u32)[Kind::Data as usize]
}

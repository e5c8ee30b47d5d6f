//! Events of day changes: months, what days count as, and the services. Rules
//! day-1 to day-3, service-2 to service-10, off-1 to off-4, limit-7, month-2,
//! month-3.

use super::seen::{Observed, Seen, Sums};
use super::TripEvents;
use crate::calendar::{is_first_day, is_leap, FIRST_DAYS};
use crate::caps::caps_on;
use crate::services::{State, LOG_DAYS, SHORT_DAYS};
use crate::terms::{Place, Service};

/// service-7 to service-10: the steps of each service.
const WARNED: [&str; 3] = ["data warned", "calls warned", "SMS warned"];
const SURCHARGED: [&str; 3] = ["data surcharged", "calls surcharged", "SMS surcharged"];
const CLEARED: [&str; 3] = ["data cleared", "calls cleared", "SMS cleared"];
const SPARED: [&str; 3] = [
    "data warned, then clear",
    "calls warned, then clear",
    "SMS warned, then clear",
];
const WARNED_AGAIN: [&str; 3] = [
    "data clear at the 15th change, warned at the next",
    "calls clear at the 15th change, warned at the next",
    "SMS clear at the 15th change, warned at the next",
];

/// service-4, off-1, off-4: the edges of prevalence.
const EDGES_OF_123: [&str; 4] = [
    "61 zone days of 123, none off",
    "62 zone days of 123, none off",
    "zone days half of those on, of 123",
    "zone days prevail over 123 with equal units",
];
const EDGES_OF_15: [&str; 4] = [
    "7 zone days of 15, none off",
    "8 zone days of 15, none off",
    "zone days half of those on, of 15",
    "zone days prevail over 15 with equal units",
];

/// day-2: a day that ends without a mark, by its place (none, home, zone,
/// elsewhere).
const OFF_DAYS: [&str; 4] = [
    "off day without a place",
    "off day at home",
    "off day in the zone",
    "off day elsewhere",
];

/// day-2: a day that ends, by its marks from 1 to 7.
const MARKED_DAYS: [&str; 7] = [
    "day marked home",
    "day marked zone",
    "day marked home and zone",
    "day marked elsewhere",
    "day marked home and elsewhere",
    "day marked zone and elsewhere",
    "day marked home, zone and elsewhere",
];

const OTHERS: &[&str] = &[
    "warned with off days",
    "warned with under 62 zone days",
    "cleared as a home day joined",
    "surcharged with off days in the 15",
    "warned, then clear with off days in the 15",
    "123 off days",
    "15 off days",
    "calls prevail, and would not with home incoming seconds",
    "an elsewhere day decides over 123",
    "cap change in mid-trip",
    "month turn of a prepaid plan with R over 0",
    "month turn of a bundle with H over 0",
    "month turn of an unlimited plan with H over 0",
    "bundle closing as the cap falls",
    "29 February begins",
    "29 February ends, a bundle's month turns",
    "28 February ends in a leap year, H over 0",
    "28 February ends in a common year, a bundle's month turns",
    "day change from day 3832",
    "log of 123 days drops the oldest",
    "day with refused uses alone is off",
];

pub const EVENTS: &[&[&str]] = &[
    &WARNED,
    &SURCHARGED,
    &CLEARED,
    &SPARED,
    &WARNED_AGAIN,
    &EDGES_OF_123,
    &EDGES_OF_15,
    &OFF_DAYS,
    &MARKED_DAYS,
    OTHERS,
];

/// Where a day stands about the end of February.
#[derive(Clone, Copy, PartialEq, Eq)]
enum February {
    Day28InLeapYear,
    Day28,
    Day29,
    No,
}

fn february(day: u64) -> February {
    // month-2: March is the third month of each of the eleven years.
    let mut years = FIRST_DAYS[2..].iter().step_by(12).zip(2022..);
    let near = |(march, _): &(&u32, u32)| (1..=2).contains(&(u64::from(**march).wrapping_sub(day)));
    match years.find(near) {
        Some((march, year)) => match (is_leap(year), u64::from(*march) - day) {
            (true, 1) => February::Day29,
            (true, _) => February::Day28InLeapYear,
            (false, 1) => February::Day28,
            (false, _) => February::No,
        },
        None => February::No,
    }
}

impl TripEvents {
    pub(super) fn next_day(&mut self, seen: &Observed) {
        let (before, now) = (seen.before, seen.now);
        let marks = before.marks();
        match marks {
            0 => {
                let place = before.place().map_or(0, |place| 1 + place as usize);
                self.hit(OFF_DAYS[place], true);
            }
            _ => self.hit(MARKED_DAYS[marks as usize - 1], true),
        }
        let alone = marks == 0 && self.past.refused_unmarked;
        self.hit("day with refused uses alone is off", alone);
        self.past.refused_unmarked = false;
        self.hit("day change from day 3832", before.day() == 3832);
        let full = before.logged() == LOG_DAYS as u64;
        self.hit("log of 123 days drops the oldest", full);
        self.month(before, now);
        for service in Service::ALL {
            self.stepped(seen, service);
        }
    }

    /// caps-2, limit-7, month-3: caps, the month's turn, the end of February.
    fn month(&mut self, before: Seen, now: Seen) {
        let turned = is_first_day(now.day() as u32);
        let bundle = !now.is_prepaid();
        let caps_changed = caps_on(before.day() as u32) != caps_on(now.day() as u32);
        self.hit("cap change in mid-trip", caps_changed);
        let used = turned && before.h() > 0;
        let turns = "month turn of a bundle with H over 0";
        self.hit(turns, used && now.form() == 1);
        let turns = "month turn of an unlimited plan with H over 0";
        self.hit(turns, used && now.form() == 2);
        let kept = turned && !bundle && before.r() > 0;
        self.hit("month turn of a prepaid plan with R over 0", kept);
        let closing = caps_changed && before.l().is_some() && now.l().is_none();
        self.hit("bundle closing as the cap falls", closing);
        let counted = bundle && before.h() > 0;
        match february(before.day()) {
            February::Day28InLeapYear => {
                self.hit("29 February begins", true);
                self.hit("28 February ends in a leap year, H over 0", counted);
            }
            February::Day29 => {
                self.hit("29 February ends, a bundle's month turns", counted);
            }
            February::Day28 => {
                let turns = "28 February ends in a common year, a bundle's month turns";
                self.hit(turns, counted);
            }
            February::No => {}
        }
    }

    /// service-7 to service-10: one service at a day change.
    fn stepped(&mut self, seen: &Observed, service: Service) {
        let s = service as usize;
        let (last, next) = (seen.before.state(service), seen.now.state(service));
        let spared = std::mem::take(&mut self.past.spared[s]);
        match (last, next) {
            (State::Clear, State::Warned(_)) => {
                self.hit(WARNED[s], true);
                self.hit(WARNED_AGAIN[s], spared);
            }
            (State::Warned(_), State::Surcharged) => self.hit(SURCHARGED[s], true),
            (State::Warned(_), State::Clear) => {
                self.hit(SPARED[s], true);
                self.past.spared[s] = true;
            }
            (State::Surcharged, State::Clear) => self.hit(CLEARED[s], true),
            _ => {}
        }
        let full = seen.now.logged() == LOG_DAYS as u64;
        match last {
            State::Warned(14) if full => {
                let sums = seen.log.window(SHORT_DAYS, service);
                self.decided_over_15(&sums, next);
            }
            State::Clear | State::Surcharged if full => {
                let sums = seen.log.window(LOG_DAYS, service);
                self.decided_over_123(&sums, last, next, seen);
            }
            _ => {}
        }
    }

    /// The edges of a decision. First those in which the units prevail, so that
    /// the days alone decide: a full window without off days (off-4) that has
    /// one zone day too few, one that has just enough, and half of the days
    /// that are on (off-1); then one in which the units alone decide
    /// (service-4).
    fn edges(&mut self, sums: &Sums, enough: u64, names: &[&'static str; 4]) {
        let units = sums.units_prevail();
        let full = units && sums.off_days == 0;
        self.hit(names[0], full && sums.zone_days + 1 == enough);
        self.hit(names[1], full && sums.zone_days == enough);
        self.hit(names[2], units && sums.is_half());
        let equal = sums.zone_units == sums.other_units && sums.zone_units > 0;
        self.hit(names[3], sums.days_prevail() && equal);
        let with_home = sums.other_units + sums.home_incoming;
        let tipped = units && sums.days_prevail() && sums.zone_units <= with_home;
        self.hit(
            "calls prevail, and would not with home incoming seconds",
            tipped,
        );
    }

    fn decided_over_15(&mut self, sums: &Sums, next: State) {
        self.edges(sums, 8, &EDGES_OF_15);
        let off = sums.off_days;
        let surcharged = next == State::Surcharged;
        self.hit("surcharged with off days in the 15", surcharged && off > 0);
        let clear = next == State::Clear && sums.units_prevail() && off > 0;
        self.hit("warned, then clear with off days in the 15", clear);
        self.hit("15 off days", off == SHORT_DAYS as u64);
    }

    fn decided_over_123(&mut self, sums: &Sums, last: State, next: State, seen: &Observed) {
        self.edges(sums, 62, &EDGES_OF_123);
        let off = sums.off_days;
        let warned = last == State::Clear && next != State::Clear;
        self.hit("warned with off days", warned && off > 0);
        self.hit(
            "warned with under 62 zone days",
            warned && sums.zone_days < 62,
        );
        // The days would still prevail if the newest one were off.
        let cleared = last == State::Surcharged && next == State::Clear;
        let newest = seen.log.marks(0);
        let home = newest & (1 + 4) != 0;
        let joined = cleared && sums.units_prevail() && sums.is_half() && home;
        self.hit("cleared as a home day joined", joined);
        self.hit("123 off days", off == LOG_DAYS as u64);
        let elsewhere = 1 << Place::Elsewhere as u64;
        let only = (0..LOG_DAYS).any(|day| seen.log.marks(day) == elsewhere);
        let decides = sums.units_prevail() && sums.is_half() && only;
        self.hit("an elsewhere day decides over 123", decides);
    }
}

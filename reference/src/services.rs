//! Days of the log and the states of the three services. Rules day-1, day-2,
//! service-1 to service-10, off-1 to off-4.

use crate::planted::{planted, Wrong};
use crate::terms::{Kind, Place, Service};
use std::collections::VecDeque;

/// day-1: the log holds 123 days, newest first.
pub const LOG_DAYS: usize = 123;
/// service-8: the window of the decision after a warning.
pub const SHORT_DAYS: usize = 15;

pub type Log = VecDeque<Day>;

/// account-2: a day's marks by place, and the units of each kind at each place.
#[derive(Clone, Copy, PartialEq, Eq, Debug, Default)]
pub struct Day {
    pub marks: [bool; 3],
    pub units: [[u64; 3]; 4],
}

/// day-2: what a day counts as.
#[derive(Clone, Copy, PartialEq, Eq, Debug)]
pub enum DayCount {
    Home,
    Zone,
    Off,
}

/// service-1: a service's state; Warned has the day changes since then.
#[derive(Clone, Copy, PartialEq, Eq, Debug)]
pub enum State {
    Clear,
    Warned(u32),
    Surcharged,
}

impl Day {
    pub fn mark(&mut self, place: Place) {
        self.marks[place as usize] = true;
    }

    /// day-2: home, also by a mark of elsewhere; else zone; without marks off.
    pub fn counts_as(&self) -> DayCount {
        let elsewhere =
            || self.marks[Place::Elsewhere as usize] && !planted(Wrong::ElsewhereDayOff);
        if self.marks[Place::Home as usize] || elsewhere() {
            DayCount::Home
        } else if self.marks[Place::Zone as usize] {
            DayCount::Zone
        } else {
            DayCount::Off
        }
    }

    fn of(&self, kind: Kind, place: Place) -> u64 {
        self.units[kind as usize][place as usize]
    }

    /// service-2: zone units of a service, of calls in both directions.
    pub fn zone_units(&self, service: Service) -> u64 {
        match service {
            Service::Data => self.of(Kind::Data, Place::Zone),
            Service::Calls => {
                self.of(Kind::Outgoing, Place::Zone) + self.of(Kind::Incoming, Place::Zone)
            }
            Service::Sms => self.of(Kind::Sms, Place::Zone),
        }
    }

    /// service-3: other units of a service, without incoming ones at home.
    pub fn other_units(&self, service: Service) -> u64 {
        match service {
            Service::Data => {
                self.of(Kind::Data, Place::Home) + self.of(Kind::Data, Place::Elsewhere)
            }
            Service::Calls => {
                let incoming = match planted(Wrong::HomeIncomingCounts) {
                    true => self.of(Kind::Incoming, Place::Home),
                    false => 0,
                };
                self.of(Kind::Outgoing, Place::Home)
                    + self.of(Kind::Outgoing, Place::Elsewhere)
                    + self.of(Kind::Incoming, Place::Elsewhere)
                    + incoming
            }
            Service::Sms => self.of(Kind::Sms, Place::Home) + self.of(Kind::Sms, Place::Elsewhere),
        }
    }
}

/// What a window holds: its days by what they count as, and zone and other
/// units of a service (service-6).
#[derive(Clone, Copy, PartialEq, Eq, Debug, Default)]
pub struct Window {
    pub home_days: usize,
    pub zone_days: usize,
    pub off_days: usize,
    pub zone_units: u64,
    pub other_units: u64,
}

/// service-5: the sums over the w newest days, or all that are logged.
pub fn window(log: &Log, w: usize, service: Service) -> Window {
    let mut sums = Window::default();
    for day in log.iter().take(w) {
        match day.counts_as() {
            DayCount::Home => sums.home_days += 1,
            DayCount::Zone => sums.zone_days += 1,
            DayCount::Off => sums.off_days += 1,
        }
        sums.zone_units += day.zone_units(service);
        sums.other_units += day.other_units(service);
    }
    sums
}

impl Window {
    /// off-1: the days of the window that are on.
    pub fn days_on(&self) -> usize {
        if planted(Wrong::OffDaysAsHome) {
            return self.home_days + self.zone_days + self.off_days;
        }
        self.home_days + self.zone_days
    }

    /// off-1: whether over half of the days on are zone days; off-2, off-4.
    fn zone_days_prevail(&self, w: usize) -> bool {
        let zone_days = match w {
            LOG_DAYS if planted(Wrong::OneZoneDayLessOf123) => self.zone_days + 1,
            SHORT_DAYS if planted(Wrong::OneZoneDayLessOf15) => self.zone_days + 1,
            _ => self.zone_days,
        };
        if planted(Wrong::HalfTheDaysPrevail) {
            return 2 * zone_days >= self.days_on();
        }
        if planted(Wrong::TwiceForgotten) {
            return zone_days > self.days_on();
        }
        2 * zone_days > self.days_on()
    }

    /// service-4: enough zone days, and more zone units than others.
    pub fn prevails(&self, w: usize) -> bool {
        let equal = planted(Wrong::EqualUnitsPrevail) && self.zone_units == self.other_units;
        self.zone_days_prevail(w) && (self.zone_units > self.other_units || equal)
    }
}

/// service-4: whether a service prevails in its last w days, 123 or 15.
pub fn prevalent(log: &Log, w: usize, service: Service) -> bool {
    window(log, w, service).prevails(w)
}

/// service-7 to service-10: one step of a service, today being in the log.
pub fn step(state: State, log: &Log, service: Service) -> State {
    match state {
        State::Clear if log.len() == LOG_DAYS && prevalent(log, LOG_DAYS, service) => {
            State::Warned(0)
        }
        State::Clear => State::Clear,
        State::Warned(changes) if changes < 14 => State::Warned(changes + 1),
        State::Warned(_) if prevalent(log, SHORT_DAYS, service) => State::Surcharged,
        State::Warned(_) => State::Clear,
        State::Surcharged if prevalent(log, LOG_DAYS, service) => State::Surcharged,
        State::Surcharged => State::Clear,
    }
}

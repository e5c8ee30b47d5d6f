//! What the events look at: a call as a side made it, with the numbers of its
//! account before and after. Rules library-1, library-2; of the log day-2,
//! service-2 to service-5, off-1.

use crate::numbers::{at, Numbers, ACCOUNT_NUMBERS, DAY_NUMBERS};
use crate::services::{State, LOG_DAYS};
use crate::sides::Step;
use crate::terms::{Kind, Place, Service};

/// The numbers of an account past its log.
pub type Rest = [u64; ACCOUNT_NUMBERS - at::PLAN];

/// The rest of an account's numbers.
pub fn rest(all: &Numbers) -> &Rest {
    all.last_chunk().expect("an account has more numbers")
}

/// A call that a side made: what it returned, its answer, and its account.
#[derive(Clone, Copy, Debug)]
pub struct Observed<'a> {
    pub step: Step,
    pub returned: u64,
    pub answer: &'a [u64],
    pub before: Seen<'a>,
    pub now: Seen<'a>,
    /// The log after the call.
    pub log: Log<'a>,
}

impl<'a> Observed<'a> {
    pub fn new(
        step: Step,
        returned: u64,
        answer: &'a [u64],
        before: &'a Rest,
        now: &'a Numbers,
    ) -> Observed<'a> {
        Observed {
            step,
            returned,
            answer,
            before: Seen(before),
            now: Seen(rest(now)),
            log: Log(now),
        }
    }
}

/// account-2: all of an account but its log.
#[derive(Clone, Copy, Debug)]
pub struct Seen<'a>(pub &'a Rest);

impl Seen<'_> {
    fn get(self, place: usize) -> u64 {
        self.0[place - at::PLAN]
    }

    pub fn form(self) -> u64 {
        self.get(at::PLAN)
    }

    pub fn is_prepaid(self) -> bool {
        self.form() == 0
    }

    pub fn data_price(self) -> u64 {
        self.get(at::PLAN + 2)
    }

    pub fn minute_price(self) -> u64 {
        self.get(at::PLAN + 3)
    }

    pub fn sms_price(self) -> u64 {
        self.get(at::PLAN + 4)
    }

    /// plan-1: V; none where the plan has no volume.
    pub fn volume(self) -> Option<u64> {
        (self.form() == 1).then(|| self.get(at::PLAN + 6))
    }

    pub fn day(self) -> u64 {
        self.get(at::DAY)
    }

    pub fn place(self) -> Option<Place> {
        let place = self.get(at::PLACE).checked_sub(1)?;
        Place::ALL.get(place as usize).copied()
    }

    pub fn in_zone(self) -> bool {
        self.place() == Some(Place::Zone)
    }

    pub fn credit(self) -> u64 {
        self.get(at::CREDIT)
    }

    pub fn paid_in(self) -> u64 {
        self.get(at::PAID)
    }

    pub fn home(self) -> u64 {
        self.get(at::HOME_CHARGES)
    }

    pub fn extra(self) -> u64 {
        self.get(at::SURCHARGES)
    }

    pub fn lifetime(self, kind: Kind) -> u64 {
        self.get(at::LIFETIME + kind as usize)
    }

    pub fn charged_seconds(self) -> u64 {
        self.get(at::CHARGED_SECONDS)
    }

    pub fn priced(self, kind: Kind) -> u64 {
        self.get(at::PRICED + kind as usize)
    }

    pub fn surcharged(self, kind: Kind) -> u64 {
        self.get(at::SURCHARGED + kind as usize)
    }

    pub fn cap_sum(self, kind: Kind) -> u64 {
        self.get(at::CAP_SUMS + kind as usize)
    }

    pub fn h(self) -> u64 {
        self.get(at::MONTHLY)
    }

    pub fn r(self) -> u64 {
        self.get(at::ROAMED)
    }

    pub fn l(self) -> Option<u64> {
        self.get(at::LIMIT).checked_sub(1)
    }

    /// Today's marks: 1 home, 2 zone, 4 elsewhere.
    pub fn marks(self) -> u64 {
        self.get(at::MARKS)
    }

    pub fn logged(self) -> u64 {
        self.get(at::LOGGED)
    }

    pub fn state(self, service: Service) -> State {
        match self.get(at::SERVICES + service as usize) {
            0 => State::Clear,
            1 => State::Surcharged,
            warned => State::Warned((warned - 2) as u32),
        }
    }

    /// use-8: whether a use of the kind bears the surcharge whatever L is.
    pub fn is_surcharged(self, kind: Kind) -> bool {
        self.in_zone() && self.state(Service::of(kind)) == State::Surcharged
    }
}

/// The log of an account, in its numbers.
#[derive(Clone, Copy, Debug)]
pub struct Log<'a>(pub &'a Numbers);

/// What a window of the log holds: days by what they count as (day-2), and
/// units of a service (service-2, service-3).
#[derive(Clone, Copy, Debug, Default)]
pub struct Sums {
    pub home_days: u64,
    pub zone_days: u64,
    pub off_days: u64,
    pub zone_units: u64,
    pub other_units: u64,
    /// service-3: incoming seconds at home, which no service counts.
    pub home_incoming: u64,
}

impl Log<'_> {
    /// The marks of a day, 0 being the newest.
    pub fn marks(self, day: usize) -> u64 {
        self.0[DAY_NUMBERS * day]
    }

    /// The newest days of a full log.
    pub fn window(self, days: usize, service: Service) -> Sums {
        let mut sums = Sums::default();
        let (places, _) = self.0[..DAY_NUMBERS * days.min(LOG_DAYS)].as_chunks::<DAY_NUMBERS>();
        for day in places {
            let units = |kind: Kind, place: Place| day[1 + 4 * place as usize + kind as usize];
            let kinds: &[Kind] = match service {
                Service::Data => &[Kind::Data],
                Service::Calls => &[Kind::Outgoing, Kind::Incoming],
                Service::Sms => &[Kind::Sms],
            };
            for kind in kinds {
                sums.zone_units += units(*kind, Place::Zone);
                sums.other_units += units(*kind, Place::Elsewhere);
                match kind {
                    Kind::Incoming => sums.home_incoming += units(*kind, Place::Home),
                    _ => sums.other_units += units(*kind, Place::Home),
                }
            }
            match day[0] {
                0 => sums.off_days += 1,
                2 => sums.zone_days += 1,
                _ => sums.home_days += 1,
            }
        }
        sums
    }
}

impl Sums {
    /// service-4: whether the units alone would prevail.
    pub fn units_prevail(&self) -> bool {
        self.zone_units > self.other_units
    }

    /// off-1: whether the days alone would, with more zone days than home days.
    pub fn days_prevail(&self) -> bool {
        self.zone_days > self.home_days
    }

    /// As many zone days as home days, and some.
    pub fn is_half(&self) -> bool {
        self.zone_days > 0 && self.zone_days == self.home_days
    }
}

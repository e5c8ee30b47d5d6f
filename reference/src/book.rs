//! The book. It knows the plan, the calls and which of them were accepted, and
//! works everything out again by looking through its items. It shares the
//! tables of caps and months with the account, and no code of its rules. Rules
//! book-1 to book-12, and from the items use-, half-, service- and off-.

use crate::calendar::{month_of, FIRST_DAYS};
use crate::caps::caps_on;
use crate::plan::{Plan, BUNDLE, PREPAID, UNLIMITED};
use crate::terms::{Call, Kind, Place, Service, GB};

/// book-3: an accepted call, its day and its place (where it registers, the new
/// one).
#[derive(Clone, Copy, Debug)]
pub struct Item {
    pub call: Call,
    pub day: u32,
    pub place: Option<Place>,
}

/// book-11: the units that a use is charged as (half-1), those that bear the
/// home price and the surcharge, and the cap of its day (use-6).
#[derive(Clone, Copy, PartialEq, Eq, Debug)]
pub struct Share {
    pub kind: Kind,
    pub charged: u64,
    pub priced: u64,
    pub surcharged: u64,
    pub cap: u64,
}

/// book-10: a service's state; a warning has the number of days logged then.
#[derive(Clone, Copy, PartialEq, Eq, Debug)]
pub enum Stage {
    Clear,
    Warned { at: usize },
    Surcharged,
}

/// day-2: 1 for a zone day, -1 for a home day, 0 for an off day; and zone and
/// other units by service (service-2, service-3).
#[derive(Clone, Copy, Debug)]
struct Finished {
    zone_less_home: i32,
    zone: [u64; 3],
    other: [u64; 3],
}

#[derive(Clone, Debug)]
pub struct Book {
    plan: Plan,
    day: u32,
    place: Option<Place>,
    items: Vec<Item>,
    /// For each item that is a use, what it bears; worked out as it is added.
    shares: Vec<Option<Share>>,
    days: Vec<Finished>,
    stages: [Stage; 3],
}

impl Book {
    /// book-2: no items, the start day, no place.
    pub fn new(plan: Plan) -> Book {
        Book {
            plan,
            day: plan.start,
            place: None,
            items: Vec::new(),
            shares: Vec::new(),
            days: Vec::new(),
            stages: [Stage::Clear; 3],
        }
    }

    /// book-3 to book-5: accepted calls become items, refused ones do not.
    pub fn feed(&mut self, call: Call, accepted: bool) {
        if !accepted {
            return;
        }
        if let Call::Register(place) = call {
            self.place = Some(place);
        }
        let share = match call {
            Call::Use(kind, n) => Some(self.share(kind, n)),
            _ => None,
        };
        let (day, place) = (self.day, self.place);
        self.items.push(Item { call, day, place });
        self.shares.push(share);
        if call == Call::NextDay {
            self.finish_day();
            self.day += 1;
        }
    }

    /// book-6: all top-ups together.
    pub fn paid_in(&self) -> u64 {
        paid(&self.items)
    }

    pub fn home_charges(&self) -> u64 {
        self.charges_over(&self.shares).0
    }

    pub fn surcharges(&self) -> u64 {
        self.charges_over(&self.shares).1
    }

    /// book-12: paid in without both charges.
    pub fn credit(&self) -> u64 {
        self.credit_after(self.items.len())
    }

    pub fn day(&self) -> u32 {
        self.day
    }

    pub fn place(&self) -> Option<Place> {
        self.place
    }

    /// Units used over all items, of a kind.
    pub fn lifetime(&self, kind: Kind) -> u64 {
        self.items.iter().map(|item| units(item, kind)).sum()
    }

    /// half-3: outgoing seconds as charged, over all items.
    pub fn charged_seconds(&self) -> u64 {
        let uses = self.shares.iter().flatten();
        uses.filter(|share| share.kind == Kind::Outgoing)
            .map(|share| share.charged)
            .sum()
    }

    /// book-11: priced units, surcharged units and cap x surcharged units over
    /// all items, of a kind.
    pub fn borne(&self, kind: Kind) -> [u64; 3] {
        let uses = self.shares.iter().flatten();
        let add = |sums: [u64; 3], share: &Share| {
            [
                sums[0] + share.priced,
                sums[1] + share.surcharged,
                sums[2] + share.cap * share.surcharged,
            ]
        };
        uses.filter(|share| share.kind == kind).fold([0; 3], add)
    }

    pub fn stages(&self) -> [Stage; 3] {
        self.stages
    }

    /// book-9: the credit over the first `count` items.
    fn credit_after(&self, count: usize) -> u64 {
        let (home, extra) = self.charges_over(&self.shares[..count]);
        paid(&self.items[..count]) - home - extra
    }

    /// use-11, use-12: both charges from sums over the records, each divided
    /// once, down (limit-3); of calls by charged seconds (half-9).
    fn charges_over(&self, shares: &[Option<Share>]) -> (u64, u64) {
        let (mut priced, mut points) = ([0u128; 4], [0u128; 4]);
        for share in shares.iter().flatten() {
            priced[share.kind as usize] += u128::from(share.priced);
            points[share.kind as usize] += u128::from(share.cap) * u128::from(share.surcharged);
        }
        let gb = u128::from(GB);
        let home = u128::from(self.plan.data_price) * priced[0] / gb
            + u128::from(self.plan.minute_price) * priced[1] / 60
            + u128::from(self.plan.sms_price) * priced[3];
        let extra = points[0] / gb + points[1] / 60 + points[2] / 60 + points[3];
        (home as u64, extra as u64)
    }

    /// book-7: H for a use now, the month's kB but those elsewhere.
    pub fn h(&self) -> u64 {
        if self.plan.form == PREPAID {
            return 0;
        }
        let here = |item: &&Item| item.place != Some(Place::Elsewhere);
        kb(self.month_items().iter().filter(here))
    }

    /// book-8: R for a use now, zone kB of the month or, prepaid, since L was
    /// last set.
    pub fn r(&self) -> u64 {
        let zone = |item: &&Item| item.place == Some(Place::Zone);
        if self.plan.form == PREPAID {
            let from = self.last_setting().map_or(0, |index| index + 1);
            kb(self.items[from..].iter().filter(zone))
        } else {
            kb(self.month_items().iter().filter(zone))
        }
    }

    /// book-9: L as last set, of a bundle by limit-5 to limit-7, prepaid by
    /// register-2, topup-2 or limit-4.
    pub fn l(&self) -> Option<u64> {
        let plan = &self.plan;
        if plan.form == PREPAID {
            let Some(index) = self.last_setting() else {
                return Some(0);
            };
            let cap = u128::from(caps_on(self.items[index].day)[0]);
            let credit = u128::from(self.credit_after(index + 1));
            return Some((credit * u128::from(GB) / cap) as u64);
        }
        let set_on = FIRST_DAYS[month_of(self.day)].max(plan.start);
        let cap = u128::from(caps_on(set_on)[0]);
        let fee = u128::from(plan.fee) * u128::from(GB);
        let open = plan.form == UNLIMITED || fee < cap * u128::from(plan.volume);
        open.then_some((2 * fee / cap) as u64)
    }

    /// The items of the month that the book's day lies in.
    fn month_items(&self) -> &[Item] {
        let first_day = FIRST_DAYS[month_of(self.day)];
        let first = self.items.partition_point(|item| item.day < first_day);
        &self.items[first..]
    }

    /// book-8: the item that last set a prepaid L (register-2, topup-2).
    fn last_setting(&self) -> Option<usize> {
        (0..self.items.len()).rev().find(|&index| {
            let item = &self.items[index];
            let place_before = index.checked_sub(1).and_then(|i| self.items[i].place);
            match item.call {
                Call::Register(Place::Zone) => place_before != Some(Place::Zone),
                Call::TopUp(_) => item.place == Some(Place::Zone),
                _ => false,
            }
        })
    }

    /// book-11: what a use of n units would bear now, after all items. half-1:
    /// of an outgoing zone record that is 30 seconds at least.
    pub fn share(&self, kind: Kind, n: u64) -> Share {
        let short = n < 30 && kind == Kind::Outgoing && self.place == Some(Place::Zone);
        let charged = if short { 30 } else { n };
        Share {
            kind,
            charged,
            priced: self.priced(kind, charged),
            surcharged: self.surcharged(kind, charged),
            cap: caps_on(self.day)[kind as usize],
        }
    }

    /// use-2 to use-5: the units of a use that bear the home price.
    fn priced(&self, kind: Kind, n: u64) -> u64 {
        if self.place == Some(Place::Elsewhere) || kind == Kind::Incoming {
            return 0;
        }
        if kind != Kind::Data || self.plan.form == PREPAID {
            return n;
        }
        if self.plan.form != BUNDLE {
            return 0;
        }
        n - free_part(u64::from(self.plan.volume), self.h(), n)
    }

    /// use-7 to use-10: the units of a use that bear the surcharge.
    fn surcharged(&self, kind: Kind, n: u64) -> u64 {
        if self.place != Some(Place::Zone) {
            return 0;
        }
        if self.stages[Service::of(kind) as usize] == Stage::Surcharged {
            return n;
        }
        match self.l() {
            Some(limit) if kind == Kind::Data => n - free_part(limit, self.r(), n),
            _ => 0,
        }
    }

    /// order-3: the number that a call would be refused with now, or 0.
    pub fn verdict(&self, call: Call) -> u32 {
        match call {
            Call::Register(_) => 0,
            Call::NextDay if self.day >= 3833 => 9,
            Call::NextDay => 0,
            Call::TopUp(amount) if !(1..=10_000_000).contains(&amount) => 7,
            Call::TopUp(amount) if self.paid_in() + amount > 1_000_000_000 => 8,
            Call::TopUp(_) => 0,
            Call::Use(_, _) | Call::Afford(_) if self.place.is_none() => 3,
            Call::Afford(_) => 0,
            Call::Use(_, n) if !(1..=1_000_000_000).contains(&n) => 4,
            Call::Use(kind, n) => self.use_verdict(kind, n),
        }
    }

    /// refusal-5, with charged seconds too (half-5), and refusal-6.
    fn use_verdict(&self, kind: Kind, n: u64) -> u32 {
        if self.lifetime(kind) + n > 1_000_000_000_000 {
            return 5;
        }
        let share = self.share(kind, n);
        if kind == Kind::Outgoing && self.charged_seconds() + share.charged > 1_000_000_000_000 {
            return 5;
        }
        let mut shares = self.shares.clone();
        shares.push(Some(share));
        let (home, extra) = self.charges_over(&shares);
        if home + extra > self.paid_in() {
            6
        } else {
            0
        }
    }

    /// book-10: a day change, with the finished day from the items of its date,
    /// then one step of each service (service-10).
    fn finish_day(&mut self) {
        let first = self.items.partition_point(|item| item.day < self.day);
        self.days.push(finished(&self.items[first..]));
        for service in 0..3 {
            self.stages[service] = self.next_stage(service);
        }
    }

    /// service-7 to service-9: a service's state after the day.
    fn next_stage(&self, service: usize) -> Stage {
        let logged = self.days.len();
        match self.stages[service] {
            Stage::Clear if logged >= 123 && self.prevalent(123, service) => {
                Stage::Warned { at: logged }
            }
            Stage::Warned { at } if logged < at + 15 => Stage::Warned { at },
            Stage::Warned { .. } if self.prevalent(15, service) => Stage::Surcharged,
            Stage::Surcharged if self.prevalent(123, service) => Stage::Surcharged,
            _ => Stage::Clear,
        }
    }

    /// service-4: more zone units than others, and off-1: more zone days than
    /// home days among the newest w, which is more than half of the days on.
    fn prevalent(&self, w: usize, service: usize) -> bool {
        let window = &self.days[self.days.len().saturating_sub(w)..];
        let zone_less_home: i32 = window.iter().map(|day| day.zone_less_home).sum();
        let zone: u64 = window.iter().map(|day| day.zone[service]).sum();
        let other: u64 = window.iter().map(|day| day.other[service]).sum();
        zone_less_home > 0 && zone > other
    }
}

/// book-10: the marks and units of a day, from its items.
fn finished(items: &[Item]) -> Finished {
    let marking = |item: &&Item| matches!(item.call, Call::Register(_) | Call::Use(_, _));
    let mut marks = items.iter().filter(marking).map(|item| item.place);
    let zone_less_home = match marks.next() {
        None => 0,
        Some(first) if first == Some(Place::Zone) && marks.all(|place| place == first) => 1,
        Some(_) => -1,
    };
    let mut day = Finished {
        zone_less_home,
        zone: [0; 3],
        other: [0; 3],
    };
    for item in items {
        if let Call::Use(kind, n) = item.call {
            match (item.place, kind) {
                (Some(Place::Zone), _) => day.zone[Service::of(kind) as usize] += n,
                (Some(Place::Home), Kind::Incoming) => {}
                _ => day.other[Service::of(kind) as usize] += n,
            }
        }
    }
    day
}

/// How many of n units after `before` earlier ones lie within the first
/// `first`.
fn free_part(first: u64, before: u64, n: u64) -> u64 {
    if before >= first {
        0
    } else {
        n.min(first - before)
    }
}

fn paid(items: &[Item]) -> u64 {
    let amount = |item: &Item| match item.call {
        Call::TopUp(amount) => amount,
        _ => 0,
    };
    items.iter().map(amount).sum()
}

fn units(item: &Item, kind: Kind) -> u64 {
    match item.call {
        Call::Use(used, n) if used == kind => n,
        _ => 0,
    }
}

fn kb<'a>(items: impl Iterator<Item = &'a Item>) -> u64 {
    items.map(|item| units(item, Kind::Data)).sum()
}

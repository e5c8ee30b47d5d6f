//! Random plans and lists of calls from a seed. The maker runs an account
//! beside the list, so that it can aim at the edges of credit, V and L.

use crate::caps::{caps_on, ROWS};
use crate::charges::{extra_points, home_points};
use crate::meter::{Account, Answer, LEAST_CHARGED, MAX_LIFETIME, MAX_UNITS};
use crate::plan::{Plan, BUNDLE, LAST_DAY, MAX_FEE, MAX_PRICE, MAX_VOLUME, PREPAID, UNLIMITED};
use crate::rng::Rng;
use crate::services::State;
use crate::terms::{Call, Kind, Place, Service, GB};
use crate::tripfile::{write, BEFORE_CALLS, MAX_CALLS};

/// half-1: outgoing records about the half minute.
pub const RECORDS: [u64; 4] = [1, LEAST_CHARGED - 1, LEAST_CHARGED, LEAST_CHARGED + 1];

/// A plan that Open accepts and a list of calls.
#[derive(Clone, PartialEq, Eq, Debug)]
pub struct Case {
    pub plan: Plan,
    pub calls: Vec<Call>,
}

impl Case {
    /// The trip file of the plan and the calls, those of Afford left out; none
    /// where no calls remain or too many.
    pub fn to_file(&self) -> Option<Vec<u8>> {
        let calls = self.calls.iter().filter_map(|call| call.to_words());
        let (codes, numbers): (Vec<u32>, Vec<u32>) = calls.unzip();
        let mut bytes = vec![0; BEFORE_CALLS + 8 * codes.len()];
        write(&self.plan, &codes, &numbers, &mut bytes).ok()?;
        Some(bytes)
    }
}

struct Maker {
    rng: Rng,
    account: Account,
    calls: Vec<Call>,
}

/// The random case of a seed.
pub fn case(seed: u64) -> Case {
    let mut rng = Rng::new(seed);
    let scenario = rng.below(100);
    whole(rng, scenario)
}

/// The random trip of a seed, for large numbers of trips: nine of ten are
/// short, half of the others are runs of over 300 days, eight of a thousand
/// come to the limit of charged seconds, and one fills the largest file.
pub fn trip(seed: u64) -> Case {
    let mut rng = Rng::new(seed);
    match rng.below(1000) {
        0 => largest(rng),
        1..=49 => {
            let scenario = rng.between(45, 64);
            whole(rng, scenario)
        }
        50..=91 => {
            let scenario = rng.below(100);
            whole(rng, scenario)
        }
        92..=99 => whole(rng, MANY_SECONDS),
        _ => short(rng),
    }
}

/// refusal-14: as many calls as a file can hold.
fn largest(mut rng: Rng) -> Case {
    let plan = usual_plan(&mut rng);
    let plan = starting(plan, rng.between(181, 2000));
    let mut maker = Maker::new(rng, plan);
    while maker.calls.len() < MAX_CALLS {
        maker.long();
        maker.calls.retain(|call| call.to_words().is_some());
    }
    maker.calls.truncate(MAX_CALLS);
    maker.finish()
}

/// The scenario of `many_seconds`.
const MANY_SECONDS: u64 = 95;

/// A case of one of a hundred scenarios.
fn whole(mut rng: Rng, scenario: u64) -> Case {
    let plan = match scenario {
        0..=29 => any_plan(&mut rng),
        30..=44 => plan_before_cap_change(&mut rng, 40),
        45..=64 => usual_plan(&mut rng),
        65..=69 => starting(any_plan(&mut rng), rng.between(3823, LAST_DAY.into())),
        _ => any_plan(&mut rng),
    };
    let mut maker = Maker::new(rng, plan);
    match scenario {
        0..=29 => maker.mixed(80),
        30..=44 => maker.days(60),
        45..=64 => maker.long(),
        65..=69 => maker.days(20),
        70..=84 => maker.edges(25),
        85..=91 => maker.days(90),
        92..=94 => maker.half_minutes(25),
        MANY_SECONDS => maker.many_seconds(),
        96..=97 => maker.many_units(),
        _ => maker.many_top_ups(),
    }
    maker.finish()
}

/// A case of some tens of calls.
fn short(mut rng: Rng) -> Case {
    let scenario = rng.below(100);
    let plan = match scenario {
        30..=54 => plan_before_cap_change(&mut rng, 12),
        55..=59 => starting(any_plan(&mut rng), rng.between(3823, LAST_DAY.into())),
        _ => any_plan(&mut rng),
    };
    let mut maker = Maker::new(rng, plan);
    match scenario {
        0..=29 => maker.mixed(80),
        30..=54 => maker.days(24),
        55..=59 => maker.days(20),
        60..=79 => maker.edges(8),
        80..=87 => maker.half_minutes(8),
        _ => maker.days(40),
    }
    maker.finish()
}

/// A plan of any form; see `plan_of`.
pub fn any_plan(rng: &mut Rng) -> Plan {
    let form = rng.pick(&[PREPAID, BUNDLE, UNLIMITED]);
    plan_of(rng, form)
}

/// plan-2 to plan-4: a plan of a form with prices, fee and V from their least
/// to their limits.
pub fn plan_of(rng: &mut Rng, form: u32) -> Plan {
    let price = |rng: &mut Rng| match rng.below(6) {
        0 => 0,
        1 => MAX_PRICE,
        2 => rng.pick(&[1, 59, 60, 61]),
        _ => rng.scaled(u64::from(MAX_PRICE)) as u32,
    };
    let fee = match rng.below(5) {
        0 => 0,
        1 => MAX_FEE,
        _ => rng.scaled(u64::from(MAX_FEE)) as u32,
    };
    let volume = match rng.below(5) {
        0 => 1,
        1 => MAX_VOLUME,
        _ => 1 + rng.scaled(u64::from(MAX_VOLUME - 1)) as u32,
    };
    Plan {
        form,
        start: start_day(rng),
        data_price: if form == UNLIMITED { 0 } else { price(rng) },
        minute_price: price(rng),
        sms_price: price(rng),
        fee: if form == PREPAID { 0 } else { fee },
        volume: if form == BUNDLE { volume } else { 0 },
    }
}

/// refusal-2: a start day, often near a change of caps, a month's turn or the
/// last day.
fn start_day(rng: &mut Rng) -> u32 {
    match rng.below(4) {
        0 => 181 + rng.below(3) as u32,
        1 => rng.pick(&ROWS).0.max(182) - rng.below(2) as u32,
        2 => rng.between(3780, 3840).min(3833) as u32,
        _ => rng.between(181, 3833) as u32,
    }
}

pub fn starting(plan: Plan, start: u64) -> Plan {
    Plan {
        start: start as u32,
        ..plan
    }
}

/// A plan whose caps change after at most so many days; a bundle often closes
/// as they fall (plan-7).
fn plan_before_cap_change(rng: &mut Rng, most_days: u64) -> Plan {
    let row = rng.between(1, 5) as usize;
    let start = u64::from(ROWS[row].0) - rng.between(1, most_days);
    let plan = starting(any_plan(rng), start);
    if plan.form != BUNDLE || rng.chance(30) {
        return plan;
    }
    let gigabytes = rng.between(1, 5);
    let per_gb = rng.between(ROWS[row].1[0], ROWS[row - 1].1[0] - 1);
    Plan {
        fee: (per_gb * gigabytes) as u32,
        volume: (gigabytes * GB) as u32,
        ..plan
    }
}

/// A plan at everyday prices, starting early enough for a long run.
fn usual_plan(rng: &mut Rng) -> Plan {
    let plan = any_plan(rng);
    let data_price = rng.between(0, 20_000) as u32;
    Plan {
        start: rng.between(181, 3300) as u32,
        data_price: if plan.form == UNLIMITED {
            0
        } else {
            data_price
        },
        minute_price: rng.between(0, 600) as u32,
        sms_price: rng.between(0, 500) as u32,
        ..plan
    }
}

/// Most units of a use in the zone and out of it, for the phases of a long run.
/// Under the last pair short zone calls are much less than those at home as
/// spoken, and more as charged.
const SCALES: [(u64, u64); 5] = [(20, 200), (200, 200), (2000, 200), (1, 1), (5, 40)];

impl Maker {
    /// The plan is one that Open accepts.
    fn new(rng: Rng, plan: Plan) -> Maker {
        Maker {
            rng,
            account: Account::open(plan).expect("generated plans keep their ranges"),
            calls: Vec::new(),
        }
    }

    fn finish(self) -> Case {
        Case {
            plan: self.account.plan,
            calls: self.calls,
        }
    }

    fn call(&mut self, call: Call) {
        let _ = self.account.apply(call);
        self.calls.push(call);
    }

    fn kind(&mut self) -> Kind {
        if self.rng.chance(50) {
            Kind::Data
        } else {
            self.rng.pick(&Kind::ALL)
        }
    }

    fn place(&mut self) -> Place {
        if self.rng.chance(50) {
            Place::Zone
        } else {
            self.rng.pick(&Place::ALL)
        }
    }

    /// The affordable n, or 0.
    fn most(&self, kind: Kind) -> u64 {
        match self.account.afford(kind) {
            Ok(Answer::Most(n)) => n,
            _ => 0,
        }
    }

    /// Units of a use: usual ones, both sides of V, L, credit and half a minute,
    /// and numbers outside the range.
    fn units(&mut self, kind: Kind) -> u64 {
        if kind == Kind::Outgoing && self.rng.chance(30) {
            return self.rng.pick(&RECORDS);
        }
        let account = &self.account;
        let near = self.rng.below(3);
        match self.rng.below(20) {
            0 => 0,
            1 => self
                .rng
                .pick(&[1_000_000_000, 1_000_000_001, 4_294_967_295]),
            2 | 3 => (account.l.unwrap_or(GB).saturating_sub(account.r) + near).saturating_sub(1),
            4 | 5 => {
                let left = u64::from(account.plan.volume).saturating_sub(account.h);
                (left + near).saturating_sub(1)
            }
            6 | 7 => self.most(kind) + near.min(1),
            8 => self.rng.scaled(1_000_000_000),
            9 | 10 => self.rng.between(1, 3),
            _ => self.rng.scaled(1 << 22),
        }
    }

    fn amount(&mut self) -> u64 {
        match self.rng.below(12) {
            0 => 0,
            1 => self.rng.pick(&[10_000_000, 10_000_001, 4_294_967_295]),
            2 => 1,
            _ => 1 + self.rng.scaled(9_999_999),
        }
    }

    /// One random call, day changes aside.
    fn any_call(&mut self) {
        match self.rng.below(20) {
            0..=3 => {
                let place = self.place();
                self.call(Call::Register(place));
            }
            4..=6 => {
                let amount = self.amount();
                self.call(Call::TopUp(amount));
            }
            7 => {
                let kind = self.kind();
                self.call(Call::Afford(kind));
            }
            _ => {
                let kind = self.kind();
                let n = self.units(kind);
                self.call(Call::Use(kind, n));
            }
        }
    }

    /// Up to `most` random calls, none at times, with some day changes.
    fn mixed(&mut self, most: u64) {
        if self.rng.chance(60) {
            self.call(Call::TopUp(10_000_000));
        }
        for _ in 0..self.rng.scaled(most) {
            if self.rng.chance(12) {
                self.call(Call::NextDay);
            }
            self.any_call();
        }
    }

    /// Up to `most` days with a few calls on each.
    fn days(&mut self, most: u64) {
        for _ in 0..self.rng.between(1, 3) {
            self.call(Call::TopUp(10_000_000));
        }
        for _ in 0..self.rng.between(most / 2, most) {
            for _ in 0..self.rng.below(4) {
                self.any_call();
            }
            self.call(Call::NextDay);
        }
        self.any_call();
    }

    /// Up to `most` times a top-up, a registration and uses of exactly the
    /// affordable n and of one more.
    fn edges(&mut self, most: u64) {
        for _ in 0..self.rng.between(3, most) {
            let amount = self.amount();
            self.call(Call::TopUp(amount));
            let place = self.place();
            self.call(Call::Register(place));
            if self.rng.chance(50) {
                self.any_call();
            }
            let kind = self.kind();
            let n = self.most(kind);
            if self.rng.chance(60) {
                self.call(Call::Use(kind, n + 1));
            }
            self.call(Call::Use(kind, n));
            self.call(Call::Use(kind, 1));
            if self.rng.chance(20) {
                self.call(Call::NextDay);
            }
        }
    }

    /// Over 300 days in phases spent mostly in the zone, half or mostly out
    /// of it, so that services get warned, surcharged and cleared. Where the
    /// box rests, some, most or all days of a phase are off.
    fn long(&mut self) {
        let wavers = self.rng.chance(50);
        let rests = self.rng.chance(50);
        let days = self.rng.between(300, 520);
        let (mut percent, mut left) = (95, self.rng.between(110, 180));
        let mut off = if rests {
            self.rng.pick(&[0, 30, 60, 97])
        } else {
            0
        };
        let mut scales = (200, 200);
        for day in 0..days {
            if left == 0 {
                percent = self.rng.pick(&[95, 60, 50, 45, 10, 2]);
                left = self.rng.between(10, 140);
                scales = self.rng.pick(&SCALES);
                off = if rests {
                    self.rng.pick(&[0, 30, 60, 97, 100])
                } else {
                    0
                };
            }
            left -= 1;
            if day % 20 == 0 {
                self.call(Call::TopUp(10_000_000));
            }
            let warned = |state: &State| matches!(state, State::Warned(_));
            let unsure = wavers && self.account.states.iter().any(warned);
            let zone = self.rng.chance(if unsure { 52 } else { percent });
            if !self.rng.chance(off) {
                self.long_day(zone, if zone { scales.0 } else { scales.1 });
            }
            self.call(Call::NextDay);
        }
    }

    /// One day of a long run that is not off, with uses of up to `scale`
    /// units.
    fn long_day(&mut self, zone: bool, scale: u64) {
        let place = match (zone, self.rng.below(10)) {
            (true, _) => Place::Zone,
            (false, 0..=2) => Place::Elsewhere,
            (false, _) => Place::Home,
        };
        self.call(Call::Register(place));
        for kind in Kind::ALL {
            if self.rng.chance(60) {
                let n = self.rng.between(1, scale);
                self.call(Call::Use(kind, n));
            }
        }
        if self.rng.chance(10) {
            self.any_call();
        }
    }

    /// refusal-5: lifetime units up to their limit, where use is free (use-10).
    fn many_units(&mut self) {
        let kind = self.kind();
        self.call(Call::Register(Place::Elsewhere));
        for _ in 0..999 {
            self.call(Call::Use(kind, 1_000_000_000));
        }
        let left = self.rng.between(1, 1_000_000_000);
        self.call(Call::Use(kind, 1_000_000_000 - left));
        self.call(Call::Afford(kind));
        self.call(Call::Use(kind, left + 1));
        self.call(Call::Use(kind, left));
        self.call(Call::Afford(kind));
        self.call(Call::Use(kind, 1));
        self.mixed(20);
    }

    /// half-1: up to `most` times a credit that just pays for half a minute in
    /// the zone, or is a point more or less, and short outgoing records.
    fn half_minutes(&mut self, most: u64) {
        for _ in 0..self.rng.between(1, most) {
            let place = self.place();
            self.call(Call::Register(place));
            let cost = points_of_seconds(&self.account, Place::Zone, LEAST_CHARGED);
            let wanted = self.rng.between(cost.saturating_sub(1), cost + 1);
            self.call(Call::TopUp(wanted.saturating_sub(self.account.credit)));
            self.call(Call::Afford(Kind::Outgoing));
            for _ in 0..self.rng.below(3) {
                let n = self.rng.pick(&RECORDS);
                self.call(Call::Use(Kind::Outgoing, n));
            }
            if self.rng.chance(20) {
                self.call(Call::NextDay);
            }
        }
    }

    /// half-5: outgoing seconds up to their limit, where they are free, with
    /// short records before the last ones: charged seconds come to the limit
    /// first.
    fn many_seconds(&mut self) {
        let free = match self.account.plan.minute_price {
            0 => self.rng.pick(&Place::ALL),
            _ => Place::Elsewhere,
        };
        self.call(Call::TopUp(10_000_000));
        self.call(Call::Register(free));
        for _ in 0..999 {
            self.call(Call::Use(Kind::Outgoing, MAX_UNITS));
        }
        let left = self.rng.between(1, 99);
        self.call(Call::Use(Kind::Outgoing, MAX_UNITS - left));
        for _ in 0..self.rng.between(2, 8) {
            let place = self.place();
            let n = self.rng.pick(&RECORDS);
            self.near_the_limit(place, n);
        }
        if self.rng.chance(70) {
            let room = MAX_LIFETIME.saturating_sub(self.account.charged);
            self.near_the_limit(free, room + 1);
            self.near_the_limit(free, room);
        }
        let place = self.place();
        self.near_the_limit(place, 1);
    }

    /// Afford of outgoing seconds at a place, and a record there.
    fn near_the_limit(&mut self, place: Place, n: u64) {
        self.call(Call::Register(place));
        self.call(Call::Afford(Kind::Outgoing));
        self.call(Call::Use(Kind::Outgoing, n));
    }

    /// refusal-8: paid in up to its limit.
    fn many_top_ups(&mut self) {
        for _ in 0..99 {
            self.call(Call::TopUp(10_000_000));
        }
        let left = self.rng.between(1, 10_000_000);
        if left < 10_000_000 {
            self.call(Call::TopUp(10_000_000 - left));
        }
        if left < 10_000_000 {
            self.call(Call::TopUp(left + 1));
        }
        self.call(Call::TopUp(left));
        self.call(Call::TopUp(1));
        self.mixed(60);
    }
}

/// use-13: what so many more outgoing seconds at a place would take from the
/// credit.
fn points_of_seconds(account: &Account, place: Place, seconds: u64) -> u64 {
    let k = Kind::Outgoing as usize;
    let (mut priced, mut cap_sums) = (account.priced, account.cap_sums);
    if place != Place::Elsewhere {
        priced[k] += seconds;
    }
    if place == Place::Zone && account.states[Service::Calls as usize] == State::Surcharged {
        cap_sums[k] += caps_on(account.day)[k] * seconds;
    }
    let sums = home_points(&account.plan, &priced) + extra_points(&cap_sums);
    sums - account.home - account.extra
}

//! The account and its calls. Each call looks at soundness first (refusal-0); a
//! refusal is its number and leaves the account unchanged (order-2). Rules
//! account-2 to account-4, sound-, limit-, register-, topup-, use-, half-,
//! day-, afford-1, refusal-0 to refusal-9.

use crate::calendar;
use crate::caps::{caps_on, Caps};
use crate::charges::{extra_points, home_points, past};
use crate::plan::{day_in_range, prepaid_limit, Plan, BUNDLE, LAST_DAY, PREPAID, UNLIMITED};
use crate::planted::{planted, Wrong};
use crate::services::{step, Day, Log, State, LOG_DAYS};
use crate::terms::{Call, Kind, Place, Service};

/// refusal-4: the most units of a use.
pub const MAX_UNITS: u64 = 1_000_000_000;
/// refusal-5: the most lifetime units of a kind; half-5: of charged seconds.
pub const MAX_LIFETIME: u64 = 1_000_000_000_000;
/// refusal-7: the most points of a top-up.
pub const MAX_TOP_UP: u64 = 10_000_000;
/// refusal-8: the most that is paid in.
pub const MAX_PAID_IN: u64 = 1_000_000_000;
/// sound-9: the largest L.
pub const MAX_LIMIT: u64 = 2_000_000_000_000_000;
/// sound-8: the most of a cap sum for each surcharged unit.
pub const MAX_CAP: u64 = 20_000;
/// half-1: the least that an outgoing zone record is charged as, in seconds.
pub const LEAST_CHARGED: u64 = 30;

/// account-2: the fields. Arrays of units go by `Kind`, states by `Service`;
/// the log is newest first. account-4: accounts are compared by all of them.
#[derive(Clone, PartialEq, Eq, Debug)]
pub struct Account {
    pub plan: Plan,
    pub day: u32,
    pub place: Option<Place>,
    pub credit: u64,
    pub paid_in: u64,
    pub home: u64,
    pub extra: u64,
    pub lifetime: [u64; 4],
    /// half-3: outgoing seconds as charged, over the account's life and at
    /// every place; `lifetime` has them as spoken.
    pub charged: u64,
    pub priced: [u64; 4],
    pub surcharged: [u64; 4],
    pub cap_sums: [u64; 4],
    pub h: u64,
    pub r: u64,
    pub l: Option<u64>,
    pub today: Day,
    pub log: Log,
    pub states: [State; 3],
}

/// What an accepted call answers.
#[derive(Clone, Copy, PartialEq, Eq, Debug)]
pub enum Answer {
    /// Register, Top-up and Next day.
    Done,
    /// Use: points of both charges and surcharged units (use-14), what the
    /// record was charged as (half-7), notice (use-15).
    Used {
        home: u64,
        extra: u64,
        surcharged: u64,
        charged: u64,
        notice: bool,
    },
    /// afford-1: the greatest n that Use would accept, or 0.
    Most(u64),
}

/// What a use is charged as and bears, and the life sums with it.
struct Charge {
    units: u64,
    priced: u64,
    surcharged: u64,
    home: u64,
    extra: u64,
}

/// A use that 3, 4 and 5 let pass, and what it would be charged.
pub(crate) struct Weighed {
    place: Place,
    kind: Kind,
    n: u64,
    cap: u64,
    charge: Charge,
}

impl Account {
    /// Open: 1, 17, 18, 2 (order-4), all of them about the plan.
    pub fn open(plan: Plan) -> Result<Account, u32> {
        Account::open_at(plan, &caps_on(plan.start))
    }

    /// Open with the caps as an argument. account-3: 0 in all numbers but L.
    pub fn open_at(plan: Plan, caps: &Caps) -> Result<Account, u32> {
        plan.check()?;
        Ok(Account {
            plan,
            day: plan.start,
            place: None,
            credit: 0,
            paid_in: 0,
            home: 0,
            extra: 0,
            lifetime: [0; 4],
            charged: 0,
            priced: [0; 4],
            surcharged: [0; 4],
            cap_sums: [0; 4],
            h: 0,
            r: 0,
            l: plan.limit(caps[0]),
            today: Day::default(),
            log: Log::with_capacity(LOG_DAYS + 1),
            states: [State::Clear; 3],
        })
    }

    /// sound-1 to sound-11. Ranges come first, so that the sums after them
    /// cannot overflow whatever the fields hold.
    pub fn sound(&self) -> bool {
        planted(Wrong::AlwaysSound)
            || (self.days_sound() && self.units_sound() && self.money_sound())
    }

    /// sound-1, sound-9 to sound-11: plan, day, L, log length and warnings.
    fn days_sound(&self) -> bool {
        self.plan.check().is_ok()
            && day_in_range(self.day)
            && self.day >= self.plan.start
            && self.log.len() == LOG_DAYS.min((self.day - self.plan.start) as usize)
            && self.l.is_none_or(|limit| limit <= MAX_LIMIT)
            && self
                .states
                .iter()
                .all(|state| !matches!(state, State::Warned(changes) if *changes > 14))
    }

    /// sound-2, sound-5 to sound-8: units against lifetime units, and cap sums.
    /// half-6: of outgoing seconds, the charged ones have that limit and are
    /// what priced and surcharged ones are held against; how they compare with
    /// the spoken ones is no matter of soundness.
    fn units_sound(&self) -> bool {
        let logged = self.logged_units();
        let data = self.lifetime[Kind::Data as usize];
        let sums_pass =
            planted(Wrong::CapSumsNotBounded) || planted(Wrong::SurchargedCallsNotCounted);
        let mut charged = self.lifetime;
        charged[Kind::Outgoing as usize] = self.charged;
        let kind_sound = |k: usize| {
            self.lifetime[k] <= MAX_LIFETIME
                && (charged[k] <= MAX_LIFETIME || planted(Wrong::ChargedSecondsNotLimited))
                && self.priced[k] <= charged[k]
                && self.surcharged[k] <= charged[k]
                && (logged[k] <= self.lifetime[k] || planted(Wrong::PrevalenceByChargedSeconds))
                && (self.cap_sums[k] <= MAX_CAP * self.surcharged[k] || sums_pass)
        };
        (0..4).all(kind_sound) && self.r <= data && self.h <= data
    }

    /// sound-7: the units of all days, by kind over all places. The log has at
    /// most 123 days here. A number of 2^50 or more is over every lifetime
    /// limit by itself; below it no sum comes near 2^64.
    fn logged_units(&self) -> [u64; 4] {
        let (mut sums, mut bits) = ([[0u64; 3]; 4], [[0u64; 3]; 4]);
        let (newer, older) = self.log.as_slices();
        let today = std::slice::from_ref(&self.today);
        for days in [today, newer, older] {
            for day in days {
                for k in 0..4 {
                    for p in 0..3 {
                        sums[k][p] = sums[k][p].wrapping_add(day.units[k][p]);
                        bits[k][p] |= day.units[k][p];
                    }
                }
            }
        }
        if bits.as_flattened().iter().any(|units| *units >= 1 << 50) {
            return [u64::MAX; 4];
        }
        sums.map(|places| places.iter().sum())
    }

    /// sound-2 to sound-4: paid in, and charges by what is held.
    fn money_sound(&self) -> bool {
        let held = u128::from(self.credit) + u128::from(self.home) + u128::from(self.extra);
        let home = home_points(&self.plan, &self.priced);
        self.paid_in <= MAX_PAID_IN
            && (self.home == home || planted(Wrong::RoundsEachRecord))
            && self.extra == extra_points(&self.cap_sums)
            && u128::from(self.paid_in) == held
    }

    /// refusal-0: the first thing that every call looks at.
    fn look(&self) -> Result<(), u32> {
        if self.sound() {
            Ok(())
        } else {
            Err(0)
        }
    }

    /// register-1: place and mark. register-2: coming into the zone renews a
    /// prepaid L.
    pub fn register(&mut self, place: Place) -> Result<Answer, u32> {
        self.register_at(place, &caps_on(self.day))
    }

    /// Register with the caps as an argument.
    pub fn register_at(&mut self, place: Place, caps: &Caps) -> Result<Answer, u32> {
        self.look()?;
        Ok(self.enter(place, caps))
    }

    /// Register on an account that is known to be sound.
    pub(crate) fn enter(&mut self, place: Place, caps: &Caps) -> Answer {
        let outside = self.place != Some(Place::Zone) || planted(Wrong::NewLimitOnRegisteringAgain);
        let entering = place == Place::Zone && outside;
        self.place = Some(place);
        self.today.mark(place);
        if entering {
            self.renew_prepaid_limit(self.credit, caps);
        }
        Answer::Done
    }

    /// Top-up: 7, 8 (order-3). topup-1: credit and paid in grow. topup-2: a
    /// prepaid L is renewed in the zone.
    pub fn top_up(&mut self, amount: u64) -> Result<Answer, u32> {
        self.top_up_at(amount, &caps_on(self.day))
    }

    /// Top-up with the caps as an argument.
    pub fn top_up_at(&mut self, amount: u64, caps: &Caps) -> Result<Answer, u32> {
        self.look()?;
        self.pay_in(amount, caps)
    }

    /// Top-up on an account that is known to be sound.
    pub(crate) fn pay_in(&mut self, amount: u64, caps: &Caps) -> Result<Answer, u32> {
        if !(1..=MAX_TOP_UP).contains(&amount) {
            return Err(7);
        }
        if self.paid_in + amount > MAX_PAID_IN {
            return Err(if planted(Wrong::PaidInToldAsAmount) {
                7
            } else {
                8
            });
        }
        if let (true, Some(place)) = (planted(Wrong::TopUpMarks), self.place) {
            self.today.mark(place);
        }
        self.credit += amount;
        self.paid_in += amount;
        if self.place == Some(Place::Zone) {
            let from_top_up = planted(Wrong::LimitFromTopUp);
            self.renew_prepaid_limit(if from_top_up { amount } else { self.credit }, caps);
        }
        Ok(Answer::Done)
    }

    /// register-2, topup-2: a prepaid L from the credit, and R 0.
    fn renew_prepaid_limit(&mut self, credit: u64, caps: &Caps) {
        if self.plan.form == PREPAID {
            self.l = Some(prepaid_limit(credit, caps[0]));
            self.r = 0;
        }
    }

    /// Use: 3, 4, 5, 6 (order-3).
    pub fn use_units(&mut self, kind: Kind, n: u64) -> Result<Answer, u32> {
        self.use_units_at(kind, n, &caps_on(self.day))
    }

    /// Use with the caps as an argument.
    pub fn use_units_at(&mut self, kind: Kind, n: u64, caps: &Caps) -> Result<Answer, u32> {
        self.look()?;
        if let (true, Some(place)) = (planted(Wrong::RefusedUseMarks), self.place) {
            self.today.mark(place);
        }
        let weighed = self.weigh(kind, n, caps)?;
        self.pays(&weighed)?;
        Ok(self.take(weighed))
    }

    /// 3, 4 and 5 of a use on an account that is known to be sound.
    pub(crate) fn weigh(&self, kind: Kind, n: u64, caps: &Caps) -> Result<Weighed, u32> {
        let in_range = (1..=MAX_UNITS).contains(&n);
        if planted(Wrong::UnitsBeforePlace) && !in_range {
            return Err(4);
        }
        let place = self.place.ok_or(3u32)?;
        if !in_range {
            return Err(if planted(Wrong::UnitsToldAsCredit) {
                6
            } else {
                4
            });
        }
        if self.lifetime[kind as usize] + n > MAX_LIFETIME {
            return Err(5);
        }
        let cap = caps[kind as usize];
        let charge = self.charge(place, kind, n, cap);
        if !self.has_room_for(kind, &charge) {
            return Err(5);
        }
        Ok(Weighed {
            place,
            kind,
            n,
            cap,
            charge,
        })
    }

    /// 6: whether the credit pays for the use.
    pub(crate) fn pays(&self, weighed: &Weighed) -> Result<(), u32> {
        let charge = &weighed.charge;
        if charge.home + charge.extra > self.home + self.extra + self.credit {
            return Err(6);
        }
        Ok(())
    }

    /// What n units would bear, and use-11, use-12: the charges of a life with
    /// them. The account is sound and n at most a billion.
    fn charge(&self, place: Place, kind: Kind, n: u64, cap: u64) -> Charge {
        let k = kind as usize;
        let units = charged_units(place, kind, n);
        let priced = self.priced_units(place, kind, units);
        let on_spoken = planted(Wrong::SurchargeOnSpokenSeconds);
        let surcharged = self.surcharged_units(place, kind, if on_spoken { n } else { units });
        let mut all_priced = self.priced;
        all_priced[k] += priced;
        let mut all_sums = self.cap_sums;
        all_sums[k] += cap * surcharged;
        Charge {
            units,
            priced,
            surcharged,
            home: if planted(Wrong::RoundsEachRecord) {
                let of_record = std::array::from_fn(|i| if i == k { priced } else { 0 });
                self.home + home_points(&self.plan, &of_record)
            } else {
                home_points(&self.plan, &all_priced)
            },
            extra: extra_points(&all_sums),
        }
    }

    /// half-5: whether charged seconds stay within refusal-5's limit.
    fn has_room_for(&self, kind: Kind, charge: &Charge) -> bool {
        kind != Kind::Outgoing
            || self.charged + charge.units <= MAX_LIFETIME
            || planted(Wrong::ChargedSecondsNotLimited)
    }

    /// use-2 to use-5: what bears the home price, of a bundle's kB those past
    /// V; nothing received or elsewhere.
    fn priced_units(&self, place: Place, kind: Kind, n: u64) -> u64 {
        match (place, kind) {
            (_, Kind::Incoming) if planted(Wrong::IncomingPriced) => n,
            (Place::Elsewhere, _) | (_, Kind::Incoming) => 0,
            (_, Kind::Outgoing | Kind::Sms) => n,
            (_, Kind::Data) => match self.plan.form {
                PREPAID => n,
                BUNDLE => {
                    let one_more = u64::from(planted(Wrong::OneMoreThanVolume));
                    past(self.h, n, u64::from(self.plan.volume) + one_more)
                }
                _ => 0,
            },
        }
    }

    /// use-7: zone kB past L of R; use-8: all zone units of what is Surcharged;
    /// use-9: each once.
    fn surcharged_units(&self, place: Place, kind: Kind, n: u64) -> u64 {
        if place != Place::Zone {
            return 0;
        }
        let past_limit = match (kind, self.l) {
            (Kind::Data, Some(limit)) => past(self.r, n, limit),
            _ => 0,
        };
        if self.states[Service::of(kind) as usize] == State::Surcharged {
            let twice = planted(Wrong::SurchargesTwice);
            return if twice { n + past_limit } else { n };
        }
        past_limit
    }

    /// use-1, use-13: books an accepted use; use-14, half-7: answers it.
    pub(crate) fn take(&mut self, weighed: Weighed) -> Answer {
        let Weighed {
            place,
            kind,
            n,
            cap,
            charge,
        } = weighed;
        let home = charge.home - self.home;
        let extra = charge.extra - self.extra;
        let notice = self.gives_notice(place, kind, n);
        self.credit -= home + extra;
        self.home = charge.home;
        self.extra = charge.extra;
        self.count_units(kind, n, cap, &charge);
        self.today.mark(place);
        let by_charged = planted(Wrong::PrevalenceByChargedSeconds);
        let units = if by_charged { charge.units } else { n };
        self.today.units[kind as usize][place as usize] += units;
        if kind == Kind::Data {
            self.count_data(place, n);
        }
        let all_answered = planted(Wrong::AllUnitsAnsweredAsSurcharged);
        let other_way = planted(Wrong::PointsAnsweredTheOtherWay);
        Answer::Used {
            home: if other_way { extra } else { home },
            extra: if other_way { home } else { extra },
            surcharged: if all_answered { n } else { charge.surcharged },
            charged: charge.units,
            notice,
        }
    }

    /// Lifetime, charged (half-3), priced and surcharged units of a use.
    fn count_units(&mut self, kind: Kind, n: u64, cap: u64, charge: &Charge) {
        let k = kind as usize;
        if kind != Kind::Incoming || !planted(Wrong::IncomingNotInLifetime) {
            self.lifetime[k] += n;
        }
        if kind == Kind::Outgoing {
            self.charged += charge.units;
        }
        self.priced[k] += charge.priced;
        if kind == Kind::Data || !planted(Wrong::SurchargedCallsNotCounted) {
            self.surcharged[k] += charge.surcharged;
        }
        self.cap_sums[k] += cap * charge.surcharged;
    }

    /// use-15: R was below L, and with n more is not.
    fn gives_notice(&self, place: Place, kind: Kind, n: u64) -> bool {
        let one_more = u64::from(planted(Wrong::NoticePastLimitAlone));
        match (place, kind, self.l) {
            _ if planted(Wrong::NoticeNever) => false,
            (Place::Zone, Kind::Data, Some(limit)) => {
                self.r < limit && self.r + n >= limit + one_more
            }
            _ => false,
        }
    }

    /// limit-2: H counts a bundle's kB but elsewhere; limit-1: R all zone kB.
    fn count_data(&mut self, place: Place, n: u64) {
        let left_out = planted(Wrong::UnlimitedMonthNotCounted) && self.plan.form == UNLIMITED;
        if place != Place::Elsewhere && !self.plan.is_prepaid() && !left_out {
            self.h += n;
        }
        if place == Place::Zone {
            self.r += n;
        }
    }

    /// Next day: 9. day-1: today becomes the newest of the log; the services
    /// step; day-3: the next day; limit-7: a bundle's month turns.
    pub fn next_day(&mut self) -> Result<Answer, u32> {
        self.look()?;
        self.change_day()
    }

    /// Next day on an account that is known to be sound.
    pub(crate) fn change_day(&mut self) -> Result<Answer, u32> {
        if self.day == LAST_DAY {
            return Err(9);
        }
        self.log.truncate(LOG_DAYS - 1);
        self.log.push_front(self.today);
        for (service, state) in Service::ALL.into_iter().zip(&mut self.states) {
            *state = step(*state, &self.log, service);
        }
        self.day += 1;
        self.today = Day::default();
        if !calendar::is_first_day(self.day) {
            return Ok(Answer::Done);
        }
        if !self.plan.is_prepaid() {
            if !planted(Wrong::MonthlyUseKept) {
                self.h = 0;
            }
            self.r = 0;
            self.l = self.plan.limit(caps_on(self.day)[0]);
        } else if planted(Wrong::PrepaidMonthTurn) {
            self.renew_prepaid_limit(self.credit, &caps_on(self.day));
        }
        Ok(Answer::Done)
    }

    /// Afford: 3. afford-1: the greatest n that Use would accept, or 0.
    pub fn afford(&self, kind: Kind) -> Result<Answer, u32> {
        self.afford_at(kind, &caps_on(self.day))
    }

    /// Afford with the caps as an argument.
    pub fn afford_at(&self, kind: Kind, caps: &Caps) -> Result<Answer, u32> {
        self.look()?;
        Ok(Answer::Most(self.most(kind, caps)?))
    }

    /// Afford on an account that is known to be sound. Neither the cost nor
    /// what a record is charged as falls as n grows, so the accepted n are
    /// those up to a greatest one: it is found by halving.
    pub(crate) fn most(&self, kind: Kind, caps: &Caps) -> Result<u64, u32> {
        let place = self.place.ok_or(3u32)?;
        let funds = self.home + self.extra + self.credit;
        let room = MAX_LIFETIME - self.lifetime[kind as usize];
        let (mut least, mut most) = (0, MAX_UNITS.min(room));
        while least < most {
            let n = least + (most - least).div_ceil(2);
            let charge = self.charge(place, kind, n, caps[kind as usize]);
            if charge.home + charge.extra <= funds && self.has_room_for(kind, &charge) {
                least = n;
            } else {
                most = n - 1;
            }
        }
        Ok(least)
    }

    /// Any call of a list.
    pub fn apply(&mut self, call: Call) -> Result<Answer, u32> {
        match call {
            Call::Register(place) => self.register(place),
            Call::Use(kind, n) => self.use_units(kind, n),
            Call::TopUp(amount) => self.top_up(amount),
            Call::NextDay => self.next_day(),
            Call::Afford(kind) => self.afford(kind),
        }
    }
}

/// half-1: an outgoing zone record is charged 30 seconds at least; half-2: any
/// other what it has.
pub fn charged_units(place: Place, kind: Kind, n: u64) -> u64 {
    let whole_half_minute = match (place, kind) {
        (Place::Zone, Kind::Outgoing) => !planted(Wrong::SpokenSecondsCharged),
        (Place::Home, Kind::Outgoing) => planted(Wrong::HalfMinuteAtHome),
        _ => false,
    };
    if !whole_half_minute {
        n
    } else if planted(Wrong::HalfMinuteAdded) {
        n + LEAST_CHARGED
    } else {
        n.max(LEAST_CHARGED)
    }
}

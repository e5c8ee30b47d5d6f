//! Random boxes and lists of calls on them, from a seed. The maker runs a box
//! beside the list, so that it can aim at the edges of allowances and credit,
//! and many lists begin shortly before a month's first day (family-4).

use super::{Card, CardCall, Family, MAX_ALLOWANCE, MAX_CARDS};
use crate::calendar::FIRST_DAYS;
use crate::generate::{self, any_plan, starting, RECORDS};
use crate::meter::{Account, Answer, LEAST_CHARGED, MAX_UNITS};
use crate::plan::{Plan, FIRST_DAY, LAST_DAY};
use crate::rng::Rng;
use crate::terms::{Call, Kind, Place, GB};

/// A plan that Open accepts, cards as they are lent to the opening, and a list
/// of calls.
#[derive(Clone, PartialEq, Eq, Debug)]
pub struct BoxCase {
    pub plan: Plan,
    pub cards: Vec<Card>,
    pub calls: Vec<CardCall>,
}

impl BoxCase {
    /// Whether the opening takes the list of cards (family-14).
    pub fn opens(&self) -> bool {
        (1..=MAX_CARDS).contains(&self.cards.len())
    }

    /// What the calls are made on: the opened box, or where there are no cards
    /// or too many, an account and cards without units.
    pub fn begin(&self) -> Family {
        let blank = |card: &Card| Card::new(card.allowance);
        Family {
            account: Account::open(self.plan).expect("generated plans keep their ranges"),
            cards: self.cards.iter().map(blank).collect(),
        }
    }

    /// The same with a single card that has the largest allowance, which makes
    /// every call.
    pub fn with_one_card(&self) -> BoxCase {
        let only = |made: &CardCall| CardCall {
            card: 0,
            call: made.call,
        };
        BoxCase {
            plan: self.plan,
            cards: vec![Card::new(MAX_ALLOWANCE)],
            calls: self.calls.iter().map(only).collect(),
        }
    }
}

struct Maker {
    rng: Rng,
    case: BoxCase,
    family: Family,
}

/// The random case of a seed.
pub fn case(seed: u64) -> BoxCase {
    let mut rng = Rng::new(seed ^ 0xFA31_7B00);
    let scenario = rng.below(100);
    if scenario >= 90 {
        return dealt(rng);
    }
    let plan = some_plan(&mut rng, scenario);
    let count = match scenario {
        86..=88 => rng.pick(&[0, 0, 17, 17, 40]),
        _ => some_count(&mut rng),
    };
    let mut maker = Maker::new(rng, plan, count);
    match scenario {
        0..=24 => maker.mixed(70),
        25..=44 => maker.months(40),
        45..=49 => maker.months(120),
        50..=69 => maker.edges(10),
        70..=79 => maker.short_calls(6),
        80..=85 => maker.mixed(30),
        86..=88 => maker.months(12),
        _ => maker.many_units(),
    }
    maker.case
}

/// A trip of an account alone, its uses dealt out among cards.
fn dealt(mut rng: Rng) -> BoxCase {
    let trip = generate::trip(rng.word());
    let count = some_count(&mut rng);
    let deal = |call: Call| CardCall {
        card: rng.below(count as u64) as usize,
        call,
    };
    let calls = trip.calls.into_iter().map(deal).collect();
    BoxCase {
        plan: trip.plan,
        cards: some_cards(&mut rng, count),
        calls,
    }
}

/// A plan that mostly starts shortly before a month's first day, or before the
/// last day that there is.
fn some_plan(rng: &mut Rng, scenario: u64) -> Plan {
    let plan = any_plan(rng);
    let start = match scenario {
        80..=81 => rng.between(u64::from(LAST_DAY) - 3, LAST_DAY.into()),
        _ if rng.chance(70) => {
            let months = FIRST_DAYS.map(u64::from);
            let first = rng.pick(&months[7..126]);
            (first - rng.between(1, 4)).max(FIRST_DAY.into())
        }
        _ => return plan,
    };
    starting(plan, start)
}

/// family-1: how many cards; often one or 16.
fn some_count(rng: &mut Rng) -> usize {
    match rng.below(4) {
        0 => 1,
        1 => MAX_CARDS,
        2 => rng.between(2, 4) as usize,
        _ => rng.between(2, 15) as usize,
    }
}

/// Cards as they are lent to the opening, which has to clear them.
fn some_cards(rng: &mut Rng, count: usize) -> Vec<Card> {
    let used = rng.chance(50);
    let card = |_| match used {
        true => Card {
            lifetime: [0; 4].map(|_| rng.scaled(u64::MAX)),
            monthly: rng.scaled(u64::MAX),
            allowance: some_allowance(rng),
        },
        false => Card::new(some_allowance(rng)),
    };
    (0..count).map(card).collect()
}

/// family-3: an allowance, most often one that can be used up.
pub fn some_allowance(rng: &mut Rng) -> u64 {
    match rng.below(10) {
        0 => 0,
        1 => rng.between(1, 3),
        2..=4 => rng.scaled(1 << 22),
        5 => MAX_ALLOWANCE,
        6 => MAX_ALLOWANCE - rng.below(3),
        7 => rng.between(MAX_UNITS - 1, 2 * MAX_UNITS + 1),
        8 => rng.scaled(MAX_UNITS),
        _ => rng.scaled(MAX_ALLOWANCE),
    }
}

impl Maker {
    fn new(mut rng: Rng, plan: Plan, count: usize) -> Maker {
        let case = BoxCase {
            plan,
            cards: some_cards(&mut rng, count),
            calls: Vec::new(),
        };
        let family = case.begin();
        Maker { rng, case, family }
    }

    fn call(&mut self, card: usize, call: Call) {
        let made = CardCall { card, call };
        let _ = self.family.apply(made);
        self.case.calls.push(made);
    }

    /// A card, often one of the first two, so that some get used up; at times
    /// the place of none.
    fn card(&mut self) -> usize {
        let count = self.case.cards.len();
        if count == 0 || self.rng.chance(3) {
            let none = [count, count + 1, 16, 1 << 32, usize::MAX];
            return self.rng.pick(&none);
        }
        match self.rng.below(3) {
            0 => self.rng.below(2).min(count as u64 - 1) as usize,
            1 => count - 1,
            _ => self.rng.below(count as u64) as usize,
        }
    }

    fn kind(&mut self) -> Kind {
        if self.rng.chance(65) {
            Kind::Data
        } else {
            self.rng.pick(&Kind::ALL)
        }
    }

    /// family-13: the kB that a card's allowance leaves; 0 if there is no such
    /// card.
    fn room(&self, card: usize) -> u64 {
        let card = self.family.cards.get(card);
        card.map_or(0, |card| card.allowance - card.monthly)
    }

    /// What the account alone would accept, or 0.
    fn most(&self, kind: Kind) -> u64 {
        match self.family.account.afford(kind) {
            Ok(Answer::Most(n)) => n,
            _ => 0,
        }
    }

    /// Units of a use: usual ones, both sides of allowance, credit, V, L and
    /// half a minute, past allowance and credit both, and numbers outside the
    /// range.
    fn units(&mut self, card: usize, kind: Kind) -> u64 {
        if kind == Kind::Outgoing && self.rng.chance(30) {
            return self.rng.pick(&RECORDS);
        }
        let (most, room) = (self.most(kind), self.room(card));
        let account = &self.family.account;
        let near = self.rng.below(3);
        match self.rng.below(24) {
            0 => 0,
            1 => {
                let odd = [MAX_UNITS, MAX_UNITS + 1, 1 << 32, u64::MAX];
                self.rng.pick(&odd)
            }
            2 | 3 => (account.l.unwrap_or(GB).saturating_sub(account.r) + near).saturating_sub(1),
            4 => {
                let left = u64::from(account.plan.volume).saturating_sub(account.h);
                (left + near).saturating_sub(1)
            }
            5 | 6 => most + near.min(1),
            7..=11 => (room + near).saturating_sub(1),
            12 => room.max(most) + near,
            13 => room.min(most) + near.min(1),
            14 => self.rng.scaled(MAX_UNITS),
            15 | 16 => self.rng.between(1, 3),
            _ => self.rng.scaled(1 << 22),
        }
    }

    fn amount(&mut self) -> u64 {
        match self.rng.below(12) {
            0 => 0,
            1 => self.rng.pick(&[10_000_000, 10_000_001, u64::MAX]),
            2 => 1,
            _ => 1 + self.rng.scaled(9_999_999),
        }
    }

    /// One random call, day changes aside.
    fn any_call(&mut self) {
        let (card, kind) = (self.card(), self.kind());
        let call = match self.rng.below(20) {
            0..=2 => Call::Register(self.rng.pick(&Place::ALL)),
            3..=4 => Call::TopUp(self.amount()),
            5..=7 => Call::Afford(kind),
            _ => Call::Use(kind, self.units(card, kind)),
        };
        self.call(card, call);
    }

    /// Up to `most` random calls, none at times, with some day changes.
    fn mixed(&mut self, most: u64) {
        if self.rng.chance(60) {
            self.call(0, Call::TopUp(10_000_000));
        }
        if self.rng.chance(60) {
            let place = self.rng.pick(&Place::ALL);
            self.call(0, Call::Register(place));
        }
        for _ in 0..self.rng.scaled(most) {
            if self.rng.chance(12) {
                self.call(0, Call::NextDay);
            }
            self.any_call();
        }
    }

    /// Up to `most` days with a few calls on some of them; cards use up their
    /// allowances.
    fn months(&mut self, most: u64) {
        self.call(0, Call::TopUp(10_000_000));
        let place = self.rng.pick(&Place::ALL);
        self.call(0, Call::Register(place));
        for _ in 0..self.rng.between(most / 4, most) {
            for _ in 0..self.rng.below(4) {
                self.any_call();
            }
            if self.rng.chance(15) {
                self.use_up();
            }
            let card = self.card();
            self.call(card, Call::NextDay);
        }
        self.use_up();
        self.any_call();
    }

    /// All that a card's allowance leaves, where one use can take it, and a kB
    /// more.
    fn use_up(&mut self) {
        let card = self.card();
        let room = self.room(card);
        self.call(card, Call::Use(Kind::Data, room));
        self.call(card, Call::Use(Kind::Data, 1));
    }

    /// Up to `most` times a top-up, a registration, and uses about what credit
    /// and allowance let through, at times made alike.
    fn edges(&mut self, most: u64) {
        for _ in 0..self.rng.between(1, most) {
            let (card, amount) = (self.card(), self.amount());
            self.call(card, Call::TopUp(amount));
            let place = self.rng.pick(&Place::ALL);
            self.call(card, Call::Register(place));
            if self.rng.chance(40) {
                self.level(card);
            }
            self.call(card, Call::Afford(Kind::Data));
            let (most, room) = (self.most(Kind::Data), self.room(card));
            let past_both = most.max(room) + 1;
            let past_one = most.min(room) + 1;
            for n in [past_both, past_one, past_one - 1, 1] {
                if self.rng.chance(70) {
                    self.call(card, Call::Use(Kind::Data, n));
                }
            }
            self.any_call();
            if self.rng.chance(30) {
                self.call(card, Call::NextDay);
            }
        }
    }

    /// At home, spends a card's allowance elsewhere, where it is free, until it
    /// leaves as much as the credit does.
    fn level(&mut self, card: usize) {
        self.call(card, Call::Register(Place::Home));
        let over = self.room(card).saturating_sub(self.most(Kind::Data));
        if (1..=MAX_UNITS).contains(&over) {
            self.call(card, Call::Register(Place::Elsewhere));
            self.call(card, Call::Use(Kind::Data, over));
            self.call(card, Call::Register(Place::Home));
        }
    }

    /// half-1: up to `most` stays in the zone with short outgoing records of
    /// several cards.
    fn short_calls(&mut self, most: u64) {
        self.call(0, Call::TopUp(10_000_000));
        for _ in 0..self.rng.between(1, most) {
            self.call(0, Call::Register(Place::Zone));
            for _ in 0..self.rng.between(2, 8) {
                let card = self.card();
                let n = self.rng.between(1, LEAST_CHARGED + 1);
                self.call(card, Call::Use(Kind::Outgoing, n));
            }
            self.any_call();
        }
    }

    /// refusal-5: lifetime units up to their limit, where use is free, by two
    /// cards; then those of a card with less allowance.
    fn many_units(&mut self) {
        let (kind, last) = (self.kind(), self.case.cards.len() - 1);
        self.call(0, Call::Register(Place::Elsewhere));
        for index in 0..999 {
            let card = if index % 2 == 0 { 0 } else { last };
            self.call(card, Call::Use(kind, MAX_UNITS));
        }
        for _ in 0..4 {
            let card = self.card();
            self.call(card, Call::Afford(kind));
            let n = self.units(card, kind).max(1);
            self.call(card, Call::Use(kind, n));
        }
        self.mixed(20);
    }
}

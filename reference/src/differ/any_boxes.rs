//! Boxes of any numbers: whether they are sound, one call of each kind on each
//! of them, and openings with any cards and plans. Rules family-8, family-11 to
//! family-14.

use super::accounts::{any_place, some_points, some_units};
use super::both::{Given, ROOM};
use super::boxes::{alone, odd_step, with_any_rest, BoxRun};
use super::calls::other_count;
use super::{Both, Differ, Mismatch};
use crate::accounts::edges::at_edge;
use crate::accounts::{made, other_number, random};
use crate::check::Failure;
use crate::coverage::boxes::BoxObserved;
use crate::coverage::seen::{rest, Seen};
use crate::coverage::soundness::Condition;
use crate::coverage::TripEvents;
use crate::family::any::{
    damage, dealt, faulty, near_allowance, random_cards, some_place, unused, ALONE,
};
use crate::family::generate::some_allowance;
use crate::family::interface::{code, BoxStep};
use crate::family::{Card, MAX_ALLOWANCE};
use crate::faults::bad_plan;
use crate::generate::any_plan;
use crate::numbers::{Numbers, ACCOUNT_NUMBERS};
use crate::rng::Rng;
use crate::sides::{ACCEPTED, REFERENCE};

/// So many boxes of any numbers come from one seed.
pub const BOXES_OF_A_SEED: u64 = 6;
/// So many calls follow each other from a sound box that was made.
const MORE_CALLS: u64 = 10;

/// A box as numbers and cards.
type AnyBox = (Box<Numbers>, Vec<Card>);

impl Differ {
    /// The boxes of a seed: one that its list led to, one whose account was
    /// made, one with a fault of its cards alone, one whose account is at an
    /// edge or that is damaged, one with too many cards, and one with no cards
    /// or random ones. Over the seeds every fault and every condition has its
    /// turn.
    pub(super) fn any_boxes(
        &mut self,
        seed: u64,
        run: &BoxRun,
        rng: &mut Rng,
    ) -> Result<(), Box<Mismatch>> {
        let reached = (run.ours.numbers.clone(), run.ours.family.cards.clone());
        for index in 0..BOXES_OF_A_SEED {
            let mut events = Both::default();
            let (all, cards) = self.any_box(seed, index, &reached, rng, &mut events);
            let tried = self.box_tried(&all, &cards, rng, &mut events);
            let tried = match index {
                1 => tried.and_then(|()| self.more_box_calls(&all, &cards, rng, &mut events)),
                _ => tried,
            };
            tried.map_err(|what| Mismatch::of_box(what, &*all, &cards))?;
            self.any_boxes += 1;
            self.add_of_accounts(&events);
        }
        let mut events = Both::default();
        let (plan, cards) = (opening_plan(rng), opening_cards(rng));
        let opened = self.any_opening(&plan, &cards, rng, &mut events);
        opened.map_err(|what| {
            let what = format!("{what} (plan {plan:?})");
            Mismatch::of_box(what, &[], &cards)
        })?;
        self.add_of_accounts(&events);
        Ok(())
    }

    /// One of the boxes of a seed.
    fn any_box(
        &mut self,
        seed: u64,
        index: u64,
        reached: &AnyBox,
        rng: &mut Rng,
        events: &mut Both,
    ) -> AnyBox {
        let count = some_count(rng);
        match index {
            0 => reached.clone(),
            1 => {
                let all = made(rng);
                let cards = dealt(rng, &all, count);
                (all, cards)
            }
            2 => faulty(rng, ALONE[(seed % ALONE.len() as u64) as usize]),
            3 if seed.is_multiple_of(2) => {
                let conditions = Condition::ALL.len() as u64;
                let condition = Condition::ALL[(seed / 4 % conditions) as usize];
                let all = at_edge(rng, condition, seed / 2 % 2 == 1);
                let cards = dealt(rng, &all, count);
                (all, cards)
            }
            3 => damaged(rng, reached, count),
            4 => {
                let all = made(rng);
                let many = rng.pick(&[17, 17, 18, 40, 300]);
                let mut cards = dealt(rng, &all, many);
                if rng.chance(30) {
                    rng.pick_mut(&mut cards).lifetime[0] ^= 1;
                }
                (all, cards)
            }
            _ if rng.chance(50) => (
                if rng.chance(70) {
                    unused(rng)
                } else {
                    made(rng)
                },
                vec![],
            ),
            _ => {
                let all = if rng.chance(50) {
                    made(rng)
                } else {
                    random(rng)
                };
                let cards = random_cards(rng, count);
                events.iter_mut().for_each(TripEvents::random_cards);
                (all, cards)
            }
        }
    }

    /// One call of each kind on a box; the first one tells whether it is sound.
    fn box_tried(
        &mut self,
        all: &Numbers,
        cards: &[Card],
        rng: &mut Rng,
        events: &mut Both,
    ) -> Result<(), Failure> {
        let looked = self.box_stepped(all, cards, LOOK, 0, events)?;
        for events in events.iter_mut() {
            events.box_sound(all, cards, looked.returned)?;
        }
        for call in [code::REGISTER, code::USE, code::TOP_UP, code::NEXT_DAY] {
            let step = some_step(rng, all, cards, call);
            let room = step.answers() + rng.below(3) as usize;
            self.box_stepped(all, cards, step, room, events)?;
        }
        self.box_afforded(all, cards, rng, events)?;
        if rng.chance(20) {
            self.box_odd(all, cards, looked.returned != 0, rng, events)?;
        }
        Ok(())
    }

    /// One call on copies of the box; answers what it gave.
    fn box_stepped(
        &mut self,
        all: &Numbers,
        cards: &[Card],
        step: BoxStep,
        room: usize,
        events: &mut Both,
    ) -> Result<Given, Failure> {
        let made = self.ask_box(
            all,
            cards,
            step.answers(),
            room,
            |side, account, cards, answer| (side.box_call)(account, cards, step, answer),
        );
        let (given, lent) = made.map_err(|what| format!("{step:?}: {what}"))?;
        let alone = [alone(&REFERENCE, all, step), alone(&self.other, all, step)];
        for (side, events) in events.iter_mut().enumerate() {
            events.box_call(&BoxObserved {
                step,
                returned: given[side].returned,
                answer: &given[side].answer,
                before: Seen(rest(all)),
                now: Seen(rest(lent[side].numbers())),
                cards,
                cards_now: lent[side].cards(),
                alone: alone[side],
            })?;
        }
        Ok(given[0])
    }

    /// afford-1: Afford of a card, then its use of as many units, or of one
    /// more.
    fn box_afforded(
        &mut self,
        all: &Numbers,
        cards: &[Card],
        rng: &mut Rng,
        events: &mut Both,
    ) -> Result<(), Failure> {
        let step = some_step(rng, all, cards, code::AFFORD);
        let given = self.box_stepped(all, cards, step, ROOM, events)?;
        if given.returned != ACCEPTED {
            return Ok(());
        }
        let most = given.answer[0];
        let used = BoxStep {
            call: code::USE,
            n: most + rng.below(2),
            ..step
        };
        let given = self.box_stepped(all, cards, used, ROOM, events)?;
        if step.which == 0 {
            for events in events {
                events.box_use_after_afford(most, used.n, given.returned);
            }
        }
        Ok(())
    }

    /// library-4, library-5: arguments of no call, a short answer, or another
    /// count of numbers.
    fn box_odd(
        &mut self,
        all: &Numbers,
        cards: &[Card],
        sound: bool,
        rng: &mut Rng,
        events: &mut Both,
    ) -> Result<(), Failure> {
        if rng.chance(20) {
            return self.box_counted(all, cards, rng, events);
        }
        let (step, room) = match rng.below(3) {
            0 => (some_step(rng, all, cards, code::AFFORD), 0),
            1 => (some_step(rng, all, cards, code::USE), rng.below(5)),
            _ => (odd_step(rng, cards.len()), ROOM as u64),
        };
        let given = self.box_stepped(all, cards, step, room as usize, events)?;
        for events in events {
            events.no_box_call_before(given.returned, sound, cards.len());
        }
        Ok(())
    }

    /// A short list of calls from a sound box.
    fn more_box_calls(
        &mut self,
        all: &Numbers,
        cards: &[Card],
        rng: &mut Rng,
        events: &mut Both,
    ) -> Result<(), Failure> {
        let mut run = BoxRun::at(all, cards);
        for _ in 0..rng.below(MORE_CALLS) {
            let call = rng.pick(&[0, 1, 1, 1, 2, 3, 3, 4]);
            let step = some_step(rng, &run.ours.numbers, &run.ours.family.cards, call);
            run.step(&self.other, step, ROOM, events)?;
            self.calls += 1;
        }
        Ok(())
    }

    /// family-14: an opening with any plan and cards, and at times with another
    /// count of the account's numbers.
    fn any_opening(
        &mut self,
        plan: &[u64],
        cards: &[Card],
        rng: &mut Rng,
        events: &mut Both,
    ) -> Result<(), Failure> {
        let before = [rng.word(); ACCOUNT_NUMBERS];
        let opened = self.ask_box(&before, cards, 0, 0, |side, account, cards, _| {
            (side.box_open)(account, cards, plan)
        });
        let (given, _) = opened.map_err(|what| format!("BoxOpen: {what}"))?;
        for (events, given) in events.iter_mut().zip(given) {
            events.box_open(ACCOUNT_NUMBERS, cards, plan, given.returned)?;
        }
        if rng.chance(20) {
            let count = other_count(rng);
            let given =
                self.ask_box_counted(&before, count, cards, |side, account, cards, _| {
                    (side.box_open)(account, cards, plan)
                })?;
            for (events, given) in events.iter_mut().zip(given) {
                events.box_open(count, cards, plan, given.returned)?;
            }
        }
        Ok(())
    }
}

/// A call that is refused where the box is not sound or too long, and else
/// changes little.
const LOOK: BoxStep = BoxStep {
    call: code::REGISTER,
    card: 0,
    which: 0,
    n: 0,
};

fn some_count(rng: &mut Rng) -> usize {
    match rng.below(4) {
        0 => rng.pick(&[1, 16]),
        _ => rng.between(1, 16) as usize,
    }
}

/// A box that a list led to, or with an account that was made, with numbers of
/// account and cards changed. At times the units are dealt out afterwards, so
/// that the account alone is at fault.
fn damaged(rng: &mut Rng, reached: &AnyBox, count: usize) -> AnyBox {
    let (mut all, mut cards) = match rng.below(2) {
        0 => reached.clone(),
        _ => {
            let all = made(rng);
            let cards = dealt(rng, &all, count);
            (all, cards)
        }
    };
    if rng.chance(30) {
        let place = any_place(rng);
        all[place] = other_number(rng, all[place]);
        cards = dealt(rng, &all, count);
    } else {
        damage(rng, &mut all, &mut cards);
    }
    (all, cards)
}

/// A plan for an opening, that may be bad or of another count of numbers.
fn opening_plan(rng: &mut Rng) -> Vec<u64> {
    let mut plan = match rng.below(4) {
        0 => bad_plan(rng, &[u64::MAX]).0,
        _ => any_plan(rng).to_words().map(u64::from),
    }
    .to_vec();
    if rng.chance(10) {
        plan.resize(rng.pick(&[0, 6, 8]), 0);
    }
    plan
}

/// Cards for an opening: any count of them, any numbers, most allowances in
/// their range.
fn opening_cards(rng: &mut Rng) -> Vec<Card> {
    let count = match rng.below(5) {
        0 => rng.pick(&[0, 17, 40]),
        1 => rng.pick(&[1, 16, 16]),
        _ => rng.between(1, 16) as usize,
    };
    let mut cards = random_cards(rng, count);
    for card in &mut cards {
        card.allowance = some_allowance(rng);
    }
    if rng.chance(40) && count > 0 {
        let beyond = [MAX_ALLOWANCE + 1, MAX_ALLOWANCE + 1, 1 << 63, u64::MAX];
        let any = rng.below(count as u64) as usize;
        let at = rng.pick(&[0, count - 1, any]);
        cards[at].allowance = rng.pick(&beyond);
    }
    cards
}

/// One of the five calls with known arguments, those that it does not use being
/// anything.
fn some_step(rng: &mut Rng, all: &Numbers, cards: &[Card], call: u64) -> BoxStep {
    let card = some_place(rng, cards.len());
    let (which, n) = match call {
        code::REGISTER => (rng.below(3), 0),
        code::TOP_UP => (0, some_points(rng, all)),
        code::USE => {
            let kind = rng.pick(&[0, 0, 0, 1, 2, 3]);
            let near = near_allowance(rng, cards, card, kind).filter(|_| rng.chance(50));
            (kind, near.unwrap_or_else(|| some_units(rng, all, kind)))
        }
        _ => (rng.pick(&[0, 0, 0, 1, 2, 3]), 0),
    };
    let step = BoxStep {
        call,
        card,
        which,
        n,
    };
    with_any_rest(rng, step)
}

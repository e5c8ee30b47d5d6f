//! Lists on family boxes, call by call: both sides keep an account and cards,
//! and after each call return, answer, every number of the account and every
//! card are compared. Rules family-1 to family-10, family-14.

use super::both::{agree, Given, LentBox, ROOM};
use super::calls::other_count;
use super::{Both, Differ, Mismatch};
use crate::check::Failure;
use crate::coverage::boxes::BoxObserved;
use crate::coverage::seen::{rest, Seen};
use crate::family::any::some_place;
use crate::family::check::check_box_pairs;
use crate::family::generate::{self, BoxCase};
use crate::family::interface::{code, BoxStep, KeptBox};
use crate::family::matching::BoxStretches;
use crate::family::{Card, CardCall, Family};
use crate::numbers::{account, numbers, Numbers, ACCOUNT_NUMBERS};
use crate::rng::Rng;
use crate::sides::{Side, ACCEPTED, AFFORD_NUMBERS, REFERENCE};
use crate::terms::{Call, Kind};
use std::time::Instant;

/// Every tenth list is paired with some that have the same cuts.
const PAIRS_EVERY: u64 = 10;

/// A list on both sides, as far as it has come.
#[derive(Clone, Debug)]
pub struct BoxRun {
    pub ours: KeptBox,
    pub theirs: LentBox,
    /// The stretches so far, by what each side returned and answered.
    pub stretches: [BoxStretches; 2],
}

impl BoxRun {
    /// Starts at a box.
    pub fn at(all: &Numbers, cards: &[Card]) -> BoxRun {
        let account = account(all).expect("the numbers of an account");
        let family = Family {
            account,
            cards: cards.to_vec(),
        };
        let stretches = BoxStretches::new(cards.len());
        BoxRun {
            ours: KeptBox::new(family),
            theirs: LentBox::new(all, cards),
            stretches: [stretches.clone(), stretches],
        }
    }

    /// One call on both sides, with so many numbers lent for the answer;
    /// answers what both gave.
    pub fn step(
        &mut self,
        other: &Side,
        step: BoxStep,
        room: usize,
        events: &mut Both,
    ) -> Result<Given, Failure> {
        let before = [*rest(&self.ours.numbers), *rest(self.theirs.numbers())];
        let cards = self.ours.family.cards.clone();
        let alone = [
            alone(&REFERENCE, &self.ours.numbers, step),
            alone(other, self.theirs.numbers(), step),
        ];
        let ours = Given::of(room, |answer| self.ours.make(step, answer));
        let theirs = Given::of(room, |answer| {
            let (account, cards) = self.theirs.both_mut();
            (other.box_call)(account, cards, step, answer)
        });
        let compared = agree(step.answers(), &ours, &theirs).and_then(|()| {
            let wanted = &self.ours.family.cards;
            self.theirs.holds(&self.ours.numbers, wanted)
        });
        compared.map_err(|what| format!("{step:?}: {what}"))?;
        let now = [&*self.ours.numbers, self.theirs.numbers()];
        let cards_now = [&self.ours.family.cards[..], self.theirs.cards()];
        for (side, given) in [ours, theirs].iter().enumerate() {
            events[side].box_call(&BoxObserved {
                step,
                returned: given.returned,
                answer: &given.answer,
                before: Seen(&before[side]),
                now: Seen(rest(now[side])),
                cards: &cards,
                cards_now: cards_now[side],
                alone: alone[side],
            })?;
            if let (ACCEPTED, Some(made)) = (given.returned, step.made()) {
                self.stretches[side].add(made, given.answer[3]);
            }
        }
        Ok(ours)
    }
}

/// Of Afford, what a side answers for the account alone.
pub fn alone(side: &Side, account: &Numbers, step: BoxStep) -> Option<u64> {
    if step.call != code::AFFORD {
        return None;
    }
    let mut answer = [0; AFFORD_NUMBERS];
    let returned = (side.afford)(account, step.which, &mut answer);
    (returned == ACCEPTED).then_some(answer[0])
}

/// library-4: what a call does not use may be anything.
pub fn with_any_rest(rng: &mut Rng, step: BoxStep) -> BoxStep {
    let any = BoxStep {
        call: step.call,
        card: rng.word() as usize,
        which: rng.word(),
        n: rng.word(),
    };
    match step.call {
        code::REGISTER => BoxStep {
            which: step.which,
            ..any
        },
        code::USE => step,
        code::TOP_UP => BoxStep { n: step.n, ..any },
        code::NEXT_DAY => any,
        _ => BoxStep { n: any.n, ..step },
    }
}

/// library-4: a call of an unknown number, or with a place or kind that is
/// none.
pub fn odd_step(rng: &mut Rng, count: usize) -> BoxStep {
    let wide = rng.pick(&[1 << 32, (1 << 32) + 1, u64::MAX]);
    let step = BoxStep {
        call: rng.pick(&[0, 1, 4]),
        card: some_place(rng, count),
        which: rng.pick(&[4, 5, wide]),
        n: rng.below(1000),
    };
    match rng.below(4) {
        0 => BoxStep {
            call: rng.pick(&[5, 6, wide]),
            which: rng.below(3),
            ..step
        },
        1 => BoxStep {
            call: code::REGISTER,
            which: 3,
            ..step
        },
        _ => step,
    }
}

impl Differ {
    /// The random list of a seed on a box, and some boxes of any numbers.
    pub fn boxes(&mut self, seed: u64) -> Result<(), Box<Mismatch>> {
        let begun = Instant::now();
        let case = generate::case(seed);
        self.times.generation += begun.elapsed();
        let mut rng = Rng::new(seed ^ 0xB0E5_0000);
        let mut events = Both::default();
        self.boxes += 1;
        let begun = Instant::now();
        let run = self.box_list(&case, &mut rng, &mut events)?;
        if seed.is_multiple_of(PAIRS_EVERY) {
            self.box_pairs(&case, &run, &mut rng, &mut events)?;
        }
        self.add(&events);
        let any = self.any_boxes(seed, &run, &mut rng);
        self.times.boxes += begun.elapsed();
        any
    }

    /// A list of calls from the opening, with others between them.
    fn box_list(
        &mut self,
        case: &BoxCase,
        rng: &mut Rng,
        events: &mut Both,
    ) -> Result<BoxRun, Box<Mismatch>> {
        let opened = self.box_opened(case, rng, events);
        let mut run = opened.map_err(|what| Mismatch::of_box(what, &[], &case.cards))?;
        self.longest = self.longest.max(case.calls.len());
        for (index, made) in case.calls.iter().enumerate() {
            let step = with_any_rest(rng, BoxStep::from(*made));
            let room = step.answers() + rng.below(4) as usize;
            let stepped = run.step(&self.other, step, room, events);
            let compared = stepped.and_then(|_| {
                self.calls += 1;
                self.box_between(&mut run, rng, events)
            });
            compared.map_err(|what| mismatch(case, index, what))?;
        }
        Ok(run)
    }

    /// family-14: a box that both sides opened over the same random numbers. A
    /// list of cards that the opening refuses goes on beside an account that is
    /// opened alone.
    fn box_opened(
        &mut self,
        case: &BoxCase,
        rng: &mut Rng,
        events: &mut Both,
    ) -> Result<BoxRun, Failure> {
        let plan = case.plan.to_words().map(u64::from);
        let before: Numbers = [rng.word(); ACCOUNT_NUMBERS];
        let opened = self.ask_box(&before, &case.cards, 0, 0, |side, account, cards, _| {
            (side.box_open)(account, cards, &plan)
        });
        let (given, [_, theirs]) = opened.map_err(|what| format!("BoxOpen: {what}"))?;
        for (events, given) in events.iter_mut().zip(given) {
            events.box_open(ACCOUNT_NUMBERS, &case.cards, &plan, given.returned)?;
        }
        let begun = case.begin();
        let run = BoxRun::at(&numbers(&begun.account), &begun.cards);
        if given[0].returned == ACCEPTED {
            theirs.holds(&run.ours.numbers, &begun.cards)?;
        }
        Ok(run)
    }

    /// What comes between two calls of a list at times; none of it changes the
    /// box.
    fn box_between(
        &mut self,
        run: &mut BoxRun,
        rng: &mut Rng,
        events: &mut Both,
    ) -> Result<(), Failure> {
        let count = run.ours.family.cards.len();
        let card = some_place(rng, count);
        let kind = rng.pick(&Kind::ALL);
        match rng.below(64) {
            0..=3 => {
                let call = Call::Afford(kind);
                let step = with_any_rest(rng, CardCall { card, call }.into());
                run.step(&self.other, step, ROOM, events)?;
            }
            4 => {
                let step = odd_step(rng, count);
                run.step(&self.other, step, ROOM, events)?;
            }
            5 => {
                let call = rng.pick(&[Call::Use(kind, 1), Call::Afford(kind)]);
                let step = BoxStep::from(CardCall { card, call });
                let room = rng.below(step.answers() as u64) as usize;
                run.step(&self.other, step, room, events)?;
            }
            6 => {
                let family = &run.ours.family;
                self.box_counted(&run.ours.numbers, &family.cards, rng, events)?;
            }
            _ => return Ok(()),
        }
        self.calls += 1;
        Ok(())
    }

    /// library-5: a call with another count of the account's numbers.
    pub(super) fn box_counted(
        &mut self,
        all: &Numbers,
        cards: &[Card],
        rng: &mut Rng,
        events: &mut Both,
    ) -> Result<(), Failure> {
        let count = other_count(rng);
        let step = BoxStep {
            call: rng.below(5),
            card: 0,
            which: rng.below(3),
            n: 1,
        };
        let given = self.ask_box_counted(all, count, cards, |side, account, cards, answer| {
            (side.box_call)(account, cards, step, answer)
        })?;
        for (events, given) in events.iter_mut().zip(given) {
            events.box_counted(count, given.returned);
        }
        Ok(())
    }

    /// family-10: the claim about pairs for a list; the others go through the
    /// comparison as well.
    fn box_pairs(
        &mut self,
        case: &BoxCase,
        run: &BoxRun,
        rng: &mut Rng,
        events: &mut Both,
    ) -> Result<(), Box<Mismatch>> {
        let lists = check_box_pairs(case, rng, &mut Default::default());
        let lists = lists.map_err(|what| Mismatch::new(format!("family-10: {what}")))?;
        for calls in lists {
            let same = calls == case.calls;
            let other = BoxCase {
                calls,
                ..case.clone()
            };
            let other = self.box_list(&other, rng, &mut Both::default())?;
            for (side, events) in events.iter_mut().enumerate() {
                events.box_pair(&run.stretches[side], &other.stretches[side], same);
            }
        }
        Ok(())
    }
}

/// What differs at a call of a list, with the box just before it.
fn mismatch(case: &BoxCase, index: usize, what: Failure) -> Box<Mismatch> {
    let mut family = case.begin();
    for made in &case.calls[..index] {
        let _ = family.apply(*made);
    }
    let what = format!("call {index} or after it, {what}");
    Mismatch::of_box(what, &numbers(&family.account), &family.cards)
}

//! Lists call by call: both sides keep an account, and after each call return,
//! answer and every number are compared.

use super::both::{agree, same_numbers, Given, Lent, ROOM};
use super::{Both, Differ};
use crate::check::Failure;
use crate::coverage::returns::Function;
use crate::coverage::seen::{rest, Observed};
use crate::generate::Case;
use crate::matching::Stretches;
use crate::numbers::{account, Numbers, ACCOUNT_NUMBERS};
use crate::rng::Rng;
use crate::sides::{Kept, Side, Step, ACCEPTED};
use crate::terms::Kind;

/// A list on both sides, as far as it has come.
#[derive(Clone, Debug)]
pub struct Run {
    pub ours: Kept,
    pub theirs: Lent,
    /// How many of the calls were refused that a trip file can hold.
    pub refused: u64,
    /// The stretches so far, by what each side returned and answered.
    pub stretches: [Stretches; 2],
}

impl Run {
    /// Starts at a sound account.
    pub fn at(numbers: &Numbers) -> Run {
        Run {
            ours: Kept::new(account(numbers).expect("the numbers of an account")),
            theirs: Lent::new(numbers),
            refused: 0,
            stretches: Default::default(),
        }
    }

    /// One call on both sides, with so many numbers lent for the answer;
    /// answers what it returned.
    pub fn step(
        &mut self,
        other: &Side,
        step: Step,
        room: usize,
        events: &mut Both,
    ) -> Result<u64, Failure> {
        let before = [*rest(&self.ours.numbers), *rest(self.theirs.numbers())];
        let ours = Given::of(room, |answer| self.ours.make(step, answer));
        let theirs = Given::of(room, |answer| {
            step.make(other, self.theirs.numbers_mut(), answer)
        });
        let compared = agree(step.answers(), &ours, &theirs)
            .and_then(|()| self.theirs.holds(&self.ours.numbers));
        compared.map_err(|what| format!("{step:?}: {what}"))?;
        let now = [&*self.ours.numbers, self.theirs.numbers()];
        for (side, given) in [ours, theirs].iter().enumerate() {
            events[side].call(&Observed::new(
                step,
                given.returned,
                &given.answer,
                &before[side],
                now[side],
            ))?;
            if let (ACCEPTED, Some(call)) = (given.returned, step.call()) {
                self.stretches[side].add(call, given.answer[3]);
            }
        }
        Ok(ours.returned)
    }
}

/// Numbers that are no place or kind.
const UNKNOWN: [u64; 6] = [3, 4, 5, 1 << 32, (1 << 32) + 1, u64::MAX];

/// library-4: a call with an argument that is none, or with units or points
/// that no trip file can hold.
pub fn odd_step(rng: &mut Rng) -> Step {
    let kind = rng.pick(&UNKNOWN).max(4);
    let wide = rng.pick(&[1 << 32, (1 << 32) + 1, 1 << 63, u64::MAX]);
    match rng.below(5) {
        0 => Step::Register(rng.pick(&UNKNOWN)),
        1 => Step::Use(kind, rng.below(1000)),
        2 => Step::Afford(kind),
        3 => Step::Use(rng.below(4), wide),
        _ => Step::TopUp(wide),
    }
}

/// A count of numbers that is no account's.
pub fn other_count(rng: &mut Rng) -> usize {
    rng.pick(&[0, ACCOUNT_NUMBERS - 1, ACCOUNT_NUMBERS + 1])
}

impl Differ {
    /// A list of calls from the opening. Between its calls Afford is asked at
    /// times, and there are arguments that are of no call, answers that are too
    /// short and accounts of another count of numbers.
    pub(super) fn list(
        &mut self,
        case: &Case,
        rng: &mut Rng,
        events: &mut Both,
    ) -> Result<Run, Failure> {
        let plan = case.plan.to_words().map(u64::from);
        let mut run = self.opened(&plan, rng, events)?;
        self.longest = self.longest.max(case.calls.len());
        for (index, call) in case.calls.iter().enumerate() {
            let step = Step::from(*call);
            let room = step.answers() + rng.below(4) as usize;
            let stepped = run.step(&self.other, step, room, events);
            let returned = stepped.map_err(|what| format!("call {index}, {what}"))?;
            let in_file = call.to_words().is_some();
            run.refused += u64::from(returned != ACCEPTED && in_file);
            self.calls += 1;
            let between = self.between(&mut run, rng, events);
            between.map_err(|what| format!("after call {index}: {what}"))?;
        }
        Ok(run)
    }

    /// An account that both sides opened over the same random numbers.
    pub(super) fn opened(
        &mut self,
        plan: &[u64],
        rng: &mut Rng,
        events: &mut Both,
    ) -> Result<Run, Failure> {
        let before: Numbers = [rng.word(); ACCOUNT_NUMBERS];
        let opened = self.ask_account(&before, 0, 0, |side, account, _| (side.open)(account, plan));
        let (given, [ours, theirs]) = opened.map_err(|what| format!("Open: {what}"))?;
        for (events, given) in events.iter_mut().zip(given) {
            events.returned(Function::Open, given.returned)?;
        }
        if given[0].returned != ACCEPTED {
            return Err(format!("Open refused with {}", given[0].returned));
        }
        let run = Run {
            theirs,
            ..Run::at(ours.numbers())
        };
        same_numbers(ours.numbers(), &*run.ours.numbers)?;
        Ok(run)
    }

    /// What comes between two calls of a list at times.
    fn between(&mut self, run: &mut Run, rng: &mut Rng, events: &mut Both) -> Result<(), Failure> {
        match rng.below(256) {
            0..=15 => {
                let step = Step::Afford(rng.below(4));
                run.step(&self.other, step, ROOM, events)?;
                self.calls += 1;
            }
            16..=19 => {
                run.step(&self.other, odd_step(rng), ROOM, events)?;
                self.calls += 1;
            }
            20 => {
                let kind = rng.pick(&Kind::ALL) as u64;
                let step = rng.pick(&[Step::Use(kind, 1), Step::Afford(kind)]);
                let room = rng.below(step.answers() as u64) as usize;
                run.step(&self.other, step, room, events)?;
                self.calls += 1;
            }
            21 => self.counted(&run.ours.numbers, rng, events)?,
            _ => {}
        }
        Ok(())
    }

    /// library-5: a call on an account with another count of numbers.
    pub(super) fn counted(
        &mut self,
        numbers: &Numbers,
        rng: &mut Rng,
        events: &mut Both,
    ) -> Result<(), Failure> {
        let step = any_step(rng);
        let count = other_count(rng);
        let given = self.ask_counted(numbers, count, ROOM, |side, account, answer| {
            step.make(side, account, answer)
        })?;
        for (events, given) in events.iter_mut().zip(given) {
            events.returned(Function::of(step), given.returned)?;
            events.counted(Function::of(step), count, given.returned);
        }
        Ok(())
    }
}

/// One of the five calls, with known arguments.
fn any_step(rng: &mut Rng) -> Step {
    match rng.below(5) {
        0 => Step::Register(rng.below(3)),
        1 => Step::Use(rng.below(4), 1),
        2 => Step::TopUp(1),
        3 => Step::NextDay,
        _ => Step::Afford(rng.below(4)),
    }
}

//! Accounts of any numbers: whether they are sound, and one call of each kind
//! on each of them.

use super::both::{Given, ROOM};
use super::calls::{odd_step, other_count, Run};
use super::{Both, Differ, Mismatch, ACCOUNTS_OF_A_SEED};
use crate::accounts::edges::at_edge;
use crate::accounts::{made, other_number, random, reached};
use crate::check::Failure;
use crate::coverage::returns::Function;
use crate::coverage::seen::{rest, Observed, Seen};
use crate::coverage::soundness::Condition;
use crate::coverage::TripEvents;
use crate::numbers::{at, Numbers, ACCOUNT_NUMBERS, DAY_NUMBERS};
use crate::rng::Rng;
use crate::sides::{Step, ACCEPTED, AFFORD_NUMBERS};
use crate::terms::Kind;
use std::time::Instant;

/// So many calls follow each other from a sound account that was made.
const MORE_CALLS: u64 = 12;

impl Differ {
    /// The accounts of a seed: one that a trip leads to and one that was made,
    /// each as it is and with one number changed, two numbers changed, places
    /// past the log, random numbers, and the edges of soundness. Over the seeds
    /// every place of the layout and every condition has its turn.
    pub fn accounts(&mut self, seed: u64) -> Result<(), Box<Mismatch>> {
        let begun = Instant::now();
        let mut rng = Rng::new(seed ^ 0xACC0_0000);
        let bases = [reached(&mut rng), made(&mut rng)];
        self.times.generation += begun.elapsed();
        for index in 0..ACCOUNTS_OF_A_SEED {
            let begun = Instant::now();
            let mut events = Both::default();
            let account = self.account(seed, index, &bases, &mut rng, &mut events);
            self.times.generation += begun.elapsed();
            let begun = Instant::now();
            let tried = self.tried(&account, &mut rng, &mut events);
            let tried = match index {
                1 => tried.and_then(|()| self.more_calls(&account, &mut rng, &mut events)),
                _ => tried,
            };
            self.times.accounts += begun.elapsed();
            tried.map_err(|what| Mismatch::of_account(what, &*account))?;
            self.accounts += 1;
            self.add_of_accounts(&events);
        }
        Ok(())
    }

    /// One of the accounts of a seed.
    fn account(
        &mut self,
        seed: u64,
        index: u64,
        bases: &[Box<Numbers>; 2],
        rng: &mut Rng,
        events: &mut Both,
    ) -> Box<Numbers> {
        let mut account = bases[index as usize % 2].clone();
        match index {
            0 | 1 => {}
            2..=5 => {
                let turn = seed.wrapping_mul(4) + index - 2;
                let place = (turn % ACCOUNT_NUMBERS as u64) as usize;
                account[place] = other_number(rng, account[place]);
                self.changed.insert(place);
            }
            6 => {
                for _ in 0..2 {
                    let place = any_place(rng);
                    account[place] = other_number(rng, account[place]);
                }
            }
            7 | 8 => {
                let turn = seed.wrapping_mul(2) + index - 7;
                let conditions = Condition::ALL.len() as u64;
                let condition = Condition::ALL[(turn / 2 % conditions) as usize];
                account = at_edge(rng, condition, turn % 2 == 1);
            }
            _ if rng.chance(50) => {
                account = random(rng);
                events.iter_mut().for_each(TripEvents::random_numbers);
            }
            _ => past_the_log(rng, &mut account),
        }
        account
    }

    /// Whether the account is sound, and one call of each kind on it.
    fn tried(
        &mut self,
        account: &Numbers,
        rng: &mut Rng,
        events: &mut Both,
    ) -> Result<(), Failure> {
        let asked = self.ask_account(account, 0, 0, |side, account, _| (side.is_sound)(account));
        let (given, _) = asked.map_err(|what| format!("IsSound {what}"))?;
        for (events, given) in events.iter_mut().zip(given) {
            events.sound(account, given.returned)?;
        }
        let sound = given[0].returned == ACCEPTED;
        let kind = rng.below(4);
        let steps = [
            Step::Register(rng.below(3)),
            Step::Use(kind, some_units(rng, account, kind)),
            Step::TopUp(some_points(rng, account)),
            Step::NextDay,
        ];
        for step in steps {
            let room = step.answers() + rng.below(3) as usize;
            self.stepped(account, step, room, events)?;
        }
        self.afforded(account, rng, events)?;
        if rng.chance(20) {
            self.odd(account, sound, rng, events)?;
        }
        Ok(())
    }

    /// One call on copies of the account; answers what it returned and the
    /// first number of its answer.
    fn stepped(
        &mut self,
        account: &Numbers,
        step: Step,
        room: usize,
        events: &mut Both,
    ) -> Result<(u64, u64), Failure> {
        let made = self.ask_account(account, step.answers(), room, |side, account, answer| {
            step.make(side, account, answer)
        });
        let (given, lent) = made.map_err(|what| format!("{step:?}: {what}"))?;
        for (side, events) in events.iter_mut().enumerate() {
            let Given { returned, answer } = &given[side];
            let now = lent[side].numbers();
            let seen = Observed::new(step, *returned, answer, rest(account), now);
            events.call(&seen)?;
        }
        Ok((given[0].returned, given[0].answer[0]))
    }

    /// afford-1: Afford of a kind, then a use of as many units, or of one more.
    fn afforded(
        &mut self,
        account: &Numbers,
        rng: &mut Rng,
        events: &mut Both,
    ) -> Result<(), Failure> {
        let kind = rng.below(4);
        let room = AFFORD_NUMBERS + rng.below(2) as usize;
        let (returned, most) = self.stepped(account, Step::Afford(kind), room, events)?;
        if returned != ACCEPTED {
            return Ok(());
        }
        let n = most + rng.below(2);
        let (returned, _) = self.stepped(account, Step::Use(kind, n), ROOM, events)?;
        for events in events {
            events.use_after_afford(most, n, returned);
        }
        Ok(())
    }

    /// library-4, library-5: arguments of no call, a short answer, or another
    /// count of numbers.
    fn odd(
        &mut self,
        account: &Numbers,
        sound: bool,
        rng: &mut Rng,
        events: &mut Both,
    ) -> Result<(), Failure> {
        if rng.chance(20) {
            let count = other_count(rng);
            let given = self.ask_counted(account, count, ROOM, |side, account, _| {
                (side.is_sound)(account)
            })?;
            for (events, given) in events.iter_mut().zip(given) {
                events.returned(Function::IsSound, given.returned)?;
                events.counted(Function::IsSound, count, given.returned);
            }
            return self.counted(account, rng, events);
        }
        let (step, room) = match rng.below(3) {
            0 => (Step::Afford(rng.below(4)), rng.below(AFFORD_NUMBERS as u64)),
            1 => (Step::Use(rng.below(4), 1), rng.below(5)),
            _ => (odd_step(rng), ROOM as u64),
        };
        let (returned, _) = self.stepped(account, step, room as usize, events)?;
        if !sound {
            for events in events {
                events.no_call_before_0(step, returned);
            }
        }
        Ok(())
    }

    /// A short list of calls from a sound account.
    fn more_calls(
        &mut self,
        account: &Numbers,
        rng: &mut Rng,
        events: &mut Both,
    ) -> Result<(), Failure> {
        let mut run = Run::at(account);
        for _ in 0..rng.below(MORE_CALLS) {
            let kind = rng.below(4);
            let step = match rng.below(8) {
                0 => Step::Register(rng.below(3)),
                1 => Step::TopUp(some_points(rng, &run.ours.numbers)),
                2 | 3 => Step::NextDay,
                4 => Step::Afford(kind),
                _ => Step::Use(kind, some_units(rng, &run.ours.numbers, kind)),
            };
            run.step(&self.other, step, ROOM, events)?;
            self.calls += 1;
        }
        Ok(())
    }
}

/// A place of the layout: the log has as many turns as all others together.
pub(super) fn any_place(rng: &mut Rng) -> usize {
    let (first, end) = rng.pick(&[(at::LOG, at::PLAN), (at::PLAN, ACCOUNT_NUMBERS)]);
    rng.between(first as u64, end as u64 - 1) as usize
}

/// Something past the logged days, or in the last of them; or another count.
fn past_the_log(rng: &mut Rng, account: &mut Numbers) {
    let logged = account[at::LOGGED].min(122);
    let number = rng.below(DAY_NUMBERS as u64) as usize;
    match rng.below(4) {
        0 => account[at::LOGGED] = other_number(rng, account[at::LOGGED]),
        1 => {
            account[at::LOGGED] = account[at::LOGGED].saturating_sub(1);
        }
        2 => {
            let day = rng.between(logged, 122) as usize;
            account[DAY_NUMBERS * day + number] = 1 + rng.below(3);
        }
        _ => {
            let day = rng.below(logged + 1) as usize;
            account[DAY_NUMBERS * day] = rng.pick(&[7, 8, 9, 1 << 32, u64::MAX]);
        }
    }
}

/// Units of a use: small ones, both sides of each limit that there is, and
/// numbers that no record can have.
pub(super) fn some_units(rng: &mut Rng, account: &Numbers, kind: u64) -> u64 {
    let seen = Seen(rest(account));
    let kind = Kind::ALL[kind as usize];
    let near = |rng: &mut Rng, left: u64| left.wrapping_add(rng.below(3)).wrapping_sub(1);
    let room = 1_000_000_000_000u64.wrapping_sub(seen.lifetime(kind));
    match rng.below(10) {
        0 => rng.pick(&[0, 1, 29, 30, 31]),
        1 => rng.pick(&[1_000_000_000, 1_000_000_001, 1 << 32, u64::MAX]),
        2 => near(rng, room),
        3 => near(
            rng,
            1_000_000_000_000u64.wrapping_sub(seen.charged_seconds()),
        ),
        4 => near(rng, seen.l().unwrap_or(5).wrapping_sub(seen.r())),
        5 => near(rng, seen.volume().unwrap_or(5).wrapping_sub(seen.h())),
        6 => rng.between(1, 60),
        7 => rng.between(1, 1_000_000_000),
        _ => 1 + rng.scaled(999_999_999),
    }
}

/// Points of a top-up, likewise.
pub(super) fn some_points(rng: &mut Rng, account: &Numbers) -> u64 {
    let left = 1_000_000_000u64.wrapping_sub(account[at::PAID]);
    match rng.below(6) {
        0 => rng.pick(&[0, 1]),
        1 => rng.pick(&[10_000_000, 10_000_001, 1 << 32, u64::MAX]),
        2 | 3 => left.wrapping_add(rng.below(3)).wrapping_sub(1),
        _ => rng.between(1, 10_000_000),
    }
}

//! Writing and opening under random plans, and the caps of days.

use super::both::{Given, ROOM};
use super::calls::other_count;
use super::{Both, Differ, Mismatch};
use crate::check::Failure;
use crate::coverage::returns::Function;
use crate::numbers::ACCOUNT_NUMBERS;
use crate::rng::Rng;
use crate::sides::{ACCEPTED, CAPS_NUMBERS, REFERENCE, WRITE_NUMBERS};
use crate::writes::WriteCase;
use std::time::Instant;

/// The caps of every day up to this one are compared: the last day that an
/// account can reach, and some more.
pub const LAST_DAY: u64 = 4000;
/// Of the larger numbers, so many random ones.
const LARGE_DAYS: u64 = 4000;

impl Differ {
    /// The random write of a seed, and an opening under its plan.
    pub fn write(&mut self, seed: u64) -> Result<(), Box<Mismatch>> {
        let begun = Instant::now();
        let mut rng = Rng::new(seed ^ 0x3217_E000);
        let case = WriteCase::random(&mut rng);
        self.times.generation += begun.elapsed();
        let begun = Instant::now();
        let mut events = Both::default();
        let written = self.both_write(&case, &mut events);
        let whole = written.and_then(|_| self.open(&case.plan, &mut rng, &mut events));
        self.times.writes += begun.elapsed();
        whole.map_err(|what| Mismatch::new(format!("{what} ({})", case.outline())))?;
        self.add(&events);
        Ok(())
    }

    /// Both writers, each on a copy of the buffer: the same return and answer,
    /// and the same bytes in all of the buffer (write-2, library-5). Answers
    /// what was returned, and the buffer.
    pub(super) fn both_write(
        &mut self,
        case: &WriteCase,
        events: &mut Both,
    ) -> Result<(u64, Vec<u8>), Failure> {
        let (mut ours, mut theirs) = (case.buffer.clone(), case.buffer.clone());
        let our_given = Given::of(case.room, |answer| case.run(&REFERENCE, &mut ours, answer));
        let given = Given::of(case.room, |answer| {
            case.run(&self.other, &mut theirs, answer)
        });
        self.writes += 1;
        let agreed = super::both::agree(WRITE_NUMBERS, &our_given, &given);
        agreed.map_err(|what| format!("write {what}"))?;
        if let Some(at) = (0..ours.len()).find(|at| ours[*at] != theirs[*at]) {
            return Err(format!("write filled the buffer otherwise, from byte {at}"));
        }
        if given.returned != ACCEPTED && theirs != case.buffer {
            return Err("write filled the buffer without being accepted".to_string());
        }
        for (events, given) in events.iter_mut().zip([our_given, given]) {
            events.write(case, given.returned)?;
        }
        Ok((given.returned, theirs))
    }

    /// Both open an account under a plan, over random numbers.
    fn open(&mut self, plan: &[u64], rng: &mut Rng, events: &mut Both) -> Result<(), Failure> {
        let before = [rng.word(); ACCOUNT_NUMBERS];
        let opened = self.ask_account(&before, 0, 0, |side, account, _| (side.open)(account, plan));
        let (given, _) = opened.map_err(|what| format!("Open {what}"))?;
        for (events, given) in events.iter_mut().zip(given) {
            events.open(plan, given.returned)?;
        }
        if rng.chance(20) {
            let count = other_count(rng);
            let given = self.ask_counted(&before, count, ROOM, |side, account, _| {
                (side.open)(account, plan)
            })?;
            for (events, given) in events.iter_mut().zip(given) {
                events.returned(Function::Open, given.returned)?;
                events.counted(Function::Open, count, given.returned);
            }
        }
        Ok(())
    }

    /// library-10: the caps of every day from 0 on, and how many rows were read
    /// for them (rows-2); then those of numbers that are no account's day: the
    /// same days with a bit more above the lowest 32, the powers of 2 with
    /// their neighbours, and random ones. At times the answer is too short.
    pub fn days(&mut self, seed: u64) -> Result<(), Box<Mismatch>> {
        let mut rng = Rng::new(seed ^ 0xDA75_0000);
        let mut rooms = Rng::new(seed ^ 0xDA75_0001);
        let near = |shift: u32| [(1 << shift) - 1, 1 << shift, (1 << shift) + 1];
        let all = (0..=LAST_DAY)
            .chain((0..=LAST_DAY).map(|day| day + (1 << 32)))
            .chain((0..64).flat_map(near))
            .chain([u64::MAX])
            .chain((0..LARGE_DAYS).map(|_| rng.word()));
        let mut events = Both::default();
        for day in all {
            let room = match rooms.below(20) {
                0 => rooms.below(CAPS_NUMBERS as u64) as usize,
                _ => CAPS_NUMBERS + rooms.below(4) as usize,
            };
            let given = self.ask(Function::Caps, CAPS_NUMBERS, room, |side, answer| {
                (side.caps)(day, answer)
            });
            self.days += 1;
            let noted = given.and_then(|given| {
                let mut both = events.iter_mut().zip(given);
                both.try_for_each(|(events, given)| events.returned(Function::Caps, given.returned))
            });
            noted.map_err(|what| Mismatch::new(format!("of day {day}: {what}")))?;
        }
        self.add(&events);
        Ok(())
    }
}

//! Files as a whole: statement, reading, finding, running on an account, and
//! the reader of calls.

use super::both::{agree, Given, Lent, ROOM};
use super::calls::{other_count, Run};
use super::{Both, Differ, Mismatch};
use crate::accounts;
use crate::check::Failure;
use crate::coverage::returns::Function;
use crate::coverage::TripEvents;
use crate::damage;
use crate::generate::Case;
use crate::numbers::{at, Numbers, ACCOUNT_NUMBERS};
use crate::rng::Rng;
use crate::sides::{
    Side, ACCEPTED, CALL_NUMBERS, FIND_NUMBERS, READ_NUMBERS, REFERENCE, RUN_NUMBERS,
    STATEMENT_NUMBERS,
};
use crate::statement::figures;
use crate::tripfile::{self, BEFORE_CALLS, CALLS_KIND, PLAN_KIND};
use std::time::Instant;

/// This crate's meter runs trips of up to so many bytes as files, too; the
/// other one runs all of them.
const SMALL: usize = 2048;
/// So many files in a row are run on the same account.
const FILES_ON_AN_ACCOUNT: u64 = 64;

/// library-8, library-9: the statement of a trip's file and its run on a newly
/// opened account come to what the single calls came to.
fn file_as_run(
    side: &Side,
    file: &[u8],
    case: &Case,
    run: &Run,
    events: &mut TripEvents,
) -> Result<(), Failure> {
    let wanted = Given::accepted(&figures(&run.ours.account, run.refused as usize));
    let given = Given::of(ROOM, |answer| (side.statement)(file, answer));
    events.returned(Function::Statement, given.returned)?;
    let agreed = agree(STATEMENT_NUMBERS, &wanted, &given);
    agreed.map_err(|what| format!("Statement {what}"))?;
    let mut account = Lent::new(&[7; ACCOUNT_NUMBERS]);
    let plan = case.plan.to_words().map(u64::from);
    (side.open)(account.numbers_mut(), &plan);
    let given = Given::of(ROOM, |answer| {
        (side.run)(account.numbers_mut(), file, answer)
    });
    events.run(given.returned, given.answer[0], true)?;
    let agreed = agree(RUN_NUMBERS, &Given::accepted(&[run.refused]), &given);
    let agreed = agreed.and_then(|()| account.holds(&run.ours.numbers));
    agreed.map_err(|what| format!("Run {what}"))
}

impl Differ {
    /// The file of a trip that was run call by call.
    pub(super) fn whole_file(
        &mut self,
        file: &[u8],
        case: &Case,
        run: &Run,
        rng: &mut Rng,
        events: &mut Both,
    ) -> Result<(), Failure> {
        let small = file.len() <= SMALL || rng.chance(5);
        let sides = [
            (REFERENCE, "this crate's meter"),
            (self.other, "the other meter"),
        ];
        for (at, (side, name)) in sides.iter().enumerate() {
            if small || at == 1 {
                let whole = file_as_run(side, file, case, run, &mut events[at]);
                whole.map_err(|what| format!("the file of the calls, {name}: {what}"))?;
            }
        }
        self.read(file, rng, events)?;
        self.find(file, &[PLAN_KIND, CALLS_KIND], rng, events)?;
        if small {
            self.run_on(&run.ours.numbers, file, rng, events)?;
            self.reader(&file[BEFORE_CALLS..], rng, events)?;
        }
        self.write_again(file, rng, events)
    }

    /// The random file of a seed, sound or damaged.
    pub fn file(&mut self, seed: u64) -> Result<(), Box<Mismatch>> {
        let begun = Instant::now();
        let mut rng = Rng::new(seed ^ 0xF11E_0000);
        let sample = damage::sample(&mut rng);
        let base = self.base(seed / FILES_ON_AN_ACCOUNT);
        self.times.generation += begun.elapsed();
        let mut events = Both::default();
        self.files += 1;
        let begun = Instant::now();
        let whole = self.file_of(&sample.bytes, &base, &mut rng, &mut events);
        self.times.files += begun.elapsed();
        whole.map_err(|what| Mismatch::of_file(what, &sample.bytes))?;
        self.add(&events);
        Ok(())
    }

    /// An account to run files on.
    fn base(&mut self, number: u64) -> Box<Numbers> {
        match &self.base {
            Some((known, base)) if *known == number => base.clone(),
            _ => {
                let base = accounts::reached(&mut Rng::new(number ^ 0xBA5E_0000));
                self.base = Some((number, base.clone()));
                base
            }
        }
    }

    fn file_of(
        &mut self,
        file: &[u8],
        base: &Numbers,
        rng: &mut Rng,
        events: &mut Both,
    ) -> Result<(), Failure> {
        let room = self.room(STATEMENT_NUMBERS, rng);
        let given = self.ask(
            Function::Statement,
            STATEMENT_NUMBERS,
            room,
            |side, answer| (side.statement)(file, answer),
        )?;
        for (events, given) in events.iter_mut().zip(given) {
            events.returned(Function::Statement, given.returned)?;
        }
        let number = self.read(file, rng, events)?;
        self.run_on(base, file, rng, events)?;
        let any = rng.word() as u32;
        self.find(file, &[0, 1, 2, 3, 4, 7, u32::MAX, any], rng, events)?;
        self.reader(file, rng, events)?;
        if number == ACCEPTED {
            self.write_again(file, rng, events)?;
        } else if rng.chance(10) {
            self.run_unsound(base, file, rng, events)?;
        }
        self.short_answers(file, rng, events)
    }

    /// As many numbers as an answer has, or some more.
    fn room(&self, numbers: usize, rng: &mut Rng) -> usize {
        (numbers + rng.below(3) as usize).min(ROOM)
    }

    /// Reading; answers what it returned.
    fn read(&mut self, file: &[u8], rng: &mut Rng, events: &mut Both) -> Result<u64, Failure> {
        let room = self.room(READ_NUMBERS, rng);
        let given = self.ask(Function::Read, READ_NUMBERS, room, |side, answer| {
            (side.read)(file, answer)
        })?;
        for (events, given) in events.iter_mut().zip(given) {
            events.read(file, given.returned)?;
        }
        Ok(given[0].returned)
    }

    /// The sections of some kinds.
    fn find(
        &mut self,
        file: &[u8],
        kinds: &[u32],
        rng: &mut Rng,
        events: &mut Both,
    ) -> Result<(), Failure> {
        for kind in kinds {
            let room = self.room(FIND_NUMBERS, rng);
            let found = self.ask(Function::Find, FIND_NUMBERS, room, |side, answer| {
                (side.find)(file, *kind, answer)
            });
            let found = found.map_err(|what| format!("of kind {kind}: {what}"))?;
            for (events, given) in events.iter_mut().zip(found) {
                events.find(file, *kind, given.returned, &given.answer)?;
            }
        }
        Ok(())
    }

    /// library-9: a run on an account that is not of the file's plan, or not
    /// newly opened.
    fn run_on(
        &mut self,
        account: &Numbers,
        file: &[u8],
        rng: &mut Rng,
        events: &mut Both,
    ) -> Result<(), Failure> {
        let room = self.room(RUN_NUMBERS, rng);
        let ran = self.ask_account(account, RUN_NUMBERS, room, |side, account, answer| {
            (side.run)(account, file, answer)
        });
        let (given, _) = ran.map_err(|what| format!("Run on an account: {what}"))?;
        for (events, given) in events.iter_mut().zip(given) {
            events.run(given.returned, given.answer[0], false)?;
        }
        if rng.chance(2) {
            let count = other_count(rng);
            let given = self.ask_counted(account, count, ROOM, |side, account, answer| {
                (side.run)(account, file, answer)
            })?;
            for (events, given) in events.iter_mut().zip(given) {
                events.counted(Function::Run, count, given.returned);
            }
        }
        Ok(())
    }

    /// library-4, library-5: a run of a bad file on numbers that are no sound
    /// account, at times with no room for the answer.
    fn run_unsound(
        &mut self,
        account: &Numbers,
        file: &[u8],
        rng: &mut Rng,
        events: &mut Both,
    ) -> Result<(), Failure> {
        let mut unsound = *account;
        unsound[at::PAID] += 1;
        let room = rng.below(2) as usize;
        let ran = self.ask_account(&unsound, RUN_NUMBERS, room, |side, account, answer| {
            (side.run)(account, file, answer)
        });
        let (given, _) = ran.map_err(|what| format!("Run on unsound numbers: {what}"))?;
        for (events, given) in events.iter_mut().zip(given) {
            events.run_unsound(given.returned)?;
        }
        Ok(())
    }

    /// reader-1, reader-2: the reader at some positions of some bytes, and
    /// within a part of them.
    fn reader(&mut self, bytes: &[u8], rng: &mut Rng, events: &mut Both) -> Result<(), Failure> {
        let section = &bytes[..rng.below(bytes.len() as u64 + 1) as usize];
        let end = section.len();
        let positions = [
            0,
            rng.below(end as u64 + 9) as usize,
            8 * rng.below(end as u64 / 8 + 1) as usize,
            end.saturating_sub(8),
            end.saturating_sub(7),
            end,
            rng.pick(&[end + 1, usize::MAX - 7, usize::MAX - 1, usize::MAX]),
        ];
        for position in positions {
            let room = self.room(CALL_NUMBERS, rng);
            let given = self.ask(Function::Call, CALL_NUMBERS, room, |side, answer| {
                (side.call)(section, position, answer)
            });
            let given = given.map_err(|what| format!("at {position} of {end}: {what}"))?;
            for (events, given) in events.iter_mut().zip(given) {
                events.call_at(end, position, given.returned)?;
            }
        }
        Ok(())
    }

    /// library-4: one of the functions with an answer that has too few numbers.
    fn short_answers(
        &mut self,
        file: &[u8],
        rng: &mut Rng,
        events: &mut Both,
    ) -> Result<(), Failure> {
        type Asked = fn(&Side, &[u8], &mut [u64]) -> u64;
        let all: [(Function, usize, Asked); 5] = [
            (
                Function::Statement,
                STATEMENT_NUMBERS,
                |side, file, answer| (side.statement)(file, answer),
            ),
            (Function::Read, READ_NUMBERS, |side, file, answer| {
                (side.read)(file, answer)
            }),
            (Function::Find, FIND_NUMBERS, |side, file, answer| {
                (side.find)(file, 1, answer)
            }),
            (Function::Call, CALL_NUMBERS, |side, file, answer| {
                (side.call)(file, 0, answer)
            }),
            (Function::Run, RUN_NUMBERS, |side, file, answer| {
                (side.run)(&mut [7; ACCOUNT_NUMBERS], file, answer)
            }),
        ];
        let (function, numbers, asked) = rng.pick(&all);
        let room = rng.below(numbers as u64) as usize;
        let given = self.ask(function, numbers, room, |side, answer| {
            asked(side, file, answer)
        })?;
        for (events, given) in events.iter_mut().zip(given) {
            events.returned(function, given.returned)?;
        }
        Ok(())
    }

    /// trip-2: writing again what a file was read as. A file of just plan and
    /// calls comes out as it is, any other one as a file that reads alike.
    fn write_again(
        &mut self,
        file: &[u8],
        rng: &mut Rng,
        events: &mut Both,
    ) -> Result<(), Failure> {
        let trip = tripfile::read(file).map_err(|number| format!("not read: {number}"))?;
        let case = crate::writes::WriteCase::again(&trip, rng);
        let (returned, buffer) = self.both_write(&case, events)?;
        let written = &buffer[..(BEFORE_CALLS + 8 * trip.calls.len()).min(buffer.len())];
        if returned != ACCEPTED {
            Ok(())
        } else if is_plain(file) && written != file {
            Err("write altered a file of plan and calls".to_string())
        } else if !is_plain(file) && tripfile::read(written).as_ref() != Ok(&trip) {
            Err("what was written is read otherwise".to_string())
        } else {
            Ok(())
        }
    }
}

/// Whether a file that is read holds just plan and calls, in this order.
fn is_plain(file: &[u8]) -> bool {
    damage::get(file, 2) == 2
        && damage::get(file, 3) == PLAN_KIND
        && damage::get(file, 6) == CALLS_KIND
}

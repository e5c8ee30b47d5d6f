//! The two sides of the comparison: the functions of include/meter.h, with
//! slices in place of pointers and counts. Rules library-3 to library-10,
//! library-14.

use crate::caps;
use crate::family::interface::{box_call, box_open, BoxCaller, BoxOpener};
use crate::lines::{self, Declined};
use crate::meter::{Account, Answer};
use crate::numbers::{account, numbers, put_log, put_rest, Numbers};
use crate::plan::Plan;
use crate::statement::{figures_of, run_calls};
use crate::terms::{Call, Kind, Place};
use crate::tripfile::{self, CallReader};

/// library-3: the call was accepted.
pub const ACCEPTED: u64 = 1000;
/// library-3, library-4: the arguments are of no call.
pub const BAD_ARGUMENT: u64 = 1001;
/// library-3: of `Side::call` alone, no further call.
pub const END: u64 = 1002;

/// library-4: how many numbers a plan and the answers have.
pub const PLAN_NUMBERS: usize = 7;
pub const USE_NUMBERS: usize = 5;
pub const AFFORD_NUMBERS: usize = 1;
pub const RUN_NUMBERS: usize = 1;
pub const STATEMENT_NUMBERS: usize = 9;
pub const READ_NUMBERS: usize = 8;
pub const FIND_NUMBERS: usize = 2;
pub const WRITE_NUMBERS: usize = 1;
pub const CALL_NUMBERS: usize = 3;
pub const CAPS_NUMBERS: usize = 5;
pub const TEXT_NUMBERS: usize = 1;

/// Plan, codes, numbers, buffer, answer.
pub type Writer = fn(&[u64], &[u32], &[u32], &mut [u8], &mut [u64]) -> u64;
/// Text, codes, numbers, answer.
pub type TextReader = fn(&[u8], &mut [u32], &mut [u32], &mut [u64]) -> u64;
/// Codes, numbers, text, answer.
pub type TextWriter = fn(&[u32], &[u32], &mut [u8], &mut [u64]) -> u64;

/// A meter. Each function returns one of the three numbers above or that of a
/// refusal (library-3). The header says what it does.
#[derive(Clone, Copy, Debug)]
pub struct Side {
    /// Account, plan.
    pub open: fn(&mut [u64], &[u64]) -> u64,
    /// Account, place.
    pub register: fn(&mut [u64], u64) -> u64,
    /// Account, kind, n, answer.
    pub use_units: fn(&mut [u64], u64, u64, &mut [u64]) -> u64,
    /// Account, points.
    pub top_up: fn(&mut [u64], u64) -> u64,
    /// Account.
    pub next_day: fn(&mut [u64]) -> u64,
    /// Account, kind, answer.
    pub afford: fn(&[u64], u64, &mut [u64]) -> u64,
    /// Account.
    pub is_sound: fn(&[u64]) -> u64,
    /// Account, file, answer.
    pub run: fn(&mut [u64], &[u8], &mut [u64]) -> u64,
    /// File, answer.
    pub statement: fn(&[u8], &mut [u64]) -> u64,
    /// File, answer.
    pub read: fn(&[u8], &mut [u64]) -> u64,
    /// File, kind, answer.
    pub find: fn(&[u8], u32, &mut [u64]) -> u64,
    pub write: Writer,
    /// Calls section, position, answer.
    pub call: fn(&[u8], usize, &mut [u64]) -> u64,
    /// Day, answer.
    pub caps: fn(u64, &mut [u64]) -> u64,
    pub box_open: BoxOpener,
    pub box_call: BoxCaller,
    pub text_read: TextReader,
    pub text_write: TextWriter,
}

/// This crate's meter.
pub const REFERENCE: Side = Side {
    open,
    register: |account, place| on_numbers(account, Step::Register(place), &mut []),
    use_units: |account, kind, n, answer| on_numbers(account, Step::Use(kind, n), answer),
    top_up: |account, points| on_numbers(account, Step::TopUp(points), &mut []),
    next_day: |account| on_numbers(account, Step::NextDay, &mut []),
    afford,
    is_sound,
    run,
    statement,
    read,
    find,
    write,
    call,
    caps,
    box_open,
    box_call,
    text_read,
    text_write,
};

/// The proved meter, if the crate was built with it.
pub fn proved() -> Option<Side> {
    #[cfg(proved)]
    return Some(crate::proved::SIDE);
    #[cfg(not(proved))]
    None
}

/// One call on an account, with any numbers as arguments.
#[derive(Clone, Copy, PartialEq, Eq, Debug)]
pub enum Step {
    /// Place.
    Register(u64),
    /// Kind and n.
    Use(u64, u64),
    /// Points.
    TopUp(u64),
    NextDay,
    /// Kind.
    Afford(u64),
}

impl From<Call> for Step {
    fn from(call: Call) -> Step {
        match call {
            Call::Register(place) => Step::Register(place as u64),
            Call::Use(kind, n) => Step::Use(kind as u64, n),
            Call::TopUp(amount) => Step::TopUp(amount),
            Call::NextDay => Step::NextDay,
            Call::Afford(kind) => Step::Afford(kind as u64),
        }
    }
}

impl Step {
    /// How many numbers its answer has.
    pub fn answers(self) -> usize {
        match self {
            Step::Use(..) => USE_NUMBERS,
            Step::Afford(_) => AFFORD_NUMBERS,
            Step::Register(_) | Step::TopUp(_) | Step::NextDay => 0,
        }
    }

    /// library-4: the call, where place and kind are known ones.
    pub fn call(self) -> Option<Call> {
        let kind = |number: u64| Kind::ALL.get(usize::try_from(number).ok()?).copied();
        match self {
            Step::Register(place) => {
                let place = Place::ALL.get(usize::try_from(place).ok()?);
                Some(Call::Register(*place?))
            }
            Step::Use(number, n) => Some(Call::Use(kind(number)?, n)),
            Step::TopUp(amount) => Some(Call::TopUp(amount)),
            Step::NextDay => Some(Call::NextDay),
            Step::Afford(number) => Some(Call::Afford(kind(number)?)),
        }
    }

    /// Makes the call on a side.
    pub fn make(self, side: &Side, account: &mut [u64], answer: &mut [u64]) -> u64 {
        match self {
            Step::Register(place) => (side.register)(account, place),
            Step::Use(kind, n) => (side.use_units)(account, kind, n, answer),
            Step::TopUp(points) => (side.top_up)(account, points),
            Step::NextDay => (side.next_day)(account),
            Step::Afford(kind) => (side.afford)(account, kind, answer),
        }
    }
}

/// An account of this crate and its numbers. Over a list of calls both are
/// kept, so that the numbers need not be read again at each call.
#[derive(Clone, Debug)]
pub struct Kept {
    pub account: Account,
    pub numbers: Box<Numbers>,
}

impl Kept {
    pub fn new(account: Account) -> Kept {
        let numbers = Box::new(numbers(&account));
        Kept { account, numbers }
    }

    /// Makes a call, as the functions of `REFERENCE` do. Only a day change
    /// touches the log.
    pub fn make(&mut self, step: Step, answer: &mut [u64]) -> u64 {
        let number = on_account(Some(&mut self.account), step, answer);
        if number == ACCEPTED && step == Step::NextDay {
            put_log(&mut self.numbers, &self.account);
        }
        if number == ACCEPTED {
            put_rest(&mut self.numbers, &self.account);
        }
        number
    }
}

/// library-4, library-5: a call on the account, none where numbers stand for no
/// account.
fn on_account(account: Option<&mut Account>, step: Step, answer: &mut [u64]) -> u64 {
    let Some(call) = step.call() else {
        return BAD_ARGUMENT;
    };
    let Some(room) = answer.get_mut(..step.answers()) else {
        return BAD_ARGUMENT;
    };
    let Some(account) = account else {
        return 0;
    };
    put_answer(account.apply(call), room)
}

/// The number of what a call answers; what it answers is put into the first
/// numbers of a list with room for it.
pub fn put_answer(told: Result<Answer, u32>, room: &mut [u64]) -> u64 {
    match told {
        Ok(Answer::Done) => {}
        Ok(Answer::Used {
            home,
            extra,
            surcharged,
            charged,
            notice,
        }) => room[..5].copy_from_slice(&[home, extra, surcharged, charged, u64::from(notice)]),
        Ok(Answer::Most(n)) => room[0] = n,
        Err(number) => return u64::from(number),
    }
    ACCEPTED
}

/// library-6: a call on the account that numbers stand for; if accepted, they
/// change.
fn on_numbers(all: &mut [u64], step: Step, answer: &mut [u64]) -> u64 {
    let mut account = account(all);
    let number = on_account(account.as_mut(), step, answer);
    if let (ACCEPTED, Some(account)) = (number, account) {
        all.copy_from_slice(&numbers(&account));
    }
    number
}

/// library-4: puts what work gives into the first numbers of the answer, where
/// there is room; without room nothing is worked out.
fn answered<const N: usize>(
    answer: &mut [u64],
    work: impl FnOnce() -> Result<[u64; N], u32>,
) -> u64 {
    let Some(room) = answer.first_chunk_mut() else {
        return BAD_ARGUMENT;
    };
    match work() {
        Ok(numbers) => {
            *room = numbers;
            ACCEPTED
        }
        Err(number) => u64::from(number),
    }
}

/// library-4: the plan of seven numbers. No range reaches the last 32-bit word:
/// what is wider is outside, too.
pub fn plan_of(words: &[u64]) -> Option<Plan> {
    let words: [u64; PLAN_NUMBERS] = words.try_into().ok()?;
    let narrow = |word: u64| u32::try_from(word).unwrap_or(u32::MAX);
    Some(Plan::from_words(words.map(narrow)))
}

/// library-7: a new account, or the numbers as they were.
fn open(all: &mut [u64], plan: &[u64]) -> u64 {
    let Some(plan) = plan_of(plan) else {
        return BAD_ARGUMENT;
    };
    let Ok(all) = <&mut Numbers>::try_from(all) else {
        return 0;
    };
    match Account::open(plan) {
        Ok(account) => {
            *all = numbers(&account);
            ACCEPTED
        }
        Err(number) => u64::from(number),
    }
}

fn afford(all: &[u64], kind: u64, answer: &mut [u64]) -> u64 {
    on_account(account(all).as_mut(), Step::Afford(kind), answer)
}

fn is_sound(all: &[u64]) -> u64 {
    match account(all) {
        Some(account) if account.sound() => ACCEPTED,
        _ => 0,
    }
}

/// library-9: the account keeps its plan.
fn run(all: &mut [u64], file: &[u8], answer: &mut [u64]) -> u64 {
    answered(answer, || {
        let mut account = account(all).filter(Account::sound).ok_or(0u32)?;
        let trip = tripfile::read(file)?;
        let refused = run_calls(&mut account, &trip.calls)?;
        all.copy_from_slice(&numbers(&account));
        Ok([refused as u64])
    })
}

fn statement(file: &[u8], answer: &mut [u64]) -> u64 {
    answered(answer, || figures_of(file))
}

fn read(file: &[u8], answer: &mut [u64]) -> u64 {
    answered(answer, || {
        let trip = tripfile::read(file)?;
        let plan = trip.plan.to_words().map(u64::from);
        let count = trip.calls.len() as u64;
        let all: [u64; READ_NUMBERS] =
            std::array::from_fn(|i| plan.get(i).copied().unwrap_or(count));
        Ok(all)
    })
}

/// find-1: where the section starts is told by where its part of the file
/// stands.
fn find(file: &[u8], kind: u32, answer: &mut [u64]) -> u64 {
    answered(answer, || {
        let part = tripfile::find(file, kind)?;
        let start = part.as_ptr() as usize - file.as_ptr() as usize;
        Ok([start as u64, part.len() as u64])
    })
}

fn write(
    plan: &[u64],
    codes: &[u32],
    numbers: &[u32],
    buffer: &mut [u8],
    answer: &mut [u64],
) -> u64 {
    let Some(plan) = plan_of(plan) else {
        return BAD_ARGUMENT;
    };
    answered(answer, || {
        let bytes = tripfile::write(&plan, codes, numbers, buffer)?;
        Ok([bytes as u64])
    })
}

/// reader-1: the call at a position; reader-2: or none.
fn call(section: &[u8], position: usize, answer: &mut [u64]) -> u64 {
    let mut reader = CallReader { section, position };
    answered(answer, || {
        let (code, number) = reader.next().ok_or(END as u32)?;
        Ok([u64::from(code), u64::from(number), reader.position as u64])
    })
}

/// library-10: the caps of a day, and the rows read.
fn caps(day: u64, answer: &mut [u64]) -> u64 {
    answered(answer, || {
        let found = caps::search(day);
        let [data, outgoing, incoming, sms] = found.caps;
        Ok([data, outgoing, incoming, sms, found.read])
    })
}

/// library-14: the calls of a text. refusal-22 answers the line.
fn text_read(text: &[u8], codes: &mut [u32], numbers: &mut [u32], answer: &mut [u64]) -> u64 {
    let Some(room) = answer.first_mut() else {
        return BAD_ARGUMENT;
    };
    match lines::read(text, codes, numbers) {
        Ok(count) => {
            *room = count as u64;
            ACCEPTED
        }
        Err(declined) => {
            if let Declined::Line(line) = declined {
                *room = line as u64;
            }
            u64::from(declined.number())
        }
    }
}

/// library-14: the text of calls.
fn text_write(codes: &[u32], numbers: &[u32], text: &mut [u8], answer: &mut [u64]) -> u64 {
    answered(answer, || {
        let bytes = lines::write(codes, numbers, text)?;
        Ok([bytes as u64])
    })
}

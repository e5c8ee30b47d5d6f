//! What each function can return, by number. Rules order-3, order-4, lines-9,
//! lines-10, library-3.

use super::TripEvents;
use crate::family::interface::BoxStep;
use crate::sides::{Step, ACCEPTED, BAD_ARGUMENT, END};

/// The functions of the interface.
#[derive(Clone, Copy, PartialEq, Eq, Debug)]
pub enum Function {
    Open,
    Register,
    Use,
    TopUp,
    NextDay,
    Afford,
    IsSound,
    Run,
    Statement,
    Read,
    Find,
    Write,
    Call,
    Caps,
    BoxOpen,
    BoxRegister,
    BoxUse,
    BoxTopUp,
    BoxNextDay,
    BoxAfford,
    TextRead,
    TextWrite,
}

type Return = (u64, &'static str);

/// The returns of a function: it may accept, it may refuse by numbers, and there
/// may be others with a name.
macro_rules! returns {
    ($name:literal $(, $number:literal)* $(; $other:ident $what:literal)*) => {
        &[
            (ACCEPTED, concat!($name, " accepted")),
            $(($number, concat!($name, " ", $number)),)*
            $(($other, concat!($name, ", ", $what)),)*
        ]
    };
}

const OPEN: &[Return] = returns!("open", 0, 1, 17, 18, 2; BAD_ARGUMENT "bad argument");
const REGISTER: &[Return] = returns!("register", 0; BAD_ARGUMENT "bad argument");
const USE: &[Return] = returns!("use", 0, 3, 4, 5, 6; BAD_ARGUMENT "bad argument");
const TOP_UP: &[Return] = returns!("top-up", 0, 7, 8);
const NEXT_DAY: &[Return] = returns!("next day", 0, 9);
const AFFORD: &[Return] = returns!("afford", 0, 3; BAD_ARGUMENT "bad argument");
const IS_SOUND: &[Return] = returns!("sound", 0);
const RUN: &[Return] = returns!(
    "run", 0, 10, 11, 12, 13, 14, 15, 1, 17, 18, 2; BAD_ARGUMENT "bad argument"
);
const STATEMENT: &[Return] = returns!(
    "statement", 10, 11, 12, 13, 14, 15, 1, 17, 18, 2; BAD_ARGUMENT "bad argument"
);
const READ: &[Return] = returns!(
    "read", 10, 11, 12, 13, 14, 15, 1, 17, 18, 2; BAD_ARGUMENT "bad argument"
);
const FIND: &[Return] = returns!("find", 10, 11, 12, 13; BAD_ARGUMENT "bad argument");
const WRITE: &[Return] = returns!(
    "write", 1, 17, 18, 2, 14, 15, 16; BAD_ARGUMENT "bad argument"
);
const CALL: &[Return] = returns!("call"; END "end"; BAD_ARGUMENT "bad argument");
const CAPS: &[Return] = returns!("caps"; BAD_ARGUMENT "bad argument");

/// family-11 to family-14: of a box.
const BOX_OPEN: &[Return] = returns!(
    "box open", 0, 1, 17, 18, 2, 19, 20; BAD_ARGUMENT "bad argument"
);
const BOX_REGISTER: &[Return] = returns!("box register", 0, 19; BAD_ARGUMENT "bad argument");
const BOX_USE: &[Return] = returns!(
    "box use", 0, 19, 3, 4, 5, 20, 6; BAD_ARGUMENT "bad argument"
);
const BOX_TOP_UP: &[Return] = returns!("box top-up", 0, 19, 7, 8);
const BOX_NEXT_DAY: &[Return] = returns!("box next day", 0, 19, 9);
const BOX_AFFORD: &[Return] = returns!("box afford", 0, 19, 3; BAD_ARGUMENT "bad argument");

/// lines-9, lines-10: of texts.
const TEXT_READ: &[Return] = returns!("text read", 21, 22, 16; BAD_ARGUMENT "bad argument");
const TEXT_WRITE: &[Return] = returns!(
    "text write", 14, 15, 21, 16; BAD_ARGUMENT "bad argument"
);

const ALL: [&[Return]; 22] = [
    OPEN,
    REGISTER,
    USE,
    TOP_UP,
    NEXT_DAY,
    AFFORD,
    IS_SOUND,
    RUN,
    STATEMENT,
    READ,
    FIND,
    WRITE,
    CALL,
    CAPS,
    BOX_OPEN,
    BOX_REGISTER,
    BOX_USE,
    BOX_TOP_UP,
    BOX_NEXT_DAY,
    BOX_AFFORD,
    TEXT_READ,
    TEXT_WRITE,
];

/// What every function can return.
pub fn all() -> impl Iterator<Item = &'static str> {
    ALL.into_iter().flatten().map(|(_, event)| *event)
}

/// What lists, files and writes come to: no account but sound ones, and no
/// argument that is none.
pub fn of_lists() -> impl Iterator<Item = &'static str> {
    let some = [REGISTER, USE, TOP_UP, NEXT_DAY, AFFORD, READ, FIND, WRITE];
    let boxes = [BOX_REGISTER, BOX_USE, BOX_NEXT_DAY, BOX_AFFORD];
    let returns = some.into_iter().chain(boxes).flatten();
    let usual = returns.filter(|(number, _)| *number != 0 && *number != BAD_ARGUMENT);
    usual.map(|(_, event)| *event)
}

impl Function {
    /// The function of a call on an account.
    pub fn of(step: Step) -> Function {
        match step {
            Step::Register(_) => Function::Register,
            Step::Use(..) => Function::Use,
            Step::TopUp(_) => Function::TopUp,
            Step::NextDay => Function::NextDay,
            Step::Afford(_) => Function::Afford,
        }
    }

    /// The function of a call on a box: each call is told apart. None where its
    /// number is unknown.
    pub fn of_box(step: BoxStep) -> Option<Function> {
        Some(match step.step()? {
            Step::Register(_) => Function::BoxRegister,
            Step::Use(..) => Function::BoxUse,
            Step::TopUp(_) => Function::BoxTopUp,
            Step::NextDay => Function::BoxNextDay,
            Step::Afford(_) => Function::BoxAfford,
        })
    }
}

impl TripEvents {
    /// library-3: what a function returned. A number that it never returns is a
    /// failure.
    pub fn returned(&mut self, function: Function, number: u64) -> Result<(), String> {
        let known = ALL[function as usize].iter();
        match known.clone().find(|(known, _)| *known == number) {
            Some((_, event)) => {
                self.hit(event, true);
                Ok(())
            }
            None => Err(format!("{number} is no return of {function:?}")),
        }
    }
}

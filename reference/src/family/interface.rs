//! The two functions of include/meter.h for a box, as this crate's meter gives
//! them: on numbers, cards and any arguments. Rules library-3 to library-7.

use super::{apply, open, Card, CardCall, Family};
use crate::meter::Account;
use crate::numbers::{account, numbers, put_log, put_rest, Numbers};
use crate::sides::{plan_of, put_answer, Step, ACCEPTED, BAD_ARGUMENT};
use crate::terms::Call;

/// Account, cards, plan.
pub type BoxOpener = fn(&mut [u64], &mut [Card], &[u64]) -> u64;
/// Account, cards, what is called, answer.
pub type BoxCaller = fn(&mut [u64], &mut [Card], BoxStep, &mut [u64]) -> u64;

/// The numbers of the calls: those of a box are one function.
pub mod code {
    pub const REGISTER: u64 = 0;
    pub const USE: u64 = 1;
    pub const TOP_UP: u64 = 2;
    pub const NEXT_DAY: u64 = 3;
    pub const AFFORD: u64 = 4;
}

/// One call on a box, with any numbers as arguments: the call by its number,
/// the place of a card, a place or kind, and units or points. What a call does
/// not use may be anything.
#[derive(Clone, Copy, PartialEq, Eq, Debug)]
pub struct BoxStep {
    pub call: u64,
    pub card: usize,
    pub which: u64,
    pub n: u64,
}

impl From<CardCall> for BoxStep {
    fn from(made: CardCall) -> BoxStep {
        let (call, which, n) = match made.call {
            Call::Register(place) => (code::REGISTER, place as u64, 0),
            Call::Use(kind, n) => (code::USE, kind as u64, n),
            Call::TopUp(amount) => (code::TOP_UP, 0, amount),
            Call::NextDay => (code::NEXT_DAY, 0, 0),
            Call::Afford(kind) => (code::AFFORD, kind as u64, 0),
        };
        BoxStep {
            call,
            card: made.card,
            which,
            n,
        }
    }
}

impl BoxStep {
    /// The call on the account that it stands for; none where its number is
    /// unknown.
    pub fn step(self) -> Option<Step> {
        match self.call {
            code::REGISTER => Some(Step::Register(self.which)),
            code::USE => Some(Step::Use(self.which, self.n)),
            code::TOP_UP => Some(Step::TopUp(self.n)),
            code::NEXT_DAY => Some(Step::NextDay),
            code::AFFORD => Some(Step::Afford(self.which)),
            _ => None,
        }
    }

    /// How many numbers its answer has.
    pub fn answers(self) -> usize {
        self.step().map_or(0, Step::answers)
    }

    /// library-4: the call, where its number, and a place or kind that it
    /// uses, are known ones.
    pub fn made(self) -> Option<CardCall> {
        Some(CardCall {
            card: self.card,
            call: self.step()?.call()?,
        })
    }
}

/// An account of this crate with its numbers, and cards, kept over a list of
/// calls.
#[derive(Clone, Debug)]
pub struct KeptBox {
    pub family: Family,
    pub numbers: Box<Numbers>,
}

impl KeptBox {
    pub fn new(family: Family) -> KeptBox {
        let numbers = Box::new(numbers(&family.account));
        KeptBox { family, numbers }
    }

    /// Makes a call, as `box_call` does. Only a day change touches the log.
    pub fn make(&mut self, step: BoxStep, answer: &mut [u64]) -> u64 {
        let Family { account, cards } = &mut self.family;
        let number = on_box(Some(account), cards, step, answer);
        if number == ACCEPTED && step.call == code::NEXT_DAY {
            put_log(&mut self.numbers, account);
        }
        if number == ACCEPTED {
            put_rest(&mut self.numbers, account);
        }
        number
    }
}

/// library-4, library-5: a call on the account, none where numbers stand for no
/// account, and the cards.
fn on_box(
    account: Option<&mut Account>,
    cards: &mut [Card],
    step: BoxStep,
    answer: &mut [u64],
) -> u64 {
    let Some(made) = step.made() else {
        return BAD_ARGUMENT;
    };
    let Some(room) = answer.get_mut(..step.answers()) else {
        return BAD_ARGUMENT;
    };
    let Some(account) = account else {
        return 0;
    };
    put_answer(apply(account, cards, made), room)
}

/// family-14, library-7: a new account and its cards, or both as they were.
pub fn box_open(all: &mut [u64], cards: &mut [Card], plan: &[u64]) -> u64 {
    let Some(plan) = plan_of(plan) else {
        return BAD_ARGUMENT;
    };
    let Ok(all) = <&mut Numbers>::try_from(all) else {
        return 0;
    };
    match open(plan, cards) {
        Ok(account) => {
            *all = numbers(&account);
            ACCEPTED
        }
        Err(number) => u64::from(number),
    }
}

/// library-6: a call on the account that numbers stand for, and the cards; if
/// accepted, they change.
pub fn box_call(all: &mut [u64], cards: &mut [Card], step: BoxStep, answer: &mut [u64]) -> u64 {
    let mut account = account(all);
    let number = on_box(account.as_mut(), cards, step, answer);
    if let (ACCEPTED, Some(account)) = (number, account) {
        all.copy_from_slice(&numbers(&account));
    }
    number
}

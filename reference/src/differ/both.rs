//! What both sides give for the same arguments, held against each other.

use super::Differ;
use crate::check::Failure;
use crate::coverage::returns::Function;
use crate::family::Card;
use crate::numbers::{Numbers, ACCOUNT_NUMBERS};
use crate::sides::{Side, ACCEPTED, REFERENCE};

/// More numbers than any answer has.
pub const ROOM: usize = 12;
/// What stands in an answer before the call.
const BLANK: [u64; ROOM] = {
    let mut numbers = [0; ROOM];
    let mut i = 0;
    while i < ROOM {
        numbers[i] = 0xA5A5_A5A5_0000_0000 + i as u64;
        i += 1;
    }
    numbers
};

/// What a call returned, and the memory of its answer afterwards.
#[derive(Clone, Copy, PartialEq, Eq, Debug)]
pub struct Given {
    pub returned: u64,
    pub answer: [u64; ROOM],
}

impl Given {
    /// Makes a call that is lent so many numbers for its answer.
    pub fn of(room: usize, call: impl FnOnce(&mut [u64]) -> u64) -> Given {
        let mut answer = BLANK;
        let returned = call(&mut answer[..room]);
        Given { returned, answer }
    }

    /// A call that is accepted with an answer.
    pub fn accepted(numbers: &[u64]) -> Given {
        let mut answer = BLANK;
        answer[..numbers.len()].copy_from_slice(numbers);
        Given {
            returned: ACCEPTED,
            answer,
        }
    }

    /// library-5: whether all but so many numbers of the answer stayed.
    fn keeps_the_rest(&self, written: usize) -> bool {
        self.answer[written..] == BLANK[written..]
    }
}

/// Holds what two sides gave against each other; an answer has so many numbers,
/// and there is none where the call was not accepted.
pub fn agree(numbers: usize, ours: &Given, theirs: &Given) -> Result<(), Failure> {
    agree_where(theirs.returned == ACCEPTED, numbers, ours, theirs)
}

/// The same, told whether there is an answer.
pub fn agree_where(
    answered: bool,
    numbers: usize,
    ours: &Given,
    theirs: &Given,
) -> Result<(), Failure> {
    if ours.returned != theirs.returned {
        return Err(format!(
            "returned {}, not {}",
            theirs.returned, ours.returned
        ));
    }
    if ours.answer != theirs.answer {
        let [ours, theirs] = [ours, theirs].map(|given| &given.answer[..numbers]);
        return Err(format!("answered {theirs:?}, not {ours:?}"));
    }
    if !theirs.keeps_the_rest(if answered { numbers } else { 0 }) {
        return Err("wrote past its answer, or without being accepted".to_string());
    }
    Ok(())
}

/// Holds the numbers of two accounts against each other.
pub fn same_numbers(ours: &[u64], theirs: &[u64]) -> Result<(), Failure> {
    if ours == theirs {
        return Ok(());
    }
    let differs = |at: &usize| ours[*at] != theirs[*at];
    match (0..ours.len().min(theirs.len())).find(differs) {
        Some(at) => Err(format!(
            "number {at} of the account is {}, not {}",
            theirs[at], ours[at]
        )),
        None => Err("another count of numbers".to_string()),
    }
}

/// An account's memory, with numbers before and behind it that must stay.
#[derive(Clone, Debug)]
pub struct Lent {
    memory: Vec<u64>,
}

const MARGIN: usize = 4;
const GUARD: u64 = 0x5A5A_5A5A_5A5A_5A5A;

impl Lent {
    pub fn new(account: &Numbers) -> Lent {
        let guards = [GUARD; MARGIN];
        Lent {
            memory: [&guards[..], account, &guards[..]].concat(),
        }
    }

    pub fn numbers(&self) -> &Numbers {
        let all = &self.memory[MARGIN..][..ACCOUNT_NUMBERS];
        all.try_into().expect("as many numbers")
    }

    pub fn numbers_mut(&mut self) -> &mut [u64] {
        self.some_mut(ACCOUNT_NUMBERS)
    }

    /// The memory as one of another count, up to four more.
    pub fn some_mut(&mut self, count: usize) -> &mut [u64] {
        &mut self.memory[MARGIN..][..count]
    }

    /// The account must be as it should, and nothing around it changed.
    pub fn holds(&self, account: &Numbers) -> Result<(), Failure> {
        same_numbers(account, self.numbers())?;
        let (before, behind) = (
            &self.memory[..MARGIN],
            &self.memory[MARGIN + ACCOUNT_NUMBERS..],
        );
        if before != [GUARD; MARGIN] || behind != [GUARD; MARGIN] {
            return Err("a number beside the account was changed".to_string());
        }
        Ok(())
    }
}

/// Holds the cards of two boxes against each other.
fn same_cards(ours: &[Card], theirs: &[Card]) -> Result<(), Failure> {
    let differs = |at: &usize| ours[*at] != theirs[*at];
    match (0..ours.len()).find(differs) {
        Some(at) => Err(format!("card {at} is {:?}, not {:?}", theirs[at], ours[at])),
        None => Ok(()),
    }
}

/// The memory of an account and of cards, with others before and behind them
/// that must stay.
#[derive(Clone, Debug)]
pub struct LentBox {
    account: Lent,
    cards: Vec<Card>,
}

const GUARD_CARD: Card = Card {
    lifetime: [GUARD; 4],
    monthly: GUARD,
    allowance: GUARD,
};

impl LentBox {
    pub fn new(account: &Numbers, cards: &[Card]) -> LentBox {
        LentBox {
            account: Lent::new(account),
            cards: [&[GUARD_CARD], cards, &[GUARD_CARD]].concat(),
        }
    }

    pub fn numbers(&self) -> &Numbers {
        self.account.numbers()
    }

    pub fn cards(&self) -> &[Card] {
        &self.cards[1..self.cards.len() - 1]
    }

    pub fn both_mut(&mut self) -> (&mut [u64], &mut [Card]) {
        self.some_mut(ACCOUNT_NUMBERS)
    }

    /// The account's memory as one of another count, and the cards.
    fn some_mut(&mut self, count: usize) -> (&mut [u64], &mut [Card]) {
        let behind = self.cards.len() - 1;
        let cards = &mut self.cards[1..behind];
        (self.account.some_mut(count), cards)
    }

    /// Account and cards must be as they should, and nothing around them
    /// changed.
    pub fn holds(&self, account: &Numbers, cards: &[Card]) -> Result<(), Failure> {
        self.account.holds(account)?;
        same_cards(cards, self.cards())?;
        let around = [self.cards.first(), self.cards.last()];
        if around != [Some(&GUARD_CARD); 2] {
            return Err("a number beside the cards was changed".to_string());
        }
        Ok(())
    }
}

/// What a list may hold, and what stands before and behind it.
pub trait Guarded: Copy + PartialEq + std::fmt::Debug {
    const GUARD: Self;
}

impl Guarded for u32 {
    const GUARD: u32 = GUARD as u32;
}

impl Guarded for u8 {
    const GUARD: u8 = GUARD as u8;
}

/// A list or a buffer in memory, with others before and behind it that must
/// stay.
#[derive(Clone, Debug)]
pub struct LentList<T> {
    memory: Vec<T>,
}

impl<T: Guarded> LentList<T> {
    pub fn new(list: &[T]) -> LentList<T> {
        let guards = [T::GUARD; MARGIN];
        LentList {
            memory: [&guards[..], list, &guards[..]].concat(),
        }
    }

    pub fn list(&self) -> &[T] {
        &self.memory[MARGIN..self.memory.len() - MARGIN]
    }

    pub fn list_mut(&mut self) -> &mut [T] {
        let behind = self.memory.len() - MARGIN;
        &mut self.memory[MARGIN..behind]
    }

    /// The list must be as it should, and nothing around it changed; `what` is
    /// what it holds.
    pub fn holds(&self, what: &str, wanted: &[T]) -> Result<(), Failure> {
        let list = self.list();
        if let Some(at) = (0..wanted.len()).find(|at| list[*at] != wanted[*at]) {
            let (is, not) = (list[at], wanted[at]);
            return Err(format!("{what} {at} is {is:?}, not {not:?}"));
        }
        let (before, behind) = (&self.memory[..MARGIN], &self.memory[MARGIN + list.len()..]);
        if before != [T::GUARD; MARGIN] || behind != [T::GUARD; MARGIN] {
            return Err(format!("a {what} beside the list was changed"));
        }
        Ok(())
    }
}

impl Differ {
    /// A function without an account, on both sides: an answer has so many
    /// numbers, and so many are lent for it.
    pub(super) fn ask(
        &self,
        function: Function,
        numbers: usize,
        room: usize,
        call: impl Fn(&Side, &mut [u64]) -> u64,
    ) -> Result<[Given; 2], Failure> {
        let ours = Given::of(room, |answer| call(&REFERENCE, answer));
        let theirs = Given::of(room, |answer| call(&self.other, answer));
        let agreed = agree(numbers, &ours, &theirs);
        agreed.map_err(|what| format!("{function:?} {what}"))?;
        Ok([ours, theirs])
    }

    /// A function that is lent an account, on both sides, each on memory of its
    /// own. Answers what both gave and the accounts after it.
    pub(super) fn ask_account(
        &mut self,
        account: &Numbers,
        numbers: usize,
        room: usize,
        call: impl Fn(&Side, &mut [u64], &mut [u64]) -> u64,
    ) -> Result<([Given; 2], [Lent; 2]), Failure> {
        let mut lent = [Lent::new(account), Lent::new(account)];
        let [ours, theirs] = &mut lent;
        let our_given = Given::of(room, |answer| call(&REFERENCE, ours.numbers_mut(), answer));
        let their_given = Given::of(room, |answer| {
            call(&self.other, theirs.numbers_mut(), answer)
        });
        self.calls += 1;
        agree(numbers, &our_given, &their_given)?;
        theirs.holds(ours.numbers())?;
        if their_given.returned != ACCEPTED {
            theirs.holds(account)?;
        }
        Ok(([our_given, their_given], lent))
    }

    /// The same with another count of the account's numbers: 0 to four more.
    pub(super) fn ask_counted(
        &mut self,
        account: &Numbers,
        count: usize,
        room: usize,
        call: impl Fn(&Side, &mut [u64], &mut [u64]) -> u64,
    ) -> Result<[Given; 2], Failure> {
        let mut lent = [Lent::new(account), Lent::new(account)];
        let [ours, theirs] = &mut lent;
        let ours = Given::of(room, |answer| {
            call(&REFERENCE, ours.some_mut(count), answer)
        });
        let their_given = Given::of(room, |answer| {
            call(&self.other, theirs.some_mut(count), answer)
        });
        self.calls += 1;
        let counted = |what| format!("with an account of {count} numbers: {what}");
        agree(0, &ours, &their_given).map_err(counted)?;
        theirs.holds(account).map_err(counted)?;
        Ok([ours, their_given])
    }

    /// A function that is lent an account and cards, on both sides, each on
    /// memory of its own. Answers what both gave and the boxes after it.
    pub(super) fn ask_box(
        &mut self,
        account: &Numbers,
        cards: &[Card],
        numbers: usize,
        room: usize,
        call: impl Fn(&Side, &mut [u64], &mut [Card], &mut [u64]) -> u64,
    ) -> Result<([Given; 2], [LentBox; 2]), Failure> {
        let mut lent = [LentBox::new(account, cards), LentBox::new(account, cards)];
        let made = |side: &Side, lent: &mut LentBox| {
            Given::of(room, |answer| {
                let (account, cards) = lent.both_mut();
                call(side, account, cards, answer)
            })
        };
        let [ours, theirs] = &mut lent;
        let our_given = made(&REFERENCE, ours);
        let their_given = made(&self.other, theirs);
        self.calls += 1;
        agree(numbers, &our_given, &their_given)?;
        theirs.holds(ours.numbers(), ours.cards())?;
        if their_given.returned != ACCEPTED {
            theirs.holds(account, cards)?;
        }
        Ok(([our_given, their_given], lent))
    }

    /// The same with another count of the account's numbers: 0 to four more.
    pub(super) fn ask_box_counted(
        &mut self,
        account: &Numbers,
        count: usize,
        cards: &[Card],
        call: impl Fn(&Side, &mut [u64], &mut [Card], &mut [u64]) -> u64,
    ) -> Result<[Given; 2], Failure> {
        let mut lent = [LentBox::new(account, cards), LentBox::new(account, cards)];
        let made = |side: &Side, lent: &mut LentBox| {
            Given::of(ROOM, |answer| {
                let (account, cards) = lent.some_mut(count);
                call(side, account, cards, answer)
            })
        };
        let [ours, theirs] = &mut lent;
        let (ours, their_given) = (made(&REFERENCE, ours), made(&self.other, theirs));
        self.calls += 1;
        let counted = |what| format!("box, with an account of {count} numbers: {what}");
        agree(0, &ours, &their_given).map_err(counted)?;
        theirs.holds(account, cards).map_err(counted)?;
        Ok([ours, their_given])
    }
}

//! A family box: one account that up to 16 cards share, and the cards, a list
//! of records that the caller lends to each call (family-1). What is not a
//! card's own is the account's, and so common to all of them (family-5). A
//! refusal is its number and changes neither (order-2). Rules family-1 to
//! family-9, family-11 to family-14; family-10 is in `matching`.

pub mod any;
pub mod check;
pub mod generate;
pub mod interface;
pub mod matching;

use crate::calendar::is_first_day;
use crate::caps::caps_on;
use crate::meter::{Account, Answer};
use crate::plan::Plan;
use crate::planted::{planted, Wrong};
use crate::terms::{Call, Kind, Place};

/// family-1: the most cards of a box.
pub const MAX_CARDS: usize = 16;
/// family-3: the largest allowance, in kB a month.
pub const MAX_ALLOWANCE: u64 = 1_000_000_000_000;

/// family-1: a card's record, laid out as include/meter.h has it: six numbers.
#[repr(C)]
#[derive(Clone, Copy, PartialEq, Eq, Debug, Default)]
pub struct Card {
    /// Units over the card's life, by `Kind`.
    pub lifetime: [u64; 4],
    /// family-2: kB of the month, wherever they were used.
    pub monthly: u64,
    /// family-3: the most kB of a month.
    pub allowance: u64,
}

/// family-7: a call on a box, with the place of the card that Use and Afford
/// name, from 0. The others name none and leave it unread.
#[derive(Clone, Copy, PartialEq, Eq, Debug)]
pub struct CardCall {
    pub card: usize,
    pub call: Call,
}

/// The account and the cards of a box together, for lists of calls.
#[derive(Clone, PartialEq, Eq, Debug)]
pub struct Family {
    pub account: Account,
    pub cards: Vec<Card>,
}

impl Family {
    pub fn open(plan: Plan, mut cards: Vec<Card>) -> Result<Family, u32> {
        let account = open(plan, &mut cards)?;
        Ok(Family { account, cards })
    }

    pub fn sound(&self) -> bool {
        sound(&self.account, &self.cards)
    }

    /// family-9: any call of a list, on what the last one left.
    pub fn apply(&mut self, made: CardCall) -> Result<Answer, u32> {
        apply(&mut self.account, &mut self.cards, made)
    }
}

impl Card {
    /// family-3: a card as the opening leaves it.
    pub fn new(allowance: u64) -> Card {
        Card {
            allowance,
            ..Card::default()
        }
    }

    /// family-11: what a card has to keep by itself.
    fn sound(&self) -> bool {
        let spent = self.monthly <= self.lifetime[Kind::Data as usize];
        self.allowance <= MAX_ALLOWANCE
            && (spent || planted(Wrong::MonthPastLifetime))
            && (self.monthly <= self.allowance || planted(Wrong::MonthPastAllowance))
    }

    /// family-13: the most units of a kind that the allowance leaves.
    fn room(&self, kind: Kind) -> u64 {
        match kind {
            Kind::Data => self.allowance.saturating_sub(self.monthly),
            Kind::Outgoing | Kind::Incoming | Kind::Sms => u64::MAX,
        }
    }

    /// family-13: 20 where the use is data beyond the allowance.
    fn allows(&self, kind: Kind, n: u64) -> Result<(), u32> {
        let one_less = u64::from(planted(Wrong::AllowanceNotReached));
        if n > self.room(kind).saturating_sub(one_less) {
            return Err(20);
        }
        Ok(())
    }

    /// family-2, family-6: the card's part of an accepted use.
    fn count(&mut self, place: Option<Place>, kind: Kind, n: u64) {
        self.lifetime[kind as usize] += n;
        let counts = place == Some(Place::Zone) || !planted(Wrong::MonthOfZoneAlone);
        if kind == Kind::Data && counts {
            self.monthly += n;
        }
    }
}

/// family-11: refusal-0 of a box looks at account and cards.
pub fn sound(account: &Account, cards: &[Card]) -> bool {
    account.sound() && adds_up(account, cards) && cards.iter().all(Card::sound)
}

/// family-8: whether the cards have the account's lifetime units, kind by kind.
/// The sums are exact, whatever numbers any count of cards holds.
fn adds_up(account: &Account, cards: &[Card]) -> bool {
    let left_out = usize::from(planted(Wrong::LastCardNotSummed));
    let mut sums = [0u128; 4];
    for card in &cards[..cards.len().saturating_sub(left_out)] {
        for (sum, units) in sums.iter_mut().zip(card.lifetime) {
            *sum += u128::from(units);
        }
    }
    if planted(Wrong::CardSumsWrap) {
        return sums.map(|sum| sum as u64) == account.lifetime;
    }
    sums == account.lifetime.map(u128::from)
}

/// What every call looks at first: family-11, then family-12, where a call may
/// name a card.
fn look(account: &Account, cards: &[Card], named: Option<usize>) -> Result<(), u32> {
    let most = MAX_CARDS + usize::from(planted(Wrong::OneCardMore));
    let empty = planted(Wrong::EmptyListRefused) && cards.is_empty();
    let no_list = cards.len() > most || empty;
    let no_card = named.is_some_and(|card| card >= cards.len());
    if planted(Wrong::CardBeforeSoundness) && (no_list || no_card) {
        return Err(19);
    }
    if !sound(account, cards) {
        return Err(0);
    }
    if no_list || no_card {
        return Err(19);
    }
    Ok(())
}

/// Open: 1, 17, 18, 2, and family-14: 19, 20. family-3: allowances stay, all
/// else of a card becomes 0.
pub fn open(plan: Plan, cards: &mut [Card]) -> Result<Account, u32> {
    let account = Account::open(plan)?;
    let no_list = !(1..=MAX_CARDS).contains(&cards.len());
    let out_of_range = cards.iter().any(|card| card.allowance > MAX_ALLOWANCE);
    if planted(Wrong::AllowanceBeforeList) && out_of_range {
        return Err(20);
    }
    if no_list {
        return Err(19);
    }
    if out_of_range {
        return Err(20);
    }
    for card in cards {
        let lifetime = card.lifetime;
        *card = Card::new(card.allowance);
        if planted(Wrong::OpeningKeepsUnits) {
            card.lifetime = lifetime;
        }
    }
    Ok(account)
}

/// Register: 0, 19.
pub fn register(account: &mut Account, cards: &[Card], place: Place) -> Result<Answer, u32> {
    look(account, cards, None)?;
    Ok(account.enter(place, &caps_on(account.day)))
}

/// Top-up: 0, 19, 7, 8.
pub fn top_up(account: &mut Account, cards: &[Card], amount: u64) -> Result<Answer, u32> {
    look(account, cards, None)?;
    account.pay_in(amount, &caps_on(account.day))
}

/// Use: 0, 19, 3, 4, 5, 20, 6. family-6: it changes the account and the card
/// that it names.
pub fn use_units(
    account: &mut Account,
    cards: &mut [Card],
    card: usize,
    kind: Kind,
    n: u64,
) -> Result<Answer, u32> {
    look(account, cards, Some(card))?;
    if planted(Wrong::AllowanceFirst) {
        cards[card].allows(kind, n)?;
    }
    let weighed = account.weigh(kind, n, &caps_on(account.day))?;
    if planted(Wrong::CreditBeforeAllowance) {
        account.pays(&weighed)?;
    }
    cards[card].allows(kind, n)?;
    account.pays(&weighed)?;
    cards[card].count(account.place, kind, n);
    if planted(Wrong::NextCardCountsToo) && kind == Kind::Data {
        let next = &mut cards[(card + 1) % cards.len()];
        let most = next.allowance.min(next.lifetime[Kind::Data as usize]);
        next.monthly = (next.monthly + n).min(most);
    }
    Ok(account.take(weighed))
}

/// Next day: 0, 19, 9. family-4: with the account's month that of each card
/// turns, whatever the plan is.
pub fn next_day(account: &mut Account, cards: &mut [Card]) -> Result<Answer, u32> {
    look(account, cards, None)?;
    let answer = account.change_day()?;
    let left_out = planted(Wrong::MonthOfBundlesAlone) && account.plan.is_prepaid();
    if is_first_day(account.day) && !left_out {
        cards.iter_mut().for_each(|card| card.monthly = 0);
    }
    Ok(answer)
}

/// Afford: 0, 19, 3. What the account accepts and what the allowance leaves
/// both are all n up to a greatest one: the lesser of these is the answer.
pub fn afford(account: &Account, cards: &[Card], card: usize, kind: Kind) -> Result<Answer, u32> {
    look(account, cards, Some(card))?;
    let most = account.most(kind, &caps_on(account.day))?;
    if planted(Wrong::AffordPastAllowance) {
        return Ok(Answer::Most(most));
    }
    Ok(Answer::Most(most.min(cards[card].room(kind))))
}

/// Any call on a box.
pub fn apply(account: &mut Account, cards: &mut [Card], made: CardCall) -> Result<Answer, u32> {
    match made.call {
        Call::Register(place) => register(account, cards, place),
        Call::Use(kind, n) => use_units(account, cards, made.card, kind, n),
        Call::TopUp(amount) => top_up(account, cards, amount),
        Call::NextDay => next_day(account, cards),
        Call::Afford(kind) => afford(account, cards, made.card, kind),
    }
}

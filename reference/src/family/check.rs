//! The checks that each random list on a box goes through: against a book of
//! the box, which is the account's with the card of each use beside it; a box
//! with one card against the account alone; and pairs of lists. Rules family-2
//! to family-10, family-12, family-13, afford-1, order-2, book-12.

use super::generate::{self, BoxCase};
use super::interface::{BoxStep, KeptBox};
use super::matching::{self, BoxTrace};
use super::{open, Card, CardCall, Family};
use crate::book::Book;
use crate::calendar::{month_of, FIRST_DAYS};
use crate::check::{compare, demand, Failure};
use crate::coverage::boxes::BoxObserved;
use crate::coverage::seen::{rest, Seen};
use crate::coverage::TripEvents;
use crate::meter::{Account, Answer};
use crate::rng::Rng;
use crate::sides::{ACCEPTED, USE_NUMBERS};
use crate::terms::{Call, Kind};

/// All checks of the box of a seed; answers how many calls the list had.
pub fn check_box(seed: u64, events: &mut TripEvents) -> Result<usize, Failure> {
    let mut rng = Rng::new(seed ^ 0xFA31_C4EC);
    let case = generate::case(seed);
    check_list(&case, &mut rng, events)?;
    check_one_card(&case.with_one_card())?;
    check_box_pairs(&case, &mut rng, events)?;
    Ok(case.calls.len())
}

/// A use of a card, with its day.
#[derive(Clone, Copy, Debug)]
struct CardUse {
    card: usize,
    day: u32,
    kind: Kind,
    n: u64,
}

/// The book of a box.
struct BoxBook {
    book: Book,
    allowances: Vec<u64>,
    uses: Vec<CardUse>,
}

impl BoxBook {
    fn new(case: &BoxCase) -> BoxBook {
        BoxBook {
            book: Book::new(case.plan),
            allowances: case.cards.iter().map(|card| card.allowance).collect(),
            uses: Vec::new(),
        }
    }

    fn feed(&mut self, made: CardCall, accepted: bool) {
        if let (Call::Use(kind, n), true) = (made.call, accepted) {
            let (card, day) = (made.card, self.book.day());
            self.uses.push(CardUse { card, day, kind, n });
        }
        self.book.feed(made.call, accepted);
    }

    /// family-2, family-4: a card's kB since the month's first day.
    fn monthly(&self, card: usize) -> u64 {
        let first = FIRST_DAYS[month_of(self.book.day())];
        let from = self.uses.partition_point(|one| one.day < first);
        units(&self.uses[from..], card, Kind::Data)
    }

    /// family-3, family-6: a card as its own uses make it.
    fn card(&self, card: usize) -> Card {
        Card {
            lifetime: Kind::ALL.map(|kind| units(&self.uses, card, kind)),
            monthly: self.monthly(card),
            allowance: self.allowances[card],
        }
    }

    /// family-12, family-13: the number that a call would be refused with now,
    /// or 0.
    fn verdict(&self, made: CardCall) -> u32 {
        let names_card = matches!(made.call, Call::Use(_, _) | Call::Afford(_));
        let cards = self.allowances.len();
        if cards > 16 || (names_card && made.card >= cards) {
            return 19;
        }
        let verdict = self.book.verdict(made.call);
        match made.call {
            Call::Use(Kind::Data, n) if verdict == 0 || verdict == 6 => {
                let month = self.monthly(made.card) + n;
                if month > self.allowances[made.card] {
                    20
                } else {
                    verdict
                }
            }
            _ => verdict,
        }
    }
}

fn units(uses: &[CardUse], card: usize, kind: Kind) -> u64 {
    let own = |one: &&CardUse| one.card == card && one.kind == kind;
    uses.iter().filter(own).map(|one| one.n).sum()
}

/// family-9: the box against its book after every call.
fn check_list(case: &BoxCase, rng: &mut Rng, events: &mut TripEvents) -> Result<(), Failure> {
    check_opening(case, events)?;
    let mut kept = KeptBox::new(case.begin());
    let mut book = BoxBook::new(case);
    for (index, made) in case.calls.iter().enumerate() {
        let whole = one_call(&mut kept, &mut book, *made, rng, events);
        whole.map_err(|what| format!("box, call {index}, {made:?}: {what}"))?;
    }
    Ok(())
}

/// family-14: the opening, or 19 that leaves the cards.
fn check_opening(case: &BoxCase, events: &mut TripEvents) -> Result<(), Failure> {
    let mut cards = case.cards.clone();
    let opened = open(case.plan, &mut cards);
    let returned = opened
        .as_ref()
        .map_or_else(|number| u64::from(*number), |_| ACCEPTED);
    let plan = case.plan.to_words().map(u64::from);
    events.box_open(
        crate::numbers::ACCOUNT_NUMBERS,
        &case.cards,
        &plan,
        returned,
    )?;
    let right = match opened {
        Ok(account) => Family { account, cards } == case.begin() && case.opens(),
        Err(number) => number == 19 && cards == case.cards && !case.opens(),
    };
    demand(right, || format!("box, opening: {returned}"))
}

fn one_call(
    kept: &mut KeptBox,
    book: &mut BoxBook,
    made: CardCall,
    rng: &mut Rng,
    events: &mut TripEvents,
) -> Result<(), Failure> {
    let before = kept.family.clone();
    let numbers = *rest(&kept.numbers);
    let (step, mut answer) = (BoxStep::from(made), [0; USE_NUMBERS]);
    let returned = kept.make(step, &mut answer);
    let verdict = match book.verdict(made) {
        0 => ACCEPTED,
        number => u64::from(number),
    };
    demand(returned == verdict, || {
        format!("returned {returned}, the book says {verdict}")
    })?;
    let accepted = returned == ACCEPTED;
    let family = &kept.family;
    demand(accepted || *family == before, || {
        "a refusal altered".to_string()
    })?;
    book.feed(made, accepted);
    events.box_call(&BoxObserved {
        step,
        returned,
        answer: &answer,
        before: Seen(&numbers),
        now: Seen(rest(&kept.numbers)),
        cards: &before.cards,
        cards_now: &family.cards,
        alone: most_alone(&before.account, made.call),
    })?;
    compare(&family.account, &book.book)?;
    compare_cards(family, book)?;
    let card = rng.below(family.cards.len() as u64 + 1) as usize;
    check_afford(family, card, rng.pick(&Kind::ALL), events)
}

/// Of Afford, what the account alone answers.
fn most_alone(account: &Account, call: Call) -> Option<u64> {
    match call {
        Call::Afford(kind) => match account.afford(kind) {
            Ok(Answer::Most(n)) => Some(n),
            _ => None,
        },
        _ => None,
    }
}

/// family-6, family-8, family-11: each card is what its uses make it, all add
/// up to the account, and the box is sound.
fn compare_cards(family: &Family, book: &BoxBook) -> Result<(), Failure> {
    for (place, card) in family.cards.iter().enumerate() {
        let wanted = book.card(place);
        demand(*card == wanted, || {
            format!("card {place} is {card:?}, not {wanted:?}")
        })?;
    }
    let sum = |kind: usize| family.cards.iter().map(|card| card.lifetime[kind]).sum();
    let sums: [u64; 4] = [0, 1, 2, 3].map(sum);
    let lifetime = family.account.lifetime;
    demand(sums == lifetime, || {
        format!("cards {sums:?}, account {lifetime:?}")
    })?;
    demand(family.sound(), || "box not sound".to_string())
}

/// afford-1: a card's Use accepts its Afford's n and refuses one more.
fn check_afford(
    family: &Family,
    card: usize,
    kind: Kind,
    events: &mut TripEvents,
) -> Result<(), Failure> {
    let make = |call: Call| family.clone().apply(CardCall { card, call });
    let n = match make(Call::Afford(kind)) {
        Ok(Answer::Most(n)) => n,
        Err(3 | 19) => return Ok(()),
        other => return Err(format!("a card's Afford: {other:?}")),
    };
    for units in [n, n + 1] {
        let used = make(Call::Use(kind, units));
        let right = used.is_ok() == (units == n) || units == 0;
        demand(right, || {
            format!("Afford {n} of {kind:?}, {units}: {used:?}")
        })?;
        if kind == Kind::Data {
            let number = used.map_or_else(u64::from, |_| ACCEPTED);
            events.box_use_after_afford(n, units, number);
        }
    }
    Ok(())
}

/// family-5, family-8: one card that has the largest allowance is as the
/// account alone: lifetime kB come to their limit before monthly ones.
fn check_one_card(case: &BoxCase) -> Result<(), Failure> {
    let mut family = case.begin();
    let mut alone = family.account.clone();
    for (index, made) in case.calls.iter().enumerate() {
        let (ours, theirs) = (family.apply(*made), alone.apply(made.call));
        let same = ours == theirs && family.account == alone;
        demand(same, || {
            format!("one card, call {index}, {made:?}: {ours:?}, not {theirs:?}")
        })?;
        let units = family.cards[0].lifetime == alone.lifetime;
        demand(units, || format!("one card, call {index}: its units"))?;
    }
    Ok(())
}

/// family-10: the claim about pairs of lists; answers the lists that the case
/// was paired with.
pub fn check_box_pairs(
    case: &BoxCase,
    rng: &mut Rng,
    events: &mut TripEvents,
) -> Result<Vec<Vec<CardCall>>, Failure> {
    let first = matching::trace(case);
    let mut lists = vec![matching::rearranged(rng, &first)];
    lists.extend(matching::exchanged(rng, &first));
    let alike = lists.len();
    lists.push(matching::altered(rng, case));
    lists.extend(matching::divided(rng, case));
    for (index, calls) in lists.iter().enumerate() {
        let other = matching::trace(&BoxCase {
            calls: calls.clone(),
            ..case.clone()
        });
        let same = *calls == case.calls;
        events.box_pair(&first.stretches, &other.stretches, same);
        check_pair(&first, &other, index < alike)?;
    }
    Ok(lists)
}

/// Two lists of the same cuts, and whether they are made to agree.
fn check_pair(first: &BoxTrace, other: &BoxTrace, alike: bool) -> Result<(), Failure> {
    let (ours, theirs) = (&first.stretches, &other.stretches);
    demand(ours.cuts == theirs.cuts, || "box: other cuts".to_string())?;
    demand(!alike || ours.agree(theirs), || {
        "box: rearranged uses were refused".to_string()
    })?;
    demand(first.matches(other), || {
        format!(
            "box: stretches agree: {}, boxes do not match that",
            ours.agree(theirs)
        )
    })
}

//! Boxes for the comparison, as numbers and cards: units of any account dealt
//! out among cards, cards with one fault alone, and others to damage them with.
//! Rules family-8, family-11, family-12.

use super::{Card, MAX_ALLOWANCE};
use crate::accounts::edges::roomy;
use crate::accounts::{other_number, some_of};
use crate::coverage::cards::CardFault;
use crate::generate::any_plan;
use crate::meter::Account;
use crate::numbers::{at, numbers, Numbers};
use crate::rng::Rng;
use crate::terms::{Kind, Place};

/// So many cards whose units add up to the account's, and that are sound where
/// the account is. Without cards nothing adds up to units.
pub fn dealt(rng: &mut Rng, all: &Numbers, count: usize) -> Vec<Card> {
    let mut cards = vec![Card::default(); count];
    if count == 0 {
        return cards;
    }
    for kind in 0..4 {
        deal(rng, all[at::LIFETIME + kind], &mut cards, kind);
    }
    for card in &mut cards {
        card.monthly = some_of(rng, card.lifetime[0].min(MAX_ALLOWANCE));
        let more = MAX_ALLOWANCE - card.monthly;
        card.allowance = card.monthly
            + match rng.below(6) {
                0 | 1 => 0,
                2 => rng.below(3).min(more),
                3 => more,
                4 => rng.scaled(1 << 24).min(more),
                _ => rng.scaled(more),
            };
    }
    cards
}

/// family-8: units of a kind among the cards, some of which get none.
fn deal(rng: &mut Rng, total: u64, cards: &mut [Card], kind: usize) {
    let mut left = total;
    for _ in 1..cards.len().min(6) {
        let part = some_of(rng, left / 2);
        rng.pick_mut(cards).lifetime[kind] += part;
        left -= part;
    }
    rng.pick_mut(cards).lifetime[kind] += left;
}

/// A fault of cards, and whether the sums would be right in 64 bits.
type Alone = (CardFault, bool);

/// family-11: the faults that boxes have alone, one by one.
pub const ALONE: [Alone; 15] = [
    (CardFault::More(0), false),
    (CardFault::More(1), false),
    (CardFault::More(2), false),
    (CardFault::More(3), false),
    (CardFault::Fewer(0), false),
    (CardFault::Fewer(1), false),
    (CardFault::Fewer(2), false),
    (CardFault::Fewer(3), false),
    (CardFault::More(0), true),
    (CardFault::More(1), true),
    (CardFault::More(2), true),
    (CardFault::More(3), true),
    (CardFault::MonthPastLifetime, false),
    (CardFault::MonthPastAllowance, false),
    (CardFault::Allowance, false),
];

/// A box with one fault of its cards, most often by one.
pub fn faulty(rng: &mut Rng, (fault, wraps): Alone) -> (Box<Numbers>, Vec<Card>) {
    let form = any_plan(rng).form;
    let all = roomy(rng, form);
    let count = match rng.below(4) {
        0 => 2,
        1 => 16,
        2 => rng.between(2, 17),
        _ => rng.between(3, 15),
    };
    let mut cards = dealt(rng, &all, count as usize);
    let by = if rng.chance(70) {
        1
    } else {
        1 + rng.below(1000)
    };
    match fault {
        CardFault::More(kind) if wraps => wrap(rng, &mut cards, kind),
        CardFault::More(kind) => rng.pick_mut(&mut cards).lifetime[kind] += by,
        CardFault::Fewer(kind) => {
            let card = with_most(&mut cards, kind);
            card.lifetime[kind] -= by;
            card.monthly = card.monthly.min(card.lifetime[0]);
        }
        CardFault::MonthPastLifetime => {
            let card = rng.pick_mut(&mut cards);
            card.monthly = card.lifetime[0] + by;
            card.allowance = card.monthly + rng.below(2);
        }
        CardFault::MonthPastAllowance => {
            let card = with_most(&mut cards, 0);
            card.monthly = card.lifetime[0];
            card.allowance = card.monthly - by;
        }
        CardFault::Allowance => {
            let most = [MAX_ALLOWANCE + by, u64::MAX, 1 << 63];
            let most = most[rng.below(3).saturating_sub(1) as usize];
            rng.pick_mut(&mut cards).allowance = most;
        }
    }
    (all, cards)
}

/// The card with the most units of a kind. Of an account with room on all
/// sides it has thousands.
fn with_most(cards: &mut [Card], kind: usize) -> &mut Card {
    let most = cards.iter_mut().max_by_key(|card| card.lifetime[kind]);
    most.expect("there are cards")
}

/// Two or three cards get 2^64 units more together, or twice as many. None has
/// had 2^40 before.
fn wrap(rng: &mut Rng, cards: &mut [Card], kind: usize) {
    let first = rng.below(cards.len() as u64 - 1) as usize;
    let part = rng.between(1 << 40, 0u64.wrapping_sub(1 << 40));
    let more = match cards.len() {
        3.. if rng.chance(30) => {
            let large = 0u64.wrapping_sub(1 << 41);
            vec![large, large, 1 << 42]
        }
        _ => vec![part, part.wrapping_neg()],
    };
    let count = cards.len();
    for (offset, more) in more.into_iter().enumerate() {
        cards[(first + offset) % count].lifetime[kind] += more;
    }
}

/// An account that no card has used, for a box without cards.
pub fn unused(rng: &mut Rng) -> Box<Numbers> {
    let mut account = Account::open(any_plan(rng)).expect("generated plans keep their ranges");
    for _ in 0..rng.below(6) {
        let _ = match rng.below(3) {
            0 => account.register(rng.pick(&Place::ALL)),
            1 => account.top_up(rng.between(1, 10_000_000)),
            _ => account.next_day(),
        };
    }
    Box::new(numbers(&account))
}

/// Changes some numbers of some cards, or of the account.
pub fn damage(rng: &mut Rng, all: &mut Numbers, cards: &mut [Card]) {
    for _ in 0..rng.between(1, 2) {
        if cards.is_empty() || rng.chance(20) {
            let kind = rng.below(4) as usize;
            let place = rng.pick(&[at::LIFETIME + kind, at::PAID, at::DAY, at::PLACE]);
            all[place] = other_number(rng, all[place]);
            continue;
        }
        let which = rng.below(6) as usize;
        let card = rng.pick_mut(cards);
        let number = match which {
            4 => &mut card.monthly,
            5 => &mut card.allowance,
            kind => &mut card.lifetime[kind],
        };
        *number = other_number(rng, *number);
    }
}

/// Cards of random numbers, of any length in bits.
pub fn random_cards(rng: &mut Rng, count: usize) -> Vec<Card> {
    let most = rng.below(65);
    let mut number = || rng.word().checked_shr(64 - most as u32).unwrap_or(0);
    let card = |_| Card {
        lifetime: [0; 4].map(|_| number()),
        monthly: number(),
        allowance: number(),
    };
    (0..count).map(card).collect()
}

/// The place of a card, or of none.
pub fn some_place(rng: &mut Rng, count: usize) -> usize {
    if count > 0 && rng.chance(80) {
        return match rng.below(3) {
            0 => count - 1,
            _ => rng.below(count as u64) as usize,
        };
    }
    let none = [count, count + 1, 15, 16, 1 << 32, usize::MAX];
    rng.pick(&none)
}

/// Units of a use by a card: about what its allowance leaves.
pub fn near_allowance(rng: &mut Rng, cards: &[Card], card: usize, kind: u64) -> Option<u64> {
    let card = cards.get(card).filter(|_| kind == Kind::Data as u64)?;
    let room = card.allowance.wrapping_sub(card.monthly);
    Some(room.wrapping_add(rng.below(3)).wrapping_sub(1))
}

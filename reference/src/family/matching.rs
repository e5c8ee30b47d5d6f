//! family-10: two boxes that were opened alike and have the same cuts are the
//! same before the cuts and after the last call, their cards too, if and only if
//! every stretch has the same units of each card and the same charged seconds.
//! As in `crate::matching`, what a record is charged as is worked out here anew.

use super::generate::BoxCase;
use super::{CardCall, Family};
use crate::matching::{other_records, shuffle, split};
use crate::rng::Rng;
use crate::terms::{Call, Kind, Place};

/// Each card's units by kind.
type Units = Vec<[u64; 4]>;

/// list-5, family-10: the cuts of a list, and for each stretch the units of
/// each card and the charged outgoing seconds of each, which count together.
#[derive(Clone, PartialEq, Eq, Debug)]
pub struct BoxStretches {
    pub cuts: Vec<Call>,
    pub units: Vec<Units>,
    pub charged: Vec<Vec<u64>>,
}

impl BoxStretches {
    /// list-7: before the first call of a box with so many cards.
    pub fn new(cards: usize) -> BoxStretches {
        BoxStretches {
            cuts: Vec::new(),
            units: vec![vec![[0; 4]; cards]],
            charged: vec![vec![0; cards]],
        }
    }

    /// list-5, list-8: adds an accepted call; `charged` is what a use was
    /// charged as.
    pub fn add(&mut self, made: CardCall, charged: u64) {
        let last = self.units.len() - 1;
        match made.call {
            Call::Use(kind, n) => {
                self.units[last][made.card][kind as usize] += n;
                if kind == Kind::Outgoing {
                    self.charged[last][made.card] += charged;
                }
            }
            Call::Register(_) | Call::TopUp(_) | Call::NextDay => {
                let cards = self.units[last].len();
                self.cuts.push(made.call);
                self.units.push(vec![[0; 4]; cards]);
                self.charged.push(vec![0; cards]);
            }
            Call::Afford(_) => {}
        }
    }

    /// The charged seconds of the whole box, by stretch.
    pub fn together(&self) -> Vec<u64> {
        self.charged
            .iter()
            .map(|cards| cards.iter().sum())
            .collect()
    }

    /// Whether the stretches agree, as family-10 has it.
    pub fn agree(&self, other: &BoxStretches) -> bool {
        self.units == other.units && self.together() == other.together()
    }

    /// The units of all cards together, by stretch and kind.
    pub fn of_all_cards(&self) -> Vec<[u64; 4]> {
        let sum = |cards: &Units, kind: usize| cards.iter().map(|units| units[kind]).sum();
        let stretches = self.units.iter();
        stretches
            .map(|cards| [0, 1, 2, 3].map(|kind| sum(cards, kind)))
            .collect()
    }
}

/// A list that was run: its stretches, in each the outgoing records of each
/// card that were made in the zone, and the box just before each cut and at the
/// end.
#[derive(Clone, Debug)]
pub struct BoxTrace {
    pub stretches: BoxStretches,
    pub zone_records: Vec<Vec<Vec<u64>>>,
    pub boxes: Vec<Family>,
}

/// list-2, family-9: runs the calls of a case from its beginning.
pub fn trace(case: &BoxCase) -> BoxTrace {
    let mut family = case.begin();
    let cards = family.cards.len();
    let mut trace = BoxTrace {
        stretches: BoxStretches::new(cards),
        zone_records: vec![vec![Vec::new(); cards]],
        boxes: Vec::new(),
    };
    for made in &case.calls {
        let before = made.call.is_cut_call().then(|| family.clone());
        if family.apply(*made).is_err() {
            continue;
        }
        trace.add(*made, family.account.place == Some(Place::Zone));
        if let Some(before) = before {
            trace.boxes.push(before);
            trace.zone_records.push(vec![Vec::new(); cards]);
        }
    }
    trace.boxes.push(family);
    trace
}

impl BoxTrace {
    /// half-1: an accepted call, and whether the box is in the zone.
    fn add(&mut self, made: CardCall, in_zone: bool) {
        let mut charged = 0;
        if let Call::Use(Kind::Outgoing, n) = made.call {
            charged = if in_zone && n < 30 { 30 } else { n };
            if in_zone {
                let last = self.zone_records.last_mut().expect("one to each stretch");
                last[made.card].push(n);
            }
        }
        self.stretches.add(made, charged);
    }

    /// family-10: the claim about two lists; nothing is claimed of different
    /// cuts.
    pub fn matches(&self, other: &BoxTrace) -> bool {
        let (ours, theirs) = (&self.stretches, &other.stretches);
        ours.cuts != theirs.cuts || ours.agree(theirs) == (self.boxes == other.boxes)
    }
}

/// Another list with the same cuts and stretches: each card's uses are split
/// and shuffled, its zone records so that their charged seconds stay, and calls
/// that are no cuts are inserted.
pub fn rearranged(rng: &mut Rng, trace: &BoxTrace) -> Vec<CardCall> {
    let mut calls = Vec::new();
    for (index, cards) in trace.stretches.units.iter().enumerate() {
        let mut stretch = Vec::new();
        for (card, units) in cards.iter().enumerate() {
            for kind in Kind::ALL {
                let records = &trace.zone_records[index][card];
                let parts = match kind {
                    Kind::Outgoing if !records.is_empty() => other_records(rng, records),
                    _ => split(rng, units[kind as usize]),
                };
                let call = |n| CardCall {
                    card,
                    call: Call::Use(kind, n),
                };
                stretch.extend(parts.into_iter().map(call));
            }
        }
        if rng.chance(20) {
            stretch.push(idle(rng, cards.len()));
        }
        shuffle(rng, &mut stretch);
        calls.extend(stretch);
        let cut = trace.stretches.cuts.get(index);
        calls.extend(cut.map(|call| CardCall {
            card: 0,
            call: *call,
        }));
    }
    calls
}

/// A call that changes nothing: Afford, or one that is refused.
fn idle(rng: &mut Rng, cards: usize) -> CardCall {
    let kind = rng.pick(&Kind::ALL);
    let all = [
        (0, Call::Afford(kind)),
        (0, Call::Use(kind, 0)),
        (0, Call::TopUp(0)),
        (cards, Call::Use(kind, 1)),
    ];
    let (card, call) = rng.pick(&all);
    CardCall { card, call }
}

/// half-1, family-10: a list in which one card has a zone record less and
/// another one more, each with the same seconds as before: no record is over
/// half a minute, so that the box's charged seconds stay. None where no stretch
/// has such records.
pub fn exchanged(rng: &mut Rng, trace: &BoxTrace) -> Option<Vec<CardCall>> {
    let all = trace.zone_records.iter().enumerate();
    let found = all.filter_map(|(index, cards)| Some((index, exchange(cards)?)));
    let found: Vec<_> = found.collect();
    let at = rng.below(found.len().max(1) as u64) as usize;
    let (index, records) = found.into_iter().nth(at)?;
    let mut other = trace.clone();
    other.zone_records[index] = records;
    Some(rearranged(rng, &other))
}

/// Two records of a card joined, and one of another card divided.
fn exchange(cards: &[Vec<u64>]) -> Option<Vec<Vec<u64>>> {
    let joins = |records: &Vec<u64>| records.len() > 1 && records[0] + records[1] <= 30;
    let first = cards.iter().position(joins)?;
    let divides = |records: &Vec<u64>| records.iter().any(|n| (2..=30).contains(n));
    let second = (0..cards.len()).find(|card| *card != first && divides(&cards[*card]))?;
    let mut cards = cards.to_vec();
    let joined = cards[first].remove(0);
    cards[first][0] += joined;
    let records = &mut cards[second];
    let at = records.iter().position(|n| (2..=30).contains(n))?;
    records[at] -= 1;
    records.push(1);
    Some(cards)
}

/// half-8: the list with one outgoing zone record of a card made into two, of
/// which the first is under half a minute: as many seconds, and more charged
/// ones. None where the list has no such record.
pub fn divided(rng: &mut Rng, case: &BoxCase) -> Option<Vec<CardCall>> {
    let mut place = None;
    let mut records = Vec::new();
    for (at, made) in case.calls.iter().enumerate() {
        match made.call {
            Call::Register(next) => place = Some(next),
            Call::Use(Kind::Outgoing, n) if place == Some(Place::Zone) && n >= 2 => {
                records.push((at, made.card, n));
            }
            _ => {}
        }
    }
    if records.is_empty() {
        return None;
    }
    let (at, card, n) = rng.pick(&records);
    let first = rng.between(1, (n - 1).min(29));
    let two = [first, n - first].map(|part| CardCall {
        card,
        call: Call::Use(Kind::Outgoing, part),
    });
    let mut calls = case.calls.clone();
    calls.splice(at..=at, two);
    Some(calls)
}

/// A list that differs a little: a use dropped, made larger or smaller, moved
/// past the next call, or given to another card.
pub fn altered(rng: &mut Rng, case: &BoxCase) -> Vec<CardCall> {
    let mut calls = case.calls.clone();
    let is_use = |at: &usize| matches!(calls[*at].call, Call::Use(_, _));
    let uses: Vec<usize> = (0..calls.len()).filter(is_use).collect();
    if uses.is_empty() {
        return calls;
    }
    let at = rng.pick(&uses);
    let CardCall { card, call } = calls[at];
    let Call::Use(kind, n) = call else {
        return calls;
    };
    let with = |n: u64| CardCall {
        card,
        call: Call::Use(kind, n),
    };
    match rng.below(5) {
        0 => {
            calls.remove(at);
        }
        1 => calls[at] = with(n.saturating_add(1)),
        2 => calls[at] = with(n.saturating_sub(1)),
        3 if at + 1 < calls.len() => calls.swap(at, at + 1),
        _ => calls[at].card = rng.below(case.cards.len().max(1) as u64) as usize,
    }
    calls
}

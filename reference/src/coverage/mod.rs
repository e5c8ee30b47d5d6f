//! Which events were reached, counted by trips, files, writes, accounts and
//! texts. They are taken from what a side returned and answered and from the
//! numbers of its account, and never from what goes on inside a meter.

pub mod boxes;
pub mod calls;
pub mod cards;
pub mod causes;
pub mod days;
pub mod exports;
pub mod files;
pub mod openings;
pub mod plans;
pub mod returns;
pub mod seen;
pub mod soundness;
pub mod texts;
pub mod uses;
pub mod writes;

use crate::matching::Stretches;
use crate::terms::Kind;
use std::collections::{BTreeMap, BTreeSet};

/// list-1, list-9, half-8: events of lists and of pairs of lists.
const LISTS: &[&str] = &[
    "empty list",
    "another list with the same stretches",
    "the same cuts with other stretches",
    "the same units with other charged seconds",
    "the same charged seconds with other units",
];

/// The events that lists of calls, files and writes come to.
pub fn list_events() -> Vec<&'static str> {
    let groups = [LISTS]
        .into_iter()
        .chain(calls::OF_LISTS.iter().copied())
        .chain(uses::OF_LISTS.iter().copied())
        .chain(days::EVENTS.iter().copied())
        .chain(files::OF_READING.iter().copied())
        .chain(plans::EVENTS.iter().copied())
        .chain(boxes::OF_LISTS.iter().copied())
        .chain(openings::OF_LISTS.iter().copied());
    let of_lists = groups.flatten().copied();
    of_lists.chain(returns::of_lists()).collect()
}

/// Every event: a comparison of full size must reach all of them.
pub fn events() -> Vec<&'static str> {
    let groups = calls::OF_ARGUMENTS.iter().chain(uses::OF_ACCOUNTS);
    let groups = groups.chain(plans::OF_OPENING);
    let groups = groups.chain(files::OF_FUNCTIONS).chain(writes::EVENTS);
    let groups = groups.chain(boxes::OF_BOXES).chain(cards::EVENTS);
    let groups = groups.chain(openings::OF_BOXES);
    let groups = groups.chain(texts::EVENTS).chain(exports::EVENTS);
    let more = groups.flat_map(|group| group.iter()).copied();
    let mut all = list_events();
    all.extend(more);
    all.extend(returns::all());
    all.extend(soundness::events());
    let mut known = BTreeSet::new();
    all.retain(|event| known.insert(*event));
    all
}

/// The events of one trip, file, write, account or text.
#[derive(Clone, Debug, Default)]
pub struct TripEvents {
    seen: Vec<&'static str>,
    /// What the calls of a list so far leave to be known.
    past: calls::Past,
    /// The same of a list on a box.
    box_past: boxes::Past,
}

/// How many trips and so on reached each event.
#[derive(Clone, Debug, Default)]
pub struct Coverage {
    counts: BTreeMap<&'static str, u64>,
}

impl Coverage {
    pub fn new() -> Coverage {
        Coverage::default()
    }

    pub fn add(&mut self, trip: &TripEvents) {
        let events: BTreeSet<&'static str> = trip.seen.iter().copied().collect();
        for event in events {
            *self.counts.entry(event).or_insert(0) += 1;
        }
    }

    /// Adds the counts of other trips.
    pub fn merge(&mut self, other: &Coverage) {
        for (event, count) in &other.counts {
            *self.counts.entry(event).or_insert(0) += count;
        }
    }

    /// What both reached: of each event the lesser count.
    pub fn common(&self, other: &Coverage) -> Coverage {
        let lesser = |(event, count): (&&'static str, &u64)| {
            let count = other.count(event).min(*count);
            (count > 0).then_some((*event, count))
        };
        Coverage {
            counts: self.counts.iter().filter_map(lesser).collect(),
        }
    }

    /// The counts of all but some events.
    pub fn without(&self, events: &[&'static str]) -> Coverage {
        let mut counts = self.counts.clone();
        counts.retain(|event, _| !events.contains(event));
        Coverage { counts }
    }

    pub fn count(&self, event: &str) -> u64 {
        self.counts.get(event).copied().unwrap_or(0)
    }

    /// Of some events, those that no trip reached.
    pub fn missing(&self, of: &[&'static str]) -> Vec<&'static str> {
        let unseen = |event: &&&str| self.count(event) == 0;
        of.iter().filter(unseen).copied().collect()
    }

    /// Events that were counted though the list of all has no such name.
    pub fn unknown(&self) -> Vec<&'static str> {
        let known: BTreeSet<&str> = events().into_iter().collect();
        let names = self.counts.keys().copied();
        names.filter(|event| !known.contains(event)).collect()
    }
}

impl TripEvents {
    /// Notes an event. Most of them come again and again within a trip, always
    /// from the same place of the program: that is looked at first.
    fn hit(&mut self, event: &'static str, reached: bool) {
        if reached && !self.seen.iter().any(|known| std::ptr::eq(*known, event)) {
            self.seen.push(event);
        }
    }

    /// Forgets what was noted, for the next account.
    pub fn clear(&mut self) {
        *self = TripEvents::default();
    }

    /// list-1: a list without calls.
    pub fn empty_list(&mut self) {
        self.hit("empty list", true);
    }

    /// list-9, half-8: a pair of lists with the same cuts, and whether the
    /// lists are the same.
    pub fn pair(&mut self, first: &Stretches, other: &Stretches, lists_agree: bool) {
        let units = first.units == other.units;
        let charged = first.charged == other.charged;
        let both = units && charged;
        self.hit("another list with the same stretches", both && !lists_agree);
        self.hit("the same cuts with other stretches", !both);
        self.hit(
            "the same units with other charged seconds",
            units && !charged,
        );
        let outgoing = |list: &Stretches| {
            let seconds = list.units.iter().map(|of| of[Kind::Outgoing as usize]);
            seconds.collect::<Vec<u64>>()
        };
        self.hit(
            "the same charged seconds with other units",
            charged && outgoing(first) != outgoing(other),
        );
    }
}

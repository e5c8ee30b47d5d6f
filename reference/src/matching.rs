//! Demand 3 about pairs of lists: two that were opened alike and have the same
//! cuts go through equal accounts if and only if their stretches agree (list-9,
//! half-8). What a record is charged as (half-1) is worked out here anew. Rules
//! list-2 to list-9.

use crate::meter::{Account, MAX_UNITS};
use crate::plan::Plan;
use crate::rng::Rng;
use crate::terms::{Call, Kind, Place};

/// list-5, list-8: the cuts of a list, and for each stretch the units by kind
/// and the charged outgoing seconds.
#[derive(Clone, PartialEq, Eq, Debug)]
pub struct Stretches {
    pub cuts: Vec<Call>,
    pub units: Vec<[u64; 4]>,
    pub charged: Vec<u64>,
}

impl Default for Stretches {
    /// list-7: before the first call, one stretch without units.
    fn default() -> Stretches {
        Stretches {
            cuts: Vec::new(),
            units: vec![[0; 4]],
            charged: vec![0],
        }
    }
}

impl Stretches {
    /// list-5, list-8: adds an accepted call; `charged` is what a use was
    /// charged as.
    pub fn add(&mut self, call: Call, charged: u64) {
        let last = self.units.len() - 1;
        match call {
            Call::Use(kind, n) => {
                self.units[last][kind as usize] += n;
                if kind == Kind::Outgoing {
                    self.charged[last] += charged;
                }
            }
            Call::Register(_) | Call::TopUp(_) | Call::NextDay => {
                self.cuts.push(call);
                self.units.push([0; 4]);
                self.charged.push(0);
            }
            Call::Afford(_) => {}
        }
    }
}

/// A list that was run: its cuts; for each stretch the units by kind, the
/// charged outgoing seconds and the outgoing records made in the zone; and the
/// account just before each cut and at the end.
#[derive(Clone, Debug)]
pub struct Trace {
    pub cuts: Vec<Call>,
    pub units: Vec<[u64; 4]>,
    pub charged: Vec<u64>,
    pub zone_records: Vec<Vec<u64>>,
    pub accounts: Vec<Account>,
}

/// list-2: runs a list from the opening. The plan is one that Open accepts.
pub fn trace(plan: Plan, calls: &[Call]) -> Trace {
    let mut account = Account::open(plan).expect("the plan keeps its ranges");
    let mut trace = Trace {
        cuts: Vec::new(),
        units: Vec::new(),
        charged: Vec::new(),
        zone_records: Vec::new(),
        accounts: Vec::new(),
    };
    trace.begin_stretch();
    for call in calls {
        let before = call.is_cut_call().then(|| account.clone());
        if account.apply(*call).is_err() {
            continue;
        }
        if let Call::Use(kind, n) = call {
            trace.add_use(account.place == Some(Place::Zone), *kind, *n);
        }
        if let Some(before) = before {
            trace.cuts.push(*call);
            trace.accounts.push(before);
            trace.begin_stretch();
        }
    }
    trace.accounts.push(account);
    trace
}

impl Trace {
    fn begin_stretch(&mut self) {
        self.units.push([0; 4]);
        self.charged.push(0);
        self.zone_records.push(Vec::new());
    }

    /// list-8, half-1: an accepted use in the last stretch.
    fn add_use(&mut self, in_zone: bool, kind: Kind, n: u64) {
        let last = self.units.len() - 1;
        self.units[last][kind as usize] += n;
        match (kind, in_zone) {
            (Kind::Outgoing, true) => {
                self.charged[last] += if n < 30 { 30 } else { n };
                self.zone_records[last].push(n);
            }
            (Kind::Outgoing, false) => self.charged[last] += n,
            _ => {}
        }
    }

    /// The same without accounts and records.
    pub fn stretches(&self) -> Stretches {
        Stretches {
            cuts: self.cuts.clone(),
            units: self.units.clone(),
            charged: self.charged.clone(),
        }
    }

    /// half-8: whether units and charged seconds agree in every stretch.
    pub fn stretches_agree(&self, other: &Trace) -> bool {
        self.units == other.units && self.charged == other.charged
    }

    /// list-9: the claim about two lists; nothing is claimed of different cuts.
    pub fn matches(&self, other: &Trace) -> bool {
        let accounts_agree = self.accounts == other.accounts;
        self.cuts != other.cuts || self.stretches_agree(other) == accounts_agree
    }
}

/// list-9: another list with the same cuts and stretches. Uses are split and
/// shuffled within each stretch, outgoing zone records so that their charged
/// seconds stay (half-8), and calls that are no cuts are inserted.
pub fn rearranged(rng: &mut Rng, trace: &Trace) -> Vec<Call> {
    let mut calls = Vec::new();
    for (index, units) in trace.units.iter().enumerate() {
        let mut stretch = Vec::new();
        for kind in Kind::ALL {
            let records = &trace.zone_records[index];
            let parts = match kind {
                Kind::Outgoing if !records.is_empty() => other_records(rng, records),
                _ => split(rng, units[kind as usize]),
            };
            stretch.extend(parts.into_iter().map(|n| Call::Use(kind, n)));
        }
        if rng.chance(20) {
            let kind = rng.pick(&Kind::ALL);
            let idle = [Call::Afford(kind), Call::Use(kind, 0), Call::TopUp(0)];
            stretch.push(rng.pick(&idle));
        }
        shuffle(rng, &mut stretch);
        calls.extend(stretch);
        calls.extend(trace.cuts.get(index));
    }
    calls
}

/// Parts of a total, each of them a number that Use takes.
pub(crate) fn split(rng: &mut Rng, total: u64) -> Vec<u64> {
    let (mut parts, mut left) = (Vec::new(), total);
    while left > 0 {
        let most = left.min(MAX_UNITS);
        let freely = parts.len() < 3 && total <= MAX_UNITS;
        let part = if freely { rng.between(1, most) } else { most };
        parts.push(part);
        left -= part;
    }
    parts
}

/// half-1: other outgoing zone records with the same sum and the same charged
/// seconds. Some of a minute or more become two that last half a minute at
/// least, and of two that last half a minute at most one gives seconds to the
/// other.
pub(crate) fn other_records(rng: &mut Rng, records: &[u64]) -> Vec<u64> {
    let mut parts = Vec::new();
    for n in records.iter().copied() {
        if n >= 60 && rng.chance(50) {
            let first = rng.between(30, n - 30);
            parts.extend([first, n - first]);
        } else {
            parts.push(n);
        }
    }
    let short: Vec<usize> = (0..parts.len()).filter(|at| parts[*at] <= 30).collect();
    for pair in short.chunks_exact(2) {
        let both = parts[pair[0]] + parts[pair[1]];
        let first = rng.between(both.saturating_sub(30).max(1), (both - 1).min(30));
        (parts[pair[0]], parts[pair[1]]) = (first, both - first);
    }
    parts
}

/// half-8: the list with one outgoing zone record made into two, of which the
/// first is under half a minute: as many seconds, and more charged ones. None
/// where the list has no such record of two seconds or more.
pub fn divided(rng: &mut Rng, calls: &[Call]) -> Option<Vec<Call>> {
    let mut place = None;
    let mut records = Vec::new();
    for (at, call) in calls.iter().enumerate() {
        match call {
            Call::Register(next) => place = Some(*next),
            Call::Use(Kind::Outgoing, n) if place == Some(Place::Zone) && *n >= 2 => {
                records.push((at, *n));
            }
            _ => {}
        }
    }
    if records.is_empty() {
        return None;
    }
    let (at, n) = rng.pick(&records);
    let first = rng.between(1, (n - 1).min(29));
    let two = [first, n - first].map(|part| Call::Use(Kind::Outgoing, part));
    let mut calls = calls.to_vec();
    calls.splice(at..=at, two);
    Some(calls)
}

pub(crate) fn shuffle<T>(rng: &mut Rng, list: &mut [T]) {
    for last in (1..list.len()).rev() {
        list.swap(last, rng.below(last as u64 + 1) as usize);
    }
}

/// A list that differs a little: a use dropped, made larger or smaller, or
/// moved past the next call.
pub fn altered(rng: &mut Rng, calls: &[Call]) -> Vec<Call> {
    let mut calls = calls.to_vec();
    let is_use = |at: &usize| matches!(calls[*at], Call::Use(_, _));
    let uses: Vec<usize> = (0..calls.len()).filter(is_use).collect();
    if uses.is_empty() {
        return calls;
    }
    let at = rng.pick(&uses);
    match (rng.below(4), calls[at]) {
        (0, _) => {
            calls.remove(at);
        }
        (1, Call::Use(kind, n)) => calls[at] = Call::Use(kind, n + 1),
        (2, Call::Use(kind, n)) => calls[at] = Call::Use(kind, n.saturating_sub(1)),
        _ if at + 1 < calls.len() => calls.swap(at, at + 1),
        _ => {}
    }
    calls
}

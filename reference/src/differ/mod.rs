//! The comparison of another meter with this one, one call at a time: trips,
//! files sound and damaged, what there is to write, accounts of any numbers,
//! family boxes, and texts. What both return and answer is compared, and all
//! the memory that they were lent.

mod accounts;
mod any_boxes;
mod both;
mod boxes;
mod calls;
mod files;
mod texts;
mod writes;

pub use any_boxes::BOXES_OF_A_SEED;
pub use texts::TEXTS_OF_A_SEED;
pub use writes::LAST_DAY;

use crate::check::{check_pairs, Failure};
use crate::coverage::{list_events, Coverage, TripEvents};
use crate::family::Card;
use crate::generate::{self, Case};
use crate::numbers::{Numbers, ACCOUNT_NUMBERS};
use crate::rng::Rng;
use crate::sides::Side;
use calls::Run;
use std::collections::BTreeSet;
use std::time::{Duration, Instant};

/// Every twentieth trip is paired with two or three lists that have the same cuts.
const PAIRS_EVERY: u64 = 20;
/// So many accounts come from one seed.
pub const ACCOUNTS_OF_A_SEED: u64 = 10;

/// Where the meters disagree, or where demand 3 fails (list-9).
#[derive(Clone, Debug, Default)]
pub struct Mismatch {
    pub what: String,
    /// The trip file, if there is one.
    pub file: Vec<u8>,
    /// The numbers of the account before the call, if they are no trip's.
    pub account: Vec<u64>,
    /// The cards before the call, of a box.
    pub cards: Vec<Card>,
    /// The text, if it was one that was read.
    pub text: Vec<u8>,
}

impl Mismatch {
    fn new(what: String) -> Box<Mismatch> {
        Box::new(Mismatch {
            what,
            ..Mismatch::default()
        })
    }

    fn of_file(what: String, file: &[u8]) -> Box<Mismatch> {
        Box::new(Mismatch {
            file: file.to_vec(),
            ..*Mismatch::new(what)
        })
    }

    fn of_text(what: String, text: &[u8]) -> Box<Mismatch> {
        Box::new(Mismatch {
            text: text.to_vec(),
            ..*Mismatch::new(what)
        })
    }

    fn of_account(what: String, account: &[u64]) -> Box<Mismatch> {
        Box::new(Mismatch {
            account: account.to_vec(),
            ..*Mismatch::new(what)
        })
    }

    fn of_box(what: String, account: &[u64], cards: &[Card]) -> Box<Mismatch> {
        Box::new(Mismatch {
            cards: cards.to_vec(),
            ..*Mismatch::of_account(what, account)
        })
    }
}

/// Where the time went.
#[derive(Clone, Copy, Debug, Default)]
pub struct Times {
    pub generation: Duration,
    pub trips: Duration,
    pub pairs: Duration,
    pub files: Duration,
    pub writes: Duration,
    pub accounts: Duration,
    pub boxes: Duration,
    pub texts: Duration,
}

impl Times {
    fn add(&mut self, other: &Times) {
        self.generation += other.generation;
        self.trips += other.trips;
        self.pairs += other.pairs;
        self.files += other.files;
        self.writes += other.writes;
        self.accounts += other.accounts;
        self.boxes += other.boxes;
        self.texts += other.texts;
    }
}

/// The events of both sides, this crate's meter first.
type Both = [TripEvents; 2];

/// A run of the comparison.
#[derive(Clone, Debug)]
pub struct Differ {
    other: Side,
    /// What each side's own returns, answers and accounts came to.
    coverage: [Coverage; 2],
    /// The same on accounts that no list led to.
    of_accounts: [Coverage; 2],
    pub trips: u64,
    pub files: u64,
    /// Writes: of what was read, and random ones.
    pub writes: u64,
    /// Accounts of any numbers.
    pub accounts: u64,
    /// Lists on boxes, and boxes of any numbers.
    pub boxes: u64,
    pub any_boxes: u64,
    /// Texts that were read, and lists of calls that were exported.
    pub texts: u64,
    /// Days whose caps and rows read were compared.
    pub days: u64,
    /// Single calls on accounts, each with all of its account compared.
    pub calls: u64,
    /// The most calls of one list.
    pub longest: usize,
    pub times: Times,
    /// The places of the layout whose number was changed by itself.
    changed: BTreeSet<usize>,
    /// An account to run files on, and which one of its sort it is.
    base: Option<(u64, Box<Numbers>)>,
}

impl Differ {
    pub fn new(other: Side) -> Differ {
        Differ {
            other,
            coverage: [Coverage::new(), Coverage::new()],
            of_accounts: [Coverage::new(), Coverage::new()],
            trips: 0,
            files: 0,
            writes: 0,
            accounts: 0,
            boxes: 0,
            any_boxes: 0,
            texts: 0,
            days: 0,
            calls: 0,
            longest: 0,
            times: Times::default(),
            changed: BTreeSet::new(),
            base: None,
        }
    }

    /// The events that both sides came to. Those of lists must come from lists
    /// and files: what an account of any numbers led to does not count there.
    pub fn coverage(&self) -> Coverage {
        let [ours, theirs] = &self.coverage;
        let mut all = ours.common(theirs);
        let [ours, theirs] = &self.of_accounts;
        all.merge(&ours.common(theirs).without(&list_events()));
        if self.changed.len() == ACCOUNT_NUMBERS {
            let mut events = TripEvents::default();
            events.every_number_changed();
            all.add(&events);
        }
        all
    }

    fn add(&mut self, events: &Both) {
        for (coverage, events) in self.coverage.iter_mut().zip(events) {
            coverage.add(events);
        }
    }

    /// Adds what came of accounts or boxes that no list led to.
    fn add_of_accounts(&mut self, events: &Both) {
        for (coverage, events) in self.of_accounts.iter_mut().zip(events) {
            coverage.add(events);
        }
    }

    /// Adds what another run has done.
    pub fn merge(&mut self, other: &Differ) {
        for (coverage, more) in self.coverage.iter_mut().zip(&other.coverage) {
            coverage.merge(more);
        }
        for (coverage, more) in self.of_accounts.iter_mut().zip(&other.of_accounts) {
            coverage.merge(more);
        }
        self.trips += other.trips;
        self.files += other.files;
        self.writes += other.writes;
        self.accounts += other.accounts;
        self.boxes += other.boxes;
        self.any_boxes += other.any_boxes;
        self.texts += other.texts;
        self.days += other.days;
        self.calls += other.calls;
        self.longest = self.longest.max(other.longest);
        self.times.add(&other.times);
        self.changed.extend(&other.changed);
    }

    /// The random trip of a seed: its calls one at a time, and its file as a
    /// whole. A list that no file can hold, as the empty one, is run call by
    /// call alone, and always goes through demand 3.
    pub fn trip(&mut self, seed: u64) -> Result<(), Box<Mismatch>> {
        let begun = Instant::now();
        let case = generate::trip(seed);
        let file = case.to_file();
        self.times.generation += begun.elapsed();
        let mut rng = Rng::new(seed ^ 0x7121_9000);
        let mut events = Both::default();
        let paired = file.is_none() || seed.is_multiple_of(PAIRS_EVERY);
        self.trips += 1;
        let begun = Instant::now();
        let whole = self.trip_of(&case, file.as_deref(), &mut rng, &mut events);
        self.times.trips += begun.elapsed();
        let file = file.unwrap_or_default();
        let run = whole.map_err(|what| Mismatch::of_file(what, &file))?;
        if paired {
            let begun = Instant::now();
            let pairs = self.pairs(&case, &run, &mut rng, &mut events);
            self.times.pairs += begun.elapsed();
            pairs.map_err(|what| Mismatch::of_file(what, &file))?;
        }
        self.add(&events);
        Ok(())
    }

    fn trip_of(
        &mut self,
        case: &Case,
        file: Option<&[u8]>,
        rng: &mut Rng,
        events: &mut Both,
    ) -> Result<Run, Failure> {
        let run = self.list(case, rng, events)?;
        if let Some(file) = file {
            self.whole_file(file, case, &run, rng, events)?;
        }
        Ok(run)
    }

    /// list-9, half-8: demand 3 for a list, one with the same stretches, one
    /// with a use altered and one with an outgoing zone record divided; the
    /// others go through the comparison as well.
    fn pairs(
        &mut self,
        case: &Case,
        run: &Run,
        rng: &mut Rng,
        events: &mut Both,
    ) -> Result<(), Failure> {
        if case.calls.is_empty() {
            events.iter_mut().for_each(TripEvents::empty_list);
        }
        let lists = check_pairs(case, rng, &mut TripEvents::default());
        let lists = lists.map_err(|what| format!("demand 3: {what}"))?;
        for calls in lists {
            let plan = case.plan;
            let same = calls == case.calls;
            let other = self.list(&Case { plan, calls }, rng, &mut Both::default())?;
            for (side, events) in events.iter_mut().enumerate() {
                events.pair(&run.stretches[side], &other.stretches[side], same);
            }
        }
        Ok(())
    }
}

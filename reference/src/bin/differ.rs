//! differ [--seed S] [--trips N] [--damaged N] [--accounts N] [--boxes N]
//! [--texts N] [--seconds T] [--events]: the caps of every day up to 4,000 and of
//! larger numbers, random trips call by call, files sound and damaged, as many
//! random writes as files, accounts of any numbers, lists on family boxes and
//! with each some boxes of any numbers, texts to read and calls to export,
//! through the proved meter and this crate's. The processors share the work.
//! Shows the events that were reached by the fewest, or all of them. Ends with 1
//! if the meters disagree or if demand 3 fails, with 3 if an event was missed,
//! and with 2 if the proved library is missing.

use reference::coverage::events;
use reference::differ::{Differ, Mismatch, ACCOUNTS_OF_A_SEED, TEXTS_OF_A_SEED};
use reference::planted::{chosen, Wrong};
use reference::sides::{proved, Side};
use std::process::ExitCode;
use std::sync::atomic::{AtomicBool, AtomicU64, Ordering};
use std::thread;
use std::time::{Duration, Instant};

const TRIPS: u64 = 20_000;
const FILES: u64 = 20_000;
const ACCOUNTS: u64 = 200_000;
const BOXES: u64 = 10_000;
const TEXTS: u64 = 20_000;
const PROGRESS: Duration = Duration::from_secs(10);
/// So many of the events are shown that were reached by the fewest.
const SCARCEST: usize = 10;
const USAGE: &str = "usage: differ [--seed S] [--trips N] [--damaged N] [--accounts N] \
                     [--boxes N] [--texts N] [--seconds T] [--events]";

#[derive(Default)]
struct Options {
    seed: Option<u64>,
    trips: Option<u64>,
    damaged: Option<u64>,
    accounts: Option<u64>,
    boxes: Option<u64>,
    texts: Option<u64>,
    seconds: Option<u64>,
    /// Whether all events are shown.
    events: bool,
}

fn options() -> Option<Options> {
    let mut options = Options::default();
    let mut args = std::env::args().skip(1);
    while let Some(name) = args.next() {
        let field = match name.as_str() {
            "--seed" => &mut options.seed,
            "--trips" => &mut options.trips,
            "--damaged" => &mut options.damaged,
            "--accounts" => &mut options.accounts,
            "--boxes" => &mut options.boxes,
            "--texts" => &mut options.texts,
            "--seconds" => &mut options.seconds,
            "--events" => {
                options.events = true;
                continue;
            }
            _ => return None,
        };
        *field = Some(args.next()?.parse().ok()?);
    }
    Some(options)
}

/// How many seeds there are for trips, for files, for accounts, for boxes and for
/// texts, from the first one on, and for how long.
struct Goal {
    seed: u64,
    trips: u64,
    files: u64,
    accounts: u64,
    boxes: u64,
    texts: u64,
    time: Option<Duration>,
}

impl Goal {
    /// What was asked for; without a number the usual one, and no end where
    /// there is a time.
    fn of(options: &Options) -> Goal {
        let endless = options.seconds.is_some();
        let goal = |asked: Option<u64>, usual: u64| {
            let usual = if endless { u64::MAX } else { usual };
            asked.unwrap_or(usual)
        };
        Goal {
            seed: options.seed.unwrap_or(1),
            trips: goal(options.trips, TRIPS),
            files: goal(options.damaged, FILES),
            accounts: goal(options.accounts, ACCOUNTS).div_ceil(ACCOUNTS_OF_A_SEED),
            boxes: goal(options.boxes, BOXES),
            texts: goal(options.texts, TEXTS).div_ceil(TEXTS_OF_A_SEED),
            time: options.seconds.map(Duration::from_secs),
        }
    }

    fn seeds(&self) -> u64 {
        let most = self.trips.max(self.files).max(self.accounts);
        most.max(self.boxes).max(self.texts)
    }
}

fn main() -> ExitCode {
    let Some(options) = options() else {
        eprintln!("{USAGE}");
        return ExitCode::from(2);
    };
    let Some(other) = proved() else {
        eprintln!("differ: the proved library is missing");
        return ExitCode::from(2);
    };
    if let Some(rule) = chosen() {
        let all = Wrong::ALL.len();
        eprintln!("differ: wrong rule {} of {all}, {rule:?}", rule as u32);
    }
    let goal = Goal::of(&options);
    let begun = Instant::now();
    let (differ, found) = run(other, &goal);
    let took = begun.elapsed();
    if let Some(found) = found {
        report(&found);
        print_times(&differ, took);
        println!("differ: {}, 1 mismatch", counts(&differ));
        return ExitCode::FAILURE;
    }
    let missing = print_events(&differ, goal.seed, options.events);
    print_times(&differ, took);
    println!("differ: {}, 0 mismatches", counts(&differ));
    if missing == 0 {
        ExitCode::SUCCESS
    } else {
        println!("differ: {missing} of {} events missed", events().len());
        ExitCode::from(3)
    }
}

/// How often the scarcest events were reached, or all of them, and which were
/// not; answers how many.
fn print_events(differ: &Differ, seed: u64, all: bool) -> usize {
    let (coverage, mut events) = (differ.coverage(), events());
    let missing = coverage.missing(&events);
    let reached = events.len() - missing.len();
    println!("{reached} of {} events reached by both sides", events.len());
    if !all {
        events.retain(|event| coverage.count(event) > 0);
        events.sort_by_key(|event| coverage.count(event));
        events.truncate(SCARCEST);
    }
    for event in &events {
        println!("{:7} {event}", coverage.count(event));
    }
    for event in &missing {
        println!("missed from seed {seed}: {event}");
    }
    missing.len()
}

fn counts(differ: &Differ) -> String {
    let Differ {
        trips,
        files,
        accounts,
        boxes,
        any_boxes,
        texts,
        writes,
        calls,
        days,
        ..
    } = differ;
    format!(
        "{trips} trips, {files} files, {accounts} accounts, {boxes} lists on boxes, \
         {any_boxes} boxes, {texts} texts, {calls} calls one by one, {writes} writes, {days} days"
    )
}

/// A mismatch, its seed, and what it was found in.
struct Found {
    seed: u64,
    what: &'static str,
    mismatch: Box<Mismatch>,
}

/// What the workers share: the next seed, counted from 0, and whether one of
/// them has found a mismatch.
struct Shared<'a> {
    other: Side,
    goal: &'a Goal,
    begun: Instant,
    next: AtomicU64,
    over: AtomicBool,
}

/// The days; then a trip, a file, a write, accounts, boxes and texts from each
/// seed, shared out among the processors. Answers all that was done, and the
/// mismatch of the first seed that has one.
fn run(other: Side, goal: &Goal) -> (Differ, Option<Found>) {
    let mut all = Differ::new(other);
    if let Err(mismatch) = all.days(goal.seed) {
        let (seed, what) = (goal.seed, "days");
        return (
            all,
            Some(Found {
                seed,
                what,
                mismatch,
            }),
        );
    }
    let shared = Shared {
        other,
        goal,
        begun: Instant::now(),
        next: AtomicU64::new(0),
        over: AtomicBool::new(false),
    };
    let workers = thread::available_parallelism().map_or(1, usize::from);
    let mut first: Option<Found> = None;
    thread::scope(|scope| {
        let shared = &shared;
        let start = |worker| scope.spawn(move || some_seeds(shared, worker == 0));
        let started: Vec<_> = (0..workers).map(start).collect();
        for worker in started {
            let (differ, found) = worker.join().expect("a comparison does not panic");
            all.merge(&differ);
            let earlier = |found: &Found| first.as_ref().is_none_or(|one| found.seed < one.seed);
            if found.as_ref().is_some_and(earlier) {
                first = found;
            }
        }
    });
    (all, first)
}

/// One worker: takes the next seed while there is one. The first also tells how
/// far all have come.
fn some_seeds(shared: &Shared, tells: bool) -> (Differ, Option<Found>) {
    let mut differ = Differ::new(shared.other);
    let mut shown = Instant::now();
    loop {
        let done = shared.next.fetch_add(1, Ordering::Relaxed);
        let late = |time: Duration| shared.begun.elapsed() >= time;
        let ends = done >= shared.goal.seeds() || shared.goal.time.is_some_and(late);
        if ends || shared.over.load(Ordering::Relaxed) {
            return (differ, None);
        }
        if let Err((what, mismatch)) = one_seed(&mut differ, done, shared.goal) {
            shared.over.store(true, Ordering::Relaxed);
            let seed = shared.goal.seed + done;
            return (
                differ,
                Some(Found {
                    seed,
                    what,
                    mismatch,
                }),
            );
        }
        if tells && shown.elapsed() >= PROGRESS {
            shown = Instant::now();
            let past = shared.begun.elapsed().as_secs();
            eprintln!(
                "differ: {done} seeds, {past} s; one worker: {}",
                counts(&differ)
            );
        }
    }
}

/// What there is of a seed, which is the first one and so many more.
fn one_seed(
    differ: &mut Differ,
    done: u64,
    goal: &Goal,
) -> Result<(), (&'static str, Box<Mismatch>)> {
    let seed = goal.seed + done;
    if done < goal.trips {
        differ.trip(seed).map_err(|found| ("trip", found))?;
    }
    if done < goal.files {
        differ.file(seed).map_err(|found| ("file", found))?;
        differ.write(seed).map_err(|found| ("write", found))?;
    }
    if done < goal.accounts {
        differ.accounts(seed).map_err(|found| ("account", found))?;
    }
    if done < goal.boxes {
        differ.boxes(seed).map_err(|found| ("box", found))?;
    }
    if done < goal.texts {
        differ.texts(seed).map_err(|found| ("text", found))?;
    }
    Ok(())
}

/// Shows a mismatch, and saves its file or its text, if it has one.
fn report(found: &Found) {
    let Found {
        seed,
        what,
        mismatch,
    } = found;
    println!("seed {seed}, {what}: {}", mismatch.what);
    let numbers = mismatch.account.iter().enumerate();
    let some: Vec<String> = numbers
        .filter(|(_, number)| **number != 0)
        .map(|(at, number)| format!("{at}: {number}"))
        .collect();
    if !mismatch.account.is_empty() {
        println!("account, all other numbers 0: {}", some.join(", "));
    }
    for (place, card) in mismatch.cards.iter().enumerate() {
        println!("card {place}: {card:?}");
    }
    save(&format!("mismatch-{seed}.trip"), &mismatch.file);
    save(&format!("mismatch-{seed}.txt"), &mismatch.text);
}

fn save(name: &str, bytes: &[u8]) {
    if bytes.is_empty() {
        return;
    }
    match std::fs::write(name, bytes) {
        Ok(()) => println!("saved as {name}"),
        Err(error) => println!("{name} not saved: {error}"),
    }
}

fn print_times(differ: &Differ, took: Duration) {
    let times = &differ.times;
    println!(
        "{:.1?}: generation {:.1?}, trips {:.1?}, pairs {:.1?}, files {:.1?}, writes {:.1?}, \
         accounts {:.1?}, boxes {:.1?}, texts {:.1?}; at most {} calls in a list",
        took,
        times.generation,
        times.trips,
        times.pairs,
        times.files,
        times.writes,
        times.accounts,
        times.boxes,
        times.texts,
        differ.longest
    );
}

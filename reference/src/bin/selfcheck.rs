//! selfcheck SEED COUNT: random trips through all checks. Ends with 1 if a
//! check fails or an event is missed.

use reference::check::{check_seed, Failure};
use reference::coverage::{list_events, Coverage};
use std::process::ExitCode;
use std::sync::atomic::{AtomicU64, Ordering};
use std::thread;
use std::time::{Duration, Instant};

const PROGRESS: Duration = Duration::from_secs(4);

fn main() -> ExitCode {
    let args: Vec<Option<u64>> = std::env::args().skip(1).map(|a| a.parse().ok()).collect();
    let [Some(seed), Some(count)] = args[..] else {
        eprintln!("usage: selfcheck SEED COUNT");
        return ExitCode::from(2);
    };
    let begun = Instant::now();
    let (coverage, calls) = match all_seeds(seed, count) {
        Ok(reached) => reached,
        Err((at, what)) => {
            println!("seed {at}: {what}");
            println!("selfcheck: a check fails");
            return ExitCode::FAILURE;
        }
    };
    let events = list_events();
    let missing = coverage.missing(&events);
    for event in &missing {
        println!("missed from seed {seed}: {event}");
    }
    println!(
        "selfcheck: {count} trips, {calls} calls, all checks hold, {} of {} events reached, {:.1?}",
        events.len() - missing.len(),
        events.len(),
        begun.elapsed()
    );
    if missing.is_empty() {
        ExitCode::SUCCESS
    } else {
        ExitCode::FAILURE
    }
}

/// A seed whose check fails, and how.
type Failed = (u64, Failure);

/// The events and the number of calls of so many seeds, shared out among the
/// processors.
fn all_seeds(seed: u64, count: u64) -> Result<(Coverage, usize), Failed> {
    let next = AtomicU64::new(0);
    let workers = thread::available_parallelism().map_or(1, usize::from);
    let mut all = (Coverage::new(), 0);
    thread::scope(|scope| {
        let next = &next;
        let start = |worker| scope.spawn(move || some_seeds(seed, count, next, worker == 0));
        let started: Vec<_> = (0..workers).map(start).collect();
        for worker in started {
            let (coverage, calls) = worker.join().expect("a check does not panic")?;
            all.0.merge(&coverage);
            all.1 += calls;
        }
        Ok(all)
    })
}

/// One worker: takes the next seed while there is one. The first also tells
/// how far all have come.
fn some_seeds(
    seed: u64,
    count: u64,
    next: &AtomicU64,
    tells: bool,
) -> Result<(Coverage, usize), Failed> {
    let (mut coverage, mut calls) = (Coverage::new(), 0);
    let (begun, mut shown) = (Instant::now(), Instant::now());
    loop {
        let done = next.fetch_add(1, Ordering::Relaxed);
        if done >= count {
            return Ok((coverage, calls));
        }
        let at = seed + done;
        calls += check_seed(at, &mut coverage).map_err(|what| (at, what))?;
        if tells && shown.elapsed() >= PROGRESS {
            shown = Instant::now();
            eprintln!("selfcheck: {done} trips, {} s", begun.elapsed().as_secs());
        }
    }
}

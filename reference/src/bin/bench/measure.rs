//! The time of a line for both meters: the least time of its work over all
//! rounds. A piece of work is short, so that some of its rounds meet no
//! interruption even where other programs keep the processors busy. Each round
//! begins with the same account. The rounds take several places of the stack in
//! turn, and the time is the mean of those at each place.

use crate::meters::{Meter, Proved, Reference, Room};
use crate::work::{Row, Task, Work};
use reference::sides::Side;
use std::hint::black_box;
use std::time::{Duration, Instant};

/// Each part takes the rounds that fit in this span, and at least so many.
pub const SPAN: Duration = Duration::from_secs(15);
const ROUNDS: usize = 80;
const PROGRESS: Duration = Duration::from_secs(3);

/// refusal-2: the first day of a plan, with thousands of days after it.
pub const EARLY: u32 = 181;

/// A line of a table: its name, what is timed, and the number that the time is
/// divided by.
pub struct Line {
    pub name: String,
    pub task: Task,
    pub divisor: usize,
}

/// Lines that are measured in the same rounds: what they are, and in what unit.
pub struct Part {
    pub what: String,
    pub unit: &'static str,
    pub lines: Vec<Line>,
}

/// The least times so far of a line, for each side, at each place of the stack.
type Least = [[Duration; 2]; PLACES];

impl Line {
    /// One call of a kind after so many days.
    pub fn call(side: Side, name: &str, row: &Row, days: usize) -> Line {
        Line {
            name: name.to_string(),
            task: row.task(side, EARLY, days, row.count()),
            divisor: row.count(),
        }
    }

    fn time(&self, place: usize, least: &mut Least) {
        let Task {
            work,
            proved,
            reference,
        } = &self.task;
        let times = [
            PROVED_TIMERS[place](work, proved),
            REFERENCE_TIMERS[place](work, reference),
        ];
        for (least, time) in least[place].iter_mut().zip(times) {
            *least = time.min(*least);
        }
    }

    /// Nanoseconds of one call of the line, for each side: the mean of those at
    /// each place of the stack.
    fn nanoseconds(&self, least: &Least) -> [f64; 2] {
        [0, 1].map(|side| {
            let all: f64 = least
                .iter()
                .map(|times| times[side].as_nanos() as f64)
                .sum();
            all / (PLACES * self.divisor) as f64
        })
    }
}

/// Times a piece of work on a copy of a meter's account.
type Timer<M> = fn(&Work, &M) -> Duration;

/// Where the stack lies makes some calls up to a tenth slower: at a multiple of
/// 32 bytes or 16 bytes beside it, and where in a page. So the rounds take
/// eight places in turn, each by this many bytes lower than the one before, and
/// each place has its own least times.
const STEP: usize = 528;
const PLACES: usize = 8;
const PROVED_TIMERS: [Timer<Proved>; PLACES] = timers();
const REFERENCE_TIMERS: [Timer<Reference>; PLACES] = timers();

const fn timers<M: Meter>() -> [Timer<M>; PLACES] {
    [
        timed::<M, STEP>,
        timed::<M, { 2 * STEP }>,
        timed::<M, { 3 * STEP }>,
        timed::<M, { 4 * STEP }>,
        timed::<M, { 5 * STEP }>,
        timed::<M, { 6 * STEP }>,
        timed::<M, { 7 * STEP }>,
        timed::<M, { 8 * STEP }>,
    ]
}

#[inline(never)]
fn timed<M: Meter, const BEFORE: usize>(work: &Work, meter: &M) -> Duration {
    let mut before = [0u8; BEFORE];
    black_box(&mut before);
    let mut meter = black_box(meter.clone());
    let mut answer = Room::default();
    let begun = Instant::now();
    work.run(&mut meter, &mut answer);
    let took = begun.elapsed();
    black_box((&before, &answer, &meter));
    took
}

impl Part {
    /// Nanoseconds of each line for both sides. A round takes all lines in turn.
    /// It is part `number` of how many.
    pub fn measure(&self, number: usize, parts: usize) -> Vec<[f64; 2]> {
        let mut least = vec![[[Duration::MAX; 2]; PLACES]; self.lines.len()];
        let (begun, mut shown, mut rounds) = (Instant::now(), Instant::now(), 0);
        let show = |rounds: usize| {
            let (what, past, span) = (&self.what, begun.elapsed().as_secs(), SPAN.as_secs());
            eprintln!(
                "bench: part {number} of {parts}, {what}: {rounds} rounds, {past} of {span} s"
            );
        };
        show(rounds);
        while rounds < ROUNDS || begun.elapsed() < SPAN {
            for (line, least) in self.lines.iter().zip(&mut least) {
                line.time(rounds % PLACES, least);
            }
            rounds += 1;
            if shown.elapsed() >= PROGRESS {
                shown = Instant::now();
                show(rounds);
            }
        }
        show(rounds);
        let lines = self.lines.iter().zip(&least);
        lines.map(|(line, least)| line.nanoseconds(least)).collect()
    }
}

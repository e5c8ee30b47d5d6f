//! What the writer is asked to write: what a file was read as, and random
//! plans, calls and buffers with none, one or several reasons to decline them.
//! Rules order-4, refusal-14 to refusal-16, library-4.

use crate::faults::bad_plan;
use crate::generate::any_plan;
use crate::rng::Rng;
use crate::sides::{Side, ACCEPTED, BAD_ARGUMENT, PLAN_NUMBERS, WRITE_NUMBERS};
use crate::terms::Call;
use crate::tripfile::{Trip, BEFORE_CALLS, MAX_CALLS};

/// One write and what it must return.
#[derive(Clone, PartialEq, Eq, Debug)]
pub struct WriteCase {
    /// The plan's numbers: seven, but for those that must be declined, of any
    /// form and size.
    pub plan: Vec<u64>,
    pub codes: Vec<u32>,
    pub numbers: Vec<u32>,
    /// The buffer before.
    pub buffer: Vec<u8>,
    /// How many numbers are lent for the answer.
    pub room: usize,
    pub expected: u64,
}

impl WriteCase {
    /// What a file was read as, into a buffer that is long enough or, in one
    /// of eight cases, not.
    pub fn again(trip: &Trip, rng: &mut Rng) -> WriteCase {
        let (codes, numbers): (Vec<u32>, Vec<u32>) = trip.calls.iter().copied().unzip();
        let need = BEFORE_CALLS + 8 * codes.len();
        let short = rng.below(8) == 0;
        let room = room(rng, need, short);
        WriteCase {
            plan: trip.plan.to_words().map(u64::from).to_vec(),
            codes,
            numbers,
            buffer: rng.bytes(room),
            room: WRITE_NUMBERS,
            expected: if short { 16 } else { ACCEPTED },
        }
    }

    /// A random write. The plan is bad in two of five cases, and each of the
    /// other reasons is there in one of five, so that all sets of them arise;
    /// the first in order-4 counts. In one of twenty the arguments are of no
    /// write, which comes before all reasons (library-4).
    pub fn random(rng: &mut Rng) -> WriteCase {
        let mut plan = any_plan(rng).to_words().map(u64::from).to_vec();
        let (mut codes, mut numbers) = right_calls(rng);
        let mut short = false;
        let mut expected = ACCEPTED;
        for number in [16, 15, 14] {
            if !rng.chance(20) {
                continue;
            }
            expected = number;
            match number {
                14 => wrong_count(rng, &mut codes, &mut numbers),
                15 => wrong_call(rng, &mut codes, &mut numbers),
                _ => short = true,
            }
        }
        if rng.chance(40) {
            let (words, number) = bad_plan(rng, &WIDE);
            (plan, expected) = (words.to_vec(), u64::from(number));
        }
        let answer = no_write(rng, &mut plan);
        if answer == 0 || plan.len() != PLAN_NUMBERS {
            expected = BAD_ARGUMENT;
        }
        let need = BEFORE_CALLS + 8 * codes.len();
        let room = room(rng, need, short);
        WriteCase {
            plan,
            codes,
            numbers,
            buffer: rng.bytes(room),
            room: answer,
            expected,
        }
    }

    /// What the writer of a side returns; it fills buffer and answer.
    pub fn run(&self, side: &Side, buffer: &mut [u8], answer: &mut [u64]) -> u64 {
        (side.write)(&self.plan, &self.codes, &self.numbers, buffer, answer)
    }

    /// refusal-14: whether it holds, given a good plan.
    pub fn has_wrong_count(&self) -> bool {
        let count = self.codes.len();
        count != self.numbers.len() || !(1..=MAX_CALLS).contains(&count)
    }

    /// refusal-15: whether it holds, the counts aside.
    pub fn has_wrong_call(&self) -> bool {
        let mut calls = self.codes.iter().zip(&self.numbers);
        calls.any(|(code, number)| Call::from_words(*code, *number).is_none())
    }

    /// What is written, in a line.
    pub fn outline(&self) -> String {
        format!(
            "plan {:?}, {} codes, {} numbers, {} bytes of room",
            self.plan,
            self.codes.len(),
            self.numbers.len(),
            self.buffer.len()
        )
    }
}

/// library-4: at times arguments of no write, another count of the plan's
/// numbers or no room for the answer. Answers how many numbers are lent for it.
fn no_write(rng: &mut Rng, plan: &mut Vec<u64>) -> usize {
    match rng.below(60) {
        0 => return 0,
        1 => drop(plan.pop()),
        2 => plan.push(0),
        _ => {}
    }
    WRITE_NUMBERS + rng.below(3) as usize
}

/// The last word of 32 bits, the first number above it, and the last number.
const WIDE: [u64; 3] = [(1 << 32) - 1, 1 << 32, u64::MAX];

/// Room for so many bytes and up to 40 more, or for fewer.
fn room(rng: &mut Rng, need: usize, short: bool) -> usize {
    match (short, rng.below(3)) {
        (true, 0) => need - 1,
        (true, 1) => rng.pick(&[0, 0, 63]).min(need - 1),
        (true, _) => rng.below(need as u64) as usize,
        (false, 0) => need,
        (false, _) => need + rng.between(1, 40) as usize,
    }
}

/// Some calls that keep refusal-15's rules, at times as many as a file can
/// hold.
fn right_calls(rng: &mut Rng) -> (Vec<u32>, Vec<u32>) {
    let count = match rng.below(50) {
        0 => MAX_CALLS as u64,
        _ => rng.between(1, 40),
    };
    (0..count).map(|_| right_call(rng)).unzip()
}

fn right_call(rng: &mut Rng) -> (u32, u32) {
    let code = rng.between(1, 7) as u32;
    let number = match code {
        1 => rng.below(3) as u32,
        7 => 0,
        _ => rng.word() as u32,
    };
    (code, number)
}

/// refusal-14: no calls, one more than a file can hold, or unequal counts.
fn wrong_count(rng: &mut Rng, codes: &mut Vec<u32>, numbers: &mut Vec<u32>) {
    match rng.below(6) {
        0 => {
            codes.clear();
            numbers.clear();
        }
        1 => {
            codes.resize(MAX_CALLS + 1, 2);
            numbers.resize(MAX_CALLS + 1, 1);
        }
        2 => numbers.push(0),
        3 => codes.push(7),
        4 => numbers.clear(),
        _ => {
            codes.pop();
        }
    }
}

/// refusal-15: one call with a bad code or number.
fn wrong_call(rng: &mut Rng, codes: &mut [u32], numbers: &mut [u32]) {
    let at = rng.below(codes.len() as u64) as usize;
    let bad = [(0, 0), (8, 0), (u32::MAX, 1), (1, 3), (1, 1 << 31), (7, 1)];
    (codes[at], numbers[at]) = rng.pick(&bad);
}

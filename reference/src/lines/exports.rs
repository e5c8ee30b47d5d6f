//! Calls to export: those that were read, and random ones with none, one or
//! several reasons to decline them, short lists and those at the limits. Rules
//! lines-6, lines-9, refusal-14 to refusal-16, refusal-21.

use super::calls::{sized_calls, some_calls, text_of, Words};
use super::texts::{some_answer, some_room};
use super::{MAX_LINES, MAX_TEXT};
use crate::rng::Rng;
use crate::sides::{Side, TEXT_NUMBERS};
use crate::terms::Call;

/// One export and what is lent for it.
#[derive(Clone, PartialEq, Eq, Debug)]
pub struct ExportCase {
    pub codes: Vec<u32>,
    pub numbers: Vec<u32>,
    /// The buffer before.
    pub buffer: Vec<u8>,
    /// How many numbers are lent for the answer.
    pub room: usize,
}

/// lines-4, lines-9: calls whose text is at a limit, or past one.
#[derive(Clone, Copy, PartialEq, Eq, Debug)]
pub enum ExportEdge {
    MostCalls,
    MostBytes,
    MostOfBoth,
    /// refusal-14: a call more than there may be, with a text that is not too
    /// long.
    OneCallMore,
    /// refusal-21: a text that is too long, together with these reasons.
    TooLong(Reasons),
}

/// Reasons to decline an export, beside the size of its text.
#[derive(Clone, Copy, PartialEq, Eq, Debug, Default)]
pub struct Reasons {
    /// refusal-14.
    pub count: bool,
    /// refusal-15.
    pub call: bool,
    /// refusal-16.
    pub room: bool,
}

impl Reasons {
    /// All sets of them by number, from 0 to 7.
    const fn of(set: u8) -> Reasons {
        Reasons {
            count: set & 4 != 0,
            call: set & 2 != 0,
            room: set & 1 != 0,
        }
    }
}

impl ExportEdge {
    pub const ALL: [ExportEdge; 12] = [
        ExportEdge::MostCalls,
        ExportEdge::MostBytes,
        ExportEdge::MostOfBoth,
        ExportEdge::OneCallMore,
        ExportEdge::TooLong(Reasons::of(0)),
        ExportEdge::TooLong(Reasons::of(1)),
        ExportEdge::TooLong(Reasons::of(2)),
        ExportEdge::TooLong(Reasons::of(3)),
        ExportEdge::TooLong(Reasons::of(4)),
        ExportEdge::TooLong(Reasons::of(5)),
        ExportEdge::TooLong(Reasons::of(6)),
        ExportEdge::TooLong(Reasons::of(7)),
    ];
}

impl ExportCase {
    /// A short list: each of the three reasons that it can have is there in one
    /// of four cases, so that all sets of them arise.
    pub fn random(rng: &mut Rng) -> ExportCase {
        let count = match rng.below(6) {
            0 => 1,
            _ => rng.between(1, 40),
        };
        let calls = some_calls(rng, count);
        let [count, call, room] = [0; 3].map(|_| rng.chance(25));
        ExportCase::of(rng, &calls, Reasons { count, call, room })
    }

    /// Calls at an edge. Where the edge has no reasons of its own, the buffer is
    /// too short in one of four cases.
    pub fn at_edge(rng: &mut Rng, edge: ExportEdge) -> ExportCase {
        let any_calls = rng.between(4000, MAX_LINES as u64 - 1) as usize;
        let any_bytes = rng.between(6 * MAX_LINES as u64, MAX_TEXT as u64 - 1) as usize;
        let room = rng.chance(25);
        let alone = Reasons {
            room,
            ..Reasons::default()
        };
        let (count, bytes, reasons) = match edge {
            ExportEdge::MostCalls => (MAX_LINES, any_bytes, alone),
            ExportEdge::MostBytes => (any_calls, MAX_TEXT, alone),
            ExportEdge::MostOfBoth => (MAX_LINES, MAX_TEXT, alone),
            ExportEdge::OneCallMore => (MAX_LINES + 1, any_bytes, alone),
            ExportEdge::TooLong(reasons) => {
                let (count, bytes) = too_long(rng, reasons);
                (count, bytes, reasons)
            }
        };
        let calls = sized_calls(rng, count, bytes);
        ExportCase::of(rng, &calls, reasons)
    }

    /// lines-8: calls that were read, with room for their text.
    pub fn again(rng: &mut Rng, codes: &[u32], numbers: &[u32], bytes: usize) -> ExportCase {
        let length = some_room(rng, bytes, false);
        ExportCase {
            codes: codes.to_vec(),
            numbers: numbers.to_vec(),
            buffer: rng.bytes(length),
            room: TEXT_NUMBERS,
        }
    }

    fn of(rng: &mut Rng, calls: &[Words], reasons: Reasons) -> ExportCase {
        let (mut codes, mut numbers): (Vec<u32>, Vec<u32>) = calls.iter().copied().unzip();
        if reasons.call {
            wrong_call(rng, &mut codes, &mut numbers);
        }
        if reasons.count && codes.len() <= MAX_LINES {
            wrong_count(rng, &mut codes, &mut numbers);
        }
        let mut case = ExportCase {
            codes,
            numbers,
            buffer: Vec::new(),
            room: some_answer(rng),
        };
        let need = text_of(&case.right_calls()).len();
        let length = some_room(rng, need, reasons.room);
        case.buffer = rng.bytes(length);
        case
    }

    /// What the exporter of a side returns; it fills buffer and answer.
    pub fn run(&self, side: &Side, buffer: &mut [u8], answer: &mut [u64]) -> u64 {
        (side.text_write)(&self.codes, &self.numbers, buffer, answer)
    }

    /// The calls that have a line.
    pub fn right_calls(&self) -> Vec<Words> {
        let calls = self.codes.iter().copied().zip(self.numbers.iter().copied());
        let right = |call: &Words| Call::from_words(call.0, call.1).is_some();
        calls.filter(right).collect()
    }

    /// What is exported, in a line.
    pub fn outline(&self) -> String {
        format!(
            "{} codes, {} numbers, {} bytes of room",
            self.codes.len(),
            self.numbers.len(),
            self.buffer.len()
        )
    }
}

/// refusal-21: how many calls, and of how many bytes: one too many, or so many
/// that the text is too long without any one call, too.
fn too_long(rng: &mut Rng, reasons: Reasons) -> (usize, usize) {
    let more = rng.pick(&[40, 100, 20_000]);
    let bytes = match (reasons.count || reasons.call, rng.below(4)) {
        (false, 0..=2) => MAX_TEXT + 1,
        _ => MAX_TEXT + more,
    };
    let count = match (reasons.count, rng.below(2)) {
        (true, 0) => MAX_LINES + 1,
        _ => rng.between(6000, MAX_LINES as u64) as usize,
    };
    (count, bytes)
}

/// refusal-14: no calls where there are few of them, or unequal counts.
fn wrong_count(rng: &mut Rng, codes: &mut Vec<u32>, numbers: &mut Vec<u32>) {
    let many = codes.len() > 40;
    match rng.below(6) {
        0 if !many => {
            codes.clear();
            numbers.clear();
        }
        1 if !many => numbers.clear(),
        2 | 1 => numbers.push(0),
        3 | 0 => codes.push(7),
        4 => drop(numbers.pop()),
        _ => drop(codes.pop()),
    }
}

/// refusal-15: one call with a bad code or number.
fn wrong_call(rng: &mut Rng, codes: &mut [u32], numbers: &mut [u32]) {
    let at = rng.below(codes.len() as u64) as usize;
    let bad = [(0, 0), (8, 0), (u32::MAX, 1), (1, 3), (1, 1 << 31), (7, 1)];
    (codes[at], numbers[at]) = rng.pick(&bad);
}

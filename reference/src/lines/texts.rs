//! Texts to read: right ones and damaged ones, short ones and those at the
//! limits, with the lists that are lent for them. Rules lines-1 to lines-5,
//! lines-10, refusal-21, refusal-22.

use super::calls::{line_of, sized_calls, some_calls, text_of, SHORTEST};
use super::faults::LineFault;
use super::{MAX_LINES, MAX_TEXT};
use crate::rng::Rng;
use crate::sides::{Side, TEXT_NUMBERS};

/// One text and what is lent for its calls.
#[derive(Clone, PartialEq, Eq, Debug)]
pub struct TextCase {
    pub text: Vec<u8>,
    /// The lists before.
    pub codes: Vec<u32>,
    pub numbers: Vec<u32>,
    /// How many numbers are lent for the answer.
    pub room: usize,
}

/// lines-4: a text at a limit, or just past it.
#[derive(Clone, Copy, PartialEq, Eq, Debug)]
pub enum Edge {
    MostLines,
    OneLineMore,
    MostBytes,
    OneByteMore,
    MostOfBoth,
    OverBoth,
    /// As many lines as there may be, the last one not ended.
    LastUnended,
    /// As many lines, and a rest without a line feed.
    UnendedMore,
    /// As many bytes as there may be, the last line not ended.
    MostBytesUnended,
    /// Line feeds alone.
    Feeds,
    /// No line feed at all.
    NoFeeds,
}

impl Edge {
    pub const ALL: [Edge; 11] = [
        Edge::MostLines,
        Edge::OneLineMore,
        Edge::MostBytes,
        Edge::OneByteMore,
        Edge::MostOfBoth,
        Edge::OverBoth,
        Edge::LastUnended,
        Edge::UnendedMore,
        Edge::MostBytesUnended,
        Edge::Feeds,
        Edge::NoFeeds,
    ];

    /// A text at the edge, all of its lines right but for what makes the edge.
    fn made(self, rng: &mut Rng) -> Vec<u8> {
        let any_bytes = rng.between((SHORTEST * (MAX_LINES + 1)) as u64, MAX_TEXT as u64 - 1);
        let any_bytes = any_bytes as usize;
        let any_lines = rng.between(4000, MAX_LINES as u64 - 1) as usize;
        let more = rng.pick(&[1, 1, 2, 100]);
        let (lines, bytes) = match self {
            Edge::MostLines | Edge::LastUnended => (MAX_LINES, any_bytes),
            Edge::OneLineMore | Edge::UnendedMore => (MAX_LINES + 1, any_bytes),
            Edge::MostBytes => (any_lines, MAX_TEXT),
            Edge::OneByteMore => (any_lines, MAX_TEXT + 1),
            Edge::MostOfBoth => (MAX_LINES, MAX_TEXT),
            Edge::OverBoth => (MAX_LINES + more, MAX_TEXT + more),
            Edge::MostBytesUnended => (any_lines, MAX_TEXT + 1),
            Edge::Feeds => {
                let count = rng.pick(&[MAX_LINES, MAX_LINES + 1, MAX_TEXT, MAX_TEXT + 1]);
                return vec![b'\n'; count];
            }
            Edge::NoFeeds => {
                let count = rng.pick(&[MAX_TEXT, MAX_TEXT + 1]);
                return vec![rng.pick(b",0a"); count];
            }
        };
        let mut text = text_of(&sized_calls(rng, lines, bytes)).into_bytes();
        let unended = [Edge::LastUnended, Edge::UnendedMore, Edge::MostBytesUnended];
        if unended.contains(&self) {
            text.pop();
        }
        text
    }
}

/// The bytes that texts are made of, and some that have no place in them.
const BYTES: &[u8] =
    b"registerdataoutinsmstopupnextday,,,,,,\n\n\n\n\n\n00112233445566778899 +-\r\tAZ;\"\0\xFF";

impl TextCase {
    /// A short text: right in four of eight cases, with one bad line or two,
    /// damaged anywhere, or of bytes as they come.
    pub fn random(rng: &mut Rng) -> TextCase {
        let count = match rng.below(6) {
            0 => 1,
            _ => rng.between(1, 40),
        };
        let mut lines = some_lines(rng, count);
        let bad = match rng.below(8) {
            4 => 1,
            5 => 2,
            6 => {
                let text = scrambled(rng, lines.concat());
                return TextCase::of(rng, text);
            }
            7 => {
                let text = noise(rng);
                return TextCase::of(rng, text);
            }
            _ => 0,
        };
        for _ in 0..bad {
            let fault = rng.pick(&LineFault::ALL);
            spoil(rng, &mut lines, fault);
        }
        TextCase::of(rng, lines.concat())
    }

    /// A short text with one fault.
    pub fn with_fault(rng: &mut Rng, fault: LineFault) -> TextCase {
        let count = rng.between(1, 12);
        let mut lines = some_lines(rng, count);
        spoil(rng, &mut lines, fault);
        TextCase::of(rng, lines.concat())
    }

    /// A text at an edge; if it has right lines, one of them is made bad in one
    /// of three cases.
    pub fn at_edge(rng: &mut Rng, edge: Edge) -> TextCase {
        let mut text = edge.made(rng);
        let has_right_lines = ![Edge::Feeds, Edge::NoFeeds].contains(&edge);
        if has_right_lines && rng.below(3) == 0 {
            spoil_byte(rng, &mut text);
        }
        TextCase::of(rng, text)
    }

    /// lines-7: a text that was exported, into lists that are long enough.
    pub fn back(rng: &mut Rng, text: &[u8]) -> TextCase {
        TextCase {
            room: TEXT_NUMBERS,
            ..TextCase::with_lists(rng, text.to_vec(), [false; 2])
        }
    }

    /// A text with lists that are long enough or, in two of five cases, not:
    /// one of them or both.
    fn of(rng: &mut Rng, text: Vec<u8>) -> TextCase {
        let short = match rng.below(10) {
            0 => [true, false],
            1 => [false, true],
            2 | 3 => [true, true],
            _ => [false, false],
        };
        TextCase::with_lists(rng, text, short)
    }

    fn with_lists(rng: &mut Rng, text: Vec<u8>, short: [bool; 2]) -> TextCase {
        let feeds = text.iter().filter(|byte| **byte == b'\n').count();
        let lines = feeds + usize::from(!text.is_empty() && !text.ends_with(b"\n"));
        let [codes, numbers] = short.map(|short| {
            let count = some_room(rng, lines, short);
            (0..count).map(|_| rng.word() as u32).collect()
        });
        TextCase {
            text,
            codes,
            numbers,
            room: some_answer(rng),
        }
    }

    /// What the reader of a side returns; it fills the lists and the answer.
    pub fn run(
        &self,
        side: &Side,
        codes: &mut [u32],
        numbers: &mut [u32],
        answer: &mut [u64],
    ) -> u64 {
        (side.text_read)(&self.text, codes, numbers, answer)
    }

    /// What is read, in a line.
    pub fn outline(&self) -> String {
        format!(
            "{} bytes of text, {} and {} places",
            self.text.len(),
            self.codes.len(),
            self.numbers.len()
        )
    }
}

/// library-14: numbers lent for an answer, in one of eight cases too few.
pub fn some_answer(rng: &mut Rng) -> usize {
    match rng.below(8) {
        0 => 0,
        _ => TEXT_NUMBERS + rng.below(3) as usize,
    }
}

/// Room for so many and up to 40 more, or, where that can be, for fewer.
pub fn some_room(rng: &mut Rng, need: usize, short: bool) -> usize {
    match (short && need > 0, rng.below(3)) {
        (true, 0) => need - 1,
        (true, 1) => 0,
        (true, _) => rng.below(need as u64) as usize,
        (false, 0) => need,
        (false, _) => need + rng.between(1, 40) as usize,
    }
}

fn some_lines(rng: &mut Rng, count: u64) -> Vec<Vec<u8>> {
    let calls = some_calls(rng, count).into_iter();
    calls.map(|call| line_of(call).into_bytes()).collect()
}

/// Puts a bad line in place of a right one: one without its line feed at the
/// end, any other in front, at the end or between.
fn spoil(rng: &mut Rng, lines: &mut [Vec<u8>], fault: LineFault) {
    let last = lines.len() - 1;
    let any = rng.below(lines.len() as u64) as usize;
    let at = match fault {
        LineFault::Unended => last,
        _ => rng.pick(&[0, any, any, last]),
    };
    lines[at] = fault.made(rng);
}

/// Makes a line bad, the first, the last or any one, that keeps its bytes: a
/// comma or a digit becomes a mark, or a letter a capital.
fn spoil_byte(rng: &mut Rng, text: &mut [u8]) {
    let is_feed = |at: &usize| text[*at] == b'\n';
    let last = (0..text.len().saturating_sub(1)).rev().find(is_feed);
    let any = rng.below(text.len() as u64) as usize;
    let near = rng.pick(&[0, last.map_or(0, |feed| feed + 1), any]);
    let near = if is_feed(&near) { near - 1 } else { near };
    text[near] = match text[near] {
        b',' => b';',
        letter @ b'a'..=b'z' => letter.to_ascii_uppercase(),
        _ => b'x',
    };
}

/// Some bytes changed, taken out or put in, or the end cut off.
fn scrambled(rng: &mut Rng, mut text: Vec<u8>) -> Vec<u8> {
    for _ in 0..rng.between(1, 3) {
        if text.is_empty() {
            break;
        }
        let at = rng.below(text.len() as u64) as usize;
        match rng.below(6) {
            0 => text.truncate(at),
            1 => drop(text.remove(at)),
            2 | 3 => text.insert(at, rng.pick(BYTES)),
            _ => text[at] = rng.pick(BYTES),
        }
    }
    text
}

/// Bytes as they come, of all sorts, or of those that make short lines; at
/// times none at all.
fn noise(rng: &mut Rng) -> Vec<u8> {
    let count = rng.below(30);
    match rng.below(4) {
        0 => Vec::new(),
        1 => rng.bytes(count as usize),
        2 => (0..count).map(|_| rng.pick(BYTES)).collect(),
        _ => {
            let parts: [&[u8]; 8] = [b"in", b"sms", b",", b",", b"0", b"7", b"\n", b"\n"];
            let parts = (0..count).flat_map(|_| rng.pick(&parts).to_vec());
            parts.collect()
        }
    }
}

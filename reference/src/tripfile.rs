//! The trip file: reading, finding a section, the reader of calls, writing.
//! Rules file-1 to file-9, find-1, reader-1, reader-2, write-1, write-2,
//! refusal-10 to refusal-16.

use crate::plan::Plan;
use crate::planted::{planted, Wrong};
use crate::terms::Call;

/// file-7: the plan's kind.
pub const PLAN_KIND: u32 = 1;
/// file-8: the kind of the calls.
pub const CALLS_KIND: u32 = 2;
/// refusal-10: the most bytes of a file.
pub const MAX_FILE: usize = 65_536;
/// refusal-14: the most calls to write.
pub const MAX_CALLS: usize = 8_184;
/// File length, sum word, count, two entries and the plan body.
pub const BEFORE_CALLS: usize = 64;
/// file-7: the bytes of a plan.
const PLAN_BYTES: usize = 28;

/// A file read whole: the plan and the calls as code and number.
#[derive(Clone, PartialEq, Eq, Debug)]
pub struct Trip {
    pub plan: Plan,
    pub calls: Vec<(u32, u32)>,
}

/// file-5: one entry of the table; start and length in bytes.
struct Entry {
    kind: u32,
    start: u64,
    length: u64,
}

/// file-1: the word from a byte on.
fn word(bytes: &[u8], at: usize) -> u32 {
    u32::from_le_bytes([bytes[at], bytes[at + 1], bytes[at + 2], bytes[at + 3]])
}

/// file-3: all words added up, wrapping.
pub fn word_sum(bytes: &[u8]) -> u32 {
    let words = bytes.chunks_exact(4).map(|chunk| word(chunk, 0));
    words.fold(0, u32::wrapping_add)
}

/// refusal-10: the length, by itself and against the first word (file-2).
fn check_length(bytes: &[u8]) -> Result<(), u32> {
    let length = bytes.len();
    let fits = (12..=MAX_FILE).contains(&length) && length.is_multiple_of(4);
    if fits && word(bytes, 0) as usize == length {
        Ok(())
    } else {
        Err(10)
    }
}

/// refusal-10 to refusal-12: the table of a file, its rules (file-4 to file-6)
/// checked with exact sums.
fn table(bytes: &[u8]) -> Result<Vec<Entry>, u32> {
    check_length(bytes)?;
    if word_sum(bytes) != 0 && !planted(Wrong::SumNotChecked) {
        return Err(11);
    }
    let count = word(bytes, 8) as usize;
    if !(1..=8).contains(&count) || 12 + 12 * count > bytes.len() {
        return Err(12);
    }
    let entries: Vec<Entry> = (0..count).map(|i| entry(bytes, 12 + 12 * i)).collect();
    let mut next = 12 + 12 * count as u64;
    for entry in &entries {
        if entry.start != next || entry.length % 4 != 0 {
            return Err(12);
        }
        next += entry.length;
    }
    if next != bytes.len() as u64 {
        return Err(12);
    }
    Ok(entries)
}

fn entry(bytes: &[u8], at: usize) -> Entry {
    Entry {
        kind: word(bytes, at),
        start: u64::from(word(bytes, at + 4)),
        length: u64::from(word(bytes, at + 8)),
    }
}

/// refusal-13: the body of the kind, neither missing nor doubled.
fn only<'a>(bytes: &'a [u8], entries: &[Entry], kind: u32) -> Result<&'a [u8], u32> {
    let mut found = entries.iter().filter(|entry| entry.kind == kind);
    let lenient = planted(Wrong::OtherKindsTwice) && kind > CALLS_KIND;
    match (found.next(), found.next()) {
        (Some(entry), more) if more.is_none() || lenient => {
            Ok(&bytes[entry.start as usize..(entry.start + entry.length) as usize])
        }
        _ => Err(13),
    }
}

/// Finding a section: 10, 11, 12, 13 (order-4). find-1: it is a part of the
/// caller's own file.
pub fn find(bytes: &[u8], kind: u32) -> Result<&[u8], u32> {
    only(bytes, &table(bytes)?, kind)
}

/// Reading: 10 to 15, then 1, 17, 18, 2 (order-4). file-9: other kinds are
/// passed over.
pub fn read(bytes: &[u8]) -> Result<Trip, u32> {
    let entries = table(bytes)?;
    let plan_body = only(bytes, &entries, PLAN_KIND)?;
    let calls_body = only(bytes, &entries, CALLS_KIND)?;
    if plan_body.len() != PLAN_BYTES || calls_body.is_empty() || calls_body.len() % 8 != 0 {
        return Err(14);
    }
    let calls: Vec<(u32, u32)> = CallReader::new(calls_body).collect();
    check_calls(calls.iter().copied())?;
    let plan = Plan::from_words(std::array::from_fn(|i| word(plan_body, 4 * i)));
    plan.check()?;
    Ok(Trip { plan, calls })
}

/// refusal-15: codes, and the numbers of registrations and day changes.
pub fn check_calls(mut calls: impl Iterator<Item = (u32, u32)>) -> Result<(), u32> {
    if calls.all(|(code, number)| Call::from_words(code, number).is_some()) {
        Ok(())
    } else {
        Err(15)
    }
}

/// reader-1: refers to a calls section, and hands out code and number of each
/// call as they are; reader-2: none with fewer than 8 bytes left.
#[derive(Clone, Debug)]
pub struct CallReader<'a> {
    pub section: &'a [u8],
    pub position: usize,
}

impl<'a> CallReader<'a> {
    pub fn new(section: &'a [u8]) -> CallReader<'a> {
        CallReader {
            section,
            position: 0,
        }
    }
}

impl Iterator for CallReader<'_> {
    type Item = (u32, u32);

    fn next(&mut self) -> Option<(u32, u32)> {
        let rest = self.section.get(self.position..)?;
        if rest.len() < 8 {
            return None;
        }
        self.position += 8;
        Some((word(rest, 0), word(rest, 4)))
    }
}

/// refusal-14: calls that are too few or too many to write, or unequal counts.
pub fn is_wrong_count(codes: &[u32], numbers: &[u32]) -> bool {
    let count = codes.len();
    count == 0 || count > MAX_CALLS || numbers.len() != count
}

/// Writing: 1, 17, 18, 2, then 14, 15, 16 (order-4). Answers the file's length;
/// what is behind the file stays (write-2), and a refusal writes nothing
/// (order-2).
pub fn write(plan: &Plan, codes: &[u32], numbers: &[u32], buf: &mut [u8]) -> Result<usize, u32> {
    let calls = codes.iter().copied().zip(numbers.iter().copied());
    if planted(Wrong::CallsBeforePlan) {
        check_calls(calls.clone())?;
    }
    let wrong_count = is_wrong_count(codes, numbers);
    if planted(Wrong::CountBeforePlan) && wrong_count {
        return Err(14);
    }
    plan.check()?;
    if wrong_count {
        return Err(14);
    }
    let length = BEFORE_CALLS + 8 * codes.len();
    if planted(Wrong::RoomBeforeCalls) && buf.len() < length {
        return Err(16);
    }
    check_calls(calls)?;
    let file = buf.get_mut(..length).ok_or(16u32)?;
    fill(file, plan, codes, numbers);
    if planted(Wrong::ClearsTheRest) {
        buf[length..].fill(0);
    }
    Ok(length)
}

/// write-1: plan, then calls; file-3: the sum word is solved for last.
fn fill(file: &mut [u8], plan: &Plan, codes: &[u32], numbers: &[u32]) {
    let calls_bytes = 8 * codes.len() as u32;
    let header = [file.len() as u32, 0, 2];
    let entries = [PLAN_KIND, 36, 28, CALLS_KIND, 64, calls_bytes];
    let calls = codes.iter().zip(numbers).flat_map(|(c, n)| [*c, *n]);
    let words = header.into_iter().chain(entries).chain(plan.to_words());
    for (place, value) in file.chunks_exact_mut(4).zip(words.chain(calls)) {
        place.copy_from_slice(&value.to_le_bytes());
    }
    let sum = word_sum(file);
    file[4..8].copy_from_slice(&0u32.wrapping_sub(sum).to_le_bytes());
}

//! Why a file must be declined, worked out from its bytes, with none of the
//! code that reads it. The functions for one number take for granted that those
//! of smaller numbers found nothing. Rules file-1 to file-8, refusal-10 to
//! refusal-15, order-4.

use crate::faults::{faults_of, first_number, Words};
use crate::sides::ACCEPTED;
use crate::tripfile::{CALLS_KIND, MAX_FILE, PLAN_KIND};

/// Of one reason's causes, those that hold.
pub type Causes = Vec<&'static str>;

/// refusal-10: its causes.
pub const OF_10: [&str; 6] = [
    "read 10, under 4 bytes",
    "read 10, 4 to 11 bytes",
    "read 10, over 65,536 bytes",
    "read 10, no multiple of 4",
    "read 10, first word larger",
    "read 10, first word smaller",
];

/// refusal-12: its causes.
pub const OF_12: [&str; 10] = [
    "read 12, no sections",
    "read 12, over 8 sections",
    "read 12, table beyond the file",
    "read 12, gap before the first body",
    "read 12, first body within the table",
    "read 12, gap between bodies",
    "read 12, bodies overlap",
    "read 12, length no multiple of 4",
    "read 12, last body ends before the file",
    "read 12, last body ends beyond the file",
];

/// refusal-13: its causes.
pub const OF_13: [&str; 4] = [
    "read 13, no plan",
    "read 13, two plans",
    "read 13, no calls",
    "read 13, two lists of calls",
];

/// refusal-14: its causes.
pub const OF_14: [&str; 4] = [
    "read 14, plan too short",
    "read 14, plan too long",
    "read 14, calls of 0 bytes",
    "read 14, half a call",
];

/// refusal-15: its causes.
pub const OF_15: [&str; 4] = [
    "read 15, code 0",
    "read 15, code over 7",
    "read 15, place over 2",
    "read 15, day change with a number",
];

/// file-5: an entry of the table.
#[derive(Clone, Copy, Debug)]
pub struct Entry {
    pub kind: u32,
    pub start: u32,
    pub length: u32,
}

fn some(names: &[&'static str], holds: &[bool]) -> Causes {
    let both = names.iter().zip(holds);
    both.filter(|(_, holds)| **holds)
        .map(|(name, _)| *name)
        .collect()
}

fn word(bytes: &[u8], index: usize) -> u32 {
    let at = 4 * index;
    u32::from_le_bytes([bytes[at], bytes[at + 1], bytes[at + 2], bytes[at + 3]])
}

pub fn of_10(bytes: &[u8]) -> Causes {
    let length = bytes.len();
    if length < 4 {
        return vec![OF_10[0]];
    }
    let told = word(bytes, 0) as usize;
    let holds = [
        false,
        length < 12,
        length > MAX_FILE,
        !length.is_multiple_of(4),
        told > length,
        told < length,
    ];
    some(&OF_10, &holds)
}

/// refusal-11: whether the words do not add up to 0.
pub fn is_11(bytes: &[u8]) -> bool {
    let words = (0..bytes.len() / 4).map(|index| u64::from(word(bytes, index)));
    words.sum::<u64>() % (1 << 32) != 0
}

/// file-4, file-5: the table, if its count is right and it fits.
pub fn entries(bytes: &[u8]) -> Option<Vec<Entry>> {
    let count = word(bytes, 2) as usize;
    if !(1..=8).contains(&count) || 12 + 12 * count > bytes.len() {
        return None;
    }
    let entry = |i: usize| Entry {
        kind: word(bytes, 3 + 3 * i),
        start: word(bytes, 4 + 3 * i),
        length: word(bytes, 5 + 3 * i),
    };
    Some((0..count).map(entry).collect())
}

pub fn of_12(bytes: &[u8]) -> Causes {
    let count = word(bytes, 2);
    let Some(entries) = entries(bytes) else {
        let over = count > 8;
        return some(&OF_12[..3], &[count == 0, over, !over && count > 0]);
    };
    let mut holds = [false; 10];
    let mut next = 12 + 12 * entries.len() as u64;
    for (index, entry) in entries.iter().enumerate() {
        let later = if index == 0 { 0 } else { 2 };
        holds[3 + later] |= u64::from(entry.start) > next;
        holds[4 + later] |= u64::from(entry.start) < next;
        holds[7] |= entry.length % 4 != 0;
        next += u64::from(entry.length);
    }
    holds[8] = next < bytes.len() as u64;
    holds[9] = next > bytes.len() as u64;
    some(&OF_12, &holds)
}

/// Whether the table would be right if sums wrapped at 32 bits.
pub fn right_if_wrapped(bytes: &[u8]) -> bool {
    let Some(entries) = entries(bytes) else {
        return false;
    };
    let mut next = 12 + 12 * entries.len() as u32;
    for entry in entries {
        if entry.start != next || entry.length % 4 != 0 {
            return false;
        }
        next = next.wrapping_add(entry.length);
    }
    next as usize == bytes.len()
}

pub fn of_13(entries: &[Entry]) -> Causes {
    let count = |kind: u32| entries.iter().filter(|entry| entry.kind == kind).count();
    let (plans, calls) = (count(PLAN_KIND), count(CALLS_KIND));
    some(&OF_13, &[plans == 0, plans > 1, calls == 0, calls > 1])
}

/// refusal-14, of all sections of the two kinds, should there be several.
pub fn of_14(entries: &[Entry]) -> Causes {
    let any = |kind: u32, holds: fn(u32) -> bool| {
        let mut all = entries.iter().filter(|entry| entry.kind == kind);
        all.any(|entry| holds(entry.length))
    };
    let holds = [
        any(PLAN_KIND, |length| length < 28),
        any(PLAN_KIND, |length| length > 28),
        any(CALLS_KIND, |length| length == 0),
        any(CALLS_KIND, |length| length % 8 == 4),
    ];
    some(&OF_14, &holds)
}

/// The body of a section.
pub fn body<'a>(bytes: &'a [u8], entry: &Entry) -> &'a [u8] {
    &bytes[entry.start as usize..][..entry.length as usize]
}

/// refusal-15, of the whole calls in a body.
pub fn of_15(body: &[u8]) -> Causes {
    let mut holds = [false; 4];
    for index in 0..body.len() / 8 {
        let (code, number) = (word(body, 2 * index), word(body, 2 * index + 1));
        holds[0] |= code == 0;
        holds[1] |= code > 7;
        holds[2] |= code == 1 && number > 2;
        holds[3] |= code == 7 && number != 0;
    }
    some(&OF_15, &holds)
}

/// refusal-10 to refusal-12: the table of a file, or the number that declines
/// it.
pub fn table(bytes: &[u8]) -> Result<Vec<Entry>, u64> {
    if !of_10(bytes).is_empty() {
        Err(10)
    } else if is_11(bytes) {
        Err(11)
    } else if !of_12(bytes).is_empty() {
        Err(12)
    } else {
        entries(bytes).ok_or(12)
    }
}

/// order-4: what reading a file must return.
pub fn of_reading(bytes: &[u8]) -> u64 {
    let entries = match table(bytes) {
        Ok(entries) => entries,
        Err(number) => return number,
    };
    let body = |kind: u32| {
        let entry = entries.iter().find(|entry| entry.kind == kind);
        entry.map_or(&[][..], |entry| body(bytes, entry))
    };
    if !of_13(&entries).is_empty() {
        return 13;
    }
    if !of_14(&entries).is_empty() {
        return 14;
    }
    if !of_15(body(CALLS_KIND)).is_empty() {
        return 15;
    }
    plan_words(body(PLAN_KIND)).map_or(14, |words| of_plan(&words))
}

/// order-4: what a plan of seven numbers must get.
pub fn of_plan(words: &Words) -> u64 {
    match first_number(&faults_of(words)) {
        0 => ACCEPTED,
        number => u64::from(number),
    }
}

/// order-4: what finding a section must return, and its answer where it is
/// found.
pub fn of_finding(bytes: &[u8], kind: u32) -> Result<[u64; 2], u64> {
    let entries = table(bytes)?;
    let mut found = entries.iter().filter(|entry| entry.kind == kind);
    match (found.next(), found.next()) {
        (Some(entry), None) => Ok([entry.start, entry.length].map(u64::from)),
        _ => Err(13),
    }
}

/// file-7: the seven words of a plan's body, if it has as many.
pub fn plan_words(body: &[u8]) -> Option<Words> {
    (body.len() == 28).then(|| std::array::from_fn(|i| u64::from(word(body, i))))
}

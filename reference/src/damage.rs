//! Trip files made by hand: sound ones with other sections and orders, and
//! damaged ones for each number of reading. Rules file-1 to file-9, refusal-10
//! to refusal-15, fault-1 to fault-4.

use crate::faults::bad_plan;
use crate::generate::any_plan;
use crate::plan::Plan;
use crate::rng::Rng;
use crate::tripfile::word_sum;

/// A file and the number that reading it must give; none where the damage
/// does not tell, 0 for a file that must be read.
#[derive(Clone, Debug)]
pub struct Sample {
    pub bytes: Vec<u8>,
    pub expected: Option<u32>,
}

type Section = (u32, Vec<u8>);

/// file-2 to file-6: puts sections into a file, with length, sum and table.
pub fn assemble(sections: &[Section]) -> Vec<u8> {
    let mut start = 12 + 12 * sections.len();
    let mut words = vec![0, 0, sections.len() as u32];
    for (kind, body) in sections {
        words.extend([*kind, start as u32, body.len() as u32]);
        start += body.len();
    }
    let mut bytes = to_bytes(&words);
    for (_, body) in sections {
        bytes.extend(body);
    }
    let length = bytes.len() as u32;
    set(&mut bytes, 0, length);
    resum(&mut bytes);
    bytes
}

pub fn to_bytes(words: &[u32]) -> Vec<u8> {
    words.iter().flat_map(|word| word.to_le_bytes()).collect()
}

/// Sets the word of an index.
pub fn set(bytes: &mut [u8], index: usize, value: u32) {
    bytes[4 * index..4 * index + 4].copy_from_slice(&value.to_le_bytes());
}

pub fn get(bytes: &[u8], index: usize) -> u32 {
    let at = 4 * index;
    u32::from_le_bytes([bytes[at], bytes[at + 1], bytes[at + 2], bytes[at + 3]])
}

/// file-3: makes the sum right again.
pub fn resum(bytes: &mut [u8]) {
    set(bytes, 1, 0);
    let sum = word_sum(bytes);
    set(bytes, 1, 0u32.wrapping_sub(sum));
}

/// A random file, sound or damaged.
pub fn sample(rng: &mut Rng) -> Sample {
    let plan = any_plan(rng);
    let mut sections = sound_sections(rng, &plan);
    let (bytes, expected) = match rng.below(25) / 2 {
        0 => (assemble(&sections), Some(0)),
        1 => (wrong_length(rng, assemble(&sections)), Some(10)),
        2 => (wrong_sum(rng, assemble(&sections)), Some(11)),
        3 => (wrong_table(rng, &sections), Some(12)),
        4 => (wrong_kinds(rng, &mut sections), Some(13)),
        5 => (wrong_bodies(rng, &mut sections), Some(14)),
        6 => (wrong_calls(rng, &mut sections), Some(15)),
        7..=9 => {
            let number = wrong_plan(rng, &mut sections);
            (assemble(&sections), Some(number))
        }
        10 => (scrambled(rng, assemble(&sections)), None),
        11 => (changed_word(rng, assemble(&sections)), None),
        _ => (noise(rng), None),
    };
    Sample { bytes, expected }
}

/// file-9: plan and calls in either order, with up to six sections of other
/// kinds.
fn sound_sections(rng: &mut Rng, plan: &Plan) -> Vec<Section> {
    let count = rng.between(1, 12);
    let calls: Vec<u32> = (0..count).flat_map(|_| call_words(rng)).collect();
    let mut sections = vec![(1, to_bytes(&plan.to_words())), (2, to_bytes(&calls))];
    if rng.chance(50) {
        sections.reverse();
    }
    if rng.chance(50) {
        for _ in 0..rng.below(7) {
            let at = rng.between(0, sections.len() as u64) as usize;
            let kind = rng.pick(&[0, 3, 4, 7, u32::MAX]);
            let body: Vec<u32> = (0..rng.below(4)).map(|_| rng.word() as u32).collect();
            sections.insert(at, (kind, to_bytes(&body)));
        }
    }
    sections
}

/// A call that keeps refusal-15's rules; numbers of uses and top-ups are any
/// word.
fn call_words(rng: &mut Rng) -> [u32; 2] {
    let code = rng.between(1, 7) as u32;
    let number = match code {
        1 => rng.below(3) as u32,
        7 => 0,
        _ if rng.chance(20) => rng.word() as u32,
        _ => rng.scaled(10_000_000) as u32,
    };
    [code, number]
}

fn body_of(sections: &mut [Section], kind: u32) -> &mut Vec<u8> {
    let section = sections.iter_mut().find(|section| section.0 == kind);
    &mut section.expect("the section is there").1
}

/// refusal-10: cut, lengthened, too long, too short, or another first word.
fn wrong_length(rng: &mut Rng, mut bytes: Vec<u8>) -> Vec<u8> {
    match rng.below(6) {
        0 => bytes.truncate(rng.below(bytes.len() as u64) as usize),
        1 => bytes.extend((0..rng.between(1, 9)).map(|_| 0)),
        2 => {
            let length = rng.below(12) as usize;
            bytes = vec![0; length];
            if length >= 4 && rng.chance(50) {
                set(&mut bytes, 0, length as u32);
            }
        }
        3 => {
            bytes.resize(65_540, 0);
            set(&mut bytes, 0, 65_540);
            resum(&mut bytes);
        }
        4 => {
            bytes.extend((0..rng.between(1, 3)).map(|_| 0));
            let length = bytes.len() as u32;
            set(&mut bytes, 0, length);
        }
        _ => {
            let length = bytes.len() as u32;
            let by = rng.pick(&[1, 4, 0u32.wrapping_sub(4), 1 << 31]);
            set(&mut bytes, 0, length.wrapping_add(by));
            resum(&mut bytes);
        }
    }
    bytes
}

/// refusal-11: one bit changed after the first word.
fn wrong_sum(rng: &mut Rng, mut bytes: Vec<u8>) -> Vec<u8> {
    let at = rng.between(4, bytes.len() as u64 - 1) as usize;
    bytes[at] ^= 1 << rng.below(8);
    bytes
}

/// refusal-12: a wrong count or table, the sum is right.
fn wrong_table(rng: &mut Rng, sections: &[Section]) -> Vec<u8> {
    let mut bytes = assemble(sections);
    let count = sections.len();
    let entry = 3 + 3 * rng.below(count as u64) as usize;
    let (start, length) = (get(&bytes, entry + 1), get(&bytes, entry + 2));
    match rng.below(11) {
        0 => {
            let bad = rng.pick(&[0, 9, 1 << 30, u32::MAX]);
            set(&mut bytes, 2, bad);
        }
        1 => {
            // A table that does not fit in the file.
            bytes = to_bytes(&[24, 0, 2, 1, 36, 0]);
        }
        2 => set(&mut bytes, entry + 1, start + 4),
        3 => set(&mut bytes, entry + 1, start - 4),
        4 => set(&mut bytes, entry + 2, length + rng.pick(&[1, 2, 3, 4])),
        5 => wrap_around(&mut bytes, count),
        8 => wrap_at_the_end(&mut bytes, count),
        9 => uneven_lengths(&mut bytes, count),
        10 => {
            // Nine sections, all else in order.
            let mut nine = sections.to_vec();
            nine.resize(9, (7, Vec::new()));
            bytes = assemble(&nine);
        }
        6 => {
            // A gap before the bodies: every start is 4 too far.
            for index in 0..count {
                let at = 3 + 3 * index + 1;
                let moved = get(&bytes, at) + 4;
                set(&mut bytes, at, moved);
            }
        }
        _ => {
            // The last body ends before the file does.
            let longer = bytes.len() as u32 + 4;
            bytes.extend([0; 4]);
            set(&mut bytes, 0, longer);
        }
    }
    resum(&mut bytes);
    bytes
}

/// Lengths and starts that would fit if sums wrapped at 32 bits: the first
/// body runs past the end of numbers back to before its own start.
fn wrap_around(bytes: &mut [u8], count: usize) {
    let first = 12 + 12 * count as u32;
    let total = bytes.len() as u32;
    set(bytes, 5, 0u32.wrapping_sub(8));
    let mut next = first - 8;
    for index in 1..count {
        let length = if index == count - 1 { total - next } else { 0 };
        set(bytes, 3 + 3 * index + 1, next);
        set(bytes, 3 + 3 * index + 2, length);
        next += length;
    }
}

/// Starts without gaps, and a last body that would end the file if sums
/// wrapped at 32 bits.
fn wrap_at_the_end(bytes: &mut [u8], count: usize) {
    let total = bytes.len() as u32;
    let far = 12 + 12 * count as u32 + (1 << 31);
    set(bytes, 5, 1 << 31);
    for index in 1..count {
        set(bytes, 3 + 3 * index + 1, far);
        set(bytes, 3 + 3 * index + 2, 0);
    }
    set(bytes, 3 * count + 2, total.wrapping_sub(far));
}

/// A boundary beside the plan moved by 2 bytes: no gap, but uneven lengths.
fn uneven_lengths(bytes: &mut [u8], count: usize) {
    let is_plan = |index: &usize| get(bytes, 3 + 3 * index) == 1;
    let plan = (0..count).find(is_plan).expect("the plan is there");
    let (left, by) = if plan == 0 {
        (0, 0u32.wrapping_sub(2))
    } else {
        (plan - 1, 2)
    };
    let first = 3 + 3 * left;
    let [length, start, rest] = [2, 4, 5].map(|offset| get(bytes, first + offset));
    set(bytes, first + 2, length.wrapping_add(by));
    set(bytes, first + 4, start.wrapping_add(by));
    set(bytes, first + 5, rest.wrapping_sub(by));
}

/// refusal-13: plan or calls missing or doubled; a doubled one may be
/// ill-formed too.
fn wrong_kinds(rng: &mut Rng, sections: &mut Vec<Section>) -> Vec<u8> {
    let kind = rng.pick(&[1, 2]);
    let at = sections.iter().position(|section| section.0 == kind);
    let at = at.expect("the section is there");
    if rng.chance(50) {
        sections[at].0 = rng.pick(&[0, 3, 1 << 16]);
        return assemble(sections);
    }
    let mut double = sections[at].clone();
    double.1.truncate(4 * rng.below(8) as usize);
    if sections.len() == 8 {
        let other = sections
            .iter()
            .position(|section| section.0 == 0 || section.0 > 2);
        sections.remove(other.expect("eight sections hold other kinds"));
    }
    let place = rng.below(sections.len() as u64 + 1) as usize;
    sections.insert(place, double);
    assemble(sections)
}

/// refusal-14: a plan of another size, no calls, or half a call; a call may be
/// bad too.
fn wrong_bodies(rng: &mut Rng, sections: &mut [Section]) -> Vec<u8> {
    if rng.chance(30) {
        spoil_call(rng, sections);
    }
    match rng.below(4) {
        0 => body_of(sections, 1).truncate(4 * rng.below(7) as usize),
        1 => body_of(sections, 1).extend([0; 4]),
        2 => body_of(sections, 2).clear(),
        _ => {
            let calls = body_of(sections, 2);
            calls.truncate(calls.len() - 4);
        }
    }
    assemble(sections)
}

/// refusal-15: one call with a bad code or number; the plan may be bad too.
fn wrong_calls(rng: &mut Rng, sections: &mut [Section]) -> Vec<u8> {
    if rng.chance(30) {
        wrong_plan(rng, sections);
    }
    spoil_call(rng, sections);
    assemble(sections)
}

fn spoil_call(rng: &mut Rng, sections: &mut [Section]) {
    let calls = body_of(sections, 2);
    let at = 2 * rng.below(calls.len() as u64 / 8) as usize;
    let bad = [(0, 0), (8, 0), (u32::MAX, 1), (1, 3), (7, 1), (1, 1 << 31)];
    let (code, number) = rng.pick(&bad);
    set(calls, at, code);
    set(calls, at + 1, number);
}

/// fault-1 to fault-4: puts a plan with faults in place of the sound one;
/// answers its number.
fn wrong_plan(rng: &mut Rng, sections: &mut [Section]) -> u32 {
    let (words, number) = bad_plan(rng, &[u64::from(u32::MAX)]);
    *body_of(sections, 1) = to_bytes(&words.map(|word| word as u32));
    number
}

/// Several random bytes, with or without the right sum.
fn scrambled(rng: &mut Rng, mut bytes: Vec<u8>) -> Vec<u8> {
    for _ in 0..rng.between(1, 6) {
        let at = rng.below(bytes.len() as u64) as usize;
        bytes[at] = rng.word() as u8;
    }
    if rng.chance(70) {
        resum(&mut bytes);
    }
    bytes
}

/// One word changed a little, the sum made right again.
fn changed_word(rng: &mut Rng, mut bytes: Vec<u8>) -> Vec<u8> {
    let index = rng.between(2, bytes.len() as u64 / 4 - 1) as usize;
    let old = get(&bytes, index);
    let by = rng.pick(&[1, 4, 8, u32::MAX, 0u32.wrapping_sub(4), 1 << 31]);
    set(&mut bytes, index, old.wrapping_add(by));
    resum(&mut bytes);
    bytes
}

/// Random words behind a right length, sum and, at times, count.
fn noise(rng: &mut Rng) -> Vec<u8> {
    let count = rng.between(3, 40);
    let mut words: Vec<u32> = (0..count).map(|_| rng.word() as u32).collect();
    words[0] = 4 * count as u32;
    if rng.chance(70) {
        words[2] = rng.between(1, 9) as u32;
    }
    let mut bytes = to_bytes(&words);
    resum(&mut bytes);
    bytes
}

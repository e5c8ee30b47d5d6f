//! The texts that are measured, by their calls: those of mixed lines, which have
//! as many lines and bytes as a text may have, and those of the longest and of
//! the shortest lines. Rules lines-3, lines-4.

use crate::meters::Page;
use crate::work::Work;
use reference::lines::{write, MAX_LINES, MAX_TEXT};

/// Code and number of a call.
type Words = (u32, u32);

/// 8,184 calls of all kinds, whose lines have 65,536 bytes: 1,023 times eight
/// lines of 64 bytes, and in 64 of these a digit more.
pub fn mixed() -> Vec<Words> {
    let eight = |group: u32| {
        let place = group % 3;
        let kb = if group.is_multiple_of(16) { 150 } else { 15 };
        let uses = [(2, kb), (3, 9), (4, 45), (5, 3)];
        [&[(1, place)], &uses[..], &[(7, 0), (6, 500), (4, 120)]].concat()
    };
    (0..MAX_LINES as u32 / 8).flat_map(eight).collect()
}

/// 3,855 lines of 17 bytes each: one more would be too long.
pub fn longest_lines() -> Vec<Words> {
    vec![(6, u32::MAX); MAX_TEXT / 17]
}

/// 8,184 lines of 5 bytes each.
pub fn shortest_lines() -> Vec<Words> {
    vec![(4, 0); MAX_LINES]
}

fn unzipped(calls: &[Words]) -> (Vec<u32>, Vec<u32>) {
    calls.iter().copied().unzip()
}

/// The text of calls.
pub fn text_of(calls: &[Words]) -> Vec<u8> {
    let (codes, numbers) = unzipped(calls);
    let mut text = vec![0; MAX_TEXT];
    let length = write(&codes, &numbers, &mut text).expect("the calls fit in a text");
    text.truncate(length);
    text
}

/// Reading the text of calls.
pub fn reading(calls: &[Words]) -> Work {
    Work::TextRead(text_of(calls))
}

/// Exporting calls.
pub fn exporting(calls: &[Words]) -> Work {
    let (codes, numbers) = unzipped(calls);
    Work::TextWrite(codes, numbers)
}

/// What is lent for a work: as many places, or as many bytes, as it needs.
pub fn page_for(work: &Work) -> Page {
    match work {
        Work::TextRead(text) => {
            let lines = text.iter().filter(|byte| **byte == b'\n').count();
            Page {
                codes: vec![0; lines],
                numbers: vec![0; lines],
                text: Vec::new(),
            }
        }
        Work::TextWrite(codes, numbers) => {
            let calls: Vec<Words> = codes.iter().copied().zip(numbers.iter().copied()).collect();
            Page {
                text: vec![0; text_of(&calls).len()],
                ..Page::default()
            }
        }
        _ => Page::default(),
    }
}

//! Calls for texts and exports: any, and by the bytes of their lines. Their
//! lines are put together here, and not as the meter does it. Rules lines-1 to
//! lines-3.

use super::NAMES;
use crate::rng::Rng;

/// Code and number of a call.
pub type Words = (u32, u32);

/// lines-3: the bytes of the shortest and of the longest line: `in,0` and
/// `topup,4294967295` with their line feeds.
pub const SHORTEST: usize = 5;
pub const LONGEST: usize = 17;

/// lines-1: the line of a call.
pub fn line_of((code, number): Words) -> String {
    format!("{},{number}\n", NAMES[code as usize - 1])
}

/// lines-6: the lines of some calls.
pub fn text_of(calls: &[Words]) -> String {
    calls.iter().map(|call| line_of(*call)).collect()
}

/// A call that keeps refusal-15's rules; its number has any count of digits.
pub fn some_call(rng: &mut Rng) -> Words {
    let code = rng.between(1, 7) as u32;
    let number = match code {
        1 => rng.below(3),
        7 => 0,
        _ => match rng.below(20) {
            0 | 1 => 0,
            2 => u64::from(u32::MAX),
            _ => rng.scaled(u64::from(u32::MAX)),
        },
    };
    (code, number as u32)
}

pub fn some_calls(rng: &mut Rng, count: u64) -> Vec<Words> {
    (0..count).map(|_| some_call(rng)).collect()
}

/// So many calls whose lines have so many bytes together, 5 to 17 each.
pub fn sized_calls(rng: &mut Rng, count: usize, bytes: usize) -> Vec<Words> {
    let mut lengths = vec![bytes / count; count];
    lengths[..bytes % count]
        .iter_mut()
        .for_each(|one| *one += 1);
    for _ in 0..count {
        let [from, to] = [0; 2].map(|_| rng.below(count as u64) as usize);
        if lengths[from] > SHORTEST && lengths[to] < LONGEST {
            lengths[from] -= 1;
            lengths[to] += 1;
        }
    }
    let calls = lengths.into_iter();
    calls.map(|length| call_of_length(rng, length)).collect()
}

/// A call whose line has so many bytes.
fn call_of_length(rng: &mut Rng, length: usize) -> Words {
    loop {
        let code = rng.between(1, 7) as u32;
        let Some(digits @ 1..=10) = length.checked_sub(NAMES[code as usize - 1].len() + 2) else {
            continue;
        };
        let number = match (code, digits) {
            (1, 1) => rng.below(3),
            (7, 1) => 0,
            (1 | 7, _) => continue,
            (_, 1) => rng.below(10),
            _ => {
                let least = 10u64.pow(digits as u32 - 1);
                let most = (10 * least - 1).min(u64::from(u32::MAX));
                rng.between(least, most)
            }
        };
        return (code, number as u32);
    }
}

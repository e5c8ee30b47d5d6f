//! The table of wholesale caps, and the search for those of a day. Rules caps-1
//! to caps-3, rows-1 to rows-3.

use crate::planted::{planted, Wrong};

/// caps-1: points of a GB, an outgoing minute, an incoming minute, an SMS.
/// Where caps are an argument, the data cap is at least 1.
pub type Caps = [u64; 4];

/// caps-1: first day of each row with its caps. caps-3: the last has no end
/// before day 3833.
pub const ROWS: [(u32, Caps); 6] = [
    (181, [20_000, 220, 55, 40]),
    (365, [18_000, 220, 40, 40]),
    (730, [15_500, 220, 20, 40]),
    (1096, [13_000, 190, 20, 30]),
    (1461, [11_000, 190, 20, 30]),
    (1826, [10_000, 190, 20, 30]),
];

/// What the search for a day gives: its caps, and rows-2: the rows read.
#[derive(Clone, Copy, PartialEq, Eq, Debug)]
pub struct Search {
    pub caps: Caps,
    pub read: u64,
}

/// rows-1: passes over rows, the newest first, until one has begun (caps-2).
/// Days before the first row have no caps; they occur in unsound accounts only
/// and get the first row, all rows read, which is then never used.
pub fn search(day: u64) -> Search {
    let late = u64::from(planted(Wrong::CapsOneDayLate));
    let begun = |(first, _): &(u32, Caps)| u64::from(*first) + late <= day;
    let newest_first = ROWS.iter().rev();
    let last = ROWS.len() - 1;
    let mut passed = newest_first.take_while(|row| !begun(row)).count().min(last);
    if planted(Wrong::FirstRowNeverRead) {
        passed = passed.min(last - 1);
    }
    let mut row = last - passed;
    let mut read = passed + 1;
    if planted(Wrong::RowAfter) {
        row = (row + 1).min(last);
    }
    if planted(Wrong::RowsCountedFromZero) {
        read = passed;
    }
    if planted(Wrong::RowsReadFromTheFirst) {
        read = row + 1;
    }
    Search {
        caps: ROWS[row].1,
        read: read as u64,
    }
}

/// The caps of a day.
pub fn caps_on(day: u32) -> Caps {
    search(u64::from(day)).caps
}

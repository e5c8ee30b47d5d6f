//! Months: the day on which each begins, by the Gregorian rule. Rules month-1
//! to month-3.

/// month-2: the months of 2022 to 2032.
pub const MONTHS: usize = 132;

/// month-2: first day of each month, month 0 being January 2022. month-1: it
/// begins on day 0.
pub const FIRST_DAYS: [u32; MONTHS] = first_days();

/// month-3: leap years are each fourth one, of the hundreds only each fourth.
pub const fn is_leap(year: u32) -> bool {
    year.is_multiple_of(4) && (!year.is_multiple_of(100) || year.is_multiple_of(400))
}

/// month-3: days of a month, January being 1.
pub const fn month_length(year: u32, month: u32) -> u32 {
    match month {
        2 if is_leap(year) => 29,
        2 => 28,
        4 | 6 | 9 | 11 => 30,
        _ => 31,
    }
}

const fn first_days() -> [u32; MONTHS] {
    let mut table = [0; MONTHS];
    let mut index = 1;
    while index < MONTHS {
        let before = index as u32 - 1;
        table[index] = table[index - 1] + month_length(2022 + before / 12, 1 + before % 12);
        index += 1;
    }
    table
}

/// month-2: whether a day is a month's first.
pub fn is_first_day(day: u32) -> bool {
    FIRST_DAYS.binary_search(&day).is_ok()
}

/// month-2: the month that a day lies in, counted from January 2022.
pub fn month_of(day: u32) -> usize {
    FIRST_DAYS.iter().filter(|first| **first <= day).count() - 1
}

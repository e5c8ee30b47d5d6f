//! Meters that go wrong in one point of the interface, each of which the
//! comparison finds. Rules library-3 to library-10, sound-1 to sound-11.

use reference::caps;
use reference::coverage::soundness::{broken, Condition};
use reference::differ::{Differ, Mismatch};
use reference::numbers::{at, Numbers};
use reference::sides::{Side, ACCEPTED, BAD_ARGUMENT, REFERENCE};
use std::cell::Cell;

const SEEDS: u64 = 600;

fn compared(other: Side) -> Result<(), Box<Mismatch>> {
    let mut differ = Differ::new(other);
    for seed in 1..=SEEDS {
        differ.trip(seed)?;
        differ.file(seed)?;
        differ.write(seed)?;
        differ.accounts(seed)?;
    }
    Ok(())
}

/// What the comparison says of a wrong meter.
fn found(other: Side) -> String {
    compared(other).expect_err("a wrong meter").what
}

fn found_in_days(caps: fn(u64, &mut [u64]) -> u64) -> String {
    let other = Side { caps, ..REFERENCE };
    Differ::new(other).days(1).expect_err("a wrong search").what
}

/// A meter with one function of its own, and what the mismatch must tell.
macro_rules! wrong {
    ($test:ident, $field:ident: $function:expr, $told:literal) => {
        #[test]
        fn $test() {
            let other = Side {
                $field: $function,
                ..REFERENCE
            };
            let told = found(other);
            assert!(told.contains($told), "{told}");
        }
    };
}

wrong!(one_point_of_surcharge_is_found, use_units: |account, kind, n, answer| {
    let returned = (REFERENCE.use_units)(account, kind, n, answer);
    if returned == ACCEPTED && answer[1] > 1000 {
        answer[1] -= 1;
    }
    returned
}, "answered [");

wrong!(a_notice_without_reason_is_found, use_units: |account, kind, n, answer| {
    let returned = (REFERENCE.use_units)(account, kind, n, answer);
    if returned == ACCEPTED && kind == 0 && account[at::LIMIT] == account[at::ROAMED] + 2 {
        answer[4] = 1;
    }
    returned
}, "answered [");

wrong!(units_cut_to_a_word_are_found, use_units: |account, kind, n, answer| {
    (REFERENCE.use_units)(account, kind, n & 0xFFFF_FFFF, answer)
}, "Use(");

wrong!(a_kind_cut_to_a_word_is_found, use_units: |account, kind, n, answer| {
    (REFERENCE.use_units)(account, kind & 0xFFFF_FFFF, n, answer)
}, "not 1001");

wrong!(a_refused_use_that_answers_is_found, use_units: |account, kind, n, answer| {
    let returned = (REFERENCE.use_units)(account, kind, n, answer);
    if returned == 6 {
        answer[0] = 0;
    }
    returned
}, "answered [");

wrong!(a_number_past_the_answer_is_found, use_units: |account, kind, n, answer| {
    let returned = (REFERENCE.use_units)(account, kind, n, answer);
    if let (ACCEPTED, Some(number)) = (returned, answer.get_mut(6)) {
        *number = 0;
    }
    returned
}, "answered [");

wrong!(a_short_answer_that_is_taken_is_found, use_units: |account, kind, n, answer| {
    let mut room = [0; 5];
    let returned = (REFERENCE.use_units)(account, kind, n, &mut room);
    for (number, given) in answer.iter_mut().zip(room) {
        if returned == ACCEPTED {
            *number = given;
        }
    }
    returned
}, "not 1001");

wrong!(a_refused_use_that_marks_is_found, use_units: |account, kind, n, answer| {
    let returned = (REFERENCE.use_units)(account, kind, n, answer);
    if returned == 6 {
        account[at::MARKS] |= 2;
    }
    returned
}, "number 1632 of the account");

wrong!(place_3_taken_for_elsewhere_is_found, register: |account, place| {
    (REFERENCE.register)(account, if place == 3 { 2 } else { place })
}, "Register(3): returned 1000, not 1001");

wrong!(a_place_looked_at_after_the_account_is_found, register: |account, place| {
    match ((REFERENCE.register)(account, place), (REFERENCE.is_sound)(account)) {
        (BAD_ARGUMENT, 0) => 0,
        (returned, _) => returned,
    }
}, "returned 0, not 1001");

wrong!(points_cut_to_a_word_are_found, top_up: |account, points| {
    (REFERENCE.top_up)(account, points & 0xFFFF_FFFF)
}, "TopUp(");

wrong!(a_number_of_the_log_is_found, next_day: |account| {
    let returned = (REFERENCE.next_day)(account);
    if returned == ACCEPTED && account[at::LOGGED] == 123 {
        account[1598] = 0;
    }
    returned
}, "number 1598 of the account");

wrong!(a_last_day_too_early_is_found, next_day: |account| {
    match account.get(at::DAY) {
        Some(3832) => 9,
        _ => (REFERENCE.next_day)(account),
    }
}, "NextDay: returned 9, not 1000");

wrong!(an_account_of_1648_numbers_is_found, next_day: |account| {
    match account.len() {
        1648 => ACCEPTED,
        _ => (REFERENCE.next_day)(account),
    }
}, "with an account of 1648 numbers: returned 1000, not 0");

wrong!(an_afford_that_gives_up_early_is_found, afford: |account, kind, answer| {
    let returned = (REFERENCE.afford)(account, kind, answer);
    if returned == ACCEPTED && (1..1_000_000_000).contains(&answer[0]) {
        answer[0] -= 1;
    }
    returned
}, "Afford(");

// half-1: an Afford that lets a second through where half a minute is too dear.
wrong!(an_afford_of_1_second_in_place_of_0_is_found, afford: |account, kind, answer| {
    let returned = (REFERENCE.afford)(account, kind, answer);
    if returned == ACCEPTED && kind == 1 {
        answer[0] = answer[0].max(1);
    }
    returned
}, "Afford(1): answered [1], not [0]");

wrong!(an_opening_that_leaves_the_log_is_found, open: |account, plan| {
    let log: Vec<u64> = account.iter().take(1599).copied().collect();
    let returned = (REFERENCE.open)(account, plan);
    if returned == ACCEPTED {
        account[..1599].copy_from_slice(&log);
    }
    returned
}, "Open: number 0 of the account");

wrong!(an_opening_by_plans_cut_to_words_is_found, open: |account, plan| {
    let cut: Vec<u64> = plan.iter().map(|number| number & 0xFFFF_FFFF).collect();
    (REFERENCE.open)(account, &cut)
}, "Open returned");

wrong!(an_opening_of_an_eighth_number_is_found, open: |account, plan| {
    (REFERENCE.open)(account, &plan[..plan.len().min(7)])
}, "Open returned");

wrong!(another_file_number_is_found, statement: |file, answer| {
    match (REFERENCE.statement)(file, answer) {
        14 => 13,
        number => number,
    }
}, "Statement returned 13, not 14");

// fault-2, fault-3: a meter that still has one number for all faults of a plan
// but its day.
wrong!(a_price_told_as_1_is_found, read: |file, answer| {
    match (REFERENCE.read)(file, answer) {
        17 | 18 => 1,
        number => number,
    }
}, "Read returned 1, not 1");

wrong!(a_list_altered_by_a_refusal_is_found, statement: |file, answer| {
    let returned = (REFERENCE.statement)(file, answer);
    if returned == 15 {
        answer[0] = 0;
    }
    returned
}, "Statement answered");

wrong!(another_limit_in_the_statement_is_found, statement: |file, answer| {
    let returned = (REFERENCE.statement)(file, answer);
    if returned == ACCEPTED {
        answer[5] = answer[5].saturating_sub(1);
    }
    returned
}, "the file of the calls, the other meter: Statement answered");

wrong!(a_call_too_many_is_found, read: |file, answer| {
    let returned = (REFERENCE.read)(file, answer);
    if returned == ACCEPTED && answer[7] > 1000 {
        answer[7] += 1;
    }
    returned
}, "Read answered");

wrong!(a_section_of_another_kind_is_found, find: |file, kind, answer| {
    (REFERENCE.find)(file, if kind == 4 { 3 } else { kind }, answer)
}, "of kind 4: Find ");

wrong!(a_section_a_word_too_late_is_found, find: |file, kind, answer| {
    let returned = (REFERENCE.find)(file, kind, answer);
    if returned == ACCEPTED && kind == 0 {
        answer[0] += 4;
    }
    returned
}, "of kind 0: Find answered");

wrong!(a_run_under_the_plan_of_the_file_is_found, run: |account, file, answer| {
    let mut read = [0; 8];
    let returned = (REFERENCE.read)(file, &mut read);
    if returned == ACCEPTED && (REFERENCE.is_sound)(account) == ACCEPTED {
        (REFERENCE.open)(account, &read[..7]);
    }
    (REFERENCE.run)(account, file, answer)
}, "Run on an account: ");

wrong!(a_run_that_begins_before_the_file_is_read_is_found, run: |account, file, answer| {
    let returned = (REFERENCE.run)(account, file, answer);
    if returned == 15 {
        account[at::MARKS] = 7;
    }
    returned
}, "Run on an account: number 1632");

wrong!(a_file_read_before_the_account_is_found, run: |account, file, answer| {
    let mut read = [0; 8];
    match ((REFERENCE.run)(account, file, answer), (REFERENCE.read)(file, &mut read)) {
        (0, 10..=18) => 10,
        (returned, _) => returned,
    }
}, "not 0");

wrong!(a_refused_call_left_out_is_found, run: |account, file, answer| {
    let returned = (REFERENCE.run)(account, file, answer);
    if returned == ACCEPTED {
        answer[0] = answer[0].saturating_sub(1);
    }
    returned
}, "the file of the calls, the other meter: Run answered");

wrong!(seven_bytes_read_as_a_call_are_found, call: |section, position, answer| {
    let mut longer = section.to_vec();
    longer.push(0);
    (REFERENCE.call)(&longer, position, answer)
}, "Call returned 1000, not 1002");

wrong!(a_position_that_wraps_is_found, call: |section, position, answer| {
    let wrapped = if position > usize::MAX - 8 { 0 } else { position };
    (REFERENCE.call)(section, wrapped, answer)
}, "Call returned 1000, not 1002");

wrong!(a_byte_written_after_the_file_is_found, write: |plan, codes, numbers, buffer, answer| {
    let returned = (REFERENCE.write)(plan, codes, numbers, buffer, answer);
    if returned == ACCEPTED {
        if let Some(byte) = buffer.get_mut(answer[0] as usize) {
            *byte ^= 1;
        }
    }
    returned
}, "write filled the buffer otherwise");

wrong!(a_byte_written_by_a_refusal_is_found, write: |plan, codes, numbers, buffer, answer| {
    let returned = (REFERENCE.write)(plan, codes, numbers, buffer, answer);
    if returned != ACCEPTED && !buffer.is_empty() {
        buffer[0] ^= 1;
    }
    returned
}, "write filled the buffer otherwise, from byte 0");

wrong!(another_order_of_refusals_is_found, write: |plan, codes, numbers, buffer, answer| {
    let short = buffer.len() < 64 + 8 * codes.len();
    match (REFERENCE.write)(plan, codes, numbers, buffer, answer) {
        15 if short => 16,
        returned => returned,
    }
}, "write returned 16, not 15");

// A writer that takes no notice of a plan's upper 32 bits.
wrong!(a_plan_cut_to_words_is_found, write: |plan, codes, numbers, buffer, answer| {
    let cut: Vec<u64> = plan.iter().map(|word| word & 0xFFFF_FFFF).collect();
    (REFERENCE.write)(&cut, codes, numbers, buffer, answer)
}, "write returned ");

/// caps-3: on the last day.
#[test]
fn a_wrong_cap_on_one_day_is_found() {
    let told = found_in_days(|day, answer| match day {
        3833 => (REFERENCE.caps)(1825, answer),
        _ => (REFERENCE.caps)(day, answer),
    });
    assert!(told.starts_with("of day 3833: "), "{told}");
}

/// rows-2: they are counted from 1.
#[test]
fn rows_counted_from_0_are_found() {
    let told = found_in_days(|day, answer| {
        let returned = (REFERENCE.caps)(day, answer);
        if returned == ACCEPTED {
            answer[4] = caps::search(day).read - 1;
        }
        returned
    });
    assert!(told.contains("Caps answered"), "{told}");
}

#[test]
fn a_day_cut_to_32_bits_is_found() {
    let told = found_in_days(|day, answer| (REFERENCE.caps)(day & 0xFFFF_FFFF, answer));
    assert!(told.starts_with("of day 42949"), "{told}");
}

thread_local! {
    /// The condition that soundness is not to look at.
    static LEFT_OUT: Cell<Condition> = const { Cell::new(Condition::Form) };
}

/// Soundness without one condition.
fn lenient(account: &[u64]) -> u64 {
    let all: Option<&Numbers> = account.try_into().ok();
    let left_out = |all: &Numbers| {
        let broken = broken(all);
        !broken.is_empty() && broken.iter().all(|(one, _)| *one == LEFT_OUT.get())
    };
    match all {
        Some(all) if left_out(all) => ACCEPTED,
        _ => (REFERENCE.is_sound)(account),
    }
}

/// sound-1 to sound-11: a meter whose soundness leaves out any one condition is
/// found.
#[test]
fn every_condition_of_soundness_is_looked_at() {
    let other = Side {
        is_sound: lenient,
        ..REFERENCE
    };
    for condition in Condition::ALL {
        LEFT_OUT.set(*condition);
        let mut differ = Differ::new(other);
        let told = (1..=SEEDS).find_map(|seed| differ.accounts(seed).err());
        let told = told.unwrap_or_else(|| panic!("{condition:?} is not missed"));
        let what = &told.what;
        assert!(what.starts_with("IsSound returned 1000, not 0"), "{what}");
        assert!(!told.account.is_empty());
    }
}

//! Events of writing a trip file. Rules order-4, refusal-14 to refusal-16,
//! library-4.

use super::returns::Function;
use super::TripEvents;
use crate::sides::{ACCEPTED, BAD_ARGUMENT};
use crate::tripfile::{BEFORE_CALLS, MAX_CALLS};
use crate::writes::WriteCase;

/// order-4: the plan's number told though 14 would hold, or 15, or 16.
const PLAN_FIRST: [[&str; 4]; 3] = [
    [
        "write 1 before 14",
        "write 17 before 14",
        "write 18 before 14",
        "write 2 before 14",
    ],
    [
        "write 1 before 15",
        "write 17 before 15",
        "write 18 before 15",
        "write 2 before 15",
    ],
    [
        "write 1 before 16",
        "write 17 before 16",
        "write 18 before 16",
        "write 2 before 16",
    ],
];

const OTHERS: &[&str] = &[
    "write 14, no calls",
    "write 14, one call too many",
    "write 14, more codes",
    "write 14, more numbers",
    "write 14 before 15",
    "write 14 before 16",
    "write 15, code 0",
    "write 15, code over 7",
    "write 15, place over 2",
    "write 15, day change with a number",
    "write 15 before 16",
    "write 16, one byte too short",
    "write 16, no buffer",
    "write accepted, just enough room",
    "write accepted, more room",
    "write accepted, as many calls as a file holds",
    "write, plan of six numbers",
    "write, plan of eight numbers",
    "write, short answer",
];

pub const EVENTS: &[&[&str]] = &[PLAN_FIRST.as_flattened(), OTHERS];

impl TripEvents {
    /// A write, and what the writer returned. Anything but what it was made for
    /// is a failure.
    pub fn write(&mut self, case: &WriteCase, returned: u64) -> Result<(), String> {
        self.returned(Function::Write, returned)?;
        let expected = case.expected;
        if returned != expected {
            return Err(format!("write returned {returned}, made for {expected}"));
        }
        if returned == BAD_ARGUMENT {
            self.hit("write, plan of six numbers", case.plan.len() == 6);
            self.hit("write, plan of eight numbers", case.plan.len() == 8);
            self.hit("write, short answer", case.plan.len() == 7);
            return Ok(());
        }
        let Ok(words) = case.plan[..].try_into() else {
            return Ok(());
        };
        self.plan(Function::Write, words, returned)?;
        let counts = case.has_wrong_count();
        let calls = !counts && case.has_wrong_call();
        let short = case.buffer.len() < BEFORE_CALLS + 8 * case.codes.len();
        if let Some(place) = [1, 17, 18, 2].iter().position(|told| *told == returned) {
            self.hit(PLAN_FIRST[0][place], counts);
            self.hit(PLAN_FIRST[1][place], calls);
            self.hit(PLAN_FIRST[2][place], !counts && !calls && short);
        }
        match returned {
            14 => self.wrong_count(case, short),
            15 => self.wrong_call(case, short),
            16 => {
                let need = BEFORE_CALLS + 8 * case.codes.len();
                let one = case.buffer.len() + 1 == need;
                self.hit("write 16, one byte too short", one);
                self.hit("write 16, no buffer", case.buffer.is_empty());
            }
            ACCEPTED => self.written(case),
            _ => {}
        }
        Ok(())
    }

    fn written(&mut self, case: &WriteCase) {
        let exact = case.buffer.len() == BEFORE_CALLS + 8 * case.codes.len();
        self.hit("write accepted, just enough room", exact);
        self.hit("write accepted, more room", !exact);
        let most = case.codes.len() == MAX_CALLS;
        self.hit("write accepted, as many calls as a file holds", most);
    }

    fn wrong_count(&mut self, case: &WriteCase, short: bool) {
        let (codes, numbers) = (case.codes.len(), case.numbers.len());
        self.hit("write 14, no calls", codes == 0 && numbers == 0);
        let over = codes == MAX_CALLS + 1 && numbers == codes;
        self.hit("write 14, one call too many", over);
        let fits = (1..=MAX_CALLS).contains(&codes);
        self.hit("write 14, more codes", fits && codes > numbers);
        self.hit("write 14, more numbers", fits && codes < numbers);
        self.hit("write 14 before 15", case.has_wrong_call());
        self.hit("write 14 before 16", short);
    }

    fn wrong_call(&mut self, case: &WriteCase, short: bool) {
        let calls = case.codes.iter().zip(&case.numbers);
        for (code, number) in calls {
            self.hit("write 15, code 0", *code == 0);
            self.hit("write 15, code over 7", *code > 7);
            self.hit("write 15, place over 2", *code == 1 && *number > 2);
            let changed = *code == 7 && *number != 0;
            self.hit("write 15, day change with a number", changed);
        }
        self.hit("write 15 before 16", short);
    }
}

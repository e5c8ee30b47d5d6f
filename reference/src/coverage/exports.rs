//! Events of exporting calls, and what they must be exported as, worked out with
//! none of the code that exports them. Rules lines-2, lines-3, lines-6, lines-7,
//! lines-9, refusal-14 to refusal-16, refusal-21, library-14.

use super::returns::Function;
use super::TripEvents;
use crate::lines::calls::text_of;
use crate::lines::exports::ExportCase;
use crate::lines::{MAX_LINES, MAX_TEXT};
use crate::sides::{ACCEPTED, BAD_ARGUMENT};

/// lines-2: names that were written, by code.
const NAMED: [&str; 7] = [
    "text write, register",
    "text write, data",
    "text write, out",
    "text write, in",
    "text write, sms",
    "text write, topup",
    "text write, nextday",
];

/// lines-9: the sets of 14, 15, 21 and 16 that hold, by 8, 4, 2 and 1 added up,
/// less one.
const ORDER: [&str; 15] = [
    "text write 16 alone",
    "text write 21 alone",
    "text write 21 before 16",
    "text write 15 alone",
    "text write 15 before 16",
    "text write 15 before 21",
    "text write 15 before 21 and 16",
    "text write 14 alone",
    "text write 14 before 16",
    "text write 14 before 21",
    "text write 14 before 21 and 16",
    "text write 14 before 15",
    "text write 14 before 15 and 16",
    "text write 14 before 15 and 21",
    "text write 14 before 15, 21 and 16",
];

/// refusal-14 to refusal-16, refusal-21: causes; lines-3, lines-4, lines-6: what
/// is accepted.
const OTHERS: &[&str] = &[
    "text write 14, no calls",
    "text write 14, one call too many",
    "text write 14, more codes",
    "text write 14, more numbers",
    "text write 15, code 0",
    "text write 15, code over 7",
    "text write 15, place over 2",
    "text write 15, day change with a number",
    "text write 21, 65,537 bytes",
    "text write 21, more bytes",
    "text write 16, one byte too short",
    "text write 16, no buffer",
    "text write 16, 65,536 bytes of text",
    "text write accepted, one call",
    "text write accepted, 8,184 calls",
    "text write accepted, 65,536 bytes",
    "text write accepted, 8,184 calls of 65,536 bytes",
    "text write accepted, just enough room",
    "text write accepted, more room",
    "text write, number 0",
    "text write, number 4,294,967,295",
    "text written and read back",
];

/// library-14: no room for the answer.
const ARGUMENTS: &[&str] = &[
    "text write, short answer",
    "text write, bad argument before 14",
    "text write, bad argument before 15",
    "text write, bad argument before 21",
    "text write, bad argument before 16",
];

pub const EVENTS: &[&[&str]] = &[&NAMED, &ORDER, OTHERS, ARGUMENTS];

/// What an export is.
#[derive(Clone, PartialEq, Eq, Debug)]
pub struct Judged {
    /// The lines of the calls that have one.
    pub text: Vec<u8>,
    /// lines-9: which of 14, 15, 21 and 16 hold.
    reasons: [bool; 4],
}

impl Judged {
    pub fn of(case: &ExportCase) -> Judged {
        let right = case.right_calls();
        let text = text_of(&right).into_bytes();
        let (codes, numbers) = (case.codes.len(), case.numbers.len());
        let reasons = [
            codes != numbers || !(1..=MAX_LINES).contains(&codes),
            right.len() < codes.min(numbers),
            text.len() > MAX_TEXT,
            case.buffer.len() < text.len(),
        ];
        Judged { text, reasons }
    }

    /// lines-9: the refusal that must be told, or that it is accepted.
    fn wanted(&self) -> u64 {
        match self.reasons {
            [true, ..] => 14,
            [_, true, ..] => 15,
            [_, _, true, _] => 21,
            [.., true] => 16,
            _ => ACCEPTED,
        }
    }

    /// lines-6: whether a side made of it what it must: the answer, and all
    /// bytes of the buffer.
    fn is_held_by(&self, case: &ExportCase, seen: &ExportSeen) -> bool {
        if seen.returned != ACCEPTED {
            return seen.buffer == case.buffer;
        }
        let length = self.text.len();
        let (text, rest) = seen.buffer.split_at(length);
        seen.answer == length as u64 && text == self.text && rest == &case.buffer[length..]
    }
}

/// What a side made of an export: what it returned, the first number of its
/// answer, and the buffer afterwards.
#[derive(Clone, Copy, Debug)]
pub struct ExportSeen<'a> {
    pub returned: u64,
    pub answer: u64,
    pub buffer: &'a [u8],
}

impl TripEvents {
    /// What an export came to. Anything but what it must come to is a failure.
    pub fn text_write(
        &mut self,
        case: &ExportCase,
        judged: &Judged,
        seen: &ExportSeen,
    ) -> Result<(), String> {
        self.returned(Function::TextWrite, seen.returned)?;
        let told = judged.wanted();
        let wanted = match case.room {
            0 => BAD_ARGUMENT,
            _ => told,
        };
        if seen.returned != wanted || !judged.is_held_by(case, seen) {
            let ExportSeen {
                returned, answer, ..
            } = seen;
            return Err(format!(
                "TextWrite returned {returned} and answered {answer}, by its calls {wanted}"
            ));
        }
        if wanted == BAD_ARGUMENT {
            self.export_not_asked(told);
            return Ok(());
        }
        let holds = judged.reasons.iter();
        let set = holds.fold(0, |set, holds| 2 * set + usize::from(*holds));
        if let Some(event) = set.checked_sub(1).map(|set| ORDER[set]) {
            self.hit(event, true);
        }
        match wanted {
            14 => self.export_count(case),
            15 => self.export_call(case),
            21 => self.export_size(judged.text.len()),
            16 => self.export_room(case, judged),
            _ => self.exported(case, judged),
        }
        Ok(())
    }

    /// library-14: no room for the answer, and what would be told with it.
    fn export_not_asked(&mut self, told: u64) {
        self.hit("text write, short answer", told == ACCEPTED);
        self.hit("text write, bad argument before 14", told == 14);
        self.hit("text write, bad argument before 15", told == 15);
        self.hit("text write, bad argument before 21", told == 21);
        self.hit("text write, bad argument before 16", told == 16);
    }

    fn export_count(&mut self, case: &ExportCase) {
        let (codes, numbers) = (case.codes.len(), case.numbers.len());
        self.hit("text write 14, no calls", codes == 0 && numbers == 0);
        let over = codes == MAX_LINES + 1 && numbers == codes;
        self.hit("text write 14, one call too many", over);
        let fits = (1..=MAX_LINES).contains(&codes);
        self.hit("text write 14, more codes", fits && codes > numbers);
        self.hit("text write 14, more numbers", fits && codes < numbers);
    }

    fn export_call(&mut self, case: &ExportCase) {
        for (code, number) in case.codes.iter().zip(&case.numbers) {
            self.hit("text write 15, code 0", *code == 0);
            self.hit("text write 15, code over 7", *code > 7);
            self.hit("text write 15, place over 2", *code == 1 && *number > 2);
            let changed = *code == 7 && *number != 0;
            self.hit("text write 15, day change with a number", changed);
        }
    }

    fn export_size(&mut self, bytes: usize) {
        self.hit("text write 21, 65,537 bytes", bytes == MAX_TEXT + 1);
        self.hit("text write 21, more bytes", bytes > MAX_TEXT + 1);
    }

    fn export_room(&mut self, case: &ExportCase, judged: &Judged) {
        let (room, need) = (case.buffer.len(), judged.text.len());
        self.hit("text write 16, one byte too short", room + 1 == need);
        self.hit("text write 16, no buffer", room == 0);
        self.hit("text write 16, 65,536 bytes of text", need == MAX_TEXT);
    }

    fn exported(&mut self, case: &ExportCase, judged: &Judged) {
        let (calls, bytes) = (case.codes.len(), judged.text.len());
        self.hit("text write accepted, one call", calls == 1);
        let [most_calls, most_bytes] = [calls == MAX_LINES, bytes == MAX_TEXT];
        self.hit("text write accepted, 8,184 calls", most_calls);
        self.hit("text write accepted, 65,536 bytes", most_bytes);
        let both = "text write accepted, 8,184 calls of 65,536 bytes";
        self.hit(both, most_calls && most_bytes);
        let exact = case.buffer.len() == bytes;
        self.hit("text write accepted, just enough room", exact);
        self.hit("text write accepted, more room", !exact);
        self.hit("text write, number 0", case.numbers.contains(&0));
        let largest = case.numbers.contains(&u32::MAX);
        self.hit("text write, number 4,294,967,295", largest);
        for (code, event) in (1..).zip(NAMED) {
            self.hit(event, case.codes.contains(&code));
        }
    }

    /// lines-7: what was exported was read as the same calls.
    pub fn text_read_back(&mut self) {
        self.hit("text written and read back", true);
    }
}

//! Events of reading a text, and what a text must be read as, worked out from
//! its bytes with none of the code that reads it. Rules lines-1 to lines-5,
//! lines-8, lines-10, refusal-21, refusal-22, library-14.

use super::returns::Function;
use super::TripEvents;
use crate::lines::calls::Words;
use crate::lines::faults::{fault_of, right, LineFault};
use crate::lines::texts::TextCase;
use crate::lines::{LEAST_LINES, MAX_LINES, MAX_TEXT};
use crate::sides::{ACCEPTED, BAD_ARGUMENT};

/// lines-2: names that were read, by code.
const NAMED: [&str; 7] = [
    "text read, register",
    "text read, data",
    "text read, out",
    "text read, in",
    "text read, sms",
    "text read, topup",
    "text read, nextday",
];

/// refusal-22: the only fault of a text, in the order of `LineFault::ALL`.
const FAULTS: [&str; 27] = [
    "text read 22, last line not ended",
    "text read 22, empty line",
    "text read 22, no comma",
    "text read 22, two commas",
    "text read 22, carriage return before the line feed",
    "text read 22, blank in front",
    "text read 22, blank at the comma",
    "text read 22, blank at the end",
    "text read 22, plus sign",
    "text read 22, minus sign",
    "text read 22, quotation marks",
    "text read 22, byte 0 or above 127",
    "text read 22, no name",
    "text read 22, name in capitals",
    "text read 22, name cut off",
    "text read 22, name with a letter more",
    "text read 22, another name",
    "text read 22, code for a name",
    "text read 22, no number",
    "text read 22, zeros before a 0",
    "text read 22, zeros before a number",
    "text read 22, number 4,294,967,296",
    "text read 22, larger number of 64 bits",
    "text read 22, number beyond 64 bits",
    "text read 22, mark among the digits",
    "text read 22, place over 2",
    "text read 22, day change with a number",
];

/// lines-3: ends of the only bad line.
const ENDS: [(&[u8], &str); 4] = [
    (b",00\n", "text read 22, number 00"),
    (b",01\n", "text read 22, number 01"),
    (b"register,3\n", "text read 22, register 3"),
    (b"nextday,1\n", "text read 22, nextday 1"),
];

/// refusal-22: where the line is that is told.
const PLACES: &[&str] = &[
    "text read 22, first line",
    "text read 22, line between",
    "text read 22, last line",
    "text read 22, the first of two bad lines",
    "text read 22, the only line not ended",
    "text read 22, line 8,184",
    "text read 22, line 8,184 not ended",
    "text read 22, 65,536 bytes, the last line not ended",
];

/// lines-4, refusal-21: the limits; lines-3: the largest and the least number.
const LIMITS: &[&str] = &[
    "text read 21, no lines",
    "text read 21, 8,185 lines",
    "text read 21, 8,185 lines, the last not ended",
    "text read 21, 65,537 bytes",
    "text read 21, too many lines and bytes",
    "text read accepted, one line",
    "text read accepted, 8,184 lines",
    "text read accepted, 65,536 bytes",
    "text read accepted, 8,184 lines of 65,536 bytes",
    "text read, number 0",
    "text read, number 4,294,967,295",
];

/// lines-5, refusal-16: the lists that are lent; lines-8: what was read goes
/// into a text and into a trip file.
const LISTS: &[&str] = &[
    "text read 16, codes alone too few",
    "text read 16, numbers alone too few",
    "text read 16, codes and numbers too few",
    "text read 16, one place too few",
    "text read 16, no places",
    "text read accepted, just enough places",
    "text read accepted, more places",
    "text read and exported again",
    "text read and written to a trip file",
];

/// lines-10: the sets of 21, 22 and 16 that hold, by 4, 2 and 1 added up, less
/// one.
const ORDER: [&str; 7] = [
    "text read 16 alone",
    "text read 22 alone",
    "text read 22 before 16",
    "text read 21 alone",
    "text read 21 before 16",
    "text read 21 before 22",
    "text read 21 before 22 and 16",
];

/// library-14: no room for the answer.
const ARGUMENTS: &[&str] = &[
    "text read, short answer",
    "text read, bad argument before 21",
    "text read, bad argument before 22",
    "text read, bad argument before 16",
];

pub const EVENTS: &[&[&str]] = &[
    &NAMED,
    &FAULTS,
    &[ENDS[0].1, ENDS[1].1, ENDS[2].1, ENDS[3].1],
    PLACES,
    LIMITS,
    LISTS,
    &ORDER,
    ARGUMENTS,
];

/// What a text is.
#[derive(Clone, PartialEq, Eq, Debug, Default)]
pub struct Judged {
    /// lines-4: how many lines it has, one without a line feed included.
    pub lines: usize,
    /// The calls of the lines that are right.
    pub calls: Vec<Words>,
    /// refusal-22: the first line that is not: its number, from 1, and its
    /// bytes.
    bad: Option<(usize, Vec<u8>)>,
    bad_lines: usize,
    ended: bool,
}

impl Judged {
    pub fn of(text: &[u8]) -> Judged {
        let mut judged = Judged::default();
        let mut rest = text;
        while !rest.is_empty() {
            let feed = rest.iter().position(|byte| *byte == b'\n');
            judged.ended = feed.is_some();
            let (line, after) = rest.split_at(feed.map_or(rest.len(), |feed| feed + 1));
            judged.lines += 1;
            match right(line) {
                Some(call) => judged.calls.push(call),
                None => {
                    let number = judged.lines;
                    judged.bad.get_or_insert_with(|| (number, line.to_vec()));
                    judged.bad_lines += 1;
                }
            }
            rest = after;
        }
        judged
    }

    /// lines-10: which of 21, 22 and 16 hold.
    fn reasons(&self, case: &TextCase) -> [bool; 3] {
        let lines = (LEAST_LINES..=MAX_LINES).contains(&self.lines);
        let room = case.codes.len().min(case.numbers.len());
        [
            !lines || case.text.len() > MAX_TEXT,
            self.bad.is_some(),
            room < self.lines,
        ]
    }

    /// lines-10: the refusal that must be told, or that it is accepted.
    fn wanted(&self, case: &TextCase) -> u64 {
        match self.reasons(case) {
            [true, ..] => 21,
            [_, true, _] => 22,
            [.., true] => 16,
            _ => ACCEPTED,
        }
    }

    /// lines-5: whether a side made of it what it must: return, answer, and both
    /// lists with all of their places.
    fn is_held_by(&self, case: &TextCase, seen: &TextSeen) -> bool {
        let line = self.bad.as_ref().map_or(0, |(line, _)| *line);
        let told = match seen.returned {
            ACCEPTED => seen.answer == self.lines as u64,
            22 => seen.answer == line as u64,
            _ => true,
        };
        let read: &[Words] = if seen.returned == ACCEPTED {
            &self.calls
        } else {
            &[]
        };
        let codes = read.iter().map(|call| call.0);
        let numbers = read.iter().map(|call| call.1);
        let codes = is_list(seen.codes, codes, &case.codes);
        let numbers = is_list(seen.numbers, numbers, &case.numbers);
        told && codes && numbers
    }
}

/// lines-5: whether a list begins with these, and is behind them as it was.
fn is_list(list: &[u32], first: impl ExactSizeIterator<Item = u32>, before: &[u32]) -> bool {
    let rest = before.iter().copied().skip(first.len());
    list.iter().copied().eq(first.chain(rest))
}

/// What a side made of a text: what it returned, the first number of its answer,
/// and the lists afterwards.
#[derive(Clone, Copy, Debug)]
pub struct TextSeen<'a> {
    pub returned: u64,
    pub answer: u64,
    pub codes: &'a [u32],
    pub numbers: &'a [u32],
}

impl TripEvents {
    /// What reading a text came to. Anything but what the text must be read as
    /// is a failure.
    pub fn text_read(
        &mut self,
        case: &TextCase,
        judged: &Judged,
        seen: &TextSeen,
    ) -> Result<(), String> {
        self.returned(Function::TextRead, seen.returned)?;
        let wanted = match case.room {
            0 => BAD_ARGUMENT,
            _ => judged.wanted(case),
        };
        if seen.returned != wanted || !judged.is_held_by(case, seen) {
            let TextSeen {
                returned, answer, ..
            } = seen;
            return Err(format!(
                "TextRead returned {returned} and answered {answer}, by its text {wanted}"
            ));
        }
        let reasons = judged.reasons(case);
        if wanted == BAD_ARGUMENT {
            self.text_not_asked(judged.wanted(case));
            return Ok(());
        }
        let set = reasons
            .iter()
            .fold(0, |set, holds| 2 * set + usize::from(*holds));
        if let Some(event) = set.checked_sub(1).map(|set| ORDER[set]) {
            self.hit(event, true);
        }
        match wanted {
            21 => self.text_limits(case, judged),
            22 => self.text_line(case, judged),
            16 => self.text_places(case, judged),
            _ => self.text_accepted(case, judged),
        }
        Ok(())
    }

    /// library-14: no room for the answer, and what would be told with it.
    fn text_not_asked(&mut self, told: u64) {
        self.hit("text read, short answer", told == ACCEPTED);
        self.hit("text read, bad argument before 21", told == 21);
        self.hit("text read, bad argument before 22", told == 22);
        self.hit("text read, bad argument before 16", told == 16);
    }

    fn text_limits(&mut self, case: &TextCase, judged: &Judged) {
        let (lines, bytes) = (judged.lines, case.text.len());
        self.hit("text read 21, no lines", lines == 0);
        let one_more = lines == MAX_LINES + 1 && bytes <= MAX_TEXT;
        self.hit("text read 21, 8,185 lines", one_more && judged.ended);
        let event = "text read 21, 8,185 lines, the last not ended";
        self.hit(event, one_more && !judged.ended);
        let byte_more = bytes == MAX_TEXT + 1 && lines <= MAX_LINES;
        self.hit("text read 21, 65,537 bytes", byte_more);
        let both = lines > MAX_LINES && bytes > MAX_TEXT;
        self.hit("text read 21, too many lines and bytes", both);
    }

    /// refusal-22: the line that is told, and its fault where it is the only bad
    /// one.
    fn text_line(&mut self, case: &TextCase, judged: &Judged) {
        let Some((at, line)) = &judged.bad else {
            return;
        };
        let (at, lines) = (*at, judged.lines);
        if judged.bad_lines > 1 {
            let event = "text read 22, the first of two bad lines";
            self.hit(event, judged.bad_lines == 2);
            return;
        }
        self.hit("text read 22, first line", at == 1 && lines > 1);
        self.hit("text read 22, line between", at > 1 && at < lines);
        self.hit("text read 22, last line", at == lines && lines > 1);
        self.hit("text read 22, line 8,184", at == MAX_LINES);
        let fault = fault_of(line);
        if let Some(fault) = fault {
            self.hit(FAULTS[fault as usize], true);
        }
        let unended = fault == Some(LineFault::Unended);
        let only = "text read 22, the only line not ended";
        self.hit(only, unended && lines == 1);
        let last = "text read 22, line 8,184 not ended";
        self.hit(last, unended && at == MAX_LINES);
        let full = "text read 22, 65,536 bytes, the last line not ended";
        self.hit(full, unended && case.text.len() == MAX_TEXT);
        for (end, event) in ENDS {
            self.hit(event, line.ends_with(end));
        }
    }

    fn text_places(&mut self, case: &TextCase, judged: &Judged) {
        let lists = [case.codes.len(), case.numbers.len()];
        let short = lists.map(|places| places < judged.lines);
        let [codes, numbers] = short;
        self.hit("text read 16, codes alone too few", codes && !numbers);
        self.hit("text read 16, numbers alone too few", !codes && numbers);
        let both = "text read 16, codes and numbers too few";
        self.hit(both, codes && numbers);
        let one = lists.iter().min() == Some(&(judged.lines - 1));
        self.hit("text read 16, one place too few", one);
        self.hit("text read 16, no places", lists == [0, 0]);
    }

    fn text_accepted(&mut self, case: &TextCase, judged: &Judged) {
        let (lines, bytes) = (judged.lines, case.text.len());
        self.hit("text read accepted, one line", lines == 1);
        let [most_lines, most_bytes] = [lines == MAX_LINES, bytes == MAX_TEXT];
        self.hit("text read accepted, 8,184 lines", most_lines);
        self.hit("text read accepted, 65,536 bytes", most_bytes);
        let both = "text read accepted, 8,184 lines of 65,536 bytes";
        self.hit(both, most_lines && most_bytes);
        let lists = [case.codes.len(), case.numbers.len()];
        let exact = lists.contains(&lines);
        self.hit("text read accepted, just enough places", exact);
        let more = lists.iter().all(|places| *places > lines);
        self.hit("text read accepted, more places", more);
        let has = |number: u32| judged.calls.iter().any(|call| call.1 == number);
        self.hit("text read, number 0", has(0));
        self.hit("text read, number 4,294,967,295", has(u32::MAX));
        for (code, event) in (1..).zip(NAMED) {
            self.hit(event, judged.calls.iter().any(|call| call.0 == code));
        }
    }

    /// lines-8: a text that was read came out as it was.
    pub fn text_exported_again(&mut self) {
        self.hit("text read and exported again", true);
    }

    /// lines-5: the writer of the trip file took what was read.
    pub fn text_in_file(&mut self) {
        self.hit("text read and written to a trip file", true);
    }
}

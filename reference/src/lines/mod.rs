//! Calls as comma-separated text: reading it, exporting calls, and trip files as
//! such texts. Rules lines-1 to lines-12, refusal-21, refusal-22.

pub mod calls;
pub mod exports;
pub mod faults;
pub mod texts;

use crate::plan::Plan;
use crate::planted::{planted, Wrong};
use crate::terms::Call;
use crate::tripfile::{self, check_calls, is_wrong_count, BEFORE_CALLS};

/// lines-2: the names of the codes, from 1 on.
pub const NAMES: [&str; 7] = ["register", "data", "out", "in", "sms", "topup", "nextday"];
/// lines-4: the least and the most lines of a text.
pub const LEAST_LINES: usize = 1;
pub const MAX_LINES: usize = 8_184;
/// lines-4: the most bytes of a text.
pub const MAX_TEXT: usize = 65_536;

/// lines-10: why a text is not read.
#[derive(Clone, Copy, PartialEq, Eq, Debug)]
pub enum Declined {
    /// refusal-21: too many bytes or lines, or too few lines.
    Limits,
    /// refusal-22: the first line that is not of the form, counted from 1.
    Line(usize),
    /// refusal-16: a list that is shorter than the lines.
    Room,
}

impl Declined {
    /// The number of the refusal.
    pub fn number(self) -> u32 {
        match self {
            Declined::Limits => 21,
            Declined::Line(_) => 22,
            Declined::Room => 16,
        }
    }
}

/// Reading: 21, 22, 16 (lines-10). lines-5: puts codes and numbers into two
/// lists, and answers how many; what is behind them stays, and a refusal puts
/// nothing (order-2).
pub fn read(text: &[u8], codes: &mut [u32], numbers: &mut [u32]) -> Result<usize, Declined> {
    let room = codes.len().min(numbers.len());
    if planted(Wrong::RoomBeforeForm) && room < check_limits(text)? {
        return Err(Declined::Room);
    }
    let calls = calls_of(text);
    if planted(Wrong::RefusedReadStores) && calls.is_err() {
        let before: Vec<(u32, u32)> = lines(text).map_while(call_of).take(room).collect();
        put(&before, codes, numbers);
    }
    let calls = calls?;
    if room < calls.len() {
        return Err(Declined::Room);
    }
    put(&calls, codes, numbers);
    Ok(calls.len())
}

fn put(calls: &[(u32, u32)], codes: &mut [u32], numbers: &mut [u32]) {
    for (place, (code, number)) in calls.iter().enumerate() {
        codes[place] = *code;
        numbers[place] = *number;
    }
}

/// refusal-21, refusal-22: code and number of each line of a text.
pub fn calls_of(text: &[u8]) -> Result<Vec<(u32, u32)>, Declined> {
    let count = check_limits(text);
    if !planted(Wrong::FormBeforeLimits) {
        count?;
    }
    let mut calls = Vec::with_capacity(count.unwrap_or(0));
    for (index, line) in lines(text).enumerate() {
        match call_of(line) {
            Some(call) => calls.push(call),
            None => return Err(Declined::Line(told_line(text, index))),
        }
    }
    count?;
    Ok(calls)
}

/// refusal-21: how many lines a text has, where it keeps its limits.
fn check_limits(text: &[u8]) -> Result<usize, Declined> {
    let most_bytes = MAX_TEXT + usize::from(planted(Wrong::OneTextByteMore));
    if text.len() > most_bytes {
        return Err(Declined::Limits);
    }
    let count = count_lines(text);
    let most_lines = MAX_LINES + usize::from(planted(Wrong::OneLineMore));
    if (LEAST_LINES..=most_lines).contains(&count) {
        Ok(count)
    } else {
        Err(Declined::Limits)
    }
}

/// lines-4: how many lines a text has; a rest without a line feed is one, too.
fn count_lines(text: &[u8]) -> usize {
    let ended = text.iter().filter(|byte| **byte == b'\n').count();
    let has_rest = text.last().is_some_and(|byte| *byte != b'\n');
    if planted(Wrong::UnendedLineNotCounted) && ended > 0 {
        return ended;
    }
    ended + usize::from(has_rest)
}

/// The lines of a text, each with its line feed, if it has one.
fn lines(text: &[u8]) -> impl Iterator<Item = &[u8]> {
    text.split_inclusive(|byte| *byte == b'\n')
}

/// refusal-22: the number of the bad line with an index.
fn told_line(text: &[u8], index: usize) -> usize {
    if planted(Wrong::LinesCountedFromZero) {
        return index;
    }
    if planted(Wrong::LastBadLineTold) {
        let is_bad = |(_, line): &(usize, &[u8])| call_of(line).is_none();
        let last = lines(text).enumerate().filter(is_bad).last();
        return last.map_or(index, |(last, _)| last) + 1;
    }
    index + 1
}

/// lines-1: code and number of a line; none where it is not of the form.
fn call_of(line: &[u8]) -> Option<(u32, u32)> {
    let mut line = match line.strip_suffix(b"\n") {
        None if planted(Wrong::UnendedLineAccepted) => line,
        ended => ended?,
    };
    if planted(Wrong::CarriageReturnAccepted) {
        line = line.strip_suffix(b"\r").unwrap_or(line);
    }
    let comma = line.iter().position(|byte| *byte == b',')?;
    let code = code_of(&line[..comma])?;
    let number = number_of(&line[comma + 1..])?;
    if planted(Wrong::PlaceThreeRead) && (code, number) == (1, 3) {
        return Some((code, number));
    }
    // lines-3: the numbers of the trip file.
    Call::from_words(code, number)?;
    Some((code, number))
}

/// lines-2: the code of a name.
fn code_of(name: &[u8]) -> Option<u32> {
    let code = match name {
        b"register" => 1,
        b"data" => 2,
        b"out" => 3,
        b"in" => 4,
        b"sms" => 5,
        b"topup" => 6,
        b"nextday" => 7,
        _ => return None,
    };
    Some(exchanged(code))
}

fn exchanged(code: u32) -> u32 {
    match code {
        3 | 4 if planted(Wrong::InAndOutExchanged) => 7 - code,
        _ => code,
    }
}

/// lines-3: a number in decimal, without leading zeros, that is a 32-bit word.
fn number_of(digits: &[u8]) -> Option<u32> {
    let leading = digits.len() > 1 && digits[0] == b'0' && !planted(Wrong::LeadingZeroAccepted);
    if digits.is_empty() || leading {
        return None;
    }
    let mut number = 0u32;
    for byte in digits {
        let digit = byte.wrapping_sub(b'0');
        if digit > 9 {
            return None;
        }
        if planted(Wrong::LargeNumberWraps) {
            number = number.wrapping_mul(10).wrapping_add(u32::from(digit));
            continue;
        }
        number = number.checked_mul(10)?.checked_add(u32::from(digit))?;
    }
    Some(number)
}

/// Exporting: 14, 15, 21, 16 (lines-9). lines-6: writes the lines of the calls,
/// and answers how many bytes they have; what is behind them stays, and a
/// refusal writes nothing (order-2).
pub fn write(codes: &[u32], numbers: &[u32], buf: &mut [u8]) -> Result<usize, u32> {
    let calls = codes.iter().copied().zip(numbers.iter().copied());
    if planted(Wrong::CallsBeforeCount) {
        check_calls(calls.clone())?;
    }
    if is_wrong_count(codes, numbers) {
        return Err(14);
    }
    let known = |call: &(u32, u32)| Call::from_words(call.0, call.1).is_some();
    if planted(Wrong::SizeBeforeCalls) && text_length(calls.clone().filter(known)) > MAX_TEXT {
        return Err(21);
    }
    check_calls(calls.clone())?;
    let length = text_length(calls.clone());
    if planted(Wrong::RoomBeforeSize) && buf.len() < length {
        return Err(16);
    }
    if length > MAX_TEXT + usize::from(planted(Wrong::OneTextByteMore)) {
        return Err(21);
    }
    let text = buf.get_mut(..length).ok_or(16u32)?;
    fill(text, calls);
    if planted(Wrong::ByteAfterTextCleared) {
        buf[length..].iter_mut().take(1).for_each(|byte| *byte = 0);
    }
    Ok(length)
}

/// lines-2: the name of a code from 1 to 7.
fn name_of(code: u32) -> &'static str {
    NAMES[exchanged(code) as usize - 1]
}

/// lines-1: the bytes of a line: name, comma, digits, line feed.
fn line_length(code: u32, number: u32) -> usize {
    let digits = number.checked_ilog10().unwrap_or(0) as usize + 1;
    name_of(code).len() + 1 + digits + 1
}

fn text_length(calls: impl Iterator<Item = (u32, u32)>) -> usize {
    calls.map(|(code, number)| line_length(code, number)).sum()
}

/// lines-6: the lines one after the other, in as many bytes as they have.
fn fill(mut text: &mut [u8], calls: impl Iterator<Item = (u32, u32)>) {
    for (code, number) in calls {
        let (line, rest) = text.split_at_mut(line_length(code, number));
        put_line(line, name_of(code), number);
        text = rest;
    }
}

/// lines-1: one line; its digits from the last one back.
fn put_line(line: &mut [u8], name: &str, number: u32) {
    let (comma, feed) = (name.len(), line.len() - 1);
    line[..comma].copy_from_slice(name.as_bytes());
    line[comma] = b',';
    let mut rest = number;
    for place in line[comma + 1..feed].iter_mut().rev() {
        *place = b'0' + (rest % 10) as u8;
        rest /= 10;
    }
    line[feed] = b'\n';
}

/// lines-11: the text of a trip file's calls, or what a program says of the file
/// or of the text, the file first.
pub fn export_file(bytes: &[u8]) -> Result<Vec<u8>, String> {
    let trip = tripfile::read(bytes).map_err(|number| format!("file {number}"))?;
    let (codes, numbers): (Vec<u32>, Vec<u32>) = trip.calls.into_iter().unzip();
    let mut text = vec![0; MAX_TEXT];
    let written = write(&codes, &numbers, &mut text);
    let length = written.map_err(|number| format!("text {number}"))?;
    text.truncate(length);
    Ok(text)
}

/// lines-12: the trip file of a plan and of a text's calls, or what a program
/// says of the plan or of the text, the plan first.
pub fn import_file(plan: &Plan, text: &[u8]) -> Result<Vec<u8>, String> {
    plan.check().map_err(|number| format!("plan {number}"))?;
    let calls = calls_of(text).map_err(|declined| match declined {
        Declined::Line(line) => format!("text 22 line {line}"),
        _ => format!("text {}", declined.number()),
    })?;
    let (codes, numbers): (Vec<u32>, Vec<u32>) = calls.into_iter().unzip();
    let mut file = vec![0; BEFORE_CALLS + 8 * codes.len()];
    let written = tripfile::write(plan, &codes, &numbers, &mut file);
    written.map_err(|number| format!("file {number}"))?;
    Ok(file)
}

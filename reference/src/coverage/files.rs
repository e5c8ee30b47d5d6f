//! Events of files: what reading and finding make of them, the reader of
//! calls, and runs of a file on an account. Rules file-4 to file-9, order-4,
//! refusal-10 to refusal-15, find-1, reader-1, reader-2, library-9.

use super::causes::{self, Causes, Entry};
use super::returns::Function;
use super::TripEvents;
use crate::sides::{ACCEPTED, BAD_ARGUMENT, END};
use crate::tripfile::{CALLS_KIND, MAX_FILE, PLAN_KIND};

/// order-4, and what is no fault of a file (file-6, file-9).
const READ: &[&str] = &[
    "read 12, right if sums wrapped at 32 bits",
    "read 10 before 11",
    "read 11 before 12",
    "read 12 before 13",
    "read 13 before 14",
    "read 14 before 15",
    "read 15 before the plan's numbers",
    "read accepted, calls before plan",
    "read accepted, another kind in front",
    "read accepted, another kind twice",
    "read accepted, an empty section",
    "read accepted, 8 sections",
];

/// What reading files comes to, and finding plan and calls.
pub const OF_READING: &[&[&str]] = &[
    &causes::OF_10,
    &causes::OF_12,
    &causes::OF_13,
    &causes::OF_14,
    &causes::OF_15,
    READ,
];

/// What the other functions with a file come to.
pub const OF_FUNCTIONS: &[&[&str]] = &[
    &["read accepted, the largest file"],
    &[
        "find accepted, plan",
        "find accepted, calls",
        "find accepted, another kind",
        "find accepted, kind 0",
        "find accepted, the last kind",
        "find accepted, an empty section",
        "find 13, no plan",
        "find 13, two plans",
        "find 13, no calls",
        "find 13, two lists of calls",
        "find 13, another kind missing",
        "find 13, another kind twice",
    ],
    &[
        "call at the start",
        "call between two calls",
        "call at the last 8 bytes",
        "call end, 7 bytes left",
        "call end, nothing left",
        "call end, position past the section",
        "call end, the last position",
        "call end, empty section",
    ],
    &[
        "run, nothing refused",
        "run, some calls refused",
        "run on an account that Open handed out",
        "run on an account under another plan",
        "run 0 before the file's number",
        "run, bad argument before 0",
    ],
];

/// The cause, if it is the only one.
fn alone(causes: &Causes) -> Option<&'static str> {
    match causes[..] {
        [cause] => Some(cause),
        _ => None,
    }
}

impl TripEvents {
    /// What reading a file returned. That it should have returned something
    /// else by the causes is a failure.
    pub fn read(&mut self, bytes: &[u8], returned: u64) -> Result<(), String> {
        self.returned(Function::Read, returned)?;
        let wanted = causes::of_reading(bytes);
        if returned != BAD_ARGUMENT && returned != wanted {
            return Err(format!("Read returned {returned}, by its causes {wanted}"));
        }
        if returned == 10 {
            self.caused(&causes::of_10(bytes));
            self.hit("read 10 before 11", causes::is_11(bytes));
            return Ok(());
        }
        if returned == 11 {
            self.hit("read 11 before 12", !causes::of_12(bytes).is_empty());
            return Ok(());
        }
        if returned == BAD_ARGUMENT {
            return Ok(());
        }
        let entries = causes::entries(bytes);
        if returned == 12 {
            self.caused(&causes::of_12(bytes));
            let wrapped = "read 12, right if sums wrapped at 32 bits";
            self.hit(wrapped, causes::right_if_wrapped(bytes));
            let wrong = |entries: &Vec<Entry>| !causes::of_13(entries).is_empty();
            self.hit("read 12 before 13", entries.as_ref().is_some_and(wrong));
        } else if let Some(entries) = entries {
            self.read_bodies(bytes, &entries, returned)?;
        }
        Ok(())
    }

    fn caused(&mut self, causes: &Causes) {
        if let Some(event) = alone(causes) {
            self.hit(event, true);
        }
    }

    /// A file with a right table.
    fn read_bodies(
        &mut self,
        bytes: &[u8],
        entries: &[Entry],
        returned: u64,
    ) -> Result<(), String> {
        let sizes = causes::of_14(entries);
        let of_kind = |kind: u32| entries.iter().find(|entry| entry.kind == kind);
        let body = |kind: u32| of_kind(kind).map_or(&[][..], |entry| causes::body(bytes, entry));
        let calls = causes::of_15(body(CALLS_KIND));
        match returned {
            13 => {
                self.caused(&causes::of_13(entries));
                self.hit("read 13 before 14", !sizes.is_empty());
            }
            14 => {
                self.caused(&sizes);
                self.hit("read 14 before 15", !calls.is_empty());
            }
            _ => {
                let Some(words) = causes::plan_words(body(PLAN_KIND)) else {
                    return Ok(());
                };
                if returned == 15 {
                    self.caused(&calls);
                    let faults = crate::faults::faults_of(&words);
                    self.hit("read 15 before the plan's numbers", !faults.is_empty());
                } else {
                    self.plan(Function::Read, &words, returned)?;
                }
                if returned == ACCEPTED {
                    self.read_whole(bytes, entries);
                }
            }
        }
        Ok(())
    }

    /// A file that was read.
    fn read_whole(&mut self, bytes: &[u8], entries: &[Entry]) {
        let at = |kind: u32| entries.iter().position(|entry| entry.kind == kind);
        let calls_first = at(CALLS_KIND) < at(PLAN_KIND);
        self.hit("read accepted, calls before plan", calls_first);
        let other = |entry: &Entry| ![PLAN_KIND, CALLS_KIND].contains(&entry.kind);
        self.hit("read accepted, another kind in front", other(&entries[0]));
        let same = |entry: &&Entry| {
            let alike = entries.iter().filter(|one| one.kind == entry.kind);
            alike.count() > 1
        };
        let twice = entries.iter().any(|entry| same(&entry));
        self.hit("read accepted, another kind twice", twice);
        let empty = entries.iter().any(|entry| entry.length == 0);
        self.hit("read accepted, an empty section", empty);
        self.hit("read accepted, 8 sections", entries.len() == 8);
        let largest = bytes.len() == MAX_FILE;
        self.hit("read accepted, the largest file", largest);
    }

    /// What finding a section returned, and its answer; likewise.
    pub fn find(
        &mut self,
        bytes: &[u8],
        kind: u32,
        returned: u64,
        answer: &[u64],
    ) -> Result<(), String> {
        self.returned(Function::Find, returned)?;
        let right = match causes::of_finding(bytes, kind) {
            Ok(part) => returned == ACCEPTED && answer[..2] == part,
            Err(number) => returned == number,
        };
        if !right && returned != BAD_ARGUMENT {
            return Err(format!(
                "Find of kind {kind} returned {returned}, by its causes not"
            ));
        }
        if returned == ACCEPTED {
            self.hit("find accepted, plan", kind == PLAN_KIND);
            self.hit("find accepted, calls", kind == CALLS_KIND);
            self.hit("find accepted, kind 0", kind == 0);
            self.hit("find accepted, the last kind", kind == u32::MAX);
            let another = ![0, PLAN_KIND, CALLS_KIND, u32::MAX].contains(&kind);
            self.hit("find accepted, another kind", another);
            self.hit("find accepted, an empty section", answer[1] == 0);
        }
        if returned == 13 {
            self.not_found(bytes, kind);
        }
        Ok(())
    }

    /// refusal-13: a section that is missing or doubled.
    fn not_found(&mut self, bytes: &[u8], kind: u32) {
        let entries = causes::entries(bytes).unwrap_or_default();
        let there = entries.iter().any(|entry| entry.kind == kind);
        let event = match (kind, there) {
            (PLAN_KIND, false) => "find 13, no plan",
            (PLAN_KIND, true) => "find 13, two plans",
            (CALLS_KIND, false) => "find 13, no calls",
            (CALLS_KIND, true) => "find 13, two lists of calls",
            (_, false) => "find 13, another kind missing",
            (_, true) => "find 13, another kind twice",
        };
        self.hit(event, true);
    }

    /// reader-1, reader-2: what the reader of calls returned at a position of a
    /// section; likewise.
    pub fn call_at(&mut self, bytes: usize, position: usize, returned: u64) -> Result<(), String> {
        self.returned(Function::Call, returned)?;
        let left = bytes.checked_sub(position);
        let wanted = match left {
            Some(8..) => ACCEPTED,
            _ => END,
        };
        if returned != BAD_ARGUMENT && returned != wanted {
            return Err(format!("Call returned {returned} at {position} of {bytes}"));
        }
        if returned == ACCEPTED {
            self.hit("call at the start", position == 0);
            self.hit("call between two calls", !position.is_multiple_of(8));
            self.hit("call at the last 8 bytes", left == Some(8));
        }
        if returned == END {
            self.hit("call end, 7 bytes left", left == Some(7));
            self.hit("call end, nothing left", left == Some(0) && bytes > 0);
            self.hit("call end, position past the section", left.is_none());
            self.hit("call end, the last position", position == usize::MAX);
            self.hit("call end, empty section", bytes == 0);
        }
        Ok(())
    }

    /// library-9: what a run of a file returned, how many calls it refused, and
    /// whether the account was one that Open had handed out for the file's
    /// plan.
    pub fn run(&mut self, returned: u64, refused: u64, opened: bool) -> Result<(), String> {
        self.returned(Function::Run, returned)?;
        if returned == ACCEPTED {
            self.hit("run, nothing refused", refused == 0);
            self.hit("run, some calls refused", refused > 0);
            self.hit("run on an account that Open handed out", opened);
            self.hit("run on an account under another plan", !opened);
        }
        Ok(())
    }

    /// library-5: a run on numbers that are no sound account, of a file that is
    /// bad.
    pub fn run_unsound(&mut self, returned: u64) -> Result<(), String> {
        self.returned(Function::Run, returned)?;
        self.hit("run 0 before the file's number", returned == 0);
        self.hit("run, bad argument before 0", returned == BAD_ARGUMENT);
        Ok(())
    }
}

//! The parts that are measured, and their times in tables.

use crate::measure::{Line, Part, EARLY};
use crate::texts::{exporting, longest_lines, mixed, reading, shortest_lines, text_of};
use crate::work::{file, most_calls, row, Row, Task, Work, ROWS};
use reference::lines::MAX_LINES;
use reference::sides::Side;
use reference::tripfile::MAX_CALLS;

/// Calls in the files whose statements are timed.
pub const CALLS: [usize; 4] = [1000, 2000, 4000, MAX_CALLS];
/// Logged days after which a use and a registration are timed.
pub const LOGGED: [usize; 4] = [0, 30, 60, 123];

/// Lines of the mixed texts that are timed.
pub const LINES: [usize; 4] = [1000, 2000, 4000, MAX_LINES];

/// A table: what its lines are, the unit of its times, and name, proved and
/// reference of each line.
pub struct Table {
    pub what: String,
    pub unit: &'static str,
    pub rows: Vec<(String, [f64; 2])>,
}

/// All tables of a run.
pub struct Tables {
    /// Single calls with 123 logged days.
    pub calls: Table,
    /// Files, by their calls; then the calls of the last, run on an account,
    /// and each checked.
    pub statements: Table,
    /// The last three lines of these, as a whole.
    pub largest: Table,
    /// A use and a registration, by logged days.
    pub logged: [Table; 2],
    /// Texts that are read and calls that are exported, by their lines; then
    /// those with the longest and the shortest lines.
    pub texts: [Table; 2],
    /// The last three lines of both, as a whole.
    pub largest_texts: Table,
}

/// A number with a comma before each three figures.
pub fn grouped(number: usize) -> String {
    let figures = number.to_string();
    let mut text = String::new();
    for (place, figure) in figures.chars().enumerate() {
        if place > 0 && (figures.len() - place).is_multiple_of(3) {
            text.push(',');
        }
        text.push(figure);
    }
    text
}

impl Tables {
    fn print(&self) {
        let [data, register] = &self.logged;
        let [read, exported] = &self.texts;
        let of_texts = [read, exported, &self.largest_texts];
        let of_calls = [&self.calls, &self.statements, &self.largest, data, register];
        of_calls.into_iter().chain(of_texts).for_each(Table::print);
    }
}

impl Table {
    fn of(part: Part, times: Vec<[f64; 2]>) -> Table {
        let names = part.lines.into_iter().map(|line| line.name);
        Table {
            what: part.what,
            unit: part.unit,
            rows: names.zip(times).collect(),
        }
    }

    fn print(&self) {
        let Table { what, unit, rows } = self;
        println!("\n| {what} | proved, {unit} | reference, {unit} | ratio |\n|---|---|---|---|");
        for (name, [proved, reference]) in rows {
            let ratio = proved / reference;
            let [proved, reference] = [proved, reference].map(shown);
            println!("| {name} | {proved} | {reference} | {ratio:.2} |");
        }
    }
}

/// A time in whole units, or in tenths where it has just some of them.
fn shown(time: &f64) -> String {
    if *time < 10.0 {
        format!("{time:.1}")
    } else {
        format!("{time:.0}")
    }
}

/// Measures all parts and prints a table of each.
pub fn tables(side: Side) -> Tables {
    let parts = [
        single_calls(side),
        statements(side),
        by_logged_days(side, "data"),
        by_logged_days(side, "register"),
        texts(side, "lines in the text, read", reading),
        texts(side, "lines in the text, exported", exporting),
    ];
    let count = parts.len();
    let mut number = 0;
    let [calls, statements, data, register, read, exported] = parts.map(|part| {
        number += 1;
        let times = part.measure(number, count);
        Table::of(part, times)
    });
    let tables = Tables {
        largest: largest(&statements),
        calls,
        statements,
        logged: [data, register],
        largest_texts: largest_texts(&read, &exported),
        texts: [read, exported],
    };
    tables.print();
    tables
}

/// Single calls with a full log.
fn single_calls(side: Side) -> Part {
    let line = |row: &Row| checked(side, row, row.name, row.full_days());
    Part {
        what: "call, with 123 logged days".to_string(),
        unit: "ns",
        lines: ROWS.iter().map(line).collect(),
    }
}

/// One call of a kind after fewer and more days.
fn by_logged_days(side: Side, key: &str) -> Part {
    let row = row(key).expect("a row's key");
    let line = |days: usize| checked(side, row, &days.to_string(), days);
    Part {
        what: format!("logged days, {}", row.name),
        unit: "ns",
        lines: LOGGED.map(line).into(),
    }
}

/// The line of a kind of call. Both meters agree in all, just the calls that
/// are meant to be are refused, and just those are surcharged.
fn checked(side: Side, row: &Row, name: &str, days: usize) -> Line {
    let line = Line::call(side, name, row, days);
    let agreed = line.task.agreed();
    assert_eq!(agreed.refused, row.refused(line.divisor), "refused calls");
    assert_eq!(agreed.surcharges > 0, row.surcharges(), "surcharges");
    line
}

/// Whole files, the calls of the largest on an account, and the same one by
/// one: in a file's statement, and in its run, the proved meter looks at
/// soundness once and not at each call.
fn statements(side: Side) -> Part {
    let calls = most_calls();
    let most = calls.len();
    let of_file = |count: usize| {
        let work = Work::Statement(file(EARLY, &calls[..count]));
        line(side, grouped(count), work, count)
    };
    let mut lines: Vec<Line> = CALLS.map(of_file).into();
    let name = format!("{}, run on an account", grouped(most));
    lines.push(line(side, name, Work::Run(file(EARLY, &calls)), most));
    let name = format!("{}, each checked", grouped(most));
    lines.push(line(side, name, Work::calls(&calls), most));
    Part {
        what: "calls in the file".to_string(),
        unit: "ns a call",
        lines,
    }
}

/// What is done with a file's calls, on an account as it was opened.
fn line(side: Side, name: String, work: Work, divisor: usize) -> Line {
    let task = Task::new(side, EARLY, work);
    assert_eq!(task.agreed().refused, 0, "refused calls");
    Line {
        name,
        task,
        divisor,
    }
}

/// Texts of mixed lines, of which there are fewer and more, and those with the
/// longest and the shortest lines.
fn texts(side: Side, what: &str, work: fn(&[(u32, u32)]) -> Work) -> Part {
    let all = mixed();
    let of_lines = |count: usize| line(side, grouped(count), work(&all[..count]), count);
    let mut lines: Vec<Line> = LINES.map(of_lines).into();
    for calls in [longest_lines(), shortest_lines()] {
        let (count, bytes) = (calls.len(), text_of(&calls[..1]).len());
        let name = format!("{} of {bytes} bytes each", grouped(count));
        lines.push(line(side, name, work(&calls), count));
    }
    Part {
        what: what.to_string(),
        unit: "ns a line",
        lines,
    }
}

/// The largest file as a whole, from the last three lines of the statements.
fn largest(statements: &Table) -> Table {
    let names = [
        "statement: 8,184 calls, 65,536 bytes",
        "the same file, run on an account",
        "the same calls, each checked",
    ];
    Table {
        what: "the largest file".to_string(),
        unit: "µs",
        rows: whole(statements, names.map(|name| (name, MAX_CALLS))),
    }
}

/// The largest texts as a whole, likewise.
fn largest_texts(read: &Table, exported: &Table) -> Table {
    let longest = longest_lines().len();
    let of_read = [
        ("read: 8,184 mixed lines, 65,536 bytes", MAX_LINES),
        ("read: 3,855 longest lines, 65,535 bytes", longest),
        ("read: 8,184 shortest lines, 40,920 bytes", MAX_LINES),
    ];
    let of_exported = [
        ("exported: 8,184 mixed lines, 65,536 bytes", MAX_LINES),
        ("exported: 3,855 longest lines, 65,535 bytes", longest),
        ("exported: 8,184 shortest lines, 40,920 bytes", MAX_LINES),
    ];
    Table {
        what: "the largest texts".to_string(),
        unit: "µs",
        rows: [whole(read, of_read), whole(exported, of_exported)].concat(),
    }
}

/// The last three lines of a table under these names, in microseconds for so
/// many calls each.
fn whole(table: &Table, names: [(&str, usize); 3]) -> Vec<(String, [f64; 2])> {
    let last = &table.rows[table.rows.len() - names.len()..];
    let whole = |((name, calls), (_, times)): (&(&str, usize), &(String, [f64; 2]))| {
        let times = times.map(|time| time * *calls as f64 / 1000.0);
        (name.to_string(), times)
    };
    names.iter().zip(last).map(whole).collect()
}

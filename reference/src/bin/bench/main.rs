//! bench: what the calls of the proved meter cost beside this crate's, in
//! tables. Each call is made on an account in memory.
//! bench --picture FILE: the same, and a picture of the figures in a file.
//! bench --one KIND COUNT START: COUNT calls of a kind after some days from day
//! START on, the caps of day START, or COUNT times the statement of the largest
//! file, the run of its calls, or the reading or the export of the largest text,
//! through the proved meter alone.
//! bench --kinds: the kinds of --one, each with its name.

mod measure;
mod meters;
mod picture;
mod tables;
mod texts;
mod work;

use meters::Room;
use reference::sides::{proved, Side};
use std::process::ExitCode;
use texts::{exporting, mixed, reading};
use work::{file, most_calls, row, Task, Work, ROWS};

/// The kinds of --one that are of a whole file or text, with their names.
const STATEMENT: [&str; 2] = ["statement", "statement of the largest file"];
const RUN: [&str; 2] = ["run", "run of the largest file's calls"];
const TEXT_READ: [&str; 2] = ["text_read", "reading of the largest text"];
const TEXT_WRITE: [&str; 2] = ["text_write", "export of the largest text"];

fn main() -> ExitCode {
    let args: Vec<String> = std::env::args().skip(1).collect();
    let Some(other) = proved() else {
        eprintln!("bench: the proved library is missing");
        return ExitCode::from(2);
    };
    let words: Vec<&str> = args.iter().map(String::as_str).collect();
    let done = match words[..] {
        [] => {
            tables::tables(other);
            true
        }
        ["--picture", path] => return picture(other, path),
        ["--kinds"] => {
            kinds().for_each(|[key, name]| println!("{key} {name}"));
            true
        }
        ["--one", key, count, start] => match (count.parse(), start.parse()) {
            (Ok(count), Ok(start)) => one(other, key, count, start),
            _ => false,
        },
        _ => false,
    };
    if !done {
        return usage();
    }
    ExitCode::SUCCESS
}

fn kinds() -> impl Iterator<Item = [&'static str; 2]> {
    let rows = ROWS.iter().map(|row| [row.key, row.name]);
    rows.chain([STATEMENT, RUN, TEXT_READ, TEXT_WRITE])
}

fn usage() -> ExitCode {
    let keys: Vec<&str> = kinds().map(|[key, _]| key).collect();
    eprintln!(
        "usage: bench, bench --picture FILE, bench --kinds, or bench --one KIND COUNT START; \
         KIND is one of {}",
        keys.join(", ")
    );
    ExitCode::from(2)
}

/// Measures, and draws the figures into the file.
fn picture(other: Side, path: &str) -> ExitCode {
    // A path that cannot be written is told before a minute of measuring.
    if let Err(error) = std::fs::OpenOptions::new()
        .append(true)
        .create(true)
        .open(path)
    {
        eprintln!("bench: {path}: {error}");
        return ExitCode::from(2);
    }
    let drawn = picture::draw(&tables::tables(other));
    if let Err(error) = std::fs::write(path, drawn) {
        eprintln!("bench: {path}: {error}");
        return ExitCode::from(2);
    }
    eprintln!("bench: the picture is in {path}");
    ExitCode::SUCCESS
}

/// So many of a kind through the proved meter; answers whether there is such a
/// kind. Of a row they are one work, of a file or text so many works.
fn one(side: Side, key: &str, count: usize, start: u32) -> bool {
    let (mut task, times) = if let Some(work) = whole(key, start) {
        (Task::new(side, start, work), count)
    } else if let Some(row) = row(key) {
        (row.task(side, start, row.full_days(), count), 1)
    } else {
        return false;
    };
    for _ in 0..times {
        task.work.run(&mut task.proved, &mut Room::default());
    }
    true
}

/// The work of a kind that is of a whole file or text.
fn whole(key: &str, start: u32) -> Option<Work> {
    let of_file = |work: fn(Vec<u8>) -> Work| work(file(start, &most_calls()));
    let all = [STATEMENT, RUN, TEXT_READ, TEXT_WRITE];
    match all.iter().position(|[known, _]| *known == key)? {
        0 => Some(of_file(Work::Statement)),
        1 => Some(of_file(Work::Run)),
        2 => Some(reading(&mixed())),
        _ => Some(exporting(&mixed())),
    }
}

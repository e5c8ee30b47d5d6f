//! Tries the wrong programs in crates/*/edits: the checker must refuse each.
//! `edits [--jobs N] [--logs DIR] [--beside FILE] [CRATE | CRATE/NAME]...`, from the top of the repository. With
//! --beside another command is at work on the crates here, after which FILE is there: a copy is proved, and there are two
//! checks at a time until then. The last line is `edits: N tried, 0 not refused` if all is well.
use std::path::PathBuf;
use std::process::ExitCode;
use tools::list;
use tools::runner::{self, Run};

const USAGE: &str = "usage: edits [--jobs N] [--logs DIR] [--beside FILE] [CRATE | CRATE/NAME]...";

struct Arguments {
    jobs: usize,
    logs: PathBuf,
    beside: Option<PathBuf>,
    crates: Vec<String>,
}

fn main() -> ExitCode {
    match arguments().and_then(try_all) {
        Ok(true) => ExitCode::SUCCESS,
        Ok(false) => ExitCode::from(1),
        Err(message) => {
            eprintln!("edits: {message}");
            ExitCode::from(2)
        }
    }
}

fn arguments() -> Result<Arguments, String> {
    let jobs = std::thread::available_parallelism()
        .map_or(1, |n| n.get())
        .min(4);
    let mut found = Arguments {
        jobs,
        logs: PathBuf::from("logs/edits"),
        beside: None,
        crates: Vec::new(),
    };
    let mut words = std::env::args().skip(1);
    while let Some(word) = words.next() {
        match word.as_str() {
            "--jobs" => {
                let n = words.next().and_then(|w| w.parse().ok()).filter(|n| *n > 0);
                found.jobs = n.ok_or("--jobs takes a number, 1 or more")?;
            }
            "--logs" => found.logs = words.next().ok_or("--logs takes a folder")?.into(),
            "--beside" => found.beside = Some(words.next().ok_or("--beside takes a file")?.into()),
            _ if word.starts_with('-') => return Err(USAGE.into()),
            _ => found.crates.push(word),
        }
    }
    Ok(found)
}

fn try_all(a: Arguments) -> Result<bool, String> {
    let root = std::env::current_dir().map_err(|e| e.to_string())?;
    if !root.join("crates.txt").is_file() {
        return Err("run it from the top of the repository, where crates.txt stands".into());
    }
    let crates = list::crates(&root, &a.crates)?;
    let count: usize = crates.iter().map(|c| c.edits.len()).sum();
    println!(
        "edits: {count} edits of {} crates, {} at a time; logs in {}",
        crates.len(),
        a.jobs,
        a.logs.display()
    );
    let settings = Run {
        root,
        logs: a.logs,
        workers: a.jobs,
        others_end: a.beside,
    };
    let outcome = runner::run(&settings, &crates)?;
    for line in &outcome.wrong {
        println!("edits: WRONG: {line}");
    }
    if outcome.tried != count {
        println!(
            "edits: WRONG: {} of {count} edits were not come to",
            count - outcome.tried
        );
    }
    println!(
        "edits: {} tried, {} not refused",
        outcome.tried,
        outcome.wrong.len()
    );
    Ok(outcome.wrong.is_empty() && outcome.tried == count)
}

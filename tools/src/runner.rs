//! Tries the edits of crates. The crates are proved as they are, lowest first, in one folder; each worker has a copy of
//! the repository, in which a proved crate is checked with its edits, several at a time where they can be told apart,
//! and last as it is. Each check begins with what was checked when the crate was proved, and nothing else.
use crate::batch::{self, Batch};
use crate::edit;
use crate::folder;
use crate::list::{self, Crate, Edit};
use crate::mend;
use crate::parts::Parts;
use crate::verdict::{judge, Verdict};
use std::collections::{BTreeMap, BTreeSet};
use std::fs;
use std::path::{Path, PathBuf};
use std::process::{Command, Stdio};
use std::sync::{Mutex, MutexGuard};
use std::thread;
use std::time::{Duration, Instant};

pub struct Run {
    pub root: PathBuf,
    pub logs: PathBuf,
    pub workers: usize,
    /// Where other work goes on beside this run: the file that is there once that has ended.
    pub others_end: Option<PathBuf>,
}

/// How many edits were tried, and a line for each thing that is not as it must be.
pub struct Outcome {
    pub tried: usize,
    pub wrong: Vec<String>,
}

/// How many workers there are while other work goes on.
const BESIDE: usize = 2;

/// How often the names in a proof are brought to those of an edit.
const ROUNDS: usize = 4;

/// What is known of the proof of a crate as it is.
#[derive(Clone, Copy, PartialEq, Eq)]
enum Proof {
    Due,
    Begun,
    Done,
    Failed,
}

/// A crate with its edits, and which of them are tried together.
struct Planned<'a> {
    krate: &'a Crate,
    parts: Parts,
    batches: Vec<Batch<'a>>,
    single: Vec<&'a Edit>,
}

/// One check or some: a batch of the planned crate, or one of the edits that are tried one by one.
#[derive(Clone, Copy)]
struct Unit {
    of: usize,
    batch: bool,
    at: usize,
}

/// What is left to do, and what was found so far.
struct Board {
    proofs: BTreeMap<String, Proof>,
    queue: Vec<Unit>,
    /// How many checks of each planned crate are left.
    left: Vec<usize>,
    busy: usize,
    total: usize,
    tried: usize,
    wrong: Vec<String>,
}

struct Work<'a> {
    settings: &'a Run,
    used: BTreeMap<String, Vec<String>>,
    planned: Vec<Planned<'a>>,
    /// Where the crates are proved.
    base: PathBuf,
    board: Mutex<Board>,
}

/// What a worker does next.
enum Next {
    Prove(String),
    Try(Unit),
    Wait,
    Done,
}

pub fn run(settings: &Run, crates: &[Crate]) -> Result<Outcome, String> {
    let scratch = folder::scratch("meter-edits").map_err(|e| format!("temporary files: {e}"))?;
    let used = list::used_by_crate(&settings.root)?;
    let all = list::with_all_below(crates.iter().map(|c| c.name.clone()), &used);
    // Beside other work the crates of the checkout are another command's: a copy is proved.
    let base = match settings.others_end {
        None => settings.root.clone(),
        Some(_) => scratch.join("base"),
    };
    if settings.others_end.is_some() {
        folder::copy_sources(&settings.root, &base).map_err(|e| format!("a copy: {e}"))?;
    }
    let planned: Vec<Planned> = crates.iter().map(|c| plan(&settings.root, c)).collect();
    let work = Work {
        settings,
        used,
        base,
        board: Mutex::new(board(&all, &planned)),
        planned,
    };
    thread::scope(|scope| {
        for number in 0..settings.workers {
            let (work, dir) = (&work, scratch.join(number.to_string()));
            scope.spawn(move || work.go_on(number, &dir));
        }
    });
    let _ = fs::remove_dir_all(&scratch);
    let board = work.board.into_inner().map_err(|e| e.to_string())?;
    Ok(Outcome {
        tried: board.tried,
        wrong: board.wrong,
    })
}

fn plan<'a>(root: &Path, krate: &'a Crate) -> Planned<'a> {
    let parts = Parts::of(&root.join("crates").join(&krate.name), &krate.name);
    let all: Vec<&Edit> = krate.edits.iter().collect();
    let (batches, single) = batch::plan(&parts, &all);
    Planned {
        krate,
        parts,
        batches,
        single,
    }
}

fn board(all: &BTreeSet<String>, planned: &[Planned]) -> Board {
    let unit = |of, batch| move |at| Unit { of, batch, at };
    let mut queue: Vec<Unit> = Vec::new();
    for (of, p) in planned.iter().enumerate() {
        queue.extend((0..p.batches.len()).map(unit(of, true)));
        queue.extend((0..p.single.len()).map(unit(of, false)));
    }
    Board {
        proofs: all.iter().map(|n| (n.clone(), Proof::Due)).collect(),
        left: planned
            .iter()
            .map(|p| p.batches.len() + p.single.len())
            .collect(),
        queue,
        busy: 0,
        total: planned.iter().map(|p| p.krate.edits.len()).sum(),
        tried: 0,
        wrong: Vec::new(),
    }
}

impl Work<'_> {
    fn board(&self) -> MutexGuard<'_, Board> {
        self.board.lock().expect("no worker panics")
    }

    fn go_on(&self, worker: usize, dir: &Path) {
        loop {
            match self.next(worker) {
                Next::Prove(name) => self.prove(&name),
                Next::Try(unit) => self.try_unit(dir, unit),
                Next::Wait => {
                    thread::sleep(Duration::from_millis(200));
                    continue;
                }
                Next::Done => return,
            }
            self.board().busy -= 1;
        }
    }

    /// First a crate to be proved whose libraries are, then what is to be tried of one that is.
    fn next(&self, worker: usize) -> Next {
        let others = self.settings.others_end.as_ref();
        if worker >= BESIDE && !others.is_none_or(|f| f.is_file()) {
            return Next::Wait;
        }
        let mut b = self.board();
        if let Some(name) = self.due(&mut b) {
            b.busy += 1;
            b.proofs.insert(name.clone(), Proof::Begun);
            return Next::Prove(name);
        }
        let proved = |u: &Unit| b.proofs[&self.planned[u.of].krate.name] == Proof::Done;
        if let Some(at) = b.queue.iter().position(proved) {
            b.busy += 1;
            return Next::Try(b.queue.remove(at));
        }
        match b.busy {
            0 => Next::Done,
            _ => Next::Wait,
        }
    }

    /// The crate that most others wait for, of those that can be proved.
    fn due(&self, b: &mut Board) -> Option<String> {
        let is = |b: &Board, n: &String, p: Proof| b.proofs[n] == p;
        loop {
            let fails = |n: &&String| self.used[*n].iter().any(|d| is(b, d, Proof::Failed));
            let due: Vec<&String> = b.proofs.keys().filter(|n| is(b, n, Proof::Due)).collect();
            let Some(name) = due.iter().copied().find(fails).cloned() else {
                let ready = |n: &&String| self.used[*n].iter().all(|d| is(b, d, Proof::Done));
                let above = |n: &&String| b.proofs.keys().filter(|k| self.stands_on(k, n)).count();
                return due.into_iter().filter(ready).max_by_key(above).cloned();
            };
            b.proofs.insert(name, Proof::Failed);
        }
    }

    fn stands_on(&self, name: &str, below: &str) -> bool {
        list::with_all_below([name.to_string()], &self.used).contains(below)
    }

    /// Proves a crate as it is, and builds its library.
    fn prove(&self, name: &str) {
        let began = Instant::now();
        let log = self.settings.logs.join(name).join("_proof.log");
        let done = ask(&self.base, name, "lib").and_then(|(status, text)| {
            keep(&log, &text)?;
            Ok(status == Some(0))
        });
        let took = began.elapsed().as_secs_f64();
        let well = matches!(done, Ok(true));
        if took > 1.5 && well {
            println!("edits: {name} is proved ({took:.0} s)");
        }
        let state = if well { Proof::Done } else { Proof::Failed };
        self.board().proofs.insert(name.to_string(), state);
        if !well {
            let why = done.err().unwrap_or(format!("see {}", log.display()));
            self.note(format!(
                "{name} is NOT PROVED as it is ({took:.0} s): {why}"
            ));
        }
    }

    fn note(&self, line: String) {
        println!("edits: {line}");
        self.board().wrong.push(line);
    }

    fn try_unit(&self, dir: &Path, unit: Unit) {
        let p = &self.planned[unit.of];
        if let Err(e) = self.prepare(dir, &p.krate.name) {
            let copy = dir.display();
            return self.note(format!("{}: no copy in {copy}: {e}", p.krate.name));
        }
        let left = match unit.batch {
            true => self.try_batch(dir, p, &p.batches[unit.at]),
            false => vec![p.single[unit.at]],
        };
        for e in left {
            self.try_edit(dir, p.krate, e);
        }
        let last = {
            let mut b = self.board();
            b.left[unit.of] -= 1;
            b.left[unit.of] == 0
        };
        if last {
            self.as_it_is(dir, p.krate);
        }
    }

    /// A copy of the sources, with the libraries below a crate as they were proved.
    fn prepare(&self, dir: &Path, name: &str) -> std::io::Result<()> {
        let all = list::with_all_below([name.to_string()], &self.used);
        if !dir.is_dir() {
            folder::copy_sources(&self.settings.root, dir)?;
        }
        let libraries = all.iter().filter(|n| *n != name);
        libraries
            .into_iter()
            .try_for_each(|n| folder::take_library(&self.base, dir, n))
    }

    fn log(&self, c: &Crate, name: &str) -> PathBuf {
        self.settings.logs.join(&c.name).join(format!("{name}.log"))
    }

    /// The crate without an edit must be proved, in the same copy as its edits.
    fn as_it_is(&self, dir: &Path, c: &Crate) {
        let began = Instant::now();
        let verdict = self.check(dir, c, "_after");
        let took = began.elapsed().as_secs_f64();
        match verdict {
            Verdict::Proved => println!("edits: {} proved as it is ({took:.0} s)", c.name),
            Verdict::Refused(m) | Verdict::Hollow(m) | Verdict::Failed(m) => self.note(format!(
                "{} is NOT PROVED as it is ({took:.0} s): {}",
                c.name,
                short(&m)
            )),
        }
    }

    /// Tries several edits in one check; what cannot be told from it is handed back.
    fn try_batch<'a>(&self, dir: &Path, p: &Planned<'a>, b: &Batch<'a>) -> Vec<&'a Edit> {
        let began = Instant::now();
        let alone: Vec<&Edit> = b.iter().map(|t| t.edit).collect();
        let all: Vec<_> = alone.iter().flat_map(|e| e.replacements.clone()).collect();
        let c = p.krate;
        let Ok(applied) = edit::apply_together(&dir.join("crates").join(&c.name), &all) else {
            return alone;
        };
        let said = self.said(dir, c);
        if let Err(m) = applied.put_back() {
            self.note(format!("{}: the file cannot be put back: {m}", c.name));
            return Vec::new();
        }
        let Ok((status, text)) = said else {
            return alone;
        };
        let took = began.elapsed().as_secs_f64();
        let mut left = Vec::new();
        for (e, refused) in alone.iter().zip(batch::told(&p.parts, b, status, &text)) {
            match refused.filter(|_| keep(&self.log(c, &e.name), &text).is_ok()) {
                Some(m) => {
                    let others = b.len() - 1;
                    let said = format!("refused (with {others} more, {took:.0} s): {}", short(&m));
                    self.count(c, e, true, said);
                }
                None => left.push(*e),
            }
        }
        left
    }

    fn try_edit(&self, dir: &Path, c: &Crate, e: &Edit) {
        let began = Instant::now();
        let verdict = match edit::apply(&dir.join("crates").join(&c.name), &e.replacements) {
            Err(m) => Verdict::Failed(format!("the edit does not fit: {m}")),
            Ok(applied) => {
                let verdict = self.check_mended(dir, c, &e.name);
                match applied.put_back() {
                    Ok(()) => verdict,
                    Err(m) => Verdict::Failed(format!("the file cannot be put back: {m}")),
                }
            }
        };
        let took = began.elapsed().as_secs_f64();
        let (right, said) = match verdict {
            Verdict::Refused(m) => (true, format!("refused ({took:.0} s): {}", short(&m))),
            Verdict::Proved => (
                false,
                format!("NOT REFUSED ({took:.0} s): the crate is proved with this edit"),
            ),
            Verdict::Hollow(m) => (
                false,
                format!("REFUSED FOR ITS SHAPE ALONE ({took:.0} s): {}", short(&m)),
            ),
            Verdict::Failed(m) => (false, format!("NOT TRIED ({took:.0} s): {}", short(&m))),
        };
        self.count(c, e, right, said);
    }

    /// Counts an edit as tried and shows what came of it.
    fn count(&self, c: &Crate, e: &Edit, right: bool, said: String) {
        let mut b = self.board();
        b.tried += 1;
        println!(
            "edits: {} of {} {}/{} {said}",
            b.tried, b.total, c.name, e.name
        );
        if !right {
            b.wrong.push(format!("{}/{} {said}", c.name, e.name));
        }
    }

    /// Checks the crate in the worker's copy and keeps what the checker said.
    fn check(&self, dir: &Path, c: &Crate, name: &str) -> Verdict {
        match self.kept(dir, c, name) {
            Ok((status, text)) => judge(status, &text),
            Err(m) => Verdict::Failed(m),
        }
    }

    /// The same; where proofs only became unfit, with the names that stand for those that they have.
    fn check_mended(&self, dir: &Path, c: &Crate, name: &str) -> Verdict {
        let mut before: BTreeMap<PathBuf, String> = BTreeMap::new();
        let mut rounds = 0;
        let found = loop {
            let (status, text) = match self.kept(dir, c, name) {
                Ok(said) => said,
                Err(m) => break Verdict::Failed(m),
            };
            let verdict = judge(status, &text);
            let unfit = matches!(verdict, Verdict::Hollow(_)) && rounds < ROUNDS;
            let renames = if unfit {
                mend::renames(&text)
            } else {
                Vec::new()
            };
            if renames.is_empty() {
                break verdict;
            }
            rounds += 1;
            for r in renames {
                let file = dir.join("crates").join(&c.name).join(&r.file);
                let mended = fs::read_to_string(&file).and_then(|text| {
                    fs::write(&file, mend::renamed(&text, &r))?;
                    before.entry(file.clone()).or_insert(text);
                    Ok(())
                });
                if let Err(e) = mended {
                    self.note(format!("{}: {}: {e}", c.name, r.file));
                }
            }
        };
        for (file, text) in before {
            if let Err(e) = fs::write(&file, text) {
                self.note(format!("{} cannot be put back: {e}", file.display()));
            }
        }
        found
    }

    fn kept(&self, dir: &Path, c: &Crate, name: &str) -> Result<(Option<i32>, String), String> {
        let (status, text) = self.said(dir, c)?;
        keep(&self.log(c, name), &text)?;
        Ok((status, text))
    }

    /// What a check of the crate in the worker's copy says, begun with what its proof as it is left.
    fn said(&self, dir: &Path, c: &Crate) -> Result<(Option<i32>, String), String> {
        folder::renew_work(&self.base, dir, &c.name)
            .map_err(|e| format!("the work to begin with cannot be copied: {e}"))?;
        ask(dir, &c.name, "check")
    }
}

/// What `rt` says of a crate below the folder, with its exit status; names of files are those of the crate.
fn ask(top: &Path, name: &str, verb: &str) -> Result<(Option<i32>, String), String> {
    let dir = top.join("crates").join(name);
    let mut command = Command::new("rt");
    command
        .args([verb, "--jobs", "1"])
        .current_dir(&dir)
        .stdin(Stdio::null());
    let out = command
        .output()
        .map_err(|e| format!("rt cannot be run: {e}"))?;
    let said = [out.stdout, out.stderr].concat();
    Ok((
        out.status.code(),
        String::from_utf8_lossy(&said).replace(&format!("{}/", dir.display()), ""),
    ))
}

fn keep(log: &Path, text: &str) -> Result<(), String> {
    let folder = log.parent().unwrap_or(Path::new("."));
    let written = fs::create_dir_all(folder).and_then(|()| fs::write(log, text));
    written.map_err(|e| format!("cannot write {}: {e}", log.display()))
}

/// The start of a message, which can run to thousands of characters.
fn short(message: &str) -> String {
    let cut: String = message.chars().take(150).collect();
    if cut.len() < message.len() {
        format!("{cut} ...")
    } else {
        cut
    }
}

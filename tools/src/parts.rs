//! The parts of a crate, and what each rests on. A part is a definition or a lemma of specs/ or proofs/, or the contract
//! or the body of a function. It rests on what it names, and on what that rests on; a proof of a function rests on the
//! function's contract and body, and on the contracts alone of what that calls. Of what the checker finds itself it
//! tells at the function, so the body rests on all that the function's folder of proofs/ has, too, and on the lemmas
//! that its attributes name. Names that could be meant count as meant, so that it may be more than the checker reads,
//! never less.
use crate::antt::{self, Import, Named};
use crate::claims::module;
use crate::folder;
use crate::functions::{self, Function};
use std::collections::{BTreeMap, BTreeSet};
use std::fs;
use std::ops::Range;
use std::path::Path;

pub struct Part {
    pub file: String,
    pub span: Range<usize>,
    names: BTreeSet<String>,
    words: BTreeSet<String>,
}

/// The places of a function's contract and body among the parts.
#[derive(Clone, Copy, PartialEq, Eq)]
struct Places {
    contract: usize,
    body: usize,
}

pub struct Parts {
    pub all: Vec<Part>,
    pub texts: BTreeMap<String, String>,
    rests: Vec<BTreeSet<usize>>,
    bears: Vec<BTreeSet<usize>>,
    functions: BTreeMap<String, Places>,
    /// The functions of each cycle of calls that has a name.
    cycles: BTreeMap<String, Vec<Places>>,
}

/// What an import of a crate's own module leads to.
enum Target {
    File(String),
    /// The functions of the module; with their bodies where it is of more than what they promise.
    Functions(Vec<Places>, bool),
    /// What the module declares: types and constants of the code.
    Declared,
    Elsewhere,
}

impl Parts {
    pub fn of(dir: &Path, krate: &str) -> Parts {
        let mut found = Parts {
            all: Vec::new(),
            texts: texts(dir),
            rests: Vec::new(),
            bears: Vec::new(),
            functions: BTreeMap::new(),
            cycles: BTreeMap::new(),
        };
        let mut imports = BTreeMap::new();
        for (file, text) in found.texts.clone() {
            imports.insert(file.clone(), antt::imports(&text));
            if file.ends_with(".rt") {
                found.add_source(krate, &file, &text);
            } else {
                let parts = antt::parts(&text).into_iter();
                found.all.extend(parts.map(|n| part(&file, &text, n)));
            }
        }
        found.rests = (0..found.all.len())
            .map(|at| found.links(krate, at, &imports[&found.all[at].file]))
            .collect();
        found.bears = vec![BTreeSet::new(); found.all.len()];
        for (k, below) in found.rests.iter().enumerate() {
            below.iter().for_each(|j| {
                found.bears[*j].insert(k);
            });
        }
        found
    }

    fn add_source(&mut self, krate: &str, file: &str, text: &str) {
        let prefix = module(krate, Path::new(file.strip_prefix("src/").unwrap_or(file)));
        for Function { path, head, body } in functions::in_text(&prefix, text) {
            let (contract, inside) = (self.all.len(), self.all.len() + 1);
            let name = path.rsplit("::").next().unwrap_or(&path).to_string();
            let places = Places {
                contract,
                body: inside,
            };
            if let Some(cycle) = cycle_of(&text[head.clone()]) {
                let above = inner(&path)
                    .rsplit_once('/')
                    .map_or(String::new(), |(a, _)| format!("{a}/"));
                let all = self.cycles.entry(format!("{above}+{cycle}")).or_default();
                all.push(places);
            }
            self.functions.insert(inner(&path), places);
            self.all
                .push(part(file, text, (head, BTreeSet::from([name]))));
            self.all.push(part(file, text, (body, BTreeSet::new())));
        }
        let constants = functions::constants(text).into_iter();
        self.all.extend(constants.map(|n| part(file, text, n)));
    }

    /// What a part rests on at once.
    fn links(&self, krate: &str, at: usize, imports: &[Import]) -> BTreeSet<usize> {
        let p = &self.all[at];
        let mut found = BTreeSet::new();
        let source = p.file.ends_with(".rt");
        for (k, other) in self.all.iter().enumerate() {
            let near = other.file == p.file || (source && other.file.ends_with(".rt"));
            if near && k != at && other.names.iter().any(|n| p.words.contains(n)) {
                found.insert(k);
            }
        }
        for import in imports.iter().filter(|i| i.used_in(&p.words)) {
            match self.target(krate, &import.path) {
                Target::File(file) => found.extend(self.imported(&file, import, &p.words)),
                Target::Functions(all, whole) => {
                    found.extend(all.iter().map(|f| f.contract));
                    found.extend(all.iter().filter(|_| whole).map(|f| f.body));
                }
                Target::Declared => found.extend(self.named(&self.code(), import, &p.words)),
                Target::Elsewhere => {}
            }
        }
        for f in self.proved_in(&p.file) {
            found.extend([f.contract, f.body]);
        }
        if let Some(own) = self.functions.values().find(|f| f.body == at) {
            found.insert(own.contract);
            found.extend(self.proofs_of(*own));
            found.extend(self.cited(&self.all[own.contract]));
        }
        found
    }

    fn code(&self) -> Vec<usize> {
        let inside = |k: &usize| self.all[*k].file.ends_with(".rt");
        (0..self.all.len()).filter(inside).collect()
    }

    /// The parts of the files in the folder of a function's proof.
    fn proofs_of(&self, f: Places) -> Vec<usize> {
        let inside = |k: &usize| self.proved_in(&self.all[*k].file).contains(&f);
        (0..self.all.len()).filter(inside).collect()
    }

    /// The parts of the files that the attributes of a function name, as `crate::proofs::Laws::low_law`.
    fn cited(&self, contract: &Part) -> Vec<usize> {
        let text = &self.texts[&contract.file][contract.span.clone()];
        let mut found = Vec::new();
        for path in text.split("crate::").skip(1) {
            let end = path.find(|c: char| !(c.is_alphanumeric() || c == '_' || c == ':'));
            let steps: Vec<&str> = path[..end.unwrap_or(path.len())].split("::").collect();
            let file = format!("{}.antt", steps[..steps.len() - 1].join("/"));
            found.extend((0..self.all.len()).filter(|k| self.all[*k].file == file));
        }
        found
    }

    /// The parts of a file that an import leads to; all of them where it has none of the name.
    fn imported(&self, file: &str, import: &Import, words: &BTreeSet<String>) -> Vec<usize> {
        let inside = |k: &usize| self.all[*k].file == file;
        let all: Vec<usize> = (0..self.all.len()).filter(inside).collect();
        let named = self.named(&all, import, words);
        if named.is_empty() {
            all
        } else {
            named
        }
    }

    /// The parts that have a name which an import brings in, and which is used.
    fn named(&self, of: &[usize], import: &Import, words: &BTreeSet<String>) -> Vec<usize> {
        let wanted = |n: &String| match &import.names {
            Some(names) => names
                .iter()
                .any(|t| t.used_in(words) && t.there.contains(n)),
            None => words.contains(n),
        };
        let has = |k: &usize| self.all[*k].names.iter().any(wanted);
        of.iter().copied().filter(has).collect()
    }

    fn target(&self, krate: &str, path: &str) -> Target {
        for side in ["specs", "proofs"] {
            let Some(rest) = path.strip_prefix(&format!("Rattle.{krate}.{side}.")) else {
                continue;
            };
            if rest.starts_with("declared.") {
                return Target::Declared;
            }
            let steps: Vec<&str> = rest.trim_start_matches("contracts.").split('.').collect();
            let file = format!("{side}/{}.antt", steps.join("/"));
            if self.texts.contains_key(&file) {
                return Target::File(file);
            }
            for end in (1..=steps.len()).rev() {
                let found = self.functions_at(&steps[..end].join("/"));
                if !found.is_empty() {
                    let told = ["Met", "Statement", "Symbol", "Key", "signature"];
                    let whole = !steps.last().is_some_and(|s| told.contains(s));
                    return Target::Functions(found, whole);
                }
            }
        }
        Target::Elsewhere
    }

    /// The function of a path such as `a/f`, or those of a cycle, `a/+f+g`, or by its name.
    fn functions_at(&self, path: &str) -> Vec<Places> {
        if let Some(all) = self.cycles.get(path) {
            return all.clone();
        }
        let (above, last) = path.rsplit_once('/').unwrap_or(("", path));
        let names = last.split('+').filter(|n| !n.is_empty());
        let paths = names.map(|n| format!("{above}/{n}").trim_start_matches('/').to_string());
        paths
            .filter_map(|p| self.functions.get(&p).copied())
            .collect()
    }

    /// The functions whose proof a file of proofs/ has a part in.
    fn proved_in(&self, file: &str) -> Vec<Places> {
        let Some(rest) = file.strip_prefix("proofs/") else {
            return Vec::new();
        };
        let ends = rest.match_indices('/').map(|(at, _)| &rest[..at]);
        ends.flat_map(|path| self.functions_at(path)).collect()
    }

    /// Where errors are told: the parts of proofs/, and the bodies of functions.
    pub fn sites(&self) -> BTreeSet<usize> {
        let bodies = self.functions.values().map(|f| f.body);
        let proofs = (0..self.all.len()).filter(|k| self.all[*k].file.starts_with("proofs/"));
        bodies.chain(proofs).collect()
    }

    /// The body of the function that the checker calls by the path.
    pub fn body_of(&self, path: &str) -> Option<usize> {
        self.functions.get(&inner(path)).map(|f| f.body)
    }

    /// The part that has all of the bytes.
    pub fn at(&self, file: &str, span: Range<usize>) -> Option<usize> {
        let holds =
            |p: &Part| p.file == file && p.span.start <= span.start && span.end <= p.span.end;
        self.all.iter().position(holds)
    }

    /// The part on a line, counted from 1.
    pub fn on_line(&self, file: &str, line: usize) -> Option<usize> {
        let text = self.texts.get(file)?;
        let start: usize = text
            .split_inclusive('\n')
            .take(line - 1)
            .map(str::len)
            .sum();
        self.at(file, start..start)
    }

    /// The part itself, and all that it rests on.
    pub fn below(&self, part: usize) -> BTreeSet<usize> {
        closed(BTreeSet::from([part]), &self.rests)
    }

    /// The parts, and all that rest on one of them.
    pub fn above(&self, parts: &BTreeSet<usize>) -> BTreeSet<usize> {
        closed(parts.clone(), &self.bears)
    }
}

fn closed(from: BTreeSet<usize>, next: &[BTreeSet<usize>]) -> BTreeSet<usize> {
    let mut queue: Vec<usize> = from.iter().copied().collect();
    let mut found = from;
    while let Some(k) = queue.pop() {
        for j in &next[k] {
            if found.insert(*j) {
                queue.push(*j);
            }
        }
    }
    found
}

/// The name of the cycle that the attribute `#[cycle(name)]` gives.
fn cycle_of(head: &str) -> Option<&str> {
    head.split_once("#[cycle(")?.1.split(')').next()
}

/// `a/f` of `crate::a::f`.
fn inner(path: &str) -> String {
    let rest = path.split_once("::").map_or(path, |(_, rest)| rest);
    rest.replace("::", "/")
}

fn part(file: &str, text: &str, (span, names): Named) -> Part {
    Part {
        file: file.into(),
        words: antt::words(&text[span.clone()]),
        span,
        names,
    }
}

/// The texts of the crate, by their names below it.
fn texts(dir: &Path) -> BTreeMap<String, String> {
    let mut found = BTreeMap::new();
    for side in ["src", "specs", "proofs"] {
        for path in folder::files_below(&dir.join(side)).unwrap_or_default() {
            let name = path.strip_prefix(dir).unwrap_or(&path);
            if let Ok(text) = fs::read_to_string(&path) {
                found.insert(name.to_string_lossy().into_owned(), text);
            }
        }
    }
    found
}

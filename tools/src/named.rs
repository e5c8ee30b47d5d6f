//! What a rule can name beside definitions: public functions, wrong programs, and what runs it.
use crate::claims::module;
use crate::folder;
use crate::functions::implemented;
use crate::wrong_programs::names_in;
use std::collections::BTreeSet;
use std::fs;
use std::path::Path;

/// The names of the tree, by their kind.
#[derive(Debug, Default, Clone)]
pub struct Names {
    /// `CRATE::module::function`, and `CRATE::Type::method`.
    pub functions: BTreeSet<String>,
    /// `CRATE/edit`.
    pub edits: BTreeSet<String>,
    /// The stored trip files, `FILE::test` of the reference, events of the comparison, planted wrong rules, published
    /// examples, and numbers of figures.
    pub trips: BTreeSet<String>,
    pub tests: BTreeSet<String>,
    pub events: BTreeSet<String>,
    pub planted: BTreeSet<String>,
    pub examples: BTreeSet<String>,
    pub figures: BTreeSet<String>,
}

impl Names {
    /// The names of a kind, as a rule calls it.
    pub fn of(&self, kind: &str) -> Option<&BTreeSet<String>> {
        match kind {
            "trip" => Some(&self.trips),
            "test" => Some(&self.tests),
            "event" => Some(&self.events),
            "planted" => Some(&self.planted),
            "example" => Some(&self.examples),
            "figure" => Some(&self.figures),
            _ => None,
        }
    }
}

pub fn names(root: &Path) -> Result<Names, String> {
    let read = |name: &str| fs::read_to_string(root.join(name)).map_err(|e| format!("{name}: {e}"));
    let mut found = Names::default();
    for dir in folder::entries(&root.join("crates")).map_err(|e| format!("crates/: {e}"))? {
        let krate = folder::name_of(&dir);
        for path in folder::files_below(&dir.join("src")).unwrap_or_default() {
            let file = path
                .strip_prefix(dir.join("src"))
                .unwrap_or(&path)
                .to_owned();
            let text = fs::read_to_string(&path).map_err(|e| format!("{}: {e}", path.display()))?;
            found.functions.extend(functions(&krate, &file, &text));
        }
        for part in ["edits", "must-fail"] {
            let names = names_in(&dir.join(part)).into_iter();
            found.edits.extend(names.map(|n| format!("{krate}/{n}")));
        }
    }
    found.trips = cases(&read("crates/test_trips/CASES.md")?);
    found.examples = examples(&read("crates/test_published/stdout")?);
    found.figures = figures(&read("crates/marked_figures/specs/Figures.antt")?);
    found.planted = planted(&read("reference/src/planted.rs")?);
    for path in folder::files_below(&root.join("reference/tests")).unwrap_or_default() {
        let file = folder::name_of(&path.with_extension(""));
        let text = fs::read_to_string(&path).unwrap_or_default();
        let names = tests(&text).into_iter().map(|n| format!("{file}::{n}"));
        found.tests.extend(names);
    }
    for path in folder::files_below(&root.join("reference/src/coverage")).unwrap_or_default() {
        let text = fs::read_to_string(&path).unwrap_or_default();
        found.events.extend(quoted(&text));
    }
    Ok(found)
}

/// The public functions of a file, by the path of their module, and the methods by that of their type; a trait's are all
/// public.
fn functions(krate: &str, file: &Path, text: &str) -> Vec<String> {
    let prefix = module(krate, file);
    let (mut found, mut owner, mut of_trait) = (Vec::new(), String::new(), false);
    for line in text.lines() {
        if let Some((name, of)) = implemented(line) {
            owner = format!("{krate}::{name}");
            of_trait = of.is_some();
        } else if line == "}" {
            of_trait = false;
        }
        let code = line.trim_start();
        let open = code.starts_with("pub ") || of_trait && code.starts_with("fn ");
        let Some((_, rest)) = code.split_once("fn ").filter(|_| open) else {
            continue;
        };
        let name = rest.split(['(', '<']).next().unwrap_or("");
        let path = if line.starts_with(' ') {
            &owner
        } else {
            &prefix
        };
        found.push(format!("{path}::{name}"));
    }
    found
}

/// The names of the stored files: the second cell of each row of a table.
fn cases(text: &str) -> BTreeSet<String> {
    let rows = text.lines().filter(|l| l.starts_with("| "));
    let cells = rows.filter_map(|row| row.split('|').nth(2));
    let names = cells.map(|cell| cell.trim());
    let names = names.filter_map(|name| name.strip_prefix('`')?.strip_suffix('`'));
    names.map(str::to_string).collect()
}

/// The numbers of examples, as `E9`, with which lines begin.
fn examples(text: &str) -> BTreeSet<String> {
    let first = text.lines().filter_map(|l| l.split_whitespace().next());
    let number = |w: &&str| {
        w.strip_prefix('E')
            .is_some_and(|n| !n.is_empty() && n.chars().all(|c| c.is_ascii_digit()))
    };
    first.filter(number).map(str::to_string).collect()
}

/// The numbers of the figures, from 1: each line of the table that is no comment is one.
fn figures(text: &str) -> BTreeSet<String> {
    let lines = text.lines().skip_while(|l| *l != "figures =").skip(1);
    let table = lines.take_while(|l| l.trim() != "∷ []");
    let count = table
        .filter(|l| !l.trim_start().starts_with("--"))
        .filter(|l| !l.trim().is_empty())
        .count();
    (1..=count).map(|n| n.to_string()).collect()
}

/// The variants of the enum of planted wrong rules.
fn planted(text: &str) -> BTreeSet<String> {
    let lines = text.lines().skip_while(|l| !l.starts_with("pub enum "));
    let body = lines.skip(1).take_while(|l| *l != "}");
    let code = body.map(str::trim).filter(|l| !l.starts_with("//"));
    let names = code.filter_map(|l| l.split([',', ' ']).next());
    names
        .filter(|n| !n.is_empty())
        .map(str::to_string)
        .collect()
}

/// The functions under `#[test]`.
fn tests(text: &str) -> Vec<String> {
    let mut found = Vec::new();
    for part in text.split("#[test]").skip(1) {
        let name = part.split_once("fn ").and_then(|(_, r)| r.split_once('('));
        found.extend(name.map(|(name, _)| name.trim().to_string()));
    }
    found
}

/// The texts between quotation marks, line by line.
fn quoted(text: &str) -> Vec<String> {
    let mut found = Vec::new();
    for line in text.lines().filter(|l| !l.trim_start().starts_with("//")) {
        let parts = line.split('"').skip(1).step_by(2);
        found.extend(parts.map(str::to_string));
    }
    found
}

//! Holds docs/EDITS.md to the tree: each edit is named in a row of its tables, each name there is an edit, each promise
//! has two or more, in one row or in several, and the counts are right. Each edit fits the text that it changes.
use crate::claims::{cells, Outcome};
use crate::folder;
use crate::list;
use std::collections::{BTreeMap, BTreeSet};
use std::fs;
use std::path::Path;

/// The edits of the tree by their folder.
#[derive(Debug, Default, Clone, PartialEq, Eq)]
pub struct Tree {
    pub must_fail: Vec<String>,
    pub edits: Vec<String>,
}

pub fn check(root: &Path) -> Result<Outcome, String> {
    let text = fs::read_to_string(root.join("docs/EDITS.md"))
        .map_err(|e| format!("docs/EDITS.md: {e}"))?;
    let tree = tree(root)?;
    let mut wrong = faults(&text, &tree);
    for dir in folder::entries(&root.join("crates")).map_err(|e| format!("crates/: {e}"))? {
        wrong.extend(
            ["edits", "must-fail"]
                .map(|part| unfit(&dir, part))
                .concat(),
        );
    }
    Ok(Outcome {
        listed: tree.must_fail.len() + tree.edits.len(),
        wrong,
    })
}

/// What is wrong with the edits in a folder of a crate. In must-fail/, which `rt` reads, no line names what stands
/// before the text that is meant.
fn unfit(dir: &Path, part: &str) -> Vec<String> {
    let mut wrong = Vec::new();
    for path in folder::entries(&dir.join(part)).unwrap_or_default() {
        let place = format!(
            "crates/{}/{part}/{}",
            folder::name_of(dir),
            folder::name_of(&path)
        );
        match list::edit_at(dir, &path) {
            Err(e) => wrong.push(format!("{place}: {e}")),
            Ok(e) if part == "must-fail" && e.replacements.iter().any(|r| r.after.is_some()) => {
                wrong.push(format!("{place}: has a line `after:`"))
            }
            Ok(_) => {}
        }
    }
    wrong
}

fn tree(root: &Path) -> Result<Tree, String> {
    let mut found = Tree::default();
    for dir in folder::entries(&root.join("crates")).map_err(|e| format!("crates/: {e}"))? {
        found.must_fail.extend(names_in(&dir.join("must-fail")));
        found.edits.extend(names_in(&dir.join("edits")));
    }
    Ok(found)
}

/// The names of the edits in a folder; none where there is no such folder.
pub fn names_in(dir: &Path) -> Vec<String> {
    let files = folder::entries(dir).unwrap_or_default();
    let names = files.iter().map(|path| folder::name_of(path));
    names
        .filter_map(|name| name.strip_suffix(".edit").map(str::to_string))
        .collect()
}

/// What is wrong with the document, of these edits.
pub fn faults(text: &str, tree: &Tree) -> Vec<String> {
    let known: BTreeSet<&String> = tree.must_fail.iter().chain(&tree.edits).collect();
    let (mut named, mut wrong) = (BTreeSet::new(), Vec::new());
    // Where each promise stands first, and how many wrong programs it has.
    let mut counts: BTreeMap<&str, (usize, usize)> = BTreeMap::new();
    for (i, row) in text
        .lines()
        .enumerate()
        .filter(|(_, l)| l.starts_with("| "))
    {
        let Some((promise, names)) = row_names(row) else {
            continue;
        };
        counts.entry(promise).or_insert((i + 1, 0)).1 += names.len();
        for (name, gate) in names {
            if !known.contains(&name) {
                wrong.push(format!("line {}: there is no edit {name}", i + 1));
            } else if gate && !tree.must_fail.contains(&name) {
                wrong.push(format!(
                    "line {}: {name} stands in no folder must-fail/",
                    i + 1
                ));
            }
            named.insert(name);
        }
    }
    for (promise, (line, _)) in counts.iter().filter(|(_, (_, names))| *names < 2) {
        wrong.push(format!(
            "line {line}: {promise} has fewer than two wrong programs"
        ));
    }
    let unnamed = known.iter().filter(|name| !named.contains(**name));
    wrong.extend(unnamed.map(|name| format!("no row names the edit {name}")));
    let (m, e) = (tree.must_fail.len(), tree.edits.len());
    if !text
        .split_whitespace()
        .collect::<Vec<_>>()
        .join(" ")
        .contains(&format!("{m} + {e} = {}", m + e))
    {
        wrong.push(format!("the counts are not {m} + {e} = {}", m + e));
    }
    wrong
        .iter()
        .map(|line| format!("docs/EDITS.md: {line}"))
        .collect()
}

/// The promise of a row and its edits, each with whether it is marked as one that `rt ci` tries; none for a table's head.
fn row_names(row: &str) -> Option<(&str, Vec<(String, bool)>)> {
    let cells = cells(row)?;
    let [promise, edits] = cells[..] else {
        return None;
    };
    let parts: Vec<&str> = edits.split('`').collect();
    if parts.len() < 3 {
        return None;
    }
    let marked = |i: usize| {
        parts
            .get(i + 1)
            .is_some_and(|after| after.starts_with(" (m)"))
    };
    let names = (1..parts.len())
        .step_by(2)
        .map(|i| (parts[i].to_string(), marked(i)));
    let edit = |name: &str| {
        name.chars()
            .all(|c| c.is_ascii_lowercase() || c.is_ascii_digit() || c == '_')
    };
    Some((
        promise,
        names
            .filter(|(name, _)| name.contains('_') && edit(name))
            .collect(),
    ))
}

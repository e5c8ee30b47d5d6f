//! The edits of the tree, by crate.
use crate::edit::{self, Replacement};
use crate::folder;
use std::collections::{BTreeMap, BTreeSet};
use std::fs;
use std::path::Path;

#[derive(Debug)]
pub struct Edit {
    pub name: String,
    pub replacements: Vec<Replacement>,
}

#[derive(Debug)]
pub struct Crate {
    pub name: String,
    pub edits: Vec<Edit>,
    /// An estimate of the time that its edits take, to deal the longest first.
    pub weight: u64,
}

/// The crates with a folder `edits/`, longest first; with `wanted`, only the crates and edits (`CRATE/NAME`) named there.
pub fn crates(root: &Path, wanted: &[String]) -> Result<Vec<Crate>, String> {
    let dirs = folder::entries(&root.join("crates")).map_err(|e| format!("crates/: {e}"))?;
    let (mut found, mut wrong) = (Vec::new(), Vec::new());
    let used = used_by_crate(root)?;
    for dir in dirs.iter().filter(|d| d.join("edits").is_dir()) {
        let name = folder::name_of(dir);
        let below = used.get(&name).map_or(&[][..], |names| names);
        let below = below.iter().map(|n| size(&root.join("crates").join(n)));
        let (krate, faults) = crate_at(dir, name, below.sum())?;
        wrong.extend(
            faults
                .into_iter()
                .filter(|_| is_wanted(&krate.name, wanted)),
        );
        found.push(krate);
    }
    if !wrong.is_empty() {
        return Err(wrong.join("\nedits: "));
    }
    for word in wanted {
        let (krate, edit) = word
            .split_once('/')
            .map_or((word.as_str(), None), |(c, e)| (c, Some(e)));
        let edits = found.iter().find(|c| c.name == krate).map(|c| &c.edits);
        if !edits.is_some_and(|all| edit.is_none_or(|name| all.iter().any(|e| e.name == name))) {
            return Err(format!(
                "there is no edit crates/{krate}/edits/{}",
                edit.unwrap_or("")
            ));
        }
    }
    if !wanted.is_empty() {
        for c in &mut found {
            let whole = wanted.contains(&c.name);
            c.edits
                .retain(|e| whole || wanted.contains(&format!("{}/{}", c.name, e.name)));
        }
    }
    found.retain(|c| !c.edits.is_empty());
    found.sort_by_key(|c| std::cmp::Reverse(c.weight));
    Ok(found)
}

/// Is the crate, or an edit of it, wanted?
fn is_wanted(krate: &str, wanted: &[String]) -> bool {
    let of = |word: &String| word.split('/').next() == Some(krate);
    wanted.is_empty() || wanted.iter().any(of)
}

/// The crates of the repository that each of its crates uses, from crates.txt.
pub fn used_by_crate(root: &Path) -> Result<BTreeMap<String, Vec<String>>, String> {
    let text =
        fs::read_to_string(root.join("crates.txt")).map_err(|e| format!("crates.txt: {e}"))?;
    let lines = text.lines().map(|l| l.split('#').next().unwrap_or(""));
    let entries = lines.filter_map(|l| l.split_once(':'));
    let words = |used: &str| used.split_whitespace().map(str::to_string).collect();
    let name = |head: &str| head.split_whitespace().next().unwrap_or("").to_string();
    let mut found: BTreeMap<String, Vec<String>> = entries
        .map(|(head, used)| (name(head), words(used)))
        .collect();
    let own: Vec<String> = found.keys().cloned().collect();
    found
        .values_mut()
        .for_each(|used| used.retain(|n| own.contains(n)));
    Ok(found)
}

/// The crates of these names and all that they use, at once or through others.
pub fn with_all_below(
    names: impl IntoIterator<Item = String>,
    used: &BTreeMap<String, Vec<String>>,
) -> BTreeSet<String> {
    let mut queue: Vec<String> = names.into_iter().collect();
    let mut found = BTreeSet::new();
    while let Some(name) = queue.pop() {
        if found.insert(name.clone()) {
            queue.extend(used.get(&name).into_iter().flatten().cloned());
        }
    }
    found
}

/// The bytes of a crate's files that are checked.
fn size(dir: &Path) -> u64 {
    let parts = folder::PARTS.iter();
    parts.map(|part| folder::size(&dir.join(part))).sum()
}

/// A crate with its edits, and a line for each that is none or does not fit.
fn crate_at(dir: &Path, name: String, below: u64) -> Result<(Crate, Vec<String>), String> {
    let (mut edits, mut wrong) = (Vec::new(), Vec::new());
    for path in
        folder::entries(&dir.join("edits")).map_err(|e| format!("crates/{name}/edits: {e}"))?
    {
        match edit_at(dir, &path) {
            Ok(edit) => edits.push(edit),
            Err(e) => wrong.push(format!("{name}/{}: {e}", folder::name_of(&path))),
        }
    }
    // A check reads what the crate uses, and checks some of its own.
    let weight = edits.len() as u64 * (size(dir) + below / 2);
    Ok((
        Crate {
            name,
            edits,
            weight,
        },
        wrong,
    ))
}

/// The edit of a file, which has to fit the crate in the folder.
pub fn edit_at(dir: &Path, path: &Path) -> Result<Edit, String> {
    let file = folder::name_of(path);
    let label = file.strip_suffix(".edit").ok_or("is no .edit file")?;
    let text = fs::read_to_string(path).map_err(|e| e.to_string())?;
    let replacements = edit::parse(&text)?;
    edit::texts(dir, &replacements).map_err(|e| format!("does not fit: {e}"))?;
    Ok(Edit {
        name: label.to_string(),
        replacements,
    })
}

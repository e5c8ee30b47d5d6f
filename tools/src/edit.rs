//! An edit file: which text of which file of a crate is replaced by what. Its lines:
//!
//! ```text
//! file: src/lib.rt      holds for what follows, until the next one
//! after: pub fn next    optional: stands in the file once; the old text is then the first one after it
//! old: a <= b           stands in the file exactly once, unless an `after:` line says which one is meant
//! new: a < b
//! ```
//!
//! Several `old:` and `new:` pairs are applied one after the other. Other lines are comments.
use std::collections::BTreeMap;
use std::fs;
use std::path::{Path, PathBuf};

#[derive(Debug, Clone, PartialEq, Eq)]
pub struct Replacement {
    pub file: String,
    pub after: Option<String>,
    pub old: String,
    pub new: String,
}

/// The replacements of an edit file's text, or what is wrong with it.
pub fn parse(text: &str) -> Result<Vec<Replacement>, String> {
    let mut file = String::new();
    let (mut after, mut old) = (None, None);
    let mut found = Vec::new();
    for line in text.lines() {
        if let Some(name) = line.strip_prefix("file: ") {
            file = checked_name(name)?;
        } else if let Some(text) = line.strip_prefix("after: ") {
            after = Some(text.to_string());
        } else if let Some(text) = line.strip_prefix("old: ") {
            old = Some(text.to_string());
        } else if let Some(text) = line.strip_prefix("new:") {
            let old = old.take().ok_or("a 'new:' line without an 'old:' line")?;
            if file.is_empty() {
                return Err("no 'file:' line before a replacement".into());
            }
            let new = text.strip_prefix(' ').unwrap_or(text).to_string();
            found.push(Replacement {
                file: file.clone(),
                after: after.take(),
                old,
                new,
            });
        }
    }
    if old.is_some() {
        return Err("an 'old:' line without a 'new:' line".into());
    }
    if found.is_empty() {
        return Err("it has no 'old:' and 'new:' pair".into());
    }
    Ok(found)
}

fn checked_name(name: &str) -> Result<String, String> {
    let inside = name.starts_with("src/") || name.starts_with("specs/");
    if !inside || name.split('/').any(|part| part == "..") {
        return Err(format!("'{name}' is no file under src/ or specs/"));
    }
    Ok(name.to_string())
}

/// Where the old text is.
pub fn position(text: &str, r: &Replacement) -> Result<usize, String> {
    let Some(mark) = &r.after else {
        return once(text, &r.old, "'old:' text");
    };
    let from = once(text, mark, "'after:' text")? + mark.len();
    let place = text[from..].find(&r.old);
    place
        .map(|at| from + at)
        .ok_or(format!("the 'old:' text is not there after: {mark}"))
}

/// The text with the replacement made in it.
pub fn replace(text: &str, r: &Replacement) -> Result<String, String> {
    let at = position(text, r)?;
    if r.old == r.new {
        return Err("the new text is the old one".into());
    }
    Ok(format!(
        "{}{}{}",
        &text[..at],
        r.new,
        &text[at + r.old.len()..]
    ))
}

fn once(text: &str, part: &str, name: &str) -> Result<usize, String> {
    let mut places = text.match_indices(part);
    let first = places
        .next()
        .ok_or(format!("the {name} is not there: {part}"))?;
    if places.next().is_some() {
        return Err(format!("the {name} is there more than once: {part}"));
    }
    Ok(first.0)
}

/// The files of a crate as an edit found them, to be put back.
pub struct Applied {
    before: BTreeMap<PathBuf, String>,
}

/// The files that the edit changes, before and after it, or why it cannot be made.
pub fn texts(dir: &Path, edit: &[Replacement]) -> Result<[BTreeMap<PathBuf, String>; 2], String> {
    let mut before = BTreeMap::new();
    let mut after: BTreeMap<PathBuf, String> = BTreeMap::new();
    for r in edit {
        let path = dir.join(&r.file);
        if !after.contains_key(&path) {
            let text = fs::read_to_string(&path).map_err(|e| format!("{}: {e}", r.file))?;
            before.insert(path.clone(), text.clone());
            after.insert(path.clone(), text);
        }
        let edited = replace(&after[&path], r).map_err(|e| format!("{}: {e}", r.file))?;
        after.insert(path, edited);
    }
    Ok([before, after])
}

/// Makes the replacements in the crate's folder. Where one cannot be made, all is as before.
pub fn apply(dir: &Path, edit: &[Replacement]) -> Result<Applied, String> {
    let [before, after] = texts(dir, edit)?;
    for (path, text) in &after {
        fs::write(path, text).map_err(|e| format!("{}: {e}", path.display()))?;
    }
    Ok(Applied { before })
}

/// Makes the replacements of several edits of different places, each found in the text as it was.
pub fn apply_together(dir: &Path, all: &[Replacement]) -> Result<Applied, String> {
    let mut before: BTreeMap<PathBuf, String> = BTreeMap::new();
    let mut places = Vec::new();
    for r in all {
        let path = dir.join(&r.file);
        if !before.contains_key(&path) {
            let text = fs::read_to_string(&path).map_err(|e| format!("{}: {e}", r.file))?;
            before.insert(path.clone(), text);
        }
        places.push((path.clone(), position(&before[&path], r)?, r));
    }
    places.sort_by_key(|(_, at, _)| std::cmp::Reverse(*at));
    let mut after = before.clone();
    for (path, at, r) in places {
        if let Some(text) = after.get_mut(&path) {
            text.replace_range(at..at + r.old.len(), &r.new);
        }
    }
    for (path, text) in &after {
        fs::write(path, text).map_err(|e| format!("{}: {e}", path.display()))?;
    }
    Ok(Applied { before })
}

impl Applied {
    pub fn put_back(self) -> Result<(), String> {
        for (path, text) in &self.before {
            fs::write(path, text).map_err(|e| format!("{}: {e}", path.display()))?;
        }
        Ok(())
    }
}

#[cfg(test)]
mod tests {
    use super::*;

    fn one(text: &str) -> Replacement {
        parse(text).unwrap().remove(0)
    }

    #[test]
    fn a_file_line_holds_for_several_pairs() {
        let all = parse("file: src/lib.rt\nold: a\nnew: b\nold: c\nnew:\n").unwrap();
        assert_eq!(all.len(), 2);
        assert_eq!(
            (all[1].file.as_str(), all[1].new.as_str()),
            ("src/lib.rt", "")
        );
    }

    #[test]
    fn spaces_of_the_texts_are_kept() {
        let r = one("file: src/lib.rt\nold:     at + 8\nnew:     at + 4\n");
        assert_eq!(
            (r.old.as_str(), r.new.as_str()),
            ("    at + 8", "    at + 4")
        );
    }

    #[test]
    fn wrong_files_are_told() {
        for text in [
            "",
            "old: a\nnew: b\n",
            "file: src/lib.rt\nnew: b\n",
            "file: src/lib.rt\nold: a\n",
            "file: ../x\nold: a\nnew: b\n",
            "file: src/../../x\nold: a\nnew: b\n",
            "file: proofs/Held.antt\nold: a\nnew: b\n",
        ] {
            assert!(parse(text).is_err(), "{text}");
        }
    }

    #[test]
    fn the_old_text_stands_once() {
        let r = one("file: src/lib.rt\nold: x\nnew: y\n");
        assert_eq!(replace("a x b", &r).unwrap(), "a y b");
        assert!(replace("a b", &r).unwrap_err().contains("not there"));
        assert!(replace("x x", &r).unwrap_err().contains("more than once"));
    }

    #[test]
    fn a_text_after_another_one() {
        let r = one("file: src/lib.rt\nafter: fn two\nold: x\nnew: y\n");
        assert_eq!(
            replace("fn one x fn two x x", &r).unwrap(),
            "fn one x fn two y x"
        );
        assert!(replace("fn two x fn two x", &r).is_err());
        assert!(replace("x fn two", &r).is_err());
    }

    #[test]
    fn an_edit_that_changes_nothing_is_told() {
        let r = one("file: src/lib.rt\nold: x\nnew: x\n");
        assert!(replace("x", &r).is_err());
    }
}

//! The definitions of specs/, each with the ids of rules that its comment names.
use crate::folder;
use std::fs;
use std::path::Path;

/// A definition; `file` is `CRATE/FILE`.
#[derive(Debug, Default, Clone, PartialEq, Eq)]
pub struct Definition {
    pub file: String,
    pub line: usize,
    pub name: String,
    /// The rules that the comment above it, or one within it, names.
    pub ids: Vec<String>,
    /// Whether the comment has the word "aid".
    pub aid: bool,
    /// The laws that the comment names: what stands between backticks and begins with a capital letter.
    pub laws: Vec<String>,
}

/// The definitions of all crates, and the files that do not begin with a comment.
pub fn all(root: &Path) -> Result<(Vec<Definition>, Vec<String>), String> {
    let (mut found, mut bare) = (Vec::new(), Vec::new());
    for dir in folder::entries(&root.join("crates")).map_err(|e| format!("crates/: {e}"))? {
        let specs = dir.join("specs");
        for path in folder::files_below(&specs).unwrap_or_default() {
            let text = fs::read_to_string(&path).map_err(|e| format!("{}: {e}", path.display()))?;
            let inner = path
                .strip_prefix(&specs)
                .unwrap_or(&path)
                .with_extension("");
            let file = format!("{}/{}", folder::name_of(&dir), inner.display());
            if !text.starts_with("-- ") {
                bare.push(file.clone());
            }
            found.extend(in_text(&file, &text));
        }
    }
    Ok((found, bare))
}

/// The definitions in the text of one file. A comment at the margin is of the definition right below it, one further in
/// is of the definition that it stands in; those of a `mutual` block share theirs.
pub fn in_text(file: &str, text: &str) -> Vec<Definition> {
    let mut found: Vec<Definition> = Vec::new();
    // The comment above, and where the definitions that it is of begin among those found.
    let (mut above, mut first, mut shared) = (String::new(), 0, None);
    for (i, line) in text.lines().enumerate() {
        if let Some(comment) = line.strip_prefix("--") {
            above.push_str(comment);
            continue;
        }
        let within = line.trim_start().strip_prefix("--");
        if let Some(comment) = within {
            for d in &mut found[first..] {
                name_rules(d, comment);
            }
            continue;
        }
        if line.starts_with("unfoldable mutual") {
            shared = Some(std::mem::take(&mut above));
            first = found.len();
        } else if let Some(name) = name_at(line, shared.is_some()) {
            let inside = shared.is_some() && line.starts_with(' ');
            if !inside {
                (shared, first) = (None, found.len());
            }
            let comment = shared.clone().unwrap_or(std::mem::take(&mut above));
            let mut d = Definition {
                file: file.to_string(),
                line: i + 1,
                name: name.to_string(),
                ..Definition::default()
            };
            name_rules(&mut d, &comment);
            found.push(d);
        }
        if !line.starts_with("infix") {
            above.clear();
        }
    }
    found
}

/// The name that a line begins to define; in a `mutual` block the lines of definitions stand two places in.
fn name_at(line: &str, mutual: bool) -> Option<&str> {
    let mut words = line.split_whitespace().peekable();
    if line.starts_with(' ') {
        let head = mutual && line.starts_with("  pub ");
        return words.nth(1).filter(|_| head);
    }
    let word = words.next()?;
    match word {
        "abbrev" | "unfoldable" => {}
        "pub" if words.peek() == Some(&"record") => {}
        "record" => return words.next(),
        _ => return None,
    }
    words.find(|w| *w != "pub" && *w != "record")
}

fn name_rules(d: &mut Definition, comment: &str) {
    d.ids.extend(ids_in(comment));
    d.aid |= words_of(comment).any(|w| w == "aid");
    let law = |name: &&str| {
        name.starts_with(|c: char| c.is_ascii_uppercase())
            && name.contains(|c: char| c.is_ascii_lowercase())
    };
    let quoted = comment.split('`').skip(1).step_by(2).filter(law);
    d.laws.extend(quoted.map(str::to_string));
}

/// The ids in a text: a word of letters, a hyphen, a number.
pub fn ids_in(text: &str) -> Vec<String> {
    words_of(text)
        .filter(|w| is_id(w))
        .map(str::to_string)
        .collect()
}

fn words_of(text: &str) -> impl Iterator<Item = &str> {
    text.split(|c: char| !(c.is_ascii_alphanumeric() || c == '-' || c == '_' || c == '`'))
}

pub fn is_id(word: &str) -> bool {
    word.split_once('-').is_some_and(|(name, number)| {
        !name.is_empty()
            && !number.is_empty()
            && name.chars().all(|c| c.is_ascii_lowercase())
            && number.chars().all(|c| c.is_ascii_digit())
    })
}

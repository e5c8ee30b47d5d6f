//! Holds docs/CLAIMS.md to the tree. A claim is the promise of a public function without arguments, result and body; the
//! list has one row for each, `| sentence | `CRATE/specs/FILE`: `Definition` | `CRATE::function` |`, and the text of each
//! definition, in a block under the name of its file.
use crate::folder;
use crate::statements;
use std::fs;
use std::path::Path;

/// A row of the list.
#[derive(Debug, Clone, PartialEq, Eq)]
pub struct Row {
    pub line: usize,
    pub krate: String,
    pub file: String,
    pub definition: String,
    pub function: String,
}

/// A claim function of the tree; `promise` is all that stands between its arguments and its body, with single spaces.
#[derive(Debug, Clone, PartialEq, Eq)]
pub struct Claim {
    pub path: String,
    pub promise: String,
    /// What the `ghost use` lines of its file bring in: module and name.
    pub uses: Vec<(String, String)>,
}

/// How many rows there are, and a line for each thing that is wrong.
pub struct Outcome {
    pub listed: usize,
    pub wrong: Vec<String>,
}

pub fn check(root: &Path) -> Result<Outcome, String> {
    let read = |name: &str| fs::read_to_string(root.join(name)).map_err(|e| format!("{name}: {e}"));
    let claims = claims_below(&root.join("crates"))?;
    let list = read("docs/CLAIMS.md")?;
    let (rows, mut wrong) = rows(&list);
    for row in &rows {
        wrong.extend(row_faults(root, row, &claims));
    }
    wrong.extend(statements::faults(root, &list, &rows));
    for claim in &claims {
        let times = rows.iter().filter(|r| r.function == claim.path).count();
        if times != 1 {
            let text = format!(
                "{} is a claim and stands in docs/CLAIMS.md {times} times, not once",
                claim.path
            );
            wrong.push(text);
        }
    }
    if !read("README.md")?.contains("(docs/CLAIMS.md)") {
        wrong.push("README.md does not link docs/CLAIMS.md".into());
    }
    Ok(Outcome {
        listed: rows.len(),
        wrong,
    })
}

/// The rows of the list's tables, and what is wrong with those that are none.
pub fn rows(text: &str) -> (Vec<Row>, Vec<String>) {
    let lines: Vec<&str> = text.lines().collect();
    let (mut found, mut wrong) = (Vec::new(), Vec::new());
    for (i, line) in lines.iter().enumerate() {
        let heads = lines.get(i + 1).is_some_and(|next| is_rule(next));
        if !line.starts_with('|') || is_rule(line) || heads {
            continue;
        }
        match row(i + 1, line) {
            Some(r) => found.push(r),
            None => wrong.push(format!(
                "docs/CLAIMS.md line {}: not a row `| sentence | `CRATE/specs/FILE`: `Definition` | `CRATE::function` |`",
                i + 1
            )),
        }
    }
    if found.is_empty() {
        wrong.push("docs/CLAIMS.md lists no claim".into());
    }
    (found, wrong)
}

/// The line between a table's head and its rows.
pub fn is_rule(line: &str) -> bool {
    line.starts_with('|') && line.contains('-') && line.chars().all(|c| "|-: ".contains(c))
}

/// The cells of a table's row.
pub fn cells(row: &str) -> Option<Vec<&str>> {
    let inner = row.trim().strip_prefix('|')?.strip_suffix('|')?;
    Some(inner.split('|').map(str::trim).collect())
}

fn row(line: usize, text: &str) -> Option<Row> {
    let cells = cells(text)?;
    let [sentence, place, function] = cells[..] else {
        return None;
    };
    let (file, definition) = place.split_once(':')?;
    let (krate, file) = quoted(file)?.split_once("/specs/")?;
    let file = file.strip_suffix(".antt").unwrap_or(file);
    if sentence.is_empty() || krate.is_empty() || file.is_empty() {
        return None;
    }
    Some(Row {
        line,
        krate: krate.to_string(),
        file: file.to_string(),
        definition: quoted(definition)?.to_string(),
        function: quoted(function)?.to_string(),
    })
}

/// What stands between two backticks.
fn quoted(text: &str) -> Option<&str> {
    let inner = text.trim().strip_prefix('`')?.strip_suffix('`')?;
    (!inner.is_empty() && !inner.contains('`')).then_some(inner)
}

fn row_faults(root: &Path, row: &Row, claims: &[Claim]) -> Vec<String> {
    let mut wrong = Vec::new();
    let mut fault = |text: String| wrong.push(format!("docs/CLAIMS.md line {}: {text}", row.line));
    let name = format!("crates/{}/specs/{}.antt", row.krate, row.file);
    match fs::read_to_string(root.join(&name)) {
        Err(e) => fault(format!("{name}: {e}")),
        Ok(text) if !defines(&text, &row.definition) => {
            fault(format!("{name} has no `pub {}`", row.definition))
        }
        Ok(_) => {}
    }
    let Some(claim) = claims.iter().find(|c| c.path == row.function) else {
        fault(format!(
            "there is no claim function {} (public, no arguments, no result, an empty body)",
            row.function
        ));
        return wrong;
    };
    let due = format!("ensures {{ {} }}", row.definition);
    if claim.promise != due {
        fault(format!(
            "{} promises `{}`, not `{due}`",
            row.function, claim.promise
        ));
    }
    let module = format!("Rattle.{}.specs.{}", row.krate, row.file.replace('/', "."));
    let brought = (module, row.definition.clone());
    if !claim.uses.contains(&brought) {
        fault(format!(
            "the file of {} does not take {} from {}/specs/{}",
            row.function, row.definition, row.krate, row.file
        ));
    }
    wrong
}

/// Does the text of a specs file declare the name as public?
pub fn defines(text: &str, name: &str) -> bool {
    text.lines()
        .map(|line| line.split("--").next().unwrap_or(""))
        .any(|line| {
            let mut words = line.split_whitespace().skip_while(|w| *w != "pub").skip(1);
            let first = words.next();
            let named = if matches!(first, Some("record" | "data")) {
                words.next()
            } else {
                first
            };
            named == Some(name)
        })
}

/// The claim functions of all crates.
pub fn claims_below(crates: &Path) -> Result<Vec<Claim>, String> {
    let mut found = Vec::new();
    for dir in folder::entries(crates).map_err(|e| format!("crates/: {e}"))? {
        let src = dir.join("src");
        for path in folder::files_below(&src).unwrap_or_default() {
            if path.extension().is_some_and(|e| e == "rt") {
                let text =
                    fs::read_to_string(&path).map_err(|e| format!("{}: {e}", path.display()))?;
                let prefix = module(
                    &folder::name_of(&dir),
                    path.strip_prefix(&src).unwrap_or(&path),
                );
                found.extend(claims_in(&prefix, &text));
            }
        }
    }
    Ok(found)
}

/// The path of a module: the crate for src/lib.rt, `CRATE::a::b` for src/a/b.rt.
pub fn module(krate: &str, file: &Path) -> String {
    let parts = file.with_extension("");
    let names: Vec<String> = parts
        .iter()
        .map(|p| p.to_string_lossy().into_owned())
        .collect();
    let inner = names
        .iter()
        .filter(|n| !["lib", "main", "mod"].contains(&n.as_str()))
        .map(|n| format!("::{n}"));
    format!("{krate}{}", inner.collect::<String>())
}

/// The claim functions in the text of one file.
pub fn claims_in(prefix: &str, text: &str) -> Vec<Claim> {
    let code: String = text
        .lines()
        .map(|l| l.split("//").next().unwrap_or("").to_owned() + "\n")
        .collect();
    let uses = uses_in(&code);
    let mut found = Vec::new();
    for (at, mark) in code.match_indices("pub fn ") {
        if let Some((name, promise)) = claim(&code[at + mark.len()..]) {
            found.push(Claim {
                path: format!("{prefix}::{name}"),
                promise,
                uses: uses.clone(),
            });
        }
    }
    found
}

/// Name and promise of the function whose text follows `pub fn`, if it has no arguments, no result and an empty body.
fn claim(text: &str) -> Option<(&str, String)> {
    let (name, rest) = text.split_once('(')?;
    let rest = rest.trim_start().strip_prefix(')')?;
    let body = body_at(rest)?;
    let promise = rest[..body]
        .split_whitespace()
        .collect::<Vec<_>>()
        .join(" ");
    let empty = rest[body + 1..].trim_start().starts_with('}');
    (empty && !promise.starts_with("->")).then_some((name.trim(), promise))
}

/// Where the body's brace is: the first one that opens no clause (`requires {`, `ensures {`, `ensures NAME {`).
fn body_at(text: &str) -> Option<usize> {
    let mut from = 0;
    loop {
        let open = from + text[from..].find('{')?;
        if text[from..open]
            .split_whitespace()
            .all(|w| !["requires", "ensures"].contains(&w))
        {
            return Some(open);
        }
        from = open + closing(&text[open..])? + 1;
    }
}

/// Where the brace that opens the text is closed.
fn closing(text: &str) -> Option<usize> {
    let mut depth = 0;
    for (i, c) in text.char_indices() {
        match c {
            '{' => depth += 1,
            '}' => depth -= 1,
            _ => {}
        }
        if depth == 0 {
            return Some(i);
        }
    }
    None
}

/// Module and name of all that the `ghost use` lines bring in.
fn uses_in(code: &str) -> Vec<(String, String)> {
    let mut found = Vec::new();
    for part in code.split("ghost use ").skip(1) {
        let Some((line, _)) = part.split_once(';') else {
            continue;
        };
        let Some((module, names)) = line.split_once(".{") else {
            continue;
        };
        for name in names.trim_end().trim_end_matches('}').split(',') {
            found.push((module.trim().to_string(), name.trim().to_string()));
        }
    }
    found
}

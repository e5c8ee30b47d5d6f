//! The statements in docs/CLAIMS.md: under a line with the name of a specs file, a block with definitions of that file,
//! each as it stands there, comments aside.
use crate::claims::{defines, Row};
use std::fs;
use std::path::Path;

/// A definition in the list; `file` is `CRATE/specs/FILE`.
struct Statement {
    line: usize,
    file: String,
    text: String,
}

/// What is wrong with the statements: one that is not as in its file, or none for a row's definition.
pub fn faults(root: &Path, list: &str, rows: &[Row]) -> Vec<String> {
    let found = statements(list);
    let mut wrong = Vec::new();
    for s in &found {
        let name = format!("crates/{}.antt", s.file);
        let there =
            fs::read_to_string(root.join(&name)).is_ok_and(|text| blocks(&text).contains(&s.text));
        if !there {
            let first = s.text.lines().next().unwrap_or("");
            wrong.push(format!(
                "docs/CLAIMS.md line {}: {name} has no definition that reads as this one: {first}",
                s.line
            ));
        }
    }
    for row in rows {
        let file = format!("{}/specs/{}", row.krate, row.file);
        let first = |s: &Statement| s.text.lines().next().unwrap_or("").to_string();
        if !found
            .iter()
            .any(|s| s.file == file && defines(&first(s), &row.definition))
        {
            wrong.push(format!(
                "docs/CLAIMS.md line {}: the statement of {} is not given below",
                row.line, row.definition
            ));
        }
    }
    wrong
}

fn statements(list: &str) -> Vec<Statement> {
    let (mut file, mut inside, mut start) = (String::new(), false, 0);
    let (mut block, mut found) = (String::new(), Vec::new());
    for (i, line) in list.lines().enumerate() {
        if line.starts_with("```") {
            if inside {
                found.extend(chunks(&block, start, &file));
                file.clear();
            }
            inside = !inside;
            block.clear();
            start = i + 2;
        } else if inside {
            block.push_str(line);
            block.push('\n');
        } else if let Some(name) = line.strip_prefix('`').and_then(|l| l.strip_suffix('`')) {
            file = name.to_string();
        }
    }
    found
}

/// The definitions of a block, with their line numbers. A block under no file's name is not about definitions.
fn chunks(block: &str, start: usize, file: &str) -> Vec<Statement> {
    let mut found = Vec::new();
    if !file.contains("/specs/") {
        return found;
    }
    let mut line = start;
    for part in block.split("\n\n") {
        if let Some(text) = blocks(part).into_iter().next() {
            found.push(Statement {
                line,
                file: file.to_string(),
                text,
            });
        }
        line += part.lines().count() + 1;
    }
    found
}

/// The parts of a text between empty lines, without comments.
fn blocks(text: &str) -> Vec<String> {
    let (mut found, mut block) = (Vec::new(), Vec::new());
    for line in text.lines().chain([""]) {
        let code = line.split("--").next().unwrap_or("").trim_end();
        if !code.is_empty() {
            block.push(code);
        } else if line.trim().is_empty() && !block.is_empty() {
            found.push(block.join("\n"));
            block.clear();
        }
    }
    found
}

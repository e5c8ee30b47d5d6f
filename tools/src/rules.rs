//! Holds docs/RULES.md to the tree. A rule is an item `- **id** text` with the fields `stated` (definitions), `promised`
//! (public functions), `shuts out` (wrong programs), `run` (tests, figures, examples) and, where a reading of the papers
//! was chosen, `choice` (entries of docs/DECISIONS.md). All that it names has to be there. Each definition of specs/
//! names its rules in its comment, and is then listed under `stated` there, or has the word "aid"; a law that the comment
//! names is a definition, too.
use crate::claims::Outcome;
use crate::definitions::{self, ids_in, is_id, Definition};
use crate::folder;
use crate::named::{names, Names};
use std::collections::{BTreeMap, BTreeSet};
use std::fs;
use std::path::Path;

#[derive(Debug, Default, Clone, PartialEq, Eq)]
pub struct Rule {
    pub line: usize,
    pub id: String,
    pub text: String,
    /// The text of each field, by its name.
    pub fields: BTreeMap<String, String>,
}

const FIELDS: [&str; 4] = ["stated", "promised", "shuts out", "run"];

pub fn check(root: &Path) -> Result<Outcome, String> {
    let read = |name: &str| fs::read_to_string(root.join(name)).map_err(|e| format!("{name}: {e}"));
    let rules = rules(&read("docs/RULES.md")?);
    let (all, bare) = definitions::all(root)?;
    let decisions = choices(&read("docs/DECISIONS.md")?);
    let mut wrong = list_faults(&rules, &all, &names(root)?, &decisions);
    wrong.extend(definition_faults(&rules, &all));
    wrong.extend(
        bare.iter()
            .map(|f| format!("{f} does not begin with a comment that tells what it is about")),
    );
    wrong.extend(comment_faults(root, &rules));
    if !read("README.md")?.contains("(docs/RULES.md)") {
        wrong.push("README.md does not link docs/RULES.md".into());
    }
    Ok(Outcome {
        listed: rules.len(),
        wrong,
    })
}

/// The rules of the document. An item begins at the margin, a field two places in, and both may run over lines.
pub fn rules(text: &str) -> Vec<Rule> {
    let (mut found, mut field): (Vec<Rule>, Option<String>) = (Vec::new(), None);
    for (i, line) in text.lines().enumerate() {
        if let Some((id, rest)) = line.strip_prefix("- **").and_then(|l| l.split_once("**")) {
            let rule = Rule {
                line: i + 1,
                id: id.to_string(),
                text: rest.trim().to_string(),
                ..Rule::default()
            };
            found.push(rule);
            field = None;
            continue;
        }
        let Some(rule) = found.last_mut().filter(|_| line.starts_with("  ")) else {
            continue;
        };
        let head = line.strip_prefix("  - ").and_then(|l| l.split_once(": "));
        if let Some((name, rest)) = head {
            field = Some(name.to_string());
            rule.fields.insert(name.to_string(), rest.to_string());
        } else {
            let text = field.as_ref().and_then(|f| rule.fields.get_mut(f));
            let text = text.unwrap_or(&mut rule.text);
            text.push(' ');
            text.push_str(line.trim());
        }
    }
    found
}

/// What is wrong with the rules themselves and with what they name.
pub fn list_faults(
    rules: &[Rule],
    all: &[Definition],
    names: &Names,
    decisions: &BTreeSet<(String, String)>,
) -> Vec<String> {
    let (mut wrong, mut seen) = (Vec::new(), BTreeSet::new());
    if rules.is_empty() {
        wrong.push("docs/RULES.md lists no rule".to_string());
    }
    for rule in rules {
        let mut faults = Vec::new();
        if !is_id(&rule.id) || !seen.insert(&rule.id) || rule.text.is_empty() {
            faults.push("not an id of its own with a text".to_string());
        }
        for field in FIELDS {
            if !rule
                .fields
                .get(field)
                .is_some_and(|text| text.contains('`'))
            {
                faults.push(format!("names nothing under `{field}`"));
            }
        }
        faults.extend(stated_faults(rule, all));
        faults.extend(named_faults(rule, names));
        faults.extend(choice_faults(rule, decisions));
        let place = format!("docs/RULES.md line {}, {}", rule.line, rule.id);
        wrong.extend(faults.into_iter().map(|f| format!("{place}: {f}")));
    }
    wrong
}

/// The definitions that a rule lists: file and name.
fn stated(rule: &Rule) -> Vec<(String, String)> {
    let (mut file, mut found) = (String::new(), Vec::new());
    let text = rule.fields.get("stated").map_or("", |t| t);
    for name in text.split('`').skip(1).step_by(2) {
        if name.contains('/') {
            file = name.to_string();
        } else {
            found.push((file.clone(), name.to_string()));
        }
    }
    found
}

fn stated_faults(rule: &Rule, all: &[Definition]) -> Vec<String> {
    let mut wrong = Vec::new();
    for (file, name) in stated(rule) {
        match all.iter().find(|d| d.file == file && d.name == name) {
            None => wrong.push(format!("{file} has no definition {name}")),
            Some(d) if !d.ids.contains(&rule.id) => {
                wrong.push(format!("the comment of {name} in {file} does not name it"))
            }
            Some(_) => {}
        }
    }
    if stated(rule).is_empty() {
        wrong.push("no definition states it".into());
    }
    wrong
}

fn named_faults(rule: &Rule, names: &Names) -> Vec<String> {
    let mut wrong = Vec::new();
    let field = |name: &str| rule.fields.get(name).map_or("", |t| t).split('`');
    for name in field("promised").skip(1).step_by(2) {
        if !names.functions.contains(name) {
            wrong.push(format!("there is no public function {name}"));
        }
    }
    for name in field("shuts out").skip(1).step_by(2) {
        if !names.edits.contains(name) {
            wrong.push(format!("there is no wrong program {name}"));
        }
    }
    let parts: Vec<&str> = field("run").collect();
    for pair in parts.chunks_exact(2) {
        let kind = pair[0].trim_start_matches(',').trim();
        if !names.of(kind).is_some_and(|of| of.contains(pair[1])) {
            wrong.push(format!("there is no {kind} {}", pair[1]));
        }
    }
    wrong
}

/// The entries of docs/DECISIONS.md: the anchor of their part, and the name in bold.
pub fn choices(text: &str) -> BTreeSet<(String, String)> {
    let (mut anchor, mut found) = (String::new(), BTreeSet::new());
    for line in text.lines() {
        if line.starts_with('#') {
            let title = line.trim_start_matches('#').trim().to_lowercase();
            anchor = title.replace(' ', "-");
        } else if let Some((name, _)) = line.strip_prefix("- **").and_then(|l| l.split_once("**")) {
            found.insert((anchor.clone(), name.to_string()));
        }
    }
    found
}

fn choice_faults(rule: &Rule, decisions: &BTreeSet<(String, String)>) -> Vec<String> {
    let Some(text) = rule.fields.get("choice") else {
        return Vec::new();
    };
    let mut wrong = Vec::new();
    let links: Vec<&str> = text.split("](DECISIONS.md#").collect();
    if links.len() < 2 {
        wrong.push("names no entry of docs/DECISIONS.md under `choice`".into());
    }
    for pair in links.windows(2) {
        let name = pair[0].rsplit_once('[').map_or("", |(_, n)| n);
        let anchor = pair[1].split(')').next().unwrap_or("");
        if !decisions.contains(&(anchor.to_string(), name.to_string())) {
            wrong.push(format!("docs/DECISIONS.md has no {name} under #{anchor}"));
        }
    }
    wrong
}

/// Definitions without a rule, with an unknown one, with one that does not list them, or with an unknown law.
pub fn definition_faults(rules: &[Rule], all: &[Definition]) -> Vec<String> {
    let listed: BTreeMap<&str, BTreeSet<(String, String)>> = rules
        .iter()
        .map(|r| (r.id.as_str(), stated(r).into_iter().collect()))
        .collect();
    let known: BTreeSet<&str> = all.iter().map(|d| d.name.as_str()).collect();
    let mut wrong = Vec::new();
    for d in all {
        let place = format!("{} line {}, {}", d.file, d.line, d.name);
        if d.ids.is_empty() && !d.aid {
            wrong.push(format!(
                "{place}: its comment names no rule, and does not say that it is an aid"
            ));
        }
        let unknown = d.laws.iter().filter(|law| !known.contains(law.as_str()));
        wrong.extend(unknown.map(|law| format!("{place}: specs/ has no law {law}")));
        for id in &d.ids {
            let pair = (d.file.clone(), d.name.clone());
            match listed.get(id.as_str()) {
                None => {} // told by comment_faults
                Some(names) if !names.contains(&pair) => wrong.push(format!(
                    "{place}: it is not listed as stating {id} in docs/RULES.md"
                )),
                Some(_) => {}
            }
        }
    }
    wrong
}

/// Unknown rules in comments: of the definitions, of the code, and of the second implementation.
fn comment_faults(root: &Path, rules: &[Rule]) -> Vec<String> {
    let known: BTreeSet<&str> = rules.iter().map(|r| r.id.as_str()).collect();
    let mut folders = vec![root.join("reference/src"), root.join("reference/tests")];
    for dir in folder::entries(&root.join("crates")).unwrap_or_default() {
        folders.extend(["src", "specs"].map(|part| dir.join(part)));
    }
    let mut wrong = Vec::new();
    for path in folders
        .iter()
        .flat_map(|dir| folder::files_below(dir).unwrap_or_default())
    {
        let text = fs::read_to_string(&path).unwrap_or_default();
        let mark = if path.extension().is_some_and(|e| e == "antt") {
            "--"
        } else {
            "//"
        };
        for (i, line) in text.lines().enumerate() {
            let comment = line.split_once(mark).map_or("", |(_, c)| c);
            let ids = ids_in(comment).into_iter();
            let file = path.strip_prefix(root).unwrap_or(&path).display();
            let unknown = ids.filter(|id| !known.contains(id.as_str()));
            wrong.extend(unknown.map(|id| format!("{file} line {}: there is no rule {id}", i + 1)));
        }
    }
    wrong
}

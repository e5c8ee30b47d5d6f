//! Holds README.md's list and table of refusal numbers to the words in refusals.txt and to the numbers that the definitions give:
//! those of the claim in crates/refusals/specs/Order.antt, by operation and in order, and every `because N` in specs/.
use crate::claims::{cells, is_rule, Outcome};
use crate::folder;
use std::collections::{BTreeMap, BTreeSet};
use std::fs;
use std::path::Path;

const WORDS: &str = "refusals.txt";
const ORDER: &str = "crates/refusals/specs/Order.antt";
const NUMBERS: &str = "## Refusal numbers";
const ORDER_HEAD: [&str; 2] = ["operation", "its reasons, in order"];

/// The numbers that each operation can answer, in the order of their reasons, by the operation's name.
pub type Orders = BTreeMap<String, Vec<u32>>;

/// An item of README's list of numbers.
#[derive(Debug, Clone, PartialEq, Eq)]
pub struct Row {
    pub number: u32,
    pub given_by: BTreeSet<String>,
    pub words: String,
}

pub fn check(root: &Path) -> Result<Outcome, String> {
    let read = |name: &str| fs::read_to_string(root.join(name)).map_err(|e| format!("{name}: {e}"));
    let readme = read("README.md")?;
    let words = words(&read(WORDS)?)?;
    let orders = orders(&read(ORDER)?)?;
    let rows = number_rows(&readme)?;
    let mut wrong = word_faults(&rows, &words);
    wrong.extend(number_faults(&rows, &orders));
    wrong.extend(order_faults(&order_rows(&readme)?, &orders));
    wrong.extend(reason_faults(&root.join("crates"), &orders)?);
    Ok(Outcome {
        listed: rows.len(),
        wrong,
    })
}

/// The words of each number: lines of a number, a space and a sentence, the numbers rising.
pub fn words(text: &str) -> Result<BTreeMap<u32, String>, String> {
    let mut found = BTreeMap::new();
    let lines = text.lines().enumerate();
    for (i, line) in lines.filter(|(_, line)| !line.starts_with('#')) {
        let fault = |what: &str| Err(format!("{WORDS} line {}: {what}", i + 1));
        let Some((number, sentence)) = line.split_once(' ') else {
            return fault("not a number, a space and a sentence");
        };
        let Ok(number) = number.parse::<u32>() else {
            return fault("does not begin with a number");
        };
        if found
            .last_key_value()
            .is_some_and(|(last, _)| *last >= number)
        {
            return fault("the numbers do not rise");
        }
        if sentence.len() < 2 || !sentence.ends_with('.') || sentence.contains('|') {
            return fault("not one sentence that ends in a full stop, without the sign |");
        }
        found.insert(number, sentence.to_string());
    }
    Ok(found)
}

/// The lines of a record, each with those, further in, over which it goes on.
fn fields(text: &str) -> Vec<String> {
    let mut found: Vec<String> = Vec::new();
    for line in text.lines() {
        match found.last_mut() {
            Some(field) if line.starts_with("      ") => {
                field.push(' ');
                field.push_str(line.trim());
            }
            _ => found.push(line.trim().to_string()),
        }
    }
    found
}

/// The lists of the claim: each field `of_OPERATION` ends in the numbers.
pub fn orders(text: &str) -> Result<Orders, String> {
    let mut found = Orders::new();
    for line in fields(text) {
        let Some(field) = line.strip_prefix("pub of_") else {
            continue;
        };
        let parts = (field.split_once(" :"), field.rsplit_once('≡'));
        let (Some((name, _)), Some((_, list))) = parts else {
            return Err(format!("{ORDER}: no list of numbers in: {line}"));
        };
        let list = list.trim().strip_suffix("∷ []").unwrap_or("none");
        found.insert(name.to_string(), numbers(list, '∷')?);
    }
    if found.is_empty() {
        return Err(format!("{ORDER} has no lists of numbers"));
    }
    Ok(found)
}

/// Numbers with a sign between them.
fn numbers(text: &str, between: char) -> Result<Vec<u32>, String> {
    let parse = |part: &str| part.trim().parse::<u32>();
    let parsed: Result<Vec<u32>, _> = text.split(between).map(parse).collect();
    parsed.map_err(|_| format!("not a list of numbers: {text}"))
}

/// The rows of README's table with this head.
fn table<'a>(text: &'a str, head: &[&str]) -> Result<Vec<Vec<&'a str>>, String> {
    let mut lines = text.lines();
    if !lines.any(|line| cells(line).is_some_and(|c| c == head)) {
        return Err(format!("README.md has no table | {} |", head.join(" | ")));
    }
    let rows = lines.skip_while(|line| is_rule(line)).map_while(cells);
    let rows: Vec<Vec<&str>> = rows.collect();
    match rows.iter().find(|row| row.len() != head.len()) {
        Some(row) => Err(format!(
            "README.md: a row of other cells: {}",
            row.join(" | ")
        )),
        None => Ok(rows),
    }
}

/// An operation as the claim names it: `Next day` is next_day, `Top-up` top_up.
fn operation(name: &str) -> String {
    name.trim().to_lowercase().replace([' ', '-'], "_")
}

/// The items of README's list of numbers, each with the lines over which it goes on.
fn items(text: &str) -> Result<Vec<String>, String> {
    let mut found: Vec<String> = Vec::new();
    let section = text.lines().skip_while(|line| *line != NUMBERS).skip(1);
    for line in section.take_while(|line| !line.starts_with("## ")) {
        if let Some(item) = line.strip_prefix("- ") {
            found.push(item.to_string());
        } else if let (Some(more), Some(item)) = (line.strip_prefix("  "), found.last_mut()) {
            item.push(' ');
            item.push_str(more.trim());
        }
    }
    if found.is_empty() {
        return Err(format!("README.md has no list under {NUMBERS}"));
    }
    Ok(found)
}

/// An item `**number**, operations: when. *words*`.
fn number_row(item: &str) -> Result<Row, String> {
    let fault = || format!("README.md: not `**number**, operations: when. *words*`: {item}");
    let inner = item.strip_prefix("**").ok_or_else(fault)?;
    let (number, rest) = inner.split_once("**, ").ok_or_else(fault)?;
    let (operations, rest) = rest.split_once(": ").ok_or_else(fault)?;
    let (_, words) = rest.split_once(". *").ok_or_else(fault)?;
    let words = words.strip_suffix('*').ok_or_else(fault)?;
    let operations = operations.split(';').next().unwrap_or("");
    let parsed = number.parse();
    Ok(Row {
        number: parsed.map_err(|_| format!("README.md: no number: {number}"))?,
        given_by: operations.split(',').map(operation).collect(),
        words: words.to_string(),
    })
}

pub fn number_rows(text: &str) -> Result<Vec<Row>, String> {
    items(text)?.iter().map(|item| number_row(item)).collect()
}

pub fn order_rows(text: &str) -> Result<Orders, String> {
    let row = |cells: &Vec<&str>| Ok((operation(cells[0]), numbers(cells[1], ',')?));
    table(text, &ORDER_HEAD)?.iter().map(row).collect()
}

/// README's numbers and sentences are those of the words, in their order.
pub fn word_faults(rows: &[Row], words: &BTreeMap<u32, String>) -> Vec<String> {
    let (shown, due): (Vec<u32>, Vec<u32>) = (
        rows.iter().map(|row| row.number).collect(),
        words.keys().copied().collect(),
    );
    let mut wrong = Vec::new();
    if shown != due {
        wrong.push(format!(
            "README.md has the numbers {shown:?}, {WORDS} {due:?}"
        ));
    }
    for row in rows {
        let due = words.get(&row.number);
        if due.is_some_and(|sentence| *sentence != row.words) {
            wrong.push(format!(
                "README.md has other words of {} than {WORDS}",
                row.number
            ));
        }
    }
    wrong
}

/// README's numbers are those that the operations answer, and each is given by the operations that README names.
pub fn number_faults(rows: &[Row], orders: &Orders) -> Vec<String> {
    let mut wrong = Vec::new();
    for number in orders.values().flatten().collect::<BTreeSet<_>>() {
        if !rows.iter().any(|row| row.number == *number) {
            wrong.push(format!(
                "{number} is answered by {ORDER}, and README.md does not have it"
            ));
        }
    }
    for row in rows {
        let answering = orders.iter().filter(|(_, list)| list.contains(&row.number));
        let due: BTreeSet<String> = answering.map(|(name, _)| name.clone()).collect();
        if row.given_by != due {
            wrong.push(format!(
                "README.md says that {} is given by {:?}, {ORDER} says {due:?}",
                row.number, row.given_by
            ));
        }
    }
    wrong
}

/// README's orders are those of the claim.
pub fn order_faults(shown: &Orders, due: &Orders) -> Vec<String> {
    let names: BTreeSet<&String> = shown.keys().chain(due.keys()).collect();
    let differing = names
        .into_iter()
        .filter(|name| shown.get(*name) != due.get(*name));
    let told = differing.map(|name| {
        format!(
            "the order of {name}: README.md {:?}, {ORDER} {:?}",
            shown.get(name),
            due.get(name)
        )
    });
    told.collect()
}

/// Every number that stands as a reason in a definition is one of the claim's.
fn reason_faults(crates: &Path, orders: &Orders) -> Result<Vec<String>, String> {
    let mut wrong = Vec::new();
    let files = folder::files_below(crates).map_err(|e| format!("{}: {e}", crates.display()))?;
    for file in files {
        let name = file.display().to_string();
        if !name.ends_with(".antt") || !name.contains("/specs/") {
            continue;
        }
        let text = fs::read_to_string(&file).map_err(|e| format!("{name}: {e}"))?;
        for number in reasons(&text) {
            if !orders.values().flatten().any(|n| *n == number) {
                wrong.push(format!(
                    "{name} has the reason {number}, which no operation of {ORDER} answers"
                ));
            }
        }
    }
    Ok(wrong)
}

/// The numbers that stand after `because` in a text, comments left out.
pub fn reasons(text: &str) -> BTreeSet<u32> {
    let code = text.lines().filter(|line| !line.trim().starts_with("--"));
    let after = code.flat_map(|line| line.split("because ").skip(1));
    let digits = |rest: &str| rest.split(' ').next().and_then(|n| n.parse().ok());
    after.filter_map(digits).collect()
}

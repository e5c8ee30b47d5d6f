//! The functions and constants in the text of a file in Rattle.
use crate::antt::Named;
use std::collections::BTreeSet;
use std::ops::Range;

/// A function: its path as the checker prints it, and where its head, with attributes and contract, and its body are.
pub struct Function {
    pub path: String,
    pub head: Range<usize>,
    pub body: Range<usize>,
}

/// The functions of a file whose module has the prefix as its path.
pub fn in_text(prefix: &str, text: &str) -> Vec<Function> {
    let mut found = Vec::new();
    let (mut at, mut owner, mut open) = (0, String::new(), None);
    let mut attributes: Option<usize> = None;
    for line in text.split_inclusive('\n') {
        let (code, indent) = (line.trim(), line.len() - line.trim_start().len());
        if open.is_none() && code.starts_with("#[") {
            attributes = attributes.or(Some(at));
        } else if code.is_empty() || item(code) {
            attributes = None;
        }
        if let Some((name, of)) = implemented(code) {
            owner = format!("{name}{}::", of.unwrap_or(""));
        } else if indent == 0 && code == "}" && open.is_none() {
            owner.clear();
        }
        if let Some(name) = fn_name(code) {
            let head = attributes.take().unwrap_or(at);
            open = Some((format!("{prefix}::{owner}{name}"), indent, head, None));
        }
        if let Some((path, depth, head, start)) = &mut open {
            if indent == *depth && start.is_none() && (code == "{" || code == "{}") {
                *start = Some(at + line.len());
            }
            if indent == *depth && (code == "}" || code == "{}") {
                let begins = start.unwrap_or(at);
                found.push(Function {
                    path: path.clone(),
                    head: *head..begins,
                    body: begins..at.max(begins),
                });
                open = None;
            }
        }
        at += line.len();
    }
    found
}

/// The type of a line that begins an `impl`, and the trait where it is of one; both without their parameters.
pub fn implemented(code: &str) -> Option<(&str, Option<&str>)> {
    let rest = code.strip_prefix("impl")?;
    let rest = match rest.strip_prefix('<') {
        Some(parameters) => parameters.split_once("> ")?.1,
        None => rest.strip_prefix(' ')?,
    };
    let bare = |name: &'_ str| name.find([' ', '<', '{']).unwrap_or(name.len());
    match rest.split_once(" for ") {
        Some((of, name)) => Some((&name[..bare(name)], Some(&of[..bare(of)]))),
        None => Some((&rest[..bare(rest)], None)),
    }
}

fn fn_name(code: &str) -> Option<&str> {
    let rest = public(code);
    let rest = rest.strip_prefix("extern \"C\" ").unwrap_or(rest);
    let rest = rest.strip_prefix("fn ")?;
    rest.split(['(', '<']).next()
}

/// The line without how far it is public.
fn public(code: &str) -> &str {
    let rest = code.strip_prefix("pub(crate) ");
    rest.or(code.strip_prefix("pub ")).unwrap_or(code)
}

/// Does an item begin that is no function?
fn item(code: &str) -> bool {
    let begins = [
        "struct ", "enum ", "const ", "impl ", "mod ", "use ", "ghost ",
    ];
    begins.iter().any(|word| public(code).starts_with(word))
}

/// The constants of a file, each to the line that ends it.
pub fn constants(text: &str) -> Vec<Named> {
    let mut found: Vec<Named> = Vec::new();
    let (mut at, mut open) = (0, false);
    for line in text.split_inclusive('\n') {
        if let Some(name) = public(line)
            .strip_prefix("const ")
            .and_then(|r| r.split(':').next())
        {
            found.push((at..at, BTreeSet::from([name.trim().to_string()])));
            open = true;
        }
        at += line.len();
        if let Some((span, _)) = found.last_mut().filter(|_| open) {
            span.end = at;
            open = !line.trim_end().ends_with(';');
        }
    }
    found
}

#[cfg(test)]
mod tests {
    use super::*;

    #[test]
    fn impls() {
        assert_eq!(implemented("impl Account {"), Some(("Account", None)));
        assert_eq!(implemented("impl Reader<'_> {"), Some(("Reader", None)));
        assert_eq!(implemented("impl<'a> Reader<'a> {"), Some(("Reader", None)));
        let of = Some(("Reader", Some("Iterator")));
        assert_eq!(implemented("impl Iterator for Reader<'_> {"), of);
        let of = Some(("u64", Some("From")));
        assert_eq!(implemented("impl From<Refusal> for u64 {"), of);
        assert_eq!(implemented("implied"), None);
    }

    const TEXT: &str = "const TWO: u64 = 2;\n\n#[tactic(auto,\n    using(crate::proofs::Laws::low_law))]\nfn low(n: u64) -> u64\n    ensures { result ≡ n }\n{\n    n + 1\n}\n\npub fn claim()\n    ensures { Claim }\n{}\n\n#[derive(Clone, Copy)]\nstruct Box {\n    n: u64,\n}\n\nimpl Box {\n    pub(crate) fn beside(self) -> u64\n    {\n        self.n - 3\n    }\n}\n";

    #[test]
    fn heads_and_bodies() {
        let all = in_text("c", TEXT);
        let texts: Vec<(&str, &str, &str)> = all
            .iter()
            .map(|f| {
                (
                    f.path.as_str(),
                    &TEXT[f.head.clone()],
                    &TEXT[f.body.clone()],
                )
            })
            .collect();
        assert_eq!(texts.len(), 3);
        assert!(texts[0].1.contains("result ≡ n") && !texts[0].1.contains("n + 1"));
        assert!(texts[0].1.starts_with("#[tactic(auto"));
        assert!(texts[2].1.starts_with("    pub(crate) fn"));
        assert_eq!((texts[0].0, texts[0].2), ("c::low", "    n + 1\n"));
        assert_eq!((texts[1].0, texts[1].2), ("c::claim", ""));
        assert_eq!(
            (texts[2].0, texts[2].2),
            ("c::Box::beside", "        self.n - 3\n")
        );
        assert_eq!(constants(TEXT).len(), 1);
    }
}

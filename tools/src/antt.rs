//! The text of definitions and proofs, as far as it tells what names what: parts with the names that they define,
//! imports, and words. A file in Rattle has imports of the same form.
use std::collections::BTreeSet;
use std::ops::Range;

/// A part of a text, and the names that it defines.
pub type Named = (Range<usize>, BTreeSet<String>);

/// `use PATH.{a, b as c}`, `use PATH as m` or `use PATH`.
pub struct Import {
    pub path: String,
    /// The names taken; none where the module itself is.
    pub names: Option<Vec<Taken>>,
    /// What the module is called here.
    alias: String,
}

/// A name as its own module spells it, and as it is spelled here.
pub struct Taken {
    pub there: BTreeSet<String>,
    here: BTreeSet<String>,
}

impl Taken {
    pub fn used_in(&self, words: &BTreeSet<String>) -> bool {
        !self.here.is_disjoint(words)
    }
}

impl Import {
    pub fn used_in(&self, words: &BTreeSet<String>) -> bool {
        match &self.names {
            Some(names) => names.iter().any(|n| n.used_in(words)),
            None => words.contains(&self.alias),
        }
    }
}

const MODIFIERS: [&str; 5] = ["pub", "abbrev", "unfoldable", "private", "opaque"];
const NO_PARTS: [&str; 7] = [
    "use ",
    "pub use ",
    "mod ",
    "pub mod ",
    "infix",
    "--",
    "ghost use ",
];

/// The parts: from a line at the margin that follows an empty line or a comment to the next such line. One that declares
/// nothing, as further lines of a definition, is called by its first word.
pub fn parts(text: &str) -> Vec<Named> {
    let mut found: Vec<Named> = Vec::new();
    let (mut at, mut open, mut block) = (0, false, false);
    for line in text.split_inclusive('\n') {
        let margin = !line.starts_with([' ', '\n']);
        if margin && NO_PARTS.iter().any(|p| line.starts_with(p)) {
            open = false;
        } else if margin && !open {
            found.push((at..at, BTreeSet::new()));
            open = true;
            block = line.starts_with("module ") || line.contains("mutual");
        } else if line == "\n" {
            let rest = &text[at + 1..];
            open = open && rest.starts_with([' ', '\n']);
        }
        if let Some((span, names)) = found.last_mut().filter(|_| open) {
            span.end = at + line.len();
            let signed = signature_on(line);
            if !signed.is_empty() && (margin || block) {
                names.extend(signed);
            } else if margin && names.is_empty() {
                names.extend(first_word(line));
            }
        }
        at += line.len();
    }
    found
}

fn first_word(line: &str) -> BTreeSet<String> {
    let mut words = line.split_whitespace();
    let word = words.find(|w| !MODIFIERS.contains(w));
    word.map(spellings).unwrap_or_default()
}

/// The names that a line declares: of a record or a set of rules its own, of a signature what stands before the colon.
fn signature_on(line: &str) -> BTreeSet<String> {
    let code = line.split("-- ").next().unwrap_or("");
    let mut words = code.split_whitespace().peekable();
    while words.next_if(|w| MODIFIERS.contains(w)).is_some() {}
    let named = ["record", "data", "ruleset"];
    if words.next_if(|w| named.contains(w)).is_some() {
        return words.next().map(spellings).unwrap_or_default();
    }
    let before: Vec<&str> = words.take_while(|w| *w != ":").collect();
    let plain = |w: &&str| !w.contains(['(', '{', '→', '}', ')', '=']);
    let colon = code.split_whitespace().any(|w| w == ":");
    if !colon || before.len() > 3 || !before.iter().all(plain) {
        return BTreeSet::new();
    }
    before.into_iter().flat_map(spellings).collect()
}

/// A name, and the pieces of it that stand between its arguments: of `if◌then◌else◌` if, then and else.
fn spellings(name: &str) -> BTreeSet<String> {
    let pieces = name.split('◌').filter(|p| !p.is_empty());
    let whole = std::iter::once(name).filter(|n| !n.is_empty());
    pieces.chain(whole).map(str::to_string).collect()
}

/// All words of a text but those of comments; of operators also the pieces.
pub fn words(text: &str) -> BTreeSet<String> {
    let mut found = BTreeSet::new();
    for line in text.lines() {
        let code = line.split("-- ").next().unwrap_or("");
        let code = code.split("// ").next().unwrap_or("");
        for word in code.split(|c: char| c.is_whitespace() || "(){}[],;.:`\"λ⌜⌝⟦⟧⟨⟩&*!".contains(c))
        {
            found.extend(spellings(word));
        }
    }
    found
}

/// The imports of a text, those of contracts in Rattle too.
pub fn imports(text: &str) -> Vec<Import> {
    let mut found = Vec::new();
    let mut lines = text.lines().peekable();
    while let Some(line) = lines.next() {
        let Some(rest) = line
            .strip_prefix("ghost ")
            .unwrap_or(line)
            .trim_start_matches("pub ")
            .strip_prefix("use ")
        else {
            continue;
        };
        let mut whole = rest.to_string();
        while let Some(more) = lines.next_if(|l| l.starts_with(' ')) {
            whole.push_str(more);
        }
        found.push(import(whole.trim().trim_end_matches(';')));
    }
    found
}

fn import(text: &str) -> Import {
    let pair = |n: &str| {
        let (there, here) = n.split_once(" as ").unwrap_or((n, n));
        (there.trim().to_string(), here.trim().to_string())
    };
    let taken = |n: &str| {
        let (there, here) = pair(n);
        Taken {
            there: spellings(&there),
            here: spellings(&here),
        }
    };
    if let Some((path, names)) = text.split_once(".{") {
        let names = names.trim_end_matches('}').split(',');
        return Import {
            path: path.into(),
            names: Some(names.map(taken).collect()),
            alias: String::new(),
        };
    }
    let (path, here) = pair(text);
    let last = here.rsplit('.').next().unwrap_or(&here).to_string();
    Import {
        path,
        names: None,
        alias: last,
    }
}

#[cfg(test)]
mod tests {
    use super::*;

    const TEXT: &str = "-- Head.\nuse a.B.{c, ◌⊕◌, d as e}\nuse a.F as tie\n\n-- one\nabbrev pub one : ℕ → ℕ\none n = tie.two n\n\npub record Claim (o : ℕ) : Type 0 where\n  pub left : ℕ\n\n  pub right : e\n\nmodule _ (n : ℕ) where\n  inside : ℕ\n  inside = n ⊕ 1\n\npub two :\n    one 1 ≡ 2\nunfolding one\ntwo = refl\n";

    #[test]
    fn parts_begin_at_the_margin() {
        let found: Vec<(String, Vec<String>)> = parts(TEXT)
            .into_iter()
            .map(|(span, names)| (TEXT[span].trim().to_string(), names.into_iter().collect()))
            .collect();
        assert_eq!(found.len(), 4);
        assert_eq!(found[0].0, "abbrev pub one : ℕ → ℕ\none n = tie.two n");
        assert_eq!(found[0].1, ["one"]);
        assert!(found[1].0.ends_with("pub right : e"));
        assert!(found[1].1.contains(&"Claim".to_string()));
        assert!(found[2].1.contains(&"inside".to_string()));
        assert!(found[3].1.contains(&"two".to_string()));
    }

    #[test]
    fn an_import_is_used_by_the_name_that_it_has_here() {
        let all = imports(TEXT);
        assert_eq!(all.len(), 2);
        assert!(all[0].used_in(&words("x ⊕ y")));
        assert!(all[0].used_in(&words("f e")));
        assert!(!all[0].used_in(&words("f d")));
        assert!(all[1].used_in(&words("tie.two n")));
        assert!(!all[1].used_in(&words("F")));
    }
}

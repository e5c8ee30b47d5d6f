//! Names of steps and goals that an edit changes. The checker names them after the code, as `if-t-gt2` after `t > 2`,
//! so that with `t > 3` a proof names what is not there. It tells which name is nearest: where that differs in numbers
//! and comparisons alone, or is of the same kind of step, the proof is judged with that name. An answer to a goal that
//! is not asked there any more is left out, and the checker's own search answers what is asked in its place.
use crate::verdict;

/// A name in a file of proofs, and the one that stands for it now; none where the answer of this name goes.
#[derive(Debug, Clone, PartialEq, Eq)]
pub struct Rename {
    pub file: String,
    pub old: String,
    pub new: String,
}

/// The renames that the checker's messages tell.
pub fn renames(output: &str) -> Vec<Rename> {
    let mut found = Vec::new();
    for message in verdict::messages(output) {
        if let Some(rename) = rename(&message).filter(|r| !found.contains(r)) {
            found.push(rename);
        }
    }
    found
}

fn rename(message: &str) -> Option<Rename> {
    let (place, said) = message.split_once(": error")?;
    let file = place
        .strip_prefix("./")
        .unwrap_or(place)
        .split(':')
        .next()?;
    let old = said
        .split_once("has no field `")
        .or(said.split_once(" has no `"))?;
    let old = first_name(old.1);
    let new = said
        .split_once("(nearest: .")
        .or(said.split_once("(did you mean `"));
    let alike = said.split_once("(names in it that begin alike: `");
    let new = match (new, alike) {
        (Some((_, text)), _) => first_name(text),
        (None, _) if said.contains(&format!("`goal.{old}`: module")) => "",
        (None, Some((_, text))) => first_name(text),
        (None, None) => return None,
    };
    let same = new.is_empty() || places(old) == places(new) || kind(old) == kind(new);
    let fits = file.starts_with("proofs/") && old != new && same;
    fits.then(|| Rename {
        file: file.to_string(),
        old: old.to_string(),
        new: new.to_string(),
    })
}

fn first_name(text: &str) -> &str {
    let end = text.find(|c| !in_name(c)).unwrap_or(text.len());
    &text[..end]
}

fn in_name(c: char) -> bool {
    c.is_alphanumeric() || c == '-' || c == '_' || c == '\''
}

/// What kind of step a name is of, as `if` or `in`, or of which call.
fn kind(name: &str) -> &str {
    name.split('-').next().unwrap_or(name)
}

/// The parts of a name, without numbers and kinds of comparison.
fn places(name: &str) -> Vec<String> {
    let plain = |part: &str| {
        let letters: String = part.chars().filter(|c| !c.is_ascii_digit()).collect();
        let comparison = ["lt", "le", "gt", "ge", "eq", "ne"].contains(&letters.as_str());
        if comparison {
            String::new()
        } else {
            letters
        }
    };
    name.split('-')
        .map(plain)
        .filter(|p| !p.is_empty())
        .collect()
}

/// The text without an answer, which ends before an empty line, and the comments above it.
fn without(text: &str, answer: &str) -> String {
    let lines: Vec<&str> = text.lines().collect();
    let head = format!("pub {answer} :");
    let Some(at) = lines.iter().position(|l| l.starts_with(&head)) else {
        return text.to_string();
    };
    let comments = lines[..at].iter().rev();
    let from = at - comments.take_while(|l| l.starts_with("--")).count();
    let end = lines[at..].iter().position(|l| l.is_empty());
    let to = end.map_or(lines.len(), |n| at + n + 1);
    let mut kept = [&lines[..from], &lines[to..]].concat().join("\n");
    kept.push('\n');
    kept
}

/// The text with the new name in the place of the old one.
pub fn renamed(text: &str, r: &Rename) -> String {
    if r.new.is_empty() {
        return without(text, &r.old);
    }
    let (mut found, mut rest) = (String::new(), text);
    while let Some(at) = rest.find(&r.old) {
        let (before, after) = (&rest[..at], &rest[at + r.old.len()..]);
        let whole = !before.ends_with(in_name) && !after.starts_with(in_name);
        found.push_str(before);
        found.push_str(if whole { &r.new } else { &r.old });
        rest = after;
    }
    found.push_str(rest);
    found
}

#[cfg(test)]
mod tests {
    use super::*;

    fn one(said: &str) -> Vec<Rename> {
        renames(&format!(
            "./proofs/f/Proof.antt:3:1: error: `x`: {said}\nlogic=not-proved\n"
        ))
    }

    #[test]
    fn names_that_differ_in_a_number_or_a_comparison() {
        let fits = [
            (
                "record `In-V` has no field `if-t-gt2` (nearest: .if-t-gt3)\n  the fields are `args`",
                ("if-t-gt2", "if-t-gt3"),
            ),
            (
                "module `c.Tie` has no `Need-returns-then-t-lt5` that can be named from here (did you mean `Need-returns-then-t-le5`?)",
                ("Need-returns-then-t-lt5", "Need-returns-then-t-le5"),
            ),
            (
                "record `R` has no field `if-t` (nearest: .if-t-eq0)",
                ("if-t", "if-t-eq0"),
            ),
        ];
        for (said, (old, new)) in fits {
            let found = one(said);
            assert_eq!(found.len(), 1, "{said}");
            let file = found[0].file.as_str();
            assert_eq!(
                (file, &found[0].old[..], &found[0].new[..]),
                ("proofs/f/Proof.antt", old, new)
            );
        }
    }

    #[test]
    fn other_names_are_other_places() {
        let others = [
            "record `R` has no field `if-a-b` (nearest: .in-V)",
            "record `R` has no field `state` (nearest: .log)",
            "record `R` has no field `1`",
            "`x` is not in scope",
        ];
        for said in others {
            assert_eq!(one(said), [], "{said}");
        }
        let code = "src/lib.rt:3:1: error: R has no field `a1` (nearest: .a2)\n";
        assert_eq!(renames(code), []);
    }

    #[test]
    fn answers_that_are_not_asked_are_left_out() {
        let said = "`goal.returns-2`: module `c.Goals` has no `returns-2` that can be named from here (names in it \
                    that begin alike: `returns`)";
        let found = one(said);
        assert_eq!(
            (found.len(), &found[0].old[..], &found[0].new[..]),
            (1, "returns-2", "")
        );
        let text = "use a\n\n-- why\npub returns-2 : goal.returns-2\nreturns-2 c = b\n\npub returns : goal.returns\nreturns c = d\n";
        let due = "use a\n\npub returns : goal.returns\nreturns c = d\n";
        assert_eq!(renamed(text, &found[0]), due);
    }

    #[test]
    fn steps_of_the_same_kind_stand_for_each_other() {
        let found = one("record `R` has no field `if-a-b` (nearest: .if-a-c, .in-V)");
        assert_eq!((&found[0].old[..], &found[0].new[..]), ("if-a-b", "if-a-c"));
    }

    #[test]
    fn whole_names_are_renamed() {
        let r = Rename {
            file: String::new(),
            old: "if-t-gt2".into(),
            new: "if-t-gt3".into(),
        };
        let text = "c.if-t-gt2.true (if-t-gt2) not-if-t-gt2 if-t-gt20";
        let due = "c.if-t-gt3.true (if-t-gt3) not-if-t-gt2 if-t-gt20";
        assert_eq!(renamed(text, &r), due);
    }
}

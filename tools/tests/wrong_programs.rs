//! The check of the list of wrong programs, on right and wrong samples.
use tools::wrong_programs::{faults, Tree};

const TEXT: &str = "\
There are 1 +
2 = 3 of them.

| promise | wrong programs |
|---|---|
| a::f | `one_less` (m), `one_more` of `b` |
| a::g | `one_less` |
| a::g | `two_more` |
";

fn tree() -> Tree {
    let names = |all: &[&str]| all.iter().map(|name| name.to_string()).collect();
    Tree {
        must_fail: names(&["one_less"]),
        edits: names(&["one_more", "two_more"]),
    }
}

#[test]
fn right() {
    assert_eq!(faults(TEXT, &tree()), Vec::<String>::new());
}

#[test]
fn wrong() {
    let tries = [
        (TEXT.replace("1 +", "2 +"), "the counts are not 1 + 2 = 3"),
        (
            TEXT.replace("`two_more`", "`no_more`"),
            "there is no edit no_more",
        ),
        (
            TEXT.replace("| a::g | `two_more` |\n", ""),
            "line 7: a::g has fewer than two",
        ),
        (
            TEXT.replace("`two_more`", "`one_more`"),
            "no row names the edit two_more",
        ),
        (
            TEXT.replace("`two_more`", "`two_more` (m)"),
            "two_more stands in no folder",
        ),
    ];
    for (text, told) in tries {
        let said = faults(&text, &tree());
        assert!(
            said.iter().any(|line| line.contains(told)),
            "{told}: {said:?}"
        );
    }
}

//! The check of the list of rules, on right and wrong samples.
use std::fs;
use std::path::PathBuf;
use tools::definitions::{ids_in, in_text};
use tools::rules::{check, choices, rules};

const SPECS: &str = "\
-- Limits.
use Rattle.std.specs.Prelude.{ℕ, ◌+◌, Bool, true, false}

-- use-1: no more than ten
abbrev pub limit : ℕ
limit = 10

-- aid: a sum. Law: it grows (`Both`)
infixl 65 ◌⊕◌
abbrev pub ◌⊕◌ : ℕ → ℕ → ℕ
a ⊕ b = a + b

-- use-1, use-2: one by the other
unfoldable mutual
  pub even : ℕ → Bool
  even zero = true

  pub odd : ℕ → Bool
  odd zero = false

-- use-2: both
pub record Both : Type 0 where
  -- use-1: within
  pub low : ℕ
";
const RULES: &str = "\
# Rules

- *stated*: the definitions

## Use

- **use-1** No more than ten,
  and no less.
  - stated: `meter/Limits`: `limit`, `even`,
    `odd`, `Both`
  - promised: `meter::limits::kept`, `meter::Box::opened`
  - shuts out: `meter/eleven`, `meter/never`
  - run: trip `ferry`, test `uses::ten`, event `ten used`, planted `Eleven`
  - choice: [ten itself](DECISIONS.md#the-use)
- **use-2** Both.
  - stated: `meter/Limits`: `even`, `odd`, `Both`
  - promised: `meter::limits::kept`
  - shuts out: `meter/eleven`
  - run: example `E9`, figure `2`
";
const FIGURES: &str = "-- Figures.\n\nfigures =\n    -- one\n    a 1\n    ∷ b 2\n    ∷ []\n";
const FILES: [(&str, &str); 11] = [
    ("crates/meter/specs/Limits.antt", SPECS),
    (
        "crates/meter/src/limits.rt",
        "pub fn kept() {}\nfn hidden() {}\n",
    ),
    (
        "crates/meter/src/lib.rt",
        "impl Box {\n    pub fn opened<'a>(p: u64) {}\n}\n",
    ),
    ("crates/meter/edits/eleven.edit", ""),
    ("crates/meter/must-fail/never.edit", ""),
    ("crates/marked_figures/specs/Figures.antt", FIGURES),
    (
        "crates/test_trips/CASES.md",
        "| line | name |\n|---|---|\n| 1 | `ferry` | 112 |\n",
    ),
    ("crates/test_published/stdout", "E9 open\nfigure 5\n"),
    (
        "reference/src/planted.rs",
        "pub enum Wrong {\n    /// Ten.\n    Eleven = 1,\n}\n",
    ),
    (
        "reference/src/coverage/uses.rs",
        "const ALL: &[&str] = &[\n    \"ten used\",\n];\n",
    ),
    (
        "reference/tests/uses.rs",
        "#[test]\nfn ten() {}\nfn helper() {}\n// use-1: ten\n",
    ),
];
const DECISIONS: &str = "# Decisions\n\n## The use\n\n- **ten itself**: is within.\n";

/// What is wrong in the sample, with one text in the place of another in one of its files.
fn wrong(name: &str, file: &str, old: &str, new: &str) -> Vec<String> {
    let root: PathBuf = std::env::temp_dir().join(format!("rules-{}-{name}", std::process::id()));
    let more = [
        ("docs/RULES.md", RULES),
        ("docs/DECISIONS.md", DECISIONS),
        ("README.md", "[rules](docs/RULES.md)"),
    ];
    for (path, text) in FILES.iter().chain(&more) {
        let text = if *path == file {
            assert!(text.contains(old), "{file} has no {old}");
            text.replacen(old, new, 1)
        } else {
            text.to_string()
        };
        let path = root.join(path);
        fs::create_dir_all(path.parent().unwrap()).unwrap();
        fs::write(path, text).unwrap();
    }
    let outcome = check(&root).unwrap();
    fs::remove_dir_all(&root).unwrap();
    assert!(outcome.listed >= 1);
    outcome.wrong
}

/// The sample with that change has one fault, which the text tells.
fn one_fault(name: &str, file: &str, old: &str, new: &str, told: &str) {
    let found = wrong(name, file, old, new);
    assert!(
        found.len() == 1 && found[0].contains(told),
        "{name}: {found:?}"
    );
}

#[test]
fn a_right_sample_has_no_fault() {
    assert_eq!(wrong("right", "README.md", "", ""), Vec::<String>::new());
}

#[test]
fn a_rule_without_a_definition() {
    let line = "  - stated: `meter/Limits`: `limit`, `even`,\n    `odd`, `Both`\n";
    let found = wrong("undefined", "docs/RULES.md", line, "");
    assert!(
        found
            .iter()
            .any(|f| f.contains("use-1: no definition states it")),
        "{found:?}"
    );
    one_fault(
        "gone",
        "docs/RULES.md",
        "`limit`, `even`",
        "`limit`, `even`, `most`",
        "has no definition most",
    );
}

#[test]
fn a_definition_without_a_rule() {
    let file = "crates/meter/specs/Limits.antt";
    one_fault("bare", file, "-- aid: a sum", "-- a sum", "names no rule");
    one_fault(
        "said",
        file,
        "-- aid: a sum",
        "-- said: a sum",
        "names no rule",
    );
    one_fault("apart", file, "(`Both`)\n", "(`Both`)\n\n", "names no rule");
}

#[test]
fn unknown_ids() {
    let file = "crates/meter/specs/Limits.antt";
    one_fault(
        "unknown",
        file,
        "-- aid: a sum",
        "-- use-3: a sum",
        "there is no rule use-3",
    );
    one_fault("law", file, "(`Both`)", "(`Neither`)", "has no law Neither");
    let file = "reference/tests/uses.rs";
    one_fault(
        "reference",
        file,
        "use-1",
        "use-7",
        "reference/tests/uses.rs line 4: there is no rule use-7",
    );
    let file = "crates/meter/src/limits.rt";
    one_fault(
        "code",
        file,
        "fn hidden() {}",
        "fn hidden() {} // book-1",
        "crates/meter/src/limits.rt line 2: there is no rule book-1",
    );
    let file = "crates/meter/specs/Limits.antt";
    one_fault(
        "top",
        file,
        "-- Limits.",
        "-- Limits, book-1.",
        "line 1: there is no rule book-1",
    );
}

#[test]
fn lists_and_comments_agree() {
    one_fault(
        "unlisted",
        "docs/RULES.md",
        "`limit`, `even`",
        "`even`",
        "limit: it is not listed as stating use-1",
    );
    let file = "crates/meter/specs/Limits.antt";
    one_fault(
        "unnamed",
        file,
        "-- use-1: no more",
        "-- aid: no more",
        "the comment of limit in meter/Limits",
    );
}

#[test]
fn names_that_are_not_there() {
    for (i, (old, new, told)) in [
        (
            "`meter::limits::kept`, `meter::Box",
            "`meter::limits::hidden`, `meter::Box",
            "no public function",
        ),
        (
            "`meter::Box::opened`",
            "`meter::Box::closed`",
            "no public function",
        ),
        (
            "`meter/eleven`, `meter/never`",
            "`meter/eleven`, `meter/ever`",
            "no wrong program meter/ever",
        ),
        ("`ferry`", "`fairy`", "no trip fairy"),
        ("`uses::ten`", "`uses::helper`", "no test uses::helper"),
        ("`ten used`", "`ten`", "no event ten"),
        ("`Eleven`", "`Twelve`", "no planted Twelve"),
        ("`E9`", "`E10`", "no example E10"),
        ("figure `2`", "figure `3`", "no figure 3"),
        ("figure `2`", "trial `2`", "no trial 2"),
        ("[ten itself]", "[ten]", "docs/DECISIONS.md has no ten"),
        ("#the-use", "#use", "under #use"),
    ]
    .iter()
    .enumerate()
    {
        one_fault(&format!("name-{i}"), "docs/RULES.md", old, new, told);
    }
}

#[test]
fn fields_ids_heads_and_the_link() {
    one_fault(
        "field",
        "docs/RULES.md",
        "  - run: example `E9`, figure `2`\n",
        "",
        "nothing under `run`",
    );
    one_fault(
        "empty",
        "docs/RULES.md",
        "[ten itself](DECISIONS.md#the-use)",
        "ten",
        "under `choice`",
    );
    let twice = wrong("twice", "docs/RULES.md", "**use-2**", "**use-1**");
    assert!(
        twice.iter().any(|f| f.contains("not an id of its own")),
        "{twice:?}"
    );
    one_fault(
        "head",
        "crates/meter/specs/Limits.antt",
        "-- Limits.\n",
        "",
        "does not begin with a comment",
    );
    one_fault(
        "link",
        "README.md",
        "docs/RULES.md",
        "docs",
        "does not link",
    );
}

#[test]
fn texts_are_taken_apart() {
    assert_eq!(
        ids_in("use-7, book-12: R (day-3) of 2-3 `a-1` x-y half-a"),
        ["use-7", "book-12", "day-3"]
    );
    let found = rules(RULES);
    assert_eq!(found[0].text, "No more than ten, and no less.");
    assert_eq!(
        found[0].fields["stated"],
        "`meter/Limits`: `limit`, `even`, `odd`, `Both`"
    );
    let names: Vec<String> = in_text("meter/Limits", SPECS)
        .into_iter()
        .map(|d| d.name)
        .collect();
    assert_eq!(names, ["limit", "◌⊕◌", "even", "odd", "Both"]);
    assert_eq!(in_text("meter/Limits", SPECS)[4].ids, ["use-2", "use-1"]);
    assert!(choices(DECISIONS).contains(&("the-use".to_string(), "ten itself".to_string())));
}

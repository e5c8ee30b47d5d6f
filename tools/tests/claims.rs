//! The check of the list of claims, on right and wrong samples.
use std::fs;
use std::path::PathBuf;
use tools::claims::{check, claims_in, defines, rows};

const SOURCE: &str = "\
// The figures.
ghost use Rattle.figures.specs.Figures.{figures, FiguresHold};

// They hold.
pub fn figures_hold()
    ensures { FiguresHold }
{
}

pub fn other(n: u64) -> u64
    ensures { result ≡ n }
{
    n
}
";
const SPECS: &str = "-- all figures\nabbrev pub FiguresHold : Type 0\nFiguresHold =\n    -- each\n    all figures ≡ true\n\n-- more\nm = 1\n";
const STATEMENT: &str = "abbrev pub FiguresHold : Type 0\nFiguresHold =\n    all figures ≡ true\n";
const ROW: &str =
    "| The figures hold. | `figures/specs/Figures`: `FiguresHold` | `figures::figures_hold` |";
const LINK: &str = "[claims](docs/CLAIMS.md)";

fn list(row: &str) -> String {
    let text = format!("# Claims\n\n| claim | definition | function |\n|---|---|---|\n{row}\n");
    format!("{text}\n`figures/specs/Figures`\n\n```\n{STATEMENT}```\n")
}

/// What is wrong in a tree of one crate with these texts.
fn wrong(name: &str, source: &str, specs: &str, list: &str, readme: &str) -> Vec<String> {
    let root: PathBuf = std::env::temp_dir().join(format!("claims-{}-{name}", std::process::id()));
    for dir in ["crates/figures/src", "crates/figures/specs", "docs"] {
        fs::create_dir_all(root.join(dir)).unwrap();
    }
    fs::write(root.join("crates/figures/src/lib.rt"), source).unwrap();
    fs::write(root.join("crates/figures/specs/Figures.antt"), specs).unwrap();
    fs::write(root.join("docs/CLAIMS.md"), list).unwrap();
    fs::write(root.join("README.md"), readme).unwrap();
    let outcome = check(&root).unwrap();
    fs::remove_dir_all(&root).unwrap();
    outcome.wrong
}

fn finds(name: &str, source: &str, specs: &str, list: &str, part: &str) {
    let found = wrong(name, source, specs, list, LINK);
    assert!(
        found.iter().any(|line| line.contains(part)),
        "{name}: {found:?}"
    );
}

#[test]
fn a_right_list() {
    assert_eq!(
        wrong("right", SOURCE, SPECS, &list(ROW), LINK),
        Vec::<String>::new()
    );
}

#[test]
fn layout_does_not_matter() {
    let source = SOURCE.replace(
        "()\n    ensures { FiguresHold }\n{\n}",
        "() ensures {\n  FiguresHold } { }",
    );
    assert_eq!(
        wrong("layout", &source, SPECS, &list(ROW), LINK),
        Vec::<String>::new()
    );
}

#[test]
fn a_link_is_missing() {
    assert_eq!(wrong("link", SOURCE, SPECS, &list(ROW), "no link").len(), 1);
}

#[test]
fn a_claim_that_is_not_listed() {
    let more = format!("{SOURCE}\npub fn another()\n    ensures {{ FiguresHold }}\n{{\n}}\n");
    finds(
        "missing",
        &more,
        SPECS,
        &list(ROW),
        "figures::another is a claim and stands in docs/CLAIMS.md 0 times",
    );
}

#[test]
fn a_claim_that_is_listed_twice() {
    finds(
        "twice",
        SOURCE,
        SPECS,
        &list(&format!("{ROW}\n{ROW}")),
        "2 times, not once",
    );
}

#[test]
fn no_rows_at_all() {
    finds("empty", SOURCE, SPECS, "# Claims\n", "lists no claim");
}

#[test]
fn a_row_that_is_none() {
    finds(
        "row",
        SOURCE,
        SPECS,
        &list("| The figures hold. | Figures | figures_hold |"),
        "line 5: not a row",
    );
    finds(
        "cells",
        SOURCE,
        SPECS,
        &list(&ROW.replace("| The figures hold. ", "")),
        "line 5: not a row",
    );
    finds(
        "sentence",
        SOURCE,
        SPECS,
        &list(&ROW.replace("The figures hold.", "")),
        "line 5: not a row",
    );
}

#[test]
fn a_function_that_is_no_claim() {
    let all = list(ROW);
    finds(
        "gone",
        "",
        SPECS,
        &all,
        "no claim function figures::figures_hold",
    );
    finds(
        "private",
        &SOURCE.replace("pub fn figures", "fn figures"),
        SPECS,
        &all,
        "no claim function",
    );
    finds(
        "argument",
        &SOURCE.replace("figures_hold()", "figures_hold(n: u64)"),
        SPECS,
        &all,
        "no claim function",
    );
    finds(
        "result",
        &SOURCE.replace("figures_hold()", "figures_hold() -> u64"),
        SPECS,
        &all,
        "no claim function",
    );
    finds(
        "body",
        &SOURCE.replace("}\n{\n}", "}\n{\n    run();\n}"),
        SPECS,
        &all,
        "no claim function",
    );
    finds(
        "comment",
        &SOURCE.replace("pub fn figures", "// pub fn figures"),
        SPECS,
        &all,
        "no claim function",
    );
}

#[test]
fn another_promise() {
    let all = list(ROW);
    finds(
        "weaker",
        &SOURCE.replace("{ FiguresHold }", "{ true ≡ true }"),
        SPECS,
        &all,
        "promises",
    );
    finds(
        "more",
        &SOURCE.replace("{ FiguresHold }", "{ FiguresHold ⊎ ⊤ }"),
        SPECS,
        &all,
        "promises",
    );
    let asks = SOURCE.replace(
        "    ensures { FiguresHold",
        "    requires { ⊥ }\n    ensures { FiguresHold",
    );
    finds("asks", &asks, SPECS, &all, "promises `requires");
    finds(
        "none",
        &SOURCE.replace("    ensures { FiguresHold }\n", ""),
        SPECS,
        &all,
        "promises ``",
    );
}

#[test]
fn a_definition_that_is_not_there() {
    let all = list(ROW);
    finds("undefined", SOURCE, "", &all, "has no `pub FiguresHold`");
    finds(
        "hidden",
        SOURCE,
        &SPECS.replace("pub ", ""),
        &all,
        "has no `pub FiguresHold`",
    );
    finds(
        "longer",
        SOURCE,
        &SPECS.replace("FiguresHold", "FiguresHoldToo"),
        &all,
        "has no `pub FiguresHold`",
    );
    finds(
        "noted",
        SOURCE,
        "-- pub FiguresHold : Type 0\n",
        &all,
        "has no `pub FiguresHold`",
    );
    finds(
        "file",
        SOURCE,
        SPECS,
        &list(&ROW.replace("specs/Figures", "specs/Other")),
        "crates/figures/specs/Other.antt",
    );
}

#[test]
fn a_definition_of_the_same_name_from_elsewhere() {
    let source = SOURCE.replace(
        "specs.Figures.{figures, FiguresHold}",
        "specs.Other.{figures, FiguresHold}",
    );
    finds(
        "elsewhere",
        &source,
        SPECS,
        &list(ROW),
        "does not take FiguresHold from figures/specs/Figures",
    );
}

#[test]
fn a_statement_that_is_not_the_trees() {
    let all = list(ROW);
    finds(
        "weakened",
        SOURCE,
        &SPECS.replace("all figures", "all []"),
        &all,
        "no definition that reads as this one",
    );
    finds(
        "lengthened",
        SOURCE,
        &SPECS.replace("≡ true", "≡ true\n    → ⊥"),
        &all,
        "no definition that reads as this one",
    );
    finds(
        "shorter",
        SOURCE,
        SPECS,
        &all.replace("    all figures ≡ true\n", ""),
        "no definition that reads as this one",
    );
    finds(
        "left out",
        SOURCE,
        SPECS,
        &all.replace(STATEMENT, "m = 1\n"),
        "the statement of FiguresHold is not given",
    );
    finds(
        "another file",
        SOURCE,
        SPECS,
        &all.replace("`figures/specs/Figures`\n", "`other/specs/X`\n"),
        "crates/other/specs/X.antt",
    );
}

#[test]
fn forms_of_a_definition() {
    for line in [
        "pub D : Type 0",
        "unfoldable pub D : Type 0",
        "abbrev pub D : ℕ",
        "pub record D : Type 0 where",
        "pub record D (a : ℕ) : Type 0 where",
    ] {
        assert!(defines(line, "D"), "{line}");
    }
    assert!(!defines("use x.{D}", "D"));
}

#[test]
fn a_function_in_a_module() {
    let found = claims_in("ledger::claims", SOURCE);
    assert_eq!(found.len(), 1);
    assert_eq!(found[0].path, "ledger::claims::figures_hold");
}

#[test]
fn heads_and_rules_are_no_rows() {
    let (found, wrong) = rows(&list(ROW));
    assert_eq!((found.len(), wrong.len()), (1, 0));
    assert_eq!(found[0].line, 5);
}

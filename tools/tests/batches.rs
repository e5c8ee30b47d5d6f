//! Edits that are tried together, on a small crate: which of them go together, and what an error tells of each.
use std::fs;
use std::path::PathBuf;
use tools::batch;
use tools::edit;
use tools::list::Edit;
use tools::parts::Parts;

const SOURCE: &str = "ghost use Rattle.c.specs.Rules.{low_of, high_of};\n\nfn low(n: u64) -> u64\n    ensures { result ≡ low_of n }\n{\n    n + 1\n}\n\npub fn high(n: u64) -> u64\n    ensures { result ≡ high_of n }\n{\n    low(n) * 2\n}\n\n#[tactic(auto, using(crate::proofs::Laws::apart_law))]\npub fn plain(n: u64) -> u64\n    ensures { result ≡ n }\n{\n    n + 0\n}\n";
const RULES: &str = "-- Rules.\nuse Rattle.std.specs.Prelude.{ℕ, ◌+◌}\n\n-- low\nlow_of : ℕ → ℕ\nlow_of n = n + 1\n\n-- high\nhigh_of : ℕ → ℕ\nhigh_of n = low_of n + low_of n\n\n-- apart\napart_of : ℕ → ℕ\napart_of n = n + 7\n";
const LAWS: &str = "use Rattle.c.specs.Rules.{low_of, high_of, apart_of}\n\nlow_law : low_of 1 ≡ 2\nlow_law = refl\n\nhigh_law : high_of 1 ≡ 4\nhigh_law = refl\n\napart_law : apart_of 1 ≡ 8\napart_law = refl\n";
const LOW: &str =
    "use Rattle.c.proofs.low.Goals as goal\n\npub returns : goal.returns\nreturns c = refl\n";
const HIGH: &str = "use Rattle.c.proofs.low.Met.{met}\n\npub returns : 2 ≡ 2\nreturns = met\n";

/// The crate in a folder of its own, which the test removes.
fn made(name: &str) -> (PathBuf, Parts) {
    let dir = std::env::temp_dir().join(format!("batches-{name}-{}", std::process::id()));
    for (file, text) in [
        ("src/lib.rt", SOURCE),
        ("specs/Rules.antt", RULES),
        ("proofs/Laws.antt", LAWS),
        ("proofs/low/Answers.antt", LOW),
        ("proofs/high/Answers.antt", HIGH),
    ] {
        let path = dir.join(file);
        fs::create_dir_all(path.parent().unwrap()).unwrap();
        fs::write(path, text).unwrap();
    }
    let parts = Parts::of(&dir, "c");
    (dir, parts)
}

fn edit(file: &str, old: &str, new: &str) -> Edit {
    let text = format!("file: {file}\nold: {old}\nnew: {new}\n");
    Edit {
        name: old.into(),
        replacements: edit::parse(&text).unwrap(),
    }
}

/// How many edits are in batches, and how many are tried alone.
fn planned(name: &str, edits: &[Edit]) -> (Vec<usize>, usize) {
    let (dir, parts) = made(name);
    let all: Vec<&Edit> = edits.iter().collect();
    let (batches, single) = batch::plan(&parts, &all);
    fs::remove_dir_all(dir).unwrap();
    (batches.iter().map(Vec::len).collect(), single.len())
}

#[test]
fn bodies_go_together_also_of_a_function_and_its_caller() {
    let edits = [
        edit("src/lib.rt", "n + 1", "n + 2"),
        edit("src/lib.rt", "low(n) * 2", "low(n) * 3"),
        edit("src/lib.rt", "n + 0", "n + 9"),
    ];
    assert_eq!(planned("bodies", &edits), (vec![3], 0));
}

#[test]
fn two_edits_of_one_part_do_not() {
    let edits = [
        edit("src/lib.rt", "low(n) *", "low(n) +"),
        edit("src/lib.rt", "* 2", "* 3"),
    ];
    assert_eq!(planned("one", &edits), (vec![], 2));
}

#[test]
fn definitions_go_together_unless_one_rests_on_the_other() {
    let apart = edit("specs/Rules.antt", "n + 7", "n + 8");
    let low = edit("specs/Rules.antt", "low_of n = n + 1", "low_of n = n + 2");
    let high = edit("specs/Rules.antt", "low_of n + low_of n", "low_of n + n");
    assert_eq!(planned("apart", &[apart, high]), (vec![2], 0));
    let high = edit("specs/Rules.antt", "low_of n + low_of n", "low_of n + n");
    assert_eq!(planned("rests", &[low, high]), (vec![], 2));
}

#[test]
fn a_body_does_not_go_with_what_it_promises() {
    let body = edit("src/lib.rt", "low(n) * 2", "low(n) * 3");
    let rule = edit("specs/Rules.antt", "low_of n + low_of n", "low_of n + n");
    assert_eq!(planned("promise", &[body, rule]), (vec![], 2));
}

#[test]
fn other_places_are_tried_alone() {
    let edits = [
        edit("src/lib.rt", "ghost use", "ghost  use"),
        edit("specs/Rules.antt", "{ℕ, ◌+◌}", "{ℕ}"),
    ];
    assert_eq!(planned("other", &edits), (vec![], 2));
}

/// What is told of `n + 1` in `low` and of `high_of`, with the messages.
fn told(name: &str, said: &str) -> Vec<bool> {
    let (dir, parts) = made(name);
    let edits = [
        edit("src/lib.rt", "n + 1", "n + 2"),
        edit("specs/Rules.antt", "low_of n + low_of n", "low_of n + n"),
    ];
    let all: Vec<&Edit> = edits.iter().collect();
    let (batches, _) = batch::plan(&parts, &all);
    fs::remove_dir_all(dir).unwrap();
    assert_eq!(batches.len(), 1);
    let output = format!("{said}\nlogic=not-proved\n");
    let found = batch::told(&parts, &batches[0], Some(1), &output);
    found.iter().map(Option::is_some).collect()
}

#[test]
fn an_error_tells_of_the_edit_that_it_rests_on() {
    let low = "./proofs/low/Answers.antt:4:1: error: `returns`: x";
    let law = "./proofs/Laws.antt:7:13: error: `high_law`: x";
    assert_eq!(told("both", &format!("{low}\n{law}")), [true, true]);
    assert_eq!(told("body", low), [true, false]);
    assert_eq!(told("law", law), [false, true]);
    assert_eq!(
        told("unrelated", "./proofs/Laws.antt:4:1: error: `low_law`: x"),
        [false, false]
    );
}

#[test]
fn what_the_checker_did_not_find_tells_of_a_body_and_of_what_it_promises() {
    let none = |f: &str| {
        format!("fn c::{f}: no proof: expected answers in ./proofs/{f}/Answers.antt; `search` did not prove `returns`")
    };
    assert_eq!(told("found-low", &none("low")), [true, false]);
    assert_eq!(told("found-high", &none("high")), [false, true]);
    // It rests on all of the lemmas' file, which its attribute names.
    assert_eq!(told("found-plain", &none("plain")), [false, true]);
}

#[test]
fn what_follows_and_what_became_unfit_tell_nothing() {
    let follows = "./proofs/low/Answers.antt:4:1: error: 1 declaration that depends on `returns`, which was rejected, was not checked: low_spec";
    assert_eq!(told("follows", follows), [false, false]);
    let unfit = "./proofs/Laws.antt:7:1: error: `high_law`: `x` is not in scope";
    assert_eq!(told("unfit", unfit), [false, false]);
    let text = "specs/Rules.antt:10:1: error: `high_of`: a type\n./proofs/Laws.antt:7:1: error: `high_law`: x";
    assert_eq!(told("text", text), [false, false]);
}

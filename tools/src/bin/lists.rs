//! Holds docs/RULES.md, docs/CLAIMS.md, docs/EDITS.md and README.md's refusal numbers to the tree, from the top of the
//! repository. If all is well it ends with 0, and its last lines are `rules: N listed, 0 wrong` and the same of `claims`,
//! `wrong programs` and `refusal numbers`.
use std::path::Path;
use std::process::ExitCode;
use tools::claims::{self, Outcome};
use tools::{refusals, rules, wrong_programs};

fn main() -> ExitCode {
    let root = Path::new(".");
    let right = [
        told("rules", rules::check(root)),
        told("claims", claims::check(root)),
        told("wrong programs", wrong_programs::check(root)),
        told("refusal numbers", refusals::check(root)),
    ];
    if right.iter().all(|r| *r) {
        ExitCode::SUCCESS
    } else {
        ExitCode::from(1)
    }
}

/// Shows what is wrong with a list; was nothing?
fn told(name: &str, outcome: Result<Outcome, String>) -> bool {
    let outcome = match outcome {
        Ok(outcome) => outcome,
        Err(message) => {
            println!("{name}: {message}");
            return false;
        }
    };
    for line in &outcome.wrong {
        println!("{name}: {line}");
    }
    println!(
        "{name}: {} listed, {} wrong",
        outcome.listed,
        outcome.wrong.len()
    );
    outcome.wrong.is_empty()
}

//! What the checker said of an edited crate, from its exit status and its output.

#[derive(Debug, PartialEq, Eq)]
pub enum Verdict {
    /// The crate is proved.
    Proved,
    /// Not proved; the first message that shows it says why.
    Refused(String),
    /// Not proved, but only because the edited text itself is wrong, or the proof no longer fits its shape.
    Hollow(String),
    /// It did not come to a proof: the compiler or the toolchain failed.
    Failed(String),
}

/// Messages of a proof that names what the edited code no longer has, or that answers, in place, another goal than
/// the one that is asked there now: such a refusal shows nothing.
const HOLLOW: [&str; 6] = [
    "that can be named from here",
    "has no field",
    "is not in scope",
    "not in scope:",
    "this λ has",
    "`cc` proves only a path",
];

/// In the message of a proof that only rests on one that failed.
const FOLLOWS: [&str; 2] = ["not checked: ", "was not admitted"];

/// What the checker says where it stops at a limit of its own, which it meets wherever it checks the same.
const LIMITS: [&str; 3] = [
    "antt ran out of",
    "outgrew the memory limit",
    "stopped at the step limit",
];

pub fn judge(status: Option<i32>, output: &str) -> Verdict {
    let first = first_message(output);
    match status {
        Some(0) if ended(output, "proved") => Verdict::Proved,
        Some(1) if ended(output, "not-proved") => {
            let all = errors(output);
            match all.iter().find(|e| e.shows) {
                Some(e) if !all.iter().any(OwnError::of_text) => {
                    Verdict::Refused(e.message.clone())
                }
                _ => Verdict::Hollow(first),
            }
        }
        Some(3) if LIMITS.iter().any(|text| output.contains(text)) => {
            Verdict::Refused(format!("only by a limit of the checker: {first}"))
        }
        Some(code) => Verdict::Failed(format!("exit {code}: {first}")),
        None => Verdict::Failed(format!("stopped by a signal: {first}")),
    }
}

/// Did the checker end with "not proved"?
pub fn not_proved(status: Option<i32>, output: &str) -> bool {
    status == Some(1) && ended(output, "not-proved")
}

fn ended(output: &str, verdict: &str) -> bool {
    let told = output.lines().find_map(|line| line.strip_prefix("logic="));
    told.is_some_and(|l| l.split_whitespace().next() == Some(verdict))
}

/// Where an error is: in a file, or in what the checker itself was to find of the proof of a function.
#[derive(Debug, PartialEq, Eq)]
pub enum Place {
    Line(String, usize),
    Function(String),
}

/// An error of its own, which does not only follow from another one.
#[derive(Debug, PartialEq, Eq)]
pub struct OwnError {
    pub place: Place,
    pub message: String,
    /// Whether it is of a proof that no longer holds, and not of one that became unfit, or of the edited text.
    pub shows: bool,
}

impl OwnError {
    /// Is it of the text of code or of definitions?
    pub fn of_text(&self) -> bool {
        let edited = |file: &str| file.starts_with("src/") || file.starts_with("specs/");
        matches!(&self.place, Place::Line(file, _) if edited(file))
    }
}

/// The errors of their own, in the order of the output.
pub fn errors(output: &str) -> Vec<OwnError> {
    messages(output).into_iter().filter_map(own_error).collect()
}

fn own_error(message: String) -> Option<OwnError> {
    if let Some((path, said)) = message.strip_prefix("fn ").and_then(|m| m.split_once(": ")) {
        let own = said.starts_with("no proof") && said.contains("`search` did not prove");
        return own.then(|| OwnError {
            place: Place::Function(path.to_string()),
            message: message.clone(),
            shows: true,
        });
    }
    let (place, said) = message.split_once(": error")?;
    let place = place.strip_prefix("./").unwrap_or(place);
    let mut parts = place.splitn(3, ':');
    let (file, line) = (parts.next()?, parts.next()?.parse().ok()?);
    let has = |texts: &[&str]| texts.iter().any(|text| said.contains(text));
    (!has(&FOLLOWS)).then(|| OwnError {
        place: Place::Line(file.to_string(), line),
        shows: file.starts_with("proofs/") && !has(&HOLLOW),
        message: message.clone(),
    })
}

/// The first error of its own, or else what a function is told not to keep, or else the first one not
/// proved; with the indented lines that go on with it.
pub fn first_message(output: &str) -> String {
    let messages = messages(output);
    let with = |part: &str| {
        let follows = |m: &str| FOLLOWS.iter().any(|text| m.contains(text));
        let fits = |m: &&String| m.contains(part) && !follows(m);
        messages.iter().find(fits).cloned()
    };
    let found = with(": error").or_else(|| with("it is not proved"));
    let found = found.or_else(|| with("not proved"));
    found
        .or(messages.first().cloned())
        .unwrap_or("it said nothing".into())
}

/// The lines of the output, each joined with the indented ones after it.
pub fn messages(output: &str) -> Vec<String> {
    let mut found: Vec<String> = Vec::new();
    for line in output.lines() {
        match found.last_mut() {
            Some(last) if line.starts_with(' ') => {
                last.push(' ');
                last.push_str(line.trim());
            }
            _ => found.push(line.trim_end().to_string()),
        }
    }
    found
}

#[cfg(test)]
mod tests {
    use super::*;

    #[test]
    fn a_proved_crate_is_not_refused() {
        assert_eq!(
            judge(Some(0), "fn a: proved\nlogic=proved functions=3\n"),
            Verdict::Proved
        );
    }

    #[test]
    fn a_fact_that_fails_is_a_refusal() {
        let out =
            "./proofs/f/Proof.antt:3:1: error: `returns`: `omega`: no\n  at x\nlogic=not-proved\n";
        assert!(
            matches!(judge(Some(1), out), Verdict::Refused(m) if m.ends_with("`omega`: no at x"))
        );
    }

    #[test]
    fn a_goal_that_nothing_closes_is_a_refusal() {
        let out = "note: src/lib.rt:9:1: it is not proved that what the function ensures holds\n\
                   fn c::f: no proof: expected answers in ./proofs/f/Answers.antt; `search` did not prove `returns`\n\
                   fn c::g: not proved; it calls `c::f`, which is not proved\nlogic=not-proved\n";
        assert!(matches!(judge(Some(1), out), Verdict::Refused(m) if m.starts_with("fn c::f")));
    }

    #[test]
    fn a_proof_that_only_became_unfit_shows_nothing() {
        let unfit = [
            "proofs/f/Proof.antt:3:1: error: `x`: module `Tie` has no `Need-2` that can be named from here",
            "./proofs/f/Proof.antt:3:1: error: `x`: record `After`\n  has no field `args`",
            "./proofs/f/Answers.antt:3:1: error: `y` is not in scope",
            "specs/Moves.antt:3:1: error: `f`: a type",
            "proofs/f/Proof.antt:9:5: error: `f_spec`: this λ has 2 binders",
        ];
        for text in unfit {
            let follows = "./proofs/f/Proof.antt:24:5: error: 1 declaration that depends on `x`, which was rejected, was not checked: f_spec";
            let out = format!("{text}\n{follows}\nlogic=not-proved\n");
            assert!(matches!(judge(Some(1), &out), Verdict::Hollow(_)), "{text}");
        }
    }

    #[test]
    fn errors_with_their_places() {
        let out = "./proofs/f/Proof.antt:7:1: error: `returns`: x\n  more of it\n\
                   ./proofs/G.antt:9:1: error: 1 declaration that depends on `close`, which was not admitted, was not checked: g\n\
                   specs/S.antt:2:1: error: `s`: a type\n./proofs/H.antt:3:1: error: `h`: `x` is not in scope\n\
                   fn c::f: not proved\n\
                   fn c::i: no proof: expected answers in ./proofs/i/Answers.antt; `search` did not prove `returns`\n\
                   logic=not-proved\n";
        let all = errors(out);
        let places: Vec<(&Place, bool)> = all.iter().map(|e| (&e.place, e.shows)).collect();
        let line = |f: &str, n| Place::Line(f.into(), n);
        assert_eq!(
            places,
            [
                (&line("proofs/f/Proof.antt", 7), true),
                (&line("specs/S.antt", 2), false),
                (&line("proofs/H.antt", 3), false),
                (&Place::Function("c::i".into()), true),
            ]
        );
        assert!(not_proved(Some(1), out));
        assert!(!not_proved(Some(2), out));
        assert!(!not_proved(Some(1), "logic=proved\n"));
    }

    #[test]
    fn what_only_follows_is_passed_over() {
        let out = "./proofs/f/Proof.antt:2:1: error: 1 declaration that depends on `close`, which was not admitted, was not checked: f_spec\n\
                   ./proofs/g/Proof.antt:2:1: error: `g`: x\nlogic=not-proved\n";
        assert!(matches!(judge(Some(1), out), Verdict::Refused(m) if m.starts_with("./proofs/g")));
    }

    #[test]
    fn a_limit_of_the_checker_is_told() {
        let out = "./proofs/f/Proof.antt:7:1: error: `f`: x\nantt ran out of the steps that the check of one declaration may take\n";
        assert!(
            matches!(judge(Some(3), out), Verdict::Refused(m) if m.starts_with("only by a limit"))
        );
        assert!(matches!(judge(Some(3), ""), Verdict::Failed(_)));
    }

    #[test]
    fn no_verdict_is_a_failure() {
        assert!(matches!(
            judge(Some(1), "src/lib.rt:3:1: error: expected `;`\n"),
            Verdict::Failed(_)
        ));
        assert!(matches!(
            judge(Some(2), "logic=not-proved\n"),
            Verdict::Failed(_)
        ));
        assert!(matches!(
            judge(Some(0), "logic=not-proved\n"),
            Verdict::Failed(_)
        ));
        assert!(matches!(judge(None, ""), Verdict::Failed(_)));
    }
}

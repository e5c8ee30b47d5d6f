//! The check of README's refusal numbers, on right and wrong samples.
use tools::refusals::{
    number_faults, number_rows, order_faults, order_rows, orders, reasons, word_faults, words,
};

const WORDS: &str = "# a comment\n0 Open it again.\n7 Pay less.\n17 Ask less.\n";

const ORDER: &str = "\
pub record ReasonsInOrder : Type 0 where
  pub of_open : (p : Plan) → numbers (plan_reasons p) ≡ 17 ∷ []
  pub of_top_up : (a : Account) (n : ℕ)
      → numbers (reasons a (TopUp n)) ≡ 0 ∷ 7 ∷ []
  pub only_these : (rs : List Reason) → among n (numbers rs) ≡ true
";

const README: &str = "\
## Refusal numbers

- **0**, Top-up; before all others: it is broken. *Open it again.*
- **7**, Top-up: it is too much: more than all. *Pay
  less.*
- **17**, Open: it is too much. *Ask less.*

| operation | its reasons, in order |
|---|---|
| Open | 17 |
| Top-up | 0, 7 |

";

/// All faults of a README, the words and the claim's text.
fn faults(readme: &str, table: &str, claim: &str) -> Result<Vec<String>, String> {
    let rows = number_rows(readme)?;
    let orders = orders(claim)?;
    let mut all = word_faults(&rows, &words(table)?);
    all.extend(number_faults(&rows, &orders));
    all.extend(order_faults(&order_rows(readme)?, &orders));
    Ok(all)
}

/// Each try puts a text in the place of another, and something is to be told of it.
fn all_tell(
    text: &str,
    tries: &[(&str, &str, &str)],
    faults: impl Fn(&str) -> Result<Vec<String>, String>,
) {
    for (old, new, told) in tries {
        assert!(text.contains(old), "{old}");
        let said = match faults(&text.replace(old, new)) {
            Ok(lines) => lines.join("; "),
            Err(line) => line,
        };
        assert!(said.contains(told), "{told}: {said}");
    }
}

#[test]
fn right() {
    assert_eq!(faults(README, WORDS, ORDER), Ok(Vec::new()));
}

#[test]
fn wrong_readme() {
    let tries = [
        ("  less.*", "  more.*", "other words of 7"),
        (
            "- **0**, Top-up; before all others: it is broken. *Open it again.*\n",
            "",
            "the numbers [7, 17]",
        ),
        ("**17**, Open:", "**17**, Open, Top-up:", "17 is given by"),
        (
            "| Top-up | 0, 7 |",
            "| Top-up | 7, 0 |",
            "the order of top_up",
        ),
        ("| Open | 17 |\n", "", "the order of open"),
        ("**7**, Top-up", "**seven**, Top-up", "no number: seven"),
        ("## Refusal numbers", "## Numbers", "has no list under"),
        ("| operation |", "| operations |", "has no table"),
        ("| 0, 7 |", "| 0 | 7 |", "a row of other cells"),
        ("*Ask less.*", "Ask less.", "not `**number**"),
    ];
    all_tell(README, &tries, |readme| faults(readme, WORDS, ORDER));
}

#[test]
fn wrong_words() {
    let tries = [
        ("7 Pay less.\n", "", "refusals.txt [0, 17]"),
        ("7 Pay", "8 Pay", "refusals.txt [0, 8, 17]"),
        ("17 Ask less.", "6 Ask less.", "do not rise"),
        ("7 Pay less.", "7 Pay less", "ends in a full stop"),
        ("0 Open", "zero Open", "does not begin with a number"),
        ("7 Pay less.", "7", "not a number, a space and a sentence"),
    ];
    all_tell(WORDS, &tries, |table| faults(README, table, ORDER));
}

#[test]
fn wrong_claim() {
    let tries = [
        ("0 ∷ 7 ∷ []", "7 ∷ 0 ∷ []", "the order of top_up"),
        ("17 ∷ []", "17 ∷ 18 ∷ []", "18 is answered"),
        ("17 ∷ []", "19 ∷ []", "17 is given by"),
        ("17 ∷ []", "[]", "not a list of numbers"),
        ("of_", "for_", "has no lists of numbers"),
    ];
    all_tell(ORDER, &tries, |claim| faults(README, WORDS, claim));
}

#[test]
fn reasons_of_definitions() {
    let text =
        "-- because 9 of it\nf p = because 17 (not p) ∷ because 2 (q p) ∷ []\nbecause n b = r\n";
    assert_eq!(reasons(text).into_iter().collect::<Vec<_>>(), [2, 17]);
}

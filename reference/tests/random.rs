//! A few random trips through all checks, and the pair that shows why the
//! claim about lists is one about all cuts together. Rules list-1 to list-9,
//! book-1 to book-12.

mod common;
use common::*;
use reference::check::check_seed;
use reference::coverage::Coverage;
use reference::matching::trace;

/// list-1, list-9, book-12: some lists through all checks.
#[test]
fn random_trips_hold() {
    let mut coverage = Coverage::new();
    for seed in 1_000_000..1_000_040 {
        check_seed(seed, &mut coverage).unwrap_or_else(|what| panic!("seed {seed}: {what}"));
    }
}

/// list-9: equal at the end, and not ahead of every cut.
#[test]
fn equal_ends_after_different_stretches() {
    let plan = unlimited(1461, 11_000);
    let first = trace(plan, &[home(), data(1), home()]);
    let second = trace(plan, &[home(), home(), data(1)]);
    assert_eq!(first.cuts, second.cuts);
    assert_ne!(first.units, second.units);
    assert_eq!(first.accounts.last(), second.accounts.last());
    assert_ne!(first.accounts, second.accounts);
    assert!(first.matches(&second));
}

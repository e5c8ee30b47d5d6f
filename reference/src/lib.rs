//! A second implementation of the roaming meter, with the requests that are
//! built: off days (off-), the search for caps (rows-), the first half minute
//! (half-), the faults of a plan told apart (fault-), the family box (family-)
//! and calls as lines of text (lines-). It was written from documents 01 and 02
//! and, where they leave a point open, from the readings of docs/DECISIONS.md.
//! It serves as the other side of a differential test (promise-3) and as a
//! baseline for measurements. An id in a comment, as half-1, is that of a rule
//! in docs/RULES.md.
//!
//! Programs: `refstatement` prints a statement, `selfcheck` holds account and
//! family box against their books, `differ` holds the proved meter against this
//! one, `bench` measures both, `stored_cases` makes the stored inputs of the
//! programs with the output that they must give. `planted.sh` shows that
//! `differ` finds wrong rules, `program_cases.sh` runs a program on its stored
//! inputs, and `instructions.sh` counts the proved meter's instructions; the
//! example `timing` times this meter alone.

pub mod accounts;
pub mod book;
pub mod calendar;
pub mod caps;
pub mod charges;
pub mod check;
pub mod coverage;
pub mod damage;
pub mod differ;
pub mod explain;
pub mod family;
pub mod faults;
pub mod generate;
pub mod lines;
pub mod matching;
pub mod meter;
pub mod numbers;
pub mod plan;
pub mod planted;
#[cfg(proved)]
pub mod proved;
pub mod rng;
pub mod services;
pub mod sides;
pub mod statement;
pub mod stored;
pub mod terms;
pub mod tripfile;
pub mod writes;

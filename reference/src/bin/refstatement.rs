//! Reads a trip file and prints its statement. Rules statement-1, statement-2.

use reference::statement::statement;
use reference::tripfile::MAX_FILE;
use std::io::{self, Read, Write};

fn main() -> io::Result<()> {
    // refusal-10: one byte over the limit is enough to know that a file is too
    // long.
    let mut bytes = Vec::new();
    let mut input = io::stdin().lock().take(MAX_FILE as u64 + 1);
    input.read_to_end(&mut bytes)?;
    io::stdout().lock().write_all(statement(&bytes).as_bytes())
}

//! The player program: a table and records on standard input, one line for
//! each record on standard output.

use std::io::{self, BufReader};

fn main() -> io::Result<()> {
    let input = BufReader::with_capacity(64 * 1024, io::stdin().lock());
    // The player gathers its output in large blocks itself.
    second::play::play(input, io::stdout().lock())
}

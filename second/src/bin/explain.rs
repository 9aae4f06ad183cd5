//! The explain program: a table and records on standard input; on standard output
//! the player's line for each record, and under each start its reason.

use std::io::{self, BufReader};

fn main() -> io::Result<()> {
    let input = BufReader::with_capacity(64 * 1024, io::stdin().lock());
    // Output is gathered in large blocks there.
    second::play::explain(input, io::stdout().lock())
}

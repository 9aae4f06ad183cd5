//! The depth program: a table and records on standard input; on standard output
//! one line, the accepted calls, the refused ones, the greatest front height and
//! the mean one in tenths. If calls come that are not tallied, it warns on
//! standard error.

use std::io::{self, BufReader, Write};

use second::depth::Depth;
use second::tally::MOST_CALLS;

fn main() -> io::Result<()> {
    let input = BufReader::with_capacity(64 * 1024, io::stdin().lock());
    let depth = Depth::read(input)?;
    if depth.untallied > 0 {
        eprintln!(
            "warning: only the first {MOST_CALLS} calls are in the report, and not {} more",
            depth.untallied
        );
    }
    writeln!(io::stdout().lock(), "{depth}")
}

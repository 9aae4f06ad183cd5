//! Prints the flag chart: the entries in the order of their indices, base ten, one a
//! line.

use std::io::{self, Write};

fn main() -> io::Result<()> {
    let lines: Vec<String> = second::chart::entries()
        .iter()
        .map(|entry| format!("{entry}\n"))
        .collect();
    io::stdout().lock().write_all(lines.concat().as_bytes())
}

//! What the gate asks of `milch` beside its tests:
//!
//! ```text
//! check lines PLAYER MILCH RECORDS    `show` carries the player's numbers
//! check round FILES                   text and back gives every file again
//! check callers RECORDS               what is told of tasks found and of callers is so
//! check make RECORDS                  writes a recording to standard output
//! ```

mod callers;
mod lines;
mod make;
mod random;
mod round;
mod said;

use std::io::{self, Write};
use std::process::ExitCode;

/// Every run makes the same inputs.
const SEED: u64 = 1;

fn main() -> ExitCode {
    let given: Vec<String> = std::env::args().skip(1).collect();
    let words: Vec<&str> = given.iter().map(String::as_str).collect();
    let done = match words[..] {
        ["lines", player, milch, records] => {
            count(records).and_then(|records| lines::check(player, milch, records as usize, SEED))
        }
        ["round", files] => count(files).and_then(|files| round::check(files, SEED)),
        ["callers", records] => count(records).and_then(|records| callers::check(records, SEED)),
        ["make", records] => count(records).and_then(|records| make(records as usize)),
        _ => {
            let usage = "usage: check lines PLAYER MILCH RECORDS, round FILES, callers RECORDS";
            Err(format!("{usage} or make RECORDS"))
        }
    };
    match done {
        Ok(told) => {
            println!("{told}");
            ExitCode::SUCCESS
        }
        Err(wrong) => {
            eprintln!("check: {wrong}");
            ExitCode::FAILURE
        }
    }
}

fn count(text: &str) -> Result<u64, String> {
    text.parse().map_err(|_| format!("{text} is no number"))
}

/// A recording of an office's day, for measuring.
fn make(records: usize) -> Result<String, String> {
    let mut random = random::Random::new(SEED);
    let bytes = make::typical(&mut random, records);
    let written = io::stdout().write_all(&bytes);
    written.map_err(|error| error.to_string())?;
    std::process::exit(0);
}

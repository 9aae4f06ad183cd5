//! Compares every call of the proved static library with the second
//! navigator's.
//!
//!     calls [--seed N] [--calls N]
//!
//! First a set that is the same for every seed: sessions bad in each of their
//! fields, tables bad in each of theirs and of each wrong length, every screen,
//! flag bit and set of flags, with affinities and with none, every edition byte and
//! every mark of a No-History front, small sessions with such a front and with
//! another, tasks of each height, in each edition.
//! Then calls on random sessions, made from the seed, until there are as many as
//! asked for.
//! After each call the whole lent session, the answer, the table, the buffer and
//! the bytes around them are compared. At the first difference it is printed, and
//! the exit code is 1. At the end the program prints how often each call was
//! made in each edition and on a No-History front, each refusal and each rule came up
//! and how many screens were closed, and exits with 1 if one, or a number that a rule
//! can close, never came up.

mod arguments;
mod fields;
mod fixed;
mod walks;

use std::process::ExitCode;
use std::time::Instant;

use second::random::Random;

use lent_calls::call::Kind;
use lent_calls::check::{Checked, Checker};
use lent_calls::run;
use lent_calls::sessions::T;

fn main() -> ExitCode {
    let Some([seed, calls]) = run::options([("--seed", 1), ("--calls", 2_000_000)]) else {
        eprintln!("usage: calls [--seed N] [--calls N]");
        return ExitCode::from(2);
    };
    let begun = Instant::now();
    let mut checker = run::checker();
    let found = compare(&mut checker, seed, calls);
    let missing = checker.counts.missing(&Kind::ALL, 1);
    run::end("calls", seed, begun, checker.told(), found, missing)
}

fn compare(checker: &mut Checker, seed: u64, calls: u64) -> Checked {
    fixed::sessions(checker)?;
    fixed::tables(checker)?;
    fixed::starts(checker, &T)?;
    fixed::starts(checker, &fixed::no_affinities())?;
    fixed::editions(checker)?;
    fixed::marks(checker)?;
    fixed::fronts(checker)?;
    fixed::heights(checker)?;
    println!("fixed set: {} calls", checker.counts.all_calls());
    let mut random = Random::new(seed);
    while checker.counts.all_calls() < calls {
        walks::walk(checker, &mut random)?;
    }
    Ok(())
}

//! Compares save and restore of the proved static library with the second
//! navigator's.
//!
//!     images [--seed N] [--images N]
//!
//! Sessions, images, buffers and tables, good and bad, are made from a seed;
//! each call is made by the static library and by the second navigator. At the
//! first difference it is printed, and the exit code is 1. At the end the
//! program prints how often each refusal came up, and exits with 1 if one, an
//! edition, or a mark of a No-History front, good or bad, never did.

mod rounds;

use std::process::ExitCode;
use std::time::Instant;

use second::random::Random;

use lent_calls::call::Kind;
use lent_calls::check::{Checked, Checker};
use lent_calls::run;

fn main() -> ExitCode {
    let Some([seed, images]) = run::options([("--seed", 1), ("--images", 500_000)]) else {
        eprintln!("usage: images [--seed N] [--images N]");
        return ExitCode::from(2);
    };
    let begun = Instant::now();
    let mut checker = run::checker();
    let found = compare(&mut checker, seed, images);
    let missing = checker.counts.missing(&[Kind::Save, Kind::Restore], 1);
    run::end("images", seed, begun, checker.told(), found, missing)
}

fn compare(checker: &mut Checker, seed: u64, images: u64) -> Checked {
    let mut random = Random::new(seed);
    rounds::fixed(checker, &mut random)?;
    let target = checker.counts.calls(Kind::Restore) + images;
    while checker.counts.calls(Kind::Restore) < target {
        rounds::round(checker, &mut random)?;
    }
    Ok(())
}

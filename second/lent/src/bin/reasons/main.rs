//! Compares why of the proved static library with the second navigator's, and
//! with start.
//!
//!     reasons [--seed N] [--reasons N]
//!
//! Sessions and tables, good and bad, are made from a seed; under them why is
//! asked with all 128 sets of flags, in each edition, and with other words, and the
//! start is made, by the static library and by the second navigator, until there
//! are as many reasons as asked for. At the first difference it is printed, and the
//! exit code is 1. At the end the program prints how often each refusal and rule
//! came up and what tasks were found by, and exits with 1 if a rule came up fewer
//! than 1,000 times, or anything else never, as a rule in an edition where it can
//! occur.

mod rounds;

use std::process::ExitCode;
use std::time::Instant;

use second::random::Random;

use lent_calls::call::Kind;
use lent_calls::check::{Checked, Checker};
use lent_calls::run;

/// How often each rule has to come up.
const EACH_RULE: u64 = 1000;

fn main() -> ExitCode {
    let Some([seed, reasons]) = run::options([("--seed", 1), ("--reasons", 1_000_000)]) else {
        eprintln!("usage: reasons [--seed N] [--reasons N]");
        return ExitCode::from(2);
    };
    let begun = Instant::now();
    let mut checker = run::checker();
    let found = compare(&mut checker, seed, reasons);
    let missing = checker.counts.missing(&[Kind::Why], EACH_RULE);
    run::end("reasons", seed, begun, checker.told(), found, missing)
}

fn compare(checker: &mut Checker, seed: u64, reasons: u64) -> Checked {
    let mut random = Random::new(seed);
    while checker.counts.calls(Kind::Why) < reasons {
        rounds::round(checker, &mut random)?;
    }
    Ok(())
}

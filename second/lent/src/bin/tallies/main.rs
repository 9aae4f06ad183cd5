//! Compares the tally of the proved static library with the second navigator's.
//!
//!     tallies [--seed N] [--calls N]
//!
//! First every refusal with every height is added to a few tallies, and lists of
//! answers longer than a tally takes are tallied; then calls are added to tallies
//! that are made from the seed, of lists or not, until there are as many calls of
//! the library as asked for. Each time the report is asked for too. At the first
//! difference it is printed, and the exit code is 1. At the end the program prints
//! how often tallies of each sort came up, and exits with 1 if one never did, or a mean
//! in the middle of two tenths, with an even one below or an odd one, fewer than 100
//! times.

mod check;
mod library;
mod made;
mod sorts;
#[cfg(test)]
mod tests;

use std::process::ExitCode;
use std::time::Instant;

use second::random::Random;
use second::tally::{Tally, MOST_CALLS};

use lent_calls::run;

use check::{Asked, Checked, Checker};
use library::{Library, Linked};

fn main() -> ExitCode {
    let Some([seed, calls]) = run::options([("--seed", 1), ("--calls", 2_000_000)]) else {
        eprintln!("usage: tallies [--seed N] [--calls N]");
        return ExitCode::from(2);
    };
    let begun = Instant::now();
    lent_calls::library::expect_abi();
    let mut checker = Checker::new(Linked);
    let found = compare(&mut checker, seed, calls);
    let missing = checker.sorts.missing();
    let told = (&checker.sorts, checker.calls);
    run::end("tallies", seed, begun, told, found, missing)
}

fn compare(checker: &mut Checker<impl Library>, seed: u64, calls: u64) -> Checked {
    every_byte(checker)?;
    let mut random = Random::new(seed);
    lists(checker, &mut random)?;
    let target = checker.calls + calls;
    while checker.calls < target {
        checker.check("any tallies", made::any(&mut random))?;
    }
    Ok(())
}

/// Every refusal with every height, on a fresh tally, others of lists, a full one
/// and one of no list.
fn every_byte(checker: &mut Checker<impl Library>) -> Checked {
    let tally = |sum, accepted, refused, greatest| Tally {
        sum,
        accepted,
        refused,
        greatest,
    };
    let tallies = [
        Tally::default(),
        tally(21, 20, 4, 2),
        tally(7, 65_534, 0, 3),
        tally(7, 30_000, 35_535, 3),
        tally(1, 0, 0, 0),
    ];
    for tally in tallies {
        for (refusal, height) in (0..=255).flat_map(|one| (0..=255).map(move |two| (one, two))) {
            let asked = Asked {
                tally,
                refusal,
                height,
            };
            checker.check("every refusal and height", asked)?;
        }
    }
    Ok(())
}

/// Lists with accepted answers in so many of a hundred, from a fresh tally until
/// after it is full.
fn lists(checker: &mut Checker<impl Library>, random: &mut Random) -> Checked {
    for (accepted, heights) in [(0, 40), (5, 34), (50, 33), (95, 3), (100, 1), (100, 33)] {
        let mut tally = Tally::default();
        for _ in 0..MOST_CALLS + 1000 {
            let refusal = match random.percent(accepted) {
                true => 0,
                false => 1 + random.byte(255),
            };
            let height = random.byte(heights);
            let asked = Asked {
                tally,
                refusal,
                height,
            };
            tally = checker.check("lists of answers", asked)?;
        }
    }
    Ok(())
}

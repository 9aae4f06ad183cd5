//! Compares the functions of the proved static library on lists of calls, with
//! restores and without, with the second navigator's: the length of a record, the
//! record played, and whether two lists end alike.
//!
//!     lists [--seed N] [--lists N]
//!
//! Tables, sessions and lists, good and bad, are made from a seed. From each session
//! records are played one after the other, and of each table two lists are compared,
//! until there are as many pairs of lists as asked for. At the first difference it is
//! printed, as small as it can be made, and the exit code is 1. At the end the
//! program prints how often each case came up, and exits with 1 if one never did.

mod cases;
mod check;
mod library;
mod made;
mod smaller;
#[cfg(test)]
mod tests;

use std::process::ExitCode;
use std::time::Instant;

use second::random::Random;

use lent_calls::damage;
use lent_calls::run;
use lent_calls::sessions::{self, held, Listed};

use check::{Checked, Checker, Ended, Played};
use library::{Library, Linked};

fn main() -> ExitCode {
    let Some([seed, lists]) = run::options([("--seed", 1), ("--lists", 100_000)]) else {
        eprintln!("usage: lists [--seed N] [--lists N]");
        return ExitCode::from(2);
    };
    let begun = Instant::now();
    lent_calls::library::expect_abi();
    let mut checker = Checker::new(Linked);
    let found = compare(&mut checker, seed, lists);
    let missing = checker.counts.missing();
    let told = (&checker.counts, checker.calls);
    run::end("lists", seed, begun, told, found, missing)
}

fn compare(checker: &mut Checker<impl Library>, seed: u64, lists: u64) -> Checked {
    let mut random = Random::new(seed);
    for _ in 0..lists {
        let listed = Listed::random(&mut random);
        walk(checker, &mut random, &listed)?;
        pair(checker, &mut random, &listed)?;
    }
    Ok(())
}

/// Records in turn from a random session, and some of them on a changed session or
/// under a changed table.
fn walk(checker: &mut Checker<impl Library>, random: &mut Random, listed: &Listed) -> Checked {
    let mut session = sessions::sound(random, listed);
    for _ in 0..random.between(1, 10) {
        let record = made::record(random, listed, &session);
        let played = Played {
            table: listed.bytes.clone(),
            session: held(&session),
            list: made::beginning(random, listed, &record),
        };
        if random.percent(10) {
            let session = damage::stored(random, listed, &session);
            let changed = Played {
                session,
                ..played.clone()
            };
            checker.play("sessions changed", changed)?;
        }
        if random.percent(5) {
            let table = damage::table(random, listed);
            let changed = Played {
                table,
                ..played.clone()
            };
            checker.play("tables changed", changed)?;
        }
        session = checker.play("records in turn", played)?;
    }
    Ok(())
}

/// A list, and one that ends as it does or nearly so; some cut, some under a changed
/// table.
fn pair(checker: &mut Checker<impl Library>, random: &mut Random, listed: &Listed) -> Checked {
    let records = random.between(0, 12);
    let mut first = made::list(random, listed, records);
    let second = made::other(random, listed, &first);
    if random.percent(10) {
        first.truncate(random.below(first.len() as u64 + 1) as usize);
    }
    let mut ended = Ended {
        table: listed.bytes.clone(),
        lists: [first, second],
    };
    if random.percent(50) {
        ended.lists.reverse();
    }
    if random.percent(5) {
        ended.table = damage::table(random, listed);
    }
    checker.end("two lists", ended)
}

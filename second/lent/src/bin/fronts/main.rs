//! Compares the possible front screens of the proved static library, where flags of a
//! start are missing, with the second navigator's start made for each filling.
//!
//!     fronts [--seed N] [--calls N]
//!     fronts --turns N
//!
//! Small sessions made from the seed, in each edition and with a No-History front and
//! another, with every mask and every value of the seven flags; then any sessions, full
//! ones too, with random masks and values, and such as are refused, until there are as
//! many calls as asked for. The table ends at a page that may not be touched, or begins
//! right behind one. At the first difference it is printed, as small as it can be made,
//! and the exit code is 1, as after a fault. At the end the program prints how often each
//! case came up, and exits with 1 if one never did.
//!
//! With `--turns` calls of both with nothing known are measured instead, in so many turns.

mod cases;
mod check;
mod library;
mod measured;
#[cfg(test)]
mod tests;

use std::process::ExitCode;
use std::time::Instant;

use second::edition::EDITIONS;
use second::random::Random;
use second::session::{MAX_HEIGHT, MAX_TASKS};
use second::table::{flag_word, ALL_FLAGS, FLAG_WORDS};
use second::Session;

use lent_calls::damage;
use lent_calls::fault;
use lent_calls::run;
use lent_calls::sessions::{self, held, Listed};
use lent_calls::starts;
use lent_calls::stored::Stored;

use check::{Asked, Checked, Checker};
use library::{Library, Linked};

/// In how many parts of a hundred calls the sessions are small ones with every mask.
const SMALL: u64 = 70;
/// How many calls there are from each other session.
const OTHERS: u64 = 30;

fn main() -> ExitCode {
    let known = [("--seed", 1), ("--calls", 500_000), ("--turns", 0)];
    let Some([seed, calls, turns]) = run::options(known) else {
        eprintln!("usage: fronts [--seed N] [--calls N] [--turns N]");
        return ExitCode::from(2);
    };
    let begun = Instant::now();
    lent_calls::library::expect_abi();
    if turns > 0 {
        measured::print_table(turns);
        return ExitCode::SUCCESS;
    }
    fault::watch("fronts");
    let mut checker = Checker::new(Linked);
    let found = compare(&mut checker, seed, calls);
    let missing = checker.counts.missing();
    let told = (&checker.counts, checker.calls);
    run::end("fronts", seed, begun, told, found, missing)
}

fn compare(checker: &mut Checker<impl Library>, seed: u64, calls: u64) -> Checked {
    let mut random = Random::new(seed);
    while checker.calls < calls * SMALL / 100 {
        small(checker, &mut random)?;
    }
    while checker.calls < calls {
        others(checker, &mut random)?;
    }
    Ok(())
}

/// A small session, in each edition and with either front, with every mask and value.
fn small(checker: &mut Checker<impl Library>, random: &mut Random) -> Checked {
    let screens = random.between(1, 4) as u8;
    let listed = Listed::new(random.table(screens, 2, &[3, 2, 2, 1]));
    let tasks = random.between(1, 3) as usize;
    let session = held(&sessions::built(random, &listed, tasks, 1, 3));
    let mut asked = Asked {
        table: listed.bytes,
        session,
        screen: random.byte(u16::from(screens)),
        mask: 0,
        value: 0,
    };
    for (edition, no_history) in EDITIONS
        .iter()
        .flat_map(|&edition| [(edition, 0), (edition, 1)])
    {
        asked.session = Stored {
            edition,
            no_history,
            ..session
        };
        for mask in (0..FLAG_WORDS).map(flag_word) {
            for value in (0..FLAG_WORDS).map(flag_word) {
                if value & !mask == 0 {
                    (asked.mask, asked.value) = (mask, value);
                    checker.check("every mask and value", &asked)?;
                }
            }
        }
    }
    Ok(())
}

/// Any session, and starts from it with some bits known; some on a changed session,
/// under a changed table, of a screen that is not listed, or with wrong bits.
fn others(checker: &mut Checker<impl Library>, random: &mut Random) -> Checked {
    let listed = Listed::random(random);
    let session = any_session(random, &listed);
    for _ in 0..OTHERS {
        let (mask, value) = known(random);
        let mut asked = Asked {
            table: listed.bytes.clone(),
            session: held(&session),
            screen: starts::screen(random, &listed, &session),
            mask,
            value,
        };
        checker.check("any sessions", &asked)?;
        match random.below(20) {
            0 => asked.table = damage::table(random, &listed),
            1 | 2 => asked.session = damage::stored(random, &listed, &session),
            3 => asked.screen = random.one_of(&[listed.screens, 64, 255]),
            _ => continue,
        }
        checker.check("something changed", &asked)?;
    }
    Ok(())
}

/// A session of any size, or at the limits of tasks or of heights.
fn any_session(random: &mut Random, listed: &Listed) -> Session {
    match random.below(4) {
        0 => sessions::built(random, listed, MAX_TASKS, 1, 2),
        1 => sessions::built(random, listed, 2, MAX_HEIGHT - 1, MAX_HEIGHT),
        _ => sessions::sound(random, listed),
    }
}

/// A mask and a value, mostly good.
fn known(random: &mut Random) -> (u32, u32) {
    let mask = match random.below(6) {
        0 => 0,
        1 => ALL_FLAGS,
        2 => ALL_FLAGS & !flag_word(1 << random.below(7)),
        _ => flag_word(random.below(u64::from(FLAG_WORDS)) as u32),
    };
    let value = random.next() as u32 & mask;
    let bit = 1 << random.below(32);
    match random.below(12) {
        0 => (mask | bit, value),
        1 => (mask, value | bit),
        2 => (mask & !bit, value | bit),
        _ => (mask, value),
    }
}

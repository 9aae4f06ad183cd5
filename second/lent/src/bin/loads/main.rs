//! Compares the generator of loads of the proved static library with the second
//! navigator's.
//!
//!     loads [--seed N] [--loads N]
//!
//! First a few tables with each of some seeds and buffers of each length from 0 to 100;
//! then tables, good and bad, seeds and buffers that are made from the seed, as many as
//! asked for; then one load of ten million records. Table and buffer end at a page that
//! may not be touched, or begin right behind one. Compared are the refusal, the count,
//! the last state, every byte of the buffer and the bytes beside it. At the first
//! difference it is printed, as small as it can be made, and the exit code is 1, as after
//! a fault. At the end the program prints how often each case came up, and exits with 1
//! if one never did.

mod cases;
mod check;
mod library;
#[cfg(test)]
mod tests;

use std::process::ExitCode;
use std::time::Instant;

use second::random::Random;

use lent_calls::damage;
use lent_calls::fault;
use lent_calls::run;
use lent_calls::sessions::{Listed, T};

use cases::LENGTHS;
use check::{Asked, Checked, Checker, LONGEST};
use library::{Library, Linked};

/// Seeds that are tried in any case.
const SEEDS: [u32; 9] = [
    0,
    1,
    2,
    3,
    1 << 15,
    1 << 16,
    1 << 31,
    u32::MAX - 1,
    u32::MAX,
];

fn main() -> ExitCode {
    let Some([seed, loads]) = run::options([("--seed", 1), ("--loads", 1_000_000)]) else {
        eprintln!("usage: loads [--seed N] [--loads N]");
        return ExitCode::from(2);
    };
    let begun = Instant::now();
    lent_calls::library::expect_abi();
    fault::watch("loads");
    let mut checker = Checker::new(Linked);
    let found = compare(&mut checker, seed, loads).and_then(|()| longest(&mut checker, seed));
    let missing = checker.counts.missing();
    let told = (&checker.counts, checker.calls);
    run::end("loads", seed, begun, told, found, missing)
}

fn compare(checker: &mut Checker<impl Library>, seed: u64, loads: u64) -> Checked {
    let mut random = Random::new(seed);
    fixed(checker, &mut random)?;
    for _ in 0..loads {
        let asked = any(&mut random);
        checker.check("any loads", asked)?;
    }
    Ok(())
}

/// Each of some seeds and each short length, under T, the smallest table and one of the
/// largest.
fn fixed(checker: &mut Checker<impl Library>, random: &mut Random) -> Checked {
    let tables = [T.to_vec(), vec![1, 0, 3, 0], random.table(64, 9, &[1; 4])];
    for table in tables {
        for seed in SEEDS {
            for length in 0..=LENGTHS {
                let buffer = filled(random, length);
                let table = table.clone();
                let asked = Asked {
                    table,
                    seed,
                    buffer,
                };
                checker.check("each seed and length", asked)?;
            }
        }
    }
    Ok(())
}

/// A load of ten million records, and five bytes beyond.
fn longest(checker: &mut Checker<impl Library>, seed: u64) -> Checked {
    let mut random = Random::new(seed);
    let asked = Asked {
        table: random.table(61, 9, &[1; 4]),
        seed: random.next() as u32 | 1,
        buffer: filled(&mut random, LONGEST),
    };
    checker.check("ten million records", asked)
}

fn any(random: &mut Random) -> Asked {
    let listed = Listed::random(random);
    let table = match random.below(20) {
        0 => damage::noise(random, 200),
        1 | 2 => damage::table(random, &listed),
        _ => listed.bytes,
    };
    let seed = match random.below(10) {
        0 => random.one_of(&SEEDS),
        1 => 1 << random.below(32),
        _ => random.next() as u32,
    };
    let length = match random.below(50) {
        0 => random.below(4000),
        _ => random.between(0, LENGTHS as u64),
    };
    let buffer = filled(random, length as usize);
    Asked {
        table,
        seed,
        buffer,
    }
}

/// Bytes of which no record is made up by chance: a few random ones over and over.
fn filled(random: &mut Random, length: usize) -> Vec<u8> {
    let bytes = random.next().to_le_bytes();
    bytes.into_iter().cycle().take(length).collect()
}

//! Compares the containers of panels of the proved static library with the second
//! navigator's.
//!
//!     containers [--seed N] [--calls N]
//!
//! First all lists of up to four calls over two panels and one operation each, call by
//! call and played whole; then steps and Backs on held containers, good and bad in each
//! of their fields, and lists, made from the seed, until there are as many calls as asked
//! for. What is lent ends at a page that may not be touched, or begins right behind one.
//! Compared are the refusal, every byte of the container, the bytes that were lent and
//! those beside them. At the first difference it is printed, as small as it can be made,
//! and the exit code is 1, as after a fault. At the end the program prints how often each
//! case came up, and exits with 1 if one never did.

mod cases;
mod check;
mod library;
mod made;
mod stored;
#[cfg(test)]
mod tests;

use std::process::ExitCode;
use std::time::Instant;

use second::panels::Call;
use second::random::Random;

use lent_calls::fault;
use lent_calls::run;

use check::{Asked, Checked, Checker};
use library::{Library, Linked};
use stored::Stored;

/// How many calls the longest of all short lists have.
const SHORT: usize = 4;

fn main() -> ExitCode {
    let Some([seed, calls]) = run::options([("--seed", 1), ("--calls", 2_000_000)]) else {
        eprintln!("usage: containers [--seed N] [--calls N]");
        return ExitCode::from(2);
    };
    let begun = Instant::now();
    lent_calls::library::expect_abi();
    fault::watch("containers");
    let mut checker = Checker::new(Linked);
    let found = compare(&mut checker, seed, calls);
    let missing = checker.counts.missing();
    let told = (&checker.counts, checker.calls);
    run::end("containers", seed, begun, told, found, missing)
}

fn compare(checker: &mut Checker<impl Library>, seed: u64, calls: u64) -> Checked {
    short_lists(checker, &mut Vec::new(), Stored::EMPTY, SHORT)?;
    let mut random = Random::new(seed);
    let target = checker.calls + calls;
    while checker.calls < target {
        walk(checker, &mut random)?;
        let list = made::list(&mut random);
        checker.check("lists", Asked::Play { list })?;
    }
    Ok(())
}

/// The list, which leads to this container, and all lists of up to so many calls more.
fn short_lists(
    checker: &mut Checker<impl Library>,
    list: &mut Vec<u8>,
    held: Stored,
    more: usize,
) -> Checked {
    let whole = list.clone();
    let after = checker.check("short lists, whole", Asked::Play { list: whole })?;
    assert!(after == held, "a list is its calls");
    if more == 0 {
        return Ok(());
    }
    let length = list.len();
    for (kind, bytes) in short_calls() {
        let after = checker.check("short lists, call by call", call(held, kind, bytes))?;
        list.extend([kind, (bytes.len() / 2) as u8]);
        list.extend(bytes);
        short_lists(checker, list, after, more - 1)?;
        list.truncate(length);
    }
    Ok(())
}

/// A step of each operation on either of two panels, recorded and not, and Back.
fn short_calls() -> impl Iterator<Item = (u8, &'static [u8])> {
    const STEPS: [&[u8]; 6] = [&[1, 0], &[1, 1], &[2, 0], &[2, 1], &[3, 0], &[3, 1]];
    let steps = STEPS.into_iter();
    let steps = steps.flat_map(|bytes| [(Call::STEP, bytes), (Call::RECORDED_STEP, bytes)]);
    steps.chain([(Call::BACK, &[][..])])
}

/// A call of this kind on a held container.
fn call(held: Stored, kind: u8, bytes: &[u8]) -> Asked {
    match kind {
        Call::BACK => Asked::Back { held },
        _ => Asked::Step {
            held,
            recorded: u8::from(kind == Call::RECORDED_STEP),
            operations: bytes.to_vec(),
        },
    }
}

/// Calls one after the other from a held container.
fn walk(checker: &mut Checker<impl Library>, random: &mut Random) -> Checked {
    let mut held = made::held(random);
    for _ in 0..random.between(1, 12) {
        let asked = match random.below(4) {
            0 => Asked::Back { held },
            _ => Asked::Step {
                held,
                recorded: random.one_of(&[0, 0, 1, 1, 1, 2, 255]),
                operations: made::operations(random),
            },
        };
        held = checker.check("calls in turn", asked)?;
    }
    Ok(())
}

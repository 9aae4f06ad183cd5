//! Compares an outside player, report program or generator of loads with this package's
//! own.
//!
//!     compare [--player PATH | --explain PATH] [--seed N] [--records N] [--sweep]
//!     compare (--depth PATH | --load PATH) [--seed N] [--records N]
//!
//! Inputs are made from a seed, played through the outside program and through
//! the library here, and compared line by line. With `--explain` the program is
//! one that writes the reason under each start. At the first difference the
//! smallest example that can be found is printed and the exit code is 1. With
//! `--sweep`, every call from every small session follows (see `sweep`). At the
//! end it prints how often each rule came up in each edition, with the No-History
//! flag and from such a front, and each refusal, and how many screens were closed, and
//! exits with 1 if an edition, a rule in an edition where it can occur, such a flag or
//! front, a refusal or a number that a rule can close never came up.
//!
//! With `--depth` the program is one that writes the depth report of a recording,
//! and warns on standard error where not all calls are tallied, and only there. It
//! exits with 1 too if a way of rounding, an extreme of the report, a recording with
//! too many calls or one with a No-History front never came up, or a mean in the middle
//! of two tenths, with an even one below or an odd one, fewer than 100 times (see
//! `depths`).
//!
//! With `--load` the program is one that makes a load (see `loads`).

mod check;
mod counts;
mod depths;
mod fronts;
mod heights;
mod limits;
mod lines;
mod loads;
mod make;
mod no_history;
mod outside;
mod recordings;
mod shrink;
mod sweep;
#[cfg(test)]
mod tests;

use std::path::PathBuf;
use std::process::ExitCode;

use second::play::{push_explained, push_line, Writing};

use check::{Checker, Difference, Manner};
use depths::Depths;
use lines::Lines;
use outside::Program;

/// What the outside program writes.
#[derive(Clone, Copy)]
enum Kind {
    Lines(Writing),
    Depth,
    Load,
}

struct Options {
    /// Which program is compared, the player if none is named.
    program: Option<(PathBuf, Kind)>,
    seed: u64,
    records: u64,
    sweep: bool,
}

impl Options {
    /// Names the program. `None` if one is named already.
    fn name(&mut self, path: String, kind: Kind) -> Option<()> {
        let before = self.program.replace((PathBuf::from(path), kind));
        before.is_none().then_some(())
    }

    /// The program that is named, or else the player.
    fn program(&self) -> (PathBuf, Kind) {
        let player = || {
            let own = PathBuf::from("crates/player/out/player");
            (own, Kind::Lines(push_line))
        };
        self.program.clone().unwrap_or_else(player)
    }
}

fn options() -> Option<Options> {
    let mut options = Options {
        program: None,
        seed: 1,
        records: 3_000_000,
        sweep: false,
    };
    let mut arguments = std::env::args().skip(1);
    while let Some(argument) = arguments.next() {
        match argument.as_str() {
            "--player" => options.name(arguments.next()?, Kind::Lines(push_line))?,
            "--explain" => options.name(arguments.next()?, Kind::Lines(push_explained))?,
            "--depth" => options.name(arguments.next()?, Kind::Depth)?,
            "--load" => options.name(arguments.next()?, Kind::Load)?,
            "--seed" => options.seed = arguments.next()?.parse().ok()?,
            "--records" => options.records = arguments.next()?.parse().ok()?,
            "--sweep" => options.sweep = true,
            _ => return None,
        }
    }
    // The sweep's records are too many for a report, and a load is not played.
    let swept = options.sweep && !matches!(options.program(), (_, Kind::Lines(_)));
    (!swept).then_some(options)
}

/// Compares, and tells what was found.
fn compare<M: Manner>(
    options: &Options,
    mut checker: Checker<M>,
    run: fn(&Options, &mut Checker<M>) -> Result<(), Box<Difference>>,
) -> ExitCode {
    if let Err(difference) = run(options, &mut checker) {
        let smallest = shrink::shrink(&mut checker, *difference);
        print!("{smallest}");
        println!("compare: seed {}, a difference", options.seed);
        return ExitCode::FAILURE;
    }
    print!("{}", checker.manner);
    let missing = checker.manner.missing();
    if !missing.is_empty() {
        println!("compare: never came up: {}", missing.join(", "));
        return ExitCode::FAILURE;
    }
    println!("compare: {} records, no difference", checker.records);
    ExitCode::SUCCESS
}

fn main() -> ExitCode {
    let Some(options) = options() else {
        eprintln!(
            "usage: compare [--player PATH | --explain PATH] [--seed N] [--records N] [--sweep]"
        );
        eprintln!("       compare (--depth PATH | --load PATH) [--seed N] [--records N]");
        return ExitCode::from(2);
    };
    let (program, kind) = options.program();
    if !program.is_file() {
        eprintln!("compare: there is no {}", program.display());
        return ExitCode::from(2);
    }
    let program = Program {
        path: program,
        arguments: Vec::new(),
    };
    match kind {
        Kind::Lines(writing) => {
            let checker = Checker::new(program, Lines::new(writing));
            compare(&options, checker, lines::run)
        }
        Kind::Depth => {
            let checker = Checker::new(program, Depths::default());
            compare(&options, checker, depths::run)
        }
        Kind::Load => loads::compare(&options, program.path),
    }
}

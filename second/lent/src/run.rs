//! What the comparing programs share: their options, and how they end.

use std::fmt::Display;
use std::process::ExitCode;
use std::time::Instant;

use crate::check::Checker;
use crate::library;

/// The numbers given after these options, or what stands here. `None` if the
/// arguments are not such options.
pub fn options<const N: usize>(mut known: [(&str, u64); N]) -> Option<[u64; N]> {
    let mut arguments = std::env::args().skip(1);
    while let Some(argument) = arguments.next() {
        let option = known.iter_mut().find(|(name, _)| *name == argument)?;
        option.1 = arguments.next()?.parse().ok()?;
    }
    Some(known.map(|(_, number)| number))
}

/// A checker of the library, which has the interface that is declared here.
pub fn checker() -> Checker {
    library::expect_abi();
    Checker::default()
}

/// Tells what a comparison found, what it counted and how many calls it made; it
/// fails by a difference, and by what did not come up and was to.
pub fn end(
    program: &str,
    seed: u64,
    begun: Instant,
    (counts, calls): (&impl Display, u64),
    found: Result<(), impl Display>,
    missing: Vec<String>,
) -> ExitCode {
    if let Err(difference) = found {
        print!("{difference}");
        println!("{program}: seed {seed}, a difference");
        return ExitCode::FAILURE;
    }
    print!("{counts}");
    if !missing.is_empty() {
        println!("{program}: did not come up: {}", missing.join("; "));
        return ExitCode::FAILURE;
    }
    println!(
        "{program}: seed {seed}, {calls} calls, no difference, {:.1} s",
        begun.elapsed().as_secs_f64()
    );
    ExitCode::SUCCESS
}

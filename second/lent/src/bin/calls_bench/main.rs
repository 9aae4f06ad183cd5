//! Measures the calls of the proved static library beside the second
//! navigator's, in one run.
//!
//!     calls_bench
//!     calls_bench --once lent|second CALL SIZE COUNT
//!
//! Each call gets a good table's bytes and a sound session and checks both; what
//! it is lent is made ready outside of the time. The two take turns, and beside
//! them, but for save and restore, the same in plain Rust by value. The table
//! printed gives nanoseconds a call, the best turn and the middle one, and the
//! ratio of the best of the first two. With `--once` one of the two makes so many calls of one
//! kind on sessions of one size, for a tool that counts the instructions of the
//! functions `measured_lent` and `measured_second`.

mod by_value;
mod lot;
mod turns;

use std::process::ExitCode;

use lent_calls::library;
use lent_calls::sizes::Size;

use lot::Lot;

fn main() -> ExitCode {
    library::expect_abi();
    let arguments: Vec<String> = std::env::args().skip(1).collect();
    let arguments: Vec<&str> = arguments.iter().map(String::as_str).collect();
    match arguments[..] {
        [] => turns::print_table(),
        ["--once", who, call, size, count] => {
            let kind = lot::KINDS.into_iter().find(|kind| kind.name() == call);
            let size = Size::ALL.into_iter().find(|known| known.name() == size);
            let (Some(kind), Some(size), Ok(count)) = (kind, size, count.parse()) else {
                return usage();
            };
            let lot = Lot::new(kind, size);
            match who {
                "lent" => turns::once_lent(&lot, count),
                "second" => turns::once_second(&lot, count),
                _ => return usage(),
            }
        }
        _ => return usage(),
    }
    ExitCode::SUCCESS
}

fn usage() -> ExitCode {
    eprintln!("usage: calls_bench [--once lent|second CALL small|typical|full COUNT]");
    ExitCode::from(2)
}

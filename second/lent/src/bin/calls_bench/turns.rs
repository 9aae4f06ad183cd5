//! Turns of both, and the table of their times.

use lent_calls::sizes::Size;
use lent_calls::stored::SESSION;
use lent_calls::times::Times;

use crate::lot::{
    self, measured_by_value, measured_copy, measured_lent, measured_second, Lot, CALLS,
};

/// How many turns each of the two takes.
const TURNS: usize = 500;

pub fn print_table() {
    println!("nanoseconds a call, best (middle) of {TURNS} turns of {CALLS} calls");
    println!("call            size             lent           second  ratio         by value");
    for kind in lot::KINDS {
        for size in Size::ALL {
            let [lent, second, by_value] = alternate(&Lot::new(kind, size));
            print!(
                "{:<15} {:<8} {:>7.1} {:>8} {:>7.1} {:>8} {:>6.2}",
                kind.name(),
                size.name(),
                lent.best(),
                format!("({:.0})", lent.middle()),
                second.best(),
                format!("({:.0})", second.middle()),
                lent.best() / second.best()
            );
            if by_value.is_empty() {
                println!();
            } else {
                println!(
                    " {:>7.1} {:>8}",
                    by_value.best(),
                    format!("({:.0})", by_value.middle())
                );
            }
        }
    }
    let copy = copies();
    println!(
        "copying a session of {SESSION} bytes: {:.1} ({:.1})",
        copy.best(),
        copy.middle()
    );
}

fn alternate(lot: &Lot) -> [Times; 3] {
    let [mut lent, mut second, mut by_value]: [Times; 3] = Default::default();
    if lot.is_by_value() {
        lot.check_by_value();
    }
    for _ in 0..TURNS {
        let mut sessions = lot.for_library();
        lent.measure(CALLS, || measured_lent(lot, &mut sessions));
        let mut sessions = lot.for_second();
        second.measure(CALLS, || measured_second(lot, &mut sessions));
        if lot.is_by_value() {
            let mut sessions = lot.for_library();
            by_value.measure(CALLS, || measured_by_value(lot, &mut sessions));
        }
    }
    [lent, second, by_value]
}

fn copies() -> Times {
    let lot = Lot::new(lot::KINDS[0], Size::Full);
    let from = lot.for_library();
    let mut times = Times::default();
    for _ in 0..TURNS {
        let mut to = lot.for_library();
        times.measure(CALLS, || measured_copy(&from, &mut to));
    }
    times
}

/// So many calls by the library.
pub fn once_lent(lot: &Lot, count: usize) {
    for made in (0..count).step_by(CALLS) {
        let mut sessions = lot.for_library();
        sessions.truncate(count - made);
        measured_lent(lot, &mut sessions);
    }
}

/// So many calls by the second navigator.
pub fn once_second(lot: &Lot, count: usize) {
    for made in (0..count).step_by(CALLS) {
        let mut sessions = lot.for_second();
        sessions.truncate(count - made);
        measured_second(lot, &mut sessions);
    }
}

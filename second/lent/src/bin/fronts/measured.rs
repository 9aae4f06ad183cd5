//! Calls of both with nothing known, measured in turns.

use std::hint::black_box;

use second::fronts;
use second::Session;

use lent_calls::sessions::{held, T};
use lent_calls::sizes::Size;
use lent_calls::stored::Stored;
use lent_calls::times::Times;

use crate::library::{Library, Linked};

/// How many calls a turn is: one of each screen.
const CALLS: usize = T[0] as usize;

pub fn print_table(turns: u64) {
    println!("nothing known: nanoseconds a call, best (middle) of {turns} turns of {CALLS} calls");
    println!("size             lent             second  ratio");
    for size in Size::ALL {
        let session = size.session();
        let stored = held(&session);
        let [mut lent, mut second]: [Times; 2] = Default::default();
        for _ in 0..turns {
            lent.measure(CALLS, || measured_lent(&stored));
            second.measure(CALLS, || measured_second(&session));
        }
        println!(
            "{:<8} {:>9.0} {:>9} {:>9.0} {:>9} {:>6.2}",
            size.name(),
            lent.best(),
            format!("({:.0})", lent.middle()),
            second.best(),
            format!("({:.0})", second.middle()),
            lent.best() / second.best()
        );
    }
}

#[inline(never)]
fn measured_lent(session: &Stored) {
    for screen in 0..T[0] {
        black_box(Linked.fronts(&T, session, screen, 0, 0));
    }
}

#[inline(never)]
fn measured_second(session: &Session) {
    for screen in 0..T[0] {
        let _ = black_box(fronts::fronts(&T, session, screen, 0, 0));
    }
}

//! Starts by the rules and starts by the chart, both the library's, measured in turns.

use std::hint::black_box;

use second::calls;
use second::table::flag_word;
use second::Session;

use lent_calls::library;
use lent_calls::sessions::{held, T};
use lent_calls::sizes::Size;
use lent_calls::stored::Stored;
use lent_calls::times::Times;

use crate::library::{Library, Linked};

/// How many calls a turn is.
const CALLS: usize = 64;

pub fn print_table(turns: u64) {
    println!("nanoseconds a start, best (middle) of {turns} turns of {CALLS} calls");
    println!("size         by rules         by chart  ratio");
    for size in Size::ALL {
        let session = size.session();
        let starts = starts(&session);
        let stored = held(&session);
        let [mut rules, mut chart]: [Times; 2] = Default::default();
        for _ in 0..turns {
            let mut sessions = [stored; CALLS];
            rules.measure(CALLS, || by_rules(&starts, &mut sessions));
            let mut sessions = [stored; CALLS];
            chart.measure(CALLS, || by_chart(&starts, &mut sessions));
        }
        println!(
            "{:<8} {:>7.1} {:>8} {:>7.1} {:>8} {:>6.2}",
            size.name(),
            rules.best(),
            format!("({:.0})", rules.middle()),
            chart.best(),
            format!("({:.0})", chart.middle()),
            chart.best() / rules.best()
        );
    }
}

/// Of each screen with each set of the six flags, some that are accepted.
fn starts(session: &Session) -> Vec<(u8, u32)> {
    let sets = (0..64).map(flag_word);
    let accepted: Vec<(u8, u32)> = sets
        .flat_map(|flags| (0..T[0]).map(move |screen| (screen, flags)))
        .filter(|&(screen, flags)| calls::why(&T, session, screen, flags).refusal == 0)
        .collect();
    (0..CALLS)
        .map(|place| accepted[place * accepted.len() / CALLS])
        .collect()
}

#[inline(never)]
fn by_rules(starts: &[(u8, u32)], sessions: &mut [Stored]) {
    for (&(screen, flags), session) in starts.iter().zip(sessions) {
        black_box(library::start(&T, session, screen, flags));
    }
}

#[inline(never)]
fn by_chart(starts: &[(u8, u32)], sessions: &mut [Stored]) {
    for (&(screen, flags), session) in starts.iter().zip(sessions) {
        black_box(Linked.start(&T, session, screen, flags));
    }
}

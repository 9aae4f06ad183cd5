//! Compares the flag chart of the proved static library and its starts by the chart with
//! the second navigator's chart and its start.
//!
//!     charts [--seed N] [--starts N]
//!     charts --turns N
//!
//! First the entry at every index of 16 bits; then starts, plain and finishing, on
//! sessions that are made from the seed, with all 128 sets of flags from each of them,
//! in each edition and with a No-History front and another, and starts that are refused,
//! until there are as many as asked for. Table and session end at a page that may not be
//! touched, or begin right behind one. Compared are the answer, the whole session, the
//! table and the bytes beside them. At the first difference it is printed, as small as it
//! can be made, and the exit code is 1, as after a fault. At the end the program prints
//! how often entries were reached, and exits with 1 if one of the 512 was not by an
//! accepted start of either kind, in an edition, from either front, or if a refusal never
//! came up.
//!
//! With `--turns` the library's starts by the rules and by the chart are measured instead,
//! in so many turns.

mod cases;
mod check;
mod library;
mod measured;
#[cfg(test)]
mod tests;

use std::process::ExitCode;
use std::time::Instant;

use second::edition::EDITIONS;
use second::random::Random;
use second::table::{flag_word, FLAG_WORDS};
use second::{Session, Task};

use lent_calls::damage;
use lent_calls::fault;
use lent_calls::run;
use lent_calls::sessions::{self, held, Listed};
use lent_calls::starts;
use lent_calls::stored::Stored;

use check::{Asked, Checked, Checker};
use library::{Library, Linked};

/// How many starts of other sorts there are from each session.
const OTHERS: u64 = 40;

fn main() -> ExitCode {
    let known = [("--seed", 1), ("--starts", 2_000_000), ("--turns", 0)];
    let Some([seed, starts, turns]) = run::options(known) else {
        eprintln!("usage: charts [--seed N] [--starts N] [--turns N]");
        return ExitCode::from(2);
    };
    let begun = Instant::now();
    lent_calls::library::expect_abi();
    if turns > 0 {
        measured::print_table(turns);
        return ExitCode::SUCCESS;
    }
    fault::watch("charts");
    let mut checker = Checker::new(Linked);
    let found = compare(&mut checker, seed, starts);
    let missing = checker.counts.missing();
    let told = (&checker.counts, checker.calls);
    run::end("charts", seed, begun, told, found, missing)
}

fn compare(checker: &mut Checker<impl Library>, seed: u64, starts: u64) -> Checked {
    for index in 0..=u16::MAX {
        checker.entry(index)?;
    }
    let mut random = Random::new(seed);
    let target = checker.calls + starts;
    while checker.calls < target {
        round(checker, &mut random)?;
    }
    Ok(())
}

/// A random session under a random table, in each edition and with either front, and
/// starts of a screen with every set of flags; then starts in turn and others.
fn round(checker: &mut Checker<impl Library>, random: &mut Random) -> Checked {
    let listed = Listed::random(random);
    let mut session = sessions::sound(random, &listed);
    if random.percent(40) {
        single_instance_to_front(&listed, &mut session);
    }
    let screen = random.byte(u16::from(listed.screens));
    let asked = Asked {
        table: listed.bytes.clone(),
        session: held(&session),
        finishing: false,
        screen,
        flags: 0,
    };
    for (edition, no_history) in EDITIONS
        .iter()
        .flat_map(|&edition| [(edition, 0), (edition, 1)])
    {
        // An empty session is refused in 6 and 7, and with such a front.
        let session = Stored {
            edition,
            no_history,
            ..asked.session
        };
        for number in 0..FLAG_WORDS {
            let asked = Asked {
                session,
                finishing: random.percent(50),
                flags: flag_word(number),
                ..asked.clone()
            };
            checker.start("every set of flags", asked)?;
        }
    }
    in_turn(checker, random, &listed, asked)
}

/// Brings the first single-instance task, if there is one, to the front; the main task
/// counts as gone then.
fn single_instance_to_front(listed: &Listed, session: &mut Session) {
    let is_alone = |task: &Task| listed.table.is_single_instance(task.root);
    if let Some(place) = session.tasks.iter().position(is_alone) {
        session.tasks[..=place].rotate_right(1);
        session.main = 0;
    }
}

/// Starts one after the other, some of them on a changed session or under a changed
/// table.
fn in_turn(
    checker: &mut Checker<impl Library>,
    random: &mut Random,
    listed: &Listed,
    mut asked: Asked,
) -> Checked {
    for _ in 0..OTHERS {
        let session = asked.session.view();
        asked.finishing = random.percent(30);
        asked.screen = starts::screen(random, listed, &session);
        asked.flags = starts::flags(random);
        if random.percent(10) {
            let session = damage::stored(random, listed, &session);
            let changed = Asked {
                session,
                ..asked.clone()
            };
            checker.start("sessions changed", changed)?;
        }
        if random.percent(5) {
            let table = damage::table(random, listed);
            let changed = Asked {
                table,
                ..asked.clone()
            };
            checker.start("tables changed", changed)?;
        }
        asked.session = checker.start("starts in turn", asked.clone())?;
    }
    Ok(())
}

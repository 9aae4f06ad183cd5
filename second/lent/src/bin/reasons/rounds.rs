//! What is compared: starts under random tables and from random sessions.

use second::edition::EDITIONS;
use second::random::Random;
use second::table::{flag_word, FLAG_WORDS};

use lent_calls::call::Call;
use lent_calls::check::{Checked, Checker};
use lent_calls::damage;
use lent_calls::sessions::{self, held, Listed};
use lent_calls::starts;
use lent_calls::stored::Stored;

/// How many starts are made of each other sort.
const OTHERS: usize = 8;

/// A random session under a random table, and starts from it.
pub fn round(checker: &mut Checker, random: &mut Random) -> Checked {
    let listed = Listed::random(random);
    let session = sessions::sound(random, &listed);
    checker.counts.add_session(&session);
    let present = held(&session);
    let screen = starts::screen(random, &listed, &session);
    for edition in EDITIONS {
        // An empty session is refused in 6 and 7.
        let present = Stored { edition, ..present };
        for set in 0..FLAG_WORDS {
            let start = (screen, flag_word(set));
            ask(
                checker,
                "every set of flags",
                &listed.bytes,
                &present,
                start,
            )?;
        }
    }
    for _ in 0..OTHERS {
        let screen = starts::screen(random, &listed, &session);
        let start = (screen, starts::flags(random));
        let other_bit = (screen, start.1 | 1 << random.below(32));
        ask(checker, "other flags", &listed.bytes, &present, other_bit)?;
        let any = (random.byte(256), start.1);
        ask(checker, "any screen", &listed.bytes, &present, any)?;
        let bad = damage::stored(random, &listed, &session);
        ask(checker, "sessions changed", &listed.bytes, &bad, start)?;
        let table = match random.below(4) {
            0 => Listed::random(random).bytes,
            _ => damage::table(random, &listed),
        };
        ask(checker, "tables changed", &table, &present, start)?;
    }
    Ok(())
}

/// Asks for the reason of a start, and makes the start.
fn ask(
    checker: &mut Checker,
    what: &'static str,
    table: &[u8],
    present: &Stored,
    (screen, flags): (u8, u32),
) -> Checked {
    let why = checker.check(what, table, present, Call::Why { screen, flags })?;
    let start = checker.check(what, table, present, Call::Start { screen, flags })?;
    assert!(
        why.reply.refusal() == start.reply.refusal(),
        "why is refused as the start is"
    );
    Ok(())
}

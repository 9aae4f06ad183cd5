//! Random calls, one after the other on one session, and calls on changed
//! sessions and under changed tables between them.

use second::random::Random;

use lent_calls::check::{Checked, Checker};
use lent_calls::damage;
use lent_calls::sessions::{self, held, Listed};

use crate::arguments;

/// Calls from a random session under a random table.
pub fn walk(checker: &mut Checker, random: &mut Random) -> Checked {
    let listed = Listed::random(random);
    let mut session = sessions::sound(random, &listed);
    checker.counts.add_session(&session);
    let mut image = Vec::new();
    for _ in 0..random.between(1, 40) {
        let present = held(&session);
        let call = arguments::call(random, &listed, &session, &mut image);
        let after = checker.check("calls in turn", &listed.bytes, &present, call)?;
        if random.percent(10) {
            let bad = damage::stored(random, &listed, &session);
            checker.check("sessions changed", &listed.bytes, &bad, call)?;
        }
        if random.percent(5) {
            let table = match random.below(4) {
                0 => Listed::random(random).bytes,
                _ => damage::table(random, &listed),
            };
            checker.check("tables changed", &table, &present, call)?;
        }
        session = after.session.view();
    }
    Ok(())
}

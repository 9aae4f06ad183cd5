//! The cases that are to come up.

use std::fmt;

use second::cases::{Case, Cases};
use second::fronts::fillings;
use second::table::{ALL_FLAGS, NO_HISTORY};
use second::{calls, Refusal};

use lent_calls::stored::Stored;

use crate::check::Asked;
use crate::library::FrontSet;

/// What was asked, and what the second navigator gave.
pub struct Seen {
    asked: Asked,
    given: FrontSet,
    /// Whether a filling is refused by 23, or by 24, and whether an accepted one empties
    /// the session; of those that are not refused with an empty set.
    fillings: Option<[bool; 3]>,
}

impl Seen {
    fn is_refused(&self, refusal: Refusal) -> bool {
        self.given.refusal == refusal as u8
    }

    fn is_empty(&self) -> bool {
        self.asked.session.n == 0
    }

    /// Whether it is not refused and the session has a task.
    fn is_told(&self) -> bool {
        self.given.refusal == 0 && !self.is_empty()
    }

    fn is_marked(&self) -> bool {
        self.asked.session.no_history == 1
    }

    fn has(&self, screen: u8) -> bool {
        self.given.set >> screen & 1 == 1
    }

    fn mask_is_wrong(&self) -> bool {
        self.asked.mask & !ALL_FLAGS != 0
    }

    fn value_is_wrong(&self) -> bool {
        self.asked.value & !self.asked.mask != 0
    }

    fn front(&self) -> u8 {
        let front = &self.asked.session.tasks[0];
        front.screens[usize::from(front.height) - 1]
    }

    /// Whether nothing is in the set, for this one reason alone.
    fn none(&self, reasons: [bool; 3]) -> bool {
        self.fillings == Some(reasons)
    }
}

const CASES: [Case<Seen>; 28] = [
    ("refused with 1", |seen| {
        seen.is_refused(Refusal::TableLength)
    }),
    ("refused with 2", |seen| {
        seen.is_refused(Refusal::TableContent)
    }),
    ("refused with 20", |seen| {
        seen.is_refused(Refusal::SessionUnsound)
    }),
    ("refused with 3", |seen| {
        seen.is_refused(Refusal::NoSuchScreen)
    }),
    ("3 where 35 is so too", |seen| {
        seen.is_refused(Refusal::NoSuchScreen) && seen.mask_is_wrong()
    }),
    ("3 on an empty session", |seen| {
        seen.is_refused(Refusal::NoSuchScreen) && seen.is_empty()
    }),
    ("35 for a bit of the mask alone", |seen| {
        seen.is_refused(Refusal::KnownBits) && !seen.value_is_wrong()
    }),
    ("35 for a bit of the value alone", |seen| {
        seen.is_refused(Refusal::KnownBits) && !seen.mask_is_wrong()
    }),
    ("35 for a value bit outside the seven", |seen| {
        let outside = seen.asked.value & !ALL_FLAGS != 0;
        seen.is_refused(Refusal::KnownBits) && !seen.mask_is_wrong() && outside
    }),
    ("35 on an empty session", |seen| {
        seen.is_refused(Refusal::KnownBits) && seen.is_empty()
    }),
    ("an empty session", |seen| {
        seen.given.refusal == 0 && seen.is_empty()
    }),
    ("no screen: each filling is refused by 23", |seen| {
        seen.none([true, false, false])
    }),
    ("no screen: each filling is refused by 24", |seen| {
        seen.none([false, true, false])
    }),
    ("no screen: each filling empties", |seen| {
        seen.none([false, false, true])
    }),
    ("the started screen alone", |seen| {
        seen.given.count == 1 && seen.has(seen.asked.screen)
    }),
    ("another alone", |seen| {
        seen.given.count == 1 && !seen.has(seen.asked.screen)
    }),
    ("the started screen and another", |seen| {
        seen.given.count == 2 && seen.has(seen.asked.screen)
    }),
    ("the front itself", |seen| {
        seen.is_told() && !seen.is_marked() && seen.front() == seen.asked.screen
    }),
    ("a No-History front itself", |seen| {
        seen.is_told() && seen.is_marked() && seen.front() == seen.asked.screen
    }),
    ("what a No-History front uncovers", |seen| {
        let others = seen.given.set & !(1 << seen.asked.screen);
        seen.is_told() && seen.is_marked() && others != 0
    }),
    ("screen 0", |seen| seen.has(0)),
    ("screen 63", |seen| seen.has(63)),
    ("nothing known", |seen| {
        seen.is_told() && seen.asked.mask == 0
    }),
    ("everything known", |seen| {
        seen.is_told() && seen.asked.mask == ALL_FLAGS
    }),
    ("No-History alone not known", |seen| {
        seen.is_told() && seen.asked.mask == ALL_FLAGS & !NO_HISTORY
    }),
    ("edition 6", |seen| in_edition(seen, 6)),
    ("edition 7", |seen| in_edition(seen, 7)),
    ("edition 8", |seen| in_edition(seen, 8)),
];

fn in_edition(seen: &Seen, edition: u8) -> bool {
    seen.given.count > 0 && seen.asked.session.edition == edition
}

/// Of those that are told with no screen, what becomes of the fillings.
fn of_fillings(asked: &Asked, given: FrontSet) -> Option<[bool; 3]> {
    let Stored { n, .. } = asked.session;
    if given.refusal != 0 || given.set != 0 || n == 0 {
        return None;
    }
    let mut reasons = [false; 3];
    for word in fillings(asked.mask, asked.value) {
        let mut session = asked.session.view();
        match calls::start(&asked.table, &mut session, asked.screen, word).refusal {
            23 => reasons[0] = true,
            24 => reasons[1] = true,
            _ => reasons[2] = true,
        }
    }
    Some(reasons)
}

pub struct Counts {
    cases: Cases<Seen>,
    /// The most screens in a set.
    most: u8,
}

impl Counts {
    pub fn new() -> Counts {
        Counts {
            cases: Cases::new(&CASES),
            most: 0,
        }
    }

    pub fn add(&mut self, asked: &Asked, given: FrontSet) {
        self.most = self.most.max(given.count);
        self.cases.add(&Seen {
            asked: asked.clone(),
            given,
            fillings: of_fillings(asked, given),
        });
    }

    pub fn missing(&self) -> Vec<String> {
        self.cases.missing()
    }
}

impl fmt::Display for Counts {
    fn fmt(&self, f: &mut fmt::Formatter) -> fmt::Result {
        write!(f, "{}", self.cases)?;
        writeln!(f, "the most screens in a set: {}", self.most)
    }
}

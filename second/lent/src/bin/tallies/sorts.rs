//! The sorts of tallies that are to come up, and the ways to add a call to them.

use std::fmt;

use second::cases::{Case, Cases};
use second::tally::{Tally, MOST_CALLS};

use crate::check::{Asked, Outcome};

/// What is to come up, in what is asked and what the second navigator gives.
const CASES: [Case<(Asked, Outcome)>; 16] = [
    ("accepted calls added", |(asked, outcome)| {
        outcome.added == 0 && asked.refusal == 0
    }),
    ("refused calls added", |(asked, outcome)| {
        outcome.added == 0 && asked.refusal != 0
    }),
    ("refused calls above 32 added", |(asked, outcome)| {
        outcome.added == 0 && asked.refusal != 0 && asked.height > 32
    }),
    ("a height of 32 added", |(asked, outcome)| {
        outcome.added == 0 && asked.refusal == 0 && asked.height == 32
    }),
    ("31 for a height of 33", |(asked, _)| {
        asked.refusal == 0 && asked.height == 33 && has_room(&asked.tally)
    }),
    ("31 at the 65,536th call", |(asked, _)| {
        is_full(&asked.tally) && asked.height <= 32
    }),
    ("the 65,535th call added", |(_, outcome)| {
        outcome.added == 0 && is_full(&outcome.after)
    }),
    ("the least sum", |(asked, _)| {
        let Tally { sum, greatest, .. } = asked.tally;
        has_accepted(&asked.tally) && greatest > 0 && sum == u32::from(greatest)
    }),
    ("the greatest sum", |(asked, _)| {
        let Tally { sum, accepted, .. } = asked.tally;
        has_accepted(&asked.tally) && accepted > 1 && sum == most(&asked.tally)
    }),
    ("65,536 calls alone wrong", |(asked, _)| {
        asked.tally.calls() == MOST_CALLS + 1 && is_well_but_for_calls(&asked.tally)
    }),
    ("a greatest of 33 alone wrong", |(asked, _)| {
        let greatest = asked.tally.greatest;
        greatest == 33 && is_well_with(asked, |tally| tally.greatest = 32)
    }),
    ("a sum one too small", |(asked, _)| {
        is_bad(asked) && is_well_with(asked, |tally| tally.sum = tally.sum.saturating_add(1))
    }),
    ("a sum one too large", |(asked, _)| {
        is_bad(asked) && is_well_with(asked, |tally| tally.sum = tally.sum.saturating_sub(1))
    }),
    ("a sum with nothing accepted", |(asked, _)| {
        let Tally { accepted, sum, .. } = asked.tally;
        accepted == 0 && sum > 0 && is_well_with(asked, |tally| tally.sum = 0)
    }),
    ("a greatest with nothing accepted", |(asked, _)| {
        let Tally { accepted, .. } = asked.tally;
        accepted == 0 && is_bad(asked) && is_well_with(asked, |tally| tally.greatest = 0)
    }),
    ("a sum that passes 32 bits ten times", |(asked, _)| {
        asked.tally.sum.checked_mul(10).is_none()
    }),
];

/// How often each exact half is to come up.
const EACH_HALF: u64 = 100;

/// The means in the middle of two tenths.
const HALVES: [Case<Asked>; 2] = [
    ("an exact half, even below", |asked| {
        half_above(asked).is_some_and(|below| below % 2 == 0)
    }),
    ("an exact half, odd below", |asked| {
        half_above(asked).is_some_and(|below| below % 2 == 1)
    }),
];

/// The whole tenths below the mean, where it is such a one.
fn half_above(asked: &Asked) -> Option<u32> {
    has_accepted(&asked.tally)
        .then(|| asked.tally.half_above())
        .flatten()
}

fn most(tally: &Tally) -> u32 {
    u32::from(tally.accepted) * u32::from(tally.greatest)
}

fn is_bad(asked: &Asked) -> bool {
    !asked.tally.is_of_a_list()
}

fn has_accepted(tally: &Tally) -> bool {
    tally.is_of_a_list() && tally.accepted > 0
}

fn is_full(tally: &Tally) -> bool {
    tally.is_of_a_list() && tally.calls() == MOST_CALLS
}

fn has_room(tally: &Tally) -> bool {
    tally.is_of_a_list() && !is_full(tally)
}

fn is_well_but_for_calls(tally: &Tally) -> bool {
    let fewer = Tally {
        refused: 0,
        ..*tally
    };
    fewer.is_of_a_list()
}

/// Whether a list gives the tally so changed.
fn is_well_with(asked: &Asked, change: fn(&mut Tally)) -> bool {
    let mut tally = asked.tally;
    change(&mut tally);
    tally.is_of_a_list()
}

/// How often each sort came up.
pub struct Sorts {
    cases: Cases<(Asked, Outcome)>,
    halves: Cases<Asked>,
}

impl Sorts {
    pub fn new() -> Sorts {
        Sorts {
            cases: Cases::new(&CASES),
            halves: Cases::at_least(EACH_HALF, &HALVES),
        }
    }

    pub fn add(&mut self, asked: Asked, outcome: Outcome) {
        self.cases.add(&(asked, outcome));
        self.halves.add(&asked);
    }

    pub fn missing(&self) -> Vec<String> {
        [self.cases.missing(), self.halves.missing()].concat()
    }
}

impl fmt::Display for Sorts {
    fn fmt(&self, f: &mut fmt::Formatter) -> fmt::Result {
        write!(f, "{}{}", self.cases, self.halves)
    }
}

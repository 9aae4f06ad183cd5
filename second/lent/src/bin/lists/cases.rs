//! The cases that are to come up.

use std::fmt;

use second::cases::{Case, Cases};
use second::lists::{self, First};
use second::session::Answer;
use second::Session;

use crate::check::{Ended, Played};

/// A record that was played, as the second navigator sees it.
pub struct Step {
    first: u8,
    is_cut: bool,
    image: Option<usize>,
    is_last: bool,
    refusal: u8,
}

impl Step {
    pub fn new(played: &Played, answer: &Answer) -> Step {
        let (first, behind) = lists::split(&played.list);
        Step {
            first: played.list.first().copied().unwrap_or(0),
            is_cut: matches!(first, First::Cut),
            image: match first {
                First::Restore(image) => Some(image.len()),
                _ => None,
            },
            is_last: behind.is_empty(),
            refusal: answer.refusal,
        }
    }
}

/// How two lists ended.
pub struct Pair {
    refusal: u8,
    lists_differ: bool,
    endings: [Session; 2],
    pub told_apart: bool,
}

impl Pair {
    pub fn new(Ended { table, lists }: &Ended) -> Pair {
        let endings = lists.each_ref().map(|list| lists::ending(table, list));
        let [one, other] = endings.clone();
        Pair {
            refusal: match lists::same_ending(table, &[], &[]) {
                Ok(_) => 0,
                Err(refusal) => refusal as u8,
            },
            lists_differ: lists[0] != lists[1],
            endings,
            told_apart: lists::told_apart(table, one, other),
        }
    }

    pub fn alike(&self) -> bool {
        self.endings[0].image() == self.endings[1].image()
    }

    /// Whether the endings are apart, and are not with one of them so changed.
    fn differ_in(&self, change: fn(&mut Session, &Session)) -> bool {
        let [mut one, other] = self.endings.clone();
        let apart = one != other;
        change(&mut one, &other);
        apart && one == other
    }
}

const STEPS: [Case<Step>; 24] = [
    ("an empty list", |step| step.is_cut && step.first == 0),
    ("a cut record", |step| {
        step.is_cut && step.first != lists::RESTORE
    }),
    ("a cut restore", |step| {
        step.is_cut && step.first == lists::RESTORE
    }),
    ("an unknown kind", |step| !step.is_cut && step.first > 6),
    ("a restore of no bytes", |step| step.image == Some(0)),
    ("a restore with records behind it", |step| {
        step.image.is_some() && !step.is_last && step.refusal == 0
    }),
    ("a restore at the end", |step| {
        step.image.is_some() && step.is_last && step.refusal == 0
    }),
    ("an image of 550 bytes", |step| {
        step.image == Some(550) && step.refusal == 0
    }),
    ("accepted", |step| step.refusal == 0),
    ("refused with 1", |step| step.refusal == 1),
    ("refused with 2", |step| step.refusal == 2),
    ("refused with 3", |step| step.refusal == 3),
    ("refused with 4", |step| step.refusal == 4),
    ("refused with 5", |step| step.refusal == 5),
    ("refused with 6", |step| step.refusal == 6),
    ("refused with 7", |step| step.refusal == 7),
    ("refused with 9", |step| step.refusal == 9),
    ("refused with 20", |step| step.refusal == 20),
    ("refused with 21", |step| step.refusal == 21),
    ("refused with 22", |step| step.refusal == 22),
    ("refused with 23", |step| step.refusal == 23),
    ("refused with 24", |step| step.refusal == 24),
    ("refused with 30", |step| step.refusal == 30),
    ("a restore refused with 20", |step| {
        step.image.is_some() && step.refusal == 20
    }),
];

const PAIRS: [Case<Pair>; 10] = [
    ("endings refused with 1", |pair| pair.refusal == 1),
    ("endings refused with 2", |pair| pair.refusal == 2),
    ("alike, by other lists", |pair| {
        pair.refusal == 0 && pair.alike() && pair.lists_differ
    }),
    ("alike and empty, by other lists", |pair| {
        pair.refusal == 0 && pair.alike() && pair.lists_differ && pair.endings[0].is_empty()
    }),
    ("apart", |pair| !pair.alike()),
    ("apart in the mark alone", |pair| {
        pair.differ_in(|one, other| one.no_history = other.no_history)
    }),
    ("apart in the edition alone", |pair| {
        pair.differ_in(|one, other| one.edition = other.edition)
    }),
    ("apart in the main place alone", |pair| {
        pair.differ_in(|one, other| one.main = other.main)
    }),
    ("apart in a root alone", |pair| {
        pair.differ_in(|one, other| {
            for (task, same) in one.tasks.iter_mut().zip(&other.tasks) {
                task.root = same.root;
            }
        })
    }),
    ("apart and in front the same", |pair| {
        let [one, other] = pair.endings.each_ref().map(|session| session.answer(0));
        !pair.alike() && one == other
    }),
];

pub struct Counts {
    pub steps: Cases<Step>,
    pub pairs: Cases<Pair>,
}

impl Counts {
    pub fn new() -> Counts {
        Counts {
            steps: Cases::new(&STEPS),
            pairs: Cases::new(&PAIRS),
        }
    }

    pub fn missing(&self) -> Vec<String> {
        [self.steps.missing(), self.pairs.missing()].concat()
    }
}

impl fmt::Display for Counts {
    fn fmt(&self, f: &mut fmt::Formatter) -> fmt::Result {
        write!(f, "{}{}", self.steps, self.pairs)
    }
}

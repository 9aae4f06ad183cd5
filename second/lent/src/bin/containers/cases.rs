//! The cases that are to come up.

use std::fmt;

use second::cases::{Case, Cases};
use second::panels::{self, Call, Container, Operation};

use crate::check::{Asked, Given};
use crate::stored::Stored;

/// A call on a held container, as the second navigator sees it.
pub struct Seen {
    held: Stored,
    container: Container,
    /// Of a step, whether it is recorded, and its bytes; none of Back.
    step: Option<(u8, Vec<u8>)>,
    refusal: u8,
    after: Vec<u8>,
}

impl Seen {
    fn is_step(&self, refusal: u8) -> bool {
        self.step.is_some() && self.refusal == refusal
    }

    fn is_back(&self, refusal: u8) -> bool {
        self.step.is_none() && self.refusal == refusal
    }

    /// Whether the step has such bytes.
    fn bytes(&self, has: impl Fn(&[u8]) -> bool) -> bool {
        self.step.as_ref().is_some_and(|(_, bytes)| has(bytes))
    }

    fn is_recorded(&self) -> bool {
        self.step
            .as_ref()
            .is_some_and(|(recorded, _)| *recorded != 0)
    }

    /// The operations of the step, if they are good.
    fn operations(&self) -> Vec<Operation> {
        let bytes = self.step.as_ref().map(|(_, bytes)| Operation::list(bytes));
        bytes.and_then(Result::ok).unwrap_or_default()
    }

    /// Whether the step has good operations.
    fn is_good(&self) -> bool {
        !self.operations().is_empty()
    }

    fn steps(&self) -> usize {
        self.container.kept.len()
    }

    /// Whether a recorded step kept more than eight panels, and nothing else is wrong.
    fn kept_alone_wrong(&self) -> bool {
        let [now, steps] = [self.container.now.len(), self.steps()];
        now <= 8 && steps <= 8 && self.container.kept.iter().any(|kept| kept.len() > 8)
    }

    /// Whether bytes that are not looked at were not 0 and are after an accepted call.
    fn clears_beyond(&self) -> bool {
        self.refusal == 0 && Stored::hold(&self.container) != self.held
    }
}

const CALLS: [Case<Seen>; 34] = [
    ("a step accepted", |seen| {
        seen.is_step(0) && !seen.is_recorded()
    }),
    ("a recorded step accepted", |seen| {
        seen.is_step(0) && seen.is_recorded()
    }),
    ("recorded by another byte than 1", |seen| {
        seen.is_step(0)
            && seen
                .step
                .as_ref()
                .is_some_and(|&(recorded, _)| recorded > 1)
    }),
    ("Back accepted", |seen| seen.is_back(0)),
    ("bytes beyond cleared by a step", |seen| {
        seen.is_step(0) && seen.clears_beyond()
    }),
    ("bytes beyond cleared by Back", |seen| {
        seen.is_back(0) && seen.clears_beyond()
    }),
    ("a refused call with bytes beyond", |seen| {
        seen.refusal > 36 && Stored::hold(&seen.container) != seen.held
    }),
    ("no operation", |seen| seen.bytes(<[u8]>::is_empty)),
    ("four operations", |seen| {
        seen.is_step(0) && seen.bytes(|bytes| bytes.len() == 8)
    }),
    ("five operations", |seen| {
        seen.is_step(36) && seen.bytes(|bytes| bytes.len() == 10)
    }),
    ("an odd number of bytes", |seen| {
        seen.is_step(36) && seen.bytes(|bytes| bytes.len() % 2 == 1)
    }),
    ("kind 0", |seen| {
        seen.is_step(36) && seen.bytes(|bytes| bytes.len() == 2 && bytes[0] == 0)
    }),
    ("kind 4", |seen| {
        seen.is_step(36) && seen.bytes(|bytes| bytes.len() == 2 && bytes[0] == 4)
    }),
    ("a bad kind behind a ninth panel", |seen| {
        let is_full = seen.container.now.len() == 8 && seen.steps() <= 8;
        seen.is_step(36) && is_full && seen.bytes(|bytes| bytes.len() == 8 && bytes[0] == 1)
    }),
    ("nine steps, by a step", |seen| {
        seen.is_step(36) && seen.is_good() && seen.steps() == 9
    }),
    ("nine panels now, by a step", |seen| {
        seen.is_step(36) && seen.is_good() && seen.container.now.len() == 9
    }),
    ("nine panels kept, by a step", |seen| {
        seen.is_step(36) && seen.is_good() && seen.kept_alone_wrong()
    }),
    ("nine steps, by Back", |seen| {
        seen.is_back(36) && seen.steps() == 9
    }),
    ("nine panels now, by Back", |seen| {
        seen.is_back(36) && seen.container.now.len() == 9 && seen.steps() <= 8
    }),
    ("nine panels kept, by Back", |seen| {
        seen.is_back(36) && seen.kept_alone_wrong()
    }),
    ("nine panels beyond the steps", |seen| {
        let beyond = seen.held.kept.iter().skip(seen.steps());
        seen.refusal == 0 && beyond.map(|kept| kept.count).any(|count| count > 8)
    }),
    ("37 by the first operation", |seen| {
        seen.is_step(37) && seen.container.now.len() == 8
    }),
    ("37 by a later one", |seen| {
        seen.is_step(37) && seen.container.now.len() < 8
    }),
    ("37 though a remove follows", |seen| {
        let last = seen.operations().last().copied();
        seen.is_step(37) && matches!(last, Some(Operation::Remove(_)))
    }),
    ("37 though a replace follows", |seen| {
        let last = seen.operations().last().copied();
        seen.is_step(37) && matches!(last, Some(Operation::Replace(_)))
    }),
    ("a remove and an add at eight", |seen| {
        let is_full = seen.container.now.len() == 8;
        let kinds = seen.bytes(|bytes| bytes.len() == 4 && bytes[0] == 2 && bytes[2] == 1);
        seen.is_step(0) && is_full && kinds
    }),
    ("37 where 38 is so too", |seen| {
        seen.is_step(37) && !seen.is_recorded() && seen.steps() > 0
    }),
    ("37 at the ninth step", |seen| {
        seen.is_step(37) && seen.is_recorded() && seen.steps() == 8
    }),
    ("38 at the ninth step", |seen| {
        seen.is_step(38) && seen.is_recorded()
    }),
    ("38 over recorded steps", |seen| {
        seen.is_step(38) && !seen.is_recorded()
    }),
    ("38 by Back", |seen| seen.is_back(38)),
    ("a remove of the topmost of several", |seen| {
        let &[Operation::Remove(panel)] = &seen.operations()[..] else {
            return false;
        };
        let copies = seen.container.now.iter().filter(|&&other| other == panel);
        seen.is_step(0) && copies.count() > 1
    }),
    ("a remove of none", |seen| {
        let &[Operation::Remove(panel)] = &seen.operations()[..] else {
            return false;
        };
        seen.is_step(0) && !seen.container.now.contains(&panel)
    }),
    ("the eighth step", |seen| {
        seen.is_step(0) && seen.after[9] == 8
    }),
];

/// A list, as the second navigator sees it.
pub struct Played {
    list: Vec<u8>,
    /// The refusals of its calls, 0 for those that were made.
    refusals: Vec<u8>,
    after: Container,
}

impl Played {
    fn kinds(&self) -> impl Iterator<Item = u8> + '_ {
        panels::calls(&self.list).map(|call| call.kind)
    }

    fn is_cut(&self) -> bool {
        let calls = panels::calls(&self.list);
        let read: usize = calls.map(|call| 2 + call.operations.len()).sum();
        read < self.list.len()
    }
}

const LISTS: [Case<Played>; 10] = [
    ("an empty list", |played| played.list.is_empty()),
    ("a list with a cut call", Played::is_cut),
    ("a list with an unknown kind", |played| {
        played.kinds().any(|kind| !(1..=3).contains(&kind))
    }),
    ("a list with operations of Back", |played| {
        let mut calls = panels::calls(&played.list);
        calls.any(|call| call.kind == Call::BACK && !call.operations.is_empty())
    }),
    ("a list with 36", |played| played.refusals.contains(&36)),
    ("a list with 37", |played| played.refusals.contains(&37)),
    ("a list with 38", |played| played.refusals.contains(&38)),
    ("a list of more than 30 calls", |played| {
        played.refusals.len() > 30
    }),
    ("a list that ends with eight steps", |played| {
        played.after.kept.len() == 8
    }),
    ("a list that ends with eight panels", |played| {
        played.after.now.len() == 8
    }),
];

pub struct Counts {
    calls: Cases<Seen>,
    lists: Cases<Played>,
}

impl Counts {
    pub fn new() -> Counts {
        Counts {
            calls: Cases::new(&CALLS),
            lists: Cases::new(&LISTS),
        }
    }

    /// Counts what was asked by what the second navigator gave.
    pub fn add(&mut self, asked: &Asked, given: &Given) {
        let (held, step) = match asked {
            Asked::Step {
                held,
                recorded,
                operations,
            } => (*held, Some((*recorded, operations.clone()))),
            Asked::Back { held } => (*held, None),
            Asked::Play { list } => return self.lists.add(&played(list)),
        };
        self.calls.add(&Seen {
            held,
            container: held.view(),
            step,
            refusal: given.given[0],
            after: given.bytes[0].clone(),
        });
    }

    pub fn missing(&self) -> Vec<String> {
        [self.calls.missing(), self.lists.missing()].concat()
    }
}

fn played(list: &[u8]) -> Played {
    let mut after = Container::default();
    let refusals = panels::calls(list)
        .map(|call| {
            after
                .make(call)
                .map_or_else(|refusal| refusal as u8, |()| 0)
        })
        .collect();
    Played {
        list: list.to_vec(),
        refusals,
        after,
    }
}

impl fmt::Display for Counts {
    fn fmt(&self, f: &mut fmt::Formatter) -> fmt::Result {
        write!(f, "{}{}", self.calls, self.lists)
    }
}

//! The cases that are to come up, and the lengths of buffers.

use std::fmt;

use second::cases::{Case, Cases};
use second::play::RECORD;

use crate::check::Asked;
use crate::library::Reply;

/// Buffers of each length up to this are to come up.
pub const LENGTHS: usize = 100;

/// A load as the second navigator sees it.
pub struct Seen {
    screens: Option<u8>,
    seed: u32,
    length: usize,
    reply: Reply,
}

const CASES: [Case<Seen>; 17] = [
    ("refused with 1", |seen| seen.reply.refusal == 1),
    ("refused with 2", |seen| seen.reply.refusal == 2),
    ("refused with 32", |seen| seen.reply.refusal == 32),
    ("refused with 1, and the seed is 0", |seen| {
        seen.reply.refusal == 1 && seen.seed == 0
    }),
    ("refused with 2, and the seed is 0", |seen| {
        seen.reply.refusal == 2 && seen.seed == 0
    }),
    ("no table at all", |seen| seen.screens.is_none()),
    ("no record fits", |seen| {
        seen.reply.refusal == 0 && seen.reply.count == 0
    }),
    ("no byte at all", |seen| {
        seen.reply.refusal == 0 && seen.length == 0
    }),
    ("no byte beyond the records", |seen| {
        seen.reply.count > 0 && seen.length % RECORD == 0
    }),
    ("five bytes beyond the records", |seen| {
        seen.reply.count > 0 && seen.length % RECORD == 5
    }),
    ("seed 1", |seen| is_seed(seen, |seed| seed == 1)),
    ("a seed that is a power of two", |seen| {
        is_seed(seen, u32::is_power_of_two)
    }),
    ("seed ffffffff", |seen| {
        is_seed(seen, |seed| seed == u32::MAX)
    }),
    ("an even seed", |seen| is_seed(seen, |seed| seed % 2 == 0)),
    ("one screen", |seen| {
        seen.reply.count > 0 && seen.screens == Some(1)
    }),
    ("64 screens", |seen| {
        seen.reply.count > 0 && seen.screens == Some(64)
    }),
    ("ten million records", |seen| seen.reply.count == 10_000_000),
];

/// Whether records were made from such a seed.
fn is_seed(seen: &Seen, is: fn(u32) -> bool) -> bool {
    seen.reply.count > 0 && is(seen.seed)
}

pub struct Counts {
    cases: Cases<Seen>,
    /// Loads that were not refused, by the buffer's length.
    lengths: [u64; LENGTHS + 1],
    /// Records made.
    records: u64,
}

impl Counts {
    pub fn new() -> Counts {
        Counts {
            cases: Cases::new(&CASES),
            lengths: [0; LENGTHS + 1],
            records: 0,
        }
    }

    pub fn add(&mut self, asked: &Asked, reply: Reply) {
        let length = asked.buffer.len();
        self.cases.add(&Seen {
            screens: asked.table.first().copied(),
            seed: asked.seed,
            length,
            reply,
        });
        if let (0, Some(times)) = (reply.refusal, self.lengths.get_mut(length)) {
            *times += 1;
        }
        self.records += reply.count as u64;
    }

    pub fn missing(&self) -> Vec<String> {
        let mut names = self.cases.missing();
        for (length, &times) in self.lengths.iter().enumerate() {
            if times == 0 {
                names.push(format!("a buffer of {length} bytes"));
            }
        }
        names
    }
}

impl fmt::Display for Counts {
    fn fmt(&self, f: &mut fmt::Formatter) -> fmt::Result {
        write!(f, "{}", self.cases)?;
        writeln!(f, "{:<35} {:>9}", "records", self.records)
    }
}

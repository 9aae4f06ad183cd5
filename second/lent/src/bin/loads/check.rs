//! Makes a load by both, at the edges of memory, and compares all that they give.

use std::fmt;

use second::hex::hex;
use second::load::{self, Load};

use lent_calls::fault;
use lent_calls::memory::{Left, Memory};
use lent_calls::smaller;

use crate::cases::Counts;
use crate::library::{Library, Reply};

/// The longest table, and the longest buffer: that of ten million records, and more.
pub const LONGEST_TABLE: usize = 4096;
pub const LONGEST: usize = 60_000_005;

/// What is asked of both: the buffer with what it holds before the load.
#[derive(Clone)]
pub struct Asked {
    pub table: Vec<u8>,
    pub seed: u32,
    pub buffer: Vec<u8>,
}

/// What a load gives, and what it leaves: the table and the buffer.
type Given = Left<Reply, 2>;

pub struct Difference {
    what: &'static str,
    asked: Asked,
    library: Given,
    second: Given,
}

pub type Checked<T = ()> = Result<T, Box<Difference>>;

pub struct Checker<L> {
    library: L,
    memory: Memory<2>,
    pub counts: Counts,
    /// Loads made by the library.
    pub calls: u64,
}

impl<L: Library> Checker<L> {
    pub fn new(library: L) -> Checker<L> {
        Checker {
            library,
            memory: Memory::new([LONGEST_TABLE, LONGEST]),
            counts: Counts::new(),
            calls: 0,
        }
    }

    /// Makes a load by both.
    pub fn check(&mut self, what: &'static str, asked: Asked) -> Checked {
        let second = by_second(&asked);
        self.counts.add(&asked, second.given);
        fault::begin_call(self.calls);
        self.calls += 1;
        if self.by_library(&asked) == second {
            return Ok(());
        }
        let differs = |asked: &Asked| self.by_library(asked) != by_second(asked);
        let asked = smaller::smallest(asked, shorter, differs);
        Err(Box::new(Difference {
            what,
            library: self.by_library(&asked),
            second: by_second(&asked),
            asked,
        }))
    }

    fn by_library(&mut self, asked: &Asked) -> Given {
        let Asked {
            table,
            seed,
            buffer,
        } = asked;
        let Checker {
            library, memory, ..
        } = self;
        memory.lend([table, buffer], |[table, buffer]| {
            library.load(table, *seed, buffer)
        })
    }
}

fn by_second(asked: &Asked) -> Given {
    let mut buffer = asked.buffer.clone();
    let given = loaded_by_second(&asked.table, asked.seed, &mut buffer);
    Left {
        given,
        bytes: [asked.table.clone(), buffer],
        outside: false,
    }
}

pub fn loaded_by_second(table: &[u8], seed: u32, buffer: &mut [u8]) -> Reply {
    match load::fill(table, seed, buffer) {
        Ok(Load { count, state }) => Reply {
            refusal: 0,
            state,
            count,
        },
        Err(refusal) => Reply {
            refusal: refusal as u8,
            state: 0,
            count: 0,
        },
    }
}

/// The same with a shorter buffer.
fn shorter(asked: &Asked) -> Vec<Asked> {
    let length = asked.buffer.len();
    let lengths = [0, length / 2, length.saturating_sub(1)];
    let shorter = lengths.into_iter().filter(|&shorter| shorter < length);
    shorter
        .map(|shorter| {
            let mut asked = asked.clone();
            asked.buffer.truncate(shorter);
            asked
        })
        .collect()
}

impl fmt::Display for Difference {
    fn fmt(&self, f: &mut fmt::Formatter) -> fmt::Result {
        let Asked {
            table,
            seed,
            buffer,
        } = &self.asked;
        writeln!(f, "difference, found in: {}", self.what)?;
        writeln!(f, "table, hex: {}", hex(table, 1))?;
        writeln!(f, "seed, hex: {seed:08x}")?;
        let [library, second] = [&self.library, &self.second].map(|given| &given.bytes[1]);
        let alike = library.iter().zip(second).take_while(|(a, b)| a == b);
        let from = alike.count() / 6 * 6;
        let shown = |bytes: &[u8]| {
            let end = bytes.len().min(from + 24);
            format!("from byte {from}, hex: {}", hex(&bytes[from..end], 6))
        };
        writeln!(f, "buffer of {} bytes {}", buffer.len(), shown(buffer))?;
        for (name, given) in [("library", &self.library), ("second", &self.second)] {
            writeln!(f, "{name}: {:?}", given.given)?;
            writeln!(f, "  buffer {}", shown(&given.bytes[1]))?;
        }
        if self.library.bytes[0] != self.second.bytes[0] || self.library.outside {
            writeln!(f, "the library wrote outside")?;
        }
        Ok(())
    }
}

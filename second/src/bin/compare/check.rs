//! Gives one input to both programs and compares what they write.

use std::fmt;
use std::time::Instant;

use crate::lines::Lines;
use crate::outside::{Output, Outside, Program};

/// An input: the bytes of a table, good or bad, and the bytes after it.
#[derive(Clone)]
pub struct Input {
    pub what: String,
    pub table: Vec<u8>,
    pub records: Vec<u8>,
}

impl Input {
    pub fn bytes(&self) -> Vec<u8> {
        [&self.table[..], &self.records[..]].concat()
    }
}

/// An input on which the two differ, and how.
pub struct Difference {
    pub input: Input,
    pub written: Written,
}

/// What the library here writes and the outside program is to write. It counts
/// what came up, and shows the counts.
pub trait Manner: fmt::Display {
    /// Whether the outside program's warnings are heard.
    const HEARS: bool;

    /// What the library here writes for an input, and how many records that was.
    fn expected(&mut self, bytes: &[u8]) -> (Vec<u8>, u64);

    /// What is compared with that of all that the outside program wrote.
    fn compared(output: Output) -> Result<Vec<u8>, String>;

    /// How many records there are up to the one of this line, counted from 0.
    /// `None` if lines are not of single records.
    fn records_to(here: &[u8], line: usize) -> Option<usize>;

    /// The names of what never came up.
    fn missing(&self) -> Vec<String>;
}

/// What the two write for one input.
pub struct Written {
    pub outside: Result<Vec<u8>, String>,
    pub here: Vec<u8>,
    /// How many records were played here.
    pub records: u64,
}

impl Written {
    pub fn differ(&self) -> bool {
        self.outside.as_ref() != Ok(&self.here)
    }
}

pub struct Checker<M = Lines, O = Program> {
    program: O,
    pub manner: M,
    pub records: u64,
    told: u64,
    runs: u64,
}

impl<M: Manner, O: Outside> Checker<M, O> {
    pub fn new(program: O, manner: M) -> Checker<M, O> {
        Checker {
            program,
            manner,
            records: 0,
            told: 0,
            runs: 0,
        }
    }

    /// Gives the input to both.
    pub fn play(&mut self, input: &Input) -> Written {
        let bytes = input.bytes();
        let (output, (here, records)) = self
            .program
            .run(&bytes, M::HEARS, || self.manner.expected(&bytes));
        Written {
            outside: output.and_then(M::compared),
            here,
            records,
        }
    }

    /// Gives the input to both and compares.
    pub fn check(&mut self, input: &Input) -> Result<(), Box<Difference>> {
        let written = self.play(input);
        if written.differ() {
            let input = input.clone();
            return Err(Box::new(Difference { input, written }));
        }
        self.records += written.records;
        self.runs += 1;
        Ok(())
    }

    /// Prints what a part of the work came to.
    pub fn tell(&mut self, part: &str, begun: Instant) {
        let records = self.records - self.told;
        let seconds = begun.elapsed().as_secs_f64();
        println!(
            "{part}: {records} records, {} runs, {seconds:.1} s",
            self.runs
        );
        self.told = self.records;
        self.runs = 0;
    }
}

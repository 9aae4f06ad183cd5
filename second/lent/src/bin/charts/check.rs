//! Makes a start by the chart and the second navigator's start, at the edges of memory,
//! and compares all that they give.

use std::fmt;

use second::hex::hex;

use lent_calls::call::{by_second, Call, Reply};
use lent_calls::fault;
use lent_calls::memory::{Left, Memory};
use lent_calls::smaller::{self, fewer_screens};
use lent_calls::stored::{Stored, SESSION, TASK};

use crate::cases::Counts;
use crate::library::Library;

const LONGEST_TABLE: usize = 4096;

/// A start, plain or finishing.
#[derive(Clone)]
pub struct Asked {
    pub table: Vec<u8>,
    pub session: Stored,
    pub finishing: bool,
    pub screen: u8,
    pub flags: u32,
}

/// The answer's nine numbers, the table and the session.
type Given = Left<[u8; 9], 2>;

pub enum Difference {
    Entry {
        index: u16,
        library: u8,
        second: u8,
    },
    Start {
        what: &'static str,
        asked: Box<Asked>,
        library: Given,
        second: Given,
    },
}

pub type Checked<T = ()> = Result<T, Box<Difference>>;

pub struct Checker<L> {
    library: L,
    memory: Memory<2>,
    pub counts: Counts,
    /// Calls of the library.
    pub calls: u64,
}

impl<L: Library> Checker<L> {
    pub fn new(library: L) -> Checker<L> {
        Checker {
            library,
            memory: Memory::new([LONGEST_TABLE, SESSION]),
            counts: Counts::default(),
            calls: 0,
        }
    }

    /// Compares the entry at an index, which is 0 where there is none.
    pub fn entry(&mut self, index: u16) -> Checked {
        self.calls += 1;
        let library = self.library.chart(index);
        let second = second::chart::entry(index).unwrap_or(0);
        if library == second {
            return Ok(());
        }
        Err(Box::new(Difference::Entry {
            index,
            library,
            second,
        }))
    }

    /// Makes a start by both; gives the session after it.
    pub fn start(&mut self, what: &'static str, asked: Asked) -> Checked<Stored> {
        let (second, after) = started_by_second(&asked);
        self.counts.add(&asked, second.given[0]);
        fault::begin_call(self.calls);
        self.calls += 1;
        if self.by_library(&asked) == second {
            return Ok(after);
        }
        let differs = |asked: &Asked| self.by_library(asked) != started_by_second(asked).0;
        let asked = smaller::smallest(asked, smaller_starts, differs);
        Err(Box::new(Difference::Start {
            what,
            library: self.by_library(&asked),
            second: started_by_second(&asked).0,
            asked: Box::new(asked),
        }))
    }

    fn by_library(&mut self, asked: &Asked) -> Given {
        let Checker {
            library, memory, ..
        } = self;
        let session = asked.session.bytes();
        memory.lend([&asked.table, &session], |[table, session]| {
            let (session, flags) = (Stored::lent(session), asked.flags);
            match asked.finishing {
                false => library.start(table, session, asked.screen, flags),
                true => library.finish_start(table, session, asked.screen, flags),
            }
        })
    }
}

/// What the second navigator's start gives, and the session after it.
fn started_by_second(asked: &Asked) -> (Given, Stored) {
    let (given, session) = start(asked);
    let left = Left {
        given,
        bytes: [asked.table.clone(), session.bytes().to_vec()],
        outside: false,
    };
    (left, session)
}

/// The second navigator's start: the answer's nine numbers and the session.
pub fn start(asked: &Asked) -> ([u8; 9], Stored) {
    let (screen, flags) = (asked.screen, asked.flags);
    let call = match asked.finishing {
        false => Call::Start { screen, flags },
        true => Call::FinishingStart { screen, flags },
    };
    let mut session = asked.session;
    match by_second(call, &asked.table, &mut session, &mut []) {
        Reply::Answer(numbers) => (numbers, session),
        _ => unreachable!("a start answers"),
    }
}

/// The same from a session with fewer screens, or with fewer flags.
fn smaller_starts(asked: &Asked) -> Vec<Asked> {
    let sessions = fewer_screens(&asked.session).into_iter();
    let sessions = sessions.map(|session| Asked {
        session,
        ..asked.clone()
    });
    let bits = (0..32).map(|bit| 1 << bit);
    let words = bits.filter(|bit| asked.flags & bit != 0).map(|bit| Asked {
        flags: asked.flags & !bit,
        ..asked.clone()
    });
    sessions.chain(words).collect()
}

impl fmt::Display for Difference {
    fn fmt(&self, f: &mut fmt::Formatter) -> fmt::Result {
        match self {
            Difference::Entry {
                index,
                library,
                second,
            } => {
                writeln!(f, "difference, found in: entries")?;
                writeln!(f, "at {index} library: {library}, second: {second}")
            }
            Difference::Start {
                what,
                asked,
                library,
                second,
            } => {
                writeln!(f, "difference, found in: {what}")?;
                writeln!(f, "table, hex: {}", hex(&asked.table, 1))?;
                writeln!(f, "session, hex: {}", hex(&asked.session.bytes(), TASK))?;
                let kind = if asked.finishing {
                    "finishing start"
                } else {
                    "start"
                };
                writeln!(
                    f,
                    "{kind} of {}, flags, hex: {:08x}",
                    asked.screen, asked.flags
                )?;
                for (name, given) in [("library", library), ("second", second)] {
                    writeln!(f, "{name}: answer {:?}", given.given)?;
                    writeln!(f, "  session, hex: {}", hex(&given.bytes[1], TASK))?;
                }
                if library.bytes[0] != second.bytes[0] || library.outside {
                    writeln!(f, "the library wrote outside")?;
                }
                Ok(())
            }
        }
    }
}

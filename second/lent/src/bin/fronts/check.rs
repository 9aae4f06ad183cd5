//! Asks both for the possible front screens, the table at an edge of memory, and
//! compares.

use std::fmt;

use second::fronts;
use second::hex::hex;

use lent_calls::fault;
use lent_calls::memory::{Left, Memory};
use lent_calls::smaller::{self, fewer_screens};
use lent_calls::stored::{Stored, TASK};

use crate::cases::Counts;
use crate::library::{FrontSet, Library};

const LONGEST_TABLE: usize = 4096;

/// A start of which the bits of the mask are known.
#[derive(Clone)]
pub struct Asked {
    pub table: Vec<u8>,
    pub session: Stored,
    pub screen: u8,
    pub mask: u32,
    pub value: u32,
}

/// The set, and the table.
type Given = Left<FrontSet, 1>;

pub struct Difference {
    what: &'static str,
    asked: Asked,
    library: Given,
    second: Given,
}

pub type Checked<T = ()> = Result<T, Box<Difference>>;

pub struct Checker<L> {
    library: L,
    memory: Memory<1>,
    pub counts: Counts,
    /// Calls of the library.
    pub calls: u64,
}

impl<L: Library> Checker<L> {
    pub fn new(library: L) -> Checker<L> {
        Checker {
            library,
            memory: Memory::new([LONGEST_TABLE]),
            counts: Counts::new(),
            calls: 0,
        }
    }

    /// Asks both.
    pub fn check(&mut self, what: &'static str, asked: &Asked) -> Checked {
        let second = by_second(asked);
        self.counts.add(asked, second.given);
        fault::begin_call(self.calls);
        self.calls += 1;
        if self.by_library(asked) == second {
            return Ok(());
        }
        let differs = |asked: &Asked| self.by_library(asked) != by_second(asked);
        let asked = smaller::smallest(asked.clone(), smaller_ones, differs);
        Err(Box::new(Difference {
            what,
            library: self.by_library(&asked),
            second: by_second(&asked),
            asked,
        }))
    }

    fn by_library(&mut self, asked: &Asked) -> Given {
        let Checker {
            library, memory, ..
        } = self;
        memory.lend([&asked.table], |[table]| {
            library.fronts(table, &asked.session, asked.screen, asked.mask, asked.value)
        })
    }
}

fn by_second(asked: &Asked) -> Given {
    Left {
        given: told_by_second(asked),
        bytes: [asked.table.clone()],
        outside: false,
    }
}

/// The set as the library gives it.
pub fn told_by_second(asked: &Asked) -> FrontSet {
    let Asked {
        table,
        session,
        screen,
        mask,
        value,
    } = asked;
    match fronts::fronts(table, &session.view(), *screen, *mask, *value) {
        Ok(screens) => FrontSet {
            set: screens.iter().map(|screen| 1u64 << screen).sum(),
            refusal: 0,
            count: screens.len() as u8,
        },
        Err(refusal) => FrontSet {
            set: 0,
            refusal: refusal as u8,
            count: 0,
        },
    }
}

/// The same from a session with fewer screens, or with one bit more that is known.
fn smaller_ones(asked: &Asked) -> Vec<Asked> {
    let sessions = fewer_screens(&asked.session).into_iter();
    let sessions = sessions.map(|session| Asked {
        session,
        ..asked.clone()
    });
    let unknown = second::table::FLAGS.into_iter();
    let unknown = unknown.filter(|flag| asked.mask & flag == 0);
    let known = unknown.flat_map(|flag| [(flag, 0), (flag, flag)]);
    let known = known.map(|(flag, bit)| Asked {
        mask: asked.mask | flag,
        value: asked.value | bit,
        ..asked.clone()
    });
    sessions.chain(known).collect()
}

impl fmt::Display for Difference {
    fn fmt(&self, f: &mut fmt::Formatter) -> fmt::Result {
        let Asked {
            table,
            session,
            screen,
            mask,
            value,
        } = &self.asked;
        writeln!(f, "difference, found in: {}", self.what)?;
        writeln!(f, "table, hex: {}", hex(table, 1))?;
        writeln!(f, "session, hex: {}", hex(&session.bytes(), TASK))?;
        writeln!(
            f,
            "start of {screen}, mask, hex: {mask:08x}, value: {value:08x}"
        )?;
        for (name, given) in [("library", &self.library), ("second", &self.second)] {
            let FrontSet {
                set,
                refusal,
                count,
            } = given.given;
            writeln!(
                f,
                "{name}: set, hex: {set:016x}, refusal {refusal}, count {count}"
            )?;
        }
        if self.library.bytes != self.second.bytes || self.library.outside {
            writeln!(f, "the library wrote outside")?;
        }
        Ok(())
    }
}

//! Makes a call by the static library and by the second navigator, and compares
//! all that the two give.

use std::fmt;
use std::hint::black_box;
use std::ops::Range;

use second::hex::hex;

use crate::call::{by_library, by_second, Call, Outcome};
use crate::counts::Counts;
use crate::stored::{Stored, SESSION, TASK};

/// How many bytes before and after what is lent are watched.
const GUARD: usize = 32;
const GUARDS: [u8; GUARD] = [0xa5; GUARD];

/// A call on which the two differ.
pub struct Difference {
    what: &'static str,
    table: Vec<u8>,
    session: Stored,
    call: String,
    library: Outcome,
    /// Whether the library wrote outside of what it may write.
    outside: bool,
    second: Outcome,
}

pub type Checked<T = ()> = Result<T, Box<Difference>>;

#[derive(Default)]
pub struct Checker {
    pub counts: Counts,
}

/// A session with bytes around it that nobody may write.
#[repr(C)]
pub struct Guarded {
    before: [u8; GUARD],
    pub session: Stored,
    after: [u8; GUARD],
}

impl Guarded {
    pub fn new(session: Stored) -> Guarded {
        Guarded {
            before: GUARDS,
            session,
            after: GUARDS,
        }
    }

    pub fn stands(&self) -> bool {
        self.before == GUARDS && self.after == GUARDS
    }
}

impl Checker {
    /// The counts, and how many calls were made.
    pub fn told(&self) -> (&Counts, u64) {
        (&self.counts, self.counts.all_calls())
    }

    /// Makes a call on the present session; gives what there is after it.
    pub fn check(
        &mut self,
        what: &'static str,
        table: &[u8],
        present: &Stored,
        call: Call,
    ) -> Checked<Outcome> {
        let (library, outside) = outcome_by_library(table, present, call);
        self.judge(what, table, present, call, library, outside)
    }

    /// Compares what the library gave with the second navigator, which makes
    /// the call now.
    pub fn judge(
        &mut self,
        what: &'static str,
        table: &[u8],
        present: &Stored,
        call: Call,
        library: Outcome,
        outside: bool,
    ) -> Checked<Outcome> {
        let second = outcome_by_second(table, present, call);
        self.counts.add(table, present, call, &second.reply);
        if library == second && !outside {
            return Ok(second);
        }
        Err(Box::new(Difference {
            what,
            table: table.to_vec(),
            session: *present,
            call: call.to_string(),
            library,
            outside,
            second,
        }))
    }
}

/// What the buffer holds before a call.
pub fn buffer_before(call: Call) -> Vec<u8> {
    let places = 0..call.buffer_length();
    places.map(|i| (i * 37 + i / 256) as u8).collect()
}

/// What the library gives, and whether it wrote outside of what it may write.
fn outcome_by_library(table: &[u8], present: &Stored, call: Call) -> (Outcome, bool) {
    let mut lent = Guarded::new(*present);
    let listed = guarded(table);
    let mut buffer = guarded(&buffer_before(call));
    let room = inside(&buffer);
    let reply = by_library(
        call,
        &listed[inside(&listed)],
        &mut lent.session,
        &mut buffer[room.clone()],
    );
    // What the library may only read is looked at anew.
    let listed = black_box(&listed);
    let kept = guards_stand(&buffer)
        && guards_stand(listed)
        && listed[inside(listed)] == *table
        && lent.stands();
    let given = Outcome {
        reply,
        session: lent.session,
        buffer: buffer[room].to_vec(),
    };
    (given, !kept)
}

/// Bytes with bytes around them that nobody may write.
pub fn guarded(bytes: &[u8]) -> Vec<u8> {
    [&GUARDS, bytes, &GUARDS].concat()
}

/// Where the bytes within the guards are.
pub fn inside(guarded: &[u8]) -> Range<usize> {
    GUARD..guarded.len() - GUARD
}

pub fn guards_stand(guarded: &[u8]) -> bool {
    guarded.starts_with(&GUARDS) && guarded.ends_with(&GUARDS)
}

/// What the second navigator gives.
fn outcome_by_second(table: &[u8], present: &Stored, call: Call) -> Outcome {
    let mut session = *present;
    let mut buffer = buffer_before(call);
    let reply = by_second(call, table, &mut session, &mut buffer);
    Outcome {
        reply,
        session,
        buffer,
    }
}

impl fmt::Display for Difference {
    fn fmt(&self, f: &mut fmt::Formatter) -> fmt::Result {
        writeln!(f, "difference, found in: {}", self.what)?;
        writeln!(f, "table, hex: {}", hex(&self.table, 1))?;
        writeln!(f, "session, hex: {}", hex(&self.session.bytes(), TASK))?;
        writeln!(f, "{}", self.call)?;
        writeln!(f, "library: {}", self.library)?;
        if self.outside {
            writeln!(f, "  and wrote outside")?;
        }
        writeln!(f, "second: {}", self.second)?;
        let (library, second) = (self.library.session.bytes(), self.second.session.bytes());
        match (0..SESSION).find(|&place| library[place] != second[place]) {
            Some(place) => writeln!(f, "the sessions differ first at byte {place}"),
            None => Ok(()),
        }
    }
}

//! The player: a table and records come in, one line for each record goes out,
//! and for those who ask why, one more under each start.
//!
//! The table is read once and the session is the player's own, so it is sound
//! from the fresh session on and the player has no need to check it again.

use std::io::{self, ErrorKind, Read, Write};

use crate::{Answer, Done, Reason, Refusal, Session, Table};

/// The length of a record: kind, screen, four bytes of flags. A launch's screen
/// byte names the edition.
pub const RECORD: usize = 6;
/// How much output is gathered before it is written.
const BLOCK: usize = 64 * 1024;

/// What a record comes to: its kind byte, the answer and, where the kind is a
/// start or a finishing start, the reason.
pub struct Played {
    pub kind: u8,
    pub answer: Answer,
    pub reason: Option<Reason>,
}

impl Played {
    /// What an input comes to on whose table the player stops.
    pub fn stopped() -> Played {
        Played::refused(0, Refusal::TableLength)
    }

    fn refused(kind: u8, refusal: Refusal) -> Played {
        let is_start = matches!(kind, 2 | 3);
        Played {
            kind,
            answer: Answer::refused(refusal),
            reason: is_start.then(|| Reason::refused(refusal)),
        }
    }
}

/// How what a record comes to is written.
pub type Writing = fn(&mut Vec<u8>, &Played);

/// A table, good or refused for its content, and a session under it.
pub struct Player {
    pub table: Result<Table, Refusal>,
    pub session: Session,
}

impl Player {
    /// Reads the table at the start of the input. `None` if N is bad or the
    /// table is cut.
    pub fn open(input: &mut impl Read) -> io::Result<Option<Player>> {
        let mut bytes = vec![0];
        if read_full(input, &mut bytes)? == 0 {
            return Ok(None);
        }
        let Some(length) = Table::length(bytes[0]) else {
            return Ok(None);
        };
        bytes.resize(length, 0);
        if read_full(input, &mut bytes[1..])? < length - 1 {
            return Ok(None);
        }
        Ok(Some(Player {
            table: Table::parse(&bytes),
            session: Session::fresh(),
        }))
    }

    /// Plays one record, which is shorter than 6 bytes only if it is cut.
    // Inline, so that where no reason is written none is made.
    #[inline]
    pub fn record(&mut self, record: &[u8]) -> Played {
        let kind = record[0];
        match self.call(record) {
            Ok(done) => Played {
                kind,
                answer: self.session.answer(done.count.closed),
                reason: done.choice.map(Reason::chosen),
            },
            Err(refusal) => Played::refused(kind, refusal),
        }
    }

    /// Plays the records that are left in the input, and does something with what
    /// each comes to.
    // Inline for the same reason.
    #[inline]
    pub fn records(
        &mut self,
        input: &mut impl Read,
        mut each: impl FnMut(Played) -> io::Result<()>,
    ) -> io::Result<()> {
        let mut record = [0; RECORD];
        loop {
            let length = read_full(input, &mut record)?;
            if length == 0 {
                return Ok(());
            }
            each(self.record(&record[..length]))?;
        }
    }

    /// Makes the record's call.
    fn call(&mut self, record: &[u8]) -> Result<Done, Refusal> {
        let &[kind @ 1..=5, screen, f0, f1, f2, f3] = record else {
            return Err(Refusal::BadRecord);
        };
        let flags = u32::from_be_bytes([f0, f1, f2, f3]);
        let table = self.table.as_ref().map_err(|&refusal| refusal)?;
        let session = &mut self.session;
        match kind {
            1 => session.launch(table, screen),
            2 => session.start(table, screen, flags),
            3 => session.finishing_start(table, screen, flags),
            4 => session.back(),
            _ => Ok(Done::default()),
        }
    }
}

/// Plays a whole input.
pub fn play(input: impl Read, output: impl Write) -> io::Result<()> {
    write_records(input, output, push_line)
}

/// Plays a whole input, with the reason under each start.
pub fn explain(input: impl Read, output: impl Write) -> io::Result<()> {
    write_records(input, output, push_explained)
}

fn write_records(
    mut input: impl Read,
    mut output: impl Write,
    push: impl Fn(&mut Vec<u8>, &Played),
) -> io::Result<()> {
    let mut out = Vec::with_capacity(BLOCK + 64);
    match Player::open(&mut input)? {
        None => push(&mut out, &Played::stopped()),
        Some(mut player) => player.records(&mut input, |played| {
            push(&mut out, &played);
            if out.len() >= BLOCK {
                output.write_all(&out)?;
                out.clear();
            }
            Ok(())
        })?,
    }
    output.write_all(&out)?;
    output.flush()
}

/// Reads until the buffer is full or the input ends; gives how much was read.
fn read_full(input: &mut impl Read, buffer: &mut [u8]) -> io::Result<usize> {
    let mut length = 0;
    while length < buffer.len() {
        match input.read(&mut buffer[length..]) {
            Ok(0) => break,
            Ok(more) => length += more,
            Err(error) if error.kind() == ErrorKind::Interrupted => {}
            Err(error) => return Err(error),
        }
    }
    Ok(length)
}

/// Adds the player's line: the kind, then the answer's nine numbers.
pub fn push_line(out: &mut Vec<u8>, played: &Played) {
    push_number(out, played.kind);
    push_numbers(out, &played.answer.numbers());
}

/// Adds the player's line and, where there is a reason, a line with its four
/// numbers behind two spaces.
pub fn push_explained(out: &mut Vec<u8>, played: &Played) {
    push_line(out, played);
    if let Some(reason) = played.reason {
        out.push(b' ');
        push_numbers(out, &reason.numbers());
    }
}

/// Adds the rest of a line: numbers, each behind a space.
fn push_numbers(out: &mut Vec<u8>, numbers: &[u8]) {
    for &number in numbers {
        out.push(b' ');
        push_number(out, number);
    }
    out.push(b'\n');
}

fn push_number(out: &mut Vec<u8>, number: u8) {
    if number >= 100 {
        out.push(b'0' + number / 100);
    }
    if number >= 10 {
        out.push(b'0' + number / 10 % 10);
    }
    out.push(b'0' + number % 10);
}

//! A record's call in words.

use milchkompass::{Flags, Row};

use crate::names::Names;
use crate::pen::{Pen, Short, SPARE};
use crate::RECORD;

/// How records are read: as the player does, or with restores.
#[derive(Clone, Copy, PartialEq, Eq)]
pub enum Reading {
    Player,
    Restores,
}

/// The longest call, but for the name of its screen.
pub const LONGEST: usize = 160;

/// The word of a whole record.
pub fn word_of(record: &[u8]) -> u32 {
    u32::from_be_bytes([record[2], record[3], record[4], record[5]])
}

/// The screen and the flags of a record that is a start or a finishing start.
#[inline]
pub fn start_of(record: &[u8]) -> Option<(u8, Flags)> {
    let is_start = record.len() >= RECORD && matches!(record[0], 2 | 3);
    is_start.then(|| (record[1], Flags::from_bits_retain(word_of(record))))
}

/// Finds the words of calls.
pub struct Calls<'a> {
    names: &'a Names,
    flags: Vec<(u32, Short<24>)>,
}

impl<'a> Calls<'a> {
    pub fn new(names: &'a Names) -> Calls<'a> {
        let named = Flags::all().iter_names();
        let short = |name: &str| Short::of(&format!("{name}|")).expect("no flag is longer");
        let flags = named.map(|(name, flag)| (flag.bits(), short(name)));
        Calls {
            names,
            flags: flags.collect(),
        }
    }

    /// The call of a record: the bytes that it takes.
    pub fn text(&self, record: &[u8], reading: Reading) -> String {
        written(LONGEST + self.names.longest(), |pen| {
            self.write(pen, record, reading)
        })
    }

    /// The same, on.
    #[inline(always)]
    pub fn write(&self, pen: &mut Pen, record: &[u8], reading: Reading) {
        if record.len() < RECORD {
            return pen.put(b"cut record");
        }
        match record[0] {
            1 => write_launch(pen, record[1]),
            2 => {
                pen.put(b"start ");
                self.names.write(pen, record[1]);
                self.write_flags(pen, word_of(record));
            }
            3 => {
                pen.put(b"finish-start ");
                self.names.write(pen, record[1]);
                self.write_flags(pen, word_of(record));
            }
            4 => pen.put(b"back"),
            5 => pen.put(b"look"),
            6 if reading == Reading::Restores => write_restore(pen, record),
            kind => {
                pen.put(b"unknown kind ");
                pen.byte(kind);
            }
        }
    }

    /// Adds a flag word behind a space: the names of its flags, and its other bits
    /// as a number. No bit is nothing at all.
    #[inline(always)]
    pub fn write_flags(&self, pen: &mut Pen, word: u32) {
        if word == 0 {
            return;
        }
        pen.put(b" ");
        for (flag, name) in &self.flags {
            if word & flag != 0 {
                pen.short(name);
            }
        }
        let other = word & !Flags::all().bits();
        if other != 0 {
            return pen.long(&format!("{other:#x}"));
        }
        pen.back();
    }
}

/// What is written into a buffer of this length.
pub fn written(longest: usize, write: impl FnOnce(&mut Pen)) -> String {
    let mut text = vec![0; longest + SPARE];
    let mut pen = Pen::new(&mut text);
    write(&mut pen);
    let length = pen.at();
    text.truncate(length);
    String::from_utf8_lossy(&text).into_owned()
}

/// Adds a launch by the byte that names its edition.
pub fn write_launch(pen: &mut Pen, edition: u8) {
    pen.put(b"launch");
    if edition != 0 {
        pen.put(b" edition ");
        pen.byte(edition);
    }
}

fn write_restore(pen: &mut Pen, record: &[u8]) {
    let length = record.len() - RECORD;
    if length as u64 == u64::from(word_of(record)) {
        pen.long(&format!("restore of {length} bytes"));
    } else {
        pen.put(b"cut restore");
    }
}

/// A screen's launch mode.
pub fn mode_words(row: Row) -> String {
    match row.mode {
        Ok(mode) => mode.to_string(),
        Err(unknown) => unknown.to_string(),
    }
}

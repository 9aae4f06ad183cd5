//! A recording as text, from which `grammar` makes the same bytes:
//!
//! ```text
//! table main 0
//! screen 0 standard affinity 1
//! launch edition 7
//! start 0 NEW_TASK|SINGLE_TOP
//! back ignored 00 00 00 00 01
//! restore image 00 01 00 00 03 01 01 08 42
//! raw 09 00 00 00 00 00  # unknown kind 9
//! ```
//!
//! With names they stand in the place of screens' numbers.

use milchkompass::Replay;

use crate::failure::Outcome;
use crate::input::Input;
use crate::names::Names;
use crate::opening::{self, Opening};
use crate::output::Output;
use crate::progress::Progress;
use crate::words::{word_of, Calls, Reading};
use crate::RECORD;

/// The longest image that is shown as one: so much is held at once, and no session
/// has a longer one.
const IMAGE: usize = 4096;

/// How many raw bytes stand on a line.
const RAW: usize = 16;

/// Writes the recording's text.
pub fn write(input: &mut Input, names: &Names, out: &mut Output) -> Outcome {
    match opening::read(input)? {
        Opening::Stopped(_) => {
            names.check(0)?;
            write_raw(input, "no table", out)
        }
        Opening::Table(replay) => {
            names.check(replay.rows().len())?;
            push_table(&mut out.text, &replay, names);
            write_records(input, names, out)
        }
    }
}

fn push_table(out: &mut Vec<u8>, replay: &Replay, names: &Names) {
    let table = replay.table();
    out.extend_from_slice(format!("table main {}\n", names.shown(table[1])).as_bytes());
    for (screen, (row, bytes)) in replay.rows().zip(table[2..].chunks(2)).enumerate() {
        let mode = match row.mode {
            Ok(_) => crate::words::mode_words(row),
            Err(_) => format!("mode {}", bytes[0]),
        };
        let (screen, affinity) = (names.shown(screen as u8), row.affinity);
        let line = format!("screen {screen} {mode} affinity {affinity}\n");
        out.extend_from_slice(line.as_bytes());
    }
}

fn write_records(input: &mut Input, names: &Names, out: &mut Output) -> Outcome {
    let calls = Calls::new(names);
    let mut progress = Progress::new("records", true);
    let mut number = 0;
    loop {
        let bytes = input.peek(RECORD)?;
        match bytes.first() {
            None => return Ok(()),
            Some(6) if bytes.len() >= RECORD => {
                let length = word_of(bytes) as usize;
                write_restore(input, length, out)?;
            }
            Some(_) => {
                let record = &bytes[..bytes.len().min(RECORD)];
                push_record(&mut out.text, record, &calls);
                let used = record.len();
                input.take(used);
            }
        }
        out.settle()?;
        number += 1;
        progress.at(number);
    }
}

/// Adds the line of a record of six bytes, or of what is left of one: the call,
/// and what it does not read.
fn push_record(out: &mut Vec<u8>, record: &[u8], calls: &Calls) {
    let words = calls.text(record, Reading::Player);
    let ignored = match record {
        [1, _, rest @ ..] | [4 | 5, rest @ ..] if record.len() == RECORD => rest,
        [2 | 3, ..] if record.len() == RECORD => &[],
        _ => return push_raw(out, record, &words),
    };
    out.extend_from_slice(words.as_bytes());
    push_ignored(out, ignored);
    out.push(b'\n');
}

/// Adds the bytes that a call does not read, where one is not 0.
fn push_ignored(out: &mut Vec<u8>, bytes: &[u8]) {
    if bytes.iter().any(|byte| *byte != 0) {
        out.extend_from_slice(b" ignored");
        push_hex(out, bytes);
    }
}

fn push_hex(out: &mut Vec<u8>, bytes: &[u8]) {
    const DIGITS: &[u8; 16] = b"0123456789abcdef";
    for byte in bytes {
        let (high, low) = (byte >> 4, byte & 15);
        out.extend([b' ', DIGITS[usize::from(high)], DIGITS[usize::from(low)]]);
    }
}

/// Adds a line of bytes that are no record, and why.
fn push_raw(out: &mut Vec<u8>, bytes: &[u8], why: &str) {
    out.extend_from_slice(b"raw");
    push_hex(out, bytes);
    if !why.is_empty() {
        out.extend_from_slice(b"  # ");
        out.extend_from_slice(why.as_bytes());
    }
    out.push(b'\n');
}

/// Writes a restore with its image of this length, or its record alone where the
/// image is not there or too long: then records follow, as the player reads them.
fn write_restore(input: &mut Input, length: usize, out: &mut Output) -> Outcome {
    let wanted = if length > IMAGE { 0 } else { length };
    let bytes = input.peek(RECORD + wanted)?;
    let (record, rest) = bytes.split_at(RECORD);
    if length > IMAGE || rest.len() < length {
        let why = match length > IMAGE {
            true => "kind 6 with a longer image than any session's; records follow",
            false => "kind 6 without its image; records follow",
        };
        push_raw(&mut out.text, record, why);
        input.take(RECORD);
        return Ok(());
    }
    out.text.extend_from_slice(b"restore");
    push_ignored(&mut out.text, &record[1..2]);
    out.text.extend_from_slice(b" image");
    push_hex(&mut out.text, &rest[..length]);
    out.text.push(b'\n');
    input.take(RECORD + length);
    Ok(())
}

/// Writes all that is left raw.
fn write_raw(input: &mut Input, why: &str, out: &mut Output) -> Outcome {
    let mut why = why;
    let (mut progress, mut lines) = (Progress::new("lines", true), 0);
    loop {
        let seen = input.peek(RAW)?;
        let length = seen.len().min(RAW);
        if length == 0 {
            return Ok(());
        }
        push_raw(&mut out.text, &seen[..length], why);
        input.take(length);
        out.settle()?;
        lines += 1;
        progress.at(lines);
        why = "";
    }
}

//! One of two recordings that are compared, and how far it is played. Records are
//! read with restores, and numbered as `show` numbers them: by six bytes each.

use milchkompass::{Refusal, Replay};

use crate::at::describe_stacks;
use crate::failure::{said, Outcome};
use crate::line::{player_line, rule_words, Lines, Shown};
use crate::moments::{moment, play, screens};
use crate::names::Names;
use crate::opening::{self, Opening};
use crate::picture::ScreenRow;
use crate::words::{word_of, Reading};
use crate::RECORD;

/// So many restores of a recording are named.
const NAMED: usize = 10;

pub struct Side<'a> {
    pub name: &'a str,
    bytes: &'a [u8],
    pub replay: Replay,
    /// What is not played yet.
    pub left: &'a [u8],
    restores: Found,
    ignored: Found,
    /// The first record that begins within one of `show`.
    shifted: Option<u64>,
    /// The restore within which it ends.
    cut: Option<String>,
}

/// Records of one sort: how many, the numbers of the first ones, where the first
/// stands, and how many bytes are the sort's.
#[derive(Default)]
struct Found {
    count: usize,
    numbers: Vec<u64>,
    first: usize,
    bytes: usize,
}

impl Found {
    fn add(&mut self, number: u64, place: usize, bytes: usize) {
        if self.count == 0 {
            self.first = place;
        }
        if self.count < NAMED {
            self.numbers.push(number);
        }
        self.count += 1;
        self.bytes += bytes;
    }
}

impl<'a> Side<'a> {
    /// Opens a recording: a name and its bytes.
    pub fn open((name, bytes): (&'a str, &'a [u8])) -> Outcome<Side<'a>> {
        match opening::begin(bytes) {
            Opening::Stopped(played) => said(opening::no_table(name, played)),
            Opening::Table(replay) => Ok(Side {
                name,
                bytes,
                left: &bytes[replay.table().len()..],
                replay: *replay,
                restores: Found::default(),
                ignored: Found::default(),
                shifted: None,
                cut: None,
            }),
        }
    }

    /// The bytes behind the table.
    pub fn records(&self) -> &'a [u8] {
        &self.bytes[self.replay.table().len()..]
    }

    /// Where the next record begins, and the number of the record of `show` there.
    fn place(&self) -> usize {
        self.bytes.len() - self.left.len()
    }

    pub fn number(&self) -> u64 {
        (self.behind_table() / RECORD) as u64 + 1
    }

    fn behind_table(&self) -> usize {
        self.place() - self.replay.table().len()
    }

    /// Plays the next record, if there is one, and gives the line of it.
    pub fn next(&mut self, count: u64, lines: &mut Lines) -> Vec<u8> {
        let mut line = Vec::new();
        if self.left.is_empty() {
            return line;
        }
        let (number, place) = (self.number(), self.place());
        if self.shifted.is_none() && !self.behind_table().is_multiple_of(RECORD) {
            self.shifted = Some(number);
        }
        let (restores, ignored, cut) = (&mut self.restores, &mut self.ignored, &mut self.cut);
        let used = play(&mut self.replay, self.left, Reading::Restores, |shown| {
            line.extend_from_slice(lines.line(count, &shown));
            let length = shown.record.len();
            if is_restore(&shown) {
                restores.add(number, place, length - RECORD);
            } else if shown.record[0] == 6 && length >= RECORD {
                *cut = Some(cut_words(number, shown.record));
            } else if shown.played.refusal() == Some(Refusal::BadRecord) {
                ignored.add(number, place, length);
            }
        });
        self.left = &self.left[used..];
        line
    }

    /// A recording that ends within a restore has no ending to be told.
    pub fn check_end(&self) -> Outcome {
        match &self.cut {
            Some(words) => said(format!("{} ends within {words}", self.name)),
            None => Ok(()),
        }
    }

    /// What an agent sees of its record behind so many others, under its name.
    pub fn seen(&self, behind: u64, names: &Names) -> Outcome<Vec<String>> {
        let mut side = Side::open((self.name, self.bytes))?;
        let mut lines = vec![self.name.to_string()];
        for _ in 0..behind {
            let used = side.replay.next_call(side.left).used();
            side.left = &side.left[used..];
        }
        if side.left.is_empty() {
            lines.push("it has ended".to_string());
            return Ok(lines);
        }
        let (number, rows) = (side.number(), screens(&side.replay, names));
        play(&mut side.replay, side.left, Reading::Restores, |shown| {
            let text = beside(&rows, number, &shown, names);
            lines.extend(text.lines().map(str::to_string));
        });
        Ok(lines)
    }

    /// What its restores took, and whether records stand elsewhere than in `show`.
    pub fn told(&self) -> String {
        let (name, bytes) = (self.name, self.restores.bytes);
        let numbers = self.restores.numbers.iter().map(u64::to_string);
        let list = numbers.collect::<Vec<_>>().join(", ");
        let (which, whose) = match self.restores.count {
            0 => return String::new(),
            1 => (format!("the restore at record {list}"), "its image"),
            n if n > NAMED => (
                format!("{n} restores, at records {list} and others,"),
                "their images",
            ),
            _ => (format!("the restores at records {list}"), "their images"),
        };
        let took = format!("{name}: {which} took {bytes} bytes as {whose}\n");
        let Some(number) = self.shifted else {
            return took;
        };
        let shift = "an image shifts the records: 'show' reads it as records, and they begin \
                     within others there";
        format!("{took}{name}: from record {number} on, {shift}\n")
    }

    /// What there is to warn of, as `same` does: records that are no call.
    pub fn warning(&self) -> Option<String> {
        let Found {
            count,
            first,
            bytes,
            ..
        } = self.ignored;
        let record = self.ignored.numbers.first()?;
        Some(format!(
            "{}: records that are no call, of an unknown kind or cut: {count}, the first at \
             byte {first}, which is record {record}; {bytes} bytes are left out",
            self.name
        ))
    }
}

/// A record of kind 6 that was a call, accepted or refused.
fn is_restore(shown: &Shown) -> bool {
    shown.record[0] == 6 && shown.played.refusal() != Some(Refusal::BadRecord)
}

fn cut_words(number: u64, record: &[u8]) -> String {
    let (whole, there) = (word_of(record), record.len() - RECORD);
    format!("the restore at record {number}: of the {whole} bytes of its image {there} are there")
}

/// What stands beside the other recording's: the call with a mark on a restore,
/// the rule or the refusal, what closed, the player's line, and the stacks.
fn beside(rows: &[ScreenRow], number: u64, shown: &Shown, names: &Names) -> String {
    let told = moment(number, shown, names);
    let mark = if is_restore(shown) { "  <- kind 6" } else { "" };
    let rule = match rule_words(shown.reason) {
        rule if rule.is_empty() => "no rule".to_string(),
        rule => rule,
    };
    format!(
        "RECORD {number}: {}{mark}\n  {}\n  closed {}\n  line {}\n{}",
        told.call,
        told.refusal.as_ref().unwrap_or(&rule),
        told.closed,
        player_line(shown.record[0], shown.played),
        describe_stacks(rows, &told),
    )
}

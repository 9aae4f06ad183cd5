//! `show`: one line a record.

use std::thread;

use milchkompass::Replay;

use crate::batches::{self, Sender};
use crate::failure::{reason, said, warn, Outcome};
use crate::input::Input;
use crate::line::Lines;
use crate::names::Names;
use crate::opening::{self, Opening};
use crate::output::Output;
use crate::progress::Progress;
use crate::RECORD;

/// Which records are shown: from and to these, or all, or the refused ones alone.
#[derive(Default)]
pub struct Wanted {
    pub from: Option<u64>,
    pub to: Option<u64>,
    pub refused: bool,
}

impl Wanted {
    fn has(&self, number: u64) -> bool {
        self.from.is_none_or(|from| from <= number)
    }

    /// A record that was asked for is not there.
    pub fn check(&self, name: &str, last: u64) -> Outcome {
        match self.from.max(self.to) {
            Some(asked) if asked > last => no_record(name, asked, last),
            _ => Ok(()),
        }
    }
}

/// There is no record of this number.
pub fn no_record<T>(name: &str, asked: u64, last: u64) -> Outcome<T> {
    said(match last {
        0 => format!("{name} has no record {asked}: it has none"),
        _ => format!("{name} has no record {asked}: the last is {last}"),
    })
}

/// Shows the recording.
pub fn show(input: &mut Input, names: &Names, wanted: &Wanted, out: &mut Output) -> Outcome {
    match opening::read(input)? {
        Opening::Stopped(played) => {
            names.check(0)?;
            let line = Lines::new(names).stopped(played).to_vec();
            out.text.extend_from_slice(&line);
            wanted.check(input.name(), 0)?;
            out.write()?;
            warn(&opening::no_table(input.name(), played));
            Ok(())
        }
        Opening::Table(replay) => {
            names.check(replay.rows().len())?;
            let last = show_records(input, *replay, names, wanted, out)?;
            wanted.check(input.name(), last)
        }
    }
}

/// Shows the records, and gives how many there were up to the last that was read.
/// One thread plays them, and this one finds the words.
fn show_records(
    input: &mut Input,
    replay: Replay,
    names: &Names,
    wanted: &Wanted,
    out: &mut Output,
) -> Outcome<u64> {
    let mut lines = Lines::new(names);
    let (sender, receiver) = batches::exchange(&replay);
    thread::scope(|scope| {
        let player = move || play_records(input, replay, wanted, sender);
        let player = match thread::Builder::new().spawn_scoped(scope, player) {
            Ok(player) => player,
            Err(error) => return said(format!("no thread can be had: {}", reason(&error))),
        };
        let written = receiver.each(|number, shown| {
            out.text.extend_from_slice(lines.line(number, shown));
            out.settle()
        });
        let last = player.join().expect("a thread that does not panic");
        written.and(last)
    })
}

fn play_records(
    input: &mut Input,
    mut replay: Replay,
    wanted: &Wanted,
    mut sender: Sender,
) -> Outcome<u64> {
    let mut progress = Progress::new("records", true);
    let mut number = 0;
    while wanted.to != Some(number) && !sender.is_cut_off() {
        let bytes = input.peek(RECORD)?;
        if bytes.is_empty() {
            break;
        }
        number += 1;
        let used = if wanted.has(number) {
            sender.play(number, &mut replay, bytes, wanted.refused)
        } else {
            replay.next(bytes).used()
        };
        input.take(used);
        progress.at(number);
    }
    Ok(number)
}

//! What `at`, `diff` and `picture` are told of a record.

use milchkompass::{Reason, Replay};

use crate::failure::{said, Outcome};
use crate::input::Input;
use crate::line::{rule_words, Shown};
use crate::names::Names;
use crate::opening;
use crate::picture::{Book, Moment, ScreenRow, TaskView};
use crate::progress::Progress;
use crate::show::{no_record, Wanted};
use crate::words::{mode_words, start_of, Calls, Reading};
use crate::RECORD;

/// The most records of a picture.
pub const MOST: u64 = 200_000;

/// The screens of the table.
pub fn screens(replay: &Replay, names: &Names) -> Vec<ScreenRow> {
    let rows = replay.rows().enumerate();
    rows.map(|(screen, row)| ScreenRow {
        name: names.given(screen as u8).to_string(),
        mode: mode_words(row),
        affinity: row.affinity,
    })
    .collect()
}

/// A record, and what stands after it.
pub fn moment(number: u64, shown: &Shown, names: &Names) -> Moment {
    let reason = shown.reason;
    Moment {
        number,
        call: Calls::new(names).text(shown.record, shown.reading),
        refusal: shown.played.refusal().map(|refusal| refusal.to_string()),
        reason: reason.map_or(String::new(), |reason| reason_words(shown, reason)),
        rule: reason.map_or(0, |reason| reason.rule.number()),
        closed: shown.played.closed(),
        gone: gone(shown),
        tasks: tasks(shown.after),
        main: shown.after.main_place(),
        edition: shown.after.edition().number(),
        mark: shown.after.no_history(),
    }
}

fn gone(shown: &Shown) -> Vec<u8> {
    match shown.played.closed() {
        0 => Vec::new(),
        _ => shown.gone(),
    }
}

fn tasks(replay: &Replay) -> Vec<TaskView> {
    let tasks = replay.tasks().map(|task| TaskView {
        root: task.root,
        screens: task.screens.iter().rev().copied().collect(),
    });
    tasks.collect()
}

/// The rule's number, how a task was found, and the rule's sentence; of a task that
/// is gone no sentence says that it came to the front.
fn reason_words(shown: &Shown, reason: Reason) -> String {
    let rule = rule_words(Some(reason));
    let history = match shown.caller_closed() {
        true => ", which leaves no history",
        false => "",
    };
    if shown.found_task_went() {
        return format!(
            "{rule}: the task found holds the caller alone{history}: it closes, and its task goes"
        );
    }
    match shown.caller_closed() {
        true => format!("{rule}: {}; the caller closes{history}", reason.rule),
        false => format!("{rule}: {}", reason.rule),
    }
}

/// Plays the record at the start of these bytes, and does something with what it
/// came to. Gives how many bytes it took.
pub fn play<'a>(
    replay: &'a mut Replay,
    bytes: &'a [u8],
    reading: Reading,
    tell: impl FnOnce(Shown),
) -> usize {
    let before = replay.clone();
    let start = start_of(bytes);
    let reason = start.and_then(|(screen, flags)| replay.why(screen, flags).ok());
    let played = match reading {
        Reading::Player => replay.next(bytes),
        Reading::Restores => replay.next_call(bytes),
    };
    tell(Shown {
        record: &bytes[..played.used()],
        reading,
        played,
        before: &before,
        after: replay,
        reason,
    });
    played.used()
}

/// The recording, or a part of it, for a picture.
pub fn book(input: &mut Input, names: &Names, title: &str, wanted: &Wanted) -> Outcome<Book> {
    let mut replay = opening::read_table(input)?;
    let rows = screens(&replay, names);
    names.check(rows.len())?;
    let first = wanted.from.unwrap_or(1);
    skip(input, &mut replay, first)?;
    let before = tasks(&replay);
    let moments = record_moments(input, &mut replay, names, wanted)?;
    let last = first - 1 + moments.len() as u64;
    wanted.check(input.name(), last)?;
    Ok(Book {
        title: title.to_string(),
        screens: rows,
        main_screen: replay.table()[1],
        part: first > 1 || !input.peek(1)?.is_empty(),
        before,
        moments,
    })
}

/// Plays the records before this one.
pub fn skip(input: &mut Input, replay: &mut Replay, asked: u64) -> Outcome {
    let mut progress = Progress::new("records", false);
    for number in 1..asked {
        let bytes = input.peek(RECORD)?;
        if bytes.is_empty() {
            return no_record(input.name(), asked, number - 1);
        }
        let used = replay.next(bytes).used();
        input.take(used);
        progress.at(number);
    }
    Ok(())
}

fn record_moments(
    input: &mut Input,
    replay: &mut Replay,
    names: &Names,
    wanted: &Wanted,
) -> Outcome<Vec<Moment>> {
    let (mut moments, first) = (Vec::new(), wanted.from.unwrap_or(1));
    let mut progress = Progress::new("records", false);
    for number in first..=wanted.to.unwrap_or(u64::MAX) {
        let bytes = input.peek(RECORD)?;
        if bytes.is_empty() {
            break;
        }
        if number - first == MOST {
            return said(format!(
                "{} has more than {MOST} records there, too many for a picture: \
                 --from and --to choose fewer",
                input.name()
            ));
        }
        let used = play(replay, bytes, Reading::Player, |shown| {
            moments.push(moment(number, &shown, names));
        });
        input.take(used);
        progress.at(number);
    }
    Ok(moments)
}

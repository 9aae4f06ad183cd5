//! `at`: the stacks after a record, in the manner of `dumpsys activity
//! activities`.

use std::fmt::Write;

use crate::failure::Outcome;
use crate::input::Input;
use crate::moments::{moment, play, screens, skip};
use crate::names::Names;
use crate::opening;
use crate::picture::{Moment, ScreenRow, TaskView};
use crate::show::no_record;
use crate::words::Reading;
use crate::RECORD;

/// What stands after record `asked`.
pub fn at(input: &mut Input, asked: u64, names: &Names) -> Outcome<String> {
    let mut replay = opening::read_table(input)?;
    let rows = screens(&replay, names);
    names.check(rows.len())?;
    skip(input, &mut replay, asked)?;
    let mut text = String::new();
    let bytes = input.peek(RECORD)?;
    if bytes.is_empty() {
        return no_record(input.name(), asked, asked - 1);
    }
    play(&mut replay, bytes, Reading::Player, |shown| {
        text = describe(&rows, &moment(asked, &shown, names));
    });
    Ok(text)
}

/// The text of a moment.
pub fn describe(rows: &[ScreenRow], moment: &Moment) -> String {
    let mut text = format!("RECORD {}: {}\n", moment.number, moment.call);
    let told = moment.refusal.as_deref().unwrap_or(&moment.reason);
    if !told.is_empty() {
        text += &format!("  {told}\n");
    }
    if moment.closed > 0 {
        text += &format!(
            "  closed {}: {}\n",
            moment.closed,
            listed(rows, &moment.gone)
        );
    }
    text + &describe_stacks(rows, moment)
}

/// The tasks of a moment, front first, the edition and the mark.
pub fn describe_stacks(rows: &[ScreenRow], moment: &Moment) -> String {
    let mark = if moment.mark { "no-history" } else { "none" };
    let (tasks, edition) = (moment.tasks.len(), moment.edition);
    let mut text = format!("STACKS: tasks={tasks} edition={edition} mark={mark}\n");
    for (i, task) in moment.tasks.iter().enumerate() {
        let main = usize::from(moment.main) == i + 1;
        describe_task(&mut text, rows, i + 1, task, main);
    }
    text
}

fn describe_task(text: &mut String, rows: &[ScreenRow], place: usize, task: &TaskView, main: bool) {
    let row = &rows[usize::from(task.root)];
    let affinity = match row.affinity {
        0 => "none".to_string(),
        number => number.to_string(),
    };
    let (root, main) = (shown(rows, task.root), if main { "yes" } else { "no" });
    let screens = task.screens.len();
    // Writing to a string does not fail.
    let _ = writeln!(
        text,
        "  Task #{place}: root={root} affinity={affinity} main={main} screens={screens}"
    );
    for (i, screen) in task.screens.iter().enumerate() {
        let (from_bottom, mode) = (screens - 1 - i, &rows[usize::from(*screen)].mode);
        let name = shown(rows, *screen);
        let _ = writeln!(text, "    Hist #{from_bottom}: {name} mode={mode}");
    }
}

/// Screens as `show` lists them.
pub fn listed(rows: &[ScreenRow], screens: &[u8]) -> String {
    let screens = screens.iter().map(|screen| shown(rows, *screen));
    screens.collect::<Vec<_>>().join(",")
}

/// A screen by its name, or its number.
fn shown(rows: &[ScreenRow], screen: u8) -> String {
    match rows[usize::from(screen)].name.as_str() {
        "" => screen.to_string(),
        name => name.to_string(),
    }
}

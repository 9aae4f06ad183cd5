//! The flag chart: its entries, and what they do in words. Each entry is asked of
//! the library.

use milchkompass::{chart, Flags, LaunchMode};

/// What the flags are worth in an index.
const WORTH: [(u16, Flags); 6] = [
    (32, Flags::NEW_TASK),
    (16, Flags::SINGLE_TOP),
    (8, Flags::MULTIPLE_TASK),
    (4, Flags::CLEAR_TOP),
    (2, Flags::REORDER_TO_FRONT),
    (1, Flags::CLEAR_TASK),
];

/// The entries with their indices.
fn entries() -> impl Iterator<Item = (u16, u8)> {
    (0..=u16::MAX).map_while(|index| Some((index, chart(index)?)))
}

/// The entries, one a line.
pub fn numbers() -> String {
    entries().map(|(_, entry)| format!("{entry}\n")).collect()
}

/// A line of words for each entry, or for those of one mode.
pub fn in_words(mode: Option<LaunchMode>) -> String {
    let wanted = |index: u16| mode.is_none_or(|mode| index / 128 == u16::from(mode.number()));
    let entries = entries().filter(|(index, _)| wanted(*index));
    entries.map(|(index, entry)| line(index, entry)).collect()
}

fn line(index: u16, entry: u8) -> String {
    let mode = LaunchMode::ALL[usize::from(index / 128)];
    let caller = match index & 64 {
        0 => "",
        _ => " from a single-instance screen",
    };
    let mut flags = Flags::NONE;
    for (worth, flag) in WORTH {
        if index & worth != 0 {
            flags.insert(flag);
        }
    }
    let flags = match flags.is_empty() {
        true => String::new(),
        false => format!(" {flags}"),
    };
    format!("{index} {entry} {mode}{caller}{flags}: {}\n", words(entry))
}

/// What a start does by the rules of an entry's class.
fn words(entry: u8) -> String {
    let has = |value: u8| entry & value != 0;
    match entry & 7 {
        1 => "its task comes to the front; if it has none, a new task of it alone does".to_string(),
        3 => on_the_front_task(has(8), has(16), has(64)),
        4 => "a new task of it alone comes to the front".to_string(),
        _ if has(32) => on_a_found_task("all in it closes, and the screen opens in it"),
        class if class == 2 || has(16) => {
            on_a_found_task("what lies above the screen there closes, or the screen opens on top")
        }
        _ if has(8) => on_a_found_task(
            "the screen opens on top, unless it is there already, or the task is found by its root and is not the main one",
        ),
        _ => on_a_found_task(
            "the screen opens on top, unless the task is found by its root and is not the main one",
        ),
    }
}

fn on_a_found_task(what: &str) -> String {
    format!("a task found for it comes to the front, and {what}; if none is found, a new task of it alone does")
}

fn on_the_front_task(single: bool, clear_top: bool, reorder: bool) -> String {
    let mut parts = Vec::new();
    if single || clear_top || reorder {
        parts.push("if it is in front already, nothing moves");
    }
    if clear_top {
        parts.push("if the front task holds it, what lies above it closes");
    }
    if reorder {
        parts.push(
            "if the front task holds it, it comes to the top, and edition 7 empties a main task first",
        );
    }
    parts.push(match parts.is_empty() {
        true => "it opens on top of the front task",
        false => "else it opens on top of the front task",
    });
    parts.join("; ")
}

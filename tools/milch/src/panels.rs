//! `panels`: a text of steps and Backs, played on a container. A `#` begins a
//! comment, and lines may be empty.

use std::fmt::{self, Write};

use milchkompass::{Container, Operation};

use crate::cursor::{Cursor, Wrong};

/// The width of the number and that of the call; longer ones move what follows.
const NUMBER: usize = 6;
const CALL: usize = 26;

/// The call of a line.
#[derive(Debug, PartialEq, Eq)]
pub enum Call {
    Step(Vec<Operation>),
    Record(Vec<Operation>),
    Back,
}

impl fmt::Display for Call {
    fn fmt(&self, f: &mut fmt::Formatter) -> fmt::Result {
        let (word, operations) = match self {
            Call::Step(operations) => ("step", &operations[..]),
            Call::Record(operations) => ("record", &operations[..]),
            Call::Back => ("back", &[][..]),
        };
        f.write_str(word)?;
        operations.iter().try_for_each(|o| write!(f, " {o}"))
    }
}

/// The calls of a text, each with the number of its line.
pub fn calls_of(text: &str) -> Result<Vec<(usize, Call)>, Wrong> {
    let text = text.strip_prefix('\u{feff}').unwrap_or(text);
    let mut calls = Vec::new();
    for (i, line) in text.lines().enumerate() {
        if let Some(call) = call_of(&mut Cursor::new(i + 1, line))? {
            calls.push((i + 1, call));
        }
    }
    Ok(calls)
}

/// The call of a line, if it has one.
fn call_of(cursor: &mut Cursor) -> Result<Option<Call>, Wrong> {
    let Some(word) = cursor.word() else {
        return Ok(None);
    };
    Ok(Some(match word.text {
        "step" => Call::Step(operations(cursor)?),
        "record" => Call::Record(operations(cursor)?),
        "back" => {
            cursor.end()?;
            Call::Back
        }
        _ => return Err(cursor.wrong(Some(word), "step, record or back at the start of a line")),
    }))
}

/// The operations of a step, up to the end of the line. How many there may be says
/// the library.
fn operations(cursor: &mut Cursor) -> Result<Vec<Operation>, Wrong> {
    let mut found = Vec::new();
    while let Some(word) = cursor.word() {
        let operation = match word.text {
            "add" => Operation::Add,
            "remove" => Operation::Remove,
            "replace" => Operation::Replace,
            _ => {
                let expected = "add, remove, replace or the end of the line";
                return Err(cursor.wrong(Some(word), expected));
            }
        };
        found.push(operation(cursor.byte("a panel")?));
    }
    Ok(found)
}

/// One line a call: its line's number, the call, and the panels bottom first with
/// how many steps are recorded, or the refusal.
pub fn played(calls: &[(usize, Call)]) -> String {
    let (mut container, mut text) = (Container::new(), String::new());
    for (line, call) in calls {
        let result = match call {
            Call::Step(operations) => container.step(false, operations),
            Call::Record(operations) => container.step(true, operations),
            Call::Back => container.back(),
        };
        let call = call.to_string();
        let _ = write!(text, "{line:>NUMBER$}  {call:<CALL$}  ");
        let _ = match result {
            Ok(()) => writeln!(text, "{container}"),
            Err(refusal) => writeln!(text, "{refusal}"),
        };
    }
    text
}

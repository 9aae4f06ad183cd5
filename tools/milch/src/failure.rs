//! Why a command ends without having done all, and what it warns of.

use std::io::{self, Write};

/// What a command comes to.
pub type Outcome<T = ()> = Result<T, Failure>;

#[derive(Debug, PartialEq, Eq)]
pub enum Failure {
    /// A message for standard error.
    Said(String),
    /// Nobody reads standard output any more.
    Gone,
}

/// A failure with this message.
pub fn said<T>(message: impl Into<String>) -> Outcome<T> {
    Err(Failure::Said(message.into()))
}

/// Warns of something that is no failure.
pub fn warn(message: &str) {
    let _ = writeln!(io::stderr(), "milch: warning: {message}");
}

/// What the system says of an error, without its number.
pub fn reason(error: &io::Error) -> String {
    let text = error.to_string();
    match text.split_once(" (os error") {
        Some((words, _)) => words.to_string(),
        None => text,
    }
}

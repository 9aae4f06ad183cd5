//! The picture of a recording: one page that needs nothing else.

mod data;
mod follow;
mod pack;
#[cfg(test)]
mod tests;

pub use data::{Book, Moment, ScreenRow, TaskView};

const PAGE: &str = include_str!("page.html");
const STYLE: &[&str] = &[include_str!("page.css"), include_str!("strip.css")];
const SCRIPT: &[&str] = &[
    include_str!("book.js"),
    include_str!("words.js"),
    include_str!("text.js"),
    include_str!("column.js"),
    include_str!("strip.js"),
    include_str!("overview.js"),
    include_str!("page.js"),
];

/// A page has this among its first bytes, by which it is known.
const MADE: &str = "<meta name=\"generator\" content=\"milch picture\">";

/// Whether a file that begins with these bytes is a page of a recording.
pub fn is_page(beginning: &[u8]) -> bool {
    let mut places = beginning.windows(MADE.len());
    beginning.starts_with(b"<!DOCTYPE html>") && places.any(|place| place == MADE.as_bytes())
}

/// The page of a recording.
pub fn page(book: &Book) -> Vec<u8> {
    let mut page = Vec::new();
    let mut parts = PAGE.split("@@");
    while let Some(markup) = parts.next() {
        page.extend_from_slice(markup.as_bytes());
        match parts.next() {
            Some("made") => page.extend_from_slice(MADE.as_bytes()),
            Some("title") => page.extend_from_slice(escape(&book.title).as_bytes()),
            Some("style") => page.extend_from_slice(STYLE.concat().as_bytes()),
            Some("script") => page.extend_from_slice(SCRIPT.concat().as_bytes()),
            Some("book") => pack::add_data(book, &mut page),
            _ => {}
        }
    }
    page
}

/// A stranger's text as HTML text.
fn escape(word: &str) -> String {
    let word = pack::shown(word)
        .replace('&', "&amp;")
        .replace('<', "&lt;")
        .replace('>', "&gt;");
    word.replace('"', "&quot;").replace('\'', "&#39;")
}

//! The words of a line, each with its column.

use std::fmt;

/// What is not understood, and what was expected there.
#[derive(Debug, PartialEq, Eq)]
pub struct Wrong {
    /// The line and the column, both from 1; columns are characters.
    pub line: usize,
    pub column: usize,
    pub expected: String,
    /// What stands there; empty at the end of the line.
    pub found: String,
}

impl fmt::Display for Wrong {
    fn fmt(&self, f: &mut fmt::Formatter) -> fmt::Result {
        let (line, column, expected) = (self.line, self.column, &self.expected);
        write!(f, "{line}:{column}: expected {expected}, ")?;
        match self.found.as_str() {
            "" => f.write_str("and the line ends"),
            found => write!(f, "not '{found}'"),
        }
    }
}

/// A line, up to its comment.
#[derive(Clone)]
pub struct Cursor<'a> {
    line: usize,
    text: &'a str,
    /// Where the next word is sought, as a byte of the text.
    at: usize,
}

/// A word of a line.
#[derive(Clone, Copy)]
pub struct Word<'a> {
    pub text: &'a str,
    at: usize,
}

impl<'a> Cursor<'a> {
    pub fn new(line: usize, text: &'a str) -> Cursor<'a> {
        let text = text.split('#').next().unwrap_or(text).trim_end();
        Cursor { line, text, at: 0 }
    }

    /// The next word, or none at the end of the line.
    pub fn word(&mut self) -> Option<Word<'a>> {
        let rest = &self.text[self.at..];
        let begin = self.at + (rest.len() - rest.trim_start().len());
        let rest = &self.text[begin..];
        let length = rest.find(char::is_whitespace).unwrap_or(rest.len());
        self.at = begin + length;
        let text = &rest[..length];
        (length > 0).then_some(Word { text, at: begin })
    }

    /// Whether this word comes next; if so, it is taken.
    pub fn takes(&mut self, wanted: &str) -> bool {
        let mut ahead = self.clone();
        let next = ahead.word().is_some_and(|word| word.text == wanted);
        if next {
            *self = ahead;
        }
        next
    }

    /// This word comes next.
    pub fn keyword(&mut self, wanted: &str) -> Result<(), Wrong> {
        if self.takes(wanted) {
            return Ok(());
        }
        let found = self.word();
        Err(self.wrong(found, &format!("'{wanted}'")))
    }

    /// A number from 0 to 255 comes next.
    pub fn byte(&mut self, what: &str) -> Result<u8, Wrong> {
        let word = self.word();
        let digits = word.filter(|w| w.text.bytes().all(|c| c.is_ascii_digit()));
        let number = digits.and_then(|w| w.text.parse().ok());
        number.ok_or_else(|| self.wrong(word, &format!("{what}, 0 to 255")))
    }

    /// A byte in hex comes next.
    pub fn hex_byte(&mut self) -> Result<u8, Wrong> {
        let word = self.word();
        let digits = word.filter(|w| w.text.bytes().all(|c| c.is_ascii_hexdigit()));
        let two = digits.filter(|w| w.text.len() == 2);
        let byte = two.and_then(|w| u8::from_str_radix(w.text, 16).ok());
        byte.ok_or_else(|| self.wrong(word, "a byte as two hex digits"))
    }

    /// So many bytes in hex come next, and the line ends.
    pub fn hex(&mut self, count: usize, to: &mut Vec<u8>) -> Result<(), Wrong> {
        for _ in 0..count {
            to.push(self.hex_byte()?);
        }
        self.end()
    }

    /// The rest of the line is bytes in hex, if there is any.
    pub fn hex_rest(&mut self, to: &mut Vec<u8>) -> Result<(), Wrong> {
        while self.clone().word().is_some() {
            to.push(self.hex_byte()?);
        }
        Ok(())
    }

    /// The line ends here.
    pub fn end(&mut self) -> Result<(), Wrong> {
        match self.word() {
            None => Ok(()),
            word => Err(self.wrong(word, "the end of the line")),
        }
    }

    /// Something else was expected in the place of a word.
    pub fn wrong(&self, found: Option<Word>, expected: &str) -> Wrong {
        let at = found.map_or(self.text.len(), |word| word.at);
        self.wrong_at(at, found.map_or("", |word| word.text), expected)
    }

    /// The same of a part of a word, from a byte of it on.
    pub fn wrong_part(&self, word: Word, from: usize, part: &str, expected: &str) -> Wrong {
        let found = if part.is_empty() { word.text } else { part };
        self.wrong_at(word.at + from, found, expected)
    }

    fn wrong_at(&self, at: usize, found: &str, expected: &str) -> Wrong {
        Wrong {
            line: self.line,
            column: self.text[..at].chars().count() + 1,
            expected: expected.to_string(),
            found: visible(found),
        }
    }
}

/// The beginning of a word, with what cannot be seen made visible.
pub fn visible(word: &str) -> String {
    let beginning = word.chars().take(SHOWN).flat_map(char::escape_debug);
    let rest = word.chars().nth(SHOWN).map_or("", |_| "..");
    beginning.collect::<String>() + rest
}

/// So many characters of a word stand in a message.
const SHOWN: usize = 40;

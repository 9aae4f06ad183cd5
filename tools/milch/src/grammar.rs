//! The text of a recording, back to bytes: what `text` writes, and what a person
//! writes like it. A `#` begins a comment, and lines may be empty. A screen stands
//! there by its number or by its name.

use milchkompass::{Flags, LaunchMode};

use crate::cursor::{Cursor, Word, Wrong};
use crate::names::Names;
use crate::progress::Progress;

/// The most screens of a table.
const SCREENS: usize = 64;

const RECORDS: &str =
    "launch, start, finish-start, back, look, restore or raw at the start of a line";

/// What may stand on the next line.
#[derive(Clone, Copy, PartialEq, Eq)]
enum Next {
    /// A table, or raw bytes.
    Table,
    /// A screen of the table; behind the first one, records too.
    Screen,
    Record,
}

struct Reader<'a> {
    names: &'a Names,
    bytes: Vec<u8>,
    next: Next,
    screens: usize,
}

/// The bytes of a text.
pub fn bytes_of(text: &str, names: &Names) -> Result<Vec<u8>, Wrong> {
    let text = text.strip_prefix('\u{feff}').unwrap_or(text);
    let mut reader = Reader {
        names,
        bytes: Vec::new(),
        next: Next::Table,
        screens: 0,
    };
    let mut last = Cursor::new(1, "");
    let mut progress = Progress::new("lines", false);
    for (i, line) in text.lines().enumerate() {
        progress.at(i as u64 + 1);
        let mut cursor = Cursor::new(i + 1, line);
        last = cursor.clone();
        if let Some(word) = cursor.word() {
            reader.line(&mut cursor, word)?;
        }
    }
    if reader.next == Next::Screen && reader.screens == 0 {
        while last.word().is_some() {}
        return Err(last.wrong(None, "a line 'screen 0 ..' behind the table's"));
    }
    Ok(reader.bytes)
}

/// The bytes of a text that is given as bytes.
pub fn bytes_of_file(text: &[u8], names: &Names) -> Result<Vec<u8>, Wrong> {
    bytes_of(in_utf8(text)?, names)
}

/// A text that is given as bytes.
pub fn in_utf8(text: &[u8]) -> Result<&str, Wrong> {
    let text = match std::str::from_utf8(text) {
        Ok(text) => return Ok(text),
        Err(error) => String::from_utf8_lossy(&text[..error.valid_up_to()]).into_owned(),
    };
    let last = text.rsplit('\n').next().unwrap_or_default();
    Err(Wrong {
        line: text.matches('\n').count() + 1,
        column: last.chars().count() + 1,
        expected: "text in UTF-8".to_string(),
        found: "a byte that is none".to_string(),
    })
}

impl Reader<'_> {
    fn line(&mut self, cursor: &mut Cursor, word: Word) -> Result<(), Wrong> {
        match (self.next, word.text) {
            (Next::Table, "table") => self.table(cursor),
            (Next::Table, "raw") => self.record(cursor, word),
            (Next::Table, _) => {
                Err(cursor.wrong(Some(word), "table or raw, with which a text begins"))
            }
            (Next::Screen, "screen") => self.screen(cursor),
            (Next::Screen, _) if self.screens == 0 => Err(cursor.wrong(Some(word), "screen")),
            _ => self.record(cursor, word),
        }
    }

    /// The number of screens comes first, and is counted.
    fn table(&mut self, cursor: &mut Cursor) -> Result<(), Wrong> {
        cursor.keyword("main")?;
        let main = self.screen_of(cursor, "the main screen")?;
        cursor.end()?;
        self.bytes = vec![0, main];
        self.next = Next::Screen;
        Ok(())
    }

    fn screen(&mut self, cursor: &mut Cursor) -> Result<(), Wrong> {
        if self.screens == SCREENS {
            return Err(cursor.wrong(
                cursor.clone().word(),
                "no further screen: a table has 64 at most",
            ));
        }
        let screen = self.screens as u8;
        if !cursor.takes(&self.names.shown(screen)) {
            cursor.keyword(&screen.to_string())?;
        }
        let mode = mode(cursor)?;
        cursor.keyword("affinity")?;
        let affinity = cursor.byte("an affinity")?;
        cursor.end()?;
        self.bytes.extend([mode, affinity]);
        self.screens += 1;
        self.bytes[0] = self.screens as u8;
        Ok(())
    }

    fn record(&mut self, cursor: &mut Cursor, word: Word) -> Result<(), Wrong> {
        self.next = Next::Record;
        match word.text {
            "launch" => self.launch(cursor),
            "start" => self.start(cursor, 2),
            "finish-start" => self.start(cursor, 3),
            "back" => self.bare(cursor, 4),
            "look" => self.bare(cursor, 5),
            "restore" => self.restore(cursor),
            "raw" => self.raw(cursor),
            _ => Err(cursor.wrong(Some(word), RECORDS)),
        }
    }

    fn launch(&mut self, cursor: &mut Cursor) -> Result<(), Wrong> {
        let edition = match cursor.takes("edition") {
            true => cursor.byte("an edition")?,
            false => 0,
        };
        self.bytes.extend([1, edition]);
        self.ignored(cursor, 4)
    }

    fn start(&mut self, cursor: &mut Cursor, kind: u8) -> Result<(), Wrong> {
        let screen = self.screen_of(cursor, "a screen")?;
        let word = match cursor.word() {
            Some(word) => flags(cursor, word)?,
            None => 0,
        };
        cursor.end()?;
        self.bytes.extend([kind, screen]);
        self.bytes.extend(word.to_be_bytes());
        Ok(())
    }

    /// A screen by its name or its number.
    fn screen_of(&self, cursor: &mut Cursor, what: &str) -> Result<u8, Wrong> {
        let mut ahead = cursor.clone();
        let word = ahead.word();
        if let Some(screen) = word.and_then(|word| self.names.screen(word.text)) {
            *cursor = ahead;
            return Ok(screen);
        }
        match self.names.are_given() {
            true => cursor.byte(&format!("{what} by its name, or by its number")),
            false => cursor.byte(what),
        }
    }

    fn bare(&mut self, cursor: &mut Cursor, kind: u8) -> Result<(), Wrong> {
        self.bytes.push(kind);
        self.ignored(cursor, 5)
    }

    /// The bytes that a call does not read: zeros, or as they are given.
    fn ignored(&mut self, cursor: &mut Cursor, count: usize) -> Result<(), Wrong> {
        if cursor.takes("ignored") {
            return cursor.hex(count, &mut self.bytes);
        }
        self.bytes.extend(vec![0; count]);
        match cursor.word() {
            None => Ok(()),
            word => Err(cursor.wrong(word, "'ignored' or the end of the line")),
        }
    }

    fn restore(&mut self, cursor: &mut Cursor) -> Result<(), Wrong> {
        let ignored = match cursor.takes("ignored") {
            true => cursor.hex_byte()?,
            false => 0,
        };
        cursor.keyword("image")?;
        let mut image = Vec::new();
        cursor.hex_rest(&mut image)?;
        self.bytes.extend([6, ignored]);
        self.bytes.extend((image.len() as u32).to_be_bytes());
        self.bytes.extend(image);
        Ok(())
    }

    fn raw(&mut self, cursor: &mut Cursor) -> Result<(), Wrong> {
        self.bytes.push(cursor.hex_byte()?);
        cursor.hex_rest(&mut self.bytes)
    }
}

/// A launch mode by its name, or by a number that is none.
fn mode(cursor: &mut Cursor) -> Result<u8, Wrong> {
    if cursor.takes("mode") {
        return cursor.byte("a mode");
    }
    let word = cursor.word();
    let known = word.and_then(|word| word.text.parse::<LaunchMode>().ok());
    match known {
        Some(mode) => Ok(mode.number()),
        None => Err(cursor.wrong(
            word,
            "standard, single-top, single-task, single-instance or mode",
        )),
    }
}

/// A flag word: names of flags, and other bits as a number, with bars between.
fn flags(cursor: &Cursor, word: Word) -> Result<u32, Wrong> {
    let (mut bits, mut from) = (0, 0);
    for part in word.text.split('|') {
        let other = part.strip_prefix("0x");
        let digits = other.filter(|d| d.bytes().all(|c| c.is_ascii_hexdigit()));
        let number = digits.and_then(|d| u32::from_str_radix(d, 16).ok());
        match Flags::from_name(part).map(Flags::bits).or(number) {
            Some(more) => bits |= more,
            None => {
                let expected = "a flag, such as NEW_TASK, or 0x and a number";
                return Err(cursor.wrong_part(word, from, part, expected));
            }
        }
        from += part.len() + 1;
    }
    Ok(bits)
}

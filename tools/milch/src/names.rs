//! Screens by name. A line has a screen's number, its name and, if there is one,
//! its site; a line that begins with `#` is a comment.

use std::ffi::OsStr;

use crate::cursor::visible;
use crate::failure::{said, Outcome};
use crate::input::read_whole;
use crate::pen::{Pen, Short};

/// What each screen is shown as: its name, or its number.
pub struct Names {
    shown: Vec<Shown>,
    given: Vec<Given>,
    file: String,
}

/// A line of the file.
struct Given {
    line: usize,
    screen: u8,
    name: String,
    site: String,
}

/// A screen's text with a comma behind it.
enum Shown {
    Short(Short<8>),
    Long(String),
}

impl Shown {
    fn new(text: &str) -> Shown {
        let listed = format!("{text},");
        match Short::of(&listed) {
            Some(short) => Shown::Short(short),
            None => Shown::Long(listed),
        }
    }
}

impl Names {
    /// No names.
    pub fn none() -> Names {
        Names {
            shown: (0..=255u8).map(|n| Shown::new(&n.to_string())).collect(),
            given: Vec::new(),
            file: String::new(),
        }
    }

    /// The names of a file, or none.
    pub fn open(file: Option<&OsStr>) -> Outcome<Names> {
        let Some(file) = file else {
            return Ok(Names::none());
        };
        let name = file.to_string_lossy();
        match String::from_utf8(read_whole(file)?) {
            Ok(text) => Names::read(&name, &text),
            Err(error) => {
                let valid = &error.as_bytes()[..error.utf8_error().valid_up_to()];
                let line = valid.iter().filter(|byte| **byte == b'\n').count() + 1;
                said(format!("{name}:{line}: a byte that is no UTF-8 text"))
            }
        }
    }

    /// The names of a text. A byte order mark before it is passed over, and lines
    /// may be empty.
    pub fn read(file: &str, text: &str) -> Outcome<Names> {
        let mut names = Names::none();
        names.file = file.to_string();
        let text = text.strip_prefix('\u{feff}').unwrap_or(text);
        for (i, line) in text.lines().enumerate() {
            let line = line.trim();
            if !line.is_empty() && !line.starts_with('#') {
                names
                    .add(i + 1, line)
                    .or_else(|what| said(format!("{file}:{}: {what}", i + 1)))?;
            }
        }
        Ok(names)
    }

    /// Adds a line, or says what is wrong with it.
    fn add(&mut self, line: usize, text: &str) -> Result<(), String> {
        let mut words = text.split_whitespace();
        let screen = screen_of(words.next().unwrap_or_default())?;
        let Some(name) = words.next() else {
            return Err(format!("screen {screen} has no name behind it"));
        };
        let site = words.next().unwrap_or_default();
        if let Some(more) = words.next() {
            let more = visible(more);
            return Err(format!(
                "'{more}' is too much behind a number, a name and a site"
            ));
        }
        check_letters("name", name)?;
        check_letters("site", site)?;
        if name.bytes().all(|c| c.is_ascii_digit()) {
            return Err(format!("the name '{name}' is a number"));
        }
        self.check_new(screen, name)?;
        self.shown[usize::from(screen)] = Shown::new(name);
        self.given.push(Given {
            line,
            screen,
            name: name.to_string(),
            site: site.to_string(),
        });
        Ok(())
    }

    /// One screen has one name.
    fn check_new(&self, screen: u8, name: &str) -> Result<(), String> {
        for known in &self.given {
            let line = known.line;
            if known.name == name {
                return Err(format!("the name '{name}' stands on line {line}"));
            }
            if known.screen == screen {
                return Err(format!("screen {screen} has its name on line {line}"));
            }
        }
        Ok(())
    }

    /// Each name is that of a screen below this number.
    pub fn check(&self, screens: usize) -> Outcome {
        for Given { line, screen, .. } in &self.given {
            if usize::from(*screen) >= screens {
                let words = format!("{screen} is no screen: the table has {screens}");
                return said(format!("{}:{line}: {words}", self.file));
            }
        }
        Ok(())
    }

    /// Adds what a screen is shown as.
    #[inline(always)]
    pub fn write(&self, pen: &mut Pen, screen: u8) {
        self.write_listed(pen, screen);
        pen.back();
    }

    /// The same with a comma behind it.
    #[inline(always)]
    pub fn write_listed(&self, pen: &mut Pen, screen: u8) {
        match &self.shown[usize::from(screen)] {
            Shown::Short(text) => pen.short(text),
            Shown::Long(text) => pen.long(text),
        }
    }

    /// No screen is shown with more bytes.
    pub fn longest(&self) -> usize {
        let given = self.given.iter().map(|given| given.name.len());
        given.max().unwrap_or(0).max("255".len())
    }

    /// What a screen is shown as.
    pub fn shown(&self, screen: u8) -> String {
        match self.given(screen) {
            "" => screen.to_string(),
            name => name.to_string(),
        }
    }

    /// A screen's name, empty where it has none.
    pub fn given(&self, screen: u8) -> &str {
        self.line_of(screen).map_or("", |given| &given.name)
    }

    /// A screen's site, empty where it has none.
    pub fn site(&self, screen: u8) -> &str {
        self.line_of(screen).map_or("", |given| &given.site)
    }

    fn line_of(&self, screen: u8) -> Option<&Given> {
        self.given.iter().find(|given| given.screen == screen)
    }

    /// The screen of this name.
    pub fn screen(&self, name: &str) -> Option<u8> {
        let given = self.given.iter().find(|given| given.name == name);
        given.map(|given| given.screen)
    }

    /// Whether there are any.
    pub fn are_given(&self) -> bool {
        !self.given.is_empty()
    }
}

fn screen_of(number: &str) -> Result<u8, String> {
    let digits = number.bytes().all(|c| c.is_ascii_digit());
    let screen = number.parse().ok().filter(|_| digits);
    screen.ok_or_else(|| format!("'{}' is no screen", visible(number)))
}

/// A name has nothing that stands between names in a line or begins a comment, and
/// nothing that cannot be seen or that turns the direction of writing.
fn check_letters(what: &str, word: &str) -> Result<(), String> {
    let shown = visible(word);
    if let Some(letter) = word.chars().find(|c| ",:[]#".contains(*c)) {
        return Err(format!("the {what} '{shown}' has a '{letter}'"));
    }
    match word.chars().find(|c| hides(*c)) {
        Some(letter) => Err(format!(
            "the {what} '{shown}' has the character U+{:04X}, which is not seen",
            letter as u32
        )),
        None => Ok(()),
    }
}

/// Whether a character is a control, is not seen, or turns the direction of writing.
pub fn hides(letter: char) -> bool {
    letter.is_control()
        || matches!(
            letter,
            '\u{61c}' | '\u{200b}' | '\u{200e}' | '\u{200f}' | '\u{2028}'..='\u{202e}'
        )
        || matches!(letter, '\u{2060}'..='\u{206f}' | '\u{feff}')
}

//! What a command is given, by the first lines of its usage.

use std::ffi::{OsStr, OsString};

use milchkompass::{Flags, LaunchMode};

use crate::synopsis::{self, Opt, Synopsis};

/// A command's arguments, told apart. Names of files need not be text.
#[derive(Debug, Default, PartialEq, Eq)]
pub struct Arguments {
    pub names: Option<OsString>,
    pub out: Option<OsString>,
    pub from: Option<u64>,
    pub to: Option<u64>,
    pub known: Option<Flags>,
    pub refused: bool,
    pub force: bool,
    pub words: bool,
    pub mode: Option<LaunchMode>,
    /// The others, in their order.
    pub plain: Vec<OsString>,
}

/// Reads a command's arguments by its usage, or says what is wrong with them.
pub fn read(usage: &str, given: &[OsString]) -> Result<Arguments, String> {
    let synopsis = synopsis::read(usage);
    let (mut arguments, mut set) = (Arguments::default(), Vec::new());
    let mut rest = given.iter();
    while let Some(next) = rest.next() {
        if next == "-" || !next.as_encoded_bytes().starts_with(b"-") {
            arguments.add_plain(&synopsis, next)?;
            continue;
        }
        let option = option_of(&synopsis, next)?;
        if set.contains(&option.name) {
            return Err(format!("{} is given twice", option.name));
        }
        set.push(option.name);
        match option.value {
            None => arguments.set_bare(option.name),
            Some(kind) => arguments.set(option.name, kind, rest.next())?,
        }
    }
    check_all(&synopsis, &arguments, &set)?;
    Ok(arguments)
}

/// The option of this name, if the command knows it.
fn option_of<'a>(synopsis: &Synopsis<'a>, name: &OsStr) -> Result<Opt<'a>, String> {
    if name == "--help" || name == "-h" {
        let name = name.to_string_lossy();
        return Err(format!("{name} stands alone behind the command"));
    }
    let known = synopsis.options.iter().find(|option| name == option.name);
    known
        .copied()
        .ok_or_else(|| format!("no option {} is known", name.to_string_lossy()))
}

impl Arguments {
    fn add_plain(&mut self, synopsis: &Synopsis, given: &OsStr) -> Result<(), String> {
        let Some(kind) = synopsis.wanted.get(self.plain.len()) else {
            let given = given.to_string_lossy();
            return Err(format!("'{given}' is one argument too many"));
        };
        match *kind {
            "K" => drop(record_number(kind, given)?),
            _ => drop(file_name(kind, given)?),
        }
        self.plain.push(given.to_os_string());
        Ok(())
    }

    fn set_bare(&mut self, option: &str) {
        match option {
            "--refused" => self.refused = true,
            "--words" => self.words = true,
            _ => self.force = true,
        }
    }

    fn set(&mut self, option: &str, kind: &str, value: Option<&OsString>) -> Result<(), String> {
        let value = value.ok_or_else(|| format!("behind {option} {kind} is missing"))?;
        match option {
            "--from" => self.from = Some(record_number(option, value)?),
            "--to" => self.to = Some(record_number(option, value)?),
            "--known" => self.known = Some(known_flags(option, value)?),
            "--mode" => self.mode = Some(launch_mode(option, value)?),
            "--names" => self.names = Some(file_name(option, value)?),
            _ if value == "-" => return Err(format!("{option} - is no file to be written")),
            _ => self.out = Some(file_name(option, value)?),
        }
        Ok(())
    }

    /// The number of a record that is given as such an argument.
    pub fn number(&self, place: usize) -> Option<u64> {
        let given = self.plain.get(place)?;
        record_number("K", given).ok()
    }
}

/// The number of a record: 1 or more.
fn record_number(what: &str, given: &OsStr) -> Result<u64, String> {
    let text = given.to_string_lossy();
    let digits = !text.is_empty() && text.bytes().all(|c| c.is_ascii_digit());
    if !digits || text.bytes().all(|c| c == b'0') {
        let first = "is no record's number, of which the first is 1";
        return Err(format!("{what} '{text}' {first}"));
    }
    let too_large = |_| format!("{what} '{text}' is beyond the last record of any recording");
    text.parse().map_err(too_large)
}

/// Flags by their names, joined by `|` or commas, hex behind `0x`, or `none`.
fn known_flags(what: &str, given: &OsStr) -> Result<Flags, String> {
    let text = given.to_string_lossy();
    if text == "none" {
        return Ok(Flags::NONE);
    }
    let parts = text.split(['|', ',']).map(str::trim);
    let flags = parts.map(|part| part.parse().ok().filter(|_| !part.is_empty()));
    let joined = flags.reduce(|all, flag: Option<Flags>| Some(all? | flag?));
    let forms = "names joined by | or commas, hex behind 0x, or none";
    let wrong = || format!("{what} '{text}' is no list of flags: {forms}");
    joined.flatten().ok_or_else(wrong)
}

fn launch_mode(what: &str, given: &OsStr) -> Result<LaunchMode, String> {
    let text = given.to_string_lossy();
    let modes = "standard, single-top, single-task and single-instance";
    text.parse()
        .map_err(|_| format!("{what} '{text}' is none of {modes}"))
}

fn file_name(what: &str, given: &OsStr) -> Result<OsString, String> {
    match given.is_empty() {
        true => Err(format!("{what} is an empty name")),
        false => Ok(given.to_os_string()),
    }
}

/// Nothing is missing, and what is given goes together.
fn check_all(synopsis: &Synopsis, given: &Arguments, set: &[&str]) -> Result<(), String> {
    if let Some(missing) = synopsis.wanted.get(given.plain.len()) {
        return Err(format!("{missing} is missing"));
    }
    for option in synopsis.options.iter().filter(|option| option.due) {
        if !set.contains(&option.name) {
            let (name, value) = (option.name, option.value.unwrap_or_default());
            return Err(format!("{name} {value} is missing"));
        }
    }
    if let (Some(from), Some(to)) = (given.from, given.to) {
        if to < from {
            return Err(format!("--to {to} is before --from {from}"));
        }
    }
    if given.force && given.out.is_none() {
        return Err("--force is there for --out, which is missing".to_string());
    }
    if given.mode.is_some() && !given.words {
        return Err("--mode is there for --words, which is missing".to_string());
    }
    let read = given.plain.iter().chain(&given.names);
    if read.filter(|name| *name == "-").count() > 1 {
        return Err("standard input can be read once only".to_string());
    }
    Ok(())
}

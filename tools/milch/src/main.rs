//! `./milch`: what a support agent sees of a recording.

use std::ffi::{OsStr, OsString};
use std::io::{self, Write};
use std::path::Path;
use std::process::ExitCode;

use milch::arguments::{self, Arguments};
use milch::failure::{said, warn, Failure, Outcome};
use milch::input::{read_whole, Input};
use milch::memory::Memory;
use milch::names::Names;
use milch::opening::{self, Opening};
use milch::output::Output;
use milch::show::{self, Wanted};
use milch::{at, chart, diff, fronts, grammar, moments, panels, picture, text, usage, whole_file};

#[global_allocator]
static MEMORY: Memory = Memory;

/// Something differs.
const DIFFERS: u8 = 1;
/// Not all is done.
const FAILED: u8 = 2;

fn main() -> ExitCode {
    let given: Vec<OsString> = std::env::args_os().skip(1).collect();
    let status = match given.split_first() {
        Some((help, [])) if is_help(help) => print(usage::WHOLE.as_bytes()).map(|()| 0),
        Some((command, rest)) => run(command, rest),
        None => {
            let _ = io::stderr().write_all(usage::WHOLE.as_bytes());
            Ok(FAILED)
        }
    };
    match status {
        Ok(status) => ExitCode::from(status),
        // Where nobody reads on, what is left to say is not missed.
        Err(Failure::Gone) => ExitCode::SUCCESS,
        Err(Failure::Said(message)) => {
            let _ = writeln!(io::stderr(), "milch: {message}");
            ExitCode::from(FAILED)
        }
    }
}

fn is_help(given: &OsStr) -> bool {
    given == "--help" || given == "-h"
}

fn run(command: &OsStr, given: &[OsString]) -> Outcome<u8> {
    let name = command.to_string_lossy();
    let Some(help) = usage::of(&name) else {
        let more = "'./milch --help' says what it takes";
        return said(format!("no command '{name}' is known; {more}"));
    };
    if matches!(given, [help] if is_help(help)) {
        return print(help.as_bytes()).map(|()| 0);
    }
    let arguments = arguments::read(help, given).or_else(|wrong| {
        let more = format!("'./milch {name} --help' says what it takes");
        said(format!("{name}: {wrong}; {more}"))
    })?;
    match &*name {
        "show" => show(&arguments),
        "at" => at(&arguments),
        "text" => write_text(&arguments),
        "bytes" => write_bytes(&arguments),
        "diff" => compare(&arguments),
        "fronts" => tell_fronts(&arguments),
        "panels" => play_panels(&arguments),
        "chart" => write_chart(&arguments),
        _ => draw(&arguments),
    }
}

fn print(bytes: &[u8]) -> Outcome {
    let mut stdout = io::stdout().lock();
    let mut out = Output::new(&mut stdout);
    out.text.extend_from_slice(bytes);
    out.finish()
}

/// As `print`, for what has to be read whole.
fn print_whole(bytes: &[u8]) -> Outcome {
    match print(bytes) {
        Err(Failure::Gone) => said("standard output: the reader went away"),
        printed => printed,
    }
}

fn wanted(arguments: &Arguments) -> Wanted {
    Wanted {
        from: arguments.from,
        to: arguments.to,
        refused: arguments.refused,
    }
}

fn show(arguments: &Arguments) -> Outcome<u8> {
    let names = Names::open(arguments.names.as_deref())?;
    let mut input = Input::open(&arguments.plain[0])?;
    let mut stdout = io::stdout().lock();
    let mut out = Output::new(&mut stdout);
    let shown = show::show(&mut input, &names, &wanted(arguments), &mut out);
    out.finish()?;
    shown.map(|()| 0)
}

fn at(arguments: &Arguments) -> Outcome<u8> {
    let names = Names::open(arguments.names.as_deref())?;
    let mut input = Input::open(&arguments.plain[0])?;
    let asked = arguments.number(1).unwrap_or(1);
    let text = at::at(&mut input, asked, &names)?;
    print(text.as_bytes()).map(|()| 0)
}

fn write_text(arguments: &Arguments) -> Outcome<u8> {
    let names = Names::open(arguments.names.as_deref())?;
    let mut input = Input::open(&arguments.plain[0])?;
    let mut stdout = io::stdout().lock();
    let mut out = Output::new(&mut stdout);
    let written = text::write(&mut input, &names, &mut out);
    out.finish()?;
    written.map(|()| 0)
}

fn write_bytes(arguments: &Arguments) -> Outcome<u8> {
    check_out(arguments, |_| false, "")?;
    let names = Names::open(arguments.names.as_deref())?;
    let file = &arguments.plain[0];
    let bytes = match grammar::bytes_of_file(&read_whole(file)?, &names) {
        Ok(bytes) => bytes,
        Err(wrong) => return said(format!("{}:{wrong}", file.to_string_lossy())),
    };
    names.check(match opening::begin(&bytes) {
        Opening::Table(replay) => replay.rows().len(),
        Opening::Stopped(_) => 0,
    })?;
    match &arguments.out {
        Some(out) => whole_file::write(out, &bytes)?,
        None => print_whole(&bytes)?,
    }
    Ok(0)
}

/// What is read is never written over, and what is there only where it may be.
fn check_out(arguments: &Arguments, own: impl Fn(&[u8]) -> bool, what: &str) -> Outcome {
    let Some(out) = arguments.out.as_deref() else {
        return Ok(());
    };
    let mut read = arguments.names.iter().chain(&arguments.plain);
    if read.any(|read| whole_file::is_one_file(read, out)) {
        return said(format!("{} is read, and stays", out.to_string_lossy()));
    }
    match arguments.force {
        true => Ok(()),
        false => whole_file::check_free(out, own, what),
    }
}

fn compare(arguments: &Arguments) -> Outcome<u8> {
    let names = Names::open(arguments.names.as_deref())?;
    let (first, second) = (&arguments.plain[0], &arguments.plain[1]);
    let (one, other) = (read_whole(first)?, read_whole(second)?);
    let (first, second) = (first.to_string_lossy(), second.to_string_lossy());
    let compared = diff::diff((&first, &one), (&second, &other), &names)?;
    compared.warnings.iter().for_each(|warning| warn(warning));
    print_whole(compared.text.as_bytes())?;
    Ok(if compared.alike { 0 } else { DIFFERS })
}

fn tell_fronts(arguments: &Arguments) -> Outcome<u8> {
    let names = Names::open(arguments.names.as_deref())?;
    let mut input = Input::open(&arguments.plain[0])?;
    let (asked, known) = (arguments.number(1).unwrap_or(1), arguments.known);
    let told = fronts::fronts(&mut input, asked, known.unwrap_or_default(), &names)?;
    told.warning.iter().for_each(|warning| warn(warning));
    print(told.text.as_bytes()).map(|()| 0)
}

fn play_panels(arguments: &Arguments) -> Outcome<u8> {
    let file = &arguments.plain[0];
    let text = read_whole(file)?;
    match grammar::in_utf8(&text).and_then(panels::calls_of) {
        Ok(calls) => print(panels::played(&calls).as_bytes()).map(|()| 0),
        Err(wrong) => said(format!("{}:{wrong}", file.to_string_lossy())),
    }
}

fn write_chart(arguments: &Arguments) -> Outcome<u8> {
    let text = match arguments.words {
        true => chart::in_words(arguments.mode),
        false => chart::numbers(),
    };
    print(text.as_bytes()).map(|()| 0)
}

fn draw(arguments: &Arguments) -> Outcome<u8> {
    check_out(arguments, picture::is_page, ", and is no page of a picture")?;
    let names = Names::open(arguments.names.as_deref())?;
    let file = &arguments.plain[0];
    let mut input = Input::open(file)?;
    let title = match Path::new(file).file_name() {
        _ if file == "-" => "standard input".into(),
        Some(name) => name.to_string_lossy(),
        None => file.to_string_lossy(),
    };
    let book = moments::book(&mut input, &names, &title, &wanted(arguments))?;
    let out = arguments.out.as_deref().unwrap_or_default();
    whole_file::write(out, &picture::page(&book)).map(|()| 0)
}

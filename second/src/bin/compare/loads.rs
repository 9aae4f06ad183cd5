//! Loads are compared: the program reads a table, or a recording that begins with one, on
//! standard input, gets a seed and a number of records as arguments, and writes the table
//! and the records; with `--records` these alone, with `--state` a line with the state
//! after them, as 0x and eight digits.
//!
//! Tables alone and with a recording behind them, of each seed and each small number of
//! records, and then larger ones from the seed until there are as many records as asked
//! for. Where the table or the seed is refused, the program is to write nothing on
//! standard output, and a message on standard error.

use std::ffi::OsString;
use std::fmt;
use std::path::PathBuf;
use std::process::ExitCode;
use std::time::Instant;

use second::cases::{Case, Cases};
use second::hex::hex;
use second::load;
use second::play::RECORD;
use second::random::Random;
use second::Table;

use crate::make::{record, T};
use crate::outside::Program;
use crate::Options;

/// Seeds that are tried in any case.
const SEEDS: [u32; 8] = [1, 2, 3, 1 << 15, 1 << 16, 1 << 31, u32::MAX - 1, u32::MAX];
/// The greatest of the small numbers of records, each of which is tried.
const SMALL: usize = 20;
/// The greatest number of records.
const LARGEST: u64 = 1_000_000;

/// What is to be written.
#[derive(Clone, Copy, Debug, PartialEq)]
pub enum Form {
    Whole,
    Records,
    State,
}

const FORMS: [Form; 3] = [Form::Whole, Form::Records, Form::State];

impl Form {
    fn option(self) -> Option<&'static str> {
        match self {
            Form::Whole => None,
            Form::Records => Some("--records"),
            Form::State => Some("--state"),
        }
    }
}

/// What is asked for.
#[derive(Clone)]
pub struct Asked {
    pub form: Form,
    /// A table, good or bad, and how many bytes of the file it is.
    pub file: Vec<u8>,
    pub table: usize,
    pub seed: u32,
    pub records: usize,
}

impl Asked {
    fn table(&self) -> &[u8] {
        &self.file[..self.table]
    }

    /// What is to be written, if it is not refused.
    fn expected(&self) -> Option<Vec<u8>> {
        let table = self.table();
        let mut records = vec![0; self.records * RECORD];
        let load = load::fill(table, self.seed, &mut records).ok()?;
        Some(match self.form {
            Form::Whole => [table, &records].concat(),
            Form::Records => records,
            Form::State => format!("0x{:08x}\n", load.state).into_bytes(),
        })
    }
}

/// What is to come up.
const CASES: [Case<Asked>; 12] = [
    ("table and records", |asked| is(asked, Form::Whole)),
    ("records alone", |asked| is(asked, Form::Records)),
    ("the state alone", |asked| is(asked, Form::State)),
    ("a table alone", |asked| asked.file.len() == asked.table),
    ("a recording", |asked| asked.file.len() > asked.table),
    ("no record", |asked| {
        asked.records == 0 && asked.expected().is_some()
    }),
    ("1 to 20 records", |asked| {
        (1..=SMALL).contains(&asked.records) && asked.expected().is_some()
    }),
    ("10,000 records and more", |asked| asked.records >= 10_000),
    ("64 screens", |asked| asked.file.first() == Some(&64)),
    ("a table refused with 1", |asked| refusal(asked) == Some(1)),
    ("a table refused with 2", |asked| refusal(asked) == Some(2)),
    ("seed 0", |asked| refusal(asked) == Some(32)),
];

/// Whether records are made, and written in this form.
fn is(asked: &Asked, form: Form) -> bool {
    asked.form == form && asked.records > 0 && refusal(asked).is_none()
}

fn refusal(asked: &Asked) -> Option<u8> {
    let refused = load::fill(asked.table(), asked.seed, &mut []).err()?;
    Some(refused as u8)
}

/// What makes loads: the program, or what a test puts in its place.
pub trait Loading {
    /// What is written, nothing where it is refused, or what went wrong.
    fn load(&self, asked: &Asked) -> Result<Option<Vec<u8>>, String>;
}

/// The program.
struct Outside(PathBuf);

impl Loading for Outside {
    fn load(&self, asked: &Asked) -> Result<Option<Vec<u8>>, String> {
        let numbers = [asked.seed.to_string(), asked.records.to_string()];
        let option = asked.form.option().map(OsString::from);
        let program = Program {
            path: self.0.clone(),
            arguments: numbers
                .map(OsString::from)
                .into_iter()
                .chain(option)
                .collect(),
        };
        let (output, ()) = program.ended(&asked.file, true, || ());
        let output = output?;
        let says = !output.warnings.is_empty() && !output.warnings.starts_with(b"warning: ");
        match output.status.code() {
            Some(0) if output.warnings.is_empty() => Ok(Some(output.lines)),
            // The program's messages, and not its status, say what went wrong.
            Some(_) if says && output.lines.is_empty() => Ok(None),
            _ => Err(format!(
                "it ended with {}, {} bytes on standard output, on standard error: {}",
                output.status,
                output.lines.len(),
                String::from_utf8_lossy(&output.warnings)
            )),
        }
    }
}

/// What was asked for, and what the two give.
pub struct Difference {
    asked: Asked,
    outside: Result<Option<Vec<u8>>, String>,
}

pub struct Checker<L> {
    loading: L,
    pub cases: Cases<Asked>,
    /// Made by both.
    pub records: u64,
    runs: u64,
}

impl<L: Loading> Checker<L> {
    pub fn new(loading: L) -> Checker<L> {
        Checker {
            loading,
            cases: Cases::new(&CASES),
            records: 0,
            runs: 0,
        }
    }

    fn check(&mut self, asked: Asked) -> Result<(), Box<Difference>> {
        self.cases.add(&asked);
        match self.difference(&asked) {
            None => {
                self.records += asked.records as u64;
                self.runs += 1;
                Ok(())
            }
            Some(difference) => Err(Box::new(self.smaller(difference))),
        }
    }

    fn difference(&self, asked: &Asked) -> Option<Difference> {
        let outside = self.loading.load(asked);
        let differs = outside.as_ref() != Ok(&asked.expected());
        let asked = asked.clone();
        differs.then_some(Difference { asked, outside })
    }

    /// One with fewer records and a table alone, as long as the difference stays.
    fn smaller(&self, mut difference: Difference) -> Difference {
        loop {
            let Asked { table, records, .. } = difference.asked;
            let fewer = [0, records / 2, records.saturating_sub(1)].map(|fewer| Asked {
                records: fewer,
                ..difference.asked.clone()
            });
            let mut alone = difference.asked.clone();
            alone.file.truncate(table);
            let smaller = (fewer.into_iter().filter(|asked| asked.records < records))
                .chain((alone.file != difference.asked.file).then_some(alone));
            let found = smaller
                .into_iter()
                .find_map(|asked| self.difference(&asked));
            match found {
                Some(smaller) => difference = smaller,
                None => return difference,
            }
        }
    }
}

/// Compares, and tells what was found.
pub fn compare(options: &Options, program: PathBuf) -> ExitCode {
    let begun = Instant::now();
    let mut checker = Checker::new(Outside(program));
    if let Err(difference) = run(&mut checker, options.seed, options.records) {
        print!("{difference}");
        println!("compare: seed {}, a difference", options.seed);
        return ExitCode::FAILURE;
    }
    let Checker {
        cases,
        records,
        runs,
        ..
    } = &checker;
    print!("{cases}");
    let missing = cases.missing();
    if !missing.is_empty() {
        println!("compare: never came up: {}", missing.join(", "));
        return ExitCode::FAILURE;
    }
    let seconds = begun.elapsed().as_secs_f64();
    println!("compare: {runs} loads of {records} records, no difference, {seconds:.1} s");
    ExitCode::SUCCESS
}

pub fn run(
    checker: &mut Checker<impl Loading>,
    seed: u64,
    records: u64,
) -> Result<(), Box<Difference>> {
    let mut random = Random::new(seed);
    fixed(checker, &mut random)?;
    refused(checker)?;
    let target = checker.records + records;
    while checker.records < target {
        let screens = random.one_of(&[1, 2, 3, 6, 17, 63, 64]);
        let table = random.table(screens, 3, &[1, 1, 1, 1]);
        let most = LARGEST.min(target - checker.records);
        let records = match random.below(3) {
            0 => most,
            _ => random.between(1, most),
        };
        let seed = random.next() as u32 | 1;
        let behind = random.percent(50);
        let form = random.one_of(&FORMS);
        checker.check(asked(&table, behind, (seed, form), records as usize))?;
    }
    Ok(())
}

/// A table alone, or with a launch and a cut record behind it.
fn asked(table: &[u8], behind: bool, (seed, form): (u32, Form), records: usize) -> Asked {
    let more = match behind {
        true => [&record(1, 0, 0)[..], &[5, 6, 7]].concat(),
        false => Vec::new(),
    };
    Asked {
        form,
        file: [table, &more].concat(),
        table: table.len(),
        seed,
        records,
    }
}

/// Each seed and each small number of records under a few tables.
fn fixed(checker: &mut Checker<impl Loading>, random: &mut Random) -> Result<(), Box<Difference>> {
    let largest = random.table(64, 5, &[1, 1, 1, 1]);
    let smallest = [1, 0, 0, 0];
    for (place, table) in [&T[..], &largest, &smallest].into_iter().enumerate() {
        for (seed, form) in SEEDS
            .iter()
            .flat_map(|&seed| FORMS.map(|form| (seed, form)))
        {
            checker.check(asked(table, place == 1, (seed, form), 10_000))?;
        }
        for (records, form) in (0..=SMALL).flat_map(|records| FORMS.map(|form| (records, form))) {
            let seed = SEEDS[records % SEEDS.len()];
            checker.check(asked(table, records % 2 == 1, (seed, form), records))?;
        }
    }
    Ok(())
}

/// Bad tables and seed 0, and both. A file that ends within its table has a table that
/// is cut.
fn refused(checker: &mut Checker<impl Loading>) -> Result<(), Box<Difference>> {
    let (mut main, mut mode) = (T, T);
    (main[1], mode[2]) = (6, 4);
    let tables = [&[][..], &[0], &[65, 0], &T[..13], &T[..1], &main, &mode];
    for table in tables {
        assert!(Table::parse(table).is_err(), "the table is bad");
        for seed in [0, 1] {
            for (records, form) in [(0, Form::Whole), (3, Form::Records), (3, Form::State)] {
                checker.check(asked(table, false, (seed, form), records))?;
            }
        }
    }
    for (records, form) in [(0, Form::State), (3, Form::Records), (3, Form::Whole)] {
        checker.check(asked(&T, true, (0, form), records))?;
    }
    Ok(())
}

impl fmt::Display for Difference {
    fn fmt(&self, f: &mut fmt::Formatter) -> fmt::Result {
        let Asked {
            form,
            file,
            seed,
            records,
            ..
        } = &self.asked;
        writeln!(f, "difference, found in: loads")?;
        writeln!(f, "table, or more, hex: {}", hex(file, 1))?;
        let option = form.option().unwrap_or("table and records");
        writeln!(
            f,
            "seed {seed} (hex {seed:08x}), {records} records, {option}"
        )?;
        let here = self.asked.expected();
        match (&self.outside, &here) {
            (Ok(Some(outside)), Some(here)) => {
                let alike = outside.iter().zip(here).take_while(|(a, b)| a == b);
                let first = alike.count();
                writeln!(
                    f,
                    "outside: {} bytes{}",
                    outside.len(),
                    from(outside, first)
                )?;
                writeln!(f, "here: {} bytes{}", here.len(), from(here, first))
            }
            (outside, here) => {
                let told = match outside {
                    Err(message) => message,
                    Ok(None) => "refused",
                    Ok(Some(_)) => "accepted",
                };
                writeln!(f, "outside: {told}")?;
                let is_refused = here.is_none();
                writeln!(
                    f,
                    "here: {}",
                    if is_refused { "refused" } else { "accepted" }
                )
            }
        }
    }
}

/// A few bytes from one on, in hex.
fn from(bytes: &[u8], first: usize) -> String {
    let end = bytes.len().min(first + 2 * RECORD);
    format!(", from byte {first}, hex: {}", hex(&bytes[first..end], 1))
}

//! `show` against the player, line by line.

use std::collections::BTreeSet;
use std::io::Write;
use std::path::Path;
use std::process::{self, Command, Stdio};
use std::{env, fs, thread};

use milchkompass::Refusal;

use crate::make;
use crate::random::Random;
use crate::said;

/// How many records a recording has.
const RECORDS: usize = 5000;

/// What has to come up: the refusals of a player, the editions, and both marks.
const REFUSALS: [u8; 11] = [0, 1, 2, 3, 4, 9, 21, 22, 23, 24, 30];
const EDITIONS: [u8; 3] = [6, 7, 8];

#[derive(Default)]
struct Seen {
    lines: usize,
    refusals: BTreeSet<u8>,
    editions: BTreeSet<u8>,
    marks: BTreeSet<u8>,
}

/// Shows and plays random recordings of so many records together, every other one
/// with names.
pub fn check(player: &str, milch: &str, records: usize, seed: u64) -> Result<String, String> {
    let names = env::temp_dir().join(format!("milch-names-{}", process::id()));
    let checked = check_with(player, milch, records, seed, &names);
    // Where something was wrong early, it may not be there.
    let _ = fs::remove_file(&names);
    checked
}

fn check_with(
    player: &str,
    milch: &str,
    records: usize,
    seed: u64,
    names: &Path,
) -> Result<String, String> {
    let mut random = Random::new(seed);
    let mut seen = Seen::default();
    let mut recordings = 0;
    while seen.lines < records {
        let length = random.one_of(&[0, 1, 50, RECORDS, RECORDS, RECORDS]);
        let recording = make::recording(&mut random, length);
        let played = output(Command::new(player), &recording)?;
        let mut command = Command::new(milch);
        command.args(["show", "-"]);
        if let Some(text) = make::names(&recording).filter(|_| recordings % 2 == 0) {
            fs::write(names, text).map_err(|error| error.to_string())?;
            command.arg("--names").arg(names);
        }
        let shown = output(command, &recording)?;
        recordings += 1;
        compare(&played, &shown, &mut seen)
            .map_err(|wrong| format!("recording {recordings}: {wrong}"))?;
    }
    seen.missing()?;
    Ok(format!(
        "show carries the player's numbers: {} lines of {recordings} recordings, half with names",
        seen.lines
    ))
}

/// What a program writes for an input. What it says beside that is not looked at.
fn output(mut command: Command, input: &[u8]) -> Result<String, String> {
    let command = command.stdin(Stdio::piped()).stdout(Stdio::piped());
    let child = command.stderr(Stdio::null()).spawn();
    let mut child = child.map_err(|error| format!("{command:?}: {error}"))?;
    let mut stdin = child.stdin.take().ok_or("no standard input")?;
    let output = thread::scope(|scope| {
        // A program that does not read on shows by what it writes.
        scope.spawn(move || stdin.write_all(input));
        child.wait_with_output()
    });
    let output = output.map_err(|error| error.to_string())?;
    if !output.status.success() {
        return Err(format!("a program ended with {}", output.status));
    }
    String::from_utf8(output.stdout).map_err(|error| error.to_string())
}

fn compare(played: &str, shown: &str, seen: &mut Seen) -> Result<(), String> {
    let (played, shown): (Vec<&str>, Vec<&str>) =
        (played.lines().collect(), shown.lines().collect());
    if played.len() != shown.len() {
        return Err(format!("{} lines, not {}", shown.len(), played.len()));
    }
    for (i, (played, shown)) in played.iter().zip(&shown).enumerate() {
        let number = i as u64 + 1;
        seen.add(played, shown, number).ok_or(format!(
            "line {number}:\n  the player has {played}\n  show has {shown}"
        ))?;
    }
    Ok(())
}

impl Seen {
    /// Counts a line, where both say the same.
    fn add(&mut self, played: &str, shown: &str, number: u64) -> Option<()> {
        let numbers: Result<Vec<u8>, _> = played.split(' ').map(str::parse).collect();
        let numbers = numbers.ok().filter(|numbers| numbers.len() == 10)?;
        if numbers[0] == 0 && numbers[1] == 1 {
            let stopped = format!("     0  no table  {}", Refusal::TableLength);
            (shown == format!("{stopped}  | {played}")).then_some(())?;
        } else {
            let line = said::parts(shown)?;
            let alike = line.number == number && line.player == played;
            (alike && line.numbers()? == numbers[1..]).then_some(())?;
        }
        self.lines += 1;
        self.refusals.insert(numbers[1]);
        self.editions.insert(numbers[8]);
        self.marks.insert(numbers[9]);
        Some(())
    }

    /// All that has to come up did.
    fn missing(&self) -> Result<(), String> {
        let refusals = REFUSALS.iter().filter(|n| !self.refusals.contains(n));
        let editions = EDITIONS.iter().filter(|n| !self.editions.contains(n));
        let missing: Vec<&u8> = refusals.chain(editions).collect();
        if !missing.is_empty() || !self.marks.contains(&1) {
            return Err(format!("never came up: {missing:?}, or a mark"));
        }
        Ok(())
    }
}

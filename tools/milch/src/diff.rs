//! `diff`: where two recordings first differ in what an agent sees, and whether
//! they end alike. Records are read with restores.

use milchkompass::same_ending;

use crate::failure::{said, Outcome};
use crate::line::Lines;
use crate::names::Names;
use crate::progress::Progress;
use crate::side::Side;

/// What two recordings come to.
pub struct Compared {
    pub text: String,
    pub warnings: Vec<String>,
    /// Nothing that an agent sees differs, and they end alike.
    pub alike: bool,
}

/// Compares two recordings, each a name and its bytes.
pub fn diff(first: (&str, &[u8]), second: (&str, &[u8]), names: &Names) -> Outcome<Compared> {
    let mut sides = [Side::open(first)?, Side::open(second)?];
    check_tables(&sides[0], &sides[1])?;
    names.check(sides[0].replay.rows().len())?;
    let (records, difference) = play_both(&mut sides, names);
    sides.iter().try_for_each(Side::check_end)?;
    let table = sides[0].replay.table();
    let alike = match same_ending(table, sides[0].records(), sides[1].records()) {
        Ok(alike) => alike,
        Err(refusal) => return said(format!("{}: {refusal}", first.0)),
    };
    let mut text = match difference {
        Some((_, number)) => format!("the first difference is at record {number}\n"),
        None => format!("no record differs, of {records}\n"),
    };
    if let Some((behind, _)) = difference {
        text += &side_by_side(&sides, behind, names)?;
    }
    text += &sides.iter().map(Side::told).collect::<String>();
    text += match alike {
        true => "the endings are alike\n",
        false => "the endings are apart\n",
    };
    Ok(Compared {
        text,
        warnings: sides.iter().filter_map(Side::warning).collect(),
        alike: alike && difference.is_none(),
    })
}

/// Only under one table can endings be compared.
fn check_tables(first: &Side, second: &Side) -> Outcome {
    let (one, other) = (first.replay.table(), second.replay.table());
    let differ = one.iter().zip(other).position(|(one, other)| one != other);
    match differ {
        None => Ok(()),
        Some(0) => said("the tables differ in the number of screens"),
        Some(1) => said("the tables differ in the main screen"),
        Some(place) => said(format!(
            "the tables differ, first in screen {}",
            place / 2 - 1
        )),
    }
}

/// Plays both to their ends. Gives how many records the longer one has, and of the
/// first that differs in its line, behind how many it stands and its number: those
/// before it are alike, so both have the same.
fn play_both(sides: &mut [Side; 2], names: &Names) -> (u64, Option<(u64, u64)>) {
    let (mut count, mut difference) = (0, None);
    let mut progress = Progress::new("records", false);
    let mut lines = Lines::new(names);
    while sides.iter().any(|side| !side.left.is_empty()) {
        let [first, second] = sides;
        let number = first.number();
        let alike = first.next(count, &mut lines) == second.next(count, &mut lines);
        if difference.is_none() && !alike {
            difference = Some((count, number));
        }
        count += 1;
        progress.at(count);
    }
    (count, difference)
}

/// The record of both behind so many in two columns, with a bar where their lines
/// differ.
fn side_by_side(sides: &[Side; 2], behind: u64, names: &Names) -> Outcome<String> {
    let (left, right) = (sides[0].seen(behind, names)?, sides[1].seen(behind, names)?);
    let mut text = String::new();
    let widths = left.iter().map(|line| line.chars().count());
    let width = widths.max().unwrap_or(0);
    for i in 0..left.len().max(right.len()) {
        let line = |side: &[String]| side.get(i).cloned().unwrap_or_default();
        let (one, other) = (line(&left), line(&right));
        let bar = if one == other || i == 0 { ' ' } else { '|' };
        let row = format!("  {one:width$} {bar} {other}");
        text += row.trim_end();
        text.push('\n');
    }
    Ok(text)
}

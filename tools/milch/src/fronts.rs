//! `fronts`: which screens could be in front after a start of which some flags were
//! lost, and with which flags.

use milchkompass::{Flags, FrontSet, Replay};

use crate::failure::{said, Outcome};
use crate::input::Input;
use crate::line::rule_words;
use crate::names::Names;
use crate::opening;
use crate::show::no_record;
use crate::words::{start_of, Calls, Reading};
use crate::RECORD;

/// A plain start, by its kind.
const START: u8 = 2;

/// What is told, and what it rests on.
pub struct Told {
    pub text: String,
    pub warning: Option<String>,
}

/// Which screens could be in front after record `asked`, a plain start of which only these
/// flags are known.
pub fn fronts(input: &mut Input, asked: u64, known: Flags, names: &Names) -> Outcome<Told> {
    let mut replay = opening::read_table(input)?;
    names.check(replay.rows().len())?;
    let unsure = play_before(input, &mut replay, asked, known)?;
    let mut record = input.peek(RECORD)?.to_vec();
    record.truncate(RECORD);
    let start = start_of(&record).filter(|_| record[0] == START);
    let Some((screen, flags)) = start else {
        let call = Calls::new(names).text(&record, Reading::Player);
        return said(format!(
            "{}: record {asked} is no plain start: {call}",
            input.name()
        ));
    };
    let values = flags & known;
    let set = match replay.fronts(screen, known, values) {
        Ok(set) => set,
        Err(refusal) => return said(format!("{}: record {asked}: {refusal}", input.name())),
    };
    let fillings = fillings(known, values);
    Ok(Told {
        text: told(&replay, set, &record, &fillings, names),
        warning: unsure.map(|number| {
            format!(
                "{}: record {number}, with the same flags unknown, could have left another \
                 session than the one that this rests on",
                input.name()
            )
        }),
    })
}

/// Plays the records before `asked` as they stand: the first of them that could have left
/// another session, if there is one.
fn play_before(
    input: &mut Input,
    replay: &mut Replay,
    asked: u64,
    known: Flags,
) -> Outcome<Option<u64>> {
    let (mut unsure, mut before) = (None, replay.clone());
    for number in 1..asked {
        let bytes = input.peek(RECORD)?;
        if bytes.is_empty() {
            return no_record(input.name(), asked, number - 1);
        }
        before.clone_from(replay);
        let used = replay.next(bytes).used();
        if unsure.is_none() && could_differ(&before, replay, &bytes[..used], known) {
            unsure = Some(number);
        }
        input.take(used);
    }
    match input.peek(RECORD)?.is_empty() {
        true => no_record(input.name(), asked, asked - 1),
        false => Ok(unsure),
    }
}

/// A start, plain or finishing, of which some filling leaves another session.
fn could_differ(before: &Replay, after: &Replay, record: &[u8], known: Flags) -> bool {
    let Some((_, flags)) = start_of(record) else {
        return false;
    };
    let mut filled = before.clone();
    fillings(known, flags & known).into_iter().any(|filling| {
        filled.clone_from(before);
        filled.next(&with_flags(record, filling));
        !same(&filled, after)
    })
}

/// Both hold the same session.
fn same(one: &Replay, other: &Replay) -> bool {
    one.tasks().eq(other.tasks())
        && one.main_place() == other.main_place()
        && one.edition() == other.edition()
        && one.no_history() == other.no_history()
}

/// The words of the seven flags that have these values of what is known: few flags first.
fn fillings(known: Flags, values: Flags) -> Vec<Flags> {
    let mut words = vec![Flags::NONE];
    for (_, flag) in Flags::all().iter_names() {
        let with: Vec<Flags> = words.iter().map(|word| *word | flag).collect();
        words.extend(with);
    }
    words.retain(|word| *word & known == values);
    words.sort_by_key(|word| (word.bits().count_ones(), word.bits()));
    words
}

/// The record of a start with these flags.
fn with_flags(record: &[u8], flags: Flags) -> [u8; RECORD] {
    let word = flags.bits().to_be_bytes();
    [record[0], record[1], word[0], word[1], word[2], word[3]]
}

/// A line for each screen, and how many there are; or that there is none, and why.
fn told(
    replay: &Replay,
    set: FrontSet,
    record: &[u8],
    fillings: &[Flags],
    names: &Names,
) -> String {
    let (calls, mut text) = (Calls::new(names), String::new());
    for screen in set.screens() {
        let brings = |filling: &&Flags| brought(replay, record, **filling) == Some(screen);
        let Some(filling) = fillings.iter().find(brings) else {
            continue;
        };
        let call = calls.text(&with_flags(record, *filling), Reading::Player);
        let reason = rule_words(replay.why(record[1], *filling).ok());
        text += &format!("{} by {call}: {reason}\n", names.shown(screen));
    }
    text + &match set.len() {
        0 => none(replay, record, fillings),
        1 => "1 screen could be in front\n".to_string(),
        many => format!("{many} screens could be in front\n"),
    }
}

/// The screen that a start with these flags brings to the front, if it brings one.
fn brought(replay: &Replay, record: &[u8], flags: Flags) -> Option<u8> {
    let played = replay.clone().next(&with_flags(record, flags));
    let answer = played.answer().ok()?;
    (answer.tasks > 0).then_some(answer.screen)
}

/// Why no screen could be in front.
fn none(replay: &Replay, record: &[u8], fillings: &[Flags]) -> String {
    let refusal = |flags: &Flags| replay.why(record[1], *flags).err();
    let why = match fillings.iter().map(refusal).collect::<Option<Vec<_>>>() {
        _ if replay.tasks().len() == 0 => "no task is there".to_string(),
        Some(refusals) => match refusals.first() {
            Some(first) => format!("every filling is refused, with no other flag by {first}"),
            None => "no filling is left".to_string(),
        },
        None => "every filling that is accepted closes the last screen".to_string(),
    };
    format!("no screen could be in front: {why}\n")
}

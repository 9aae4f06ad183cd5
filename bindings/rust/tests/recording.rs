//! A whole recording: its table is split off, and its records are played.

#[allow(dead_code)]
mod common;

use common::{image, table_t};
use milchkompass::{Recording, Refusal, Replay};

/// Table T and these bytes.
fn recording(records: &[&[u8]]) -> Vec<u8> {
    [table_t().bytes(), &records.concat()].concat()
}

const LAUNCH: &[u8] = &[1, 0, 0, 0, 0, 0];
const START_3: &[u8] = &[2, 3, 0, 0, 0, 0];
const BACK: &[u8] = &[4, 0, 0, 0, 0, 0];
const CUT: &[u8] = &[4, 0];

/// Each record's bytes and its numbers.
fn played<'a>(records: Recording<'a>) -> Vec<(&'a [u8], [u8; 9])> {
    records
        .map(|(record, played)| (record, played.numbers()))
        .collect()
}

#[test]
fn records_of_the_player() {
    let bytes = recording(&[LAUNCH, START_3, &[6, 0, 0, 0, 0, 9], BACK, CUT]);
    let records = Recording::new(&bytes).expect("a table");
    assert_eq!(records.replay().table(), table_t().bytes());
    let nine = [9, 0, 0, 0, 0, 0, 0, 0, 0];
    assert_eq!(
        played(records),
        [
            (LAUNCH, [0, 0, 0, 1, 1, 1, 0, 8, 0]),
            (START_3, [0, 3, 3, 1, 2, 2, 0, 8, 0]),
            (&[6, 0, 0, 0, 0, 9], nine),
            (BACK, [0, 0, 0, 1, 1, 1, 1, 8, 0]),
            (CUT, nine),
        ]
    );
}

#[test]
fn records_with_restores() {
    let image = image(&[(3, &[3]), (0, &[1, 0])], 2);
    let restore = [&[6, 0, 0, 0, 0, image.len() as u8][..], &image].concat();
    let bytes = recording(&[&restore, BACK]);
    let mut records = Recording::with_restores(&bytes).expect("a table");
    let (record, played) = records.next().expect("a restore");
    assert_eq!(record, restore);
    assert_eq!(played.answer().map(|answer| answer.screen), Ok(3));
    assert!(format!("{records:?}").contains("Replay(3:[3] 0:[1,0], m 2)"));
    let (record, played) = records.next().expect("a Back");
    assert_eq!((record, played.closed()), (BACK, 1));
    assert!(records.next().is_none() && records.next().is_none());
    assert_eq!(records.replay().look().map(|answer| answer.screen), Ok(1));
}

/// Where the player stops, and where it goes on under a table that is refused.
#[test]
fn tables() {
    let whole = table_t();
    let cut = &whole.bytes()[..13];
    for bytes in [&[][..], &[0], &[0, 0], &[65], &[255; 600], cut] {
        let none = Recording::new(bytes).err();
        assert_eq!(none, Some(Refusal::TableLength), "{bytes:?}");
        let none = Recording::with_restores(bytes).err();
        assert_eq!(none, Some(Refusal::TableLength), "{bytes:?}");
    }
    let bytes = [&[1, 0, 4, 0], LAUNCH, CUT].concat();
    let records = Recording::new(&bytes).expect("a table, though a refused one");
    assert_eq!(records.replay().look(), Err(Refusal::TableContent));
    let refusals = records.map(|(_, played)| played.refusal());
    let wanted = [Some(Refusal::TableContent), Some(Refusal::BadRecord)];
    assert_eq!(refusals.collect::<Vec<_>>(), wanted);
    let table = recording(&[]);
    assert_eq!(Recording::new(&table).expect("no record").count(), 0);
}

/// An answer displays what the player prints behind the kind.
#[test]
fn answers() {
    let bytes = recording(&[&[1, 6, 0, 0, 0, 0], &[2, 4, 0x40, 0, 0, 0], BACK, BACK]);
    let mut lines = Vec::new();
    for (_, played) in Recording::new(&bytes).expect("a table") {
        let numbers = played.numbers().map(|number| number.to_string());
        let answer = played.answer().expect("accepted");
        assert_eq!(answer.to_string(), numbers.join(" "));
        lines.push(answer.to_string());
    }
    assert_eq!(lines[1], "0 4 4 1 2 2 0 6 1");
    assert_eq!(lines[3], "0 0 0 0 0 0 1 8 0");
}

#[test]
fn shown_for_debugging() {
    let mut replay = Replay::new(table_t().bytes());
    let played = replay.next(&[1, 7, 0, 0, 0, 0]);
    assert_eq!(format!("{replay:?}"), "Replay(0:[0], m 1, edition 7)");
    assert_eq!(
        format!("{played:?}"),
        "Played { answer: Answer { refusal: 0, screen: 0, root: 0, height: 1, tasks: 1, \
         main: 1, closed: 0, edition: 7, no_history: 0 }, used: 6 }"
    );
}

//! Recordings played record by record: the player's lines, restores, cut and
//! unknown records, refused tables, and endings.

#[allow(dead_code)]
mod common;

use common::{image, table_t};
use milchkompass::{
    same_ending, Edition, Flags, Found, FoundBy, LaunchMode, Played, Reason, Refusal, Replay, Rule,
};

const LAUNCH: [u8; 6] = [1, 0, 0, 0, 0, 0];
const BACK: [u8; 6] = [4, 0, 0, 0, 0, 0];
const NINE: [u8; 9] = [9, 0, 0, 0, 0, 0, 0, 0, 0];

/// The records of document 01's example.
const EXAMPLE: [[u8; 6]; 8] = [
    LAUNCH,
    [2, 1, 0, 0, 0, 0],
    [2, 3, 0, 0, 0, 0],
    [3, 0, 0x10, 0, 0, 0],
    BACK,
    BACK,
    BACK,
    BACK,
];

fn fresh() -> Replay {
    Replay::new(table_t().bytes())
}

/// A restore of this image, as a record and what follows it.
fn restore(image: &[u8]) -> Vec<u8> {
    let length = (image.len() as u32).to_be_bytes();
    [&[6, 0], &length[..], image].concat()
}

fn told(played: Played) -> ([u8; 9], usize) {
    (played.numbers(), played.used())
}

/// The lines of README, without their kinds.
#[test]
fn the_example() {
    let lines = [
        [0, 0, 0, 1, 1, 1, 0, 8, 0],
        [0, 1, 0, 2, 1, 1, 0, 8, 0],
        [0, 3, 3, 1, 2, 2, 0, 8, 0],
        [0, 0, 0, 3, 1, 1, 1, 8, 0],
        [0, 1, 0, 2, 1, 1, 1, 8, 0],
        [0, 0, 0, 1, 1, 1, 1, 8, 0],
        [0, 0, 0, 0, 0, 0, 1, 8, 0],
        [21, 0, 0, 0, 0, 0, 0, 0, 0],
    ];
    let records = EXAMPLE.concat();
    let mut replay = fresh();
    for (i, line) in lines.into_iter().enumerate() {
        let played = replay.next(&records[6 * i..]);
        assert_eq!(told(played), (line, 6));
        assert_eq!(played.refusal().map_or(0, Refusal::number), line[0]);
        assert_eq!(played.answer().map_or(0, |a| a.screen), line[1]);
        assert_eq!(played.closed(), line[6]);
    }
}

#[test]
fn what_stands() {
    let mut replay = fresh();
    replay.next(&[1, 7, 0, 0, 0, 0]);
    replay.next(&[2, 1, 0, 0, 0, 0]);
    replay.next(&[2, 3, 0x40, 0, 0, 0]);
    let tasks: Vec<(u8, &[u8])> = replay.tasks().map(|t| (t.root, t.screens)).collect();
    assert_eq!(tasks, [(3, &[3][..]), (0, &[0, 1])]);
    assert_eq!(replay.main_place(), 2);
    assert_eq!(replay.edition(), Edition::Android7);
    assert!(replay.no_history());
    let found = Some(Found {
        place: 2,
        by: FoundBy::Root,
    });
    let rule = Rule::R17;
    let why = replay.why(0, Flags::NEW_TASK);
    assert_eq!(why, Ok(Reason { rule, found }));
    assert_eq!(replay.why(6, Flags::NONE), Err(Refusal::NoSuchScreen));
    let row = replay.rows().nth(3).expect("six rows");
    assert_eq!((row.mode, row.affinity), (Ok(LaunchMode::SingleTask), 2));
}

/// A copy over another session is that of a new one.
#[test]
fn copies() {
    let tasks = |replay: &Replay| -> Vec<(u8, Vec<u8>)> {
        replay
            .tasks()
            .map(|t| (t.root, t.screens.to_vec()))
            .collect()
    };
    let mut high = fresh();
    let mut low = fresh();
    for record in &EXAMPLE[..3] {
        high.next(record);
    }
    low.next(&[1, 7, 0, 0, 0, 0]);
    for (from, over) in [(&high, &low), (&low, &high), (&fresh(), &high)] {
        let mut copy = over.clone();
        copy.clone_from(from);
        assert_eq!(tasks(&copy), tasks(from));
        assert_eq!(copy.edition(), from.edition());
        assert_eq!(copy.main_place(), from.main_place());
        // It is sound: a look is not refused.
        assert_eq!(copy.next(&[5, 0, 0, 0, 0, 0]).refusal(), None);
    }
}

/// Fewer than six bytes are a cut record, which takes them all.
#[test]
fn cut_records() {
    for length in 0..6 {
        let mut replay = fresh();
        assert_eq!(told(replay.next(&LAUNCH[..length])), (NINE, length));
        assert_eq!(told(replay.next_call(&LAUNCH[..length])), (NINE, length));
        assert_eq!(replay.tasks().len(), 0);
    }
}

#[test]
fn unknown_kinds() {
    for kind in (0..=255).filter(|kind| !(1..=5).contains(kind)) {
        let mut replay = fresh();
        let bytes = [kind, 0, 0, 0, 0, 0, 1, 0, 0, 0, 0, 0];
        let played = replay.next(&bytes);
        assert_eq!(told(played), (NINE, 6), "{kind}");
        assert_eq!(played.refusal(), Some(Refusal::BadRecord));
        if kind != 6 {
            assert_eq!(told(replay.next_call(&bytes)), (NINE, 6), "{kind}");
        }
    }
}

/// `next` has no kind 6, `next_call` takes the image.
#[test]
fn restores() {
    let bytes = restore(&image(&[(3, &[3]), (0, &[1, 0])], 2));
    let mut replay = fresh();
    assert_eq!(told(replay.next(&bytes)), (NINE, 6));
    let line = [0, 3, 3, 1, 2, 2, 0, 8, 0];
    assert_eq!(told(replay.next_call(&bytes)), (line, bytes.len()));
    let more = [&bytes[..], &BACK].concat();
    assert_eq!(replay.next_call(&more).used(), bytes.len());
    for length in 0..bytes.len() {
        let cut = replay.next_call(&bytes[..length]);
        assert_eq!(told(cut), (NINE, length));
    }
    let empty = replay.next_call(&restore(&[]));
    assert_eq!(
        (empty.refusal(), empty.used()),
        (Some(Refusal::ImageTrailer), 6)
    );
    assert_eq!(replay.tasks().len(), 2);
}

/// 9 comes before the refusal of the table.
#[test]
fn refused_tables() {
    for (table, refusal) in [
        (&[][..], Refusal::TableLength),
        (&[1, 0, 0], Refusal::TableLength),
        (&[1, 0, 4, 0], Refusal::TableContent),
        (&[1, 1, 0, 0], Refusal::TableContent),
    ] {
        let mut replay = Replay::new(table);
        for record in EXAMPLE {
            assert_eq!(replay.next(&record).refusal(), Some(refusal));
        }
        assert_eq!(told(replay.next(&[0; 6])), (NINE, 6));
        assert_eq!(told(replay.next(&[1])), (NINE, 1));
        assert_eq!(replay.why(0, Flags::NONE), Err(refusal));
        assert_eq!(same_ending(table, &[], &[]), Err(refusal));
    }
    let odd = Replay::new(&[1, 0, 4, 9]);
    let mode = odd.rows().next().expect("a row").mode;
    let error = mode.expect_err("4 is no mode");
    assert_eq!(error.to_string(), "4 is the number of no launch mode");
}

#[test]
fn endings() {
    let table = table_t();
    let alike = |first: &[u8], second: &[u8]| same_ending(table.bytes(), first, second);
    let example = EXAMPLE.concat();
    assert_eq!(alike(&example, &[]), Ok(true));
    assert_eq!(alike(&example[..18], &[]), Ok(false));
    let image = restore(&image(&[(3, &[3]), (0, &[1, 0])], 2));
    assert_eq!(alike(&example[..18], &image), Ok(true));
    let cut = [&image[..], &[1, 0]].concat();
    assert_eq!(alike(&cut, &image), Ok(true));
    let seven = [1, 7, 0, 0, 0, 0];
    assert_eq!(alike(&LAUNCH, &seven), Ok(false));
}

//! Editions 6, 7 and 8: what a session keeps, what an image carries, and what
//! the rules of 6 and 7 do otherwise.

mod common;

use common::flags::{CTP, NONE, NTK, RTF, STP};
use common::{image_in, session, table_t};
use milchkompass::Edition::{self, Android6, Android7, Android8};
use milchkompass::{Answer, Flags, Found, Refusal, Session, Table};

type Tasks<'a> = &'a [(u8, &'a [u8])];

/// The session of these tasks in an edition, under a table.
fn under(table: Table, edition: Edition, tasks: Tasks, main: u8) -> Session {
    let mut s = Session::new(table);
    let restored = s.restore(&image_in(edition.number(), tasks, main));
    assert_eq!(restored.expect("a sound session").edition, edition);
    s
}

/// The same under table T.
fn held(edition: Edition, tasks: Tasks, main: u8) -> Session {
    under(table_t(), edition, tasks, main)
}

/// The rule of a start, the task found for it, how many screens it closes, and
/// the session that it leaves.
fn told(before: &Session, screen: u8, flags: Flags) -> String {
    let reason = before.why(screen, flags).expect("accepted");
    let place = |found: Found| format!(", {} by {:?}", found.place, found.by);
    let found = reason.found.map_or(String::new(), place);
    let mut s = before.clone();
    let answer = s.start(screen, flags).expect("accepted");
    let closed = answer.closed;
    assert_eq!(answer, Answer { closed, ..s.look() });
    format!("{:?}{found}, {closed} closed: {s}", reason.rule)
}

#[test]
fn numbers_and_names() {
    assert_eq!(Edition::ALL, [Android6, Android7, Android8]);
    assert_eq!(Edition::default(), Android8);
    for number in 0..=255 {
        match Edition::try_from(number) {
            Ok(edition) => assert_eq!(edition.number(), number),
            Err(_) => assert!(!(6..=8).contains(&number)),
        }
    }
    let error = Edition::try_from(0).unwrap_err();
    assert_eq!(error.to_string(), "0 is the number of no edition");
    assert_eq!(Android6.to_string(), "Android 6.0");
}

/// From launch until the session is empty, when it is 8 again.
#[test]
fn kept_until_empty() {
    for (byte, edition) in [(0, Android8), (8, Android8), (7, Android7), (6, Android6)] {
        let mut s = Session::new(table_t());
        assert_eq!(s.look(), Answer::default());
        for _ in 0..2 {
            assert_eq!(s.launch_byte(byte).unwrap().edition, edition);
            assert_eq!(s.start(1, NONE).unwrap().edition, edition);
            assert_eq!(s.start(3, NONE).unwrap().edition, edition);
            assert_eq!((s.look().edition, s.edition()), (edition, edition));
            assert_eq!(s.start(6, NONE), Err(Refusal::NoSuchScreen));
            assert_eq!(s.finish_start(0, NTK).unwrap().edition, edition);
            assert_eq!(s.back().unwrap().edition, edition);
            assert_eq!(s.back().unwrap().edition, edition);
            let emptied = s.back().unwrap();
            assert_eq!((emptied.closed, emptied.edition), (1, Android8));
            assert_eq!(s, Session::new(table_t()));
        }
        let mut named = Session::new(table_t());
        assert_eq!(named.launch(edition), s.launch_byte(byte));
        assert_eq!(named, s);
    }
}

#[test]
fn emptied_by_a_finishing_start() {
    for edition in Edition::ALL {
        let mut s = held(*edition, &[(0, &[0])], 1);
        let emptied = s.finish_start(0, NTK | STP).unwrap();
        assert_eq!((emptied.closed, emptied.edition), (1, Android8));
        assert_eq!(s, Session::new(table_t()));
    }
}

#[test]
fn images() {
    let p10: Tasks = &[(3, &[3]), (0, &[1, 0])];
    let before = session(p10, 2);
    for byte in 0..=255 {
        let (whole, empty) = (image_in(byte, p10, 2), image_in(byte, &[], 0));
        let mut s = before.clone();
        match Edition::try_from(byte) {
            Ok(edition) => {
                let restored = s.restore(&whole);
                assert_eq!(restored, Ok(s.look()));
                assert_eq!((s.edition(), s.save()), (edition, whole));
                assert_eq!(s == before, edition == Android8);
            }
            Err(_) => {
                assert_eq!(s.restore(&whole), Err(Refusal::ImageTrailer));
                assert_eq!(s.restore(&empty), Err(Refusal::ImageTrailer));
                assert_eq!(s, before);
            }
        }
    }
    for edition in [Android6, Android7] {
        let (mut s, empty) = (before.clone(), image_in(edition.number(), &[], 0));
        assert_eq!(s.restore(&empty), Err(Refusal::ImageUnsound));
        assert_eq!(s, before);
    }
}

#[test]
fn shown() {
    let p10: Tasks = &[(3, &[3]), (0, &[1, 0])];
    for (edition, shown) in [
        (Android8, "3:[3] 0:[1,0], m 2"),
        (Android7, "3:[3] 0:[1,0], m 2, edition 7"),
        (Android6, "3:[3] 0:[1,0], m 2, edition 6"),
    ] {
        assert_eq!(held(edition, p10, 2).to_string(), shown);
    }
    assert_eq!(Session::new(table_t()).to_string(), "m 0");
}

/// R9 in the main task empties it; anywhere else, and in 6 and 8, it lifts.
#[test]
fn reorder_to_front() {
    let (main, other): (Tasks, Tasks) = (&[(0, &[2, 1, 0])], &[(5, &[1, 5]), (0, &[0])]);
    let seven = held(Android7, main, 1);
    let no_main = held(Android7, main, 0);
    let behind = held(Android7, other, 2);
    let (six, eight) = (held(Android6, main, 1), held(Android8, main, 1));
    for (before, screen, flags, wanted) in [
        (&seven, 1, RTF, "R9, 3 closed: 0:[1], m 1, edition 7"),
        (&seven, 2, RTF, "R7, 0 closed: 0:[2,1,0], m 1, edition 7"),
        (
            &seven,
            1,
            CTP | RTF,
            "R8, 1 closed: 0:[1,0], m 1, edition 7",
        ),
        (&no_main, 1, RTF, "R9, 0 closed: 0:[1,2,0], m 0, edition 7"),
        (
            &behind,
            5,
            RTF,
            "R9, 0 closed: 5:[5,1] 0:[0], m 2, edition 7",
        ),
        (&six, 1, RTF, "R9, 0 closed: 0:[1,2,0], m 1, edition 6"),
        (&eight, 1, RTF, "R9, 0 closed: 0:[1,2,0], m 1"),
    ] {
        assert_eq!(told(before, screen, flags), wanted);
    }
}

/// The screen that a finishing start marks is emptied with its task.
#[test]
fn reorder_to_front_and_finish() {
    let mut main = held(Android7, &[(0, &[2, 1, 0])], 1);
    assert_eq!(main.finish_start(1, RTF).unwrap().closed, 3);
    assert_eq!(main.to_string(), "0:[1], m 1, edition 7");
    let mut behind = held(Android7, &[(5, &[1, 5]), (0, &[0])], 2);
    assert_eq!(behind.finish_start(5, RTF).unwrap().closed, 1);
    assert_eq!(behind.to_string(), "5:[5] 0:[0], m 2, edition 7");
}

/// A task of 32 screens is emptied too.
#[test]
fn reorder_to_front_in_a_full_task() {
    let mut screens = [0; 32];
    screens[0] = 1;
    let full = held(Android7, &[(0, &screens)], 1);
    let wanted = "R9, 32 closed: 0:[0], m 1, edition 7";
    assert_eq!(told(&full, 0, RTF), wanted);
}

/// Edition 6 finds by affinity what 8 finds by root, and R15 does not fit.
#[test]
fn by_affinity_alone() {
    let (kin, p6): (Tasks, Tasks) = (
        &[(5, &[5]), (0, &[0]), (3, &[5])],
        &[(5, &[1, 5]), (0, &[0])],
    );
    for (edition, tasks, screen, flags, wanted) in [
        (
            Android6,
            kin,
            3,
            NONE,
            "R5, 1 by Affinity, 0 closed: 5:[3,5] 0:[0] 3:[5], m 2, edition 6",
        ),
        (
            Android8,
            kin,
            3,
            NONE,
            "R5, 3 by Root, 0 closed: 3:[3,5] 5:[5] 0:[0], m 3",
        ),
        (
            Android6,
            p6,
            5,
            NTK,
            "R17, 1 by Affinity, 0 closed: 5:[5,1,5] 0:[0], m 2, edition 6",
        ),
        (
            Android8,
            p6,
            5,
            NTK,
            "R15, 1 by Root, 0 closed: 5:[1,5] 0:[0], m 2",
        ),
    ] {
        assert_eq!(told(&held(edition, tasks, 2), screen, flags), wanted);
    }
    let instance = held(Android6, &[(0, &[0]), (4, &[4])], 1);
    let wanted = "R1, 2 by Root, 0 closed: 4:[4] 0:[0], m 2, edition 6";
    assert_eq!(told(&instance, 4, NONE), wanted);
}

/// In edition 6 a single-task screen of affinity 0 is sought by root, and
/// another screen of it is not sought.
#[test]
fn without_affinity() {
    let table = Table::from_bytes(&[3, 0, 0, 1, 2, 0, 0, 0]).unwrap();
    let plain: Tasks = &[(2, &[2]), (0, &[0])];
    let task: Tasks = &[(2, &[2]), (0, &[0]), (1, &[1])];
    for (edition, tasks, screen, wanted) in [
        (
            Android6,
            task,
            1,
            "R4, 3 by Root, 0 closed: 1:[1] 2:[2] 0:[0], m 3, edition 6",
        ),
        (
            Android6,
            plain,
            2,
            "R18, 0 closed: 2:[2] 2:[2] 0:[0], m 3, edition 6",
        ),
        (
            Android8,
            plain,
            2,
            "R15, 1 by Root, 0 closed: 2:[2] 0:[0], m 2",
        ),
    ] {
        let before = under(table.clone(), edition, tasks, 2);
        assert_eq!(told(&before, screen, NTK), wanted);
    }
}

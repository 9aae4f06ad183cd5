//! What keeps a No-History front and what clears it, its image, and the refusals. The
//! sessions and numbers are read from request 7 by hand.

mod common;

use second::table::{MULTIPLE_TASK, NEW_TASK, NO_HISTORY};
use second::{calls, play, Session};

use common::{no_history, session, session_in, EMPTY, T};

/// 3:[3] 0:[1,0], as in P10, with a No-History front.
fn small() -> Session {
    no_history(session(2, &[(3, &[3]), (0, &[1, 0])]))
}

fn refused(refusal: u8) -> [u8; 9] {
    [refusal, 0, 0, 0, 0, 0, 0, 0, 0]
}

/// A start, plain and finishing, is refused and keeps the session.
fn start_refused(from: &Session, screen: u8, flags: u32, refusal: u8) {
    let mut now = from.clone();
    let answer = calls::start(&T, &mut now, screen, flags);
    assert_eq!(answer.numbers(), refused(refusal));
    let answer = calls::finishing_start(&T, &mut now, screen, flags);
    assert_eq!(answer.numbers(), refused(refusal));
    assert_eq!(calls::why(&T, &now, screen, flags).refusal, refusal);
    assert_eq!(&now, from);
    assert_eq!(calls::look(&T, &now).numbers()[8], 1);
}

#[test]
fn looks_and_saves_keep_it() {
    let now = small();
    for _ in 0..2 {
        assert_eq!(calls::look(&T, &now).numbers(), [0, 3, 3, 1, 2, 2, 0, 8, 1]);
        assert_eq!(calls::save(&T, &now, &mut [0; 13]), (0, 13));
    }
    let other = session(2, &[(3, &[3]), (0, &[1, 0])]);
    assert_eq!(
        calls::look(&T, &other).numbers(),
        [0, 3, 3, 1, 2, 2, 0, 8, 0]
    );
}

#[test]
fn refused_calls_keep_it() {
    let mut now = small();
    let mut bad = T;
    bad[1] = 6;
    assert_eq!(calls::back(&T[..13], &mut now).numbers(), refused(1));
    assert_eq!(calls::back(&bad, &mut now).numbers(), refused(2));
    assert_eq!(calls::launch(&T, &mut now, 0).numbers(), refused(22));
    assert_eq!(calls::launch(&T, &mut now, 9).numbers(), refused(22));
    let no_image = [0, 0, 0, 0, 8, 0x43];
    assert_eq!(
        calls::restore(&T, &mut now, &no_image).numbers(),
        refused(5)
    );
    let no_tasks = [0, 0, 1, 0, 8, 0x42];
    assert_eq!(
        calls::restore(&T, &mut now, &no_tasks).numbers(),
        refused(6)
    );
    let unsound = [0, 0, 0, 1, 8, 0x42];
    assert_eq!(calls::restore(&T, &mut now, &unsound).numbers(), refused(7));
    assert_eq!(calls::save(&T, &now, &mut [0; 12]), (8, 0));
    assert_eq!(now, small());
    for flags in [0, NO_HISTORY] {
        start_refused(&small(), 6, flags, 3);
        start_refused(&small(), 1, flags | 1, 4);
    }
}

#[test]
fn space_is_decided_before_the_caller_closes() {
    // The caller is one of 32 screens, or alone in one of 16 tasks.
    let high = no_history(session(1, &[(0, &[[1; 31].as_slice(), &[0]].concat())]));
    let tasks = no_history(session(0, &[(1, &[1u8] as &[u8]); 16]));
    let found = no_history(session(2, &[(5, &[5]), (0, &[0; 32])]));
    for flags in [0, NO_HISTORY] {
        start_refused(&high, 1, flags, 24); // R10
        start_refused(&high, 2, NEW_TASK | flags, 24); // R17
        start_refused(&found, 1, NEW_TASK | flags, 24); // R17
        start_refused(&tasks, 4, flags, 23); // R2
        start_refused(&tasks, 3, flags, 23); // R6
        start_refused(&tasks, 1, NEW_TASK | MULTIPLE_TASK | flags, 23); // R11
        start_refused(&tasks, 5, NEW_TASK | flags, 23); // R18
    }
    // One less takes what is then one less again.
    let mut now = no_history(session(1, &[(0, &[[1; 30].as_slice(), &[0]].concat())]));
    let answer = calls::start(&T, &mut now, 1, NO_HISTORY);
    assert_eq!(answer.numbers(), [0, 1, 0, 31, 1, 1, 1, 8, 1]);
    let mut now = no_history(session(0, &[(1, &[1u8] as &[u8]); 15]));
    let answer = calls::start(&T, &mut now, 4, 0);
    assert_eq!(answer.numbers(), [0, 4, 4, 1, 15, 0, 1, 8, 0]);
}

#[test]
fn back_clears_it() {
    for (from, numbers, after) in [
        (
            session(1, &[(0, &[1, 0])]),
            [0, 0, 0, 1, 1, 1, 1, 8, 0],
            session(1, &[(0, &[0])]),
        ),
        (
            session_in(6, 2, &[(4, &[4]), (0, &[0])]),
            [0, 0, 0, 1, 1, 1, 1, 6, 0],
            session_in(6, 1, &[(0, &[0])]),
        ),
        (
            session(0, &[(4, &[4])]),
            [0, 0, 0, 0, 0, 0, 1, 8, 0],
            Session::fresh(),
        ),
    ] {
        let mut now = no_history(from);
        assert_eq!(calls::back(&T, &mut now).numbers(), numbers);
        assert_eq!(now, after);
    }
}

#[test]
fn launch_makes_none() {
    let mut now = no_history(session(0, &[(4, &[4])]));
    assert_eq!(calls::start(&T, &mut now, 4, NO_HISTORY).refusal, 0);
    assert_eq!(calls::look(&T, &now).numbers(), EMPTY);
    let answer = calls::launch(&T, &mut now, 0);
    assert_eq!(answer.numbers(), [0, 0, 0, 1, 1, 1, 0, 8, 0]);
    assert_eq!(now, session(1, &[(0, &[0])]));
}

#[test]
fn the_image_carries_it() {
    let image = [3, 1, 3, 0, 2, 1, 0, 0, 7, 2, 0x82, 8, 0x42];
    let mut buffer = [0xaa; 16];
    assert_eq!(calls::save(&T, &small(), &mut buffer), (0, 13));
    assert_eq!(buffer[..13], image);
    assert_eq!(buffer[13..], [0xaa; 3]);
    let other = session(2, &[(3, &[3]), (0, &[1, 0])]);
    assert_eq!(other.image()[10], 2);
    // Over any session it is the image's.
    for present in [small(), other.clone(), Session::fresh()] {
        let mut now = present.clone();
        let answer = calls::restore(&T, &mut now, &image);
        assert_eq!(answer.numbers(), [0, 3, 3, 1, 2, 2, 0, 8, 1]);
        assert_eq!(now, small());
        let mut now = present;
        let answer = calls::restore(&T, &mut now, &other.image());
        assert_eq!(answer.numbers(), [0, 3, 3, 1, 2, 2, 0, 8, 0]);
        assert_eq!(now, other);
    }
    let mut now = small();
    let answer = calls::restore(&T, &mut now, &[0, 0, 0, 0, 8, 0x42]);
    assert_eq!(answer.numbers(), EMPTY);
    assert_eq!(now, Session::fresh());
    // Without a main task, and of the largest session.
    let alone = no_history(session_in(7, 0, &[(4, &[4])]));
    assert_eq!(alone.image(), [4, 1, 4, 0, 3, 1, 0x80, 7, 0x42]);
    let largest = no_history(session(16, &[(0, &[0u8; 32] as &[u8]); 16]));
    let image = largest.image();
    assert_eq!(image[544..], [0x02, 0x20, 16, 0x90, 8, 0x42]);
    let answer = calls::restore(&T, &mut now, &image);
    assert_eq!(answer.numbers(), [0, 0, 0, 32, 16, 16, 0, 8, 1]);
    assert_eq!(now, largest);
}

#[test]
fn every_m_byte() {
    for byte in 0..=255 {
        // The task at place 1 is not the main screen's, that at place 2 is.
        let image = [3, 1, 3, 0, 2, 1, 0, 0, 7, 2, byte, 8, 0x42];
        let mut now = Session::fresh();
        let numbers = calls::restore(&T, &mut now, &image).numbers();
        match byte {
            0 => assert_eq!(numbers, [0, 3, 3, 1, 2, 0, 0, 8, 0]),
            2 => assert_eq!(numbers, [0, 3, 3, 1, 2, 2, 0, 8, 0]),
            0x80 => assert_eq!(numbers, [0, 3, 3, 1, 2, 0, 0, 8, 1]),
            0x82 => assert_eq!(numbers, [0, 3, 3, 1, 2, 2, 0, 8, 1]),
            _ => assert_eq!(numbers, refused(7), "m byte {byte}"),
        }
        // The empty image has none.
        let mut now = small();
        let numbers = calls::restore(&T, &mut now, &[0, 0, 0, byte, 8, 0x42]).numbers();
        match byte {
            0 => assert_eq!(numbers, EMPTY),
            _ => assert_eq!((numbers, now), (refused(7), small()), "m byte {byte}"),
        }
    }
}

#[test]
fn refusals_5_and_6_come_before_it() {
    for (image, refusal) in [
        ([0, 0, 0, 0x80, 9, 0x42], 5),
        ([0, 0, 0, 0x80, 8, 0x41], 5),
        ([0, 1, 0, 0x80, 8, 0x42], 5),
        ([0, 0, 17, 0x80, 8, 0x42], 6),
        ([0, 0, 1, 0x80, 8, 0x42], 6),
        ([0, 0, 0, 0x80, 6, 0x42], 7),
    ] {
        let mut now = small();
        let answer = calls::restore(&T, &mut now, &image);
        assert_eq!(answer.numbers(), refused(refusal), "{image:?}");
        assert_eq!(now, small());
    }
}

#[test]
fn an_empty_session_that_holds_it_is_unsound() {
    let bad = no_history(Session::fresh());
    let mut now = bad.clone();
    assert_eq!(calls::launch(&T, &mut now, 0).numbers(), refused(20));
    assert_eq!(calls::launch(&T, &mut now, 9).numbers(), refused(20));
    assert_eq!(calls::start(&T, &mut now, 6, 1).numbers(), refused(20));
    let answer = calls::finishing_start(&T, &mut now, 0, NO_HISTORY);
    assert_eq!(answer.numbers(), refused(20));
    assert_eq!(calls::back(&T, &mut now).numbers(), refused(20));
    assert_eq!(calls::look(&T, &now).numbers(), refused(20));
    assert_eq!(calls::save(&T, &now, &mut [0; 600]), (20, 0));
    let image = small().image();
    assert_eq!(calls::restore(&T, &mut now, &image).numbers(), refused(20));
    assert_eq!(calls::why(&T, &now, 0, 0).numbers(), [20, 0, 0, 0]);
    assert_eq!(now, bad);
    // On any other it is sound.
    for edition in [6, 7, 8] {
        let good = no_history(session_in(edition, 0, &[(5, &[5])]));
        let numbers = calls::look(&T, &good).numbers();
        assert_eq!(numbers, [0, 5, 5, 1, 1, 0, 0, edition, 1]);
    }
}

#[test]
fn the_seventh_flag_is_no_bit_outside() {
    let one = session(1, &[(0, &[0])]);
    let start = |from: &Session, screen, flags| {
        calls::start(&T, &mut from.clone(), screen, flags).numbers()
    };
    assert_eq!(start(&one, 1, 0x4000_0000), [0, 1, 0, 2, 1, 1, 0, 8, 1]);
    // All seven: MTK makes the task new.
    assert_eq!(start(&one, 1, 0x7c02_8000), [0, 1, 1, 1, 2, 2, 0, 8, 1]);
    for bit in [0x8000_0000, 0x0200_0000, 0x0001_0000, 1] {
        assert_eq!(start(&one, 1, bit), refused(4));
        assert_eq!(start(&one, 1, 0x4000_0000 | bit), refused(4));
    }
    assert_eq!(start(&one, 6, 0x4000_0000), refused(3));
    assert_eq!(start(&Session::fresh(), 1, 0x4000_0000), refused(21));
}

/// What the players write for some records under T.
fn played(records: &[[u8; 6]]) -> [String; 2] {
    let input = [&T[..], &records.concat()].concat();
    let (mut lines, mut explained) = (Vec::new(), Vec::new());
    play::play(&input[..], &mut lines).unwrap();
    play::explain(&input[..], &mut explained).unwrap();
    [lines, explained].map(|bytes| String::from_utf8(bytes).unwrap())
}

#[test]
fn the_players_lines() {
    let look = [5, 0, 0, 0, 0, 0];
    // Each record with its line, and the reason under it.
    let records = [
        ([1, 0, 0x40, 0, 0, 0], "1 0 0 0 1 1 1 0 8 0", ""),
        ([2, 1, 0x40, 0, 0, 0], "2 0 1 0 2 1 1 0 8 1", "0 10 0 0"),
        (look, "5 0 1 0 2 1 1 0 8 1", ""),
        ([2, 6, 0x40, 0, 0, 0], "2 3 0 0 0 0 0 0 0 0", "3 0 0 0"),
        ([9, 6, 0x40, 0, 0, 0], "9 9 0 0 0 0 0 0 0 0", ""),
        // The caller 1 closes under 2.
        ([2, 2, 0, 0, 0, 0], "2 0 2 0 2 1 1 1 8 0", "0 10 0 0"),
        ([2, 3, 0x40, 0, 0, 0], "2 0 3 3 1 2 2 0 8 1", "0 6 0 0"),
        // 3 starts itself and closes.
        ([2, 3, 0, 0, 0, 0], "2 0 2 0 2 1 1 1 8 0", "0 4 1 1"),
        ([2, 2, 0x40, 0, 0, 0], "2 0 2 0 2 1 1 0 8 0", "0 7 0 0"),
        ([3, 4, 0x40, 0, 0, 0], "3 0 4 4 1 2 2 1 8 1", "0 2 0 0"),
        ([4, 0, 0x40, 0, 0, 0], "4 0 0 0 1 1 1 1 8 0", ""),
        // CTK empties the main task for a No-History 0; STP keeps it.
        ([2, 0, 0x50, 0, 0x80, 0], "2 0 0 0 1 1 1 1 8 1", "0 12 1 1"),
        ([2, 0, 0x20, 0, 0, 0], "2 0 0 0 1 1 1 0 8 1", "0 7 0 0"),
        // Apart, it closes itself and the session with it.
        ([2, 0, 0x70, 0, 0, 0], "2 0 0 0 0 0 0 1 8 0", "0 16 1 1"),
        (look, "5 0 0 0 0 0 0 0 8 0", ""),
        ([1, 7, 0x40, 0, 0, 0], "1 0 0 0 1 1 1 0 7 0", ""),
    ];
    let [lines, explained] = played(&records.map(|(record, ..)| record));
    let (mut expected, mut reasons) = (String::new(), String::new());
    for (_, line, reason) in records {
        expected += &format!("{line}\n");
        reasons += &format!("{line}\n");
        if !reason.is_empty() {
            reasons += &format!("  {reason}\n");
        }
    }
    assert_eq!(lines, expected);
    assert_eq!(explained, reasons);
}

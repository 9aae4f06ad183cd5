//! The No-History flag and mark: what sets, keeps and clears the mark, what a
//! start from a marked front closes, and images.

mod common;

use std::collections::HashSet;

use common::flags::{CTK, CTP, MTK, NOH, NONE, NTK, RTF, STP};
use common::{image, image_in, session, table_t};
use milchkompass::{Answer, Edition, Flags, Refusal, Rule, Session};

/// The mark in the m byte of an image.
const MARK: u8 = 0x80;

/// Each task's root and its screens, top first.
type Tasks = &'static [(u8, &'static [u8])];

/// `0:[1,0], m 1`, with the mark.
fn notice() -> Session {
    session(&[(0, &[1, 0])], 1 | MARK)
}

/// The front screen of the answer, how many screens were closed, and the mark,
/// which is the session's.
fn seen(s: &Session, result: Result<Answer, Refusal>) -> (u8, u8, bool) {
    let answer = result.expect("accepted");
    assert_eq!(answer.no_history, s.no_history());
    (answer.screen, answer.closed, answer.no_history)
}

/// A notice is shown and left by a start, shown again and left by Back, and a
/// third time by a start into another task.
#[test]
fn a_notice() {
    let mut s = Session::new(table_t());
    let result = s.launch(Edition::Android8);
    assert_eq!(seen(&s, result), (0, 0, false));
    let result = s.start(1, NOH);
    assert_eq!(seen(&s, result), (1, 0, true));
    assert_eq!(s, notice());
    let result = s.start(2, NONE);
    assert_eq!(seen(&s, result), (2, 1, false));
    assert_eq!(s, session(&[(0, &[2, 0])], 1));
    let result = s.finish_start(1, NOH);
    assert_eq!(seen(&s, result), (1, 1, true));
    assert_eq!(s, notice());
    let result = s.back();
    assert_eq!(seen(&s, result), (0, 1, false));
    let result = s.start(3, NOH);
    assert_eq!(seen(&s, result), (3, 0, true));
    let result = s.start(0, NTK);
    assert_eq!(seen(&s, result), (0, 1, false));
    assert_eq!(s, session(&[(0, &[0, 0])], 1));
}

/// Look, save, why, refused calls and a plain start by R7 change nothing.
#[test]
fn kept() {
    let mut s = notice();
    let look = Ok(s.look());
    assert_eq!(seen(&s, look), (1, 0, true));
    assert_eq!(s.save(), [0, 2, 1, 0, 0, 4, 1, 0x81, 8, 0x42]);
    for flags in [STP, CTP, RTF, STP | NOH, CTP | NOH, RTF | NOH] {
        assert_eq!(s.why(1, flags).map(|r| r.rule), Ok(Rule::R7));
        assert_eq!(s.start(1, flags), look);
    }
    let other = Flags::from_bits_retain(0x8000_0000);
    assert_eq!(s.launch(Edition::Android8), Err(Refusal::NotEmpty));
    assert_eq!(s.start(6, NONE), Err(Refusal::NoSuchScreen));
    assert_eq!(s.start(0, other), Err(Refusal::OtherFlag));
    assert_eq!(s.finish_start(0, other | NOH), Err(Refusal::OtherFlag));
    assert_eq!(s.restore(&[]), Err(Refusal::ImageTrailer));
    assert_eq!(s, notice());
}

/// A start: its rule, tasks and main place before it, screen and flags; whether
/// the screen is pushed or made new; and how many screens close and what is
/// left, from a front without the mark and from one with it.
type Start = (Rule, Tasks, u8, u8, Flags, bool, &'static str, &'static str);

/// Every rule but R7, on other screens and on the screen in front.
#[rustfmt::skip]
fn starts() -> Vec<Start> {
    vec![
        (Rule::R1, &[(0, &[0]), (4, &[4])], 1, 4, NONE, false, "0: 4:[4] 0:[0], m 2", "1: 4:[4], m 0"),
        (Rule::R1, &[(4, &[4]), (0, &[0])], 2, 4, NONE, false, "0: 4:[4] 0:[0], m 2", "1: 0:[0], m 1"),
        (Rule::R2, &[(0, &[0])], 1, 4, NONE, true, "0: 4:[4] 0:[0], m 2", "1: 4:[4], m 0"),
        (Rule::R3, &[(0, &[0]), (3, &[3])], 1, 3, CTK, true, "1: 3:[3] 0:[0], m 2", "2: 3:[3], m 0"),
        (Rule::R4, &[(0, &[0]), (3, &[5, 3])], 1, 3, NONE, false, "1: 3:[3] 0:[0], m 2", "2: 3:[3], m 0"),
        (Rule::R4, &[(3, &[3]), (0, &[0])], 2, 3, NONE, false, "0: 3:[3] 0:[0], m 2", "1: 0:[0], m 1"),
        (Rule::R5, &[(5, &[5]), (0, &[0])], 2, 3, NONE, true, "0: 5:[3,5] 0:[0], m 2", "1: 5:[3] 0:[0], m 2"),
        (Rule::R6, &[(0, &[1, 0])], 1, 3, NONE, true, "0: 3:[3] 0:[1,0], m 2", "1: 3:[3] 0:[0], m 2"),
        (Rule::R8, &[(0, &[2, 1, 0])], 1, 1, CTP, false, "1: 0:[1,0], m 1", "1: 0:[1,0], m 1"),
        (Rule::R9, &[(0, &[2, 1, 0])], 1, 1, RTF, false, "0: 0:[1,2,0], m 1", "1: 0:[1,0], m 1"),
        (Rule::R10, &[(0, &[1, 0])], 1, 2, NONE, true, "0: 0:[2,1,0], m 1", "1: 0:[2,0], m 1"),
        (Rule::R10, &[(0, &[1, 0])], 1, 1, NONE, true, "0: 0:[1,1,0], m 1", "1: 0:[1,0], m 1"),
        (Rule::R11, &[(0, &[0])], 1, 1, NTK | MTK, true, "0: 1:[1] 0:[0], m 2", "1: 1:[1], m 0"),
        (Rule::R12, &[(0, &[2, 1, 0])], 1, 1, NTK | CTK, true, "3: 0:[1], m 1", "3: 0:[1], m 1"),
        (Rule::R13, &[(0, &[2, 1, 0])], 1, 1, NTK | CTP, false, "1: 0:[1,0], m 1", "1: 0:[1,0], m 1"),
        (Rule::R13, &[(0, &[1, 0])], 1, 1, NTK | CTP, false, "0: 0:[1,0], m 1", "1: 0:[0], m 1"),
        (Rule::R14, &[(0, &[0])], 1, 1, NTK | CTP, true, "0: 0:[1,0], m 1", "1: 0:[1], m 1"),
        (Rule::R15, &[(5, &[1, 5]), (0, &[0])], 2, 5, NTK, false, "0: 5:[1,5] 0:[0], m 2", "1: 5:[5] 0:[0], m 2"),
        (Rule::R15, &[(5, &[5]), (0, &[0])], 2, 5, NTK, false, "0: 5:[5] 0:[0], m 2", "1: 0:[0], m 1"),
        (Rule::R16, &[(4, &[4]), (0, &[1, 0])], 2, 1, STP, false, "0: 0:[1,0] 4:[4], m 1", "1: 0:[1,0], m 1"),
        (Rule::R16, &[(0, &[0])], 1, 0, NTK | STP, false, "0: 0:[0], m 1", "1: m 0"),
        (Rule::R17, &[(0, &[1, 0])], 1, 0, NTK, true, "0: 0:[0,1,0], m 1", "1: 0:[0,0], m 1"),
        (Rule::R18, &[(0, &[0])], 1, 5, NTK, true, "0: 5:[5] 0:[0], m 2", "1: 5:[5], m 0"),
    ]
}

/// Each of them, without the flag and with it. The mark is left where the
/// screen is pushed or made new with the flag, and nowhere else.
#[test]
fn each_rule() {
    for (rule, tasks, main, screen, flags, opens, plain, marked) in starts() {
        for (before, wanted) in [(main, plain), (main | MARK, marked)] {
            for (flags, mark) in [(flags, false), (flags | NOH, opens)] {
                let mut s = session(tasks, before);
                let told = s.why(screen, flags).expect("accepted");
                assert_eq!(told.rule, rule, "{screen} of {s}");
                let result = s.start(screen, flags);
                let (_, closed, left) = seen(&s, result);
                let shown = if mark { ", no history" } else { "" };
                assert_eq!(format!("{closed}: {s}"), format!("{wanted}{shown}"));
                assert_eq!(left, mark);
            }
        }
    }
}

/// R7 sets no mark; a finishing start by it closes the screen with its mark.
#[test]
fn in_front_already() {
    let tasks: Tasks = &[(0, &[2, 1, 0])];
    for flags in [NONE, NOH] {
        let mut plain = session(tasks, 1);
        assert_eq!(plain.start(2, flags), Ok(plain.look()));
        assert_eq!(plain, session(tasks, 1));
        let mut marked = session(tasks, 1 | MARK);
        let result = marked.finish_start(2, flags);
        assert_eq!(seen(&marked, result), (1, 1, false));
        assert_eq!(marked, session(&[(0, &[1, 0])], 1));
    }
}

/// In edition 7 R9 pushes the screen onto the emptied main task; a lift sets no
/// mark.
#[test]
fn reorder_to_front_in_edition_7() {
    let tasks: Tasks = &[(0, &[2, 1, 0])];
    for (main, flags, wanted) in [
        (1, NOH, "3: 0:[1], m 1, edition 7, no history"),
        (1 | MARK, NOH, "3: 0:[1], m 1, edition 7, no history"),
        (1 | MARK, NONE, "3: 0:[1], m 1, edition 7"),
        (MARK, NOH, "1: 0:[1,0], m 0, edition 7"),
    ] {
        let mut s = Session::new(table_t());
        s.restore(&image_in(7, tasks, main)).expect("sound");
        let result = s.start(1, RTF | flags);
        let (_, closed, _) = seen(&s, result);
        assert_eq!(format!("{closed}: {s}"), wanted);
    }
}

/// 23 and 24 are decided before anything closes.
#[test]
fn full_sessions_and_tasks() {
    let task: (u8, &[u8]) = (0, &[0]);
    let tasks = session(&[task; 16], 1 | MARK);
    let screens = session(&[(0, &[0; 32])], 1 | MARK);
    for (before, flags, refusal) in [
        (tasks, NTK | MTK, Refusal::TasksFull),
        (screens, NOH, Refusal::TaskFull),
    ] {
        let mut s = before.clone();
        assert_eq!(s.start(1, flags), Err(refusal));
        assert_eq!(s, before);
    }
}

/// Sessions that differ in the mark alone differ in image, look and display.
#[test]
fn told_apart() {
    let (plain, marked) = (session(&[(0, &[1, 0])], 1), notice());
    assert_ne!(plain.save(), marked.save());
    assert_ne!(plain.look(), marked.look());
    assert_eq!(HashSet::from([plain.clone(), marked.clone()]).len(), 2);
    assert_eq!(plain.to_string(), "0:[1,0], m 1");
    assert_eq!(marked.to_string(), "0:[1,0], m 1, no history");
}

/// The mark is bit 7 of the m byte: of P10 the rest is 0 or 2, and an empty
/// image has neither.
#[test]
fn images() {
    let p10: Tasks = &[(3, &[3]), (0, &[1, 0])];
    for byte in 0..=255 {
        let mut s = notice();
        let whole = image(p10, byte);
        if [0, 2, MARK, 2 | MARK].contains(&byte) {
            let result = s.restore(&whole);
            assert_eq!(seen(&s, result), (3, 0, byte >= MARK));
            assert_eq!((s.main_place(), s.save()), (byte & 2, whole));
        } else {
            assert_eq!(s.restore(&whole), Err(Refusal::ImageUnsound));
            assert_eq!(s, notice());
        }
        if byte > 0 {
            let mut s = notice();
            let empty = [0, 0, 0, byte, 8, 0x42];
            assert_eq!(s.restore(&empty), Err(Refusal::ImageUnsound));
            assert_eq!(s, notice());
        }
    }
}

/// The seven are bits 15, 17 and 26 to 30, and a start takes no other.
#[test]
fn words() {
    assert_eq!(NOH.bits(), 0x4000_0000);
    assert_eq!(Flags::all().bits(), 0x7c02_8000);
    for bit in 0..32 {
        let flags = Flags::from_bits_retain(1 << bit);
        let known = matches!(bit, 15 | 17 | 26..=30);
        assert_eq!(Flags::all().contains(flags), known);
        let mut s = Session::new(table_t());
        let refusal = if known {
            Refusal::Empty
        } else {
            Refusal::OtherFlag
        };
        assert_eq!(s.start(0, flags | NOH), Err(refusal));
        assert_eq!(s.finish_start(0, flags), Err(refusal));
        assert_eq!(s.why(0, flags), Err(refusal));
        assert_eq!(s, Session::new(table_t()));
    }
}

//! The paper's concrete examples: the stacks P1 to P10, the limits, the
//! player's example, the image's bytes, and the mistakes it warns of.

mod common;

use second::table::{CLEAR_TASK, CLEAR_TOP, MULTIPLE_TASK, NEW_TASK, REORDER_TO_FRONT, SINGLE_TOP};
use second::{calls, play, Rule, Session};

use common::{session, EMPTY, T};

/// A rule, and how many screens close by it.
type Closing = (Rule, u8);

/// Starts a screen under T and checks the rule, the session left and the answer.
fn start(before: &Session, screen: u8, flags: u32, (rule, closed): Closing, after: &Session) {
    let mut now = before.clone();
    assert_eq!(calls::why(&T, &now, screen, flags).rule, rule as u8);
    let answer = calls::start(&T, &mut now, screen, flags);
    assert_eq!(&now, after);
    assert_eq!(answer, after.answer(closed));
}

/// The same for a finishing start.
fn finish(before: &Session, screen: u8, flags: u32, (rule, closed): Closing, after: &Session) {
    let mut now = before.clone();
    assert_eq!(calls::why(&T, &now, screen, flags).rule, rule as u8);
    let answer = calls::finishing_start(&T, &mut now, screen, flags);
    assert_eq!(&now, after);
    assert_eq!(answer, after.answer(closed));
}

#[test]
fn p1_reorder() {
    let before = session(1, &[(0, &[2, 1, 0])]);
    start(
        &before,
        1,
        REORDER_TO_FRONT,
        (Rule::R9, 0),
        &session(1, &[(0, &[1, 2, 0])]),
    );
}

#[test]
fn p2_clear_top() {
    let before = session(1, &[(0, &[2, 1, 0])]);
    let after = session(1, &[(0, &[1, 0])]);
    start(&before, 1, CLEAR_TOP, (Rule::R8, 1), &after);
    let both = CLEAR_TOP | REORDER_TO_FRONT;
    start(&before, 1, both, (Rule::R8, 1), &after);
}

#[test]
fn p3_single_top_on_top() {
    let before = session(1, &[(0, &[2, 1, 0])]);
    start(&before, 2, 0, (Rule::R7, 0), &before);
}

#[test]
fn p4_from_a_single_instance() {
    let before = session(3, &[(4, &[4]), (3, &[3]), (0, &[1, 0])]);
    let after = session(1, &[(0, &[1, 1, 0]), (4, &[4]), (3, &[3])]);
    start(&before, 1, 0, (Rule::R17, 0), &after);
}

#[test]
fn p5_the_same_with_single_top() {
    let before = session(3, &[(4, &[4]), (3, &[3]), (0, &[1, 0])]);
    let after = session(1, &[(0, &[1, 0]), (4, &[4]), (3, &[3])]);
    start(&before, 1, SINGLE_TOP, (Rule::R16, 0), &after);
}

#[test]
fn p6_found_by_root() {
    let before = session(2, &[(5, &[1, 5]), (0, &[0])]);
    start(&before, 5, NEW_TASK, (Rule::R15, 0), &before);
}

#[test]
fn p7_single_task_is_not_split() {
    let before = session(2, &[(3, &[3]), (0, &[0])]);
    let flags = NEW_TASK | MULTIPLE_TASK;
    start(&before, 3, flags, (Rule::R4, 0), &before);
}

#[test]
fn p8_finishing_with_clear_task() {
    let before = session(1, &[(0, &[0])]);
    finish(&before, 0, NEW_TASK | CLEAR_TASK, (Rule::R12, 1), &before);
}

#[test]
fn p9_finishing_with_single_top() {
    let before = session(1, &[(0, &[0])]);
    finish(
        &before,
        0,
        NEW_TASK | SINGLE_TOP,
        (Rule::R16, 1),
        &Session::fresh(),
    );
}

#[test]
fn p10_image() {
    let saved = session(2, &[(3, &[3]), (0, &[1, 0])]);
    let image = [3, 1, 3, 0, 2, 1, 0, 0, 7, 2, 2, 8, 0x42];
    let mut buffer = [0xaa; 16];
    assert_eq!(calls::save(&T, &saved, &mut buffer), (0, 13));
    assert_eq!(buffer[..13], image);
    assert_eq!(buffer[13..], [0xaa; 3]);
    assert_eq!(calls::save(&T, &saved, &mut buffer[..13]), (0, 13));
    let mut other = session(1, &[(0, &[0])]);
    assert_eq!(
        calls::restore(&T, &mut other, &image).numbers(),
        [0, 3, 3, 1, 2, 2, 0, 8, 0]
    );
    assert_eq!(other, saved);
}

#[test]
fn image_of_the_empty_session() {
    let image = [0, 0, 0, 0, 8, 0x42];
    assert_eq!(Session::fresh().image(), image);
    let mut present = session(1, &[(0, &[0])]);
    assert_eq!(calls::restore(&T, &mut present, &image).numbers(), EMPTY);
    assert!(present.is_empty());
}

#[test]
fn image_of_the_largest_session() {
    let full = [0; 32];
    let tasks: Vec<(u8, &[u8])> = vec![(0, &full); 16];
    let largest = session(16, &tasks);
    let image = largest.image();
    assert_eq!(image.len(), 16 * 34 + 6);
    assert_eq!(image[544..], [0x02, 0x20, 16, 16, 8, 0x42]);
    let mut present = Session::fresh();
    assert_eq!(
        calls::restore(&T, &mut present, &image).numbers(),
        [0, 0, 0, 32, 16, 16, 0, 8, 0]
    );
    assert_eq!(present, largest);
}

#[test]
fn limit_of_a_task() {
    let mut now = session(1, &[(0, &[0; 31])]);
    assert_eq!(
        calls::start(&T, &mut now, 1, 0).numbers(),
        [0, 1, 0, 32, 1, 1, 0, 8, 0]
    );
    let full = now.clone();
    assert_eq!(
        calls::start(&T, &mut now, 1, 0).numbers(),
        [24, 0, 0, 0, 0, 0, 0, 0, 0]
    );
    assert_eq!(
        calls::finishing_start(&T, &mut now, 1, 0).numbers(),
        [24, 0, 0, 0, 0, 0, 0, 0, 0]
    );
    assert_eq!(now, full);
    let reorder = calls::start(&T, &mut now, 0, REORDER_TO_FRONT);
    assert_eq!(reorder.numbers(), [0, 0, 0, 32, 1, 1, 0, 8, 0]);
    let emptied = calls::start(&T, &mut now, 1, NEW_TASK | CLEAR_TASK);
    assert_eq!(emptied.numbers(), [0, 1, 0, 1, 1, 1, 32, 8, 0]);
}

#[test]
fn limit_of_the_session() {
    let mut now = session(15, &[(0, &[0u8] as &[u8]); 15]);
    let flags = NEW_TASK | MULTIPLE_TASK;
    assert_eq!(
        calls::start(&T, &mut now, 0, flags).numbers(),
        [0, 0, 0, 1, 16, 16, 0, 8, 0]
    );
    let full = now.clone();
    for (screen, flags) in [(0, flags), (3, 0), (4, 0), (5, NEW_TASK)] {
        assert_eq!(
            calls::start(&T, &mut now, screen, flags).numbers(),
            [23, 0, 0, 0, 0, 0, 0, 0, 0]
        );
        let answer = calls::finishing_start(&T, &mut now, screen, flags);
        assert_eq!(answer.numbers(), [23, 0, 0, 0, 0, 0, 0, 0, 0]);
    }
    assert_eq!(now, full);
    assert_eq!(
        calls::start(&T, &mut now, 5, 0).numbers(),
        [0, 5, 0, 2, 16, 16, 0, 8, 0]
    );
}

#[test]
fn full_tasks_that_are_found() {
    // Single-task screen 3 and standard screen 5 share an affinity in T.
    let before = session(2, &[(0, &[0]), (5, &[5; 32])]);
    for (screen, flags, refusal) in [
        (3, 0, 24),                    // R5
        (3, CLEAR_TASK, 0),            // R3
        (5, NEW_TASK, 0),              // R15
        (5, NEW_TASK | CLEAR_TOP, 0),  // R13
        (5, NEW_TASK | CLEAR_TASK, 0), // R12
    ] {
        let mut now = Session {
            main: 1,
            ..before.clone()
        };
        assert_eq!(calls::start(&T, &mut now, screen, flags).refusal, refusal);
    }
    // Screen 1 is sought by affinity in the task of 0.
    let before = session(1, &[(0, &[0; 32]), (5, &[5])]);
    for (flags, refusal) in [
        (NEW_TASK | CLEAR_TOP, 24), // R14
        (NEW_TASK, 24),             // R17
    ] {
        let mut now = before.clone();
        assert_eq!(calls::start(&T, &mut now, 1, flags).refusal, refusal);
        assert_eq!(now, before);
    }
}

#[test]
fn finishing_starts_close_the_caller() {
    // After R7 it is a Back.
    let before = session(1, &[(0, &[2, 1, 0])]);
    finish(&before, 2, 0, (Rule::R7, 1), &session(1, &[(0, &[1, 0])]));
    // The pushed screen stays, the caller below it goes.
    let after = session(1, &[(0, &[0, 1, 0])]);
    finish(&before, 0, 0, (Rule::R10, 1), &after);
    // The caller's task goes, and with it the main place.
    let before = session(1, &[(0, &[0])]);
    finish(&before, 3, 0, (Rule::R6, 1), &session(0, &[(3, &[3])]));
    // A single-instance screen that starts itself closes.
    let before = session(2, &[(4, &[4]), (0, &[0])]);
    finish(&before, 4, 0, (Rule::R1, 1), &session(1, &[(0, &[0])]));
    // A single-task screen kept by clearing to it keeps its mark.
    let before = session(2, &[(3, &[3, 1, 3]), (0, &[0])]);
    let after = session(2, &[(3, &[1, 3]), (0, &[0])]);
    finish(&before, 3, 0, (Rule::R4, 1), &after);
}

#[test]
fn the_main_task_before_the_move() {
    // The root found stands at place 2, which is m: not R15 but R17.
    let before = session(2, &[(5, &[5]), (0, &[1, 0])]);
    let after = session(1, &[(0, &[0, 1, 0]), (5, &[5])]);
    start(&before, 0, NEW_TASK, (Rule::R17, 0), &after);
    // The root found stands at place 1, m is 2: R15.
    let before = session(2, &[(0, &[1, 0]), (0, &[0])]);
    start(&before, 0, NEW_TASK, (Rule::R15, 0), &before);
    // With no main task, R15 again.
    let before = session(0, &[(5, &[5]), (0, &[1, 0])]);
    let after = session(0, &[(0, &[1, 0]), (5, &[5])]);
    start(&before, 0, NEW_TASK, (Rule::R15, 0), &after);
}

#[test]
fn search_from_the_front() {
    let before = session(0, &[(5, &[5]), (0, &[0]), (0, &[1, 0])]);
    let after = session(0, &[(0, &[1, 0]), (5, &[5]), (0, &[1, 0])]);
    start(&before, 1, NEW_TASK, (Rule::R17, 0), &after);
    // The whole list by root before the whole list by affinity.
    let before = session(0, &[(0, &[0]), (1, &[1])]);
    let after = session(0, &[(1, &[1]), (0, &[0])]);
    start(&before, 1, NEW_TASK, (Rule::R15, 0), &after);
}

#[test]
fn player_example() {
    let mut input = T.to_vec();
    input.extend([1, 0, 0, 0, 0, 0]);
    input.extend([2, 1, 0, 0, 0, 0]);
    input.extend([2, 3, 0, 0, 0, 0]);
    input.extend([3, 0, 0x10, 0, 0, 0]);
    for _ in 0..4 {
        input.extend([4, 0, 0, 0, 0, 0]);
    }
    let mut output = Vec::new();
    play::play(&input[..], &mut output).unwrap();
    // The finishing start closes 3, alone in its task, and each Back one screen.
    let expected = "1 0 0 0 1 1 1 0 8 0\n2 0 1 0 2 1 1 0 8 0\n2 0 3 3 1 2 2 0 8 0\n3 0 0 0 3 1 1 1 8 0\n\
                    4 0 1 0 2 1 1 1 8 0\n4 0 0 0 1 1 1 1 8 0\n4 0 0 0 0 0 0 1 8 0\n4 21 0 0 0 0 0 0 0 0\n";
    assert_eq!(String::from_utf8(output).unwrap(), expected);
}

//! Starts with the No-History flag and from a No-History front, by each rule. The
//! sessions and numbers are read from request 7 and the paper's rules by hand.

mod common;

use second::table::{
    flag_word, CLEAR_TASK, CLEAR_TOP, MULTIPLE_TASK, NEW_TASK, NO_HISTORY, REORDER_TO_FRONT,
    SINGLE_TOP,
};
use second::{calls, Answer, Session};

use common::{no_history, session, session_in, T};

type Call = fn(&[u8], &mut Session, u8, u32) -> Answer;
const START: Call = calls::start;
const FINISHING_START: Call = calls::finishing_start;

/// How many screens close, and the session after that.
type Left = (u8, Session);

/// A start by a rule from a front that is no No-History one: the rule, the screen and
/// flags, the session, what the start leaves, and the same where the caller closes.
struct Row(u8, (u8, u32), Session, Left, Left);

/// The rules that make a task of B.
fn new() -> Vec<Row> {
    let main = || session(1, &[(0, &[0])]);
    vec![
        Row(
            2,
            (4, 0),
            main(),
            (0, session(2, &[(4, &[4]), (0, &[0])])),
            (1, session(0, &[(4, &[4])])),
        ),
        Row(
            6,
            (3, 0),
            main(),
            (0, session(2, &[(3, &[3]), (0, &[0])])),
            (1, session(0, &[(3, &[3])])),
        ),
        Row(
            11,
            (0, NEW_TASK | MULTIPLE_TASK),
            main(),
            (0, session(2, &[(0, &[0]), (0, &[0])])),
            (1, session(0, &[(0, &[0])])),
        ),
        Row(
            18,
            (5, NEW_TASK),
            main(),
            (0, session(2, &[(5, &[5]), (0, &[0])])),
            (1, session(0, &[(5, &[5])])),
        ),
    ]
}

/// The rules that push B onto what there is.
fn pushed() -> Vec<Row> {
    let main = || session(1, &[(0, &[0])]);
    let before_main = || session(2, &[(5, &[5]), (0, &[1, 0])]);
    vec![
        Row(
            5,
            (3, 0),
            session(1, &[(0, &[0]), (5, &[1, 5])]),
            (0, session(2, &[(5, &[3, 1, 5]), (0, &[0])])),
            (1, session(0, &[(5, &[3, 1, 5])])),
        ),
        Row(
            10,
            (1, 0),
            main(),
            (0, session(1, &[(0, &[1, 0])])),
            (1, session(1, &[(0, &[1])])),
        ),
        Row(
            14,
            (2, NEW_TASK | CLEAR_TOP),
            before_main(),
            (0, session(1, &[(0, &[2, 1, 0]), (5, &[5])])),
            (1, session(1, &[(0, &[2, 1, 0])])),
        ),
        Row(
            17,
            (1, NEW_TASK),
            before_main(),
            (0, session(1, &[(0, &[1, 1, 0]), (5, &[5])])),
            (1, session(1, &[(0, &[1, 1, 0])])),
        ),
    ]
}

/// The rules that push B after a task was emptied.
fn emptied() -> Vec<Row> {
    let seven = |screens: &[u8]| session_in(7, 1, &[(0, screens)]);
    vec![
        Row(
            3,
            (3, CLEAR_TASK),
            session(1, &[(0, &[1, 0]), (3, &[1, 3])]),
            (2, session(2, &[(3, &[3]), (0, &[1, 0])])),
            (3, session(2, &[(3, &[3]), (0, &[0])])),
        ),
        // Emptied in edition 7, and the caller with it.
        Row(
            9,
            (1, REORDER_TO_FRONT),
            seven(&[2, 1, 0]),
            (3, seven(&[1])),
            (3, seven(&[1])),
        ),
        Row(
            12,
            (0, NEW_TASK | CLEAR_TASK),
            session(2, &[(3, &[3]), (0, &[1, 0])]),
            (2, session(1, &[(0, &[0]), (3, &[3])])),
            (3, session(1, &[(0, &[0])])),
        ),
    ]
}

/// The rules that push B or make a task of it.
fn pushed_or_new() -> Vec<Row> {
    new().into_iter().chain(pushed()).chain(emptied()).collect()
}

/// The rules that move a task and leave its screens.
fn moved() -> Vec<Row> {
    vec![
        Row(
            1,
            (4, 0),
            session(1, &[(0, &[1, 0]), (4, &[4])]),
            (0, session(2, &[(4, &[4]), (0, &[1, 0])])),
            (1, session(2, &[(4, &[4]), (0, &[0])])),
        ),
        Row(
            15,
            (5, NEW_TASK),
            session(1, &[(0, &[0]), (5, &[1, 5])]),
            (0, session(2, &[(5, &[1, 5]), (0, &[0])])),
            (1, session(0, &[(5, &[1, 5])])),
        ),
        Row(
            16,
            (1, NEW_TASK | SINGLE_TOP),
            session(2, &[(5, &[5]), (0, &[1, 0])]),
            (0, session(1, &[(0, &[1, 0]), (5, &[5])])),
            (1, session(1, &[(0, &[1, 0])])),
        ),
    ]
}

/// The rules that clear to B.
fn cleared() -> Vec<Row> {
    vec![
        Row(
            4,
            (3, 0),
            session(1, &[(0, &[1, 0]), (3, &[1, 3])]),
            (1, session(2, &[(3, &[3]), (0, &[1, 0])])),
            (2, session(2, &[(3, &[3]), (0, &[0])])),
        ),
        // The caller stands above B.
        Row(
            8,
            (1, CLEAR_TOP),
            session(1, &[(0, &[2, 1, 0])]),
            (1, session(1, &[(0, &[1, 0])])),
            (1, session(1, &[(0, &[1, 0])])),
        ),
        Row(
            13,
            (1, NEW_TASK | CLEAR_TOP),
            session(2, &[(3, &[3]), (0, &[2, 1, 0])]),
            (1, session(1, &[(0, &[1, 0]), (3, &[3])])),
            (2, session(1, &[(0, &[1, 0])])),
        ),
    ]
}

/// R9 where it lifts B.
fn lifted() -> Vec<Row> {
    vec![
        Row(
            9,
            (1, REORDER_TO_FRONT),
            session(1, &[(0, &[2, 1, 0])]),
            (0, session(1, &[(0, &[1, 2, 0])])),
            (1, session(1, &[(0, &[1, 0])])),
        ),
        // Edition 7, and not the main task.
        Row(
            9,
            (2, REORDER_TO_FRONT),
            session_in(7, 2, &[(5, &[1, 2, 5]), (0, &[0])]),
            (0, session_in(7, 2, &[(5, &[2, 1, 5]), (0, &[0])])),
            (1, session_in(7, 2, &[(5, &[2, 5]), (0, &[0])])),
        ),
    ]
}

/// The rules, but for R7, that bring a B to the front which was there.
fn moved_cleared_or_lifted() -> Vec<Row> {
    moved()
        .into_iter()
        .chain(cleared())
        .chain(lifted())
        .collect()
}

/// A start by this rule closes so many and leaves this session.
fn made(
    call: Call,
    from: &Session,
    (screen, flags): (u8, u32),
    rule: u8,
    (closed, after): (u8, &Session),
) {
    let what = format!("R{rule}, {from:?}, {flags:08x}");
    assert_eq!(calls::why(&T, from, screen, flags).rule, rule, "{what}");
    let mut now = from.clone();
    let answer = call(&T, &mut now, screen, flags);
    assert_eq!(&now, after, "{what}");
    assert_eq!(answer, after.answer(closed), "{what}");
    assert_eq!(answer.numbers()[8], u8::from(after.no_history), "{what}");
}

/// Both kinds of start of a row, from its front and from a No-History front, with
/// more flags; whether the front after them is a No-History one.
fn each_start(row: &Row, more: u32, front_after: bool) {
    let Row(rule, (screen, flags), from, plain, closing) = row;
    let after = |(closed, after): &Left| {
        let no_history = front_after;
        let after = after.clone();
        (
            *closed,
            Session {
                no_history,
                ..after
            },
        )
    };
    let (plain, closing) = (after(plain), after(closing));
    let front = no_history(from.clone());
    for (call, from, (closed, after)) in [
        (START, from, &plain),
        (FINISHING_START, from, &closing),
        (START, &front, &closing),
        (FINISHING_START, &front, &closing),
    ] {
        let start = (*screen, flags | more);
        made(call, from, start, *rule, (*closed, after));
    }
}

#[test]
fn pushed_or_new_with_the_flag() {
    for row in pushed_or_new() {
        each_start(&row, 0, false);
        each_start(&row, NO_HISTORY, true);
    }
}

#[test]
fn not_pushed_and_not_new() {
    for row in moved_cleared_or_lifted() {
        each_start(&row, 0, false);
        each_start(&row, NO_HISTORY, false);
    }
}

#[test]
fn r7_changes_nothing_by_a_start() {
    let from = session(1, &[(0, &[2, 1, 0])]);
    let closed = session(1, &[(0, &[1, 0])]);
    for flag in [0, SINGLE_TOP, CLEAR_TOP, REORDER_TO_FRONT] {
        for flags in [flag, flag | NO_HISTORY] {
            for front in [from.clone(), no_history(from.clone())] {
                made(START, &front, (2, flags), 7, (0, &front));
                made(FINISHING_START, &front, (2, flags), 7, (1, &closed));
            }
        }
    }
    // By a flag alone, where the mode is standard.
    let from = no_history(session(1, &[(0, &[1, 0])]));
    for flag in [SINGLE_TOP, CLEAR_TOP, REORDER_TO_FRONT] {
        let mut now = from.clone();
        let answer = calls::start(&T, &mut now, 1, flag);
        assert_eq!(answer.numbers(), [0, 1, 0, 2, 1, 1, 0, 8, 1]);
        assert_eq!(now, from);
        let answer = calls::finishing_start(&T, &mut now, 1, flag);
        assert_eq!(answer.numbers(), [0, 0, 0, 1, 1, 1, 1, 8, 0]);
        assert_eq!(now, session(1, &[(0, &[0])]));
    }
}

/// From a No-History front its own start, plain or finishing, by this rule closes it
/// and leaves this session, whose front is none.
fn closes_itself(from: Session, start: (u8, u32), rule: u8, after: Session) {
    let from = no_history(from);
    for call in [START, FINISHING_START] {
        for flags in [start.1, start.1 | NO_HISTORY] {
            made(call, &from, (start.0, flags), rule, (1, &after));
        }
    }
}

#[test]
fn a_front_that_starts_itself_closes() {
    let main = || session(1, &[(0, &[0])]);
    let two = || session(1, &[(0, &[1, 0])]);
    closes_itself(session(2, &[(4, &[4]), (0, &[0])]), (4, 0), 1, main());
    // Clearing keeps the topmost 3, which is the caller.
    let from = session(2, &[(3, &[3, 1, 3]), (0, &[0])]);
    let after = session(2, &[(3, &[1, 3]), (0, &[0])]);
    closes_itself(from, (3, 0), 4, after);
    closes_itself(two(), (1, NEW_TASK | CLEAR_TOP), 13, main());
    let from = session(2, &[(5, &[5, 1, 5]), (0, &[0])]);
    let after = session(2, &[(5, &[1, 5]), (0, &[0])]);
    closes_itself(from, (5, NEW_TASK), 15, after);
    closes_itself(two(), (1, NEW_TASK | SINGLE_TOP), 16, main());
    let single_top = session(1, &[(0, &[2, 0])]);
    closes_itself(single_top, (2, NEW_TASK), 16, main());
}

#[test]
fn the_session_may_become_empty() {
    let empty = Session::fresh;
    let main = || session(1, &[(0, &[0])]);
    closes_itself(session(0, &[(4, &[4])]), (4, 0), 1, empty());
    closes_itself(session(0, &[(3, &[3])]), (3, 0), 4, empty());
    closes_itself(main(), (0, NEW_TASK | CLEAR_TOP), 13, empty());
    closes_itself(session(0, &[(5, &[5])]), (5, NEW_TASK), 15, empty());
    closes_itself(main(), (0, NEW_TASK | SINGLE_TOP), 16, empty());
    // Edition 6 has no R15; an empty session has 8.
    let six = session_in(6, 0, &[(5, &[5])]);
    closes_itself(six, (5, NEW_TASK | SINGLE_TOP), 16, empty());
    let mut now = no_history(session_in(7, 0, &[(4, &[4])]));
    let answer = calls::start(&T, &mut now, 4, NO_HISTORY);
    assert_eq!(answer.numbers(), [0, 0, 0, 0, 0, 0, 1, 8, 0]);
    // By R7 only a finishing start closes it.
    let mut now = no_history(main());
    let answer = calls::finishing_start(&T, &mut now, 0, SINGLE_TOP);
    assert_eq!(answer.numbers(), [0, 0, 0, 0, 0, 0, 1, 8, 0]);
    assert_eq!(now, empty());
}

#[test]
fn the_caller_in_the_task_that_is_found() {
    // R15: the front task by its root, which is below the caller.
    let from = no_history(session(2, &[(5, &[1, 5]), (0, &[0])]));
    let after = session(2, &[(5, &[5]), (0, &[0])]);
    made(START, &from, (5, NEW_TASK), 15, (1, &after));
    // R10 and R17 push another 1 above the caller.
    let from = no_history(session(1, &[(0, &[1, 0])]));
    let after = session(1, &[(0, &[1, 0])]);
    made(START, &from, (1, 0), 10, (1, &after));
    made(START, &from, (1, NEW_TASK), 17, (1, &after));
    made(START, &from, (1, NO_HISTORY), 10, (1, &from));
    made(START, &from, (1, NEW_TASK | NO_HISTORY), 17, (1, &from));
    // R3 and R12 empty the caller's task, and the pushed B is not the caller.
    let from = no_history(session(0, &[(3, &[3])]));
    made(START, &from, (3, CLEAR_TASK | NO_HISTORY), 3, (1, &from));
    let from = no_history(session(1, &[(0, &[0])]));
    let flags = NEW_TASK | CLEAR_TASK;
    made(START, &from, (0, flags | NO_HISTORY), 12, (1, &from));
    let after = session(1, &[(0, &[0])]);
    made(START, &from, (0, flags), 12, (1, &after));
}

#[test]
fn the_reason_does_not_change() {
    for Row(_, _, from, ..) in pushed_or_new().iter().chain(&moved_cleared_or_lifted()) {
        let front = no_history(from.clone());
        for (screen, word) in (0..=6).flat_map(|screen| (0..64).map(move |word| (screen, word))) {
            let flags = flag_word(word);
            let reason = calls::why(&T, from, screen, flags);
            for from in [from, &front] {
                assert_eq!(calls::why(&T, from, screen, flags), reason);
                let with = calls::why(&T, from, screen, flags | NO_HISTORY);
                assert_eq!(with, reason);
            }
        }
    }
}

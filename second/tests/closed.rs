//! The screens that a call closes, and those that it creates. The numbers are read
//! from the paper's rules by hand.

mod common;

use second::table::{CLEAR_TASK, CLEAR_TOP, MULTIPLE_TASK, NEW_TASK, REORDER_TO_FRONT, SINGLE_TOP};
use second::{calls, play, Answer, Count, Done, Refusal, Rule, Session, Table};

use common::{session, standing, EMPTY, T};

type Start = fn(&mut Session, &Table, u8, u32) -> Result<Done, Refusal>;
type Call = fn(&[u8], &mut Session, u8, u32) -> Answer;

/// The two kinds of start, each without and with its first checks.
const KINDS: [(Start, Call); 2] = [
    (Session::start, calls::start),
    (Session::finishing_start, calls::finishing_start),
];

/// A start and a finishing start by this rule create so many screens each, and
/// close these many.
fn closes(from: &Session, screen: u8, flags: u32, rule: Rule, created: u8, closed: [u8; 2]) {
    let table = Table::parse(&T).unwrap();
    assert_eq!(calls::why(&T, from, screen, flags).rule, rule as u8);
    for ((start, call), closed) in KINDS.into_iter().zip(closed) {
        let mut after = from.clone();
        let done = start(&mut after, &table, screen, flags).unwrap();
        assert_eq!(done.count, Count { created, closed }, "{rule:?}");
        assert_eq!(
            standing(from) + usize::from(created),
            standing(&after) + usize::from(closed)
        );
        let mut same = from.clone();
        let answer = call(&T, &mut same, screen, flags);
        assert_eq!((answer, same), (after.answer(closed), after));
        assert_eq!(answer.numbers()[6], closed);
    }
}

#[test]
fn an_emptied_task_closes_whole() {
    // R3, from another task: also the 3 that comes back. The caller is one more.
    let other = session(1, &[(0, &[1, 0]), (3, &[1, 3, 5])]);
    closes(&other, 3, CLEAR_TASK, Rule::R3, 1, [3, 4]);
    // Inside, the caller is one of them; the pushed 3 stays.
    let inside = session(2, &[(3, &[3, 1, 3]), (0, &[0])]);
    closes(&inside, 3, CLEAR_TASK, Rule::R3, 1, [3, 3]);
    // By affinity, a task that has no 3.
    let by_affinity = session(1, &[(0, &[0]), (5, &[1, 5])]);
    closes(&by_affinity, 3, CLEAR_TASK, Rule::R3, 1, [2, 3]);

    // R12 likewise.
    let apart = NEW_TASK | CLEAR_TASK;
    let other = session(2, &[(3, &[3]), (0, &[2, 1, 0])]);
    closes(&other, 0, apart, Rule::R12, 1, [3, 4]);
    closes(&other, 1, apart | CLEAR_TOP, Rule::R12, 1, [3, 4]);
    let inside = session(1, &[(0, &[2, 1, 0])]);
    closes(&inside, 1, apart, Rule::R12, 1, [3, 3]);
    closes(&session(1, &[(0, &[0])]), 0, apart, Rule::R12, 1, [1, 1]);
    // The caller, single-instance, is apart without NTK.
    let alone = session(2, &[(4, &[4]), (0, &[1, 0])]);
    closes(&alone, 1, CLEAR_TASK, Rule::R12, 1, [2, 3]);
}

#[test]
fn clearing_closes_what_is_above_the_topmost() {
    // R4: two above the upper 3, which stays.
    let other = session(1, &[(0, &[0]), (3, &[1, 0, 3, 1, 3])]);
    closes(&other, 3, 0, Rule::R4, 0, [2, 3]);
    // Inside, the caller is one of the two.
    let inside = session(2, &[(3, &[1, 0, 3, 1, 3]), (0, &[0])]);
    closes(&inside, 3, 0, Rule::R4, 0, [2, 2]);
    // Nothing above it: in another task, and where the caller is that 3.
    let other = session(1, &[(0, &[0]), (3, &[3, 1])]);
    closes(&other, 3, 0, Rule::R4, 0, [0, 1]);
    let itself = session(2, &[(3, &[3, 1, 3]), (0, &[0])]);
    closes(&itself, 3, 0, Rule::R4, 0, [0, 1]);

    // R8: the caller is always above it.
    let one = session(1, &[(0, &[2, 0, 1, 1, 0])]);
    closes(&one, 1, CLEAR_TOP, Rule::R8, 0, [2, 2]);
    closes(&one, 1, CLEAR_TOP | REORDER_TO_FRONT, Rule::R8, 0, [2, 2]);
    closes(&one, 0, CLEAR_TOP, Rule::R8, 0, [1, 1]);

    // R13
    let apart = NEW_TASK | CLEAR_TOP;
    let other = session(2, &[(3, &[3]), (0, &[2, 0, 1, 1, 0])]);
    closes(&other, 1, apart, Rule::R13, 0, [2, 3]);
    closes(&other, 2, apart, Rule::R13, 0, [0, 1]);
    closes(&one, 1, apart, Rule::R13, 0, [2, 2]);
    closes(&one, 2, apart, Rule::R13, 0, [0, 1]);
}

#[test]
fn a_lift_closes_nothing() {
    let one = session(1, &[(0, &[2, 1, 0, 1, 0])]);
    closes(&one, 1, REORDER_TO_FRONT, Rule::R9, 0, [0, 1]);
    closes(&one, 0, REORDER_TO_FRONT, Rule::R9, 0, [0, 1]);
    let full = session(1, &[(0, &[[1; 31].as_slice(), &[0]].concat())]);
    closes(&full, 0, REORDER_TO_FRONT, Rule::R9, 0, [0, 1]);
}

#[test]
fn by_all_other_rules_only_the_caller_closes() {
    let one = session(1, &[(0, &[0])]);
    closes(&one, 4, 0, Rule::R2, 1, [0, 1]);
    closes(&one, 3, CLEAR_TASK, Rule::R6, 1, [0, 1]);
    closes(&one, 0, CLEAR_TOP, Rule::R7, 0, [0, 1]);
    closes(&one, 1, CLEAR_TOP, Rule::R10, 1, [0, 1]);
    closes(&one, 0, CLEAR_TASK, Rule::R10, 1, [0, 1]);
    let split = NEW_TASK | MULTIPLE_TASK;
    closes(&one, 0, split | CLEAR_TASK, Rule::R11, 1, [0, 1]);
    closes(&one, 5, NEW_TASK | CLEAR_TASK, Rule::R18, 1, [0, 1]);

    let two = session(1, &[(0, &[0]), (5, &[1, 5])]);
    closes(&two, 3, 0, Rule::R5, 1, [0, 1]);
    closes(&two, 5, NEW_TASK, Rule::R15, 0, [0, 1]);
    let two = session(2, &[(5, &[5]), (0, &[1, 0])]);
    closes(&two, 2, NEW_TASK | CLEAR_TOP, Rule::R14, 1, [0, 1]);
    closes(&two, 1, NEW_TASK | SINGLE_TOP, Rule::R16, 0, [0, 1]);
    closes(&two, 1, NEW_TASK, Rule::R17, 1, [0, 1]);
    let two = session(2, &[(4, &[4]), (0, &[1, 0])]);
    closes(&two, 4, CLEAR_TASK, Rule::R1, 0, [0, 1]);
    let two = session(1, &[(0, &[1, 0]), (4, &[4])]);
    closes(&two, 4, CLEAR_TOP, Rule::R1, 0, [0, 1]);
}

#[test]
fn the_greatest_numbers() {
    // 32 screens, the root at the bottom, in front and behind another task.
    let high = |root| [[1; 31].as_slice(), &[root]].concat();
    let inside = |root| session(2, &[(root, &high(root)), (0, &[0])]);
    let other = |root| session(1, &[(0, &[0]), (root, &high(root))]);
    closes(&inside(3), 3, CLEAR_TASK, Rule::R3, 1, [32, 32]);
    closes(&other(3), 3, CLEAR_TASK, Rule::R3, 1, [32, 33]);
    closes(&inside(3), 3, 0, Rule::R4, 0, [31, 31]);
    closes(&other(3), 3, 0, Rule::R4, 0, [31, 32]);
    closes(&inside(5), 5, CLEAR_TOP, Rule::R8, 0, [31, 31]);
    let (empty, clear) = (NEW_TASK | CLEAR_TASK, NEW_TASK | CLEAR_TOP);
    closes(&inside(5), 5, empty, Rule::R12, 1, [32, 32]);
    closes(&other(5), 5, empty, Rule::R12, 1, [32, 33]);
    closes(&inside(5), 5, clear, Rule::R13, 0, [31, 31]);
    closes(&other(5), 5, clear, Rule::R13, 0, [31, 32]);
}

#[test]
fn launch_back_and_look() {
    let mut now = Session::fresh();
    assert_eq!(calls::look(&T, &now).numbers(), EMPTY);
    let answer = calls::launch(&T, &mut now, 0);
    assert_eq!(answer.numbers(), [0, 0, 0, 1, 1, 1, 0, 8, 0]);

    // One screen of two, a whole task, the whole session.
    let mut now = session(2, &[(3, &[1, 3]), (0, &[0])]);
    for (back, look) in [
        ([0, 3, 3, 1, 2, 2, 1, 8, 0], [0, 3, 3, 1, 2, 2, 0, 8, 0]),
        ([0, 0, 0, 1, 1, 1, 1, 8, 0], [0, 0, 0, 1, 1, 1, 0, 8, 0]),
        ([0, 0, 0, 0, 0, 0, 1, 8, 0], EMPTY),
        ([21, 0, 0, 0, 0, 0, 0, 0, 0], EMPTY),
    ] {
        assert_eq!(calls::back(&T, &mut now).numbers(), back);
        assert_eq!(calls::look(&T, &now).numbers(), look);
    }
}

#[test]
fn launch_creates_one_and_back_closes_one() {
    let table = Table::parse(&T).unwrap();
    let (created, closed) = (1, 0);
    let launched = Session::fresh().launch(&table, 0).unwrap();
    assert_eq!(launched.count, Count { created, closed });
    let (created, closed) = (0, 1);
    let back = session(1, &[(0, &[0])]).back().unwrap();
    assert_eq!(back.count, Count { created, closed });
}

#[test]
fn a_finishing_start_that_empties_the_session() {
    // P9, and the same by R7 and by R1.
    let mut now = session(1, &[(0, &[0])]);
    let answer = calls::finishing_start(&T, &mut now, 0, NEW_TASK | SINGLE_TOP);
    assert_eq!(answer.numbers(), [0, 0, 0, 0, 0, 0, 1, 8, 0]);
    let mut now = session(1, &[(0, &[0])]);
    let answer = calls::finishing_start(&T, &mut now, 0, SINGLE_TOP);
    assert_eq!(answer.numbers(), [0, 0, 0, 0, 0, 0, 1, 8, 0]);
    let mut now = session(0, &[(4, &[4])]);
    let answer = calls::finishing_start(&T, &mut now, 4, 0);
    assert_eq!(answer.numbers(), [0, 0, 0, 0, 0, 0, 1, 8, 0]);
}

#[test]
fn a_restore_closes_nothing() {
    let large = session(2, &[(3, &[1, 3]), (0, &[2, 1, 0])]);
    let small = session(1, &[(0, &[0])]);
    for (present, next, numbers) in [
        (&large, &small, [0, 0, 0, 1, 1, 1, 0, 8, 0]),
        (&small, &large, [0, 1, 3, 2, 2, 2, 0, 8, 0]),
        (&large, &large, [0, 1, 3, 2, 2, 2, 0, 8, 0]),
        (&large, &Session::fresh(), EMPTY),
    ] {
        let mut now = present.clone();
        assert_eq!(
            calls::restore(&T, &mut now, &next.image()).numbers(),
            numbers
        );
    }
    let mut now = large.clone();
    assert_eq!(
        calls::restore(&T, &mut now, &[]).numbers(),
        [5, 0, 0, 0, 0, 0, 0, 0, 0]
    );
}

#[test]
fn a_refused_call_closes_nothing() {
    // Each would close a screen or more if it were accepted.
    let full = session(1, &[(0, &[0; 32])]);
    let tasks = session(0, &[(0, &[0u8] as &[u8]); 16]);
    let unsound = session(1, &[(3, &[1, 3]), (0, &[0])]);
    for (from, screen, flags, refusal) in [
        (&full, 1, 0, 24),
        (&tasks, 3, 0, 23),
        (&unsound, 3, CLEAR_TASK, 20),
        (&full, 6, NEW_TASK | CLEAR_TASK, 3),
        (&full, 0, NEW_TASK | CLEAR_TASK | 1, 4),
        (&Session::fresh(), 0, NEW_TASK | CLEAR_TASK, 21),
    ] {
        let mut now = from.clone();
        let answer = calls::finishing_start(&T, &mut now, screen, flags);
        assert_eq!(answer.numbers(), [refusal, 0, 0, 0, 0, 0, 0, 0, 0]);
        assert_eq!(&now, from);
    }
    let mut now = unsound.clone();
    assert_eq!(
        calls::back(&T, &mut now).numbers(),
        [20, 0, 0, 0, 0, 0, 0, 0, 0]
    );
}

#[test]
fn the_players_lines() {
    let mut input = T.to_vec();
    input.extend([1, 0, 0, 0, 0, 0]);
    input.extend([2, 3, 0, 0, 0, 0]);
    input.extend([2, 1, 0, 0, 0, 0].repeat(31));
    // 0 comes to the front (NTK STP) and closes itself as it empties the 32 of 3.
    input.extend([2, 0, 0x30, 0, 0, 0]);
    input.extend([3, 3, 0, 0, 0x80, 0]);
    input.extend([4, 0, 0, 0, 0, 0]);
    input.extend([4, 0, 0, 0, 0, 0]);
    let mut output = Vec::new();
    play::play(&input[..], &mut output).unwrap();
    let output = String::from_utf8(output).unwrap();
    let last: Vec<&str> = output.lines().skip(32).collect();
    let expected = [
        "2 0 1 3 32 2 2 0 8 0",
        "2 0 0 0 1 2 1 0 8 0",
        "3 0 3 3 1 1 0 33 8 0",
        "4 0 0 0 0 0 0 1 8 0",
        "4 21 0 0 0 0 0 0 0 0",
    ];
    assert_eq!(last, expected);
}

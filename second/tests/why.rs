//! The reasons of starts: which rule, at which place, found by what. The numbers
//! are read from the paper's rules by hand.

mod common;

use second::table::{CLEAR_TASK, CLEAR_TOP, MULTIPLE_TASK, NEW_TASK, REORDER_TO_FRONT, SINGLE_TOP};
use second::{calls, Session};

use common::{session, AFFINITY, NONE, ROOT, T};

/// A start of this screen has this reason: rule, place, found by.
fn why(from: &Session, screen: u8, flags: u32, reason: [u8; 3]) {
    let [rule, place, found] = reason;
    let told = calls::why(&T, from, screen, flags);
    assert_eq!(
        told.numbers(),
        [0, rule, place, found],
        "start of {screen}, flags {flags:08x}"
    );
}

fn refused(table: &[u8], from: &Session, screen: u8, flags: u32, refusal: u8) {
    let told = calls::why(table, from, screen, flags);
    assert_eq!(told.numbers(), [refusal, 0, 0, 0]);
}

#[test]
fn the_papers_stacks() {
    // P1 to P3
    let one = session(1, &[(0, &[2, 1, 0])]);
    why(&one, 1, REORDER_TO_FRONT, [9, 0, NONE]);
    why(&one, 1, CLEAR_TOP, [8, 0, NONE]);
    why(&one, 1, CLEAR_TOP | REORDER_TO_FRONT, [8, 0, NONE]);
    why(&one, 2, 0, [7, 0, NONE]);
    // P4 and P5: the main task has the affinity, the single-instance task does
    // not count.
    let three = session(3, &[(4, &[4]), (3, &[3]), (0, &[1, 0])]);
    why(&three, 1, 0, [17, 3, AFFINITY]);
    why(&three, 1, SINGLE_TOP, [16, 3, AFFINITY]);
    // P6
    let two = session(2, &[(5, &[1, 5]), (0, &[0])]);
    why(&two, 5, NEW_TASK, [15, 1, ROOT]);
    // P7: MTK does not split a single-task screen.
    let two = session(2, &[(3, &[3]), (0, &[0])]);
    why(&two, 3, NEW_TASK | MULTIPLE_TASK, [4, 1, ROOT]);
    // P8 and P9
    let one = session(1, &[(0, &[0])]);
    why(&one, 0, NEW_TASK | CLEAR_TASK, [12, 1, ROOT]);
    why(&one, 0, NEW_TASK | SINGLE_TOP, [16, 1, ROOT]);
}

#[test]
fn single_instance() {
    let there = session(3, &[(5, &[5]), (4, &[4]), (0, &[0])]);
    let gone = session(1, &[(0, &[0])]);
    let all = NEW_TASK | SINGLE_TOP | MULTIPLE_TASK | CLEAR_TOP | REORDER_TO_FRONT | CLEAR_TASK;
    for flags in [0, all] {
        why(&there, 4, flags, [1, 2, ROOT]);
        // Never by affinity, which the main task has.
        why(&gone, 4, flags, [2, 0, NONE]);
    }
}

#[test]
fn single_task() {
    // By root, with another task of the affinity before it.
    let by_root = session(3, &[(5, &[5]), (3, &[1, 3]), (0, &[0])]);
    why(&by_root, 3, CLEAR_TASK, [3, 2, ROOT]);
    why(&by_root, 3, 0, [4, 2, ROOT]);
    // The root itself has closed.
    let closed = session(2, &[(3, &[1]), (0, &[3, 0])]);
    why(&closed, 3, 0, [5, 1, ROOT]);
    let by_affinity = session(1, &[(0, &[0]), (5, &[1, 3, 5])]);
    why(&by_affinity, 3, CLEAR_TASK, [3, 2, AFFINITY]);
    why(&by_affinity, 3, 0, [4, 2, AFFINITY]);
    let without = session(1, &[(0, &[3, 0]), (5, &[5])]);
    why(&without, 3, 0, [5, 2, AFFINITY]);
    // CTK counts only where a task is found, and holding 3 elsewhere does not.
    let none = session(1, &[(0, &[3, 0])]);
    why(&none, 3, 0, [6, 0, NONE]);
    why(&none, 3, CLEAR_TASK, [6, 0, NONE]);
}

#[test]
fn not_apart() {
    // The front task is also what root and affinity would find.
    let one = session(1, &[(0, &[0, 1, 0])]);
    for flag in [SINGLE_TOP, REORDER_TO_FRONT, CLEAR_TOP] {
        why(&one, 0, flag, [7, 0, NONE]);
    }
    why(&one, 0, 0, [10, 0, NONE]);
    why(&one, 1, SINGLE_TOP, [10, 0, NONE]);
    why(&one, 1, CLEAR_TOP, [8, 0, NONE]);
    why(&one, 1, REORDER_TO_FRONT, [9, 0, NONE]);
    // MTK and CTK without NTK do nothing here.
    why(&one, 0, MULTIPLE_TASK | CLEAR_TASK, [10, 0, NONE]);
    why(&one, 2, CLEAR_TOP | REORDER_TO_FRONT, [10, 0, NONE]);
}

#[test]
fn apart() {
    let two = session(2, &[(5, &[5]), (0, &[1, 0])]);
    // MTK comes before the search and before CTK.
    why(
        &two,
        5,
        NEW_TASK | MULTIPLE_TASK | CLEAR_TASK,
        [11, 0, NONE],
    );
    // CTK comes before CTP.
    why(
        &two,
        1,
        NEW_TASK | CLEAR_TASK | CLEAR_TOP,
        [12, 2, AFFINITY],
    );
    why(&two, 1, NEW_TASK | CLEAR_TOP, [13, 2, AFFINITY]);
    why(&two, 0, NEW_TASK | CLEAR_TOP, [13, 2, ROOT]);
    why(&two, 2, NEW_TASK | CLEAR_TOP, [14, 2, AFFINITY]);
    // Found by root, but its root has closed. CTP comes before R15.
    let closed = session(1, &[(0, &[0]), (5, &[1])]);
    why(&closed, 5, NEW_TASK | CLEAR_TOP, [14, 2, ROOT]);
    why(&closed, 5, NEW_TASK, [15, 2, ROOT]);
    why(&closed, 5, NEW_TASK | SINGLE_TOP, [15, 2, ROOT]);
    // The main task, by root: no R15. Its top is 1, and not 0.
    why(&two, 0, NEW_TASK, [17, 2, ROOT]);
    why(&two, 0, NEW_TASK | SINGLE_TOP, [17, 2, ROOT]);
    why(&two, 1, NEW_TASK | SINGLE_TOP, [16, 2, AFFINITY]);
    why(&two, 1, NEW_TASK | REORDER_TO_FRONT, [17, 2, AFFINITY]);
    // A single-top screen is single without STP.
    let single = session(1, &[(0, &[2, 0])]);
    why(&single, 2, NEW_TASK, [16, 1, AFFINITY]);
    let none = session(1, &[(0, &[0])]);
    why(&none, 5, NEW_TASK, [18, 0, NONE]);
    why(&none, 5, NEW_TASK | CLEAR_TASK | CLEAR_TOP, [18, 0, NONE]);
}

#[test]
fn a_single_instance_caller_is_apart() {
    let alone = session(0, &[(4, &[4])]);
    why(&alone, 1, 0, [18, 0, NONE]);
    why(&alone, 1, MULTIPLE_TASK, [11, 0, NONE]);
    let two = session(2, &[(4, &[4]), (0, &[1, 0])]);
    why(&two, 1, CLEAR_TASK, [12, 2, AFFINITY]);
}

#[test]
fn where_both_find_a_task_it_is_root() {
    // By affinity place 1 would be found, by root it is place 2.
    let two = session(0, &[(0, &[0]), (1, &[1])]);
    why(&two, 1, NEW_TASK, [15, 2, ROOT]);
    // The same task.
    let one = session(0, &[(1, &[1])]);
    why(&one, 1, NEW_TASK, [15, 1, ROOT]);
    // The first from the front.
    let four = session(0, &[(5, &[5]), (0, &[0]), (1, &[1]), (0, &[0])]);
    why(&four, 0, NEW_TASK, [15, 2, ROOT]);
    why(&four, 2, NEW_TASK, [17, 2, AFFINITY]);
}

#[test]
fn the_place_before_the_move() {
    // The task at the last place comes to the front.
    let mut tasks: Vec<(u8, &[u8])> = vec![(1, &[1]); 15];
    tasks.push((5, &[5]));
    let mut full = session(0, &tasks);
    why(&full, 5, NEW_TASK, [15, 16, ROOT]);
    why(&full, 3, 0, [5, 16, AFFINITY]);
    assert_eq!(
        calls::start(&T, &mut full, 5, NEW_TASK).numbers(),
        [0, 5, 5, 1, 16, 0, 0, 8, 0]
    );
    why(&full, 5, NEW_TASK, [15, 1, ROOT]);
}

#[test]
fn refusals_in_their_order() {
    let fresh = Session::fresh();
    let unsound = session(1, &[]);
    let one = session(1, &[(0, &[0])]);
    let mut bad = T;
    bad[1] = 6;
    refused(&[], &unsound, 200, 1, 1);
    refused(&T[..13], &unsound, 200, 1, 1);
    refused(&bad, &unsound, 200, 1, 2);
    refused(&T, &unsound, 200, 1, 20);
    refused(&T, &fresh, 6, 1, 3);
    refused(&T, &one, 255, NEW_TASK, 3);
    refused(&T, &fresh, 0, 1, 4);
    refused(&T, &one, 0, NEW_TASK | 1, 4);
    refused(&T, &fresh, 0, NEW_TASK, 21);
    refused(&T, &fresh, 4, 0, 21);
}

#[test]
fn refusals_for_want_of_space() {
    // R2, R6, R11 and R18 want a task.
    let tasks = session(0, &[(1, &[1u8] as &[u8]); 16]);
    refused(&T, &tasks, 4, 0, 23);
    refused(&T, &tasks, 3, 0, 23);
    refused(&T, &tasks, 1, NEW_TASK | MULTIPLE_TASK, 23);
    refused(&T, &tasks, 5, NEW_TASK, 23);
    // R5, R10, R14 and R17 want a place in the task found, or in front.
    let high = session(1, &[(0, &[0; 32]), (5, &[5; 32])]);
    refused(&T, &high, 3, 0, 24);
    refused(&T, &high, 1, 0, 24);
    refused(&T, &high, 1, NEW_TASK | CLEAR_TOP, 24);
    refused(&T, &high, 1, NEW_TASK, 24);
    // The others want none.
    why(&high, 3, CLEAR_TASK, [3, 2, AFFINITY]);
    why(&high, 0, CLEAR_TOP, [7, 0, NONE]);
    why(&high, 1, NEW_TASK | CLEAR_TASK, [12, 1, AFFINITY]);
    why(&high, 0, NEW_TASK | CLEAR_TOP, [13, 1, ROOT]);
    why(&high, 5, NEW_TASK, [15, 2, ROOT]);
    why(&high, 0, NEW_TASK | SINGLE_TOP, [16, 1, ROOT]);
}

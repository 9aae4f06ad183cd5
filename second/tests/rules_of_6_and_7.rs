//! Where editions 6 and 7 differ from 8, and where they do not. The rules, places
//! and stacks are read from the papers by hand.

mod common;

use second::play::Player;
use second::table::{
    flag_word, CLEAR_TASK, CLEAR_TOP, MULTIPLE_TASK, NEW_TASK, REORDER_TO_FRONT, SINGLE_TOP,
};
use second::{calls, Session};

use common::{session_in, AFFINITY, NONE, ROOT, T};

/// Tasks, front first, by root and screens, top first.
type Tasks<'a> = &'a [(u8, &'a [u8])];
/// The main place and the tasks.
type Stacks<'a> = (usize, Tasks<'a>);

/// Affinity 0: 1 standard, 2 single-top, 3 single-task, 4 single-instance. 0, the
/// main screen, and 5, single-task, have affinity 1.
const Z: [u8; 14] = [6, 0, 0, 1, 0, 0, 1, 0, 2, 0, 3, 0, 2, 1];

/// A start in an edition of this table has this reason, rule, place and found by,
/// closes so many and leaves this session.
fn start_in(
    (table, edition): (&[u8], u8),
    (main, tasks): Stacks,
    (screen, flags): (u8, u32),
    ([rule, place, found], closed): ([u8; 3], u8),
    (main_after, after): Stacks,
) {
    let mut now = session_in(edition, main, tasks);
    let told = calls::why(table, &now, screen, flags);
    let what = format!("edition {edition}, {tasks:?}, start of {screen}, {flags:08x}");
    assert_eq!(told.numbers(), [0, rule, place, found], "{what}");
    let answer = calls::start(table, &mut now, screen, flags);
    let after = session_in(edition, main_after, after);
    assert_eq!(now, after, "{what}");
    assert_eq!(answer, after.answer(closed), "{what}");
}

/// All 64 sets of the six flags that choose rules.
fn all_flags() -> impl Iterator<Item = u32> {
    (0..64).map(flag_word)
}

#[test]
fn seven_empties_the_main_task() {
    // P1: a lift in 6 and 8.
    let from: Stacks = (1, &[(0, &[2, 1, 0])]);
    let start = (1, REORDER_TO_FRONT);
    for edition in [6, 8] {
        let after: Stacks = (1, &[(0, &[1, 2, 0])]);
        start_in((&T, edition), from, start, ([9, 0, NONE], 0), after);
    }
    let after: Stacks = (1, &[(0, &[1])]);
    start_in((&T, 7), from, start, ([9, 0, NONE], 3), after);
    // The root, at the bottom, and a single-top screen twice.
    let after: Stacks = (1, &[(0, &[0])]);
    start_in(
        (&T, 7),
        from,
        (0, REORDER_TO_FRONT),
        ([9, 0, NONE], 3),
        after,
    );
    let from: Stacks = (1, &[(0, &[1, 2, 0, 2]), (3, &[3])]);
    let after: Stacks = (1, &[(0, &[2]), (3, &[3])]);
    for more in [0, SINGLE_TOP, MULTIPLE_TASK, CLEAR_TASK] {
        let start = (2, REORDER_TO_FRONT | more);
        start_in((&T, 7), from, start, ([9, 0, NONE], 4), after);
    }
}

#[test]
fn seven_lifts_in_other_tasks() {
    let (flags, reason) = (REORDER_TO_FRONT, ([9, 0, NONE], 0));
    // The main task is behind, gone, or another of the same root.
    let from: Stacks = (2, &[(5, &[1, 2, 5]), (0, &[2, 0])]);
    let after: Stacks = (2, &[(5, &[2, 1, 5]), (0, &[2, 0])]);
    start_in((&T, 7), from, (2, flags), reason, after);
    let from: Stacks = (0, &[(0, &[1, 2, 0])]);
    let after: Stacks = (0, &[(0, &[2, 1, 0])]);
    start_in((&T, 7), from, (2, flags), reason, after);
    let from: Stacks = (2, &[(0, &[1, 2, 0]), (0, &[0])]);
    let after: Stacks = (2, &[(0, &[2, 1, 0]), (0, &[0])]);
    start_in((&T, 7), from, (2, flags), reason, after);
}

#[test]
fn seven_at_the_limit_and_before_r9() {
    // A task of 32 is emptied too, never 24.
    let screens = [[1; 31].as_slice(), &[0]].concat();
    let from: Stacks = (1, &[(0, &screens)]);
    let after: Stacks = (1, &[(0, &[0])]);
    let start = (0, REORDER_TO_FRONT);
    start_in((&T, 7), from, start, ([9, 0, NONE], 32), after);
    // R7: the front screen itself. R8: CTP. R10: not there. R17: apart.
    let from: Stacks = (1, &[(0, &[2, 1, 0])]);
    let start = (2, REORDER_TO_FRONT);
    start_in((&T, 7), from, start, ([7, 0, NONE], 0), from);
    let after: Stacks = (1, &[(0, &[1, 0])]);
    let start = (1, REORDER_TO_FRONT | CLEAR_TOP);
    start_in((&T, 7), from, start, ([8, 0, NONE], 1), after);
    let after: Stacks = (1, &[(0, &[5, 2, 1, 0])]);
    let start = (5, REORDER_TO_FRONT);
    start_in((&T, 7), from, start, ([10, 0, NONE], 0), after);
    let after: Stacks = (1, &[(0, &[1, 2, 1, 0])]);
    let start = (1, REORDER_TO_FRONT | NEW_TASK);
    start_in((&T, 7), from, start, ([17, 1, AFFINITY], 0), after);
}

#[test]
fn seven_and_the_caller_that_closes() {
    // The mark is gone with the task: B stands alone, whether the task held the
    // caller's number below or not.
    for stack in [[2, 1, 0], [0, 1, 0], [2, 2, 1]] {
        let mut now = session_in(7, 1, &[(0, &stack)]);
        let answer = calls::finishing_start(&T, &mut now, 1, REORDER_TO_FRONT);
        assert_eq!(answer.numbers(), [0, 1, 0, 1, 1, 1, 3, 7, 0]);
        assert_eq!(now, session_in(7, 1, &[(0, &[1])]));
    }
    // Lifted in another task, and by R7, the caller closes.
    let mut now = session_in(7, 2, &[(5, &[1, 2, 5]), (0, &[0])]);
    let answer = calls::finishing_start(&T, &mut now, 2, REORDER_TO_FRONT);
    assert_eq!(answer.numbers(), [0, 2, 5, 2, 2, 2, 1, 7, 0]);
    assert_eq!(now, session_in(7, 2, &[(5, &[2, 5]), (0, &[0])]));
    let mut now = session_in(7, 1, &[(0, &[2, 1, 0])]);
    let answer = calls::finishing_start(&T, &mut now, 2, REORDER_TO_FRONT);
    assert_eq!(answer.numbers(), [0, 1, 0, 2, 1, 1, 1, 7, 0]);
}

#[test]
fn six_seeks_a_single_task_screen_by_affinity() {
    // The task of 3 stands behind one of its affinity.
    let from: Stacks = (1, &[(0, &[0]), (5, &[5]), (3, &[1, 3])]);
    let by_root: Stacks = (2, &[(3, &[3]), (0, &[0]), (5, &[5])]);
    let pushed: Stacks = (2, &[(5, &[3, 5]), (0, &[0]), (3, &[1, 3])]);
    let emptied: Stacks = (2, &[(5, &[3]), (0, &[0]), (3, &[1, 3])]);
    for edition in [7, 8] {
        start_in((&T, edition), from, (3, 0), ([4, 3, ROOT], 1), by_root);
    }
    start_in((&T, 6), from, (3, 0), ([5, 2, AFFINITY], 0), pushed);
    let start = (3, CLEAR_TASK);
    start_in((&T, 6), from, start, ([3, 2, AFFINITY], 1), emptied);
    // Its own task, the first of its affinity, is found by that.
    let from: Stacks = (1, &[(0, &[0]), (3, &[1, 3]), (5, &[5])]);
    start_in((&T, 6), from, (3, 0), ([4, 2, AFFINITY], 1), by_root);
    // P7, and no task of its affinity.
    let from: Stacks = (2, &[(3, &[3]), (0, &[0])]);
    let start = (3, NEW_TASK | MULTIPLE_TASK);
    start_in((&T, 6), from, start, ([4, 1, AFFINITY], 0), from);
    let from: Stacks = (1, &[(0, &[3, 0])]);
    let after: Stacks = (2, &[(3, &[3]), (0, &[3, 0])]);
    start_in((&T, 6), from, (3, 0), ([6, 0, NONE], 0), after);
}

#[test]
fn six_seeks_a_single_task_screen_of_affinity_0_by_root() {
    let from: Stacks = (1, &[(0, &[0]), (1, &[3, 1]), (3, &[1, 3])]);
    let after: Stacks = (2, &[(3, &[3]), (0, &[0]), (1, &[3, 1])]);
    let closed: Stacks = (1, &[(0, &[0]), (3, &[1])]);
    let pushed: Stacks = (2, &[(3, &[3, 1]), (0, &[0])]);
    let none: Stacks = (1, &[(0, &[0]), (1, &[3, 1])]);
    for edition in [6, 7, 8] {
        let table = (&Z[..], edition);
        start_in(table, from, (3, 0), ([4, 3, ROOT], 1), after);
        start_in(table, from, (3, CLEAR_TASK), ([3, 3, ROOT], 2), after);
        start_in(table, closed, (3, 0), ([5, 2, ROOT], 0), pushed);
        let made: Stacks = (2, &[(3, &[3]), (0, &[0]), (1, &[3, 1])]);
        start_in(table, none, (3, 0), ([6, 0, NONE], 0), made);
    }
    // 5 has an affinity: the main task's.
    let from: Stacks = (1, &[(0, &[0]), (5, &[5])]);
    let after: Stacks = (1, &[(0, &[5, 0]), (5, &[5])]);
    start_in((&Z, 6), from, (5, 0), ([5, 1, AFFINITY], 0), after);
}

#[test]
fn six_finds_no_screen_of_affinity_0_apart() {
    for screen in [1, 2] {
        // A task of its own root, by which 8 finds it.
        let own = [screen];
        let from: Stacks = (2, &[(4, &[4]), (0, &[0]), (screen, &own)]);
        let moved: Stacks = (3, &[(screen, &own), (4, &[4]), (0, &[0])]);
        start_in((&Z, 8), from, (screen, 0), ([15, 3, ROOT], 0), moved);
        let made: Tasks = &[(screen, &own), (4, &[4]), (0, &[0]), (screen, &own)];
        for flags in all_flags() {
            let rule = if flags & MULTIPLE_TASK != 0 { 11 } else { 18 };
            let reason = ([rule, 0, NONE], 0);
            start_in((&Z, 6), from, (screen, flags), reason, (3, made));
        }
    }
    // Nor the main screen, if it has none.
    let mut table = Z;
    table[3] = 0;
    let from: Stacks = (1, &[(0, &[0])]);
    let made: Stacks = (2, &[(0, &[0]), (0, &[0])]);
    let start = (0, NEW_TASK | SINGLE_TOP);
    start_in((&table, 6), from, start, ([18, 0, NONE], 0), made);
    start_in((&table, 8), from, start, ([16, 1, ROOT], 0), from);
}

#[test]
fn six_has_no_r15() {
    // P6: by affinity the same task, and pushed.
    let from: Stacks = (2, &[(5, &[1, 5]), (0, &[0])]);
    let pushed: Stacks = (2, &[(5, &[5, 1, 5]), (0, &[0])]);
    start_in((&T, 6), from, (5, NEW_TASK), ([17, 1, AFFINITY], 0), pushed);
    for edition in [7, 8] {
        start_in((&T, edition), from, (5, NEW_TASK), ([15, 1, ROOT], 0), from);
    }
    // With STP where it is on top.
    let from: Stacks = (2, &[(5, &[5]), (0, &[0])]);
    let start = (5, NEW_TASK | SINGLE_TOP);
    start_in((&T, 6), from, start, ([16, 1, AFFINITY], 0), from);
    start_in((&T, 8), from, start, ([15, 1, ROOT], 0), from);
    // Another task of the affinity stands before that of the root.
    let from: Stacks = (0, &[(0, &[0]), (1, &[1])]);
    let first: Stacks = (0, &[(0, &[1, 0]), (1, &[1])]);
    let moved: Stacks = (0, &[(1, &[1]), (0, &[0])]);
    start_in((&T, 6), from, (1, NEW_TASK), ([17, 1, AFFINITY], 0), first);
    start_in((&T, 8), from, (1, NEW_TASK), ([15, 2, ROOT], 0), moved);
    // R12 to R14 by affinity, the main task too.
    let from: Stacks = (2, &[(5, &[5]), (0, &[2, 0])]);
    let one: Stacks = (1, &[(0, &[0]), (5, &[5])]);
    let pushed: Stacks = (1, &[(0, &[1, 2, 0]), (5, &[5])]);
    let clear = NEW_TASK | CLEAR_TOP;
    let start = (0, NEW_TASK | CLEAR_TASK);
    start_in((&T, 6), from, start, ([12, 2, AFFINITY], 2), one);
    start_in((&T, 6), from, (0, clear), ([13, 2, AFFINITY], 1), one);
    start_in((&T, 6), from, (1, clear), ([14, 2, AFFINITY], 0), pushed);
}

#[test]
fn six_seeks_single_instance_screens_by_root() {
    let there: Stacks = (1, &[(0, &[0]), (4, &[4])]);
    let moved: Stacks = (2, &[(4, &[4]), (0, &[0])]);
    let gone: Stacks = (1, &[(0, &[0])]);
    for flags in all_flags() {
        start_in((&T, 6), there, (4, flags), ([1, 2, ROOT], 0), moved);
        start_in((&T, 6), gone, (4, flags), ([2, 0, NONE], 0), moved);
    }
    // P4: a task of such a root is not found by affinity.
    let from: Stacks = (3, &[(4, &[4]), (3, &[3]), (0, &[1, 0])]);
    let after: Stacks = (1, &[(0, &[1, 1, 0]), (4, &[4]), (3, &[3])]);
    start_in((&T, 6), from, (1, 0), ([17, 3, AFFINITY], 0), after);
}

/// Plays starts from launch, each with the stacks that it leads to.
fn trace(table: &[u8], edition: u8, steps: &[(u8, u32, usize, Tasks)]) {
    let mut player = Player::open(&mut &table[..]).unwrap().unwrap();
    player.record(&[1, edition, 0, 0, 0, 0]);
    for &(screen, flags, main, tasks) in steps {
        let record = [&[2, screen][..], &flags.to_be_bytes()].concat();
        assert_eq!(player.record(&record).answer.refusal, 0);
        let after: Session = session_in(edition, main, tasks);
        assert_eq!(
            player.session, after,
            "edition {edition}, start of {screen}"
        );
    }
}

#[test]
fn printed_traces() {
    // Android 6.0.1: the second start of 0 joins the main task.
    let table = [4, 0, 0, 1, 1, 1, 2, 2, 3, 1];
    for edition in [6, 7, 8] {
        let steps: [(u8, u32, usize, Tasks); 6] = [
            (0, 0, 1, &[(0, &[0, 0])]),
            (1, 0, 1, &[(0, &[1, 0, 0])]),
            (1, 0, 1, &[(0, &[1, 0, 0])]),
            (2, 0, 2, &[(2, &[2]), (0, &[1, 0, 0])]),
            (3, 0, 3, &[(3, &[3]), (2, &[2]), (0, &[1, 0, 0])]),
            (0, 0, 1, &[(0, &[0, 1, 0, 0]), (3, &[3]), (2, &[2])]),
        ];
        trace(&table, edition, &steps);
    }
    // A main screen that is single-instance: back to 1 by root, or not.
    let table = [2, 0, 3, 1, 0, 1];
    let twice: [(u8, &[u8]); 2] = [(1, &[1, 1]), (0, &[0])];
    let once: [(u8, &[u8]); 2] = [(1, &[1]), (0, &[0])];
    for (edition, last) in [(6, &twice), (7, &once), (8, &once)] {
        let steps: [(u8, u32, usize, Tasks); 3] = [
            (1, NEW_TASK, 2, &once),
            (0, 0, 1, &[(0, &[0]), (1, &[1])]),
            (1, NEW_TASK, 2, last),
        ];
        trace(&table, edition, &steps);
    }
}

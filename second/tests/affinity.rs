//! Affinity 0 is no affinity: "a screen of affinity 0 is never found by affinity,
//! nor is a task whose root has affinity 0. By root nothing changes." The numbers
//! and sessions are read from the paper's rules by hand.

mod common;

use second::play::Player;
use second::random::Random;
use second::table::{
    flag_word, CLEAR_TASK, CLEAR_TOP, MULTIPLE_TASK, NEW_TASK, REORDER_TO_FRONT, SINGLE_TOP,
};
use second::{calls, Session};

use common::{session, AFFINITY, NONE, ROOT};

/// Two screens of each mode with affinity 0: 1 and 2 standard, 3 and 4 single-top,
/// 5 and 6 single-task, 7 and 8 single-instance. With affinity 1: 0, standard and
/// main, 9 standard, 10 single-task, 11 single-instance. With affinity 255: 12
/// standard, 13 single-task.
const TABLE: [u8; 30] = [
    14, 0, 0, 1, 0, 0, 0, 0, 1, 0, 1, 0, 2, 0, 2, 0, 3, 0, 3, 0, 0, 1, 2, 1, 3, 1, 0, 255, 2, 255,
];

/// The same, where the main screen is 1 and has affinity 0.
const MAIN_OF_0: [u8; 30] = {
    let mut table = TABLE;
    table[1] = 1;
    table
};

/// A start has this reason, rule, place and found by, and leaves this session.
fn start_in(table: &[u8], from: &Session, start: (u8, u32), reason: [u8; 3], after: &Session) {
    let (screen, flags) = start;
    let [rule, place, found] = reason;
    let told = calls::why(table, from, screen, flags);
    assert_eq!(
        told.numbers(),
        [0, rule, place, found],
        "start of {screen}, flags {flags:08x}"
    );
    let mut now = from.clone();
    assert_eq!(calls::start(table, &mut now, screen, flags).refusal, 0);
    assert_eq!(&now, after, "start of {screen}, flags {flags:08x}");
}

fn start(from: &Session, screen: u8, flags: u32, reason: [u8; 3], after: &Session) {
    start_in(&TABLE, from, (screen, flags), reason, after);
}

fn finish(from: &Session, screen: u8, flags: u32, after: &Session) {
    let mut now = from.clone();
    let answer = calls::finishing_start(&TABLE, &mut now, screen, flags);
    assert_eq!(answer.refusal, 0);
    assert_eq!(&now, after, "start of {screen}, flags {flags:08x}");
}

/// All 64 sets of the six flags that choose rules.
fn all_flags() -> impl Iterator<Item = u32> {
    (0..64).map(flag_word)
}

#[test]
fn standard_and_single_top() {
    // Two tasks' roots, 1 and 3, have affinity 0, and so do 2 and 4.
    let from = session(3, &[(1, &[1]), (3, &[3]), (0, &[0])]);
    for screen in [2, 4] {
        let after = session(4, &[(screen, &[screen]), (1, &[1]), (3, &[3]), (0, &[0])]);
        for flags in all_flags().filter(|flags| flags & NEW_TASK != 0) {
            let rule = if flags & MULTIPLE_TASK != 0 { 11 } else { 18 };
            start(&from, screen, flags, [rule, 0, NONE], &after);
        }
    }
    // Nor where the task holds the screen, or has it on top.
    let from = session(1, &[(0, &[0]), (1, &[2, 4, 1])]);
    for screen in [2, 4] {
        let after = session(2, &[(screen, &[screen]), (0, &[0]), (1, &[2, 4, 1])]);
        for more in [0, SINGLE_TOP, CLEAR_TOP, CLEAR_TASK] {
            start(&from, screen, NEW_TASK | more, [18, 0, NONE], &after);
        }
    }
}

#[test]
fn started_by_a_single_instance_screen() {
    let from = session(3, &[(7, &[7]), (1, &[1]), (0, &[0])]);
    for screen in [2, 4] {
        let after = session(4, &[(screen, &[screen]), (7, &[7]), (1, &[1]), (0, &[0])]);
        for flags in all_flags() {
            let rule = if flags & MULTIPLE_TASK != 0 { 11 } else { 18 };
            start(&from, screen, flags, [rule, 0, NONE], &after);
        }
    }
}

#[test]
fn single_task() {
    // The front task holds 5, and its root has affinity 0.
    let from = session(2, &[(1, &[5, 1]), (0, &[0])]);
    let after = session(3, &[(5, &[5]), (1, &[5, 1]), (0, &[0])]);
    for flags in all_flags() {
        start(&from, 5, flags, [6, 0, NONE], &after);
    }
    // Two single-task screens of affinity 0 get a task each.
    let from = after;
    let after = session(4, &[(6, &[6]), (5, &[5]), (1, &[5, 1]), (0, &[0])]);
    for flags in all_flags() {
        start(&from, 6, flags, [6, 0, NONE], &after);
    }
}

#[test]
fn single_instance() {
    let from = session(2, &[(1, &[1]), (0, &[0])]);
    let there = session(3, &[(7, &[7]), (1, &[1]), (0, &[0])]);
    let behind = session(2, &[(1, &[1]), (0, &[0]), (7, &[7])]);
    let both = session(4, &[(8, &[8]), (7, &[7]), (1, &[1]), (0, &[0])]);
    for flags in all_flags() {
        start(&from, 7, flags, [2, 0, NONE], &there);
        start(&there, 8, flags, [2, 0, NONE], &both);
        start(&there, 7, flags, [1, 1, ROOT], &there);
        start(&behind, 7, flags, [1, 3, ROOT], &there);
    }
}

#[test]
fn by_root_nothing_changes() {
    // The task of 1 is found by root, behind another of affinity 0.
    let from = session(2, &[(2, &[2]), (0, &[0]), (1, &[2, 1])]);
    let moved = session(3, &[(1, &[2, 1]), (2, &[2]), (0, &[0])]);
    let cleared = session(3, &[(1, &[1]), (2, &[2]), (0, &[0])]);
    for more in [0, SINGLE_TOP, REORDER_TO_FRONT] {
        start(&from, 1, NEW_TASK | more, [15, 3, ROOT], &moved);
    }
    start(&from, 1, NEW_TASK | CLEAR_TOP, [13, 3, ROOT], &cleared);
    start(&from, 1, NEW_TASK | CLEAR_TASK, [12, 3, ROOT], &cleared);
    // Its root has closed.
    let from = session(1, &[(0, &[0]), (3, &[1])]);
    let pushed = session(2, &[(3, &[3, 1]), (0, &[0])]);
    let moved = session(2, &[(3, &[1]), (0, &[0])]);
    start(&from, 3, NEW_TASK | CLEAR_TOP, [14, 2, ROOT], &pushed);
    start(&from, 3, NEW_TASK, [15, 2, ROOT], &moved);
    // The first of two tasks of one root.
    let from = session(0, &[(1, &[1]), (2, &[2]), (2, &[1, 2])]);
    let moved = session(0, &[(2, &[2]), (1, &[1]), (2, &[1, 2])]);
    start(&from, 2, NEW_TASK, [15, 2, ROOT], &moved);
}

#[test]
fn a_single_task_screen_by_root() {
    let from = session(2, &[(6, &[6]), (0, &[0]), (5, &[1, 5])]);
    let after = session(3, &[(5, &[5]), (6, &[6]), (0, &[0])]);
    for flags in all_flags() {
        let rule = if flags & CLEAR_TASK != 0 { 3 } else { 4 };
        start(&from, 5, flags, [rule, 3, ROOT], &after);
    }
    // Its root has closed.
    let from = session(1, &[(0, &[0]), (5, &[1])]);
    let after = session(2, &[(5, &[5, 1]), (0, &[0])]);
    start(&from, 5, 0, [5, 2, ROOT], &after);
    start(&from, 5, NEW_TASK | MULTIPLE_TASK, [5, 2, ROOT], &after);
}

#[test]
fn a_main_task_of_affinity_0() {
    // By root it is found as before, and it is the main task: no R15.
    let from = session(2, &[(2, &[2]), (1, &[3, 1])]);
    let after = session(1, &[(1, &[1, 3, 1]), (2, &[2])]);
    start_in(&MAIN_OF_0, &from, (1, NEW_TASK), [17, 2, ROOT], &after);
    let from = session(2, &[(2, &[2]), (1, &[1])]);
    let after = session(1, &[(1, &[1]), (2, &[2])]);
    let single = NEW_TASK | SINGLE_TOP;
    start_in(&MAIN_OF_0, &from, (1, single), [16, 2, ROOT], &after);
    // By affinity it is not.
    let from = session(1, &[(1, &[1])]);
    for (screen, rule) in [(2, 18), (3, 18), (5, 6)] {
        let after = session(2, &[(screen, &[screen]), (1, &[1])]);
        let reason = [rule, 0, NONE];
        start_in(&MAIN_OF_0, &from, (screen, NEW_TASK), reason, &after);
    }
}

#[test]
fn affinity_1_and_255_are_affinities() {
    let from = session(3, &[(1, &[1]), (11, &[11]), (0, &[0]), (12, &[12])]);
    let main = session(1, &[(0, &[9, 0]), (1, &[1]), (11, &[11]), (12, &[12])]);
    start(&from, 9, NEW_TASK, [17, 3, AFFINITY], &main);
    let main = session(1, &[(0, &[10, 0]), (1, &[1]), (11, &[11]), (12, &[12])]);
    start(&from, 10, 0, [5, 3, AFFINITY], &main);
    let last = session(4, &[(12, &[13, 12]), (1, &[1]), (11, &[11]), (0, &[0])]);
    start(&from, 13, 0, [5, 4, AFFINITY], &last);
}

#[test]
fn it_is_the_roots_affinity() {
    // The root has affinity 1; what stands in the task counts for nothing.
    let from = session(1, &[(0, &[1, 0])]);
    let after = session(2, &[(2, &[2]), (0, &[1, 0])]);
    start(&from, 2, NEW_TASK, [18, 0, NONE], &after);
    // The root has affinity 0, and 0, 9 and 10 have affinity 1.
    let from = session(0, &[(1, &[0, 1])]);
    let after = session(0, &[(9, &[9]), (1, &[0, 1])]);
    start(&from, 9, NEW_TASK, [18, 0, NONE], &after);
    let after = session(0, &[(10, &[10]), (1, &[0, 1])]);
    start(&from, 10, 0, [6, 0, NONE], &after);
}

#[test]
fn not_apart_nothing_is_sought() {
    let from = session(2, &[(1, &[1]), (0, &[0])]);
    let pushed = session(2, &[(1, &[2, 1]), (0, &[0])]);
    start(&from, 2, 0, [10, 0, NONE], &pushed);
    start(&from, 1, SINGLE_TOP, [7, 0, NONE], &from);
    start(&pushed, 1, CLEAR_TOP, [8, 0, NONE], &from);
    let lifted = session(2, &[(1, &[1, 2]), (0, &[0])]);
    start(&pushed, 1, REORDER_TO_FRONT, [9, 0, NONE], &lifted);
}

#[test]
fn finishing_starts() {
    // The caller's task goes; the new one is the started screen's alone.
    let from = session(2, &[(1, &[1]), (0, &[0])]);
    finish(&from, 2, NEW_TASK, &session(2, &[(2, &[2]), (0, &[0])]));
    finish(&from, 5, 0, &session(2, &[(5, &[5]), (0, &[0])]));
    // By root: R15 moves the task of 2, R4 clears that of 5.
    let from = session(2, &[(1, &[1]), (0, &[0]), (2, &[3, 2])]);
    finish(&from, 2, NEW_TASK, &session(2, &[(2, &[3, 2]), (0, &[0])]));
    let from = session(2, &[(1, &[1]), (0, &[0]), (5, &[3, 5])]);
    finish(&from, 5, 0, &session(2, &[(5, &[5]), (0, &[0])]));
}

/// The refusal of a start, or 0.
fn refusal(from: &Session, screen: u8, flags: u32) -> u8 {
    let mut now = from.clone();
    let refusal = calls::start(&TABLE, &mut now, screen, flags).refusal;
    assert_eq!(calls::why(&TABLE, from, screen, flags).refusal, refusal);
    assert!(refusal == 0 || &now == from);
    refusal
}

#[test]
fn space() {
    // A new task is needed, with 16 tasks of affinity 0 there.
    let tasks = session(0, &[(1, &[1u8] as &[u8]); 16]);
    for (screen, flags) in [(2, NEW_TASK), (4, NEW_TASK | CLEAR_TASK), (5, 0), (7, 0)] {
        assert_eq!(refusal(&tasks, screen, flags), 23);
    }
    assert_eq!(refusal(&tasks, 1, NEW_TASK), 0); // R15
    assert_eq!(refusal(&tasks, 2, 0), 0); // R10

    // Two tasks of affinity 0 are full: that matters only where they are found
    // by root.
    let high = session(1, &[(0, &[0]), (5, &[1; 32]), (1, &[2; 32])]);
    for (screen, flags) in [(2, NEW_TASK), (4, NEW_TASK | CLEAR_TOP), (6, 0)] {
        assert_eq!(refusal(&high, screen, flags), 0); // R18, R18, R6
    }
    assert_eq!(refusal(&high, 5, 0), 24); // R5
    assert_eq!(refusal(&high, 1, NEW_TASK | CLEAR_TOP), 24); // R14
}

#[test]
fn what_gathered_before_is_still_sound() {
    // Soundness does not speak of affinity.
    let gathered = session(2, &[(1, &[5, 3, 2, 1]), (0, &[0])]);
    assert_eq!(calls::look(&TABLE, &gathered).refusal, 0);
    let mut now = Session::fresh();
    let answer = calls::restore(&TABLE, &mut now, &gathered.image());
    assert_eq!(answer.refusal, 0);
    assert_eq!(now, gathered);
}

#[test]
fn seat_maps_played() {
    let mut player = Player::open(&mut &TABLE[..]).unwrap().unwrap();
    assert!(player.record(&[1, 0, 0, 0, 0, 0]).reason.is_none());
    // 5 and 6 get a task each, and 2 with NTK; started again, each is found by
    // root, with MTK too where it is single-task.
    let records: [([u8; 6], [u8; 4]); 6] = [
        ([2, 5, 0, 0, 0, 0], [0, 6, 0, NONE]),
        ([2, 6, 0, 0, 0, 0], [0, 6, 0, NONE]),
        ([2, 5, 0, 0, 0, 0], [0, 4, 2, ROOT]),
        ([2, 2, 0x10, 0, 0, 0], [0, 18, 0, NONE]),
        ([2, 5, 0x18, 0, 0, 0], [0, 4, 2, ROOT]),
        ([2, 2, 0x10, 0, 0, 0], [0, 15, 2, ROOT]),
    ];
    for (record, reason) in records {
        let told = player.record(&record).reason;
        assert_eq!(told.map(|told| told.numbers()), Some(reason));
    }
    let after = session(4, &[(2, &[2]), (5, &[5]), (6, &[6]), (0, &[0])]);
    assert_eq!(player.session, after);
}

#[test]
fn a_third_of_the_affinities_of_random_tables() {
    let mut random = Random::new(1);
    for affinities in [1, 2, 255] {
        let mut screens = [0u32; 4];
        let mut zeros = [0u32; 4];
        for _ in 0..1000 {
            let table = random.table(64, affinities, &[1, 1, 1, 1]);
            for pair in table[2..].chunks(2) {
                screens[usize::from(pair[0])] += 1;
                zeros[usize::from(pair[0])] += u32::from(pair[1] == 0);
                assert!(pair[1] <= affinities);
            }
        }
        for mode in 0..4 {
            assert!((3 * zeros[mode]).abs_diff(screens[mode]) < screens[mode] / 10);
        }
    }
}

//! The flag chart, by hand from request 9.

mod common;

use std::collections::BTreeMap;
use std::process::Command;

use common::session;
use second::chart::{entries, entry, Asked, ENTRIES};
use second::random::Random;
use second::table::{
    flag_word, CLEAR_TASK, CLEAR_TOP, MULTIPLE_TASK, NEW_TASK, NO_HISTORY, REORDER_TO_FRONT,
    SINGLE_TOP,
};
use second::{Mode, Table};

/// How often each value occurs.
const TIMES: [(u8, usize); 14] = [
    (1, 128),
    (2, 64),
    (3, 4),
    (4, 96),
    (5, 6),
    (11, 12),
    (13, 18),
    (19, 8),
    (21, 24),
    (27, 24),
    (34, 64),
    (37, 48),
    (67, 4),
    (75, 12),
];

#[test]
fn how_often_each_value_occurs() {
    let mut times = BTreeMap::new();
    for entry in entries() {
        *times.entry(entry).or_insert(0) += 1;
    }
    assert_eq!(Vec::from_iter(times), TIMES);
}

#[test]
fn entries_by_hand() {
    let examples = [
        // Standard, not apart: no flag, STP, CTP, RTF, both, CTK and MTK.
        (0, 3),
        (16, 11),
        (4, 19),
        (2, 67),
        (6, 19),
        (1, 3),
        (8, 3),
        (18, 75),
        // Apart by NTK: no other flag, MTK, CTK, CTP, CTP and CTK, STP, STP and CTP.
        (32, 5),
        (40, 4),
        (33, 37),
        (36, 21),
        (37, 37),
        (48, 13),
        (52, 21),
        (34, 5),
        // Apart by the caller.
        (64, 5),
        (72, 4),
        // Single-top is single: not apart, with CTP, with RTF; apart, with CTP.
        (128, 11),
        (132, 27),
        (130, 75),
        (160, 13),
        (164, 21),
        (192, 13),
        // Single-task: CTK alone is looked at.
        (256, 2),
        (257, 34),
        (256 + 64 + 63, 34),
        (256 + 62, 2),
        // Single-instance: nothing is.
        (384, 1),
        (511, 1),
    ];
    for (index, expected) in examples {
        assert_eq!(entry(index), Some(expected), "at {index}");
    }
}

#[test]
fn there_are_512() {
    assert_eq!(entries().len(), ENTRIES);
    for index in [512, 513, 1023, 65_535] {
        assert_eq!(entry(index), None);
    }
}

#[test]
fn indices_have_their_parts() {
    let asked = |mode, apart_caller, flags| Asked {
        mode,
        apart_caller,
        flags,
    };
    for (flags, index) in [
        (NEW_TASK, 32),
        (SINGLE_TOP, 16),
        (MULTIPLE_TASK, 8),
        (CLEAR_TOP, 4),
        (REORDER_TO_FRONT, 2),
        (CLEAR_TASK, 1),
        (NO_HISTORY, 0),
    ] {
        assert_eq!(asked(Mode::Standard, false, flags).index(), index);
        assert_eq!(asked(Mode::SingleTask, true, flags).index(), 320 + index);
    }
    for index in 0..ENTRIES as u16 {
        let asked = Asked::at(index).expect("there is an entry");
        assert_eq!(asked.index(), index);
    }
}

/// The class of a rule, by the request's words.
fn class_of(rule: u8) -> u8 {
    match rule {
        1 | 2 => 1,
        3..=6 => 2,
        7..=10 => 3,
        11 => 4,
        _ => 5,
    }
}

/// The class of an entry is that of the rule that a start is done by.
#[test]
fn classes_are_those_of_the_rules() {
    let mut random = Random::new(9);
    let mut reached = [false; ENTRIES];
    for _ in 0..400 {
        let bytes = random.table(6, 2, &[1, 1, 1, 1]);
        let table = Table::parse(&bytes).unwrap();
        let front = random.byte(6);
        let behind = random.byte(6);
        let session = session(0, &[(front, &[front]), (behind, &[behind])]);
        for (b, set) in (0..6).flat_map(|b| (0..64).map(move |set| (b, set))) {
            let asked = Asked {
                mode: table.mode(b),
                apart_caller: table.is_single_instance(front),
                flags: flag_word(set),
            };
            let rule = session.decide(&table, b, asked.flags).rule as u8;
            assert_eq!(asked.entry() % 8, class_of(rule), "{asked:?}, R{rule}");
            reached[usize::from(asked.index())] = true;
        }
    }
    assert_eq!(reached, [true; ENTRIES]);
}

#[test]
fn the_program_prints_them() {
    let output = Command::new(env!("CARGO_BIN_EXE_chart")).output().unwrap();
    let text = String::from_utf8(output.stdout).unwrap();
    let printed: Vec<u8> = text.lines().map(|line| line.parse().unwrap()).collect();
    assert_eq!(printed, entries());
    assert!(text.starts_with("3\n3\n67\n67\n19\n") && text.ends_with("\n1\n"));
}

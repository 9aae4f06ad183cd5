//! The edition of a session: which one launch names, how long it is kept, what
//! holds another, and how the image carries it.

mod common;

use second::table::{NEW_TASK, SINGLE_TOP};
use second::{calls, play, Answer, Session};

use common::{session_in, EMPTY, T};

const EDITIONS: [u8; 3] = [6, 7, 8];

/// The bytes that are no edition, 0 too.
fn other_bytes() -> impl Iterator<Item = u8> {
    (0..=255).filter(|byte| !EDITIONS.contains(byte))
}

/// 3:[3] 0:[1,0], as in P10.
fn small(edition: u8) -> Session {
    session_in(edition, 2, &[(3, &[3]), (0, &[1, 0])])
}

fn refused(refusal: u8) -> [u8; 9] {
    [refusal, 0, 0, 0, 0, 0, 0, 0, 0]
}

#[test]
fn launch_names_it() {
    for (byte, edition) in [(0, 8), (6, 6), (7, 7), (8, 8)] {
        let mut now = Session::fresh();
        let answer = calls::launch(&T, &mut now, byte);
        assert_eq!(answer.numbers(), [0, 0, 0, 1, 1, 1, 0, edition, 0]);
        assert_eq!(now, session_in(edition, 1, &[(0, &[0])]));
    }
    for byte in other_bytes().filter(|&byte| byte != 0) {
        let mut now = Session::fresh();
        assert_eq!(calls::launch(&T, &mut now, byte).numbers(), refused(30));
        assert_eq!(now, Session::fresh());
    }
}

#[test]
fn launch_is_refused_by_22_before_30() {
    for edition in EDITIONS {
        for byte in 0..=255 {
            let mut now = small(edition);
            assert_eq!(calls::launch(&T, &mut now, byte).numbers(), refused(22));
            assert_eq!(now, small(edition));
        }
    }
}

#[test]
fn it_is_kept_until_the_session_is_empty() {
    for edition in EDITIONS {
        let mut now = Session::fresh();
        let told = |answer: Answer| (answer.refusal, answer.edition);
        assert_eq!(told(calls::launch(&T, &mut now, edition)), (0, edition));
        for (screen, flags) in [(1, 0), (3, 0), (4, NEW_TASK), (1, 0)] {
            assert_eq!(
                told(calls::start(&T, &mut now, screen, flags)),
                (0, edition)
            );
        }
        assert_eq!(
            told(calls::finishing_start(&T, &mut now, 2, 0)),
            (0, edition)
        );
        assert_eq!(told(calls::look(&T, &now)), (0, edition));
        while now.tasks.len() > 1 || now.tasks[0].height() > 1 {
            assert_eq!(told(calls::back(&T, &mut now)), (0, edition));
        }
        let last = calls::back(&T, &mut now);
        assert_eq!(last.numbers(), [0, 0, 0, 0, 0, 0, 1, 8, 0]);
        assert_eq!(now, Session::fresh());
        assert_eq!(calls::look(&T, &now).numbers(), EMPTY);
        // What was kept before does not count.
        for (byte, next) in [(0, 8), (6, 6), (7, 7)] {
            let mut again = now.clone();
            assert_eq!(told(calls::launch(&T, &mut again, byte)), (0, next));
        }
    }
}

#[test]
fn a_finishing_start_that_empties_the_session() {
    for edition in EDITIONS {
        // P9, by R7, and by R1.
        for (main, root, flags) in [(1, 0, NEW_TASK | SINGLE_TOP), (1, 0, SINGLE_TOP), (0, 4, 0)] {
            let mut now = session_in(edition, main, &[(root, &[root])]);
            let answer = calls::finishing_start(&T, &mut now, root, flags);
            assert_eq!(answer.numbers(), [0, 0, 0, 0, 0, 0, 1, 8, 0]);
            assert_eq!(now, Session::fresh());
        }
    }
}

#[test]
fn refused_answers_are_zeros() {
    for edition in EDITIONS {
        let before = small(edition);
        let mut now = before.clone();
        assert_eq!(calls::start(&T, &mut now, 6, 0).numbers(), refused(3));
        assert_eq!(calls::start(&T, &mut now, 1, 1).numbers(), refused(4));
        let answer = calls::finishing_start(&T, &mut now, 6, 0);
        assert_eq!(answer.numbers(), refused(3));
        assert_eq!(calls::restore(&T, &mut now, &[]).numbers(), refused(5));
        assert_eq!(calls::back(&T[..13], &mut now).numbers(), refused(1));
        assert_eq!(now, before);
        let mut high = session_in(edition, 1, &[(0, &[0; 32])]);
        assert_eq!(calls::start(&T, &mut high, 1, 0).numbers(), refused(24));
    }
    let mut empty = Session::fresh();
    assert_eq!(calls::back(&T, &mut empty).numbers(), refused(21));
}

/// Every call from this session is refused by 20 and changes nothing.
fn unsound(before: &Session) {
    let mut now = before.clone();
    for byte in [0, 6, 9] {
        assert_eq!(calls::launch(&T, &mut now, byte).numbers(), refused(20));
    }
    assert_eq!(calls::start(&T, &mut now, 1, 0).numbers(), refused(20));
    let answer = calls::finishing_start(&T, &mut now, 1, 0);
    assert_eq!(answer.numbers(), refused(20));
    assert_eq!(calls::back(&T, &mut now).numbers(), refused(20));
    assert_eq!(calls::look(&T, &now).numbers(), refused(20));
    assert_eq!(calls::save(&T, &now, &mut [0; 600]), (20, 0));
    let image = small(8).image();
    assert_eq!(calls::restore(&T, &mut now, &image).numbers(), refused(20));
    assert_eq!(calls::why(&T, &now, 1, 0).numbers(), [20, 0, 0, 0]);
    assert_eq!(&now, before);
}

#[test]
fn a_held_session_of_another_byte() {
    // 0 stands for 8 in a launch only.
    for edition in other_bytes() {
        unsound(&small(edition));
        unsound(&session_in(edition, 0, &[]));
    }
    for edition in [6, 7] {
        unsound(&session_in(edition, 0, &[]));
    }
    for edition in EDITIONS {
        assert_eq!(calls::look(&T, &small(edition)).refusal, 0);
    }
}

#[test]
fn the_image_carries_it() {
    for edition in EDITIONS {
        let image = [3, 1, 3, 0, 2, 1, 0, 0, 7, 2, 2, edition, 0x42];
        let mut buffer = [0xaa; 16];
        assert_eq!(
            calls::save(&T, &small(edition), &mut buffer),
            (0, image.len())
        );
        assert_eq!(buffer[..13], image);
        assert_eq!(buffer[13..], [0xaa; 3]);
        // Over any session: the edition is the image's.
        for present in [small(6), small(7), small(8), Session::fresh()] {
            let mut now = present;
            let answer = calls::restore(&T, &mut now, &image);
            assert_eq!(answer.numbers(), [0, 3, 3, 1, 2, 2, 0, edition, 0]);
            assert_eq!(now, small(edition));
        }
    }
    let [six, seven, eight] = EDITIONS.map(|edition| small(edition).image());
    assert!(six != seven && seven != eight && six != eight);
}

#[test]
fn images_of_another_byte() {
    let mut cases: Vec<(Vec<u8>, u8)> = Vec::new();
    for edition in other_bytes() {
        let small = [3, 1, 3, 0, 2, 1, 0, 0, 7, 2, 2, edition, 0x42];
        cases.push((small.to_vec(), 5));
        // Empty; and where 6 and 7 would follow.
        cases.push((vec![0, 0, 0, 0, edition, 0x42], 5));
        cases.push((vec![0, 0, 17, 0, edition, 0x42], 5));
        cases.push((vec![0, 0, 0, 1, edition, 0x42], 5));
    }
    for edition in EDITIONS {
        cases.push((vec![0, 0, 17, 0, edition, 0x42], 6));
        cases.push((vec![0, 0, 1, 0, edition, 0x42], 6));
        cases.push((vec![0, 0, 0, 1, edition, 0x42], 7));
        cases.push((vec![0, 0, 0, 0, edition, 0x43], 5));
        cases.push((vec![0, 1, 0, 0, edition, 0x42], 5));
    }
    // The empty image has 8.
    cases.push((vec![0, 0, 0, 0, 6, 0x42], 7));
    cases.push((vec![0, 0, 0, 0, 7, 0x42], 7));
    for (image, refusal) in cases {
        let mut now = small(7);
        let answer = calls::restore(&T, &mut now, &image);
        assert_eq!(answer.numbers(), refused(refusal), "{image:?}");
        assert_eq!(now, small(7));
    }
}

#[test]
fn the_empty_image_over_each_edition() {
    for edition in EDITIONS {
        let mut now = small(edition);
        let answer = calls::restore(&T, &mut now, &[0, 0, 0, 0, 8, 0x42]);
        assert_eq!(answer.numbers(), EMPTY);
        assert_eq!(now, Session::fresh());
    }
}

#[test]
fn the_players_lines() {
    let launch = |edition| [1, edition, 9, 9, 9, 9];
    let (back, look): ([u8; 6], [u8; 6]) = ([4, 9, 9, 9, 9, 9], [5, 9, 9, 9, 9, 9]);
    let mut input = T.to_vec();
    input.extend([look, launch(5), launch(9), launch(6), launch(7)].concat());
    input.extend([look, [2, 1, 0, 0, 0, 0], back, back, look].concat());
    input.extend([launch(0), launch(5), back, launch(7), back].concat());
    let mut output = Vec::new();
    play::play(&input[..], &mut output).unwrap();
    let expected = "5 0 0 0 0 0 0 0 8 0\n1 30 0 0 0 0 0 0 0 0\n1 30 0 0 0 0 0 0 0 0\n\
                    1 0 0 0 1 1 1 0 6 0\n1 22 0 0 0 0 0 0 0 0\n\
                    5 0 0 0 1 1 1 0 6 0\n2 0 1 0 2 1 1 0 6 0\n4 0 0 0 1 1 1 1 6 0\n\
                    4 0 0 0 0 0 0 1 8 0\n5 0 0 0 0 0 0 0 8 0\n\
                    1 0 0 0 1 1 1 0 8 0\n1 22 0 0 0 0 0 0 0 0\n4 0 0 0 0 0 0 1 8 0\n\
                    1 0 0 0 1 1 1 0 7 0\n4 0 0 0 0 0 0 1 8 0\n";
    assert_eq!(String::from_utf8(output).unwrap(), expected);
}

//! Each refusal, the order of the checks, and the player on bad input.

mod common;

use second::table::{ALL_FLAGS, MULTIPLE_TASK, NEW_TASK};
use second::{calls, play, Answer, Session};

use common::{session, T};

/// Every call under this table and from this session gives this refusal and
/// changes nothing.
fn all_refuse(table: &[u8], before: &Session, refusal: u8) {
    let mut now = before.clone();
    let mut buffer = [7; 600];
    let expected = Answer {
        refusal,
        ..Answer::default()
    };
    assert_eq!(calls::launch(table, &mut now, 9), expected);
    assert_eq!(calls::start(table, &mut now, 200, 1), expected);
    assert_eq!(calls::finishing_start(table, &mut now, 200, 1), expected);
    assert_eq!(calls::back(table, &mut now), expected);
    assert_eq!(calls::look(table, &now), expected);
    assert_eq!(calls::save(table, &now, &mut buffer), (refusal, 0));
    assert_eq!(calls::save(table, &now, &mut []), (refusal, 0));
    assert_eq!(calls::restore(table, &mut now, &[]), expected);
    assert_eq!(
        calls::restore(table, &mut now, &[0, 0, 0, 0, 8, 0x42]),
        expected
    );
    assert_eq!(&now, before);
    assert_eq!(buffer, [7; 600]);
}

#[test]
fn refusal_1_and_2() {
    let fresh = Session::fresh();
    let unsound = session(9, &[]);
    let mut long = T.to_vec();
    long.push(0);
    let mut large = vec![0; 2 + 2 * 65];
    large[0] = 65;
    for table in [
        &[] as &[u8],
        &[0],
        &[0, 0],
        &[1],
        &[1, 0, 0],
        &T[..13],
        &long,
        &large,
    ] {
        all_refuse(table, &fresh, 1);
        all_refuse(table, &unsound, 1);
    }
    let mut full = vec![0; 2 + 2 * 64];
    full[0] = 64;
    full[1] = 63;
    assert_eq!(
        calls::launch(&full, &mut Session::fresh(), 0).numbers(),
        [0, 63, 63, 1, 1, 1, 0, 8, 0]
    );
    full[1] = 64;
    for table in [
        &[1u8, 1, 0, 0] as &[u8],
        &[1, 0, 4, 0],
        &[2, 0, 0, 0, 255, 0],
        &full,
    ] {
        all_refuse(table, &fresh, 2);
        all_refuse(table, &unsound, 2);
    }
}

/// Sessions that are not sound under T.
fn unsound() -> Vec<Session> {
    vec![
        session(1, &[]),
        session(2, &[(0, &[0])]),
        session(1, &[(1, &[0])]),     // the main task's root is not main
        session(0, &[(0, &[])]),      // a task of no screens
        session(0, &[(0, &[0; 33])]), // too high
        session(0, &[(0, &[0u8] as &[u8]); 17]), // too many
        session(0, &[(6, &[0])]),     // no such root
        session(0, &[(0, &[6, 0])]),  // no such screen
        session(0, &[(4, &[4, 4])]),  // a single-instance root not alone
        session(0, &[(4, &[0])]),     // nor itself
        session(0, &[(0, &[4, 0])]),  // a single-instance screen elsewhere
        session(0, &[(4, &[4]), (4, &[4])]), // two tasks of one such root
        session(0, &[(3, &[3]), (3, &[1])]), // likewise single-task
    ]
}

#[test]
fn refusal_20() {
    for bad in unsound() {
        all_refuse(&T, &bad, 20);
    }
    // These are sound: a root that is gone, a single-task screen in two tasks.
    for good in [
        session(0, &[(3, &[1])]),
        session(2, &[(5, &[3, 5]), (0, &[3, 0])]),
    ] {
        assert_eq!(calls::look(&T, &good), good.answer(0));
    }
}

/// Starts and finishing starts of this screen with these flags are refused.
fn start_refused(before: &Session, screen: u8, flags: u32, refusal: u8) {
    let mut now = before.clone();
    let expected = [refusal, 0, 0, 0, 0, 0, 0, 0, 0];
    assert_eq!(
        calls::start(&T, &mut now, screen, flags).numbers(),
        expected
    );
    assert_eq!(
        calls::finishing_start(&T, &mut now, screen, flags).numbers(),
        expected
    );
    assert_eq!(&now, before);
}

#[test]
fn refusals_3_4_21_in_order() {
    let fresh = Session::fresh();
    let one = session(1, &[(0, &[0])]);
    for screen in [6, 255] {
        start_refused(&one, screen, 0, 3);
        start_refused(&one, screen, !0, 3);
        start_refused(&fresh, screen, !0, 3);
    }
    for bit in 0..32 {
        let flag = 1u32 << bit;
        if ALL_FLAGS & flag == 0 {
            start_refused(&one, 0, flag, 4);
            start_refused(&one, 0, ALL_FLAGS | flag, 4);
            start_refused(&fresh, 0, flag, 4);
        } else {
            start_refused(&fresh, 0, flag, 21);
        }
    }
    start_refused(&fresh, 0, ALL_FLAGS, 21);
    assert_eq!(
        calls::back(&T, &mut fresh.clone()).numbers(),
        [21, 0, 0, 0, 0, 0, 0, 0, 0]
    );
}

#[test]
fn refusal_22() {
    let mut one = session(1, &[(0, &[0])]);
    assert_eq!(
        calls::launch(&T, &mut one, 0).numbers(),
        [22, 0, 0, 0, 0, 0, 0, 0, 0]
    );
    assert_eq!(one, session(1, &[(0, &[0])]));
}

#[test]
fn refusals_23_and_24() {
    let tasks = session(0, &[(0, &[0u8] as &[u8]); 16]);
    start_refused(&tasks, 1, NEW_TASK | MULTIPLE_TASK, 23);
    let task = session(1, &[(0, &[0; 32])]);
    start_refused(&task, 0, 0, 24);
}

#[test]
fn refusals_of_restore() {
    let cases: [(&[u8], u8); 21] = [
        (&[], 5),
        (&[0, 0, 0, 8, 0x42], 5),
        (&[0, 0, 0, 0, 8, 0x43], 5),
        (&[0, 0, 0, 0, 9, 0x42], 5),
        (&[0, 1, 0, 0, 8, 0x42], 5),
        (&[0, 0, 0, 0, 0, 8, 0x42], 5),
        (&[1, 0, 0, 0, 8, 0x42], 5),
        (&[0, 0, 17, 0, 8, 0x42], 6),
        (&[0, 0, 17, 99, 8, 0x42], 6),
        (&[0, 0, 1, 1, 8, 0x42], 6),
        (&[0, 0, 1, 0, 8, 0x42], 6),
        (&[0, 0, 2, 0, 0, 8, 0x42], 5),
        (&[0, 0, 0, 2, 1, 0, 8, 0x42], 6),       // height 0
        (&[0, 2, 0, 0, 3, 1, 0, 8, 0x42], 6),    // cut
        (&[0, 1, 0, 0, 0, 4, 1, 0, 8, 0x42], 6), // one byte too many
        (&[0, 1, 0, 0, 3, 0, 0, 8, 0x42], 6),    // tasks left over
        (&[0, 1, 0, 0, 3, 1, 2, 8, 0x42], 7),    // m above n
        (&[6, 1, 0, 0, 3, 1, 0, 8, 0x42], 7),    // no such root
        (&[0, 1, 6, 0, 3, 1, 0, 8, 0x42], 7),    // no such screen
        (&[1, 1, 0, 0, 3, 1, 1, 8, 0x42], 7),    // the main task's root
        (&[0, 0, 0, 1, 8, 0x42], 7),             // m of an empty session
    ];
    for (image, refusal) in cases {
        let mut now = session(1, &[(0, &[0])]);
        let answer = calls::restore(&T, &mut now, image);
        assert_eq!(
            answer.numbers(),
            [refusal, 0, 0, 0, 0, 0, 0, 0, 0],
            "{image:?}"
        );
        assert_eq!(now, session(1, &[(0, &[0])]));
    }
    // A height of 33, with all its screens there.
    let mut high = vec![0, 33];
    high.extend([0; 33]);
    high.extend([0, 35, 1, 0, 8, 0x42]);
    assert_eq!(calls::restore(&T, &mut Session::fresh(), &high).refusal, 6);
    // Images of the sessions that are not sound but have the right shape.
    for bad in unsound() {
        let shaped = bad.tasks.len() <= 16
            && bad
                .tasks
                .iter()
                .all(|task| (1..=32).contains(&task.height()));
        let refusal = if shaped { 7 } else { 6 };
        let answer = calls::restore(&T, &mut Session::fresh(), &bad.image());
        assert_eq!(answer.refusal, refusal);
    }
}

#[test]
fn refusal_8() {
    let one = session(1, &[(0, &[0])]);
    let mut buffer = [7; 8];
    assert_eq!(calls::save(&T, &one, &mut buffer), (8, 0));
    assert_eq!(buffer, [7; 8]);
    assert_eq!(calls::save(&T, &Session::fresh(), &mut [0; 5]), (8, 0));
}

fn play(input: &[u8]) -> String {
    let mut output = Vec::new();
    play::play(input, &mut output).unwrap();
    String::from_utf8(output).unwrap()
}

#[test]
fn player_with_a_bad_table() {
    for table in [
        &[] as &[u8],
        &[0],
        &[65],
        &[255, 0, 0, 0],
        &[1],
        &[1, 0, 0],
        &T[..13],
    ] {
        assert_eq!(play(table), "0 1 0 0 0 0 0 0 0 0\n");
    }
    let mut input = vec![0; 100];
    assert_eq!(play(&input), "0 1 0 0 0 0 0 0 0 0\n");
    input[0] = 65;
    assert_eq!(play(&input), "0 1 0 0 0 0 0 0 0 0\n");
    assert_eq!(play(&T), "");
    let bad_main = [1, 1, 0, 0, 1, 0, 0, 0, 0, 0, 0, 0, 0, 0, 0, 0, 4, 0];
    assert_eq!(
        play(&bad_main),
        "1 2 0 0 0 0 0 0 0 0\n0 9 0 0 0 0 0 0 0 0\n4 9 0 0 0 0 0 0 0 0\n"
    );
    let bad_mode = [1, 0, 4, 0, 5, 0, 0, 0, 0, 0, 2, 9, 9, 9, 9, 9];
    assert_eq!(
        play(&bad_mode),
        "5 2 0 0 0 0 0 0 0 0\n2 2 0 0 0 0 0 0 0 0\n"
    );
}

#[test]
fn player_with_bad_records() {
    let mut input = T.to_vec();
    input.extend([1, 8, 9, 9, 9, 9]);
    input.extend([6, 0, 0, 0, 0, 0]);
    input.extend([255, 1, 2, 3, 4, 5]);
    input.extend([5, 9, 9, 9, 9, 9]);
    input.extend([1, 0, 0, 0, 0, 0]);
    input.extend([2, 6, 255, 0, 0, 0]);
    input.extend([3, 5, 0, 0, 0, 1]);
    let expected = "1 0 0 0 1 1 1 0 8 0\n6 9 0 0 0 0 0 0 0 0\n255 9 0 0 0 0 0 0 0 0\n\
                    5 0 0 0 1 1 1 0 8 0\n1 22 0 0 0 0 0 0 0 0\n2 3 0 0 0 0 0 0 0 0\n\
                    3 4 0 0 0 0 0 0 0 0\n";
    assert_eq!(play(&input), expected);
    for length in 1..6 {
        let mut cut = input.clone();
        cut.extend(&[4, 0, 0, 0, 0, 0][..length]);
        assert_eq!(play(&cut), format!("{expected}4 9 0 0 0 0 0 0 0 0\n"));
    }
}

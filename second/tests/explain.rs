//! The player's lines with the reasons under the starts.

mod common;

use second::play;

use common::T;

fn explain(table: &[u8], records: &[&[u8]]) -> String {
    let mut output = Vec::new();
    let input = [table, &records.concat()].concat();
    play::explain(&input[..], &mut output).unwrap();
    String::from_utf8(output).unwrap()
}

#[test]
fn the_papers_example() {
    let back: [u8; 6] = [4, 0, 0, 0, 0, 0];
    let records: [&[u8]; 8] = [
        &[1, 0, 0, 0, 0, 0],
        &[2, 1, 0, 0, 0, 0],
        &[2, 3, 0, 0, 0, 0],
        &[3, 0, 0x10, 0, 0, 0],
        &back,
        &back,
        &back,
        &back,
    ];
    // R10: pushed. R6: no task of 3 or of its affinity. R17: the main task, found
    // by root at place 2.
    let expected = "1 0 0 0 1 1 1 0 8 0\n\
                    2 0 1 0 2 1 1 0 8 0\n  0 10 0 0\n\
                    2 0 3 3 1 2 2 0 8 0\n  0 6 0 0\n\
                    3 0 0 0 3 1 1 1 8 0\n  0 17 2 1\n\
                    4 0 1 0 2 1 1 1 8 0\n4 0 0 0 1 1 1 1 8 0\n4 0 0 0 0 0 0 1 8 0\n4 21 0 0 0 0 0 0 0 0\n";
    assert_eq!(explain(&T, &records), expected);
}

#[test]
fn by_affinity_and_refused() {
    let records: [&[u8]; 7] = [
        &[2, 0, 0, 0, 0, 0],
        &[1, 0, 0, 0, 0, 0],
        &[3, 4, 0, 0, 0, 0],
        &[2, 5, 0, 0, 0, 0],
        &[3, 3, 0, 0, 0, 0],
        &[2, 6, 0, 0, 0, 1],
        &[3, 1, 0, 0, 0, 1],
    ];
    // The main task closes as 4 gets its own. 4 is apart, so 5 gets one too, and
    // 3 joins that by affinity; 5 closes.
    let expected = "2 21 0 0 0 0 0 0 0 0\n  21 0 0 0\n\
                    1 0 0 0 1 1 1 0 8 0\n\
                    3 0 4 4 1 1 0 1 8 0\n  0 2 0 0\n\
                    2 0 5 5 1 2 0 0 8 0\n  0 18 0 0\n\
                    3 0 3 5 1 2 0 1 8 0\n  0 5 1 2\n\
                    2 3 0 0 0 0 0 0 0 0\n  3 0 0 0\n\
                    3 4 0 0 0 0 0 0 0 0\n  4 0 0 0\n";
    assert_eq!(explain(&T, &records), expected);
}

#[test]
fn other_and_unknown_kinds_have_no_reason() {
    let records: [&[u8]; 7] = [
        &[5, 9, 9, 9, 9, 9],
        &[0, 2, 0, 0, 0, 0],
        &[6, 1, 0, 0, 0, 0],
        &[255, 1, 0, 0, 0, 0],
        &[4, 2, 0, 0, 0, 0],
        &[1, 3, 0, 0, 0, 0],
        &[1, 6, 0, 0, 0, 0],
    ];
    let expected = "5 0 0 0 0 0 0 0 8 0\n0 9 0 0 0 0 0 0 0 0\n6 9 0 0 0 0 0 0 0 0\n\
                    255 9 0 0 0 0 0 0 0 0\n4 21 0 0 0 0 0 0 0 0\n1 30 0 0 0 0 0 0 0 0\n\
                    1 0 0 0 1 1 1 0 6 0\n";
    assert_eq!(explain(&T, &records), expected);
}

#[test]
fn cut_records() {
    let mut bad = T;
    bad[2] = 4;
    for table in [T, bad] {
        for kind in [0, 1, 2, 3, 4, 5, 6, 255] {
            for length in 1..6 {
                let cut = &[kind, 1, 0, 0, 0, 0][..length];
                let reason = match kind {
                    2 | 3 => "  9 0 0 0\n",
                    _ => "",
                };
                let expected = format!("{kind} 9 0 0 0 0 0 0 0 0\n{reason}");
                assert_eq!(explain(&table, &[cut]), expected);
            }
        }
    }
}

#[test]
fn a_table_of_bad_content() {
    let mut bad = T;
    bad[1] = 6;
    let records: [&[u8]; 5] = [
        &[1, 0, 0, 0, 0, 0],
        &[2, 200, 0, 0, 0, 1],
        &[3, 0, 0, 0, 0, 0],
        &[7, 0, 0, 0, 0, 0],
        &[3, 0, 0],
    ];
    let expected = "1 2 0 0 0 0 0 0 0 0\n\
                    2 2 0 0 0 0 0 0 0 0\n  2 0 0 0\n\
                    3 2 0 0 0 0 0 0 0 0\n  2 0 0 0\n\
                    7 9 0 0 0 0 0 0 0 0\n\
                    3 9 0 0 0 0 0 0 0 0\n  9 0 0 0\n";
    assert_eq!(explain(&bad, &records), expected);
}

#[test]
fn a_table_on_which_the_player_stops() {
    let start: &[u8] = &[2, 0, 0, 0, 0, 0];
    let mut large = vec![0; 2 + 2 * 65];
    large[0] = 65;
    for table in [&[] as &[u8], &[0], &[64], &T[..13], &[2, 0, 0]] {
        assert_eq!(explain(table, &[]), "0 1 0 0 0 0 0 0 0 0\n");
    }
    for table in [&[0u8; 2] as &[u8], &large] {
        assert_eq!(explain(table, &[start, start]), "0 1 0 0 0 0 0 0 0 0\n");
    }
    assert_eq!(explain(&T, &[]), "");
}

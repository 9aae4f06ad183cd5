//! The depth report of recordings, by hand from requests 6 and 11.

mod common;

use std::io::Write;
use std::process::{Command, Output, Stdio};

use second::depth::Depth;

use common::T;

const LAUNCH: [u8; 6] = [1, 0, 0, 0, 0, 0];
const START_1: [u8; 6] = [2, 1, 0, 0, 0, 0];
/// A new task of height 1.
const START_3: [u8; 6] = [2, 3, 0, 0, 0, 0];
/// Refused with 3.
const START_6: [u8; 6] = [2, 6, 0, 0, 0, 0];
const BACK: [u8; 6] = [4, 0, 0, 0, 0, 0];
const LOOK: [u8; 6] = [5, 0, 0, 0, 0, 0];

fn depth(table: &[u8], records: &[u8]) -> Depth {
    let input = [table, records].concat();
    Depth::read(&input[..]).unwrap()
}

/// The line of a recording that is tallied whole.
fn line(table: &[u8], records: &[u8]) -> String {
    let depth = depth(table, records);
    assert_eq!(depth.untallied, 0);
    depth.to_string()
}

fn times(record: [u8; 6], times: usize) -> Vec<u8> {
    record.repeat(times)
}

/// T with a mode that there is not.
fn refused_table() -> [u8; 14] {
    let mut table = T;
    table[2] = 4;
    table
}

#[test]
fn the_papers_example() {
    let finishing = [3, 0, 0x10, 0, 0, 0];
    let starts = [LAUNCH, START_1, START_3, finishing].concat();
    // Heights 1, 2, 1, 3, then 2, 1 and 0, and a refused Back: ten by seven calls.
    assert_eq!(line(&T, &[starts, times(BACK, 4)].concat()), "7 1 3 14");
}

/// So many heights of 1, then so many of 2.
fn ones_and_twos(ones: usize, twos: usize) -> Vec<u8> {
    let ones = [times(LAUNCH, 1), times(LOOK, ones - 1)].concat();
    [ones, times(START_1, 1), times(LOOK, twos - 1)].concat()
}

#[test]
fn the_half_goes_to_the_even_neighbour() {
    // 10.5, 12.5 and 11.5 tenths.
    assert_eq!(line(&T, &ones_and_twos(19, 1)), "20 0 2 10");
    assert_eq!(line(&T, &ones_and_twos(15, 5)), "20 0 2 12");
    assert_eq!(line(&T, &ones_and_twos(17, 3)), "20 0 2 12");
    // 0.5 and 1.5.
    let low = [times(LOOK, 19), times(LAUNCH, 1)].concat();
    assert_eq!(line(&T, &low), "20 0 1 0");
    let three = [times(LOOK, 17), times(LAUNCH, 1), times(LOOK, 2)].concat();
    assert_eq!(line(&T, &three), "20 0 1 2");
}

#[test]
fn what_is_no_half_goes_to_the_nearest() {
    // 10.6 and 10.4 tenths, 11.6 and 11.4.
    assert_eq!(line(&T, &ones_and_twos(47, 3)), "50 0 2 11");
    assert_eq!(line(&T, &ones_and_twos(48, 2)), "50 0 2 10");
    assert_eq!(line(&T, &ones_and_twos(42, 8)), "50 0 2 12");
    assert_eq!(line(&T, &ones_and_twos(43, 7)), "50 0 2 11");
}

#[test]
fn nothing_accepted() {
    assert_eq!(line(&T, &[]), "0 0 0 0");
    assert_eq!(line(&T, &[BACK, START_1, BACK].concat()), "0 3 0 0");
}

#[test]
fn accepted_calls_of_height_0_count() {
    assert_eq!(line(&T, &LOOK), "1 0 0 0");
    // One height of 1 among four, and then among five.
    let looks = [LOOK, LOOK, LOOK, LAUNCH].concat();
    assert_eq!(line(&T, &looks), "4 0 1 2");
    let backs = [LOOK, LOOK, LOOK, LAUNCH, BACK].concat();
    assert_eq!(line(&T, &backs), "5 0 1 2");
}

#[test]
fn the_front_height_and_not_the_session() {
    let records = [LAUNCH, START_1, START_1, START_1, START_3].concat();
    // 1, 2, 3, 4 and 1.
    assert_eq!(line(&T, &records), "5 0 4 22");
}

#[test]
fn refused_calls_do_not_count_the_height_that_stands() {
    let up = [LAUNCH, START_1, START_1].concat();
    let refused = [START_6, LAUNCH, START_6].concat();
    // 1, 2, 3, and three calls refused at a height of 3.
    assert_eq!(line(&T, &[up, refused].concat()), "3 3 3 20");
}

#[test]
fn a_full_task() {
    let full = [times(LAUNCH, 1), times(START_1, 31)].concat();
    // 1 to 32: 528 by 32 calls.
    assert_eq!(line(&T, &full), "32 0 32 165");
    let more = [full, times(START_1, 5)].concat();
    assert_eq!(line(&T, &more), "32 5 32 165");
}

#[test]
fn tables_on_which_the_player_stops() {
    let mut large = vec![0; 2 + 2 * 65];
    large[0] = 65;
    for table in [
        &[] as &[u8],
        &[0],
        &[64],
        &[65],
        &T[..1],
        &T[..13],
        &[2, 0, 0],
    ] {
        assert_eq!(line(table, &[]), "0 0 0 0");
    }
    for table in [&[0u8; 2] as &[u8], &large] {
        assert_eq!(depth(table, &times(LAUNCH, 70_000)), Depth::default());
    }
}

#[test]
fn under_refusal_2_every_record_is_refused() {
    let bad = refused_table();
    let records = [LAUNCH, START_1, LOOK, BACK, [9; 6]].concat();
    assert_eq!(line(&bad, &records), "0 5 0 0");
    assert_eq!(line(&bad, &[records, vec![1, 0]].concat()), "0 6 0 0");
    assert_eq!(line(&bad, &[]), "0 0 0 0");
}

#[test]
fn unknown_kinds_and_cut_records_are_refused() {
    let launched = [LAUNCH, LOOK].concat();
    for kind in (0..=255).filter(|kind| !(1..=5).contains(kind)) {
        let unknown = [kind, 0, 0, 0, 0, 0];
        let records = [&launched[..], &unknown, &START_1].concat();
        assert_eq!(line(&T, &records), "3 1 2 13", "kind {kind}");
    }
    for kind in 0..=255 {
        for length in 1..6 {
            let cut = &[kind, 0, 0, 0, 0, 0][..length];
            let records = [&launched[..], cut].concat();
            assert_eq!(line(&T, &records), "2 1 1 10", "kind {kind}");
        }
    }
}

/// The line, and how many calls were not tallied.
fn long(table: &[u8], records: &[&[u8]]) -> (String, u64) {
    let depth = depth(table, &records.concat());
    let length = records.concat().len().div_ceil(6);
    assert_eq!(depth.calls(), length as u64);
    (depth.to_string(), depth.untallied)
}

#[test]
fn nothing_is_tallied_from_the_65536th_call_on() {
    let told = |line: &str, untallied| (line.to_string(), untallied);
    let looks = |length| times(LOOK, length);
    let last = |length| long(&T, &[&looks(length), &LAUNCH]);
    assert_eq!(last(65_533), told("65534 0 1 0", 0));
    assert_eq!(last(65_534), told("65535 0 1 0", 0));
    assert_eq!(last(65_535), told("65535 0 0 0", 1));
    assert_eq!(last(65_536), told("65535 0 0 0", 2));
    // Refused ones fill it as well, whatever is before or after them.
    let backs = |length| times(BACK, length);
    let mixed = |length| {
        long(
            &T,
            &[&LAUNCH, &looks(29), &START_6.repeat(length), &START_1],
        )
    };
    assert_eq!(mixed(65_504), told("31 65504 2 10", 0));
    assert_eq!(mixed(65_505), told("30 65505 1 10", 1));
    assert_eq!(long(&T, &[&backs(65_535), &LAUNCH]), told("0 65535 0 0", 1));
    assert_eq!(long(&T, &[&looks(65_534), &[5]]), told("65534 1 0 0", 0));
    assert_eq!(long(&T, &[&looks(65_535), &[5]]), told("65535 0 0 0", 1));
    let bad = refused_table();
    assert_eq!(long(&bad, &[&looks(70_000)]), told("0 65535 0 0", 4465));
}

/// Runs the program.
fn run(records: &[u8]) -> Output {
    let mut child = Command::new(env!("CARGO_BIN_EXE_depth"))
        .stdin(Stdio::piped())
        .stdout(Stdio::piped())
        .stderr(Stdio::piped())
        .spawn()
        .unwrap();
    let mut stdin = child.stdin.take().unwrap();
    stdin.write_all(&[&T, records].concat()).unwrap();
    drop(stdin);
    child.wait_with_output().unwrap()
}

#[test]
fn the_program_warns_of_calls_that_are_not_tallied() {
    let whole = run(&times(LOOK, 65_535));
    assert_eq!(whole.stdout, b"65535 0 0 0\n");
    assert!(whole.stderr.is_empty());
    let more = run(&times(LOOK, 65_536));
    assert_eq!(more.stdout, b"65535 0 0 0\n");
    assert!(more
        .stderr
        .starts_with(b"warning: only the first 65535 calls"));
    assert!(whole.status.success() && more.status.success());
}

//! Loads: what the request gives for table T, bytes beyond the records, a load
//! in parts, and what is refused.

mod common;

use std::collections::BTreeSet;

use common::table_t;
use milchkompass::{Load, Refusal, Replay};

/// A load into a buffer of so many bytes, each of which is hex ee before it.
fn load(seed: u32, length: usize) -> (Load, Vec<u8>) {
    let mut out = vec![0xee; length];
    let load = table_t().load(seed, &mut out);
    (load.expect("a seed that is not 0"), out)
}

#[test]
fn vectors() {
    let first = [4, 2, 0x60, 0, 0, 0];
    let second = [4, 2, 0x6c, 2, 0, 0];
    let (one, out) = load(1, 6);
    assert_eq!((one.count, one.state), (1, 0x6018_0001));
    assert_eq!(out, first);
    let (two, out) = load(1, 12);
    assert_eq!((two.count, two.state), (2, 0x6c1b_0001));
    assert_eq!(out, [first, second].concat());
    let (ones, out) = load(u32::MAX, 6);
    assert_eq!((ones.count, ones.state), (1, 0x3ff7_ffff));
    assert_eq!(out, [1, 2, 0x3c, 2, 0x80, 0]);
}

/// As many records as fit, and the bytes beyond them stay.
#[test]
fn lengths() {
    let (_, whole) = load(7, 120);
    for length in 0..=100 {
        let (made, out) = load(7, length);
        let end = 6 * made.count;
        assert_eq!(made.count, length / 6);
        assert_eq!(out[..end], whole[..end]);
        assert!(out[end..].iter().all(|byte| *byte == 0xee));
        let (rest, tail) = load(made.state, 120 - end);
        assert_eq!(tail, whole[end..], "the rest, from the state after {end} bytes");
        assert_eq!(rest.count, 20 - made.count);
    }
    assert_eq!(load(7, 5).0.state, 7);
}

#[test]
fn refused() {
    let mut out = [0xee; 8];
    assert_eq!(table_t().load(0, &mut out), Err(Refusal::SeedZero));
    assert_eq!(out, [0xee; 8]);
    let said = "refusal 32: the seed of a load is 0";
    assert_eq!(Refusal::SeedZero.to_string(), said);
}

/// No record of a load is refused with 3, 4 or 9.
#[test]
fn drawn() {
    let (made, out) = load(u32::MAX, 60_000);
    let mut replay = Replay::new(table_t().bytes());
    let records = out.chunks_exact(6);
    assert_eq!(records.len(), made.count);
    let mut drawn = BTreeSet::new();
    for record in records {
        drawn.insert(replay.next(record).numbers()[0]);
    }
    assert!(drawn.contains(&0), "some are accepted");
    assert!([3, 4, 9].iter().all(|refusal| !drawn.contains(refusal)), "{drawn:?}");
}

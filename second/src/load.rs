//! Loads: records that everybody can make again from a seed, under a table.

use crate::play::RECORD;
use crate::table::ALL_FLAGS;
use crate::{Refusal, Table};

/// What is xored into the halved state where the lowest bit was 1.
const FEEDBACK: u32 = 0x8020_0003;

/// What a load comes to: how many records were made, and the last state.
#[derive(Clone, Copy, Debug, PartialEq, Eq)]
pub struct Load {
    pub count: usize,
    pub state: u32,
}

/// One step halves the state, dropping the lowest bit, and xors if that was 1.
pub fn step(state: u32) -> u32 {
    match state % 2 {
        0 => state / 2,
        _ => state / 2 ^ FEEDBACK,
    }
}

/// The record that a state leads to under a table of so many screens, and the state
/// after its three steps.
pub fn record(screens: u8, state: u32) -> ([u8; RECORD], u32) {
    let first = step(state);
    let second = step(first);
    let third = step(second);
    let kind = (first % 5 + 1) as u8;
    let screen = (second % u32::from(screens)) as u8;
    let [w0, w1, w2, w3] = (third & ALL_FLAGS).to_be_bytes();
    ([kind, screen, w0, w1, w2, w3], third)
}

/// Fills a buffer with as many whole records as fit; the bytes beyond them stay. The
/// seed is the last state where none fits.
pub fn fill(table: &[u8], seed: u32, buffer: &mut [u8]) -> Result<Load, Refusal> {
    Table::parse(table)?;
    if seed == 0 {
        return Err(Refusal::SeedZero);
    }
    let screens = table[0];
    let mut load = Load {
        count: 0,
        state: seed,
    };
    for place in buffer.chunks_exact_mut(RECORD) {
        let (made, after) = record(screens, load.state);
        place.copy_from_slice(&made);
        load.count += 1;
        load.state = after;
    }
    Ok(load)
}

/// So many records under a table that is good, from a seed that is not 0.
pub fn records(table: &[u8], seed: u32, count: usize) -> Vec<u8> {
    let mut records = vec![0; count * RECORD];
    fill(table, seed, &mut records).expect("table and seed are good");
    records
}

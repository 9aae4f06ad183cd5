//! The functions on lists of calls that are compared: those of the static library,
//! or others that a test puts in their place.

use lent_calls::library;
use lent_calls::stored::Stored;

pub trait Library {
    fn record_length(&self, list: &[u8]) -> usize;
    fn call_length(&self, list: &[u8]) -> usize;
    /// The answer's nine numbers, here and below.
    fn play(&self, table: &[u8], session: &mut Stored, list: &[u8]) -> [u8; 9];
    fn play_call(&self, table: &[u8], session: &mut Stored, list: &[u8]) -> [u8; 9];
    /// The table's refusal, or 0, and 1 where both lists end alike, else 0.
    fn same_ending(&self, table: &[u8], first: &[u8], second: &[u8]) -> [u8; 2];
}

/// The static library.
pub struct Linked;

impl Library for Linked {
    fn record_length(&self, list: &[u8]) -> usize {
        library::record_length(list)
    }

    fn call_length(&self, list: &[u8]) -> usize {
        library::call_length(list)
    }

    fn play(&self, table: &[u8], session: &mut Stored, list: &[u8]) -> [u8; 9] {
        library::play(table, session, list)
    }

    fn play_call(&self, table: &[u8], session: &mut Stored, list: &[u8]) -> [u8; 9] {
        library::play_call(table, session, list)
    }

    fn same_ending(&self, table: &[u8], first: &[u8], second: &[u8]) -> [u8; 2] {
        library::same_ending(table, first, second)
    }
}

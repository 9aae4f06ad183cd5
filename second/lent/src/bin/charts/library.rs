//! The chart and the starts by it that are compared: those of the static library, or
//! others that a test puts in their place.

use lent_calls::library::Answer;
use lent_calls::stored::Stored;

extern "C" {
    fn milchkompass_chart(index: u16) -> u8;

    fn milchkompass_start_by_chart(
        table: *const u8,
        table_length: usize,
        session: *mut Stored,
        screen: u8,
        flags: u32,
    ) -> Answer;

    fn milchkompass_finish_start_by_chart(
        table: *const u8,
        table_length: usize,
        session: *mut Stored,
        screen: u8,
        flags: u32,
    ) -> Answer;
}

pub trait Library {
    /// The entry at an index, 0 where there is none.
    fn chart(&self, index: u16) -> u8;
    /// The answer's nine numbers, here and below.
    fn start(&self, table: &[u8], session: &mut Stored, screen: u8, flags: u32) -> [u8; 9];
    fn finish_start(&self, table: &[u8], session: &mut Stored, screen: u8, flags: u32) -> [u8; 9];
}

/// The static library.
pub struct Linked;

// Pointers and lengths are those of whole slices and of one session, and the library
// keeps none of them.
impl Library for Linked {
    fn chart(&self, index: u16) -> u8 {
        unsafe { milchkompass_chart(index) }
    }

    fn start(&self, table: &[u8], session: &mut Stored, screen: u8, flags: u32) -> [u8; 9] {
        unsafe { milchkompass_start_by_chart(table.as_ptr(), table.len(), session, screen, flags) }
            .numbers()
    }

    fn finish_start(&self, table: &[u8], session: &mut Stored, screen: u8, flags: u32) -> [u8; 9] {
        let answer = unsafe {
            milchkompass_finish_start_by_chart(table.as_ptr(), table.len(), session, screen, flags)
        };
        answer.numbers()
    }
}

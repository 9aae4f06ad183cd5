//! The sets of possible front screens that are compared: those of the static library, or
//! others that a test puts in their place.

use lent_calls::stored::Stored;

/// What is given, as the library declares it to C: bit k for screen k, the refusal's
/// number, or 0, and how many screens there are.
#[repr(C)]
#[derive(Clone, Copy, Debug, PartialEq)]
pub struct FrontSet {
    pub set: u64,
    pub refusal: u8,
    pub count: u8,
}

extern "C" {
    fn milchkompass_fronts(
        table: *const u8,
        table_length: usize,
        session: Stored,
        screen: u8,
        mask: u32,
        value: u32,
    ) -> FrontSet;
}

pub trait Library {
    fn fronts(&self, table: &[u8], session: &Stored, screen: u8, mask: u32, value: u32)
        -> FrontSet;
}

/// The static library.
pub struct Linked;

impl Library for Linked {
    fn fronts(
        &self,
        table: &[u8],
        session: &Stored,
        screen: u8,
        mask: u32,
        value: u32,
    ) -> FrontSet {
        let (bytes, length) = (table.as_ptr(), table.len());
        // Pointer and length of a whole slice, which the library does not keep.
        unsafe { milchkompass_fronts(bytes, length, *session, screen, mask, value) }
    }
}

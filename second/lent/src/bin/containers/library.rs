//! The calls on containers that are compared: those of the static library, or others
//! that a test puts in their place.

use crate::stored::Stored;

extern "C" {
    fn milchkompass_container_step(
        container: *mut Stored,
        recorded: u8,
        operations: *const u8,
        operations_length: usize,
    ) -> u8;

    fn milchkompass_container_back(container: *mut Stored) -> u8;

    fn milchkompass_container_play(calls: *const u8, calls_length: usize) -> Stored;
}

pub trait Library {
    /// The refusal's number, or 0, here and below.
    fn step(&self, container: &mut Stored, recorded: u8, operations: &[u8]) -> u8;
    fn back(&self, container: &mut Stored) -> u8;
    /// The container after a list, from an empty one.
    fn play(&self, list: &[u8]) -> Stored;
}

/// The static library.
pub struct Linked;

// Pointers and lengths are those of whole slices and of one container, and the library
// keeps none of them.
impl Library for Linked {
    fn step(&self, container: &mut Stored, recorded: u8, operations: &[u8]) -> u8 {
        let (bytes, length) = (operations.as_ptr(), operations.len());
        unsafe { milchkompass_container_step(container, recorded, bytes, length) }
    }

    fn back(&self, container: &mut Stored) -> u8 {
        unsafe { milchkompass_container_back(container) }
    }

    fn play(&self, list: &[u8]) -> Stored {
        unsafe { milchkompass_container_play(list.as_ptr(), list.len()) }
    }
}

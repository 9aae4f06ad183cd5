//! The generator that is compared: the static library's, or another that a test puts in
//! its place.

/// What a load comes to, as the library declares it to C: the refusal's number, or 0,
/// the last state and how many records were made.
#[repr(C)]
#[derive(Clone, Copy, Debug, PartialEq)]
pub struct Reply {
    pub refusal: u8,
    pub state: u32,
    pub count: usize,
}

extern "C" {
    fn milchkompass_load(
        table: *const u8,
        table_length: usize,
        seed: u32,
        out: *mut u8,
        out_length: usize,
    ) -> Reply;
}

pub trait Library {
    fn load(&self, table: &[u8], seed: u32, out: &mut [u8]) -> Reply;
}

/// The static library.
pub struct Linked;

impl Library for Linked {
    fn load(&self, table: &[u8], seed: u32, out: &mut [u8]) -> Reply {
        // Pointers and lengths of whole slices, of which the library keeps none.
        unsafe {
            milchkompass_load(
                table.as_ptr(),
                table.len(),
                seed,
                out.as_mut_ptr(),
                out.len(),
            )
        }
    }
}

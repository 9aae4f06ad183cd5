//! Memory that ends, and begins, at a page which may not be touched.

use std::ffi::c_void;
use std::slice;

use second::random::Random;

const PAGE: usize = 4096;
const NOTHING: i32 = 0;
const READ_AND_WRITE: i32 = 1 | 2;
const PRIVATE_AND_ANONYMOUS: i32 = 0x02 | 0x20;

extern "C" {
    fn mmap(
        at: *mut c_void,
        length: usize,
        protection: i32,
        kind: i32,
        file: i32,
        offset: i64,
    ) -> *mut c_void;

    fn mprotect(at: *mut c_void, length: usize, protection: i32) -> i32;
}

/// How many bytes beside a region are watched, and what they hold.
const WATCHED: usize = 64;
const WATCHED_BYTE: u8 = 0x5a;

/// A whole number of pages between two that may not be touched.
pub struct Pages {
    first: *mut u8,
    length: usize,
}

/// Which of the two pages a region touches.
#[derive(Clone, Copy, Debug)]
pub enum Edge {
    BeginsAt,
    EndsAt,
}

impl Edge {
    pub fn random(random: &mut Random) -> Edge {
        random.one_of(&[Edge::BeginsAt, Edge::EndsAt])
    }
}

impl Pages {
    /// Room for at least these many bytes.
    pub fn new(room: usize) -> Pages {
        let length = room.div_ceil(PAGE) * PAGE;
        // A new mapping that nobody else knows; the pages between the first and
        // the last are opened.
        let first = unsafe {
            let (none, whole) = (std::ptr::null_mut(), length + 2 * PAGE);
            let begin = mmap(none, whole, NOTHING, PRIVATE_AND_ANONYMOUS, -1, 0);
            assert!(begin as isize != -1, "there is memory");
            let first = begin.cast::<u8>().add(PAGE);
            let opened = mprotect(first.cast(), length, READ_AND_WRITE);
            assert!(opened == 0, "the pages can be opened");
            first
        };
        Pages { first, length }
    }

    /// A region of this length at one of the two edges.
    pub fn region(&mut self, length: usize, edge: Edge) -> &mut [u8] {
        assert!(length <= self.length, "there is room");
        let from = match edge {
            Edge::BeginsAt => 0,
            Edge::EndsAt => self.length - length,
        };
        // Within the open pages, which live as long as the program.
        unsafe { slice::from_raw_parts_mut(self.first.add(from), length) }
    }

    /// Puts bytes at an edge, and marks those beside them.
    pub fn place(&mut self, bytes: &[u8], edge: Edge) -> &mut [u8] {
        self.beside(bytes.len(), edge).fill(WATCHED_BYTE);
        let region = self.region(bytes.len(), edge);
        region.copy_from_slice(bytes);
        region
    }

    /// Whether the bytes beside a region were written.
    pub fn touched(&mut self, length: usize, edge: Edge) -> bool {
        let beside = self.beside(length, edge);
        beside.iter().any(|&byte| byte != WATCHED_BYTE)
    }

    /// The watched bytes on the open side of a region.
    fn beside(&mut self, length: usize, edge: Edge) -> &mut [u8] {
        let many = WATCHED.min(self.length - length);
        let from = match edge {
            Edge::BeginsAt => length,
            Edge::EndsAt => self.length - length - many,
        };
        // As in `region`.
        unsafe { slice::from_raw_parts_mut(self.first.add(from), many) }
    }
}

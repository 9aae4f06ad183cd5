//! Where memory ends, the program says so and ends with status 2, as where anything
//! else fails. Without this it would be aborted.

use std::alloc::{GlobalAlloc, Layout, System};
use std::io::{self, Write};

/// The system's memory.
pub struct Memory;

// SAFETY: each call is the system's own, with what was given; what it gives goes
// on as it is, unless it is nothing.
unsafe impl GlobalAlloc for Memory {
    unsafe fn alloc(&self, layout: Layout) -> *mut u8 {
        some(System.alloc(layout))
    }

    unsafe fn alloc_zeroed(&self, layout: Layout) -> *mut u8 {
        some(System.alloc_zeroed(layout))
    }

    unsafe fn realloc(&self, at: *mut u8, layout: Layout, size: usize) -> *mut u8 {
        some(System.realloc(at, layout, size))
    }

    unsafe fn dealloc(&self, at: *mut u8, layout: Layout) {
        System.dealloc(at, layout);
    }
}

#[inline]
fn some(at: *mut u8) -> *mut u8 {
    if at.is_null() {
        ended();
    }
    at
}

#[cold]
fn ended() -> ! {
    let _ = io::stderr().write_all(b"milch: out of memory\n");
    // What is left undone needs memory too, and files are whole or not there.
    unsafe { _exit(2) }
}

extern "C" {
    fn _exit(status: i32) -> !;
}

//! Tells which call a fault came in.

use std::sync::atomic::{AtomicU64, Ordering};
use std::sync::OnceLock;

const BAD_INSTRUCTION: i32 = 4;
const ABORT: i32 = 6;
const BAD_ADDRESS: i32 = 7;
const NO_ACCESS: i32 = 11;

extern "C" {
    fn signal(number: i32, handler: extern "C" fn(i32)) -> usize;
    fn _exit(code: i32) -> !;
}

static PROGRAM: OnceLock<&str> = OnceLock::new();
static CALL: AtomicU64 = AtomicU64::new(0);

/// From here on a fault ends the program of this name with the number of the call.
pub fn watch(program: &'static str) {
    PROGRAM.get_or_init(|| program);
    for number in [BAD_INSTRUCTION, ABORT, BAD_ADDRESS, NO_ACCESS] {
        // The handler does not return.
        unsafe { signal(number, tell) };
    }
}

pub fn begin_call(number: u64) {
    CALL.store(number, Ordering::Relaxed);
}

extern "C" fn tell(number: i32) {
    // The library, in which the fault is, holds nothing that printing needs.
    let call = CALL.load(Ordering::Relaxed);
    let program = PROGRAM.get().unwrap_or(&"");
    eprintln!("{program}: signal {number} in call {call}, counted from 0");
    unsafe { _exit(1) }
}

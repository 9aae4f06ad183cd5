//! The static library's calls, as it declares them to C: a slice is a pointer
//! and a length; the session is lent, to save and to why passed by value.

use crate::stored::Stored;

/// The number of the interface that is declared here.
const ABI: u32 = 5;

/// What a call answers: nine numbers.
#[repr(C)]
#[derive(Clone, Copy)]
pub struct Answer {
    refusal: u8,
    screen: u8,
    root: u8,
    height: u8,
    tasks: u8,
    main: u8,
    closed: u8,
    edition: u8,
    no_history: u8,
}

/// What save gives: the refusal's number, or 0, and the image's length.
#[repr(C)]
#[derive(Clone, Copy)]
pub struct SaveReply {
    refusal: u8,
    length: usize,
}

/// What why gives: the refusal's number, or 0, the rule, the place of the task
/// found and what found it.
#[repr(C)]
#[derive(Clone, Copy)]
pub struct Reason {
    refusal: u8,
    rule: u8,
    place: u8,
    found: u8,
}

/// What two lists of calls are to each other: the refusal's number, or 0, and 1 where
/// they end alike. C's bool is a byte, which is read here as it comes.
#[repr(C)]
#[derive(Clone, Copy)]
struct Ending {
    refusal: u8,
    alike: u8,
}

extern "C" {
    fn milchkompass_abi() -> u32;

    fn milchkompass_launch(
        table: *const u8,
        table_length: usize,
        session: *mut Stored,
        edition: u8,
    ) -> Answer;

    fn milchkompass_start(
        table: *const u8,
        table_length: usize,
        session: *mut Stored,
        screen: u8,
        flags: u32,
    ) -> Answer;

    fn milchkompass_finish_start(
        table: *const u8,
        table_length: usize,
        session: *mut Stored,
        screen: u8,
        flags: u32,
    ) -> Answer;

    fn milchkompass_back(table: *const u8, table_length: usize, session: *mut Stored) -> Answer;

    fn milchkompass_look(table: *const u8, table_length: usize, session: *mut Stored) -> Answer;

    fn milchkompass_restore(
        table: *const u8,
        table_length: usize,
        session: *mut Stored,
        image: *const u8,
        image_length: usize,
    ) -> Answer;

    fn milchkompass_save(
        table: *const u8,
        table_length: usize,
        session: Stored,
        buffer: *mut u8,
        buffer_length: usize,
    ) -> SaveReply;

    fn milchkompass_why(
        table: *const u8,
        table_length: usize,
        session: Stored,
        screen: u8,
        flags: u32,
    ) -> Reason;

    fn milchkompass_record_length(calls: *const u8, calls_length: usize) -> usize;

    fn milchkompass_call_length(calls: *const u8, calls_length: usize) -> usize;

    fn milchkompass_play(
        table: *const u8,
        table_length: usize,
        session: *mut Stored,
        calls: *const u8,
        calls_length: usize,
    ) -> Answer;

    fn milchkompass_play_call(
        table: *const u8,
        table_length: usize,
        session: *mut Stored,
        calls: *const u8,
        calls_length: usize,
    ) -> Answer;

    fn milchkompass_same_ending(
        table: *const u8,
        table_length: usize,
        first: *const u8,
        first_length: usize,
        second: *const u8,
        second_length: usize,
    ) -> Ending;
}

impl Answer {
    /// The nine numbers in their order.
    pub fn numbers(self) -> [u8; 9] {
        [
            self.refusal,
            self.screen,
            self.root,
            self.height,
            self.tasks,
            self.main,
            self.closed,
            self.edition,
            self.no_history,
        ]
    }
}

/// Ends the program if the library does not have the interface that is declared
/// here: then no other call may be made.
pub fn expect_abi() {
    let abi = unsafe { milchkompass_abi() };
    assert!(abi == ABI, "the library's interface is {abi} and not {ABI}");
}

// In each function below the pointers and lengths are those of whole slices and
// of one session, and the library keeps none of them.

pub fn launch(table: &[u8], session: &mut Stored, edition: u8) -> [u8; 9] {
    unsafe { milchkompass_launch(table.as_ptr(), table.len(), session, edition) }.numbers()
}

pub fn start(table: &[u8], session: &mut Stored, screen: u8, flags: u32) -> [u8; 9] {
    unsafe { milchkompass_start(table.as_ptr(), table.len(), session, screen, flags) }.numbers()
}

pub fn finishing_start(table: &[u8], session: &mut Stored, screen: u8, flags: u32) -> [u8; 9] {
    unsafe { milchkompass_finish_start(table.as_ptr(), table.len(), session, screen, flags) }
        .numbers()
}

pub fn back(table: &[u8], session: &mut Stored) -> [u8; 9] {
    unsafe { milchkompass_back(table.as_ptr(), table.len(), session) }.numbers()
}

pub fn look(table: &[u8], session: &mut Stored) -> [u8; 9] {
    unsafe { milchkompass_look(table.as_ptr(), table.len(), session) }.numbers()
}

pub fn restore(table: &[u8], session: &mut Stored, image: &[u8]) -> [u8; 9] {
    unsafe {
        milchkompass_restore(
            table.as_ptr(),
            table.len(),
            session,
            image.as_ptr(),
            image.len(),
        )
    }
    .numbers()
}

/// Save: the refusal's number, or 0, and the image's length.
pub fn save(table: &[u8], session: &Stored, buffer: &mut [u8]) -> (u8, usize) {
    let reply = unsafe {
        milchkompass_save(
            table.as_ptr(),
            table.len(),
            *session,
            buffer.as_mut_ptr(),
            buffer.len(),
        )
    };
    (reply.refusal, reply.length)
}

/// Why: the reason's four numbers.
pub fn why(table: &[u8], session: &Stored, screen: u8, flags: u32) -> [u8; 4] {
    let reason = unsafe { milchkompass_why(table.as_ptr(), table.len(), *session, screen, flags) };
    [reason.refusal, reason.rule, reason.place, reason.found]
}

// Of a list of calls, the first record: its length and the record played, without
// restores and with them.

pub fn record_length(list: &[u8]) -> usize {
    unsafe { milchkompass_record_length(list.as_ptr(), list.len()) }
}

pub fn call_length(list: &[u8]) -> usize {
    unsafe { milchkompass_call_length(list.as_ptr(), list.len()) }
}

pub fn play(table: &[u8], session: &mut Stored, list: &[u8]) -> [u8; 9] {
    unsafe {
        milchkompass_play(
            table.as_ptr(),
            table.len(),
            session,
            list.as_ptr(),
            list.len(),
        )
    }
    .numbers()
}

pub fn play_call(table: &[u8], session: &mut Stored, list: &[u8]) -> [u8; 9] {
    unsafe {
        milchkompass_play_call(
            table.as_ptr(),
            table.len(),
            session,
            list.as_ptr(),
            list.len(),
        )
    }
    .numbers()
}

/// The refusal's number, or 0, and 1 where both lists end alike.
pub fn same_ending(table: &[u8], first: &[u8], second: &[u8]) -> [u8; 2] {
    let ending = unsafe {
        milchkompass_same_ending(
            table.as_ptr(),
            table.len(),
            first.as_ptr(),
            first.len(),
            second.as_ptr(),
            second.len(),
        )
    };
    [ending.refusal, ending.alike]
}

//! The static library, as it declares itself to C: a slice is a pointer and a
//! length.

/// The number of the interface that this file declares.
const ABI: u32 = 5;

/// The limits of a session: its tasks, and the screens of a task.
const TASKS: usize = 16;
const SCREENS: usize = 32;

/// The limits of a container: its panels, and its recorded steps.
const PANELS: usize = 8;
const STEPS: usize = 8;

/// The length of the longest image of a session, in bytes: a buffer of so many
/// is never too short for a save.
pub const IMAGE_MAX: usize = TASKS * (2 + SCREENS) + 6;

/// A task, its screens bottom first.
#[repr(C)]
#[derive(Clone, Copy, PartialEq, Eq, Hash)]
pub struct Task {
    pub screens: [u8; SCREENS],
    pub root: u8,
    pub height: u8,
}

/// A session: n tasks, front first, the main place, the edition, and the
/// No-History mark.
#[repr(C)]
#[derive(Clone, Copy, PartialEq, Eq, Hash)]
pub struct Session {
    pub tasks: [Task; TASKS],
    pub n: u8,
    pub main: u8,
    pub edition: u8,
    pub no_history: u8,
}

/// An answer: nine numbers.
#[repr(C)]
#[derive(Clone, Copy, Debug)]
pub struct Answer {
    pub refusal: u8,
    pub screen: u8,
    pub root: u8,
    pub height: u8,
    pub tasks: u8,
    pub main: u8,
    pub closed: u8,
    pub edition: u8,
    pub no_history: u8,
}

/// What a save gives.
#[repr(C)]
pub struct SaveReply {
    pub refusal: u8,
    pub length: usize,
}

/// What a load gives.
#[repr(C)]
pub struct LoadReply {
    pub refusal: u8,
    pub state: u32,
    pub count: usize,
}

/// Why a start goes as it does.
#[repr(C)]
pub struct Reason {
    pub refusal: u8,
    pub rule: u8,
    pub place: u8,
    pub found: u8,
}

/// Which screens could be in front.
#[repr(C)]
pub struct FrontSet {
    pub set: u64,
    pub refusal: u8,
    pub count: u8,
}

/// A tally of answers.
#[repr(C)]
#[derive(Clone, Copy)]
pub struct Tally {
    pub sum: u32,
    pub accepted: u16,
    pub refused: u16,
    pub greatest: u8,
}

/// The report of a tally.
#[repr(C)]
pub struct Report {
    pub accepted: u16,
    pub refused: u16,
    pub tenths: u16,
    pub refusal: u8,
    pub greatest: u8,
}

/// Whether two lists of calls end alike.
#[repr(C)]
pub struct Ending {
    pub refusal: u8,
    pub alike: bool,
}

/// Panels, bottom first.
#[repr(C)]
#[derive(Clone, Copy, PartialEq, Eq, Hash)]
pub struct Panels {
    pub count: u8,
    pub panels: [u8; PANELS],
}

/// A container: the panels now, the recorded steps, and what each found.
#[repr(C)]
#[derive(Clone, Copy, PartialEq, Eq, Hash)]
pub struct Container {
    pub now: Panels,
    pub steps: u8,
    pub kept: [Panels; STEPS],
}

extern "C" {
    fn milchkompass_abi() -> u32;
    fn milchkompass_fresh() -> Session;
    fn milchkompass_launch(
        table: *const u8,
        table_length: usize,
        s: *mut Session,
        edition: u8,
    ) -> Answer;
    fn milchkompass_start(
        table: *const u8,
        table_length: usize,
        s: *mut Session,
        b: u8,
        word: u32,
    ) -> Answer;
    fn milchkompass_finish_start(
        table: *const u8,
        table_length: usize,
        s: *mut Session,
        b: u8,
        word: u32,
    ) -> Answer;
    fn milchkompass_why(
        table: *const u8,
        table_length: usize,
        s: Session,
        b: u8,
        word: u32,
    ) -> Reason;
    fn milchkompass_fronts(
        table: *const u8,
        table_length: usize,
        s: Session,
        b: u8,
        mask: u32,
        value: u32,
    ) -> FrontSet;
    fn milchkompass_back(table: *const u8, table_length: usize, s: *mut Session) -> Answer;
    fn milchkompass_look(table: *const u8, table_length: usize, s: *mut Session) -> Answer;
    fn milchkompass_save(
        table: *const u8,
        table_length: usize,
        s: Session,
        out: *mut u8,
        out_length: usize,
    ) -> SaveReply;
    fn milchkompass_restore(
        table: *const u8,
        table_length: usize,
        s: *mut Session,
        image: *const u8,
        image_length: usize,
    ) -> Answer;
    fn milchkompass_record_length(calls: *const u8, calls_length: usize) -> usize;
    fn milchkompass_play(
        table: *const u8,
        table_length: usize,
        s: *mut Session,
        calls: *const u8,
        calls_length: usize,
    ) -> Answer;
    fn milchkompass_call_length(calls: *const u8, calls_length: usize) -> usize;
    fn milchkompass_play_call(
        table: *const u8,
        table_length: usize,
        s: *mut Session,
        calls: *const u8,
        calls_length: usize,
    ) -> Answer;
    fn milchkompass_same_ending(
        table: *const u8,
        table_length: usize,
        first: *const u8,
        first_length: usize,
        second: *const u8,
        second_length: usize,
    ) -> Ending;
    fn milchkompass_load(
        table: *const u8,
        table_length: usize,
        seed: u32,
        out: *mut u8,
        out_length: usize,
    ) -> LoadReply;
    fn milchkompass_tally_add(t: *mut Tally, refusal: u8, height: u8) -> u8;
    fn milchkompass_tally_report(t: Tally) -> Report;
    fn milchkompass_container_step(
        c: *mut Container,
        recorded: u8,
        operations: *const u8,
        operations_length: usize,
    ) -> u8;
    fn milchkompass_container_back(c: *mut Container) -> u8;
    fn milchkompass_container_play(calls: *const u8, calls_length: usize) -> Container;
    fn milchkompass_chart(index: u16) -> u8;
    fn milchkompass_start_by_chart(
        table: *const u8,
        table_length: usize,
        s: *mut Session,
        b: u8,
        word: u32,
    ) -> Answer;
    fn milchkompass_finish_start_by_chart(
        table: *const u8,
        table_length: usize,
        s: *mut Session,
        b: u8,
        word: u32,
    ) -> Answer;
}

// SAFETY of each call below: pointers and lengths are those of whole slices,
// what is written is borrowed for writing and so apart from the rest, and the
// library keeps no pointer. It takes any bytes.

/// Panics where the library has another interface than this file: the sizes of
/// what is lent would differ.
pub fn check_abi() {
    let library = unsafe { milchkompass_abi() };
    assert_eq!(
        library, ABI,
        "libmilchkompass.a and the crate milchkompass differ in their interface: \
         take both from one checkout"
    );
}

/// No task, edition 8, and no mark. The interface is compared before.
pub fn fresh() -> Session {
    check_abi();
    unsafe { milchkompass_fresh() }
}

pub fn launch(table: &[u8], s: &mut Session, edition: u8) -> Answer {
    unsafe { milchkompass_launch(table.as_ptr(), table.len(), s, edition) }
}

pub fn start(table: &[u8], s: &mut Session, b: u8, word: u32) -> Answer {
    unsafe { milchkompass_start(table.as_ptr(), table.len(), s, b, word) }
}

pub fn finish_start(table: &[u8], s: &mut Session, b: u8, word: u32) -> Answer {
    unsafe { milchkompass_finish_start(table.as_ptr(), table.len(), s, b, word) }
}

#[inline]
pub fn why(table: &[u8], s: &Session, b: u8, word: u32) -> Reason {
    unsafe { milchkompass_why(table.as_ptr(), table.len(), *s, b, word) }
}

pub fn fronts(table: &[u8], s: &Session, b: u8, mask: u32, value: u32) -> FrontSet {
    unsafe { milchkompass_fronts(table.as_ptr(), table.len(), *s, b, mask, value) }
}

pub fn back(table: &[u8], s: &mut Session) -> Answer {
    unsafe { milchkompass_back(table.as_ptr(), table.len(), s) }
}

/// A copy is lent: a look changes nothing.
pub fn look(table: &[u8], s: &Session) -> Answer {
    let mut copy = *s;
    unsafe { milchkompass_look(table.as_ptr(), table.len(), &mut copy) }
}

pub fn save(table: &[u8], s: &Session, out: &mut [u8]) -> SaveReply {
    let (bytes, length) = (out.as_mut_ptr(), out.len());
    unsafe { milchkompass_save(table.as_ptr(), table.len(), *s, bytes, length) }
}

/// A call that takes bytes behind the session.
type OnBytes = unsafe extern "C" fn(*const u8, usize, *mut Session, *const u8, usize) -> Answer;

#[inline]
fn on_bytes(call: OnBytes, table: &[u8], s: &mut Session, bytes: &[u8]) -> Answer {
    let (rest, length) = (bytes.as_ptr(), bytes.len());
    unsafe { call(table.as_ptr(), table.len(), s, rest, length) }
}

pub fn restore(table: &[u8], s: &mut Session, image: &[u8]) -> Answer {
    on_bytes(milchkompass_restore, table, s, image)
}

#[inline]
pub fn record_length(calls: &[u8]) -> usize {
    unsafe { milchkompass_record_length(calls.as_ptr(), calls.len()) }
}

#[inline]
pub fn play(table: &[u8], s: &mut Session, calls: &[u8]) -> Answer {
    on_bytes(milchkompass_play, table, s, calls)
}

#[inline]
pub fn call_length(calls: &[u8]) -> usize {
    unsafe { milchkompass_call_length(calls.as_ptr(), calls.len()) }
}

#[inline]
pub fn play_call(table: &[u8], s: &mut Session, calls: &[u8]) -> Answer {
    on_bytes(milchkompass_play_call, table, s, calls)
}

/// The interface is compared here: the table may be any bytes.
pub fn same_ending(table: &[u8], first: &[u8], second: &[u8]) -> Ending {
    check_abi();
    unsafe {
        milchkompass_same_ending(
            table.as_ptr(),
            table.len(),
            first.as_ptr(),
            first.len(),
            second.as_ptr(),
            second.len(),
        )
    }
}

pub fn load(table: &[u8], seed: u32, out: &mut [u8]) -> LoadReply {
    let (bytes, length) = (out.as_mut_ptr(), out.len());
    unsafe { milchkompass_load(table.as_ptr(), table.len(), seed, bytes, length) }
}

/// No table is made for a tally, so the interface is compared here.
pub fn tally_add(t: &mut Tally, refusal: u8, height: u8) -> u8 {
    check_abi();
    unsafe { milchkompass_tally_add(t, refusal, height) }
}

/// As `tally_add`.
pub fn tally_report(t: Tally) -> Report {
    check_abi();
    unsafe { milchkompass_tally_report(t) }
}

/// No table is made for a container, so the interface is compared here.
pub fn container_step(c: &mut Container, recorded: bool, operations: &[u8]) -> u8 {
    check_abi();
    let (bytes, length) = (operations.as_ptr(), operations.len());
    unsafe { milchkompass_container_step(c, recorded.into(), bytes, length) }
}

/// As `container_step`.
pub fn container_back(c: &mut Container) -> u8 {
    check_abi();
    unsafe { milchkompass_container_back(c) }
}

/// As `container_step`.
pub fn container_play(calls: &[u8]) -> Container {
    check_abi();
    unsafe { milchkompass_container_play(calls.as_ptr(), calls.len()) }
}

pub fn start_by_chart(table: &[u8], s: &mut Session, b: u8, word: u32) -> Answer {
    unsafe { milchkompass_start_by_chart(table.as_ptr(), table.len(), s, b, word) }
}

pub fn finish_start_by_chart(table: &[u8], s: &mut Session, b: u8, word: u32) -> Answer {
    unsafe { milchkompass_finish_start_by_chart(table.as_ptr(), table.len(), s, b, word) }
}

pub fn chart(index: u16) -> u8 {
    check_abi();
    unsafe { milchkompass_chart(index) }
}

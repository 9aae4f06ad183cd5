//! The calls with all their checks: each takes the table's bytes and a session
//! that may be anything, checks 1, 2 and 20 first, then those named for the
//! call. A refused call changes nothing.

use crate::{Answer, Done, Reason, Refusal, Session, Table};

/// The checks that come first in every call.
fn check(table: &[u8], session: &Session) -> Result<Table, Refusal> {
    let table = Table::parse(table)?;
    if !session.is_sound(&table) {
        return Err(Refusal::SessionUnsound);
    }
    Ok(table)
}

/// The answer of a call that left this session or was refused.
fn answer(result: Result<Done, Refusal>, session: &Session) -> Answer {
    match result {
        Ok(done) => session.answer(done.count.closed),
        Err(refusal) => Answer::refused(refusal),
    }
}

/// Launch with the edition that this byte names.
pub fn launch(table: &[u8], session: &mut Session, edition: u8) -> Answer {
    let result = check(table, session).and_then(|table| session.launch(&table, edition));
    answer(result, session)
}

/// Start of a screen.
pub fn start(table: &[u8], session: &mut Session, screen: u8, flags: u32) -> Answer {
    let result = check(table, session).and_then(|table| session.start(&table, screen, flags));
    answer(result, session)
}

/// Finishing start of a screen.
pub fn finishing_start(table: &[u8], session: &mut Session, screen: u8, flags: u32) -> Answer {
    let result =
        check(table, session).and_then(|table| session.finishing_start(&table, screen, flags));
    answer(result, session)
}

/// Back.
pub fn back(table: &[u8], session: &mut Session) -> Answer {
    let result = check(table, session).and_then(|_| session.back());
    answer(result, session)
}

/// Look.
pub fn look(table: &[u8], session: &Session) -> Answer {
    let result = check(table, session).map(|_| Done::default());
    answer(result, session)
}

/// Save: writes the image at the start of the buffer and leaves the rest;
/// gives 0 and the image's length, or the refusal's number and 0.
pub fn save(table: &[u8], session: &Session, buffer: &mut [u8]) -> (u8, usize) {
    let result = check(table, session).and_then(|_| {
        let image = session.image();
        let place = buffer.get_mut(..image.len()).ok_or(Refusal::BufferShort)?;
        place.copy_from_slice(&image);
        Ok(image.len())
    });
    match result {
        Ok(length) => (0, length),
        Err(refusal) => (refusal as u8, 0),
    }
}

/// Restore: puts the session of a whole image in the place of the present one,
/// whose screens do not count as closed.
pub fn restore(table: &[u8], session: &mut Session, image: &[u8]) -> Answer {
    let result = check(table, session).and_then(|table| {
        *session = Session::from_image(&table, image)?;
        Ok(Done::default())
    });
    answer(result, session)
}

/// Why: the reason of a start, or of a finishing start, of this screen with these
/// flags. Changes nothing.
pub fn why(table: &[u8], session: &Session, screen: u8, flags: u32) -> Reason {
    let result = check(table, session).and_then(|table| session.plan(&table, screen, flags));
    match result {
        Ok(choice) => Reason::chosen(choice),
        Err(refusal) => Reason::refused(refusal),
    }
}

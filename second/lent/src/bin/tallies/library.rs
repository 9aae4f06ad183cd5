//! The tally that is compared: the static library's, or another that a test puts in its
//! place. As the library declares it to C, the tally is lent to add a call, and to the
//! report it is passed by value.

use second::tally::{Report, Tally};

/// How many bytes before and after a lent tally are watched.
const GUARD: usize = 32;
const GUARDS: [u8; GUARD] = [0xa5; GUARD];

#[repr(C)]
#[derive(Clone, Copy)]
struct Stored {
    sum: u32,
    accepted: u16,
    refused: u16,
    greatest: u8,
}

#[repr(C)]
struct StoredReport {
    accepted: u16,
    refused: u16,
    tenths: u16,
    refusal: u8,
    greatest: u8,
}

extern "C" {
    fn milchkompass_tally_add(tally: *mut Stored, refusal: u8, height: u8) -> u8;

    fn milchkompass_tally_report(tally: Stored) -> StoredReport;
}

/// A tally with bytes around it that nobody may write.
#[repr(C)]
struct Guarded {
    before: [u8; GUARD],
    tally: Stored,
    after: [u8; GUARD],
}

impl Stored {
    fn hold(tally: Tally) -> Stored {
        Stored {
            sum: tally.sum,
            accepted: tally.accepted,
            refused: tally.refused,
            greatest: tally.greatest,
        }
    }

    fn view(self) -> Tally {
        Tally {
            sum: self.sum,
            accepted: self.accepted,
            refused: self.refused,
            greatest: self.greatest,
        }
    }
}

pub trait Library {
    /// Adds a call; gives the refusal's number, or 0, and whether the library wrote
    /// around the tally.
    fn add(&self, tally: &mut Tally, refusal: u8, height: u8) -> (u8, bool);
    /// The refusal's number, or 0, and the report.
    fn report(&self, tally: Tally) -> (u8, Report);
}

/// The static library.
pub struct Linked;

impl Library for Linked {
    fn add(&self, tally: &mut Tally, refusal: u8, height: u8) -> (u8, bool) {
        let mut lent = Guarded {
            before: GUARDS,
            tally: Stored::hold(*tally),
            after: GUARDS,
        };
        // The library may write all that is passed here, and keeps no pointer to it.
        let whole = &raw mut lent;
        let given = unsafe { milchkompass_tally_add(&raw mut (*whole).tally, refusal, height) };
        *tally = lent.tally.view();
        (given, lent.before != GUARDS || lent.after != GUARDS)
    }

    fn report(&self, tally: Tally) -> (u8, Report) {
        let given = unsafe { milchkompass_tally_report(Stored::hold(tally)) };
        let report = Report {
            accepted: given.accepted,
            refused: given.refused,
            greatest: given.greatest,
            tenths: given.tenths,
        };
        (given.refusal, report)
    }
}

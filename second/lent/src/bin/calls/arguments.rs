//! Random arguments of calls.

use second::random::Random;
use second::Session;

use lent_calls::call::{Call, Kind};
use lent_calls::damage;
use lent_calls::sessions::{self, Listed};
use lent_calls::starts::{flags, screen};

/// Weights of the kinds, in the order of `Kind::ALL`.
const WEIGHTS: [u64; 8] = [2, 40, 25, 12, 4, 7, 10, 10];

/// A call for a session under a table. The image, if it has one, is kept in the
/// place that is lent.
pub fn call<'a>(
    random: &mut Random,
    listed: &Listed,
    session: &Session,
    image: &'a mut Vec<u8>,
) -> Call<'a> {
    let kind = if session.is_empty() && random.percent(40) {
        Kind::Launch
    } else {
        Kind::ALL[random.weighted(&WEIGHTS)]
    };
    match kind {
        Kind::Launch => Call::Launch {
            edition: random.edition_byte(),
        },
        Kind::Start => Call::Start {
            screen: screen(random, listed, session),
            flags: flags(random),
        },
        Kind::FinishingStart => Call::FinishingStart {
            screen: screen(random, listed, session),
            flags: flags(random),
        },
        Kind::Back => Call::Back,
        Kind::Look => Call::Look,
        Kind::Save => Call::Save {
            length: buffer_length(random, session),
        },
        Kind::Restore => {
            *image = any_image(random, listed, session);
            Call::Restore { image }
        }
        Kind::Why => Call::Why {
            screen: screen(random, listed, session),
            flags: flags(random),
        },
    }
}

/// The session's image, another's, or one that is changed.
fn any_image(random: &mut Random, listed: &Listed, session: &Session) -> Vec<u8> {
    match random.below(3) {
        0 => session.image(),
        1 => sessions::sound(random, listed).image(),
        _ => damage::image(random, listed, session),
    }
}

/// The image's length, one byte off, or any other.
fn buffer_length(random: &mut Random, session: &Session) -> usize {
    let fits = session.image().len();
    match random.below(4) {
        0 => fits,
        1 => fits + 1,
        2 => fits - 1,
        _ => random.between(0, 700) as usize,
    }
}

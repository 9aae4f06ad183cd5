//! What is compared: a fixed set, and rounds over random sessions.

use second::edition::{EDITIONS, EIGHT};
use second::random::Random;
use second::session::{MAX_HEIGHT, MAX_TASKS};
use second::{Session, Task};

use lent_calls::call::{Call, Outcome};
use lent_calls::check::{Checked, Checker};
use lent_calls::damage;
use lent_calls::sessions::{self, held, Listed, T};
use lent_calls::stored::Stored;

/// Images up to this length have every byte set to every other value, now and
/// then.
const SMALL: usize = 24;

/// The paper's session in an edition.
fn paper(edition: u8) -> Session {
    Session {
        tasks: vec![Task::new(3, &[3]), Task::new(0, &[1, 0])],
        main: 2,
        edition,
        no_history: false,
    }
}

/// What is done for every seed: the paper's image in each edition, an empty session
/// and a full one, with a No-History front and another where there is one, each with
/// every one-byte change, and bytes of every length.
pub fn fixed(checker: &mut Checker, random: &mut Random) -> Checked {
    let listed = Listed::new(T.to_vec());
    let screens: Vec<u8> = (0..MAX_HEIGHT).map(|at| at as u8 % 3).collect();
    let full = Session {
        tasks: vec![Task::new(0, &screens); MAX_TASKS],
        main: MAX_TASKS,
        ..Session::fresh()
    };
    let present = held(&paper(EIGHT));
    let others = [full].into_iter().chain(EDITIONS.map(paper));
    for session in others
        .flat_map(sessions::both_fronts)
        .chain([Session::fresh()])
    {
        there_and_back(checker, random, &listed, &session)?;
        every_change(checker, &listed, &present, &session)?;
        long_images(checker, random, &listed, &session)?;
    }
    for length in 0..=700 {
        for fill in [0, 1, 0x42] {
            let bytes = vec![fill; length];
            restore(checker, "bytes alike", &T, &present, &bytes)?;
            let image = damage::with_trailer(bytes, [fill, 0, EIGHT]);
            restore(checker, "bytes alike with a trailer", &T, &present, &image)?;
        }
    }
    Ok(())
}

/// A random session under a random table, and what can be done with it.
pub fn round(checker: &mut Checker, random: &mut Random) -> Checked {
    let listed = Listed::random(random);
    let session = sessions::sound(random, &listed);
    there_and_back(checker, random, &listed, &session)?;
    if session.image().len() <= SMALL && random.percent(10) {
        let present = held(&sessions::sound(random, &listed));
        every_change(checker, &listed, &present, &session)?;
    }
    some_changes(checker, random, &listed, &session)?;
    bad_sessions(checker, random, &listed, &session)?;
    bad_tables(checker, random, &listed, &session)?;
    if random.percent(1) {
        long_images(checker, random, &listed, &session)?;
    }
    Ok(())
}

fn restore(
    checker: &mut Checker,
    what: &'static str,
    table: &[u8],
    present: &Stored,
    image: &[u8],
) -> Checked<Outcome> {
    checker.check(what, table, present, Call::Restore { image })
}

fn save(
    checker: &mut Checker,
    what: &'static str,
    table: &[u8],
    session: &Stored,
    length: usize,
) -> Checked<Outcome> {
    checker.check(what, table, session, Call::Save { length })
}

/// Saves into buffers of several lengths, and restores what was written over a
/// fresh session, the same one and another.
fn there_and_back(
    checker: &mut Checker,
    random: &mut Random,
    listed: &Listed,
    session: &Session,
) -> Checked {
    let table = &listed.bytes;
    let stored = held(session);
    let image = session.image();
    let fits = image.len();
    let longer = fits + random.between(1, 700) as usize;
    let shorter = random.below(fits as u64) as usize;
    for length in [fits, longer, fits + 1, fits - 1, shorter, 0] {
        save(checker, "saves", table, &stored, length)?;
    }
    let other = held(&sessions::sound(random, listed));
    for present in [Stored::FRESH, stored, other] {
        let after = restore(checker, "sessions there and back", table, &present, &image)?;
        assert!(
            after.session == stored,
            "the second navigator restores what it saved"
        );
    }
    checker.counts.add_session(session);
    Ok(())
}

/// Every byte of an image set to every other value.
fn every_change(
    checker: &mut Checker,
    listed: &Listed,
    present: &Stored,
    session: &Session,
) -> Checked {
    let mut image = session.image();
    for place in 0..image.len() {
        let right = image[place];
        for other in 1..=255 {
            image[place] = right.wrapping_add(other);
            restore(checker, "one byte changed", &listed.bytes, present, &image)?;
        }
        image[place] = right;
    }
    Ok(())
}

/// Single bytes changed at random, and images changed in larger ways, over a
/// sound session.
fn some_changes(
    checker: &mut Checker,
    random: &mut Random,
    listed: &Listed,
    session: &Session,
) -> Checked {
    let present = held(&sessions::sound(random, listed));
    let mut image = session.image();
    for _ in 0..100 {
        let place = random.below(image.len() as u64) as usize;
        let right = image[place];
        image[place] = random.byte(256);
        restore(checker, "one byte changed", &listed.bytes, &present, &image)?;
        image[place] = right;
    }
    for _ in 0..100 {
        let image = damage::image(random, listed, session);
        restore(checker, "images changed", &listed.bytes, &present, &image)?;
    }
    Ok(())
}

/// Images longer than any that save writes.
fn long_images(
    checker: &mut Checker,
    random: &mut Random,
    listed: &Listed,
    session: &Session,
) -> Checked {
    let present = held(&sessions::sound(random, listed));
    for image in damage::long_images(random, session) {
        restore(checker, "long images", &listed.bytes, &present, &image)?;
    }
    Ok(())
}

/// Present sessions that are likely not sound, with good and with bad images.
fn bad_sessions(
    checker: &mut Checker,
    random: &mut Random,
    listed: &Listed,
    session: &Session,
) -> Checked {
    for _ in 0..8 {
        let present = damage::stored(random, listed, session);
        let image = session.image();
        restore(checker, "sessions changed", &listed.bytes, &present, &image)?;
        let image = damage::image(random, listed, session);
        restore(checker, "sessions changed", &listed.bytes, &present, &image)?;
        let length = random.between(0, 700) as usize;
        save(checker, "sessions changed", &listed.bytes, &present, length)?;
    }
    Ok(())
}

/// Tables that are likely refused, and another good one, which may make the
/// session and its image unsound.
fn bad_tables(
    checker: &mut Checker,
    random: &mut Random,
    listed: &Listed,
    session: &Session,
) -> Checked {
    let image = session.image();
    let mut tables = vec![Listed::random(random).bytes];
    tables.extend((0..4).map(|_| damage::table(random, listed)));
    for table in &tables {
        let bad = damage::stored(random, listed, session);
        for present in [Stored::FRESH, held(session), bad] {
            restore(checker, "tables changed", table, &present, &image)?;
            let length = random.between(0, 700) as usize;
            save(checker, "tables changed", table, &present, length)?;
        }
    }
    Ok(())
}

//! Changed images, changed sessions and bad tables. A change may leave an image
//! good: the second navigator says what is to be refused.

use second::random::Random;
use second::session::{MAX_HEIGHT, MAX_TASKS};
use second::{Screen, Session, Task};

use crate::sessions::{held, may_root_once, Listed};
use crate::stored::{Stored, SESSION};

const TRAILER: usize = 6;
/// The bit of the m byte that is set where the front is a No-History one.
const MARK: u8 = 0x80;
/// L is two bytes, so no body is longer.
const LONGEST: usize = 0xffff;
/// Numbers at and beyond the limits.
pub const EXTREMES: [u8; 14] = [0, 1, 2, 15, 16, 17, 31, 32, 33, 64, 127, 128, 254, 255];

/// A body with the trailer that states its length, n, the m byte and the edition.
pub fn with_trailer(mut body: Vec<u8>, [n, main, edition]: [u8; 3]) -> Vec<u8> {
    let length = body.len() as u16;
    body.extend(length.to_be_bytes());
    body.extend([n, main, edition, 0x42]);
    body
}

/// Random bytes of a random length up to this.
pub fn noise(random: &mut Random, most: u64) -> Vec<u8> {
    let length = random.between(0, most);
    let limit = random.one_of(&[2, 5, 40, 256]);
    (0..length).map(|_| random.byte(limit)).collect()
}

/// An image changed: as bytes, with its trailer kept right, or as the image of
/// a changed session.
pub fn image(random: &mut Random, listed: &Listed, session: &Session) -> Vec<u8> {
    let image = session.image();
    match random.below(10) {
        0 => resized(random, image),
        1 => rewritten(random, image),
        2 => with_field(random, image),
        3 => with_other_body(random, image),
        4 => {
            let body = noise(random, 700);
            let fields = any_fields(random);
            with_trailer(body, fields)
        }
        5 => noise(random, 700),
        6 => with_edition(random, image),
        7 => with_m_byte(random, image),
        _ => self::session(random, listed, session).image(),
    }
}

/// Cut or grown at its front, its end or between.
fn resized(random: &mut Random, mut image: Vec<u8>) -> Vec<u8> {
    let at = match random.below(3) {
        0 => 0,
        1 => image.len(),
        _ => random.between(0, image.len() as u64) as usize,
    };
    if random.percent(50) {
        let more = noise(random, 40);
        image.splice(at..at, more);
    } else {
        let end = random.between(at as u64, image.len() as u64) as usize;
        let from = if at == image.len() {
            random.between(0, at as u64) as usize
        } else {
            at
        };
        image.drain(from..end);
    }
    image
}

/// A few bytes set anew, or two of them swapped.
fn rewritten(random: &mut Random, mut image: Vec<u8>) -> Vec<u8> {
    let place = |random: &mut Random| random.below(image.len() as u64) as usize;
    let (first, second) = (place(random), place(random));
    if random.percent(50) {
        image.swap(first, second);
    } else {
        image[first] = random.byte(256);
        image[second] = random.one_of(&EXTREMES);
    }
    image
}

/// Any n and m up to beyond the limits, with a mark or without, and a byte for the
/// edition.
pub fn any_fields(random: &mut Random) -> [u8; 3] {
    let mark = random.one_of(&[0, MARK]);
    [
        random.byte(18),
        random.byte(18) | mark,
        random.edition_byte(),
    ]
}

/// The mark turned, or any m byte.
fn with_m_byte(random: &mut Random, mut image: Vec<u8>) -> Vec<u8> {
    let place = image.len() - 3;
    image[place] = match random.below(3) {
        0 => random.one_of(&[127, 128, 255]),
        1 => random.byte(256),
        _ => image[place] ^ MARK,
    };
    image
}

/// The edition set to another one, or to a byte that is none.
fn with_edition(random: &mut Random, mut image: Vec<u8>) -> Vec<u8> {
    let place = image.len() - 2;
    image[place] = random.edition_byte();
    image
}

/// One byte of the trailer, or all of L, set to an extreme.
fn with_field(random: &mut Random, mut image: Vec<u8>) -> Vec<u8> {
    let trailer = image.len() - TRAILER;
    if random.percent(70) {
        let field = random.below(TRAILER as u64) as usize;
        image[trailer + field] = random.one_of(&EXTREMES);
    } else {
        let other = random.one_of(&[0, 1, 0x100, 0x222, 0x8000, 0xffff]);
        let stated = random.one_of(&[trailer as u16 + 1, (trailer as u16).wrapping_sub(1), other]);
        image[trailer..trailer + 2].copy_from_slice(&stated.to_be_bytes());
    }
    image
}

/// A changed body whose length is stated rightly.
fn with_other_body(random: &mut Random, mut image: Vec<u8>) -> Vec<u8> {
    let trailer = image.len() - TRAILER;
    let fields = [2, 3, 4].map(|field| image[trailer + field]);
    image.truncate(trailer);
    if random.percent(50) && !image.is_empty() {
        image = rewritten(random, image);
    } else {
        image = resized(random, image);
    }
    with_trailer(image, fields)
}

/// Images of 65541 bytes and more: a body of the greatest length, rightly
/// stated, and lengths that two bytes state only without their high part.
pub fn long_images(random: &mut Random, session: &Session) -> Vec<Vec<u8>> {
    let image = session.image();
    let fill = random.one_of(&[0, 1, 255]);
    let fields = any_fields(random);
    let mut images = vec![with_trailer(vec![fill; LONGEST], fields)];
    for more in [LONGEST, LONGEST + 1, LONGEST + 2, 2 * (LONGEST + 1)] {
        images.push([&vec![fill; more], &image[..]].concat());
        images.push([&image[..], &vec![fill; more]].concat());
    }
    images
}

/// A session with something changed that soundness speaks of.
pub fn session(random: &mut Random, listed: &Listed, from: &Session) -> Session {
    let mut session = from.clone();
    match random.below(10) {
        0 => session.edition = random.edition_byte(),
        1 => session.no_history = !session.no_history,
        _ => change_stacks(random, listed, &mut session),
    }
    session
}

/// Changes the main place, or a task.
fn change_stacks(random: &mut Random, listed: &Listed, session: &mut Session) {
    let number = match random.below(4) {
        0 => listed.screens,
        1 => random.byte(256),
        _ => random.byte(u16::from(listed.screens)),
    };
    let count = session.tasks.len();
    if count == 0 {
        session.main = usize::from(number);
        return;
    }
    let at = random.below(count as u64) as usize;
    let task = &mut session.tasks[at];
    match random.below(9) {
        0 => session.main = usize::from(random.one_of(&EXTREMES)),
        1 => session.main = random.between(0, count as u64 + 1) as usize,
        2 => task.root = number,
        3 => {
            let place = random.below(task.height() as u64) as usize;
            task.screens[place] = Screen::new(number);
        }
        4 => task.screens.push(Screen::new(number)),
        5 => task.screens.resize(MAX_HEIGHT + 1, Screen::new(number)),
        6 => task.screens.clear(),
        7 => {
            let again = task.clone();
            session.tasks.resize(MAX_TASKS + 1, again);
        }
        _ => twice(random, listed, session),
    }
}

/// One root, a single one if the session has any, is made the root of two
/// tasks.
fn twice(random: &mut Random, listed: &Listed, session: &mut Session) {
    let roots: Vec<u8> = session.tasks.iter().map(|task| task.root).collect();
    let single: Vec<u8> = (roots.iter().copied())
        .filter(|&root| may_root_once(listed, root))
        .collect();
    let root = random.one_of(if single.is_empty() { &roots } else { &single });
    let place = random.between(0, roots.len() as u64) as usize;
    let screen = random.one_of(&roots);
    session.tasks.insert(place, Task::new(root, &[screen]));
}

/// A stored session with a change of what soundness speaks of, or of any bytes.
pub fn stored(random: &mut Random, listed: &Listed, from: &Session) -> Stored {
    let changed = session(random, listed, from);
    if let (true, Some(stored)) = (random.percent(50), Stored::hold(&changed)) {
        return stored;
    }
    let mut bytes = held(from).bytes();
    let changes = random.one_of(&[1, 1, 1, 2, 40]);
    for _ in 0..changes {
        let place = match random.below(4) {
            0 => SESSION - 1 - random.below(4) as usize,
            _ => random.below(SESSION as u64) as usize,
        };
        bytes[place] = match random.below(3) {
            0 => random.one_of(&EXTREMES),
            1 => bytes[place] ^ 1 << random.below(8),
            _ => random.byte(256),
        };
    }
    Stored::from_bytes(bytes)
}

/// A table changed so that it is likely refused.
pub fn table(random: &mut Random, listed: &Listed) -> Vec<u8> {
    let mut table = listed.bytes.clone();
    match random.below(8) {
        0 => table.clear(),
        1 => table.truncate(random.below(table.len() as u64) as usize),
        2 => table.extend(noise(random, 4)),
        3 => table[0] = random.one_of(&EXTREMES),
        4 => table[0] = table[0].wrapping_add(1),
        5 => table[1] = random.one_of(&[listed.screens, 64, 255]),
        _ => {
            let screen = random.byte(u16::from(listed.screens));
            table[2 + 2 * usize::from(screen)] = random.one_of(&[4, 5, 128, 255]);
        }
    }
    table
}

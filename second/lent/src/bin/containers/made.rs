//! Random containers, good and bad in each of their fields, operations and lists.

use second::panels::{Call, Container, MAX_PANELS, MAX_STEPS};
use second::random::Random;

use crate::stored::{Stored, CONTAINER};

/// A number of panels or steps up to eight, mostly at an end.
fn number(random: &mut Random) -> u64 {
    match random.below(4) {
        0 => 0,
        1 => MAX_PANELS as u64,
        _ => random.between(0, MAX_PANELS as u64),
    }
}

fn panels(random: &mut Random) -> Vec<u8> {
    let numbers = random.one_of(&[1, 2, 3, 256]);
    (0..number(random)).map(|_| random.byte(numbers)).collect()
}

/// A container that no list need give.
pub fn container(random: &mut Random) -> Container {
    Container {
        now: panels(random),
        kept: (0..number(random)).map(|_| panels(random)).collect(),
    }
}

/// A held container: good with zeros beyond, good with other bytes there, bad in one
/// field, or any bytes.
pub fn held(random: &mut Random) -> Stored {
    let good = Stored::hold(&container(random));
    match random.below(10) {
        0..=2 => good,
        3..=5 => with_bytes_beyond(random, good),
        6..=8 => {
            let mut held = with_bytes_beyond(random, good);
            let bad = random.one_of(&[9, 9, 10, 128, 255]);
            match random.below(3) {
                0 => held.steps = bad,
                1 => held.now.count = bad,
                _ => held.kept[random.below(MAX_STEPS as u64) as usize].count = bad,
            }
            held
        }
        _ => Stored::from_bytes([0; CONTAINER].map(|_| random.byte(10))),
    }
}

/// Other bytes than 0 beyond counts and steps.
fn with_bytes_beyond(random: &mut Random, mut held: Stored) -> Stored {
    let steps = usize::from(held.steps);
    let all = [&mut held.now].into_iter().chain(&mut held.kept);
    for (place, stored) in all.enumerate() {
        let count = match place > steps {
            true => 0,
            false => usize::from(stored.count),
        };
        stored.panels[count..].fill(random.byte(256));
        if place > steps {
            stored.count = random.byte(256);
        }
    }
    held
}

/// Operations of a step, mostly good.
pub fn operations(random: &mut Random) -> Vec<u8> {
    let count = match random.below(12) {
        0 => 0,
        1 => 5,
        2 => random.between(0, 200),
        _ => random.between(1, 4),
    };
    let numbers = random.one_of(&[1, 2, 3, 256]);
    let mut bytes = Vec::new();
    for _ in 0..count {
        let kind = match random.below(40) {
            0 => 0,
            1 => 4,
            2 => random.byte(256),
            _ => random.one_of(&[1, 1, 2, 3]),
        };
        bytes.extend([kind, random.byte(numbers)]);
    }
    if random.percent(3) {
        bytes.push(1);
    }
    bytes
}

/// A list of calls, some unknown, some with a wrong count, now and then cut.
pub fn list(random: &mut Random) -> Vec<u8> {
    let most = random.one_of(&[2, 10, 40]);
    let mut list = Vec::new();
    let kinds: [u8; 6] = match random.below(3) {
        0 => [Call::STEP; 6],
        1 => [2, 2, 2, 2, 2, 3],
        _ => [1, 2, 2, 2, 3, 3],
    };
    for _ in 0..random.between(0, most) {
        let kind = match random.below(20) {
            0 => random.one_of(&[0, 4, 255]),
            _ => random.one_of(&kinds),
        };
        let operations = match random.below(4) {
            0 if kind == Call::BACK => Vec::new(),
            1 => vec![1, random.byte(3)],
            _ => operations(random),
        };
        let count = match random.below(30) {
            0 => random.byte(256),
            _ => (operations.len() / 2) as u8,
        };
        list.extend([kind, count]);
        list.extend(&operations[..operations.len() / 2 * 2]);
    }
    if random.percent(20) && !list.is_empty() {
        list.truncate(random.below(list.len() as u64) as usize);
    }
    list.truncate(crate::check::LONGEST);
    list
}

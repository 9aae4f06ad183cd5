//! Loads, by hand from request 8.

mod common;

use common::T;
use second::load::{fill, record, records, step, Load};
use second::play::Player;
use second::random::Random;
use second::Refusal;

#[test]
fn steps() {
    assert_eq!(step(1), 0x8020_0003);
    assert_eq!(step(0x8020_0003), 0xc030_0002);
    assert_eq!(step(0xc030_0002), 0x6018_0001);
    assert_eq!(step(2), 1);
    assert_eq!(step(0x8000_0000), 0x4000_0000);
    assert_eq!(step(u32::MAX), 0xffdf_fffc);
    assert_eq!(step(0), 0);
}

#[test]
fn two_records_from_seed_1() {
    let first = [4, 2, 0x60, 0, 0, 0];
    assert_eq!(record(6, 1), (first, 0x6018_0001));
    let second = [4, 2, 0x6c, 0x02, 0, 0];
    assert_eq!(record(6, 0x6018_0001), (second, 0x6c1b_0001));
    let mut buffer = [0xee; 14];
    let load = Load {
        count: 2,
        state: 0x6c1b_0001,
    };
    assert_eq!(fill(&T, 1, &mut buffer), Ok(load));
    assert_eq!(buffer, *[&first[..], &second, &[0xee; 2]].concat());
}

#[test]
fn a_record_from_the_last_seed() {
    let made = [1, 2, 0x3c, 0x02, 0x80, 0];
    assert_eq!(record(6, u32::MAX), (made, 0x3ff7_ffff));
    assert_eq!(records(&T, u32::MAX, 1), made);
}

#[test]
fn fewer_than_six_bytes_take_no_record() {
    for length in 0..6 {
        let mut buffer = vec![7; length];
        let load = Load {
            count: 0,
            state: 12,
        };
        assert_eq!(fill(&T, 12, &mut buffer), Ok(load));
        assert_eq!(buffer, vec![7; length]);
    }
}

#[test]
fn checks_1_and_2_come_before_32() {
    let mut content = T;
    content[1] = 6;
    let refused = [
        (&T[..13], 1, Refusal::TableLength),
        (&T[..13], 0, Refusal::TableLength),
        (&[], 0, Refusal::TableLength),
        (&content, 1, Refusal::TableContent),
        (&content, 0, Refusal::TableContent),
        (&T, 0, Refusal::SeedZero),
    ];
    for (table, seed, refusal) in refused {
        let mut buffer = [7; 20];
        assert_eq!(fill(table, seed, &mut buffer), Err(refusal));
        assert_eq!(buffer, [7; 20]);
    }
    assert_eq!(Refusal::SeedZero as u8, 32);
}

#[test]
fn a_load_in_two_parts_is_the_load_in_one() {
    let mut random = Random::new(8);
    for _ in 0..200 {
        let screens = random.between(1, 64) as u8;
        let table = random.table(screens, 3, &[1, 1, 1, 1]);
        let seed = 1 + random.below(u64::from(u32::MAX)) as u32;
        let (one, two) = (random.below(40) as usize, random.below(40) as usize);
        let mut whole = vec![0; 6 * (one + two)];
        let after = fill(&table, seed, &mut whole).unwrap();
        let (first, second) = whole.split_at(6 * one);
        let (mut part, mut more) = (vec![9; 6 * one + 5], vec![9; 6 * two + 3]);
        let middle = fill(&table, seed, &mut part).unwrap();
        let end = fill(&table, middle.state, &mut more).unwrap();
        assert_eq!(part, [first, &[9; 5]].concat());
        assert_eq!(more, [second, &[9; 3]].concat());
        assert_eq!(
            (middle.count + end.count, end.state),
            (after.count, after.state)
        );
    }
}

#[test]
fn no_record_draws_3_4_or_9_and_every_kind_comes_up() {
    let mut random = Random::new(9);
    let mut kinds = [0; 6];
    for screens in 1..=64 {
        let table = random.table(screens, 2, &[1, 1, 1, 1]);
        let mut player = Player::open(&mut &table[..]).unwrap().unwrap();
        for record in records(&table, random.next() as u32 | 1, 1000).chunks(6) {
            let refusal = player.record(record).answer.refusal;
            assert!(![3, 4, 9].contains(&refusal), "{record:?}: {refusal}");
            kinds[usize::from(record[0])] += 1;
        }
    }
    assert!(kinds[0] == 0 && kinds[1..].iter().all(|&times| times > 0));
}

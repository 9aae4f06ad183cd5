//! Panels inside a screen, by hand from request 14.

use second::panels::{calls, Call, Container, Operation};
use second::random::Random;
use second::Refusal;

const ADD: u8 = 1;
const REMOVE: u8 = 2;
const REPLACE: u8 = 3;

const NOT_PANELS: Result<(), Refusal> = Err(Refusal::NotPanels);
const FULL: Result<(), Refusal> = Err(Refusal::PanelsFull);
const NO_STEP: Result<(), Refusal> = Err(Refusal::NoStep);

fn container(now: &[u8], kept: &[&[u8]]) -> Container {
    Container {
        now: now.to_vec(),
        kept: kept.iter().map(|panels| panels.to_vec()).collect(),
    }
}

/// A step from a container: the refusal, if any, with the container as it was, or the
/// container after it.
fn step(from: &Container, recorded: bool, operations: &[u8]) -> Result<Container, Refusal> {
    let mut after = from.clone();
    let result = after.step(recorded, operations);
    if result.is_err() {
        assert_eq!(after, *from, "a refused step keeps the container");
    }
    result.map(|()| after)
}

#[test]
fn refusals_have_their_numbers() {
    let numbers = [Refusal::NotPanels, Refusal::PanelsFull, Refusal::NoStep];
    assert_eq!(numbers.map(|refusal| refusal as u8), [36, 37, 38]);
}

#[test]
fn operations() {
    let from = container(&[1, 2, 1, 3], &[]);
    let now = |operations: &[u8]| step(&from, false, operations).unwrap().now;
    assert_eq!(now(&[ADD, 2]), [1, 2, 1, 3, 2]);
    assert_eq!(now(&[REMOVE, 1]), [1, 2, 3]);
    assert_eq!(now(&[REMOVE, 1, REMOVE, 1]), [2, 3]);
    assert_eq!(now(&[REMOVE, 9]), [1, 2, 1, 3]);
    assert_eq!(now(&[REPLACE, 0]), [0]);
    assert_eq!(now(&[REPLACE, 7, ADD, 7, REMOVE, 7, ADD, 255]), [7, 255]);
}

#[test]
fn a_recorded_step_keeps_what_it_found_and_back_brings_it_back() {
    let mut all = container(&[5], &[]);
    all.step(true, &[ADD, 1, ADD, 2]).unwrap();
    all.step(true, &[REMOVE, 9]).unwrap();
    assert_eq!(all, container(&[5, 1, 2], &[&[5], &[5, 1, 2]]));
    all.back().unwrap();
    assert_eq!(all, container(&[5, 1, 2], &[&[5]]));
    all.back().unwrap();
    assert_eq!(all, container(&[5], &[]));
    assert_eq!(all.back(), NO_STEP);
    assert_eq!(all, container(&[5], &[]));
}

#[test]
fn an_unrecorded_step_is_carried_out_only_when_nothing_is_recorded() {
    let recorded = container(&[1], &[&[]]);
    assert_eq!(step(&recorded, false, &[ADD, 2]), Err(Refusal::NoStep));
    assert_eq!(
        step(&recorded, true, &[ADD, 2]),
        Ok(container(&[1, 2], &[&[], &[1]]))
    );
    let plain = container(&[1], &[]);
    assert_eq!(step(&plain, false, &[ADD, 2]), Ok(container(&[1, 2], &[])));
}

#[test]
fn bad_counts_and_kinds() {
    let mut from = container(&[1], &[]);
    for length in 0..=20 {
        let operations = [ADD, 1].repeat(10);
        let result = step(&from, true, &operations[..length]);
        let is_good = matches!(length, 2 | 4 | 6 | 8);
        assert_eq!(result.is_ok(), is_good, "{length} bytes");
    }
    for kind in (0..=255).filter(|kind| !(1..=3).contains(kind)) {
        assert_eq!(from.step(true, &[kind, 1]), NOT_PANELS);
        assert_eq!(
            from.step(false, &[ADD, 1, ADD, 1, ADD, 1, kind, 1]),
            NOT_PANELS
        );
    }
}

#[test]
fn a_ninth_panel() {
    let full = container(&[7; 8], &[]);
    let refused = |operations: &[u8]| step(&full, true, operations).err();
    assert_eq!(refused(&[ADD, 1]), Some(Refusal::PanelsFull));
    assert_eq!(refused(&[ADD, 1, REMOVE, 1]), Some(Refusal::PanelsFull));
    assert_eq!(refused(&[ADD, 1, REPLACE, 1]), Some(Refusal::PanelsFull));
    assert_eq!(refused(&[REMOVE, 7, ADD, 1]), None);
    assert_eq!(refused(&[REPLACE, 1, ADD, 1]), None);
    assert_eq!(refused(&[REMOVE, 1, ADD, 1]), Some(Refusal::PanelsFull));
    assert_eq!(
        refused(&[REMOVE, 7, ADD, 1, ADD, 1]),
        Some(Refusal::PanelsFull)
    );
    let seven = container(&[7; 7], &[]);
    assert_eq!(step(&seven, false, &[ADD, 7]), Ok(full));
}

#[test]
fn a_ninth_step() {
    let eight = container(&[1], &[&[][..]; 8]);
    assert_eq!(step(&eight, true, &[ADD, 1]), Err(Refusal::NoStep));
    let seven = container(&[], &[&[][..]; 7]);
    assert_eq!(step(&seven, true, &[ADD, 1]), Ok(eight));
}

#[test]
fn the_order_of_checks() {
    // 36 before 37 and 38, 37 before 38.
    let full = container(&[7; 8], &[&[][..]; 8]);
    assert_eq!(step(&full, true, &[ADD, 1, 4, 1]), Err(Refusal::NotPanels));
    assert_eq!(step(&full, true, &[ADD, 1]), Err(Refusal::PanelsFull));
    assert_eq!(step(&full, false, &[ADD, 1]), Err(Refusal::PanelsFull));
    assert_eq!(step(&full, false, &[REMOVE, 7]), Err(Refusal::NoStep));
}

#[test]
fn containers_with_too_many() {
    let bad = [
        container(&[0; 9], &[]),
        container(&[], &[&[][..]; 9]),
        container(&[], &[&[], &[0; 9][..]]),
        container(&[0; 255], &[&[0; 255][..]; 255]),
    ];
    for mut container in bad {
        for operations in [&[ADD, 1][..], &[REPLACE, 1], &[]] {
            for recorded in [false, true] {
                assert_eq!(container.step(recorded, operations), NOT_PANELS);
            }
        }
        assert_eq!(container.back(), NOT_PANELS);
    }
    let mut most = container(&[0; 8], &[&[0; 8][..]; 8]);
    assert_eq!(most.step(true, &[ADD, 1]), FULL);
    assert_eq!(most.back(), Ok(()));
}

#[test]
fn lists() {
    let list = [
        2, 1, ADD, 3, 9, 1, ADD, 9, 3, 2, 0, 0, 0, 0, 1, 1, ADD, 4, 1, 2, ADD,
    ];
    let read: Vec<u8> = calls(&list).map(|call| call.kind).collect();
    assert_eq!(read, [2, 9, 3, 1]);
    assert_eq!(Container::play(&list), container(&[4], &[]));
    assert_eq!(Container::play(&list[..4]), container(&[3], &[&[]]));
    assert_eq!(Container::play(&list[..9]), container(&[3], &[&[]]));
    assert_eq!(Container::play(&[]), container(&[], &[]));
    assert_eq!(Container::play(&[2]), container(&[], &[]));
    // A Back without its bytes is cut.
    assert_eq!(
        Container::play(&[2, 1, ADD, 3, 3, 1]),
        container(&[3], &[&[]])
    );
    // No operation, and five: refused, and the list goes on.
    let refused = [1, 0, 1, 5, 1, 1, 1, 1, 1, 1, 1, 1, 1, 1, 1, 1, ADD, 8];
    assert_eq!(Container::play(&refused), container(&[8], &[]));
}

/// The panels are those of the steps carried out and not undone.
#[test]
fn the_panels_are_those_of_the_steps_not_undone() {
    let run = |steps: &[(bool, Vec<u8>)]| {
        let mut panels = Vec::new();
        for operation in steps
            .iter()
            .flat_map(|(_, bytes)| Operation::list(bytes).unwrap())
        {
            operation.carry_out(&mut panels).unwrap();
        }
        panels
    };
    let mut random = Random::new(14);
    for _ in 0..2000 {
        let mut container = Container::default();
        let mut live: Vec<(bool, Vec<u8>)> = Vec::new();
        for _ in 0..random.between(0, 40) {
            let count = random.between(1, 5);
            let operations: Vec<u8> = (0..count)
                .flat_map(|_| [random.between(1, 3) as u8, random.byte(3)])
                .collect();
            let kind = random.one_of(&[
                Call::STEP,
                Call::RECORDED_STEP,
                Call::RECORDED_STEP,
                Call::BACK,
            ]);
            let call = Call {
                kind,
                operations: &operations,
            };
            match (container.make(call), kind) {
                (Err(_), _) => {}
                (Ok(()), Call::BACK) => {
                    let (recorded, _) = live.pop().expect("a step is undone");
                    assert!(recorded, "it was recorded");
                }
                (Ok(()), _) => live.push((kind == Call::RECORDED_STEP, operations)),
            }
            assert_eq!(container.now, run(&live));
            let plain = live.iter().take_while(|(recorded, _)| !recorded).count();
            assert!(live[plain..].iter().all(|(recorded, _)| *recorded));
            assert_eq!(container.kept.len(), live.len() - plain);
            for (at, kept) in container.kept.iter().enumerate() {
                assert_eq!(*kept, run(&live[..plain + at]));
            }
        }
    }
}

//! Containers of panels: steps, Back, lists, the limits, and what is refused.

use milchkompass::Operation::{Add, Remove, Replace};
use milchkompass::{Container, Operation, Refusal};

/// A container after these steps, which are accepted.
fn with(steps: &[(bool, &[Operation])]) -> Container {
    let mut container = Container::new();
    for (recorded, operations) in steps {
        assert_eq!(container.step(*recorded, operations), Ok(()));
    }
    container
}

/// The step is refused so, and the container is kept.
fn refused(before: Container, recorded: bool, operations: &[Operation], refusal: Refusal) {
    let mut container = before;
    assert_eq!(container.step(recorded, operations), Err(refusal));
    assert_eq!(container, before);
}

#[test]
fn operations() {
    let mut container = with(&[(false, &[Add(3), Add(1), Add(3), Add(255)])]);
    assert_eq!(container.to_string(), "[3,1,3,255], 0 recorded");
    assert_eq!(container.step(true, &[Remove(3), Remove(9)]), Ok(()));
    assert_eq!(container.panels(), [3, 1, 255]);
    assert_eq!(container.step(true, &[Replace(0), Add(0)]), Ok(()));
    assert_eq!((container.panels(), container.steps()), (&[0, 0][..], 2));
    assert_eq!(container.back(), Ok(()));
    assert_eq!(container.panels(), [3, 1, 255]);
    assert_eq!(container.back(), Ok(()));
    assert_eq!(
        format!("{container:?}"),
        "Container([3,1,3,255], 0 recorded)"
    );
    assert_eq!(container.back(), Err(Refusal::StepOutOfPlace));
    assert_eq!(container.panels(), [3, 1, 3, 255]);
}

#[test]
fn counts_of_operations() {
    let empty = Container::default();
    refused(empty, true, &[], Refusal::BadStepOrContainer);
    refused(empty, false, &[Replace(1); 5], Refusal::BadStepOrContainer);
    refused(
        empty,
        false,
        &[Replace(1); 200],
        Refusal::BadStepOrContainer,
    );
    assert_eq!(with(&[(true, &[Replace(1); 4])]).panels(), [1]);
}

/// Operation by operation, and before the place of the step.
#[test]
fn nine_panels() {
    let full = with(&[(false, &[Add(1); 4]), (false, &[Add(2); 4])]);
    refused(full, false, &[Add(3)], Refusal::PanelsFull);
    refused(full, true, &[Add(3), Remove(3)], Refusal::PanelsFull);
    let mut container = full;
    assert_eq!(container.step(false, &[Remove(1), Add(3)]), Ok(()));
    assert_eq!(container.panels(), [1, 1, 1, 2, 2, 2, 2, 3]);
    let mut recorded = full;
    assert_eq!(recorded.step(true, &[Remove(9)]), Ok(()));
    assert_eq!((recorded.panels(), recorded.steps()), (full.panels(), 1));
    refused(recorded, false, &[Add(3)], Refusal::PanelsFull);
    refused(recorded, false, &[Remove(9)], Refusal::StepOutOfPlace);
}

#[test]
fn eight_steps() {
    let step: (bool, &[Operation]) = (true, &[Add(7)]);
    let mut container = with(&[step; 8]);
    refused(container, true, &[Remove(7)], Refusal::StepOutOfPlace);
    for left in (0..8).rev() {
        assert_eq!(container.back(), Ok(()));
        assert_eq!(
            (container.panels(), container.steps()),
            (&[7; 8][..left], left)
        );
    }
    assert_eq!(container, Container::new());
}

#[test]
fn lists() {
    let calls = [
        1, 1, 1, 4, // step add 4
        2, 2, 1, 5, 1, 4, // record add 5 add 4
        9, 1, 3, 9, // no call
        3, 1, 1, 1, // back, which passes over two bytes
        2, 1, 2, 4, // record remove 4
        2, 0, // record, without operations: refused
        2, 1, 1, // cut
    ];
    let wanted = with(&[(false, &[Add(4)]), (true, &[Remove(4)])]);
    assert_eq!(Container::play(&calls), wanted);
    assert_eq!(
        Container::play(&calls[..10]).to_string(),
        "[4,5,4], 1 recorded"
    );
    for cut in [0, 1, 2, 3] {
        assert_eq!(Container::play(&calls[..cut]), Container::new());
    }
}

#[test]
fn words() {
    let words: Vec<String> = [Add(0), Remove(12), Replace(255)]
        .iter()
        .map(Operation::to_string)
        .collect();
    assert_eq!(words, ["add 0", "remove 12", "replace 255"]);
}

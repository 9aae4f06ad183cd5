//! The comparison finds wrong containers: in the static library's place stands one that
//! is right or has one thing wrong.

use second::panels::{calls, Call, Container};

use crate::check::Checker;
use crate::library::Library;
use crate::stored::Stored;

/// What the stand-in does wrong, if anything.
#[derive(Clone, Copy, Debug, PartialEq)]
enum Wrong {
    Nothing,
    RemoveLowest,
    RemoveAll,
    RemoveOfNoneRefused,
    ReplaceKeepsOne,
    KeptAfterTheStep,
    BackUndoesOneOperation,
    BackKeepsTheStep,
    BackBringsTheFirst,
    FullDecidedAtTheEnd,
    StepBeforeFull,
    NinthPanel,
    NinthStep,
    EighthStepRefused,
    UnrecordedOverRecorded,
    RecordedByOneOnly,
    KindZeroTaken,
    KindFourTaken,
    FiveOperationsTaken,
    OddByteLeftOut,
    KindsCheckedAlong,
    BackTakesAnyContainer,
    KeptNotChecked,
    KeptBeyondChecked,
    NineSteps,
    BytesBeyondKept,
    RefusedStepStored,
    PlayStopsAtUnknownKind,
    PlayStopsAtRefusal,
    PlayTakesBackAlone,
    PlayTakesCutStep,
}

use Wrong::*;

const WRONG: [Wrong; 30] = [
    RemoveLowest,
    RemoveAll,
    RemoveOfNoneRefused,
    ReplaceKeepsOne,
    KeptAfterTheStep,
    BackUndoesOneOperation,
    BackKeepsTheStep,
    BackBringsTheFirst,
    FullDecidedAtTheEnd,
    StepBeforeFull,
    NinthPanel,
    NinthStep,
    EighthStepRefused,
    UnrecordedOverRecorded,
    RecordedByOneOnly,
    KindZeroTaken,
    KindFourTaken,
    FiveOperationsTaken,
    OddByteLeftOut,
    KindsCheckedAlong,
    BackTakesAnyContainer,
    KeptNotChecked,
    KeptBeyondChecked,
    NineSteps,
    BytesBeyondKept,
    RefusedStepStored,
    PlayStopsAtUnknownKind,
    PlayStopsAtRefusal,
    PlayTakesBackAlone,
    PlayTakesCutStep,
];

struct StandIn(Wrong);

impl StandIn {
    fn is(&self, wrong: Wrong) -> bool {
        self.0 == wrong
    }

    fn container_is_bad(&self, held: &Stored) -> bool {
        let looked_at = match self.0 {
            KeptNotChecked => 0,
            KeptBeyondChecked => 8,
            _ => usize::from(held.steps),
        };
        let steps = held.steps > 8 && !(self.is(NineSteps) && held.steps == 9);
        steps || held.now.count > 8 || held.kept.iter().take(looked_at).any(|kept| kept.count > 8)
    }

    fn operations_are_bad(&self, bytes: &[u8]) -> bool {
        let count = bytes.len() / 2;
        let most = if self.is(FiveOperationsTaken) { 5 } else { 4 };
        let odd = bytes.len() % 2 == 1 && !self.is(OddByteLeftOut);
        odd || count == 0 || count > most || {
            let mut kinds = bytes.chunks_exact(2).map(|pair| pair[0]);
            !self.is(KindsCheckedAlong) && kinds.any(|kind| self.kind_is_bad(kind))
        }
    }

    fn kind_is_bad(&self, kind: u8) -> bool {
        match kind {
            0 => !self.is(KindZeroTaken),
            1..=3 => false,
            4 => !self.is(KindFourTaken),
            _ => true,
        }
    }

    /// The panels after operations, or the refusal.
    fn carried_out(&self, now: &[u8], bytes: &[u8]) -> Result<Vec<u8>, u8> {
        let mut panels = now.to_vec();
        for pair in bytes.chunks_exact(2) {
            let (kind, panel) = (pair[0], pair[1]);
            if self.kind_is_bad(kind) {
                return Err(36);
            }
            match kind {
                1 if panels.len() >= 8 && !self.is(FullDecidedAtTheEnd) => {
                    if self.is(NinthPanel) && panels.len() == 8 {
                        panels[7] = panel;
                    } else {
                        return Err(37);
                    }
                }
                1 => panels.push(panel),
                3 if self.is(ReplaceKeepsOne) && !panels.is_empty() => {
                    panels.truncate(1);
                    panels.push(panel);
                }
                3 => panels = vec![panel],
                _ => self.remove(&mut panels, panel)?,
            }
        }
        if panels.len() > 8 {
            return Err(37);
        }
        Ok(panels)
    }

    fn remove(&self, panels: &mut Vec<u8>, panel: u8) -> Result<(), u8> {
        let is = |&other: &u8| other == panel;
        match self.0 {
            RemoveAll => panels.retain(|other| !is(other)),
            RemoveLowest => drop(
                panels
                    .iter()
                    .position(|other| is(other))
                    .map(|at| panels.remove(at)),
            ),
            RemoveOfNoneRefused if !panels.contains(&panel) => return Err(36),
            _ => drop(
                panels
                    .iter()
                    .rposition(|other| is(other))
                    .map(|at| panels.remove(at)),
            ),
        }
        Ok(())
    }

    fn no_step(&self, held: &Stored, recorded: bool) -> bool {
        let most = match self.0 {
            NinthStep => 9,
            EighthStepRefused => 7,
            _ => 8,
        };
        match recorded {
            true => held.steps >= most,
            false => held.steps > 0 && !self.is(UnrecordedOverRecorded),
        }
    }

    fn stepped(&self, held: &Stored, recorded: bool, bytes: &[u8]) -> Result<Container, u8> {
        if self.operations_are_bad(bytes) || self.container_is_bad(held) {
            return Err(36);
        }
        let mut container = held.view();
        if self.is(StepBeforeFull) && self.no_step(held, recorded) {
            return Err(38);
        }
        let panels = self.carried_out(&container.now, bytes)?;
        if self.no_step(held, recorded) {
            return Err(38);
        }
        if recorded {
            let kept = match self.is(KeptAfterTheStep) {
                true => panels.clone(),
                false => container.now.clone(),
            };
            container.kept.truncate(7);
            container.kept.push(kept);
        }
        container.now = panels;
        Ok(container)
    }

    fn backed(&self, held: &Stored) -> Result<Container, u8> {
        if self.container_is_bad(held) && !self.is(BackTakesAnyContainer) {
            return Err(36);
        }
        let mut container = held.view();
        let last = container.kept.pop().ok_or(38)?;
        match self.0 {
            BackUndoesOneOperation => drop(container.now.pop()),
            BackBringsTheFirst => container.now = container.kept.first().unwrap_or(&last).clone(),
            BackKeepsTheStep => {
                container.now = last.clone();
                container.kept.push(last);
            }
            _ => container.now = last,
        }
        Ok(container)
    }

    /// Stores what a call gave; gives the refusal's number.
    fn store(&self, held: &mut Stored, result: Result<Container, u8>) -> u8 {
        match result {
            Ok(mut container) => {
                container.now.truncate(8);
                container.kept.truncate(8);
                container.kept.iter_mut().for_each(|kept| kept.truncate(8));
                let mut after = Stored::hold(&container);
                if self.is(BytesBeyondKept) {
                    after.kept[7].panels[7] = held.kept[7].panels[7];
                }
                *held = after;
                0
            }
            Err(refusal) => {
                if self.is(RefusedStepStored) && refusal > 36 {
                    *held = Stored::hold(&held.view());
                }
                refusal
            }
        }
    }

    /// The list with what a wrong player adds to it.
    fn list(&self, list: &[u8]) -> Vec<u8> {
        let read: usize = calls(list).map(|call| 2 + call.operations.len()).sum();
        let mut whole = list.to_vec();
        match (self.0, list.get(read)) {
            (PlayTakesBackAlone, Some(3)) => {
                whole.truncate(read);
                whole.extend([3, 0]);
            }
            (PlayTakesCutStep, Some(1 | 2)) if list.len() >= read + 4 => {
                let pairs = (list.len() - read) / 2 - 1;
                whole.truncate(read + 2 + 2 * pairs);
                whole[read + 1] = pairs as u8;
            }
            _ => {}
        }
        whole
    }
}

impl Library for StandIn {
    fn step(&self, container: &mut Stored, recorded: u8, operations: &[u8]) -> u8 {
        let recorded = match self.is(RecordedByOneOnly) {
            true => recorded == 1,
            false => recorded != 0,
        };
        let result = self.stepped(container, recorded, operations);
        self.store(container, result)
    }

    fn back(&self, container: &mut Stored) -> u8 {
        let result = self.backed(container);
        self.store(container, result)
    }

    fn play(&self, list: &[u8]) -> Stored {
        let list = self.list(list);
        let mut held = Stored::EMPTY;
        for Call { kind, operations } in calls(&list) {
            let refusal = match kind {
                Call::STEP => self.step(&mut held, 0, operations),
                Call::RECORDED_STEP => self.step(&mut held, 1, operations),
                Call::BACK => self.back(&mut held),
                _ if self.is(PlayStopsAtUnknownKind) => break,
                _ => 0,
            };
            if self.is(PlayStopsAtRefusal) && refusal != 0 {
                break;
            }
        }
        held
    }
}

/// What the comparison says of a stand-in, and what did not come up.
fn found(wrong: Wrong, seed: u64) -> (Option<String>, Vec<String>) {
    let mut checker = Checker::new(StandIn(wrong));
    let found = crate::compare(&mut checker, seed, 100_000);
    let missing = checker.counts.missing();
    (
        found.err().map(|difference| difference.to_string()),
        missing,
    )
}

#[test]
fn nothing_is_found_where_nothing_is_wrong_and_every_case_comes_up() {
    assert_eq!(found(Nothing, 1), (None, Vec::new()));
}

#[test]
fn each_wrong_container_is_found_with_a_small_example() {
    for (seed, wrong) in (2..).zip(WRONG) {
        let (said, _) = found(wrong, seed);
        let said = said.unwrap_or_else(|| panic!("{wrong:?} is not found"));
        assert!(said.starts_with("difference, found in: "), "{said}");
        assert!(said.len() < 1200, "{said}");
    }
}

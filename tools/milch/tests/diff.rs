//! `diff`: the pairs of `same`, and others, by hand.

mod common;

use common::{failed, file, in_repository, recording, run, wrote, Ran, TWO};

fn pair(first: &str, second: &str) -> Ran {
    let data = |name: &str| in_repository(&format!("crates/stored_pairs/data/{name}"));
    run(&["diff", &data(first), &data(second)])
}

/// Two recordings under one table.
fn both(test: &str, first: &[u8], second: &[u8]) -> Ran {
    let (one, other) = (
        file(&format!("{test}_1"), first),
        file(&format!("{test}_2"), second),
    );
    let ran = run(&["diff", &one, &other]);
    let out = ran.out.replace(&one, "FIRST").replace(&other, "SECOND");
    Ran { out, ..ran }
}

/// The status, the first line and the last.
fn verdict(ran: Ran, status: i32, first: &str, last: &str) {
    assert_eq!((ran.status, ran.said.as_str()), (status, ""));
    assert_eq!(ran.out.lines().next(), Some(first));
    assert_eq!(ran.out.lines().last(), Some(last));
}

const ALIKE: &str = "the endings are alike";
const APART: &str = "the endings are apart";

/// As `same` has them; that their records differ is another thing.
#[test]
fn stored_pairs() {
    let at = |number: u32| format!("the first difference is at record {number}");
    verdict(pair("apart_first", "apart_second"), 1, &at(2), APART);
    verdict(pair("launched_6", "launched_7"), 1, &at(1), APART);
    verdict(pair("launched_6", "restored_6"), 1, &at(1), ALIKE);
    verdict(pair("marked", "unmarked"), 1, &at(2), APART);
    let ran = pair("emptied_6", "refused_editions");
    assert_eq!((ran.status, ran.out.ends_with("alike\n")), (1, true));
    let ran = pair("marked", "restored_marked");
    assert_eq!((ran.status, ran.out.ends_with("alike\n")), (1, true));
}

#[test]
fn nothing_differs() {
    let sample = in_repository("sample.recording");
    let text = "no record differs, of 8\nthe endings are alike\n";
    wrote(run(&["diff", &sample, &sample]), text);
    let bytes = recording(TWO, &[(4, 0, 0)]);
    let ignored = recording(TWO, &[(4, 9, 9)]);
    let text = "no record differs, of 1\nthe endings are alike\n";
    wrote(both("ignored", &bytes, &ignored), text);
}

#[test]
fn side_by_side() {
    let first = recording(TWO, &[(1, 0, 0), (2, 0, 0)]);
    let second = recording(TWO, &[(1, 0, 0), (2, 1, 0)]);
    let ran = both("sides", &first, &second);
    let text = "\
the first difference is at record 2
  FIRST
  RECORD 2: start 0                               | RECORD 2: start 1
    R10                                           |   R6
    closed 0                                          closed 0
    line 2 0 0 0 2 1 1 0 8 0                      |   line 2 0 1 1 1 2 2 0 8 0
  STACKS: tasks=1 edition=8 mark=none             | STACKS: tasks=2 edition=8 mark=none
    Task #1: root=0 affinity=1 main=yes screens=2 |   Task #1: root=1 affinity=2 main=no screens=1
      Hist #1: 0 mode=standard                    |     Hist #0: 1 mode=single-task
      Hist #0: 0 mode=standard                    |   Task #2: root=0 affinity=1 main=yes screens=1
                                                  |     Hist #0: 0 mode=standard
the endings are apart
";
    let lines = |text: &str| -> Vec<String> {
        let heading = |line: &str| !line.starts_with("  FIRST");
        text.lines().filter(|l| heading(l)).map(squeezed).collect()
    };
    assert_eq!(ran.status, 1);
    assert_eq!(lines(&ran.out), lines(text));
}

/// A column is as wide as the name of the file, which differs by machine.
fn squeezed(line: &str) -> String {
    line.split_whitespace().collect::<Vec<_>>().join(" ")
}

/// Restores are read as `same` reads them, and marked.
#[test]
fn restores() {
    let image = [0, 1, 0, 0, 3, 1, 1, 8, 0x42];
    let restored = [&recording(TWO, &[(6, 0, 9)])[..], &image].concat();
    let launched = recording(TWO, &[(1, 0, 0)]);
    let ran = both("restores", &launched, &restored);
    let out: Vec<String> = ran.out.lines().map(squeezed).collect();
    assert_eq!(ran.status, 1);
    assert_eq!(
        out[2],
        "RECORD 1: launch | RECORD 1: restore of 9 bytes <- kind 6"
    );
    let took = "SECOND: the restore at record 1 took 9 bytes as its image";
    assert_eq!(out[out.len() - 2], took);
    assert_eq!(out[out.len() - 1], ALIKE);
}

#[test]
fn one_is_longer() {
    let first = recording(TWO, &[(1, 0, 0)]);
    let second = recording(TWO, &[(1, 0, 0), (5, 0, 0)]);
    let ran = both("longer", &first, &second);
    let out: Vec<String> = ran.out.lines().map(squeezed).collect();
    assert_eq!(out[0], "the first difference is at record 2");
    assert_eq!(out[2], "it has ended | RECORD 2: look");
    assert_eq!((ran.status, out[out.len() - 1].as_str()), (1, ALIKE));
}

#[test]
fn what_cannot_be_told() {
    let two = file("diff_two", TWO);
    let one = file("diff_one", &[1, 0, 0, 1]);
    let other = file("diff_other", &[2, 0, 0, 1, 2, 3]);
    let bad = file("diff_bad", &[2, 2, 0, 1, 2, 2]);
    let none = file("diff_none", &[]);
    let screens = "milch: the tables differ in the number of screens\n";
    failed(run(&["diff", &two, &one]), screens);
    failed(
        run(&["diff", &two, &other]),
        "milch: the tables differ, first in screen 1\n",
    );
    failed(
        run(&["diff", &two, &bad]),
        "milch: the tables differ in the main screen\n",
    );
    let content = "refusal 2: the table's main screen is not one of its screens, \
                   or a launch mode is not 0 to 3";
    failed(
        run(&["diff", &bad, &bad]),
        &format!("milch: {bad}: {content}\n"),
    );
    let length = "refusal 1: the table's length does not fit its number of screens, \
                  or that is not 1 to 64";
    failed(
        run(&["diff", &two, &none]),
        &format!("milch: {none} begins with no table: {length}\n"),
    );
    failed(
        run(&["diff", &two, "nothing-here"]),
        "milch: nothing-here: no such file\n",
    );
}

/// Records have the numbers of `show`, which reads an image as records; a shift is
/// told.
#[test]
fn numbers_behind_a_restore() {
    let image = [0, 1, 0, 0, 3, 1, 1, 8, 0x42];
    let restored = |image: &[u8], last: u8| {
        let begin = recording(TWO, &[(6, 0, image.len() as u32)]);
        let end = recording(&[], &[(4, last, 0), (2, last, 0)]);
        [&begin[..], image, &end].concat()
    };
    let ran = both("shift", &restored(&image, 0), &restored(&image, 1));
    let out: Vec<&str> = ran.out.lines().collect();
    assert_eq!(out[0], "the first difference is at record 4");
    assert!(out[2].starts_with("  RECORD 4: start 0"));
    let shift = "from record 3 on, an image shifts the records: 'show' reads it as records, \
                 and they begin within others there";
    assert!(out.contains(&&*format!("FIRST: {shift}")), "{}", ran.out);
    // A bad image of six bytes is one record of `show`: nothing is shifted.
    let ran = both("even", &restored(&[0; 6], 0), &restored(&[0; 6], 1));
    assert!(ran.out.starts_with("the first difference is at record 4\n"));
    assert!(ran
        .out
        .contains("SECOND: the restore at record 1 took 6 bytes as its image\n"));
    assert!(!ran.out.contains("shifts"), "{}", ran.out);
}

/// A start that a damaged byte made a restore.
#[test]
fn a_recording_that_ends_within_a_restore() {
    let good = recording(TWO, &[(1, 0, 0), (2, 1, 0x1000_0000), (4, 0, 0), (4, 0, 0)]);
    let mut damaged = good.clone();
    damaged[TWO.len() + 6] = 6;
    let ran = both("damaged", &good, &damaged);
    let said =
        "ends within the restore at record 2: of the 268435456 bytes of its image 12 are there\n";
    assert_eq!((ran.status, ran.out.as_str()), (2, ""));
    assert!(
        ran.said.starts_with("milch: ") && ran.said.ends_with(said),
        "{}",
        ran.said
    );
    // Of a record that is cut itself nothing follows: it is no call.
    let cut = [&good[..], &[6, 0]].concat();
    let ran = both("cut", &cut, &good);
    assert_eq!(ran.status, 1);
    assert!(ran.out.ends_with("the endings are alike\n"), "{}", ran.out);
    assert!(ran
        .said
        .contains("cut: 1, the first at byte 30, which is record 5; 2 bytes"));
}

/// As `same` does.
#[test]
fn records_that_are_no_call() {
    let good = recording(TWO, &[(1, 0, 0)]);
    let mut other = recording(TWO, &[(1, 0, 0), (7, 0, 0), (9, 0, 0)]);
    other.extend([4, 0]);
    let ran = both("no_call", &good, &other);
    assert_eq!(ran.status, 1);
    let said = ": records that are no call, of an unknown kind or cut: 3, the first at byte 12, \
                which is record 2; 14 bytes are left out\n";
    assert!(
        ran.said.starts_with("milch: warning: ") && ran.said.ends_with(said),
        "{}",
        ran.said
    );
    assert!(ran.out.ends_with("the endings are alike\n"));
}

#[test]
fn names() {
    let names = file("diff.names", b"0 home\n1 seats\n");
    let first = file("diff_names_1", &recording(TWO, &[(1, 0, 0), (2, 0, 0)]));
    let second = file("diff_names_2", &recording(TWO, &[(1, 0, 0), (2, 1, 0)]));
    let ran = run(&["diff", &first, &second, "--names", &names]);
    assert_eq!((ran.status, ran.said.as_str()), (1, ""));
    let out: Vec<String> = ran.out.lines().map(squeezed).collect();
    assert_eq!(out[2], "RECORD 2: start home | RECORD 2: start seats");
    assert!(out.contains(&"Hist #1: home mode=standard | Hist #0: seats mode=single-task".into()));
}

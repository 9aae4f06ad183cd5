//! NAMES: what is wrong in it, with its line.

mod common;

use common::{failed, file, in_repository, run};
use milch::names::Names;

/// The message for these names of the sample's six screens.
fn wrong(test: &str, names: &str, said: &str) {
    let names = file(test, names.as_bytes());
    let sample = in_repository("sample.recording");
    let page = common::fresh("no.html");
    let said = format!("milch: {names}:{said}\n");
    for command in [
        &["show", &sample, "--names", &names][..],
        &["at", &sample, "1", "--names", &names],
        &["picture", &sample, "--out", &page, "--names", &names],
        &["text", &sample, "--names", &names],
        &["diff", &sample, &sample, "--names", &names],
    ] {
        let ran = run(command);
        assert_eq!(ran.out, "");
        failed(ran, &said);
    }
}

#[test]
fn names_given_twice() {
    wrong(
        "twice",
        "0 home\n1 home\n",
        "2: the name 'home' stands on line 1",
    );
    wrong(
        "again",
        "0 a\n\n0 b\n",
        "3: screen 0 has its name on line 1",
    );
}

#[test]
fn numbers_that_are_no_screen() {
    wrong(
        "beyond",
        "0 home\n6 seats\n",
        "2: 6 is no screen: the table has 6",
    );
    wrong("large", "256 home\n", "1: '256' is no screen");
    wrong("signed", "0 home\n+1 seats\n", "2: '+1' is no screen");
    wrong("word", "home 0\n", "1: 'home' is no screen");
    wrong("minus", "-1 home\n", "1: '-1' is no screen");
}

#[test]
fn names_that_are_none() {
    wrong("nameless", "0\n", "1: screen 0 has no name behind it");
    wrong("digits", "0 3\n", "1: the name '3' is a number");
    wrong("commented", "# a\n0#\n", "2: '0#' is no screen");
}

/// What stands between names in a line, begins a comment, or is not seen.
#[test]
fn characters_that_are_in_no_name() {
    for letter in [',', ':', '[', ']', '#'] {
        let name = format!("A{letter}home");
        let said = format!("2: the name '{name}' has a '{letter}'");
        wrong("letters", &format!("# names\n0 {name}\n"), &said);
    }
    for (letter, shown) in [
        ('\u{1b}', "001B"),
        ('\u{202e}', "202E"),
        ('\u{200f}', "200F"),
    ] {
        let escaped = letter.escape_debug();
        let said =
            format!("1: the name 'a{escaped}b' has the character U+{shown}, which is not seen");
        wrong("hidden", &format!("0 a{letter}b\n"), &said);
    }
    wrong("site", "0 home a:b\n", "1: the site 'a:b' has a ':'");
    let much = "1: 'c' is too much behind a number, a name and a site";
    wrong("much", "0 home a c\n", much);
}

/// A mark of byte order is passed over, comments too, and a site is kept.
#[test]
fn what_a_file_may_have() {
    let text = "\u{feff}0 home Main\r\n  # a comment, with: [all]\n\n2 zürich\n";
    let names = Names::read("names", text).expect("names");
    assert_eq!((names.given(0), names.site(0)), ("home", "Main"));
    assert_eq!((names.given(2), names.site(2)), ("zürich", ""));
    assert_eq!((names.given(1), names.screen("home")), ("", Some(0)));
}

#[test]
fn a_file_that_cannot_be_read() {
    let sample = in_repository("sample.recording");
    let ran = run(&["show", &sample, "--names", "nothing-here"]);
    failed(ran, "milch: nothing-here: no such file\n");
    let bytes = file("bytes", &[b'0', b' ', 0xff]);
    let said = format!("milch: {bytes}:1: a byte that is no UTF-8 text\n");
    failed(run(&["show", &sample, "--names", &bytes]), &said);
}

//! The texts that people read: the crate, the header, the proved sentences of
//! `explain` and the tables of the documents say the same words.

use milchkompass::{Flags, LaunchMode, Refusal, Rule};

use crate::source::{exists, read};
use crate::{header, names_of, render};

/// The document that has the tables of the rules.
fn rules_text() -> String {
    let own = "docs/RULES.md";
    read(if exists(own) { own } else { "README.md" })
}

/// The rows of the table under this head: the cells of each.
fn rows_under(head: &str) -> Vec<Vec<String>> {
    let text = rules_text();
    let (_, rest) = text.split_once(head).expect(head);
    let rows = rest
        .lines()
        .skip(2)
        .take_while(|line| line.starts_with("| "));
    let cells = |row: &str| {
        row.trim_matches('|')
            .split('|')
            .map(|cell| cell.trim().to_string())
            .collect()
    };
    rows.map(cells).collect()
}

/// The cases of one of the header's functions: what is returned for each, and for
/// the others.
fn cases_of(function: &str) -> Vec<(String, String)> {
    let (header, head) = (header(), format!("static inline const char *{function}("));
    let (_, rest) = header.split_once(&head).expect(function);
    let (body, _) = rest.split_once("\n}\n").expect("its end");
    let lines = body
        .lines()
        .filter_map(|line| line.trim().split_once(": return \""));
    let case = |(of, text): (&str, &str)| {
        let text = text.strip_suffix("\";").expect("one string");
        (of.trim_start_matches("case ").to_string(), text.to_string())
    };
    lines.map(case).collect()
}

/// What a function of the header returns: these texts, and this for any other.
fn returns(function: &str, texts: impl Iterator<Item = (String, String)>, other: &str) {
    let other = ("default".to_string(), other.to_string());
    let wanted: Vec<(String, String)> = texts.chain([other]).collect();
    assert_eq!(cases_of(function), wanted);
}

/// The table's words are the crate's, by number, and no number is left out.
#[test]
fn refusals() {
    let rows = rows_under("| Refusal | What is wrong |");
    let displayed = Refusal::ALL.iter().map(|refusal| {
        vec![
            refusal.number().to_string(),
            refusal.condition().to_string(),
        ]
    });
    assert_eq!(rows, displayed.collect::<Vec<_>>());
    for refusal in Refusal::ALL {
        let said = format!("refusal {}: {}", refusal.number(), refusal.condition());
        assert_eq!(refusal.to_string(), said);
    }
}

/// So are the header's, under the same names.
#[test]
fn refusals_in_c() {
    let named = |refusal: &Refusal| {
        let name = render::snake(&format!("{refusal:?}")).to_uppercase();
        format!("MILCHKOMPASS_{name}")
    };
    let accepted = (
        "MILCHKOMPASS_ACCEPTED".to_string(),
        "the call is accepted".to_string(),
    );
    let refused = Refusal::ALL
        .iter()
        .map(|refusal| (named(refusal), refusal.condition().to_string()));
    returns(
        "milchkompass_refusal_text",
        [accepted].into_iter().chain(refused),
        "no refusal of a call",
    );
    let mut declared = vec!["MILCHKOMPASS_ACCEPTED = 0".to_string()];
    declared.extend(
        Refusal::ALL
            .iter()
            .map(|refusal| format!("{} = {}", named(refusal), refusal.number())),
    );
    let names = names_of("refusal");
    let names: Vec<&str> = names.split(',').map(str::trim).collect();
    assert_eq!(names, declared);
}

/// What stands in quotation marks behind this name, in the definitions of the
/// sentences, up to an end.
fn sentences(from: &str, to: &str) -> Vec<String> {
    let definitions = read("crates/model/specs/Sentences.antt");
    let (_, rest) = definitions.split_once(from).expect(from);
    let (list, _) = rest.split_once(to).expect(to);
    list.split('"')
        .skip(1)
        .step_by(2)
        .map(str::to_string)
        .collect()
}

/// `explain` says what the crate displays, of each refusal that a start record
/// can have.
#[test]
fn proved_refusals() {
    let mut of_a_start: Vec<String> = Refusal::ALL
        .iter()
        .filter(|refusal| [1, 2, 3, 4, 9, 20, 21, 23, 24].contains(&refusal.number()))
        .map(Refusal::to_string)
        .collect();
    of_a_start.push(String::new());
    assert_eq!(sentences("refusal_sentence k =", "\n\n"), of_a_start);
}

/// The sentences of R1 to R18 are the definitions', in their order.
#[test]
fn rules() {
    let defined = sentences("rule_sentences =", "[]");
    let displayed: Vec<String> = Rule::ALL.iter().map(Rule::to_string).collect();
    assert_eq!(defined[0], "");
    assert_eq!(defined[1..], displayed);
    for (i, rule) in Rule::ALL.iter().enumerate() {
        assert_eq!(usize::from(rule.number()), i + 1);
        assert_eq!(format!("{rule:?}"), format!("R{}", i + 1));
        assert_eq!(Rule::try_from(rule.number()), Ok(*rule));
    }
    assert!(Rule::try_from(0).is_err() && Rule::try_from(19).is_err());
}

#[test]
fn rules_in_c() {
    let rules = Rule::ALL.iter();
    let texts = rules.map(|rule| (rule.number().to_string(), rule.to_string()));
    returns("milchkompass_rule_text", texts, "no rule");
}

#[test]
fn modes_in_c() {
    let names = ["MULTIPLE", "SINGLE_TOP", "SINGLE_TASK", "SINGLE_INSTANCE"];
    let modes = names.iter().zip(LaunchMode::ALL);
    let texts = modes.map(|(name, mode)| (format!("MILCHKOMPASS_LAUNCH_{name}"), mode.to_string()));
    returns("milchkompass_mode_name", texts, "no launch mode");
}

/// The flags by their names, in the header and in the table.
#[test]
fn flags() {
    let flags = || Flags::all().iter_names();
    let in_c = |name| format!("MILCHKOMPASS_FLAG_ACTIVITY_{name}");
    let texts = flags().map(|(name, flag)| (in_c(name), flag.to_string()));
    returns("milchkompass_flag_name", texts, "no flag");
    let rows = rows_under("| Flag, in hex | Android's name | What it asks for |");
    assert_eq!(rows.len(), flags().count());
    for (row, (name, flag)) in rows.iter().zip(flags()) {
        assert_eq!(row[..2], [format!("{:08x}", flag.bits()), name.to_string()]);
    }
}

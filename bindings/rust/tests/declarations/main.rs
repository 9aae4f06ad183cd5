//! The C header and this crate declare what the library's source declares:
//! the number of the interface and its row, each function, each struct that one
//! of them names, the limits, the editions, the launch modes, the flags and
//! their mask. `texts` compares the texts of both.

mod render;
mod source;
mod texts;

use milchkompass::{Edition, Flags, LaunchMode, IMAGE_MAX};
use source::read;

/// Without white space and without a comma after the last of a list.
fn squeezed(text: &str) -> String {
    let text: String = text.split_whitespace().collect();
    text.replace(",)", ")").replace(",}", "}")
}

fn header() -> String {
    read("bindings/c/milchkompass.h")
}

/// The header without its comments, squeezed.
fn declared_in_c() -> String {
    let text = header();
    let mut parts = text.split("/*");
    let mut code = parts.next().unwrap_or_default().to_string();
    for part in parts {
        let (_, rest) = part.split_once("*/").expect("the end of a comment");
        code.push_str(rest);
    }
    squeezed(&code)
}

fn declared_in_rust() -> String {
    squeezed(&read("bindings/rust/src/raw.rs"))
}

/// The squeezed text has this declaration.
fn has(text: &str, declaration: &str) {
    assert!(text.contains(&squeezed(declaration)), "{declaration}");
}

/// The text has this line.
fn has_line(text: &str, line: &str) {
    assert!(text.lines().any(|l| l.trim() == line), "{line}");
}

/// The rows of bindings/abi: each number, and its lines.
fn rows() -> Vec<(String, Vec<String>)> {
    let mut rows: Vec<(String, Vec<String>)> = Vec::new();
    for line in read("bindings/abi").lines() {
        if let Some(number) = line.strip_prefix("abi ") {
            rows.push((number.to_string(), Vec::new()));
        } else if let (Some((_, row)), false) = (rows.last_mut(), line.is_empty()) {
            row.push(line.to_string());
        }
    }
    rows
}

#[test]
fn number_of_the_interface() {
    let source = read("crates/lent/src/lib.rt");
    let (_, rest) = source.split_once("const ABI: u32 = ").expect("the number");
    let (number, _) = rest.split_once(';').expect("its end");
    has_line(&header(), &format!("#define MILCHKOMPASS_ABI {number}"));
    has(&declared_in_rust(), &format!("const ABI: u32 = {number};"));
    let numbers: Vec<String> = rows().into_iter().map(|(number, _)| number).collect();
    let last: usize = number.parse().expect("a number");
    let all: Vec<String> = (1..=last).map(|n| n.to_string()).collect();
    assert_eq!(numbers, all, "a row for each number up to the current one");
}

#[test]
fn row_of_the_interface() {
    let (structs, functions) = (source::structs(), source::functions());
    let mut lines: Vec<String> = structs
        .iter()
        .flat_map(|declared| render::struct_in_row(&structs, declared))
        .chain(functions.iter().map(render::function_in_c))
        .collect();
    let (number, mut row) = rows().pop().expect("a row");
    lines.sort();
    row.sort();
    assert_eq!(
        row, lines,
        "row {number} of bindings/abi is not what the source declares: what has \
         changed raises the number and gets a new row, what is added is added to it"
    );
}

#[test]
fn functions() {
    let (c, rust) = (declared_in_c(), declared_in_rust());
    let functions = source::functions();
    for function in &functions {
        has(&c, &render::function_in_c(function));
        has(&rust, &render::function_in_rust(function));
    }
    assert_eq!(c.matches(");").count(), functions.len());
    assert_eq!(rust.matches("fnmilchkompass_").count(), functions.len());
}

#[test]
fn structs() {
    let (c, rust) = (declared_in_c(), declared_in_rust());
    let structs = source::structs();
    for declared in &structs {
        has(&c, &render::struct_in_c(declared));
        has(&rust, &render::struct_in_rust(declared));
    }
    assert_eq!(c.matches("typedefstruct").count(), structs.len());
    assert_eq!(rust.matches("#[repr(C)]").count(), structs.len());
}

#[test]
fn limits() {
    let header = header();
    for (of, name, limit) in [
        ("session", "TASKS", 16),
        ("session", "SCREENS", 32),
        ("panels", "PANELS", 8),
        ("container", "STEPS", 8),
    ] {
        let source = read(&format!("crates/{of}/src/lib.rt"));
        has_line(&source, &format!("pub const {name}: usize = {limit};"));
        has_line(&header, &format!("#define MILCHKOMPASS_{name} {limit}"));
        has(
            &declared_in_rust(),
            &format!("const {name}: usize = {limit};"),
        );
    }
    let longest = 16 * (2 + 32) + 6;
    assert_eq!(IMAGE_MAX, longest);
    has_line(
        &header,
        &format!("#define MILCHKOMPASS_IMAGE_MAX {longest}"),
    );
}

/// What stands between the braces of an enum of the header.
fn names_of(name: &str) -> String {
    let (header, head) = (header(), format!("enum milchkompass_{name} {{"));
    let (_, rest) = header.split_once(&head).expect(name);
    let (names, _) = rest.split_once('}').expect("their end");
    names.to_string()
}

#[test]
fn editions() {
    let number = |n: u8| format!("MILCHKOMPASS_EDITION_{n}");
    let all = Edition::ALL.iter().map(|edition| edition.number());
    let declared: Vec<String> = all.map(|n| format!("{} = {n}", number(n))).collect();
    let wanted = squeezed(&declared.join(","));
    assert_eq!(squeezed(&names_of("edition")), wanted);
    let fresh = Edition::default().number();
    let in_c = format!(
        "SESSION_FRESH {{{{{{{{0}}, 0, 0}}}}, 0, 0, {}, 0}}",
        number(fresh)
    );
    has_line(&header(), &format!("#define MILCHKOMPASS_{in_c}"));
}

/// Android's name for a constant of the header, which has it with the prefix,
/// and without only for who asks.
fn named(name: &str, value: &str) {
    let header = header();
    has_line(&header, &format!("#define MILCHKOMPASS_{name} {value}"));
    let (always, asked) = header
        .split_once("#ifdef MILCHKOMPASS_ANDROID_NAMES")
        .expect("Android's names");
    let plain = format!("#define {name} MILCHKOMPASS_{name}");
    has_line(asked, &plain);
    assert!(!always.contains(&plain), "{plain}");
}

#[test]
fn launch_modes() {
    for (name, mode) in [
        ("MULTIPLE", LaunchMode::Standard),
        ("SINGLE_TOP", LaunchMode::SingleTop),
        ("SINGLE_TASK", LaunchMode::SingleTask),
        ("SINGLE_INSTANCE", LaunchMode::SingleInstance),
    ] {
        named(&format!("LAUNCH_{name}"), &(mode as u8).to_string());
    }
    assert_eq!(header().matches("#define LAUNCH_").count(), 4);
}

#[test]
fn flags() {
    let flags = read("crates/flags/src/lib.rt");
    let mut mask = Vec::new();
    for (short, name, flag) in [
        ("NTK", "NEW_TASK", Flags::NEW_TASK),
        ("STP", "SINGLE_TOP", Flags::SINGLE_TOP),
        ("MTK", "MULTIPLE_TASK", Flags::MULTIPLE_TASK),
        ("CTP", "CLEAR_TOP", Flags::CLEAR_TOP),
        ("RTF", "REORDER_TO_FRONT", Flags::REORDER_TO_FRONT),
        ("CTK", "CLEAR_TASK", Flags::CLEAR_TASK),
        ("NOH", "NO_HISTORY", Flags::NO_HISTORY),
    ] {
        let bits = format!("{:#010x}", flag.bits());
        has_line(&flags, &format!("pub const {short}: u32 = {bits};"));
        named(
            &format!("FLAG_ACTIVITY_{name}"),
            &format!("UINT32_C({bits})"),
        );
        assert_eq!(format!("{flag:?}"), format!("Flags({name})"));
        mask.push(short);
    }
    assert_eq!(flags.matches(": u32 = 0x").count(), mask.len());
    assert_eq!(header().matches("#define FLAG_").count(), mask.len());
    let mask = mask.join(" | ");
    has_line(&flags, &format!("pub const SEVEN: u32 = {mask};"));
    let bits = format!("UINT32_C({:#010x})", Flags::all().bits());
    has_line(&header(), &format!("#define MILCHKOMPASS_FLAGS {bits}"));
}

#[test]
fn prefix() {
    let header = header();
    let (always, _) = header
        .split_once("#ifdef MILCHKOMPASS_ANDROID_NAMES")
        .expect("Android's names");
    for name in always.lines().filter_map(|l| l.strip_prefix("#define ")) {
        assert!(name.starts_with("MILCHKOMPASS_"), "{name}");
    }
}

/// A function that changes nothing has `must_use`, unless what it gives has it: a
/// `Result` or an iterator.
#[test]
fn must_use() {
    let mut asked = 0;
    for (head, attributes) in source::public_functions() {
        let gives = head.split_once(" -> ").map_or("Result", |(_, gives)| gives);
        let own = gives.starts_with("Result") || gives.starts_with("impl Iterator");
        if own || head.contains("&mut self") {
            continue;
        }
        assert!(attributes.contains("#[must_use"), "{head}");
        asked += 1;
    }
    assert!(asked > 30, "{asked} functions");
}

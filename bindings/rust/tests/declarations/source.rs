//! What the library's source declares.

use std::fs;
use std::path::{Path, PathBuf};

/// A name and a type, as the source writes them.
pub type Typed = (String, String);

pub struct Function {
    pub name: String,
    pub parameters: Vec<Typed>,
    pub result: String,
}

pub struct Struct {
    pub name: String,
    pub fields: Vec<Typed>,
}

fn path(relative: &str) -> PathBuf {
    let root = Path::new(env!("CARGO_MANIFEST_DIR")).join("../..");
    root.join(relative)
}

/// The text of a file of the repository.
pub fn read(relative: &str) -> String {
    fs::read_to_string(path(relative)).expect(relative)
}

/// The repository has this file.
pub fn exists(relative: &str) -> bool {
    path(relative).is_file()
}

fn entries(folder: &str) -> impl Iterator<Item = PathBuf> {
    let entries = fs::read_dir(path(folder)).expect(folder);
    entries.map(|entry| entry.expect("an entry").path())
}

/// The crate's public functions, but for the declarations': the head of each, and
/// its attributes.
pub fn public_functions() -> Vec<(String, String)> {
    let mut found = Vec::new();
    for file in entries("bindings/rust/src").filter(|file| !file.ends_with("raw.rs")) {
        let source = fs::read_to_string(file).expect("a source");
        let mut attributes = String::new();
        for line in source.lines().map(str::trim) {
            if line.starts_with("#[") {
                attributes.push_str(line);
                continue;
            }
            let head = line.strip_prefix("pub fn ");
            if let Some(head) = head.or(line.strip_prefix("pub const fn ")) {
                assert!(head.ends_with('{'), "a head of several lines: {head}");
                found.push((head.to_string(), attributes.clone()));
            }
            attributes.clear();
        }
    }
    found
}

/// The text of all libraries, without derives; a program has no `lib.rt`.
fn libraries() -> String {
    let text = |folder: PathBuf| fs::read_to_string(folder.join("src/lib.rt")).ok();
    let all: String = entries("crates").filter_map(text).collect();
    let lines = all.lines().filter(|line| !line.starts_with("#[derive("));
    lines.map(|line| format!("{line}\n")).collect()
}

/// `name: type` for each part of a list.
fn typed(list: &str) -> Vec<Typed> {
    let parts = list
        .split(',')
        .map(str::trim)
        .filter(|part| !part.is_empty());
    let pair = |part: &str| {
        let (name, kind) = part.split_once(": ").expect(part);
        let name = name.trim_start_matches("pub ");
        (name.to_string(), kind.to_string())
    };
    parts.map(pair).collect()
}

/// The functions that the library exports.
pub fn functions() -> Vec<Function> {
    let source = read("crates/lent/src/lib.rt");
    let function = |text: &str| {
        let (name, rest) = text.split_once('(').expect("parameters");
        let (list, rest) = rest.split_once(") -> ").expect("a result");
        let result = rest.split_whitespace().next().expect("a type");
        Function {
            name: name.to_string(),
            parameters: typed(list),
            result: result.to_string(),
        }
    };
    source
        .split("pub extern \"C\" fn ")
        .skip(1)
        .map(function)
        .collect()
}

/// The type inside a reference, a slice or an array.
pub fn inner(kind: &str) -> &str {
    let kind = kind.trim_start_matches('&').trim_start_matches("mut ");
    let kind = kind.trim_start_matches('[').trim_end_matches(']');
    kind.split(';').next().unwrap_or(kind)
}

/// The structs that the functions name, and those inside them.
pub fn structs() -> Vec<Struct> {
    let sources = libraries();
    let mut next = Vec::new();
    for function in functions() {
        next.extend(function.parameters.into_iter().map(|(_, kind)| kind));
        next.push(function.result);
    }
    let mut found: Vec<Struct> = Vec::new();
    while let Some(kind) = next.pop() {
        let name = inner(&kind);
        let plain = ["u8", "u16", "u32", "u64", "usize", "bool"].contains(&name);
        if !plain && !found.iter().any(|known| known.name == name) {
            let declared = declared(&sources, name);
            next.extend(declared.fields.iter().map(|(_, kind)| kind.clone()));
            found.push(declared);
        }
    }
    found
}

/// The one struct of this name, which is laid out as in C.
fn declared(sources: &str, name: &str) -> Struct {
    let head = format!("#[repr(C)]\npub struct {name} {{");
    assert_eq!(sources.matches(&head).count(), 1, "{head}");
    let (_, rest) = sources.split_once(&head).expect(name);
    let (list, _) = rest.split_once('}').expect(name);
    Struct {
        name: name.to_string(),
        fields: typed(list),
    }
}

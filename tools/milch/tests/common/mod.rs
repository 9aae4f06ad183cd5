//! Runs the program, and makes files for it.

#![allow(dead_code)]

use std::fs;
use std::io::Write;
use std::path::{Path, PathBuf};
use std::process::{Command, Stdio};

/// Two screens: 0, standard of affinity 1, which is the main one, and 1,
/// single-task of affinity 2.
pub const TWO: &[u8] = &[2, 0, 0, 1, 2, 2];

/// What the program did: its status, what it wrote, and what it said.
#[derive(Debug, PartialEq, Eq)]
pub struct Ran {
    pub status: i32,
    pub out: String,
    pub said: String,
}

/// Runs the program with an input.
pub fn run_on(arguments: &[&str], input: &[u8]) -> Ran {
    let mut child = Command::new(env!("CARGO_BIN_EXE_milch"))
        .args(arguments)
        .stdin(Stdio::piped())
        .stdout(Stdio::piped())
        .stderr(Stdio::piped())
        .spawn()
        .expect("the program");
    // It need not read all of it.
    let _ = child.stdin.take().expect("its input").write_all(input);
    let output = child.wait_with_output().expect("its end");
    Ran {
        status: output.status.code().expect("no signal"),
        out: String::from_utf8_lossy(&output.stdout).into_owned(),
        said: String::from_utf8_lossy(&output.stderr).into_owned(),
    }
}

/// Runs the program without an input.
pub fn run(arguments: &[&str]) -> Ran {
    run_on(arguments, &[])
}

/// It is done, wrote this and said nothing.
pub fn wrote(ran: Ran, out: &str) {
    assert_eq!((ran.status, ran.said.as_str()), (0, ""), "{}", ran.out);
    assert_eq!(ran.out, out);
}

/// It is done, wrote this and warned so.
pub fn warned(ran: Ran, out: &str, said: &str) {
    assert_eq!((ran.status, ran.said.as_str()), (0, said), "{}", ran.out);
    assert_eq!(ran.out, out);
}

/// It failed with this message.
pub fn failed(ran: Ran, said: &str) {
    assert_eq!((ran.status, ran.said.as_str()), (2, said));
}

/// A file of the repository.
pub fn in_repository(name: &str) -> String {
    let root = Path::new(env!("CARGO_MANIFEST_DIR")).join("../..");
    root.join(name).to_str().expect("a name").to_string()
}

/// A file with these bytes, under a name that no other test uses.
pub fn file(name: &str, bytes: &[u8]) -> String {
    let path = PathBuf::from(env!("CARGO_TARGET_TMPDIR")).join(name);
    fs::write(&path, bytes).expect("a file");
    path.to_str().expect("a name").to_string()
}

/// A table, and records of a kind, a screen and a flag word.
pub fn recording(table: &[u8], records: &[(u8, u8, u32)]) -> Vec<u8> {
    let mut bytes = table.to_vec();
    for (kind, screen, word) in records {
        bytes.extend([*kind, *screen]);
        bytes.extend(word.to_be_bytes());
    }
    bytes
}

/// The name of a file that is not there.
pub fn fresh(name: &str) -> String {
    let path = PathBuf::from(env!("CARGO_TARGET_TMPDIR")).join(name);
    // It is there where the tests ran before.
    let _ = fs::remove_file(&path);
    path.to_str().expect("a name").to_string()
}

/// How many parts of a file stand beside it.
pub fn parts(file: &str) -> usize {
    let path = Path::new(file);
    let name = path.file_name().expect("a name").to_string_lossy();
    let beside = fs::read_dir(path.parent().expect("a folder")).expect("a folder");
    let names = beside.filter_map(|found| found.ok()?.file_name().into_string().ok());
    let parts = names.filter(|found| found.starts_with(&*name) && found.ends_with(".part"));
    parts.count()
}

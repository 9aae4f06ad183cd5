//! A file that is written: it is there whole, or stays what it was.

use std::ffi::{CString, OsStr};
use std::fs::{self, File};
use std::io::{self, Read, Write};
use std::os::fd::AsRawFd;
use std::os::raw::{c_char, c_int};
use std::os::unix::ffi::OsStrExt;
use std::os::unix::fs::{MetadataExt, OpenOptionsExt};
use std::path::{Path, PathBuf};
use std::process;

use crate::failure::{reason, said, Outcome};

/// Opens a file without a name in a folder: O_TMPFILE of Linux.
const UNNAMED: i32 = 0o20_200_000;
/// The folder in which a program stands, and: a link is followed (linkat of Linux).
const HERE: c_int = -100;
const FOLLOW: c_int = 0x400;

extern "C" {
    fn linkat(
        from: c_int,
        path: *const c_char,
        to: c_int,
        name: *const c_char,
        flags: c_int,
    ) -> c_int;
}

/// Whether what is read and what is to be written are one file, by whatever names.
pub fn is_one_file(read: &OsStr, written: &OsStr) -> bool {
    let read = if read == "-" {
        "/dev/stdin".as_ref()
    } else {
        read
    };
    let place = |name: &OsStr| {
        let found = fs::metadata(name).ok().filter(|found| found.is_file());
        found.map(|found| (found.dev(), found.ino()))
    };
    place(read).is_some() && place(read) == place(written)
}

/// A file that is there is not replaced, unless `own` knows its first bytes.
pub fn check_free(file: &OsStr, own: impl Fn(&[u8]) -> bool, what: &str) -> Outcome {
    if !fs::metadata(file).is_ok_and(|found| found.is_file()) {
        return Ok(());
    }
    let mut beginning = Vec::new();
    let read = File::open(file).and_then(|f| f.take(BEGINNING).read_to_end(&mut beginning));
    if read.is_ok() && own(&beginning) {
        return Ok(());
    }
    let name = file.to_string_lossy();
    said(format!("{name} is there{what}: --force replaces it"))
}

/// So many bytes of a file are looked at.
const BEGINNING: u64 = 1024;

/// Writes a file whole. What is no file, such as a device, is written as it is.
pub fn write(file: &OsStr, bytes: &[u8]) -> Outcome {
    let named = Path::new(file);
    let place = fs::canonicalize(named).unwrap_or_else(|_| named.into());
    put(&place, bytes)
        .or_else(|error| said(format!("{}: {}", file.to_string_lossy(), reason(&error))))
}

fn put(place: &Path, bytes: &[u8]) -> io::Result<()> {
    let there = place.exists();
    if there {
        // As without this detour, what may not be written is not replaced.
        let mut found = File::options().append(true).open(place)?;
        if !found.metadata()?.is_file() {
            return found.write_all(bytes);
        }
    }
    let part = beside(place);
    if let Ok(mut file) = unnamed(place) {
        file.write_all(bytes)?;
        // A name that is taken is not given again: then the file is put in its place.
        let name = if there { part.as_path() } else { place };
        if link(&file, name).is_ok() {
            return if there { replace(&part, place) } else { Ok(()) };
        }
    }
    by_part(&part, place, bytes)
}

/// The name of a part, beside the place.
fn beside(place: &Path) -> PathBuf {
    let mut part = place.to_path_buf().into_os_string();
    part.push(format!(".{}.part", process::id()));
    part.into()
}

/// A file without a name beside the place: it goes with the program, however that
/// ends. Not every file system has it.
fn unnamed(place: &Path) -> io::Result<File> {
    let folder = place.parent().filter(|folder| *folder != Path::new(""));
    let mut options = File::options();
    options.write(true).custom_flags(UNNAMED);
    options.open(folder.unwrap_or(Path::new(".")))
}

/// Gives an unnamed file a name that is free.
fn link(file: &File, name: &Path) -> io::Result<()> {
    let open = CString::new(format!("/proc/self/fd/{}", file.as_raw_fd()))?;
    let name = CString::new(name.as_os_str().as_bytes())?;
    // SAFETY: both are texts that end with a zero, and live longer than the call.
    let done = unsafe { linkat(HERE, open.as_ptr(), HERE, name.as_ptr(), FOLLOW) };
    if done != 0 {
        return Err(io::Error::last_os_error());
    }
    Ok(())
}

fn replace(part: &Path, place: &Path) -> io::Result<()> {
    let done = fs::rename(part, place);
    if done.is_err() {
        let _ = fs::remove_file(part);
    }
    done
}

/// The same by a part that has a name.
fn by_part(part: &Path, place: &Path, bytes: &[u8]) -> io::Result<()> {
    let written = File::create_new(part)?.write_all(bytes);
    if written.is_err() {
        let _ = fs::remove_file(part);
        return written;
    }
    replace(part, place)
}

#[cfg(test)]
mod tests {
    use super::*;

    #[test]
    fn by_a_part_that_has_a_name() {
        let folder = std::env::temp_dir().join(format!("milch-{}", process::id()));
        fs::create_dir(&folder).expect("a folder");
        let place = folder.join("place");
        for bytes in [&b"first"[..], b"second"] {
            by_part(&beside(&place), &place, bytes).expect("it is written");
            assert_eq!(fs::read(&place).expect("a file"), bytes);
        }
        assert_eq!(fs::read_dir(&folder).expect("a folder").count(), 1);
        fs::remove_dir_all(&folder).expect("it goes");
    }
}

//! Input that is read in blocks.

use std::ffi::OsStr;
use std::fs::File;
use std::io::{self, ErrorKind, Read};

use crate::failure::{reason, said, Outcome};

/// How much is read at once.
const BLOCK: usize = 256 * 1024;

/// Bytes that are read, and not yet taken.
pub struct Input {
    name: String,
    from: Box<dyn Read + Send>,
    block: Vec<u8>,
    begin: usize,
    end: usize,
    ended: bool,
}

/// Opens a file for reading, or standard input where its name is `-`.
pub fn open_file(file: &OsStr) -> Outcome<Box<dyn Read + Send>> {
    if file == "-" {
        return Ok(Box::new(io::stdin()));
    }
    let name = file.to_string_lossy();
    let file = match File::open(file) {
        Ok(file) => file,
        Err(error) if error.kind() == ErrorKind::NotFound => {
            return said(format!("{name}: no such file"));
        }
        Err(error) => return said(format!("{name}: {}", reason(&error))),
    };
    if file.metadata().is_ok_and(|found| found.is_dir()) {
        return said(format!("{name} is a directory, and no file"));
    }
    Ok(Box::new(file))
}

/// All bytes of a file.
pub fn read_whole(file: &OsStr) -> Outcome<Vec<u8>> {
    let mut bytes = Vec::new();
    match open_file(file)?.read_to_end(&mut bytes) {
        Ok(_) => Ok(bytes),
        Err(error) => said(format!("{}: {}", file.to_string_lossy(), reason(&error))),
    }
}

impl Input {
    /// Opens a file, or standard input where its name is `-`.
    pub fn open(file: &OsStr) -> Outcome<Input> {
        Ok(Input::over(
            &file.to_string_lossy(),
            open_file(file)?,
            BLOCK,
        ))
    }

    /// What this reader gives, in blocks of this length.
    pub fn over(name: &str, from: Box<dyn Read + Send>, block: usize) -> Input {
        Input {
            name: name.to_string(),
            from,
            block: vec![0; block],
            begin: 0,
            end: 0,
            ended: false,
        }
    }

    /// The file's name.
    pub fn name(&self) -> &str {
        &self.name
    }

    /// What comes next: at least so many bytes, or all that are left.
    pub fn peek(&mut self, wanted: usize) -> Outcome<&[u8]> {
        if self.end - self.begin < wanted && !self.ended {
            self.fill(wanted)?;
        }
        Ok(&self.block[self.begin..self.end])
    }

    /// Goes on behind so many bytes of what was seen.
    pub fn take(&mut self, bytes: usize) {
        self.begin += bytes;
        assert!(self.begin <= self.end, "no more is taken than was seen");
    }

    fn fill(&mut self, wanted: usize) -> Outcome {
        self.block.copy_within(self.begin..self.end, 0);
        self.end -= self.begin;
        self.begin = 0;
        if self.block.len() < wanted {
            self.block.resize(wanted, 0);
        }
        while self.end < wanted {
            match self.from.read(&mut self.block[self.end..]) {
                Ok(0) => {
                    self.ended = true;
                    break;
                }
                Ok(more) => self.end += more,
                Err(error) if error.kind() == ErrorKind::Interrupted => (),
                Err(error) => return said(format!("{}: {}", self.name, reason(&error))),
            }
        }
        Ok(())
    }
}

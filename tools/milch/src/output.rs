//! Output that is gathered, and written in blocks.

use std::io::{ErrorKind, Write};

use crate::failure::{reason, said, Failure, Outcome};

/// How much is gathered before it is written.
const BLOCK: usize = 64 * 1024;

pub struct Output<'a> {
    to: &'a mut dyn Write,
    /// What is not written yet; a command adds to it.
    pub text: Vec<u8>,
}

impl<'a> Output<'a> {
    pub fn new(to: &'a mut dyn Write) -> Output<'a> {
        let text = Vec::with_capacity(2 * BLOCK);
        Output { to, text }
    }

    /// Writes what is gathered, where it is a block.
    pub fn settle(&mut self) -> Outcome {
        if self.text.len() >= BLOCK {
            return self.write();
        }
        Ok(())
    }

    /// Writes what is left.
    pub fn finish(mut self) -> Outcome {
        self.write()?;
        self.to.flush().or_else(failed)
    }

    /// Writes what is gathered.
    pub fn write(&mut self) -> Outcome {
        self.to.write_all(&self.text).or_else(failed)?;
        self.text.clear();
        Ok(())
    }
}

fn failed(error: std::io::Error) -> Outcome {
    if error.kind() == ErrorKind::BrokenPipe {
        return Err(Failure::Gone);
    }
    said(format!("standard output: {}", reason(&error)))
}

//! Runs the outside program on an input.

use std::ffi::OsString;
use std::io::{self, Read, Write};
use std::path::PathBuf;
use std::process::{Child, Command, ExitStatus, Stdio};
use std::sync::mpsc::{self, Receiver};
use std::thread::{self, Scope};
use std::time::Duration;

/// How long one run may take.
const LIMIT: Duration = Duration::from_secs(60);

/// All that the program wrote.
pub struct Output {
    /// On standard output.
    pub lines: Vec<u8>,
    /// On standard error, if that was heard.
    pub warnings: Vec<u8>,
    pub status: ExitStatus,
}

/// What is compared: a program, or what a test puts in its place.
pub trait Outside {
    /// Gives all that is written for an input, or what went wrong. Meanwhile the other
    /// work is done here, and its result is given as well.
    fn run<T>(
        &self,
        input: &[u8],
        hear: bool,
        meanwhile: impl FnOnce() -> T,
    ) -> (Result<Output, String>, T);
}

/// A program, with the arguments that it gets. What can go wrong: it could not be
/// started, did not end in time, or did not exit with 0.
pub struct Program {
    pub path: PathBuf,
    pub arguments: Vec<OsString>,
}

impl Outside for Program {
    fn run<T>(
        &self,
        input: &[u8],
        hear: bool,
        meanwhile: impl FnOnce() -> T,
    ) -> (Result<Output, String>, T) {
        let (output, other) = self.ended(input, hear, meanwhile);
        (output.and_then(well), other)
    }
}

impl Program {
    /// The same, however the program exits.
    pub fn ended<T>(
        &self,
        input: &[u8],
        hear: bool,
        meanwhile: impl FnOnce() -> T,
    ) -> (Result<Output, String>, T) {
        let mut child = match self.start(hear) {
            Ok(child) => child,
            Err(error) => {
                let message = format!("{} cannot be started: {error}", self.path.display());
                return (Err(message), meanwhile());
            }
        };
        let mut stdin = child.stdin.take().expect("standard input is a pipe");
        thread::scope(|scope| {
            // The program may rightly stop before it has read all, so that the rest
            // cannot be written; what it wrote itself decides.
            scope.spawn(move || {
                let _ = stdin.write_all(input);
            });
            let lines = gather(scope, child.stdout.take());
            let warnings = gather(scope, child.stderr.take());
            let other = meanwhile();
            (ended(child, lines, warnings), other)
        })
    }

    fn start(&self, hear: bool) -> io::Result<Child> {
        let stderr = if hear { Stdio::piped() } else { Stdio::null() };
        Command::new(&self.path)
            .args(&self.arguments)
            .stdin(Stdio::piped())
            .stdout(Stdio::piped())
            .stderr(stderr)
            .spawn()
    }
}

type Gathered = Receiver<io::Result<Vec<u8>>>;

/// Reads to the end what comes from a pipe, if there is one.
fn gather<'a>(scope: &'a Scope<'a, '_>, pipe: Option<impl Read + Send + 'a>) -> Gathered {
    let (sender, receiver) = mpsc::channel();
    scope.spawn(move || {
        let mut all = Vec::new();
        let result = pipe.map_or(Ok(0), |mut pipe| pipe.read_to_end(&mut all));
        let _ = sender.send(result.map(|_| all));
    });
    receiver
}

/// Waits for the program's end.
fn ended(mut child: Child, lines: Gathered, warnings: Gathered) -> Result<Output, String> {
    let lines = lines.recv_timeout(LIMIT);
    if lines.is_err() {
        let _ = child.kill();
    }
    let warnings = warnings.recv_timeout(LIMIT);
    if warnings.is_err() {
        let _ = child.kill();
    }
    let status = child.wait();
    match (lines, warnings, status) {
        (Err(_), ..) | (_, Err(_), _) => Err(format!("no end within {} s", LIMIT.as_secs())),
        (Ok(Err(error)), ..) | (_, Ok(Err(error)), _) => {
            Err(format!("its output cannot be read: {error}"))
        }
        (.., Err(error)) => Err(format!("it cannot be waited for: {error}")),
        (Ok(Ok(lines)), Ok(Ok(warnings)), Ok(status)) => Ok(Output {
            lines,
            warnings,
            status,
        }),
    }
}

/// What was written by a program that exits with 0.
fn well(output: Output) -> Result<Output, String> {
    match output.status.success() {
        true => Ok(output),
        false => Err(format!("it ended with {}", output.status)),
    }
}

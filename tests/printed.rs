// What a program prints on an input that comes through a pipe.
// Rests on the standard library alone.

use std::fmt;
use std::io::{ErrorKind, Write};
use std::process::{Command, Output, Stdio};
use std::thread::{scope, sleep};
use std::time::Duration;

const SHOWN: usize = 400;

/// What a program wrote on standard output and standard error, and its exit status.
#[derive(Clone, PartialEq, Eq)]
pub struct Printed {
    pub output: Vec<u8>,
    error: Vec<u8>,
    status: Option<i32>,
}

impl Printed {
    pub fn on_output(bytes: impl Into<Vec<u8>>) -> Printed {
        Printed {
            output: bytes.into(),
            error: Vec::new(),
            status: Some(0),
        }
    }

    pub fn on_error(bytes: impl Into<Vec<u8>>) -> Printed {
        Printed {
            output: Vec::new(),
            error: bytes.into(),
            status: Some(0),
        }
    }
}

impl From<Output> for Printed {
    fn from(output: Output) -> Printed {
        Printed {
            output: output.stdout,
            error: output.stderr,
            status: output.status.code(),
        }
    }
}

/// As text; of long outputs the front.
impl fmt::Debug for Printed {
    fn fmt(&self, formatter: &mut fmt::Formatter) -> fmt::Result {
        for (name, bytes) in [("output", &self.output), ("error", &self.error)] {
            let front = bytes[..bytes.len().min(SHOWN)].escape_ascii();
            write!(formatter, "{name} of {} bytes: {front}; ", bytes.len())?;
        }
        write!(formatter, "status {:?}", self.status)
    }
}

/// Runs a program; the parts of its input are written one after the other, with a pause between.
pub fn run(path: &str, parts: &[&[u8]]) -> Printed {
    let mut child = Command::new(path)
        .stdin(Stdio::piped())
        .stdout(Stdio::piped())
        .stderr(Stdio::piped())
        .spawn()
        .unwrap_or_else(|error| panic!("{path}: {error}"));
    scope(|scope| {
        let input = child.stdin.take().expect("a pipe");
        scope.spawn(move || write_parts(input, parts));
        child.wait_with_output().expect("a program's end").into()
    })
}

/// A program that has read all it reads may end before the rest is written.
fn write_parts(mut input: impl Write, parts: &[&[u8]]) {
    for (index, part) in parts.iter().enumerate() {
        if index > 0 {
            sleep(Duration::from_millis(200));
        }
        if let Err(error) = input.write_all(part) {
            assert_eq!(error.kind(), ErrorKind::BrokenPipe);
        }
    }
}

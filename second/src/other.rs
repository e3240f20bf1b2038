//! The other program of a comparison: how it is started, how a log is given to it on standard
//! input, what it says and how it ends, and where its lines differ from this program's.

use std::ffi::OsString;
use std::fs::File;
use std::io::{self, Write};
use std::process::{Child, ChildStdin, Command, Output, Stdio};
use std::sync::mpsc::{self, Receiver};
use std::thread;
use std::time::Duration;

/// How long a pipe is left open for a program that should not wait for its end.
const PATIENCE: Duration = Duration::from_secs(30);

/// How the bytes of a log are given to the other program.
#[derive(Clone, Copy)]
pub enum Feeding {
    AtOnce,
    /// In pieces of so many bytes, with a pause after each.
    InPieces(usize),
    /// In such pieces, and then the pipe is left open until the program has ended.
    LeftOpen(usize),
}

impl Feeding {
    pub fn in_words(self) -> String {
        match self {
            Feeding::AtOnce => String::new(),
            Feeding::InPieces(bytes) => format!(", in pieces of {bytes}"),
            Feeding::LeftOpen(bytes) => format!(", in pieces of {bytes} and left open"),
        }
    }

    /// Gives a log to a program. One that stops reading early is no fault of the feeding. False if
    /// a pipe that was left open had to be closed before the program ended.
    fn feed(self, mut pipe: ChildStdin, log: &[u8], ended: Receiver<()>) -> bool {
        match self {
            Feeding::AtOnce => {
                let _ = pipe.write_all(log);
            }
            Feeding::InPieces(bytes) | Feeding::LeftOpen(bytes) => {
                for piece in log.chunks(bytes) {
                    if pipe.write_all(piece).and_then(|()| pipe.flush()).is_err() {
                        break;
                    }
                    thread::sleep(Duration::from_micros(20));
                }
            }
        }
        !matches!(self, Feeding::LeftOpen(_)) || ended.recv_timeout(PATIENCE).is_ok()
    }
}

/// What a program wrote, and how it ended. Of standard error only what was kept, and not shown.
pub struct Said {
    pub output: Vec<u8>,
    pub errors: Vec<u8>,
    pub status: i32,
    /// Whether it ended while its standard input was left open, where that was so.
    pub in_time: bool,
}

/// What the other program says when these words are given to it behind its own arguments, and
/// this log on standard input; nothing if a signal ended it. `errors` is `Stdio::piped()` for a
/// standard error that is kept.
pub fn said_by(
    program: &[OsString],
    words: &[OsString],
    log: &[u8],
    feeding: Feeding,
    errors: Stdio,
) -> io::Result<Option<Said>> {
    let mut child = start(program, words, Stdio::piped(), errors)?;
    let pipe = child.stdin.take();
    let (end, ended) = mpsc::channel();
    let (output, in_time) = thread::scope(|scope| {
        // The log goes in from another thread, so that neither pipe can fill up and block.
        let feeder = scope.spawn(move || pipe.map(|pipe| feeding.feed(pipe, log, ended)));
        let output = child.wait_with_output();
        // One that does not wait for the end has gone.
        let _ = end.send(());
        (output, feeder.join())
    });
    Ok(said(output?, in_time.is_ok_and(|fed| fed == Some(true))))
}

/// What the other program says when its standard input is this file.
pub fn said_of_input(
    program: &[OsString],
    words: &[OsString],
    input: File,
) -> io::Result<Option<Said>> {
    let child = start(program, words, input.into(), Stdio::piped())?;
    Ok(said(child.wait_with_output()?, true))
}

fn start(
    program: &[OsString],
    words: &[OsString],
    input: Stdio,
    errors: Stdio,
) -> io::Result<Child> {
    let mut command = Command::new(&program[0]);
    command
        .args(&program[1..])
        .args(words)
        .stdin(input)
        .stdout(Stdio::piped())
        .stderr(errors);
    command
        .spawn()
        .map_err(|error| cannot_start(program, error))
}

fn said(output: Output, in_time: bool) -> Option<Said> {
    let status = output.status.code()?;
    Some(Said {
        output: output.stdout,
        errors: output.stderr,
        status,
        in_time,
    })
}

pub fn cannot_start(program: &[OsString], error: io::Error) -> io::Error {
    let what = format!("cannot start {}: {error}", program[0].to_string_lossy());
    io::Error::new(error.kind(), what)
}

/// The first line in which two outputs differ, as each has it.
pub fn first_difference(ours: &[u8], others: &[u8]) -> String {
    let mut our_lines = ours.split_inclusive(|byte| *byte == b'\n');
    let mut other_lines = others.split_inclusive(|byte| *byte == b'\n');
    let mut number = 0;
    loop {
        number += 1;
        let (our_line, other_line) = (our_lines.next(), other_lines.next());
        if our_line != other_line || our_line.is_none() {
            let (ours, others) = (in_quotes(our_line), in_quotes(other_line));
            return format!("  line {number}, this program: {ours}\n  the other: {others}");
        }
    }
}

fn in_quotes(line: Option<&[u8]>) -> String {
    match line {
        Some(line) => format!("{:?}", String::from_utf8_lossy(line)),
        None => "nothing more".to_string(),
    }
}

/// The first byte in which two outputs differ, as each has it.
pub fn first_byte(ours: &[u8], others: &[u8]) -> String {
    let same = ours
        .iter()
        .zip(others)
        .take_while(|(one, other)| one == other);
    let place = same.count();
    let byte = |bytes: &[u8]| match bytes.get(place) {
        Some(byte) => byte.to_string(),
        None => "nothing more".to_string(),
    };
    let (one, other) = (byte(ours), byte(others));
    let (ours, others) = (ours.len(), others.len());
    format!("  byte {place}, this program: {one} of {ours} bytes\n  the other: {other} of {others}")
}

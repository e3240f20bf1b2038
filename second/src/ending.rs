//! How a run ends: what is said on standard error, and the status.

use std::ffi::OsString;
use std::io::{self, ErrorKind, Write};
use std::process::ExitCode;

use crate::output::print;
use crate::text::TextError;

/// The statuses.
pub const GOOD: u8 = 0;
/// A log is bad, something could not be read or written, or a comparison failed.
pub const BAD: u8 = 1;
pub const CALLED_WRONGLY: u8 = 2;

/// Why a run ends before it is done.
pub enum Stop {
    /// Its use is asked for.
    Help,
    /// It was called wrongly; what is wrong.
    Called(String),
    /// It cannot read what has this name.
    Unreadable(io::Error, OsString),
    /// What has this name is no text of a log.
    NoText(TextError, OsString),
    /// A write failed, or a program that it needs cannot be started.
    Failed(io::Error),
}

impl From<io::Error> for Stop {
    fn from(error: io::Error) -> Stop {
        Stop::Failed(error)
    }
}

/// A run that was done says whether what it looked at was good.
pub type Run = Result<bool, Stop>;

/// Says why a run ended, and gives its status. `usage` is the use of what was called.
pub fn status_of(run: Run, usage: &str) -> ExitCode {
    let status = match run {
        Ok(true) => GOOD,
        Ok(false) => BAD,
        Err(Stop::Help) => match print(usage.as_bytes()) {
            Ok(()) => GOOD,
            Err(error) => return status_of(Err(Stop::Failed(error)), usage),
        },
        Err(Stop::Called(what)) => {
            say(format!("{what}\n{usage}").trim_end().as_bytes());
            CALLED_WRONGLY
        }
        Err(Stop::Unreadable(error, name)) => {
            say(&about(&name, &error.to_string()));
            BAD
        }
        Err(Stop::NoText(TextError { line, what }, name)) => {
            say(&about(&name, &format!("line {line}: {what}")));
            BAD
        }
        // The reader of the output has gone: nobody is left to tell.
        Err(Stop::Failed(error)) if error.kind() == ErrorKind::BrokenPipe => BAD,
        Err(Stop::Failed(error)) => {
            say(error.to_string().as_bytes());
            BAD
        }
    };
    ExitCode::from(status)
}

/// `NAME: ` and what is said of it. The name's bytes are unchanged.
fn about(name: &OsString, what: &str) -> Vec<u8> {
    let mut line = match name.is_empty() {
        true => b"an empty name".to_vec(),
        false => name.as_encoded_bytes().to_vec(),
    };
    line.extend(format!(": {what}").into_bytes());
    line
}

/// Says something on standard error. If that fails too, nobody is left to tell.
fn say(what: &[u8]) {
    let mut line = b"second: ".to_vec();
    line.extend(what);
    line.push(b'\n');
    let _ = io::stderr().write_all(&line);
}

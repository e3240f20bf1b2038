//! Why a log has no answer, and how that is said.

use std::ffi::OsString;
use std::io;

use crate::log::Fault;
use crate::rules::Refusal;

/// Why there is no answer, with the name of the log as it was given.
#[derive(Debug)]
pub enum Trouble {
    /// A log reads badly, or its setup differs from the first one's.
    Bad(Refusal, OsString),
    /// A log cannot be opened or read.
    Unreadable(io::Error, OsString),
}

impl Trouble {
    pub fn new(fault: Fault, name: OsString) -> Trouble {
        match fault {
            Fault::Bad(refusal) => Trouble::Bad(refusal, name),
            Fault::Unreadable(error) => Trouble::Unreadable(error, name),
        }
    }

    /// The refusal of a log that is bad.
    pub fn refusal(&self) -> Option<Refusal> {
        match self {
            Trouble::Bad(refusal, _) => Some(*refusal),
            Trouble::Unreadable(..) => None,
        }
    }
}

/// The one line for a log that reads badly or has another setup. The name's bytes are unchanged.
pub fn bad_line(refusal: Refusal, name: &OsString) -> Vec<u8> {
    let mut line = format!("bad {} ", refusal.number()).into_bytes();
    line.extend(name.as_encoded_bytes());
    line.push(b'\n');
    line
}

//! Where bytes are read: a file by its name, or standard input.

use std::ffi::OsStr;
use std::fs::File;
use std::io::{self, ErrorKind, Read};
use std::os::fd::AsFd;
use std::thread;

use crate::descriptors;
use crate::output::PAUSE;

/// The name of standard input. A file of that name is `./-`.
pub const STANDARD_INPUT: &str = "-";

/// Opens what has this name. Nothing is read ahead of what is asked for.
pub fn open(name: &OsStr) -> io::Result<Box<dyn Read>> {
    if name == STANDARD_INPUT {
        Ok(Box::new(StandardInput::open()?))
    } else {
        Ok(Box::new(File::open(name)?))
    }
}

/// Standard input as a file of its own, since Rust's takes one that cannot be read for an empty
/// one. A read that would block is tried again.
struct StandardInput(File);

impl StandardInput {
    fn open() -> io::Result<StandardInput> {
        descriptors::was_open(descriptors::STANDARD_INPUT)?;
        let descriptor = io::stdin().as_fd().try_clone_to_owned()?;
        Ok(StandardInput(File::from(descriptor)))
    }
}

impl Read for StandardInput {
    fn read(&mut self, bytes: &mut [u8]) -> io::Result<usize> {
        loop {
            match self.0.read(bytes) {
                Err(error) if error.kind() == ErrorKind::WouldBlock => thread::sleep(PAUSE),
                result => return result,
            }
        }
    }
}

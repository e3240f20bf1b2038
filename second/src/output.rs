//! Standard output. A write that would block or was interrupted is tried again; any other that
//! fails is said with the system's reason.

use std::fs::File;
use std::io::{self, BufWriter, ErrorKind, LineWriter, Write};
use std::os::fd::AsFd;
use std::thread;
use std::time::Duration;

use crate::descriptors;

const BUFFER: usize = 1 << 16;

/// How long to wait before something that would block is tried again.
pub const PAUSE: Duration = Duration::from_millis(2);

/// For much output, which goes out in large pieces.
pub fn in_pieces() -> BufWriter<Output> {
    BufWriter::with_capacity(BUFFER, Output::default())
}

/// For lines that somebody waits for.
pub fn in_lines() -> LineWriter<Output> {
    LineWriter::new(Output::default())
}

pub fn print(bytes: &[u8]) -> io::Result<()> {
    Output::default().write_all(bytes)
}

/// Standard output as a file of its own, since Rust's hides that it cannot be written; nothing
/// before the first write.
#[derive(Default)]
pub struct Output(Option<File>);

impl Output {
    fn file(&mut self) -> io::Result<&mut File> {
        if self.0.is_none() {
            descriptors::was_open(descriptors::STANDARD_OUTPUT)?;
            let descriptor = io::stdout().as_fd().try_clone_to_owned()?;
            self.0 = Some(File::from(descriptor));
        }
        Ok(self.0.as_mut().expect("it has just been opened"))
    }
}

impl Write for Output {
    fn write(&mut self, bytes: &[u8]) -> io::Result<usize> {
        loop {
            match self.file().and_then(|file| file.write(bytes)) {
                Ok(count) => return Ok(count),
                Err(error) if error.kind() == ErrorKind::Interrupted => {}
                Err(error) if error.kind() == ErrorKind::WouldBlock => thread::sleep(PAUSE),
                Err(error) => {
                    let what = format!("standard output: {error}");
                    return Err(io::Error::new(error.kind(), what));
                }
            }
        }
    }

    fn flush(&mut self) -> io::Result<()> {
        Ok(())
    }
}

//! Runs a program with streams that do not block: what it writes is read slowly, so that its
//! writes would have to wait, and what it reads comes late.

use std::ffi::OsString;
use std::io::{self, Read, Write};
use std::os::fd::OwnedFd;
use std::os::unix::net::UnixStream;
use std::process::{Command, Stdio};
use std::thread;
use std::time::Duration;

use crate::other::cannot_start;

/// How long the other end lets the program wait.
const PAUSE: Duration = Duration::from_millis(100);

/// What the program wrote goes to `output`, and what stands on standard input to the program. Says
/// whether it ended with status 0.
pub fn slowly(program: &[OsString], output: &mut impl Write) -> io::Result<bool> {
    let (writer, given) = UnixStream::pair()?;
    let (mut reader, taken) = UnixStream::pair()?;
    given.set_nonblocking(true)?;
    taken.set_nonblocking(true)?;
    let mut child = Command::new(&program[0])
        .args(&program[1..])
        .stdin(Stdio::from(OwnedFd::from(given)))
        .stdout(Stdio::from(OwnedFd::from(taken)))
        .spawn()
        .map_err(|error| cannot_start(program, error))?;
    // The command keeps no end of its own: the program's end is the only one.
    thread::spawn(move || feed(writer));
    let mut bytes = [0; 1 << 15];
    loop {
        thread::sleep(PAUSE);
        let count = reader.read(&mut bytes)?;
        if count == 0 {
            break;
        }
        output.write_all(&bytes[..count])?;
    }
    output.flush()?;
    Ok(child.wait()?.success())
}

/// Hands standard input on, late. A program that stops reading is no fault of the feeding.
fn feed(mut writer: UnixStream) {
    thread::sleep(PAUSE);
    let _ = io::copy(&mut io::stdin().lock(), &mut writer);
}

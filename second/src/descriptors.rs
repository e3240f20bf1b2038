//! Which of the three standard descriptors were closed when the program was started.
//!
//! Before `main` Rust opens `/dev/null` in the place of a closed one, so that nothing read from it
//! and nothing written to it fails. Here they are looked at earlier still.

use std::ffi::c_int;
use std::io;
use std::sync::atomic::{AtomicBool, Ordering};

pub const STANDARD_INPUT: usize = 0;
pub const STANDARD_OUTPUT: usize = 1;

static CLOSED: [AtomicBool; 3] = [const { AtomicBool::new(false) }; 3];

/// The command that asks for the flags of a descriptor, and changes nothing.
const F_GETFD: c_int = 1;
/// The system's number for a descriptor that is not open.
const EBADF: i32 = 9;

extern "C" {
    fn fcntl(descriptor: c_int, command: c_int, ...) -> c_int;
}

extern "C" fn look() {
    for (descriptor, closed) in (0..).zip(&CLOSED) {
        // SAFETY: the question may be asked of any number, and reads no memory of ours.
        let flags = unsafe { fcntl(descriptor, F_GETFD) };
        closed.store(flags < 0, Ordering::Relaxed);
    }
}

/// What stands in this section is called before `main`.
#[used]
#[link_section = ".init_array"]
static BEFORE_MAIN: extern "C" fn() = look;

/// The system's reason if this descriptor was closed.
pub fn was_open(descriptor: usize) -> io::Result<()> {
    match CLOSED[descriptor].load(Ordering::Relaxed) {
        true => Err(io::Error::from_raw_os_error(EBADF)),
        false => Ok(()),
    }
}

//! The sum of demand 3, asked of the setup that a log begins with.

use std::ffi::OsStr;
use std::fmt::Write;
use std::io::Read;

use crate::log::{Fault, LogReader};
use crate::rules::Setup;

/// The wait length that a word says: decimal digits alone, and a tick value.
pub fn length_of(word: &OsStr) -> Option<u32> {
    let digits = word.to_str()?;
    let plain = digits.bytes().all(|byte| byte.is_ascii_digit());
    digits.parse().ok().filter(|_| plain)
}

/// The answer for a log. Its setup is read and not a byte more.
pub fn answer_of_log(length: u32, log: impl Read) -> Result<String, Fault> {
    let (setup, _) = LogReader::open(log)?;
    Ok(answer(&setup, length))
}

/// The length, and a row for each task with its sum.
pub fn answer(setup: &Setup, length: u32) -> String {
    let mut answer = format!("length {length}\ntask sum\n");
    for task in 0..setup.tasks.len() {
        // Writing into a string cannot fail.
        let _ = writeln!(answer, "{task} {}", setup.sum(task, length).unwrap_or(0));
    }
    answer
}

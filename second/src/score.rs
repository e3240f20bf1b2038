//! The score of a comparison: what passed and what failed, and its last line.

use std::io::{self, Write};

use crate::counts::{Class, Never};
use crate::rules::Refusal;

pub struct Score<W> {
    pub report: W,
    passed: u64,
    failed: u64,
}

impl<W: Write> Score<W> {
    pub fn new(report: W) -> Score<W> {
        Score {
            report,
            passed: 0,
            failed: 0,
        }
    }

    /// Books one thing that was tried; what failed is said at once.
    pub fn book(&mut self, passed: bool, what: &str) -> io::Result<()> {
        if passed {
            self.passed += 1;
            Ok(())
        } else {
            self.failed += 1;
            writeln!(self.report, "FAILED {what}")
        }
    }

    /// Books one run of the other program, and what was wrong with it.
    pub fn book_run(&mut self, what: &str, fault: Option<String>) -> io::Result<()> {
        let fault = fault.as_deref();
        self.book(fault.is_none(), &format!("{what}\n{}", fault.unwrap_or("")))
    }

    /// Books whether a bad log was refused with the number that it must be refused with.
    pub fn book_bad(&mut self, what: &str, number: u8, found: Option<Refusal>) -> io::Result<()> {
        let found = found.map(Refusal::number);
        let what = format!("{what}: not {number} but {found:?}");
        self.book(found == Some(number), &what)
    }

    /// Books whether each class came up often enough.
    pub fn book_classes(&mut self, classes: &[Class]) -> io::Result<()> {
        for class in classes {
            let what = format!("{}: came up {} times", class.what, class.count);
            self.book(class.count >= class.least, &what)?;
        }
        Ok(())
    }

    /// Books that nothing came up which the rules never let come up.
    pub fn book_nevers(&mut self, nevers: &[Never]) -> io::Result<()> {
        for Never { what, count } in nevers {
            self.book(*count == 0, &format!("{what}: came up {count} times"))?;
        }
        Ok(())
    }

    /// Prints the last line. True if nothing failed.
    pub fn last_line(mut self) -> io::Result<bool> {
        let (passed, failed) = (self.passed, self.failed);
        writeln!(self.report, "{passed} passed, {failed} failed")?;
        self.report.flush()?;
        Ok(failed == 0)
    }
}

//! What the other program of a comparison must say, and the status that it must end with.

use std::ffi::OsString;
use std::fs::File;
use std::io;
use std::process::Stdio;

use crate::ending::{BAD, CALLED_WRONGLY, GOOD};
use crate::other::{first_byte, first_difference, said_by, said_of_input, Feeding, Said};
use crate::rules::Refusal;
use crate::trouble::{bad_line, Trouble};

pub struct Expected {
    /// On standard output.
    pub output: Vec<u8>,
    status: u8,
    errors: Errors,
    /// How a difference of two outputs is said.
    difference: fn(&[u8], &[u8]) -> String,
}

/// What standard error must say.
enum Errors {
    /// Nothing that is looked at.
    Any,
    /// These bytes and no other.
    Exactly(Vec<u8>),
    /// Something.
    Something,
    /// `NAME: ` somewhere.
    Name(OsString),
}

/// What is given to the other program: words behind its own arguments, and standard input.
pub struct Given<'a> {
    pub words: &'a [OsString],
    pub input: &'a [u8],
    pub feeding: Feeding,
}

impl Expected {
    pub fn good(output: Vec<u8>) -> Expected {
        Expected {
            output,
            status: GOOD,
            errors: Errors::Any,
            difference: first_difference,
        }
    }

    /// A bad log, and what is printed for it.
    pub fn bad(output: Vec<u8>) -> Expected {
        Expected {
            output,
            status: BAD,
            errors: Errors::Any,
            difference: first_difference,
        }
    }

    /// The name of what cannot be read is said.
    pub fn unreadable(name: &OsString) -> Expected {
        Expected {
            output: Vec::new(),
            status: BAD,
            errors: Errors::Name(name.clone()),
            difference: first_difference,
        }
    }

    /// A log, and nothing on standard error.
    pub fn log(output: Vec<u8>) -> Expected {
        Expected {
            output,
            status: GOOD,
            errors: Errors::Exactly(Vec::new()),
            difference: first_byte,
        }
    }

    /// No log, but the one line of a bad one on standard error.
    pub fn no_log(refusal: Refusal, name: &OsString) -> Expected {
        Expected {
            output: Vec::new(),
            status: BAD,
            errors: Errors::Exactly(bad_line(refusal, name)),
            difference: first_byte,
        }
    }

    /// Something cannot be read or written, and that is said in some way.
    pub fn failed() -> Expected {
        Expected {
            output: Vec::new(),
            status: BAD,
            errors: Errors::Something,
            difference: first_difference,
        }
    }

    /// The program was called wrongly, and says so.
    pub fn called_wrongly() -> Expected {
        Expected {
            output: Vec::new(),
            status: CALLED_WRONGLY,
            errors: Errors::Something,
            difference: first_difference,
        }
    }

    /// An answer, the one line of a bad log, or a name on standard error.
    pub fn of_answer(answer: &Result<String, Trouble>) -> Expected {
        match answer {
            Ok(answer) => Expected::good(answer.clone().into_bytes()),
            Err(Trouble::Bad(refusal, name)) => Expected::bad(bad_line(*refusal, name)),
            Err(Trouble::Unreadable(_, name)) => Expected::unreadable(name),
        }
    }

    /// What is wrong with what the other program says and with its status, if anything is.
    pub fn fault(&self, program: &[OsString], given: &Given) -> io::Result<Option<String>> {
        let errors = match self.errors {
            Errors::Any => Stdio::inherit(),
            Errors::Exactly(_) | Errors::Something | Errors::Name(_) => Stdio::piped(),
        };
        let said = said_by(program, given.words, given.input, given.feeding, errors)?;
        Ok(self.fault_of(said))
    }

    /// The same where standard input is a file.
    pub fn fault_of_input(
        &self,
        program: &[OsString],
        words: &[OsString],
        input: File,
    ) -> io::Result<Option<String>> {
        Ok(self.fault_of(said_of_input(program, words, input)?))
    }

    fn fault_of(&self, said: Option<Said>) -> Option<String> {
        let Some(said) = said else {
            return Some("  the other program was killed".to_string());
        };
        if said.output != self.output {
            return Some((self.difference)(&self.output, &said.output));
        }
        if said.status != i32::from(self.status) {
            let (wanted, found) = (self.status, said.status);
            return Some(format!(
                "  the other program's status is {found}, not {wanted}"
            ));
        }
        if !said.in_time {
            return Some("  it waits for more than it needs".to_string());
        }
        let right = match &self.errors {
            Errors::Any => true,
            Errors::Exactly(bytes) => said.errors == *bytes,
            Errors::Something => !said.errors.is_empty(),
            Errors::Name(name) => names_file(&said.errors, name),
        };
        let errors = String::from_utf8_lossy(&said.errors);
        (!right).then(|| format!("  not what is wanted on standard error: {errors:?}"))
    }
}

/// Whether standard error says `NAME: ` somewhere.
fn names_file(errors: &[u8], name: &OsString) -> bool {
    let mut said = name.as_encoded_bytes().to_vec();
    said.extend(b": ");
    errors.windows(said.len()).any(|part| part == said)
}

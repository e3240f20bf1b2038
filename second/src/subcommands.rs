//! The subcommands: how each is called, and what it does.

use std::ffi::{OsStr, OsString};
use std::fs;
use std::io::{self, BufReader, Read, Write};
use std::path::Path;
use std::str::FromStr;

use crate::ending::{Run, Stop};
use crate::input::{open, STANDARD_INPUT};
use crate::output::{in_lines, in_pieces, print};
use crate::random::Shape;
use crate::rules::{DEADLINE, FIXED_PRIORITY, MOST_PROCESSORS, MOST_TASKS};
use crate::trouble::{bad_line, Trouble};
use crate::{bench, compare, convert, converts, damage, lines, report, seasons};
use crate::{sheets, sizes, slowly, sum, sums, text};

pub struct Subcommand {
    pub name: &'static str,
    /// The words that follow its name.
    words: &'static str,
    does: &'static str,
    pub run: fn(&[OsString]) -> Run,
}

pub const SUBCOMMANDS: [Subcommand; 15] = [
    Subcommand {
        name: "replay",
        words: "[LOG]",
        does: "prints the lines of a log",
        run: replay,
    },
    Subcommand {
        name: "report",
        words: "[LOG...]",
        does: "prints one sheet over these logs, in their order",
        run: report,
    },
    Subcommand {
        name: "sum",
        words: "LENGTH [LOG]",
        does: "prints each task's sum for a wait of LENGTH ticks, of the setup a log begins with",
        run: sum,
    },
    Subcommand {
        name: "convert",
        words: "KIND [LOG] > LOG",
        does: "makes a log with its releases in KIND of another log",
        run: convert,
    },
    Subcommand {
        name: "log",
        words: "[TEXT] > LOG",
        does: "makes a log of a readable text",
        run: log,
    },
    Subcommand {
        name: "text",
        words: "[LOG] > TEXT",
        does: "makes a readable text of a log",
        run: text,
    },
    Subcommand {
        name: "make",
        words: "SEED KIND [EVENTS [M N [MODE [RELEASE]]]] > LOG",
        does: "makes a random log",
        run: make,
    },
    Subcommand {
        name: "season",
        words: "SEED KIND FOLDER",
        does: "makes a random list of logs for a report, in that folder",
        run: season,
    },
    Subcommand {
        name: "compare",
        words: "PROGRAM [ARGS...]",
        does: "compares another replay program with this one",
        run: |words| Ok(compare::compare(program(words)?, &mut in_lines())?),
    },
    Subcommand {
        name: "sheets",
        words: "PROGRAM [ARGS...]",
        does: "compares another report program with this one",
        run: |words| Ok(sheets::sheets(program(words)?, &mut in_lines())?),
    },
    Subcommand {
        name: "sums",
        words: "PROGRAM [ARGS...]",
        does: "compares another sum program with this one",
        run: |words| Ok(sums::sums(program(words)?, &mut in_lines())?),
    },
    Subcommand {
        name: "converts",
        words: "PROGRAM [ARGS...]",
        does: "compares another convert program with this one",
        run: |words| Ok(converts::converts(program(words)?, &mut in_lines())?),
    },
    Subcommand {
        name: "sizes",
        words: "REPLAY CONVERT",
        does: "prints how long the benchmark's longest logs are with each kind of release, and times another program that converts them beside its replay",
        run: |words| {
            let [replay, convert] = program(words)? else {
                return Err(Stop::Called("REPLAY and CONVERT are wanted".to_string()));
            };
            Ok(sizes::sizes(replay, convert, &mut in_lines())?)
        },
    },
    Subcommand {
        name: "bench",
        words: "REPLAY REPORT",
        does:
            "times another replay program against this one, and its report program, in both modes",
        run: |words| {
            let [replay, report] = program(words)? else {
                return Err(Stop::Called("REPLAY and REPORT are wanted".to_string()));
            };
            Ok(bench::bench(replay, report, &mut in_lines())?)
        },
    },
    Subcommand {
        name: "slowly",
        words: "PROGRAM [ARGS...]",
        does: "runs a program with a standard input and output that do not block, slowly",
        run: |words| Ok(slowly::slowly(program(words)?, &mut in_pieces())?),
    },
];

impl Subcommand {
    fn call(&self) -> String {
        let call = format!("second {} {}", self.name, self.words);
        call.trim_end().to_string()
    }
}

/// The use of one subcommand.
pub fn usage_of(subcommand: &Subcommand) -> String {
    let mut usage = format!("use: {}\n", subcommand.call());
    usage.push_str(&format!("It {}.\n", subcommand.does));
    match subcommand.name {
        "replay" | "report" | "sum" => usage.push_str(INPUT_AND_STATUS),
        "convert" => {
            usage.push_str(INPUT_AND_STATUS);
            usage.push_str(&format!("KIND: {RELEASE_KINDS}"));
        }
        "log" | "text" => {
            usage.push_str(INPUT_AND_STATUS);
            usage.push_str(&forms_of_text());
            usage.push_str(MODES);
        }
        "make" => {
            usage.push_str(&format!("KIND: {}\n", log_kinds()));
            usage.push_str(MODE_OF_LOG);
            usage.push_str(MODES);
            usage.push_str(&format!("RELEASE: {RELEASE_KINDS}"));
        }
        "season" => {
            usage.push_str(&format!("KIND: {}\n", season_kinds()));
            usage.push_str(MODE_OF_SEASON);
        }
        _ => {}
    }
    usage
}

/// The use of the whole program.
pub fn usage() -> String {
    let width = SUBCOMMANDS.map(|subcommand| subcommand.call().len());
    let width = width.into_iter().max().unwrap_or(0);
    let mut usage = String::from("use:\n");
    for subcommand in &SUBCOMMANDS {
        let (call, does) = (subcommand.call(), subcommand.does);
        usage.push_str(&format!("{call:<width$}  {does}\n"));
    }
    let help = "second help";
    usage.push_str(&format!(
        "{help:<width$}  prints this, as do --help and -h\n"
    ));
    usage.push_str(INPUT_AND_STATUS);
    usage.push_str(&format!("KIND of a log: {}\n", log_kinds()));
    usage.push_str(&format!("KIND of a season: {}\n", season_kinds()));
    usage.push_str(MODE_OF_LOG);
    usage.push_str(MODE_OF_SEASON);
    usage.push_str(&forms_of_text());
    usage.push_str(MODES);
    usage.push_str(&format!("RELEASE, and KIND of releases: {RELEASE_KINDS}"));
    usage
}

const INPUT_AND_STATUS: &str = "\
Without a name, and where the name is -, it reads standard input; a file of that name is ./-
Status: 0 good; 1 the log is bad, or something could not be read or written; 2 called wrongly
";

const MODES: &str = "MODE: 0 fixed priority, 1 deadline\n";
const RELEASE_KINDS: &str = "3 by sets, 8 by lists\n";
const MODE_OF_LOG: &str = "\
A log without a MODE has the one that goes with the seed, and so has one without a RELEASE
";
const MODE_OF_SEASON: &str = "\
A season has the mode that goes with the seed; in mode 0 its setups are of kind 1 or of kind 7, and
its logs have releases of kind 3 or of kind 8
";

fn forms_of_text() -> String {
    let (setup, release) = (text::SETUP, text::RELEASE);
    format!(
        "A text begins with `{setup}`: its setup is of kind 7 with a MODE, else of kind 1\n\
         Its releases are `{release}`: of kind 8 with `lists`, else of kind 3\n"
    )
}

fn log_kinds() -> String {
    let damages = damage_kinds();
    format!("good kind-7 edges busy full flock deferred {damages}")
}

fn season_kinds() -> String {
    let good = seasons::GOOD.map(|(name, _)| name).join(" ");
    let other_setups = seasons::OTHER_SETUPS.map(|(name, _)| name).join(" ");
    let damages = damage_kinds();
    format!("{good} {other_setups} {damages}")
}

fn damage_kinds() -> String {
    let names: Vec<&str> = damage::damages().map(|(name, _)| name).collect();
    names.join(" ")
}

pub fn asks_for_help(word: &OsStr) -> bool {
    word == "--help" || word == "-h"
}

/// A word that begins with `-` and is not `-` alone is a flag, and no flag but for help is known.
pub fn no_flag(word: &OsString) -> Result<(), Stop> {
    let bytes = word.as_encoded_bytes();
    if asks_for_help(word) {
        Err(Stop::Help)
    } else if bytes.starts_with(b"-") && bytes.len() > 1 {
        let flag = word.to_string_lossy();
        Err(Stop::Called(format!("unknown flag `{flag}`")))
    } else {
        Ok(())
    }
}

/// At most so many words, and no flag among them.
fn plain_words(words: &[OsString], most: usize) -> Result<&[OsString], Stop> {
    words.iter().try_for_each(no_flag)?;
    match words.get(most) {
        None => Ok(words),
        Some(word) => {
            let word = word.to_string_lossy();
            Err(Stop::Called(format!("`{word}` is one word too many")))
        }
    }
}

/// The one name that was given, or that of standard input.
fn one_name(words: &[OsString]) -> Result<OsString, Stop> {
    let name = plain_words(words, 1)?.first().cloned();
    Ok(name.unwrap_or_else(|| STANDARD_INPUT.into()))
}

/// A program to compare with, and its arguments, which may be anything.
fn program(words: &[OsString]) -> Result<&[OsString], Stop> {
    let Some(program) = words.first() else {
        return Err(Stop::Called("PROGRAM is missing".to_string()));
    };
    no_flag(program)?;
    Ok(words)
}

/// Opens what has this name, for a reader that wants all of it.
fn open_whole(name: &OsString) -> Result<BufReader<Box<dyn Read>>, Stop> {
    let input = open(name).map_err(|error| Stop::Unreadable(error, name.clone()))?;
    Ok(BufReader::with_capacity(1 << 16, input))
}

fn replay(words: &[OsString]) -> Run {
    let name = one_name(words)?;
    let mut output = in_pieces();
    let fault = lines::replay(open_whole(&name)?, &mut output, |_, _, _| {})?;
    output.flush()?;
    match fault.map(|fault| Trouble::new(fault, name)) {
        None => Ok(true),
        Some(Trouble::Bad(..)) => Ok(false),
        Some(Trouble::Unreadable(error, name)) => Err(Stop::Unreadable(error, name)),
    }
}

fn report(words: &[OsString]) -> Run {
    let names = plain_words(words, usize::MAX)?;
    let standard_input = [STANDARD_INPUT.into()];
    let names = if names.is_empty() {
        &standard_input
    } else {
        names
    };
    answer(report::sheet(names, open, &mut ()))
}

fn sum(words: &[OsString]) -> Run {
    let Some((length, names)) = plain_words(words, 2)?.split_first() else {
        return Err(Stop::Called("LENGTH is missing".to_string()));
    };
    let Some(length) = sum::length_of(length) else {
        let length = length.to_string_lossy();
        let wanted = "a number of ticks in digits, at most 4294967295";
        return Err(Stop::Called(format!("LENGTH is {wanted}, not `{length}`")));
    };
    let name = one_name(names)?;
    // A reader that reads ahead would wait for more than the setup.
    let log = open(&name).map_err(|error| Stop::Unreadable(error, name.clone()))?;
    answer(sum::answer_of_log(length, log).map_err(|fault| Trouble::new(fault, name)))
}

/// Prints an answer, or the one line of a bad log.
fn answer(answer: Result<String, Trouble>) -> Run {
    match answer {
        Ok(answer) => {
            print(answer.as_bytes())?;
            Ok(true)
        }
        Err(Trouble::Bad(refusal, name)) => {
            print(&bad_line(refusal, &name))?;
            Ok(false)
        }
        Err(Trouble::Unreadable(error, name)) => Err(Stop::Unreadable(error, name)),
    }
}

/// Standard output is a log or nothing: that a log is bad is said on standard error.
fn convert(words: &[OsString]) -> Run {
    let Some((kind, names)) = plain_words(words, 2)?.split_first() else {
        return Err(Stop::Called("KIND is missing".to_string()));
    };
    let Some(kind) = kind.to_str().and_then(convert::kind_of) else {
        let kind = kind.to_string_lossy();
        return Err(Stop::Called(format!("KIND is 3 or 8, not `{kind}`")));
    };
    let name = one_name(names)?;
    let log = whole(&name)?;
    match convert::convert(kind, &log).map_err(|fault| Trouble::new(fault, name)) {
        Ok(log) => {
            print(&log)?;
            Ok(true)
        }
        Err(trouble) => say_bad(trouble),
    }
}

/// Says on standard error that a log is bad.
fn say_bad(trouble: Trouble) -> Run {
    match trouble {
        Trouble::Bad(refusal, name) => {
            let _ = io::stderr().write_all(&bad_line(refusal, &name));
            Ok(false)
        }
        Trouble::Unreadable(error, name) => Err(Stop::Unreadable(error, name)),
    }
}

/// All bytes of what has this name.
fn whole(name: &OsString) -> Result<Vec<u8>, Stop> {
    let mut bytes = Vec::new();
    open_whole(name)?
        .read_to_end(&mut bytes)
        .map_err(|error| Stop::Unreadable(error, name.clone()))?;
    Ok(bytes)
}

fn log(words: &[OsString]) -> Run {
    let name = one_name(words)?;
    let text = whole(&name)?;
    let log = text::log_of_text(&text).map_err(|error| Stop::NoText(error, name))?;
    print(&log)?;
    Ok(true)
}

/// Standard output is a text or nothing: that a log is bad is said on standard error.
fn text(words: &[OsString]) -> Run {
    let name = one_name(words)?;
    match text::text_of_log(open_whole(&name)?).map_err(|fault| Trouble::new(fault, name)) {
        Err(trouble) => say_bad(trouble),
        text => answer(text),
    }
}

fn make(words: &[OsString]) -> Run {
    let words = in_text(plain_words(words, 7)?)?;
    let log = make_of_words(&words).ok_or_else(not_understood)?;
    print(&log)?;
    Ok(true)
}

/// The log asked for; nothing if a word is not understood or a number is not allowed.
fn make_of_words(words: &[&str]) -> Option<Vec<u8>> {
    let [seed, kind, words @ ..] = words else {
        return None;
    };
    let seed: u64 = number(seed, 0, u64::MAX)?;
    let mut shape = Shape::of_seed(seed);
    if let Some(events) = words.first() {
        shape.events = number(events, 0, 10_000_000)?;
    }
    match words {
        [] | [_] => {}
        [_, processors, tasks, rest @ ..] => {
            shape.processors = number(processors, 1, MOST_PROCESSORS)?;
            shape.tasks = number(tasks, 1, MOST_TASKS as u8)?;
            if let Some(mode) = rest.first() {
                shape.mode = number(mode, FIXED_PRIORITY, DEADLINE)?;
            }
            if let Some(kind) = rest.get(1) {
                shape.release_kind = convert::kind_of(kind)?;
            }
        }
        _ => return None,
    }
    damage::make(seed, kind, shape)
}

/// Writes the logs of a season as 1.log, 2.log and so on.
fn season(words: &[OsString]) -> Run {
    let words = in_text(plain_words(words, 3)?)?;
    let [seed, kind, folder] = words[..] else {
        return Err(not_understood());
    };
    let logs = number(seed, 0, u64::MAX).and_then(|seed| seasons::season(seed, kind));
    for (number, log) in (1..).zip(logs.ok_or_else(not_understood)?) {
        let file = Path::new(folder).join(format!("{number}.log"));
        let cannot = |error: io::Error| {
            let what = format!("{}: {error}", file.display());
            io::Error::new(error.kind(), what)
        };
        fs::write(&file, log).map_err(cannot)?;
    }
    Ok(true)
}

fn in_text(words: &[OsString]) -> Result<Vec<&str>, Stop> {
    let texts: Option<Vec<&str>> = words.iter().map(|word| word.to_str()).collect();
    texts.ok_or_else(not_understood)
}

fn not_understood() -> Stop {
    Stop::Called("a word is missing or not understood".to_string())
}

fn number<T: FromStr + PartialOrd>(word: &str, low: T, high: T) -> Option<T> {
    word.parse()
        .ok()
        .filter(|number| (low..=high).contains(number))
}

//! An independent reading of document 01, its rules, its log, its replay lines and the sum of
//! demand 3, and of requests CR 1, the report, CR 2, retries that never ran, CR 3, whom a
//! transaction waits for, CR 5, earliest deadline first, and CR 6, shorter release records, in
//! document 02; written from these documents alone, to be compared with other programs that follow
//! them.
//!
//! Subcommands:
//!
//! - `second replay [LOG]` prints the lines of a log.
//! - `second report [LOG...]` prints the sheet over these logs.
//! - `second sum LENGTH [LOG]` prints, for each task, the sum for a wait of so many ticks.
//! - `second convert KIND [LOG] > LOG` moves a whole log to releases of kind 3 or of kind 8.
//! - `second log [TEXT] > LOG` makes a log of a readable text.
//! - `second text [LOG] > TEXT` makes a readable text of a log.
//! - `second make SEED KIND [EVENTS [M N [MODE [RELEASE]]]] > LOG` makes a random log.
//! - `second season SEED KIND FOLDER` makes a random list of logs for a report, in that folder.
//! - `second compare PROGRAM [ARGS...]` compares another replay program with this one.
//! - `second sheets PROGRAM [ARGS...]` compares another report program with this one.
//! - `second sums PROGRAM [ARGS...]` compares another sum program with this one.
//! - `second converts PROGRAM [ARGS...]` compares another convert program with this one.
//! - `second sizes REPLAY CONVERT` prints how long the longest logs of the benchmark are with each
//!   kind of release, and times another program that converts them beside its replay.
//! - `second bench REPLAY REPORT` times another replay program against this one, and its report
//!   program beside it, in both modes.
//! - `second slowly PROGRAM [ARGS...]` runs a program with streams that do not block, slowly.
//! - `second help`, `--help` and `-h` print the use; behind a subcommand, its own.
//!
//! Without a name, and where the name is `-`, standard input is read. The status is 0 if all is
//! good, 1 if a log is bad, something could not be read or written, or a comparison failed, and 2
//! if the program was called wrongly.
//!
//! To read it in order: `rules` (sessions, events and the sum), `log` (records), `lines` (the
//! replay), `text`; `tally` (what an event books) and `report` (the sheet); `sum`; `convert`; then
//! what stands around them: `trouble`, `descriptors`, `input`, `output`, `ending` (statuses) and
//! `subcommands`; then what the comparisons need: `random`, `damage`, `release_damage` and `seasons`
//! (logs to try), `other` (the other program), `expected` (what it must say), `counts`, `cases`,
//! `both_numbers`, `release_counts`, `score`, `folder`, `first_records` and `release_records` (bad
//! ones written down); then the replay's: `vectors` (sessions written down), `task_named`,
//! `other_rankings`, `log_counts`, `compare`, `bench` and `sizes`; then the report's:
//! `sheet_vectors` (lists written down), `sheet_counts` and `sheets`; then the sum's: `sum_vectors`
//! (answers written down), `sum_counts` and `sums`; then the conversion's: `convert_vectors` (logs
//! written down in both kinds), `long_logs`, `convert_counts` and `converts`; last `slowly`, for
//! trying how a program reads and writes.

mod bench;
mod both_numbers;
mod cases;
mod compare;
mod convert;
mod convert_counts;
mod convert_vectors;
mod converts;
mod counts;
mod damage;
mod descriptors;
mod ending;
mod expected;
mod first_records;
mod folder;
mod input;
mod lines;
mod log;
mod log_counts;
mod long_logs;
mod other;
mod other_rankings;
mod output;
mod random;
mod release_counts;
mod release_damage;
mod release_records;
mod report;
mod rules;
mod score;
mod seasons;
mod sheet_counts;
mod sheet_vectors;
mod sheets;
mod sizes;
mod slowly;
mod subcommands;
mod sum;
mod sum_counts;
mod sum_vectors;
mod sums;
mod tally;
mod task_named;
mod text;
mod trouble;
mod vectors;

use std::ffi::OsString;
use std::process::ExitCode;

use crate::ending::{status_of, Run, Stop};
use crate::subcommands::{asks_for_help, no_flag, usage, usage_of, SUBCOMMANDS};

fn main() -> ExitCode {
    let arguments: Vec<OsString> = std::env::args_os().skip(1).collect();
    let Some((name, words)) = arguments.split_first() else {
        let missing = "a subcommand is missing".to_string();
        return status_of(Err(Stop::Called(missing)), &usage());
    };
    let known = |name: &OsString| SUBCOMMANDS.iter().find(|known| name == known.name);
    match (known(name), words) {
        (Some(subcommand), _) => status_of((subcommand.run)(words), &usage_of(subcommand)),
        (None, [word]) if name == "help" && known(word).is_some() => {
            let usage = known(word).map_or_else(usage, usage_of);
            status_of(Err(Stop::Help), &usage)
        }
        (None, _) => status_of(without_subcommand(name, words), &usage()),
    }
}

/// Help, or what is wrong with the words.
fn without_subcommand(name: &OsString, words: &[OsString]) -> Run {
    let helps = name == "help" || asks_for_help(name);
    match words.first() {
        None if helps => return Err(Stop::Help),
        Some(word) if helps => {
            let word = word.to_string_lossy();
            return Err(Stop::Called(format!("no subcommand `{word}`")));
        }
        _ => no_flag(name)?,
    }
    let name = name.to_string_lossy();
    Err(Stop::Called(format!("no subcommand `{name}`")))
}

//! How many bytes the longest logs of the benchmark have with each kind of release, and how long
//! another program takes to convert them, beside its replay.

use std::ffi::OsString;
use std::fs;
use std::io::{self, Write};
use std::path::Path;
use std::time::Duration;

use crate::bench::{lines_of, time_of, Program, BOXES, LONGEST, MODES, SEED};
use crate::convert::convert;
use crate::damage::make;
use crate::folder::Folder;
use crate::log::{LIST_RELEASE, RELEASE};
use crate::random::Shape;

/// How many runs are made to find the quickest.
const RUNS: u32 = 5;

/// The other programs: a replay, and the conversion to each kind, of a log on standard input.
struct Others<'a> {
    replay: &'a Program,
    to_sets: [OsString; 3],
    to_lists: [OsString; 3],
}

/// Prints a row for each log. False, and no more rows, if the other program converts one
/// differently.
pub fn sizes(replay: &OsString, program: &OsString, out: &mut impl Write) -> io::Result<bool> {
    let to = |kind: u16| [program.clone(), kind.to_string().into(), "-".into()];
    let others = Others {
        replay: std::slice::from_ref(replay),
        to_sets: to(RELEASE),
        to_lists: to(LIST_RELEASE),
    };
    let columns = "  m  n  mode    events  bytes in kind 3  bytes in kind 8  kind 8/kind 3";
    writeln!(
        out,
        "{columns}  3 to 8, time/replay's  8 to 3, time/replay's"
    )?;
    for (m, n) in BOXES {
        for mode in MODES {
            let shape = Shape::new(m, n, LONGEST).in_mode(mode);
            let sets = make(SEED, "busy", shape).unwrap_or_default();
            let lists = convert(LIST_RELEASE, &sets).unwrap_or_default();
            let Some((there, back)) = others.times(&sets, &lists)? else {
                writeln!(out, "m {m}, n {n}, mode {mode}: the logs differ")?;
                return Ok(false);
            };
            let ratio = lists.len() as f64 / sets.len() as f64;
            let (sets, lists) = (sets.len(), lists.len());
            write!(out, "{m:>3} {n:>2} {mode:>5} {LONGEST:>9}")?;
            write!(out, "  {sets:>15}  {lists:>15}  {ratio:>13.2}")?;
            writeln!(out, "  {there:>21.2}  {back:>21.2}")?;
            out.flush()?;
        }
    }
    Ok(true)
}

impl Others<'_> {
    /// The times of the conversions there and back, each to that of the replay of what is
    /// converted. Nothing if one does not give the other log.
    fn times(&self, sets: &[u8], lists: &[u8]) -> io::Result<Option<(f64, f64)>> {
        let folder = Folder::new("sizes")?;
        let (by_sets, by_lists) = (folder.path().join("sets"), folder.path().join("lists"));
        fs::write(&by_sets, sets)?;
        fs::write(&by_lists, lists)?;
        let there = lines_of(&self.to_lists, &by_sets)? == lists;
        let back = lines_of(&self.to_sets, &by_lists)? == sets;
        if !(there && back) {
            return Ok(None);
        }
        Ok(Some((
            self.beside_the_replay(&self.to_lists, &by_sets)?,
            self.beside_the_replay(&self.to_sets, &by_lists)?,
        )))
    }

    /// The quickest of several runs of both, taken in turn.
    fn beside_the_replay(&self, program: &Program, log: &Path) -> io::Result<f64> {
        let (mut converts, mut replays) = (Duration::MAX, Duration::MAX);
        for _ in 0..RUNS {
            converts = converts.min(time_of(program, log)?);
            replays = replays.min(time_of(self.replay, log)?);
        }
        Ok(converts.as_secs_f64() / replays.as_secs_f64())
    }
}

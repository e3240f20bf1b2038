//! Times another replay program against this one, and its report beside it, on logs of a busy box
//! in both modes.

use std::ffi::OsString;
use std::fs::{self, File};
use std::io::{self, Write};
use std::path::Path;
use std::process::{Command, Stdio};
use std::time::{Duration, Instant};

use crate::damage::make;
use crate::folder::Folder;
use crate::lines::replay;
use crate::other::cannot_start;
use crate::random::Shape;
use crate::rules::{Answer, DEADLINE, FIXED_PRIORITY};

/// The boxes, as m and n.
pub const BOXES: [(u8, u8); 3] = [(2, 4), (6, 16), (16, 64)];
pub const MODES: [u8; 2] = [FIXED_PRIORITY, DEADLINE];
/// The lengths of the logs, each with how many runs are made to find the quickest.
const LENGTHS: [(u32, u32); 3] = [(10_000, 10), (100_000, 5), (LONGEST, 3)];
pub const LONGEST: u32 = 1_000_000;
pub const SEED: u64 = 1;

/// A program and its words.
pub type Program = [OsString];

/// The programs: this one, as a replay and as a report, and the other two.
struct Programs<'a> {
    this: [OsString; 2],
    this_report: [OsString; 2],
    other: &'a Program,
    other_report: &'a Program,
}

/// The least times for one log: of this replay, of the other, and of the other report.
struct Times {
    events: u32,
    this: Duration,
    other: Duration,
    report: Duration,
}

/// Checks that both programs give the same lines and the same sheet, times them and prints the
/// table. False, and no more of the table, if they differ.
pub fn bench(replay: &OsString, report: &OsString, out: &mut impl Write) -> io::Result<bool> {
    let own = |name: &str| -> io::Result<[OsString; 2]> {
        Ok([std::env::current_exe()?.into_os_string(), name.into()])
    };
    let programs = Programs {
        this: own("replay")?,
        this_report: own("report")?,
        other: std::slice::from_ref(replay),
        other_report: std::slice::from_ref(report),
    };
    let mut growth = Vec::new();
    let columns = "  m  n  mode    events  accepted  waited  this ev/s  other ev/s  other/this";
    writeln!(out, "{columns}  report ev/s  report's time/replay's")?;
    for (m, n) in BOXES {
        for mode in MODES {
            let shape = Shape::new(m, n, 0).in_mode(mode);
            let Some(times) = programs.time_lengths(shape, out)? else {
                return Ok(false);
            };
            growth.push((shape, times));
        }
    }
    writeln!(
        out,
        "The lines and the sheets of both programs are the same for all of these logs."
    )?;
    for (shape, times) in growth {
        print_growth(out, shape, &times)?;
    }
    Ok(true)
}

/// A box in words.
fn in_words(shape: Shape) -> String {
    let Shape {
        processors: m,
        tasks: n,
        mode,
        ..
    } = shape;
    format!("m {m}, n {n}, mode {mode}")
}

impl Programs<'_> {
    /// A row for a log of each length, and the times. Nothing if the programs differ.
    fn time_lengths(&self, shape: Shape, out: &mut impl Write) -> io::Result<Option<Vec<Times>>> {
        let folder = Folder::new("bench")?;
        let log = folder.path().join("log");
        let mut all_times = Vec::new();
        for (events, runs) in LENGTHS {
            let shape = Shape { events, ..shape };
            fs::write(&log, make(SEED, "busy", shape).unwrap_or_default())?;
            let lines = lines_of(&self.this, &log)? == lines_of(self.other, &log)?;
            let sheets = lines_of(&self.this_report, &log)? == lines_of(self.other_report, &log)?;
            if !(lines && sheets) {
                let what = if lines { "sheets" } else { "lines" };
                let shape = in_words(shape);
                writeln!(out, "{shape}, {events} events: the {what} differ")?;
                return Ok(None);
            }
            let times = self.least_times(&log, events, runs)?;
            print_row(out, shape, &Shares::of_log(&log)?, &times)?;
            all_times.push(times);
        }
        Ok(Some(all_times))
    }

    /// The quickest of several runs of each program, taken in turn.
    fn least_times(&self, log: &Path, events: u32, runs: u32) -> io::Result<Times> {
        let mut times = Times {
            events,
            this: Duration::MAX,
            other: Duration::MAX,
            report: Duration::MAX,
        };
        for _ in 0..runs {
            times.this = times.this.min(time_of(&self.this, log)?);
            times.other = times.other.min(time_of(self.other, log)?);
            times.report = times.report.min(time_of(self.other_report, log)?);
        }
        Ok(times)
    }
}

fn print_row(out: &mut impl Write, shape: Shape, shares: &Shares, times: &Times) -> io::Result<()> {
    let a_second = |time: Duration| f64::from(times.events) / time.as_secs_f64();
    let (this, other, report) = (
        a_second(times.this),
        a_second(times.other),
        a_second(times.report),
    );
    let (accepted, waited) = (shares.accepted(), shares.waited());
    write!(
        out,
        "{:>3} {:>2} {:>5} {:>9}",
        shape.processors, shape.tasks, shape.mode, shape.events
    )?;
    write!(out, "  {accepted:>7.1}%  {waited:>5.1}%")?;
    write!(out, "  {this:>9.0}  {other:>10.0}  {:>10.2}", other / this)?;
    writeln!(out, "  {report:>11.0}  {:>22.2}", other / report)?;
    out.flush()
}

/// How the time grows from each length to the next, and from the first to the last.
fn print_growth(out: &mut impl Write, shape: Shape, times: &[Times]) -> io::Result<()> {
    let shape = in_words(shape);
    let pairs = times.windows(2).map(|pair| (&pair[0], &pair[1]));
    let whole = times.first().zip(times.last());
    for (from, to) in pairs.chain(whole) {
        let this = to.this.as_secs_f64() / from.this.as_secs_f64();
        let other = to.other.as_secs_f64() / from.other.as_secs_f64();
        let (few, many) = (from.events, to.events);
        write!(out, "{shape}, from {few} to {many} events the time grows: ")?;
        writeln!(out, "this x {this:.1}, other x {other:.1}")?;
    }
    Ok(())
}

/// The time of one run as a process of its own, which writes to nowhere.
pub fn time_of(program: &Program, log: &Path) -> io::Result<Duration> {
    let mut command = Command::new(&program[0]);
    command
        .args(&program[1..])
        .stdin(File::open(log)?)
        .stdout(Stdio::null());
    let start = Instant::now();
    command
        .status()
        .map_err(|error| cannot_start(program, error))?;
    Ok(start.elapsed())
}

pub fn lines_of(program: &Program, log: &Path) -> io::Result<Vec<u8>> {
    let mut command = Command::new(&program[0]);
    command
        .args(&program[1..])
        .stdin(File::open(log)?)
        .stderr(Stdio::inherit());
    let output = command
        .output()
        .map_err(|error| cannot_start(program, error))?;
    Ok(output.stdout)
}

/// What the events of a log came to.
#[derive(Default)]
struct Shares {
    events: u32,
    accepted: u32,
    run: u32,
    wait: u32,
}

impl Shares {
    fn of_log(log: &Path) -> io::Result<Shares> {
        let mut shares = Shares::default();
        let input = io::BufReader::new(File::open(log)?);
        replay(input, &mut io::sink(), |_, _, reply| {
            shares.events += 1;
            if let Ok(outcome) = reply {
                shares.accepted += 1;
                match outcome.answer {
                    Answer::Ok => {}
                    Answer::Run => shares.run += 1,
                    Answer::Wait { .. } => shares.wait += 1,
                }
            }
        })?;
        Ok(shares)
    }

    /// Of a hundred events, how many were accepted.
    fn accepted(&self) -> f64 {
        100.0 * f64::from(self.accepted) / f64::from(self.events)
    }

    /// Of a hundred accepted releases, how many waited.
    fn waited(&self) -> f64 {
        100.0 * f64::from(self.wait) / f64::from(self.run + self.wait)
    }
}

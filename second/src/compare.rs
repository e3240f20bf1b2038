//! Compares another replay program with this one, log by log.

use std::ffi::{OsStr, OsString};
use std::fs::{self, File};
use std::io::{self, Write};

use crate::damage::{damages, make, record_starts, setup_bytes};
use crate::expected::{Expected, Given};
use crate::first_records::{first_records, second_setups};
use crate::folder::Folder;
use crate::input::STANDARD_INPUT;
use crate::lines::replay;
use crate::log::{Fault, LogReader, LIST_RELEASE, RELEASES};
use crate::log_counts::LogCounts;
use crate::other::{first_difference, Feeding};
use crate::random::Shape;
use crate::release_records::release_records;
use crate::rules::{Refusal, DEADLINE, FIXED_PRIORITY};
use crate::score::Score;
use crate::text::{log_of_text, text_of_log, TextError};
use crate::vectors::{BAD_TEXTS, COMMENTED_TEXT, SESSIONS};
use crate::vectors::{WHOLE_BY_LISTS_TEXT, WHOLE_IN_MODE_1_TEXT, WHOLE_TEXT};

/// How many logs of each kind of damage there are.
const DAMAGED_SEEDS: usize = 40;

/// Names of logs, some of them no plain words.
const NAMES: [&[u8]; 6] = [
    b"a log",
    b" blanks  at both ends ",
    b"-",
    b"--help",
    b"tab\tnew\nline 'quote' \"$HOME\" *",
    b"no text \xff\xfe",
];

/// Compares on every log, and prints what failed, the counts, and a last line of sums.
/// True if nothing failed.
pub fn compare(program: &[OsString], report: &mut impl Write) -> io::Result<bool> {
    let mut comparison = Comparison {
        program,
        score: Score::new(report),
        counts: LogCounts::default(),
        logs: 0,
        round_trips: 0,
    };
    comparison.sessions()?;
    comparison.cuts()?;
    comparison.bad_records()?;
    comparison.small_logs()?;
    comparison.large_logs()?;
    comparison.slow_logs()?;
    comparison.names()?;
    comparison.wrong_calls()?;
    comparison.texts()?;
    comparison.sums()
}

struct Comparison<'a, W> {
    program: &'a [OsString],
    score: Score<W>,
    counts: LogCounts,
    logs: u64,
    round_trips: u64,
}

impl<W: Write> Comparison<'_, W> {
    /// The sessions written down with their lines: this program is held to those lines first.
    fn sessions(&mut self) -> io::Result<()> {
        for session in SESSIONS {
            match log_of_text(session.text.as_bytes()) {
                Err(error) => {
                    let what = format!("{}: line {}: {}", session.name, error.line, error.what);
                    self.score.book(false, &what)?;
                }
                Ok(log) => {
                    let mut lines = Vec::new();
                    replay(&log[..], &mut lines, |_, _, _| {})?;
                    let what = first_difference(&lines, session.lines.as_bytes());
                    let what = format!("{}: not the lines written down\n{what}", session.name);
                    self.score.book(lines == session.lines.as_bytes(), &what)?;
                    self.log(session.name, &log, Feeding::AtOnce)?;
                }
            }
        }
        Ok(())
    }

    /// The first session's log, cut at each of its bytes; in mode 1, at each of its setup's; and by
    /// lists, at each of one release's, which reads an object and writes another.
    fn cuts(&mut self) -> io::Result<()> {
        let log = log_of_text(SESSIONS[0].text.as_bytes()).unwrap_or_default();
        for length in 0..=log.len() {
            let name = format!("the first {length} bytes of {}", SESSIONS[0].name);
            self.log(&name, &log[..length], Feeding::AtOnce)?;
        }
        let log = log_of_text(WHOLE_IN_MODE_1_TEXT.as_bytes()).unwrap_or_default();
        for length in 0..=setup_bytes(&log) {
            let name = format!("the first {length} bytes of it in mode 1");
            self.log(&name, &log[..length], Feeding::AtOnce)?;
        }
        let log = log_of_text(WHOLE_BY_LISTS_TEXT.as_bytes()).unwrap_or_default();
        let starts = record_starts(&log);
        for length in starts[4]..=starts[5] {
            let name = format!("the first {length} bytes of it by lists");
            self.log(&name, &log[..length], Feeding::AtOnce)?;
        }
        Ok(())
    }

    /// First records that are no good setup, second setups, and bad releases; this program is held
    /// to their numbers first.
    fn bad_records(&mut self) -> io::Result<()> {
        let records = first_records().into_iter().chain(second_setups());
        for record in records.chain(release_records()) {
            let fault = replay(&record.bytes[..], &mut io::sink(), |_, _, _| {})?;
            let found = fault.and_then(|fault| fault.refusal());
            self.score.book_bad(record.what, record.number, found)?;
            self.log(record.what, &record.bytes, Feeding::AtOnce)?;
        }
        Ok(())
    }

    /// Small logs: every m with every n, one in three of mode 0 in kind 7; many tasks admitted at
    /// once, one admitted by a release that clashes with it, sets at the edges, and every kind of
    /// damage.
    fn small_logs(&mut self) -> io::Result<()> {
        for seed in 0..1024 {
            let shape = Shape::of_seed(seed);
            let kind = match (shape.mode, seed % 3) {
                (FIXED_PRIORITY, 0) => "kind-7",
                _ => "good",
            };
            self.made(seed, kind, shape, Feeding::AtOnce)?;
        }
        for seed in (20_000..21_000).step_by(11) {
            self.made(seed, "flock", Shape::of_seed(seed), Feeding::AtOnce)?;
            let seed = seed + 20_000;
            self.made(seed, "deferred", Shape::of_seed(seed), Feeding::AtOnce)?;
        }
        for (seed, release_kind) in (60_000..60_060).zip(RELEASES.into_iter().cycle()) {
            let shape = Shape::of_seed(31 * seed).with_releases(release_kind);
            self.made(seed, "edges", shape, Feeding::AtOnce)?;
        }
        for (kind, _) in damages() {
            for seed in (10_000..).step_by(37).take(DAMAGED_SEEDS) {
                self.made(seed, kind, Shape::of_seed(seed), Feeding::AtOnce)?;
            }
        }
        Ok(())
    }

    /// Large logs, the last of them with more events than a session accepts.
    fn large_logs(&mut self) -> io::Result<()> {
        for seed in 2000..2020 {
            let shape = Shape {
                events: 5000,
                ..Shape::of_seed(31 * seed)
            };
            self.made(seed, "good", shape, Feeding::AtOnce)?;
        }
        let modes = [(FIXED_PRIORITY, DEADLINE), (DEADLINE, FIXED_PRIORITY)];
        let boxes = [(1, 3), (2, 4), (16, 64)];
        for ((processors, tasks), (good, busy)) in boxes.into_iter().zip(modes.into_iter().cycle())
        {
            let shape = Shape::new(processors, tasks, 100_000);
            self.made(3000, "good", shape.in_mode(good), Feeding::AtOnce)?;
            let shape = shape.in_mode(busy).with_releases(LIST_RELEASE);
            self.made(3000, "busy", shape, Feeding::AtOnce)?;
        }
        let shape = Shape::new(2, 4, 200).in_mode(DEADLINE);
        self.made(4000, "full", shape, Feeding::AtOnce)
    }

    /// Logs that come through a slow pipe, in pieces that end in the middle of records.
    fn slow_logs(&mut self) -> io::Result<()> {
        for (seed, bytes) in (5000..5060).zip([7, 1, 73, 3].into_iter().cycle()) {
            let shape = Shape {
                events: 20,
                ..Shape::of_seed(31 * seed)
            };
            let kind = if seed % 3 == 0 { "flip" } else { "good" };
            self.made(seed, kind, shape, Feeding::InPieces(bytes))?;
        }
        Ok(())
    }

    fn made(&mut self, seed: u64, kind: &str, shape: Shape, feeding: Feeding) -> io::Result<()> {
        let Shape {
            processors,
            tasks,
            events,
            mode,
            release_kind,
        } = shape;
        let name =
            format!("make {seed} {kind} {events} {processors} {tasks} {mode} {release_kind}");
        match make(seed, kind, shape) {
            Some(log) => {
                self.counts.book_random_log(&log);
                self.log(&name, &log, feeding)
            }
            None => self.score.book(false, &format!("{name}: no such kind")),
        }
    }

    /// Compares the lines of both programs for one log, and tries its way to text and back.
    fn log(&mut self, name: &str, log: &[u8], feeding: Feeding) -> io::Result<()> {
        self.logs += 1;
        if let Ok((setup, events)) = LogReader::open(log) {
            self.counts.book_setup(&setup, events.setup_kind());
        }
        self.counts.book_releases(log);
        let mut lines = Vec::new();
        let counts = &mut self.counts;
        let fault = replay(log, &mut lines, |session, task, reply| {
            counts.book_event(session, task, reply)
        })?;
        let bad = fault.and_then(|fault| fault.refusal());
        self.counts.book_end(bad);
        let given = Given {
            words: &[],
            input: log,
            feeding,
        };
        let what = format!("{name}{}", feeding.in_words());
        self.run(&what, &expected(lines, bad), &given)?;
        self.round_trip(name, log, bad)
    }

    /// Compares one run of the other program with what it must say.
    fn run(&mut self, what: &str, expected: &Expected, given: &Given) -> io::Result<()> {
        let fault = expected.fault(self.program, given)?;
        self.score.book_run(what, fault)
    }

    /// The text of a log gives the same log again; a bad log has no text, for the same reason.
    fn round_trip(&mut self, name: &str, log: &[u8], bad: Option<Refusal>) -> io::Result<()> {
        self.round_trips += 1;
        let passed = match (text_of_log(log), bad) {
            (Ok(text), None) => log_of_text(text.as_bytes()).is_ok_and(|back| back == log),
            (Err(Fault::Bad(found)), Some(expected)) => found == expected,
            _ => false,
        };
        self.score.book(passed, &format!("{name}: text and back"))
    }

    /// Texts that have no log, each refused in the right line and with the right words; and one
    /// with comments in every place, which has the same log as without.
    fn texts(&mut self) -> io::Result<()> {
        for (line, words, text) in BAD_TEXTS {
            let found = log_of_text(text.as_bytes()).err();
            let right = |error: &TextError| error.line == line && error.what.contains(words);
            let what =
                format!("text refused in line {line} with {words:?}, not {found:?}:\n{text}");
            self.score.book(found.as_ref().is_some_and(right), &what)?;
        }
        let commented = log_of_text(COMMENTED_TEXT.as_bytes()).ok();
        let plain = log_of_text(WHOLE_TEXT.as_bytes()).ok();
        self.score.book(
            commented.is_some() && commented == plain,
            "a text with comments",
        )
    }

    /// Logs by name: good and bad ones, ones that cannot be read, and standard input by its name.
    /// What stands on standard input is another log, which a program that is given a name leaves.
    fn names(&mut self) -> io::Result<()> {
        let good = log_of_text(SESSIONS[0].text.as_bytes()).unwrap_or_default();
        let bad = &good[..good.len() - 1];
        let folder = Folder::new("compare")?;
        fs::create_dir(folder.path().join("folder"))?;
        for file in NAMES {
            let name = folder.name(file);
            for (log, other) in [(&good[..], bad), (bad, &good[..])] {
                fs::write(&name, log)?;
                self.named(&name, log, other)?;
            }
        }
        for log in [&good[..], bad] {
            self.named(&STANDARD_INPUT.into(), log, log)?;
        }
        for file in [&b"missing"[..], b"folder", b"a log/below a file"] {
            let name = folder.name(file);
            let expected = Expected::unreadable(&name);
            self.called(&format!("the name {name:?}"), &expected, &[name], &good)?;
        }
        let expected = Expected::failed();
        let fault = expected.fault_of_input(self.program, &[], File::open(folder.path())?)?;
        self.score.book_run("a folder as standard input", fault)
    }

    /// One log by its name, with another one on standard input.
    fn named(&mut self, name: &OsString, log: &[u8], input: &[u8]) -> io::Result<()> {
        let mut lines = Vec::new();
        let fault = replay(log, &mut lines, |_, _, _| {})?;
        let expected = expected(lines, fault.and_then(|fault| fault.refusal()));
        let what = format!("the name {name:?}");
        self.called(&what, &expected, std::slice::from_ref(name), input)
    }

    /// A word too many, and flags that nobody knows.
    fn wrong_calls(&mut self) -> io::Result<()> {
        let folder = Folder::new("compare")?;
        let good = log_of_text(SESSIONS[0].text.as_bytes()).unwrap_or_default();
        let name = folder.name(b"a log");
        fs::write(&name, &good)?;
        let calls: [&[&OsStr]; 6] = [
            &[&name, &name],
            &[OsStr::new("-"), &name],
            &[OsStr::new("-"), OsStr::new("-")],
            &[OsStr::new("--unknown")],
            &[OsStr::new("-u"), &name],
            &[&name, OsStr::new("-u")],
        ];
        for words in calls {
            let words: Vec<OsString> = words.iter().map(|word| word.to_os_string()).collect();
            let expected = Expected::called_wrongly();
            self.called(&format!("called with {words:?}"), &expected, &words, &good)?;
        }
        Ok(())
    }

    fn called(
        &mut self,
        what: &str,
        expected: &Expected,
        words: &[OsString],
        input: &[u8],
    ) -> io::Result<()> {
        let given = Given {
            words,
            input,
            feeding: Feeding::AtOnce,
        };
        self.run(what, expected, &given)
    }

    /// Prints the counts, holds them to what must have come up, and prints the last line.
    fn sums(mut self) -> io::Result<bool> {
        self.counts.print(&mut self.score.report)?;
        self.score.book_classes(&self.counts.must_come_up())?;
        self.score.book_nevers(&self.counts.must_not_come_up())?;
        writeln!(
            self.score.report,
            "{} logs compared, {} round trips",
            self.logs, self.round_trips
        )?;
        self.score.last_line()
    }
}

/// What a replay must say: these lines, of a log that is good or bad.
fn expected(lines: Vec<u8>, bad: Option<Refusal>) -> Expected {
    match bad {
        None => Expected::good(lines),
        Some(_) => Expected::bad(lines),
    }
}

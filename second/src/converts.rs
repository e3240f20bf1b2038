//! Compares another convert program with this one, log by log.

use std::ffi::{OsStr, OsString};
use std::fs::{self, OpenOptions};
use std::io::{self, Write};
use std::process::Command;
use std::thread;

use crate::convert::convert;
use crate::convert_counts::ConvertCounts;
use crate::convert_vectors::both_kinds;
use crate::damage::{damage_of, make, DAMAGES};
use crate::expected::{Expected, Given};
use crate::first_records::{second_setups, BadRecord};
use crate::folder::Folder;
use crate::lines::replay;
use crate::log::{LIST_RELEASE, RELEASE, RELEASES};
use crate::long_logs::{across_borders, of_size};
use crate::other::Feeding;
use crate::random::{Random, Shape};
use crate::release_damage::RELEASE_DAMAGES;
use crate::release_records::release_records;
use crate::rules::{Refusal, DEADLINE, FIXED_PRIORITY};
use crate::score::Score;
use crate::text::log_of_text;
use crate::vectors::{SESSIONS, WHOLE_TEXT};

/// How many logs of each kind of damage there are: of releases, and of any log.
const RELEASE_DAMAGED: usize = 20;
const DAMAGED: usize = 4;

/// How many of the sessions written down are converted: 01's with every kind of setup and of release,
/// and the one with the ends of all objects.
const CONVERTED_SESSIONS: usize = 5;

/// How far behind the start of a release each border of a long log lies, in kind 3 and in kind 8. Of
/// a release the head has 4 bytes, tick and task have 5, and in kind 8 both counts have 4; in kind 3
/// it ends with byte 73, in kind 8 here with byte 278.
const BORDERS: [(u16, [usize; 4]); 8] = [
    (RELEASE, [0, 1, 2, 3]),
    (RELEASE, [4, 5, 8, 9]),
    (RELEASE, [10, 40, 41, 72]),
    (RELEASE, [73, 0, 73, 2]),
    (LIST_RELEASE, [0, 1, 2, 3]),
    (LIST_RELEASE, [4, 6, 9, 10]),
    (LIST_RELEASE, [11, 12, 13, 14]),
    (LIST_RELEASE, [278, 0, 277, 278]),
];

/// Names of logs, some of them no plain words.
const NAMES: [&[u8]; 6] = [
    b" blanks  at both ends ",
    b"-",
    b"--help",
    b"8",
    b"tab\tnew\nline 'quote' \"$HOME\" * %s",
    b"no text \xff\xfe",
];

/// Words that are no wanted kind.
const NO_KINDS: [&str; 14] = [
    "7",
    "08",
    "3x",
    "",
    "+3",
    "-8",
    " 3",
    "8 ",
    "38",
    "259",
    "4294967299",
    "three",
    "1",
    "0",
];

/// Compares on every log, and prints what failed, the counts, and a last line of sums.
/// True if nothing failed.
pub fn converts(program: &[OsString], report: &mut impl Write) -> io::Result<bool> {
    let mut comparison = Comparison {
        program,
        folder: Folder::new("converts")?,
        score: Score::new(report),
        counts: ConvertCounts::default(),
        runs: 0,
        example: log_of_text(WHOLE_TEXT.as_bytes()).expect("the texts written down are logs"),
    };
    comparison.written_logs()?;
    comparison.bad_records()?;
    comparison.good_logs()?;
    comparison.long_logs()?;
    comparison.damaged_logs()?;
    comparison.long_bad_logs()?;
    comparison.names()?;
    comparison.unreadable()?;
    comparison.not_twice()?;
    comparison.wrong_calls()?;
    comparison.unwritable()?;
    comparison.end()
}

struct Comparison<'a, W> {
    program: &'a [OsString],
    folder: Folder,
    score: Score<W>,
    counts: ConvertCounts,
    runs: u64,
    /// The log of document 01's session.
    example: Vec<u8>,
}

/// What this program makes of a log, or the number of a bad one.
fn converted(wanted: u16, log: &[u8]) -> Result<Vec<u8>, Refusal> {
    convert(wanted, log).map_err(|fault| fault.refusal().expect("bytes at hand can be read"))
}

/// A program that is started by these words.
fn behind(words: &[&str], program: &[OsString]) -> Vec<OsString> {
    let words = words.iter().map(OsString::from);
    words.chain(program.iter().cloned()).collect()
}

fn lines(log: &[u8]) -> io::Result<Vec<u8>> {
    let mut lines = Vec::new();
    replay(log, &mut lines, |_, _, _| {})?;
    Ok(lines)
}

impl<W: Write> Comparison<'_, W> {
    /// The logs written down in both kinds: this program is held to their bytes first. And sessions
    /// written down.
    fn written_logs(&mut self) -> io::Result<()> {
        for both in both_kinds() {
            let logs = [(RELEASE, &both.sets), (LIST_RELEASE, &both.lists)];
            for (wanted, written) in logs {
                for (_, log) in logs {
                    let right = converted(wanted, log).is_ok_and(|log| log == *written);
                    let what = format!("{}: not the kind {wanted} written down", both.what);
                    self.score.book(right, &what)?;
                }
            }
            self.good(both.what, &both.sets)?;
        }
        for session in &SESSIONS[..CONVERTED_SESSIONS] {
            let log = log_of_text(session.text.as_bytes()).unwrap_or_default();
            self.good(session.name, &log)?;
        }
        Ok(())
    }

    /// Bad releases and second setups; this program is held to their numbers first.
    fn bad_records(&mut self) -> io::Result<()> {
        let records = release_records().into_iter().chain(second_setups());
        for (record, wanted) in records.zip(RELEASES.into_iter().cycle()) {
            let BadRecord {
                what,
                number,
                bytes,
            } = record;
            for wanted in RELEASES {
                let found = converted(wanted, &bytes).err();
                self.score.book_bad(what, number, found)?;
            }
            self.any(what, wanted, &bytes)?;
        }
        Ok(())
    }

    /// Good logs: with setups of each kind, with sets at the edges, with many that wait, and with at
    /// most one event.
    fn good_logs(&mut self) -> io::Result<()> {
        let kinds = ["good", "edges", "kind-7", "edges", "flock", "edges"];
        for (seed, kind) in (70_000..70_030).zip(kinds.into_iter().cycle()) {
            let mut shape = Shape {
                events: 80,
                ..Shape::of_seed(37 * seed)
            };
            if kind == "kind-7" {
                shape.mode = FIXED_PRIORITY;
            }
            let [sets, lists] = RELEASES.map(|release_kind| {
                let log = make(seed, kind, shape.with_releases(release_kind));
                log.unwrap_or_default()
            });
            let what = format!("make {seed} {kind} 80, both kinds of release");
            let made_so = converted(LIST_RELEASE, &sets).is_ok_and(|log| log == lists);
            self.score.book(made_so, &format!("{what}: not as made"))?;
            match seed % 2 {
                0 => self.good(&what, &sets)?,
                _ => self.good(&what, &lists)?,
            }
        }
        for seed in 70_100..70_108 {
            let shape = Shape {
                events: (seed % 2) as u32,
                ..Shape::of_seed(37 * seed)
            };
            let log = make(seed, "good", shape).unwrap_or_default();
            self.good(&format!("make {seed} good {}", shape.events), &log)?;
        }
        Ok(())
    }

    /// Logs that no program holds in one piece, with releases on the borders of pieces; and logs
    /// that end on such a border, or just beside it.
    fn long_logs(&mut self) -> io::Result<()> {
        for (kind, behind_start) in BORDERS {
            let what = format!("releases of kind {kind}, {behind_start:?} bytes before borders");
            self.good(&what, &across_borders(kind, &behind_start))?;
        }
        for (kind, bytes) in RELEASES
            .into_iter()
            .cycle()
            .zip([65_536, 65_536, 131_072, 65_537])
        {
            let what = format!("a log of {bytes} bytes in kind {kind}");
            self.good(&what, &of_size(kind, bytes))?;
        }
        for (kind, mode) in [("busy", FIXED_PRIORITY), ("edges", DEADLINE)] {
            let shape = Shape::new(16, 64, 20_000).in_mode(mode);
            let log = make(71_000, kind, shape).unwrap_or_default();
            self.good(&format!("make 71000 {kind} 20000 16 64 {mode} 3"), &log)?;
        }
        Ok(())
    }

    /// Every kind of damage, with releases of both kinds, and with both kinds wanted.
    fn damaged_logs(&mut self) -> io::Result<()> {
        let of_releases = RELEASE_DAMAGES.map(|(kind, _)| (kind, RELEASE_DAMAGED));
        let of_any = DAMAGES.map(|(kind, _)| (kind, DAMAGED));
        for (kind, logs) in of_releases.into_iter().chain(of_any) {
            for (number, seed) in (72_000..).step_by(37).take(logs).enumerate() {
                let shape = Shape::of_seed(seed).with_releases(RELEASES[number % 2]);
                let log = make(seed, kind, shape).unwrap_or_default();
                let what = format!("make {seed} {kind}, releases of {}", shape.release_kind);
                self.any(&what, RELEASES[number / 2 % 2], &log)?;
            }
        }
        Ok(())
    }

    /// Long logs that go bad, some by their last bytes: a program that writes before it has read all
    /// of them is shown.
    fn long_bad_logs(&mut self) -> io::Result<()> {
        let kinds = [
            "after-end",
            "end-count",
            "no-end",
            "cut",
            "mixed",
            "level",
            "counts",
            "short-release",
        ];
        for release_kind in RELEASES {
            let shape = Shape::new(4, 9, 20_000).with_releases(release_kind);
            let good = make(73_000, "busy", shape).unwrap_or_default();
            for (kind, wanted) in kinds.into_iter().zip(RELEASES.into_iter().cycle()) {
                let mut log = good.clone();
                if let Some(damage) = damage_of(kind) {
                    damage(&mut Random::new(73_000), &mut log);
                }
                let what = format!("a long log of kind {release_kind}, {kind}");
                self.any(&what, wanted, &log)?;
            }
        }
        Ok(())
    }

    /// Names that are not plain words, for a good log and for a bad one.
    fn names(&mut self) -> io::Result<()> {
        for file in NAMES {
            let name = self.folder.name(file);
            let log = self.example.clone();
            self.file(&format!("the name {name:?}"), LIST_RELEASE, &name, &log)?;
            self.file(&format!("the name {name:?}"), RELEASE, &name, &log[1..])?;
        }
        Ok(())
    }

    /// Logs that cannot be opened or read.
    fn unreadable(&mut self) -> io::Result<()> {
        fs::write(self.folder.name(b"file"), &self.example)?;
        fs::create_dir(self.folder.name(b"folder"))?;
        let names = [&b"missing"[..], b"two words", b"folder", b"file/below"];
        for (file, wanted) in names.into_iter().zip(RELEASES.into_iter().cycle()) {
            let name = self.folder.name(file);
            let what = format!("the name {name:?}");
            let words = [wanted.to_string().into(), name];
            self.called(&what, &words, &Expected::failed())?;
        }
        Ok(())
    }

    /// Logs that can be read once and not twice: a pipe, by two names, and a pipe with a name of its
    /// own.
    fn not_twice(&mut self) -> io::Result<()> {
        for wanted in RELEASES {
            for name in ["/dev/fd/0", "/dev/stdin"] {
                let words = [wanted.to_string().into(), name.into()];
                let what = format!("a pipe as {name}");
                self.called(&what, &words, &Expected::failed())?;
            }
            self.pipe_by_name(wanted)?;
        }
        Ok(())
    }

    fn pipe_by_name(&mut self, wanted: u16) -> io::Result<()> {
        let name = self.folder.name(format!("pipe {wanted}").as_bytes());
        let made = Command::new("mkfifo").arg(&name).status()?.success();
        self.score.book(made, "a pipe with a name")?;
        let (pipe, log) = (name.clone(), self.example.clone());
        // It waits until somebody opens the other end.
        let feeder = thread::spawn(move || fs::write(pipe, log));
        let words = [wanted.to_string().into(), name.clone()];
        // A program that opens the pipe once more would wait for ever.
        let program = behind(&["timeout", "60"], self.program);
        self.call(&program, "a pipe by its name", &words, &Expected::failed())?;
        // If the program did not open it, this does.
        let other_end = OpenOptions::new().read(true).write(true).open(&name)?;
        let _ = feeder.join();
        drop(other_end);
        Ok(())
    }

    /// No kind, or a word that is none; no log; and a word too many.
    fn wrong_calls(&mut self) -> io::Result<()> {
        let name = self.folder.name(b"file");
        let word = OsStr::new;
        let mut calls: Vec<Vec<&OsStr>> = vec![
            vec![],
            vec![word("3")],
            vec![word("8")],
            vec![&name],
            vec![&name, word("3")],
            vec![word("3"), &name, &name],
            vec![word("8"), &name, word("3")],
            vec![word("8"), &name, word("")],
        ];
        calls.extend(NO_KINDS.map(|kind| vec![word(kind), &name]));
        for words in calls {
            let words: Vec<OsString> = words.into_iter().map(OsStr::to_os_string).collect();
            let what = format!("called with {words:?}");
            self.called(&what, &words, &Expected::called_wrongly())?;
        }
        Ok(())
    }

    /// A standard output that is closed, or full.
    fn unwritable(&mut self) -> io::Result<()> {
        let long = of_size(RELEASE, 300_000);
        let short = self.example.clone();
        let name = self.folder.name(b"log");
        for (log, wanted) in [
            (&short, LIST_RELEASE),
            (&long, LIST_RELEASE),
            (&long, RELEASE),
        ] {
            fs::write(&name, log)?;
            for place in [">&-", ">/dev/full"] {
                let script = format!("exec \"$@\" {place}");
                let program = behind(&["sh", "-c", &script, "sh"], self.program);
                let words = [wanted.to_string().into(), name.clone()];
                let what = format!("{} bytes to kind {wanted}, {place}", log.len());
                self.call(&program, &what, &words, &Expected::failed())?;
            }
        }
        Ok(())
    }

    /// A good log, in both kinds: there, back, and as it is. Both kinds have the same lines.
    fn good(&mut self, what: &str, log: &[u8]) -> io::Result<()> {
        let [Ok(sets), Ok(lists)] = RELEASES.map(|wanted| converted(wanted, log)) else {
            return self.score.book(false, &format!("{what}: not good"));
        };
        let is_one = log == sets || log == lists;
        self.score.book(is_one, &format!("{what}: not as it is"))?;
        let same = lines(&sets)? == lines(&lists)?;
        self.score.book(same, &format!("{what}: other lines"))?;
        let logs = match sets == lists {
            true => vec![&sets],
            false => vec![&sets, &lists],
        };
        for log in logs {
            self.counts.book_log(log)?;
            for (wanted, converted) in RELEASES.into_iter().zip([&sets, &lists]) {
                let what = format!("{what}, {} bytes to kind {wanted}", log.len());
                self.run(&what, wanted, log, Ok(converted.clone()))?;
            }
        }
        Ok(())
    }

    /// A log, good or bad, with one kind wanted.
    fn any(&mut self, what: &str, wanted: u16, log: &[u8]) -> io::Result<()> {
        self.counts.book_log(log)?;
        let what = format!("{what}, to kind {wanted}");
        self.run(&what, wanted, log, converted(wanted, log))
    }

    /// One run on a log, and what must come of it.
    fn run(
        &mut self,
        what: &str,
        wanted: u16,
        log: &[u8],
        ours: Result<Vec<u8>, Refusal>,
    ) -> io::Result<()> {
        self.counts
            .book_run(wanted, log, ours.as_ref().err().copied());
        let name = self.folder.name(b"log");
        self.named(what, wanted, &name, log, ours)
    }

    /// The same for a log of some name, of which nothing is counted.
    fn file(&mut self, what: &str, wanted: u16, name: &OsString, log: &[u8]) -> io::Result<()> {
        self.named(what, wanted, name, log, converted(wanted, log))
    }

    /// The file of the log must be as it was.
    fn named(
        &mut self,
        what: &str,
        wanted: u16,
        name: &OsString,
        log: &[u8],
        ours: Result<Vec<u8>, Refusal>,
    ) -> io::Result<()> {
        fs::write(name, log)?;
        let expected = match ours {
            Ok(log) => Expected::log(log),
            Err(refusal) => Expected::no_log(refusal, name),
        };
        self.called(what, &[wanted.to_string().into(), name.clone()], &expected)?;
        let stays = fs::read(name)? == log;
        self.score
            .book(stays, &format!("{what}: the log was changed"))
    }

    fn called(&mut self, what: &str, words: &[OsString], expected: &Expected) -> io::Result<()> {
        self.call(self.program, what, words, expected)
    }

    /// A call of this program with these words, and 01's log on standard input.
    fn call(
        &mut self,
        program: &[OsString],
        what: &str,
        words: &[OsString],
        expected: &Expected,
    ) -> io::Result<()> {
        self.runs += 1;
        let given = Given {
            words,
            input: &self.example,
            feeding: Feeding::AtOnce,
        };
        let fault = expected.fault(program, &given)?;
        self.score.book_run(what, fault)
    }

    /// Prints the counts, holds them to what must have come up, and prints the last line.
    fn end(mut self) -> io::Result<bool> {
        self.counts.print(&mut self.score.report)?;
        self.score.book_classes(&self.counts.must_come_up())?;
        writeln!(self.score.report, "{} runs compared", self.runs)?;
        self.score.last_line()
    }
}

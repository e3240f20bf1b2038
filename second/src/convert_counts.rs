//! Counts of what came up in a comparison of conversions, by this program's own reading.

use std::io::{self, Write};

use crate::counts::{add, count, print_classes, setup_in_words, Class, Counts, SETUPS};
use crate::damage::{kind_at, record_starts};
use crate::lines::replay;
use crate::log::{
    Fault, LogReader, BEFORE_LISTS, HEAD, LIST_RELEASE, RELEASE, RELEASES, TICK_AND_TASK,
};
use crate::long_logs::PIECE;
use crate::release_counts::ReleaseCounts;
use crate::rules::Refusal;

/// The numbers that a log can be refused with. 28 is for writers with a buffer of one size.
const REFUSALS: [u8; 14] = [10, 11, 12, 13, 14, 20, 21, 22, 23, 24, 25, 26, 27, 29];

/// A log that is longer than any piece in which a program may hold it.
const LONG: usize = 200_000;

/// How often each thing must come up: in releases, in logs, and at borders.
const LEAST_RELEASES: u64 = 20;
const LEAST_LOGS: u64 = 10;
const LEAST_AT_BORDERS: u64 = 2;

/// Runs, by what they do, and how many there must be.
const RUNS: [(&str, u64); 8] = [
    ("kind 3 to kind 8", 50),
    ("kind 8 to kind 3", 50),
    ("kind 3 as it is", 50),
    ("kind 8 as it is", 50),
    ("no release, to kind 3", 5),
    ("no release, to kind 8", 5),
    ("bad, to kind 3", 100),
    ("bad, to kind 8", 100),
];

/// What must come up in logs, and how often.
const LOGS: [(&str, u64); 6] = [
    ("good logs with an event refused", LEAST_LOGS),
    ("good logs with a wait", LEAST_LOGS),
    ("good logs of kind 3 above 200,000 bytes", 5),
    ("good logs of kind 8 above 200,000 bytes", 5),
    ("bad logs above 200,000 bytes", LEAST_LOGS),
    ("good logs of 65,536 bytes or a multiple", 2),
];

/// Where a border of 65,536 bytes can lie in a release of a kind.
const BORDERS: [(u16, &str); 11] = [
    (RELEASE, "its start"),
    (RELEASE, "its head"),
    (RELEASE, "its tick or task"),
    (RELEASE, "its objects"),
    (RELEASE, "its end"),
    (LIST_RELEASE, "its start"),
    (LIST_RELEASE, "its head"),
    (LIST_RELEASE, "its tick or task"),
    (LIST_RELEASE, "its counts"),
    (LIST_RELEASE, "its objects"),
    (LIST_RELEASE, "its end"),
];

#[derive(Default)]
pub struct ConvertCounts {
    refusals: Counts<u8>,
    runs: Counts<&'static str>,
    logs: Counts<&'static str>,
    setups: Counts<&'static str>,
    releases: ReleaseCounts,
    /// Releases, by their kind and by where a border lies in them.
    borders: Counts<(u16, &'static str)>,
}

impl ConvertCounts {
    /// Books a log, once for however many runs.
    pub fn book_log(&mut self, log: &[u8]) -> io::Result<()> {
        self.releases.book_log(log);
        let (mut refused, mut waits) = (false, false);
        let fault = replay(log, &mut io::sink(), |session, _, reply| {
            refused |= reply.is_err();
            waits |= session.waiting().next().is_some();
        })?;
        if let Some(fault) = fault {
            self.book_bad(log, &fault);
            return Ok(());
        }
        if refused {
            self.add_log("good logs with an event refused");
        }
        if waits {
            self.add_log("good logs with a wait");
        }
        if log.len().is_multiple_of(PIECE) {
            self.add_log("good logs of 65,536 bytes or a multiple");
        }
        if let Ok((setup, events)) = LogReader::open(log) {
            add(
                &mut self.setups,
                setup_in_words(events.setup_kind(), setup.mode),
            );
        }
        if log.len() > LONG {
            match release_kind(log) {
                Some(LIST_RELEASE) => self.add_log("good logs of kind 8 above 200,000 bytes"),
                Some(_) => self.add_log("good logs of kind 3 above 200,000 bytes"),
                None => {}
            }
        }
        self.book_borders(log);
        Ok(())
    }

    fn book_bad(&mut self, log: &[u8], fault: &Fault) {
        if let Some(refusal) = fault.refusal() {
            add(&mut self.refusals, refusal.number());
        }
        if log.len() > LONG {
            self.add_log("bad logs above 200,000 bytes");
        }
    }

    fn add_log(&mut self, what: &'static str) {
        debug_assert!(LOGS.iter().any(|(words, _)| *words == what));
        add(&mut self.logs, what);
    }

    /// Books each border that lies in a release, or at one of its ends.
    fn book_borders(&mut self, log: &[u8]) {
        for record in record_starts(log).windows(2) {
            let (start, end) = (record[0], record[1]);
            let kind = kind_at(log, start);
            let border = start.next_multiple_of(PIECE);
            if RELEASES.contains(&kind) && border <= end {
                let place = match border - start {
                    0 => "its start",
                    _ if border == end => "its end",
                    1..HEAD => "its head",
                    behind if behind < HEAD + TICK_AND_TASK => "its tick or task",
                    behind if kind == LIST_RELEASE && behind < HEAD + BEFORE_LISTS => "its counts",
                    _ => "its objects",
                };
                add(&mut self.borders, (kind, place));
            }
        }
    }

    /// Books a run that wants this kind of a log.
    pub fn book_run(&mut self, wanted: u16, log: &[u8], bad: Option<Refusal>) {
        let to_lists = wanted == LIST_RELEASE;
        let what = match (bad, release_kind(log)) {
            (Some(_), _) if to_lists => "bad, to kind 8",
            (Some(_), _) => "bad, to kind 3",
            (None, None) if to_lists => "no release, to kind 8",
            (None, None) => "no release, to kind 3",
            (None, Some(LIST_RELEASE)) if to_lists => "kind 8 as it is",
            (None, Some(LIST_RELEASE)) => "kind 8 to kind 3",
            (None, Some(_)) if to_lists => "kind 3 to kind 8",
            (None, Some(_)) => "kind 3 as it is",
        };
        add(&mut self.runs, what);
    }

    /// What must have come up.
    pub fn must_come_up(&self) -> Vec<Class> {
        let runs = RUNS.map(|(what, least)| {
            let count = count(&self.runs, what);
            Class::new(format!("runs: {what}"), count, least)
        });
        let refusals = REFUSALS.map(|number| {
            let what = format!("logs bad with {number}");
            Class::once(what, count(&self.refusals, number))
        });
        let setups = SETUPS.map(|words| {
            let what = format!("good logs with {words}");
            Class::new(what, count(&self.setups, words), LEAST_LOGS)
        });
        let logs = LOGS.map(|(what, least)| Class::new(what, count(&self.logs, what), least));
        let borders = BORDERS.map(|(kind, place)| {
            let what = format!("releases of kind {kind} with a border of 65,536 bytes at {place}");
            Class::new(what, count(&self.borders, (kind, place)), LEAST_AT_BORDERS)
        });
        runs.into_iter()
            .chain(refusals)
            .chain(setups)
            .chain(logs)
            .chain(self.releases.must_come_up(LEAST_RELEASES))
            .chain(borders)
            .collect()
    }

    pub fn print(&self, report: &mut impl Write) -> io::Result<()> {
        writeln!(report, "What came up:")?;
        print_classes(report, &self.must_come_up(), &[])
    }
}

/// The kind of the first release of a log.
fn release_kind(log: &[u8]) -> Option<u16> {
    let starts = record_starts(log).into_iter();
    let mut kinds = starts.map(|start| kind_at(log, start));
    kinds.find(|kind| RELEASES.contains(kind))
}

//! Counts of what came up in a comparison of sums, by this program's own reading.

use std::io::{self, Write};

use crate::counts::{add, count, least, print_classes, setup_in_words, Class, Counts, SETUPS};
use crate::damage::setup_bytes;
use crate::log::{Fault, LogReader, END, HEAD};
use crate::rules::{Refusal, Setup, Task, LONGEST_PERIOD};

/// The numbers that a first record can be refused with.
const REFUSALS: [u8; 12] = [10, 11, 12, 13, 14, 20, 21, 22, 23, 24, 27, 29];

/// Of two of them, what must come up besides: where in the record, and by what record.
const PLACES: [&str; 4] = [
    "20 in the head",
    "20 in the body",
    "24 by an event",
    "24 by an end",
];

/// A question that has an answer: the setup, the length, and the bytes behind the setup.
struct Asked<'a> {
    setup: &'a Setup,
    length: u32,
    rest: usize,
}

/// In words what such a question can come to, and whether it does.
type Case = (&'static str, fn(&Asked) -> bool);

/// What must come up in such questions.
const ASKED: [Case; 11] = [
    ("lengths of 0", |asked| asked.length == 0),
    ("lengths that are a multiple of a period", |asked| {
        asked.is_multiple(Some(asked.length))
    }),
    ("lengths one below a multiple", |asked| {
        asked.is_multiple(asked.length.checked_add(1))
    }),
    ("lengths one above a multiple", |asked| {
        asked.is_multiple(asked.length.checked_sub(1))
    }),
    ("lengths of 4,294,967,295", |asked| asked.length == u32::MAX),
    ("setups with a task of 0 transactions", |asked| {
        asked.has_task(|task| task.transactions == 0)
    }),
    ("setups with a task of 255 transactions", |asked| {
        asked.has_task(|task| task.transactions == 255)
    }),
    ("setups with a period of 86,400,000", |asked| {
        asked.has_task(|task| task.period == LONGEST_PERIOD)
    }),
    ("answers with a sum above 4,294,967,295", |asked| {
        let tasks = 0..asked.setup.tasks.len();
        let mut sums = tasks.map(|task| asked.setup.sum(task, asked.length));
        sums.any(|sum| sum.is_ok_and(|sum| sum > u32::MAX.into()))
    }),
    ("answers with bytes after the setup", |asked| asked.rest > 0),
    ("answers with no byte after it", |asked| asked.rest == 0),
];

impl Asked<'_> {
    fn has_task(&self, holds: impl Fn(&Task) -> bool) -> bool {
        self.setup.tasks.iter().any(holds)
    }

    /// Whether a length is one or more periods of a task that adds to somebody's sum.
    fn is_multiple(&self, length: Option<u32>) -> bool {
        let length = length.unwrap_or(0);
        let multiple = |period| length >= period && length.checked_rem(period) == Some(0);
        let counts = |task: &Task| task.transactions > 0 && task.period > 2;
        let shows = self.has_task(|task| counts(task) && multiple(task.period));
        shows && self.setup.tasks.len() > 1
    }
}

#[derive(Default)]
pub struct SumCounts {
    refusals: Counts<u8>,
    came_up: Counts<&'static str>,
    /// Answers, by n, and by what their setup is.
    tasks: Counts<usize>,
    setups: Counts<&'static str>,
    /// Runs, by the way in which the log was given.
    ways: Counts<&'static str>,
}

impl SumCounts {
    /// Books a log for which a sum of this length is asked, and the way in which it is given.
    pub fn book(&mut self, length: u32, log: &[u8], way: &'static str) {
        add(&mut self.ways, way);
        match LogReader::open(log) {
            Ok((setup, events)) => {
                let words = setup_in_words(events.setup_kind(), setup.mode);
                add(&mut self.setups, words);
                self.book_answer(&Asked {
                    setup: &setup,
                    length,
                    rest: log.len() - setup_bytes(log),
                });
            }
            Err(Fault::Bad(refusal)) => self.book_bad(refusal, log),
            Err(Fault::Unreadable(_)) => {}
        }
    }

    fn book_bad(&mut self, refusal: Refusal, log: &[u8]) {
        add(&mut self.refusals, refusal.number());
        match refusal {
            Refusal::CutOff if log.len() < HEAD => self.add("20 in the head"),
            Refusal::CutOff => self.add("20 in the body"),
            Refusal::WrongPlace if u16::from(log[2]) == END => self.add("24 by an end"),
            Refusal::WrongPlace => self.add("24 by an event"),
            _ => {}
        }
    }

    fn book_answer(&mut self, asked: &Asked) {
        add(&mut self.tasks, asked.setup.tasks.len());
        for (what, holds) in ASKED {
            if holds(asked) {
                self.add(what);
            }
        }
    }

    fn add(&mut self, what: &'static str) {
        add(&mut self.came_up, what);
    }

    /// What must have come up; `ways` are the ways in which a log can be given.
    pub fn must_come_up(&self, ways: &[&'static str]) -> Vec<Class> {
        let refusals = REFUSALS.map(|number| {
            let what = format!("refusal {number}");
            Class::once(what, count(&self.refusals, number))
        });
        let cases = PLACES.into_iter().chain(ASKED.map(|(what, _)| what));
        let cases = cases.map(|what| Class::new(what, count(&self.came_up, what), 2));
        let ways = ways
            .iter()
            .map(|way| Class::new(*way, count(&self.ways, *way), 5));
        let tasks = Class::once("answers for each n from 1 to 64", least(&self.tasks, 64));
        let setups = SETUPS.map(|words| {
            let what = format!("answers for {words}");
            Class::new(what, count(&self.setups, words), 10)
        });
        refusals
            .into_iter()
            .chain(cases)
            .chain(ways)
            .chain([tasks])
            .chain(setups)
            .collect()
    }

    pub fn print(&self, report: &mut impl Write, ways: &[&'static str]) -> io::Result<()> {
        writeln!(report, "What came up:")?;
        print_classes(report, &self.must_come_up(ways), &[])
    }
}

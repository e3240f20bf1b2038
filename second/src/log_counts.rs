//! Counts of what came up in the logs of a comparison of replays, by this program's own reading.

use std::io::{self, Write};

use crate::both_numbers::BothNumbers;
use crate::cases::InLogs;
use crate::counts::{above, add, count, least, print_classes, setup_in_words};
use crate::counts::{Class, Counts, Never, SETUPS};
use crate::lines::Reply;
use crate::other_rankings::OtherRankings;
use crate::release_counts::ReleaseCounts;
use crate::rules::{Answer, Outcome, Refusal, Session, Setup};
use crate::task_named::TaskNamed;

/// The numbers that the replay of a log can give. 28 is for writers with a buffer of one size.
const REFUSALS: [u8; 21] = [
    1, 2, 3, 4, 5, 6, 7, 10, 11, 12, 13, 14, 20, 21, 22, 23, 24, 25, 26, 27, 29,
];

/// How often each thing must come up in releases.
const LEAST_RELEASES: u64 = 20;

const ANSWERS: [&str; 4] = ["ok", "run", "wait", "no"];

#[derive(Default)]
pub struct LogCounts {
    events: u64,
    /// Events refused (1 to 7) and logs refused (10 upward), by number.
    refusals: Counts<u8>,
    /// Events by the word of their answer.
    answers: Counts<&'static str>,
    /// Accepted events by how many tasks they admitted.
    admissions: Counts<usize>,
    /// Admissions by clash count.
    clashes: Counts<u32>,
    /// Events that admitted more than m tasks.
    above_m: u64,
    /// Accepted events after which some task waits for a processor only.
    room_only: u64,
    /// Logs with an allowed setup, by what it is.
    setups: Counts<&'static str>,
    releases: ReleaseCounts,
    /// By mode.
    modes: [ModeCounts; 2],
    /// Of random logs.
    other_rankings: OtherRankings,
}

/// What came up in the logs of one mode.
#[derive(Default)]
struct ModeCounts {
    /// Both numbers of the admissions.
    both_numbers: InLogs<BothNumbers>,
    /// The tasks named by releases that wait.
    tasks_named: InLogs<TaskNamed>,
    /// Logs with an allowed setup, by m and by n.
    processors: Counts<usize>,
    tasks: Counts<usize>,
}

impl ModeCounts {
    fn must_come_up(&self, mode: usize) -> Vec<Class> {
        let (processors, tasks) = (least(&self.processors, 16), least(&self.tasks, 64));
        let sizes = |of: &str, least| {
            let what = format!("logs of mode {mode} for each {of}");
            Class::new(what, least, 3)
        };
        let mut classes = vec![
            sizes("m from 1 to 16", processors),
            sizes("n from 1 to 64", tasks),
        ];
        let logs = format!("logs of mode {mode}");
        let admissions = format!("admissions in mode {mode}");
        classes.extend(self.both_numbers.must_come_up(&admissions, &logs));
        let waits = format!("waits in mode {mode}");
        let logs = format!("{logs} that have waits");
        classes.extend(self.tasks_named.must_come_up(&waits, &logs));
        classes
    }

    fn must_not_come_up(&self, mode: usize) -> [Never; 2] {
        let admissions = format!("admissions in mode {mode}");
        let waits = format!("waits in mode {mode}");
        [
            self.both_numbers.must_not_come_up(&admissions),
            self.tasks_named.must_not_come_up(&waits),
        ]
    }
}

impl LogCounts {
    /// Books a setup that is allowed, and its kind.
    pub fn book_setup(&mut self, setup: &Setup, kind: u16) {
        add(&mut self.setups, setup_in_words(kind, setup.mode));
        let mode = &mut self.modes[usize::from(setup.mode)];
        add(&mut mode.processors, usize::from(setup.processors));
        add(&mut mode.tasks, setup.tasks.len());
    }

    pub fn book_releases(&mut self, log: &[u8]) {
        self.releases.book_log(log);
    }

    pub fn book_random_log(&mut self, log: &[u8]) {
        self.other_rankings.book_log(log);
    }

    /// Books the reply to one event of this task, with the session after it.
    pub fn book_event(&mut self, session: &Session, task: u8, reply: &Reply) {
        self.events += 1;
        match reply {
            Err(refusal) => {
                add(&mut self.refusals, refusal.number());
                add(&mut self.answers, "no");
            }
            Ok(outcome) => self.book_outcome(session, task, outcome),
        }
    }

    fn book_outcome(&mut self, session: &Session, task: u8, outcome: &Outcome) {
        let word = match outcome.answer {
            Answer::Ok => "ok",
            Answer::Run => "run",
            Answer::Wait { .. } => "wait",
        };
        add(&mut self.answers, word);
        add(&mut self.admissions, outcome.admitted.len());
        let mode = &mut self.modes[usize::from(session.setup().mode)];
        for admission in &outcome.admitted {
            add(&mut self.clashes, admission.clashes);
            mode.both_numbers.book(&BothNumbers {
                clashes: admission.clashes.into(),
                retries: admission.retries.into(),
            });
        }
        if let Some(named) = TaskNamed::of_wait(session, task, outcome) {
            mode.tasks_named.book(&named);
        }
        let most = usize::from(session.setup().processors);
        self.above_m += u64::from(outcome.admitted.len() > most);
        self.room_only += u64::from(session.waits_for_room_only());
    }

    /// Books the end of a log, and the refusal if it reads badly.
    pub fn book_end(&mut self, bad: Option<Refusal>) {
        if let Some(refusal) = bad {
            add(&mut self.refusals, refusal.number());
        }
        for mode in &mut self.modes {
            mode.both_numbers.book_end();
            mode.tasks_named.book_end();
        }
    }

    /// What must have come up.
    pub fn must_come_up(&self) -> Vec<Class> {
        let refusals = REFUSALS.map(|number| {
            let what = format!("refusal {number}");
            Class::once(what, count(&self.refusals, number))
        });
        let answers = ANSWERS.map(|word| {
            let what = format!("answer {word}");
            Class::once(what, count(&self.answers, word))
        });
        let setups = SETUPS.map(|words| {
            let what = format!("logs with {words}");
            Class::new(what, count(&self.setups, words), 50)
        });
        let others = [
            Class::once("one task admitted", count(&self.admissions, 1)),
            Class::once("several tasks admitted", above(&self.admissions, 1)),
            Class::once("16 tasks admitted", count(&self.admissions, 16)),
            Class::once("admissions with 1 clash", count(&self.clashes, 1)),
            Class::once("admissions with more clashes", above(&self.clashes, 1)),
            Class::once("a wait for a processor only", self.room_only),
        ];
        let modes = self.modes.iter().enumerate();
        let modes = modes.flat_map(|(number, mode)| mode.must_come_up(number));
        let replies = refusals.into_iter().chain(answers);
        replies
            .chain(others)
            .chain(setups)
            .chain(self.releases.must_come_up(LEAST_RELEASES))
            .chain(modes)
            .chain(self.other_rankings.must_come_up())
            .collect()
    }

    /// What the rules never let come up.
    ///
    /// A waiting transaction clashed with an executing one when it was released, and is admitted
    /// only after that one's commit, which raises its clash count; so none is admitted with 0.
    pub fn must_not_come_up(&self) -> Vec<Never> {
        let mut nevers = vec![
            Never::new("admissions with 0 clashes", count(&self.clashes, 0)),
            Never::new("more than m admitted", self.above_m),
        ];
        for (number, mode) in self.modes.iter().enumerate() {
            nevers.extend(mode.must_not_come_up(number));
        }
        nevers
    }

    pub fn print(&self, report: &mut impl Write) -> io::Result<()> {
        writeln!(report, "What came up, in {} events:", self.events)?;
        print_classes(report, &self.must_come_up(), &self.must_not_come_up())?;
        writeln!(
            report,
            "  Refusal 25 came up by an end count that differs. Its other case, an"
        )?;
        writeln!(
            report,
            "  event record after the 4,294,967,295th, is out of reach of a test."
        )?;
        writeln!(report, "Accepted events by how many tasks they admitted:")?;
        for (admitted, count) in &self.admissions {
            writeln!(report, "  {admitted:<30} {count:>9}")?;
        }
        Ok(())
    }
}

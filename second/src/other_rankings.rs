//! Other readings of how jobs rank, and in how many logs each of them shows by another answer.

use crate::counts::{add, count, Class, Counts};
use crate::lines::Reply;
use crate::log::LogReader;
use crate::rules::{by_deadline, by_priority, Outcome, Ranking, Session};
use crate::rules::{DEADLINE, FIXED_PRIORITY, LONGEST_PERIOD};

/// How many events of a log are looked at.
const EVENTS: usize = 1000;

/// In how many logs each reading must show, and how often one must show first by each answer.
const LEAST_LOGS: u64 = 20;
const LEAST_ANSWERS: u64 = 5;

/// The mode that is read otherwise, in words how, and the ranking.
type Reading = (u8, &'static str, Ranking);

const READINGS: [Reading; 9] = [
    (FIXED_PRIORITY, "deadlines in mode 0", by_deadline),
    (DEADLINE, "priorities in mode 1", by_priority),
    (DEADLINE, "the earlier arrival first", |_, _, arrival| {
        arrival.into()
    }),
    (DEADLINE, "the shorter period first", |setup, task, _| {
        setup.tasks[usize::from(task)].period.into()
    }),
    (
        DEADLINE,
        "deadlines cut to 32 bits",
        |setup, task, arrival| by_deadline(setup, task, arrival) % (1 << 32),
    ),
    (
        DEADLINE,
        "deadlines held at 4,294,967,295",
        |setup, task, arrival| by_deadline(setup, task, arrival).min(u32::MAX.into()),
    ),
    (
        DEADLINE,
        "of equal deadlines the higher number first",
        |setup, task, arrival| by_deadline(setup, task, arrival) << 8 | u64::from(u8::MAX - task),
    ),
    (
        DEADLINE,
        "of equal deadlines the earlier arrival first",
        |setup, task, arrival| {
            // Of equal deadlines the earlier arrival is the longer period, below 2^27.
            let period = setup.tasks[usize::from(task)].period;
            by_deadline(setup, task, arrival) << 27 | u64::from(LONGEST_PERIOD - period)
        },
    ),
    (
        DEADLINE,
        "of equal deadlines the higher priority first",
        |setup, task, arrival| {
            by_deadline(setup, task, arrival) << 16 | by_priority(setup, task, arrival)
        },
    ),
];

/// By what answer a reading can show.
const ANSWERS: [&str; 4] = [
    "a refusal, or none",
    "the task that a wait names",
    "the tasks admitted",
    "retries",
];

/// The logs in which a reading shows, by its words, and by the answer that differs first.
#[derive(Default)]
pub struct OtherRankings {
    readings: Counts<&'static str>,
    answers: Counts<&'static str>,
}

impl OtherRankings {
    /// Gives the events of a log to a session of each other reading too, until its reply differs.
    pub fn book_log(&mut self, log: &[u8]) {
        let Ok((setup, mut events)) = LogReader::open(log) else {
            return;
        };
        let readings = READINGS.iter().filter(|(mode, ..)| *mode == setup.mode);
        let mut others: Vec<(&'static str, Session)> = readings
            .map(|(_, words, ranking)| (*words, Session::ranked(setup.clone(), *ranking)))
            .collect();
        let mut right = Session::new(setup);
        for _ in 0..EVENTS {
            let Ok(Some(event)) = events.next_event() else {
                return;
            };
            let reply = right.take(event.clone());
            others.retain_mut(|(words, other)| {
                let differs = difference(&reply, &other.take(event.clone()));
                if let Some(answer) = differs {
                    add(&mut self.readings, *words);
                    add(&mut self.answers, answer);
                }
                differs.is_none()
            });
        }
    }

    /// What must have come up.
    pub fn must_come_up(&self) -> impl Iterator<Item = Class> + '_ {
        let readings = READINGS.map(|(_, words, _)| {
            let what = format!("logs that rule out: {words}");
            Class::new(what, count(&self.readings, words), LEAST_LOGS)
        });
        let answers = ANSWERS.map(|words| {
            let what = format!("other rankings that show first by {words}");
            Class::new(what, count(&self.answers, words), LEAST_ANSWERS)
        });
        readings.into_iter().chain(answers)
    }
}

/// By which answer two replies differ, if they do.
fn difference(right: &Reply, other: &Reply) -> Option<&'static str> {
    if right == other {
        return None;
    }
    let (Ok(right), Ok(other)) = (right, other) else {
        return Some(ANSWERS[0]);
    };
    let tasks = |reply: &Outcome| -> Vec<u8> {
        reply
            .admitted
            .iter()
            .map(|admission| admission.task)
            .collect()
    };
    Some(if right.answer != other.answer {
        ANSWERS[1]
    } else if tasks(right) != tasks(other) {
        ANSWERS[2]
    } else {
        ANSWERS[3]
    })
}

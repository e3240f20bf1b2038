//! The cases of the task that the answer to a release that waits names, among all others that
//! another reading of request CR 3 could name.

use crate::cases::{Case, Cases};
use crate::rules::{Answer, Outcome, Session, Transaction, FIXED_PRIORITY};

/// A release that waits: the task named, and every other one that executes or waits just before
/// the scan.
pub struct TaskNamed {
    number: u8,
    urgency: i64,
    others: Vec<Other>,
}

/// A task, not the releasing one, that executes or waits just before the scan.
struct Other {
    number: u8,
    urgency: i64,
    executing: bool,
    /// Whether its transaction clashes with the released one.
    clashing: bool,
    /// Whether the lowest contested object is in its transaction.
    has_lowest: bool,
    /// Whether the scan admits it.
    admitted: bool,
}

impl TaskNamed {
    /// For an event of this task that came out so, with the session after it; nothing if no
    /// release waits.
    pub fn of_wait(session: &Session, task: u8, outcome: &Outcome) -> Option<TaskNamed> {
        let Answer::Wait {
            lowest, highest, ..
        } = outcome.answer
        else {
            return None;
        };
        // A release's own scan never admits it, so that it is still among the waiting ones.
        let (_, released) = session.waiting().find(|(number, _)| *number == task)?;
        let urgency = |number: u8| urgency(session, number);
        let other = |executing: bool, (number, transaction): (u8, &Transaction)| {
            let mut admissions = outcome.admitted.iter();
            let admitted = admissions.any(|admission| admission.task == number);
            let Transaction { reads, writes } = transaction;
            Other {
                number,
                urgency: urgency(number),
                // One that the scan admits was waiting before it.
                executing: executing && !admitted,
                clashing: transaction.clashes_with(released),
                has_lowest: reads.contains(&lowest) || writes.contains(&lowest),
                admitted,
            }
        };
        let executing = session.executing().map(|found| other(true, found));
        let waiting = session.waiting().map(|found| other(false, found));
        let others = executing.chain(waiting);
        Some(TaskNamed {
            number: highest,
            urgency: urgency(highest),
            others: others.filter(|other| other.number != task).collect(),
        })
    }

    /// The executing tasks that the released transaction clashes with.
    fn clashing_executing(&self) -> impl Iterator<Item = &Other> {
        let others = self.others.iter();
        others.filter(|other| other.executing && other.clashing)
    }

    /// Whether some task of which `holds` is true ranks above the one named.
    fn is_below(&self, holds: impl Fn(&Other) -> bool) -> bool {
        self.others
            .iter()
            .filter(|other| holds(other))
            .any(|other| {
                other.urgency > self.urgency
                    || (other.urgency == self.urgency && other.number < self.number)
            })
    }

    /// Whether the released transaction clashes with executing ones of different urgency.
    fn of_different_urgency(&self) -> bool {
        let mut clashing = self.clashing_executing();
        let first = clashing.next();
        first.is_some_and(|first| clashing.any(|other| other.urgency != first.urgency))
    }

    /// Whether several of the executing ones that it clashes with have the highest urgency of
    /// all of these.
    fn number_decides(&self) -> bool {
        let urgencies = || self.clashing_executing().map(|other| other.urgency);
        let highest = urgencies().max();
        let having_it = urgencies().filter(|urgency| Some(*urgency) == highest);
        having_it.count() > 1
    }

    /// Whether the one named is the highest ranked executing one that it clashes with.
    fn is_right(&self) -> bool {
        let mut clashing = self.clashing_executing();
        clashing.any(|other| other.number == self.number)
            && !self.is_below(|other| other.executing && other.clashing)
    }
}

/// What a present task ranks by before its number, the larger the higher: its priority, or how
/// early its deadline is.
fn urgency(session: &Session, number: u8) -> i64 {
    let setup = session.setup();
    let task = &setup.tasks[usize::from(number)];
    match setup.mode {
        FIXED_PRIORITY => task.priority.into(),
        _ => {
            let arrival = session.last_arrival(number).unwrap_or(0);
            -(i64::from(arrival) + i64::from(task.period))
        }
    }
}

impl Cases for TaskNamed {
    const CASES: &'static [Case<TaskNamed>] = &[
        (
            "clashing executing ones of different priority or deadline",
            TaskNamed::of_different_urgency,
        ),
        (
            "several clashing executing ones of the highest priority or earliest deadline",
            TaskNamed::number_decides,
        ),
        (
            "a clashing executing one of a lower number than the one named",
            |named| {
                let mut clashing = named.clashing_executing();
                clashing.any(|other| other.number < named.number)
            },
        ),
        (
            "the lowest contested object not of the one named",
            |named| {
                let mut clashing = named.clashing_executing();
                !clashing.any(|other| other.number == named.number && other.has_lowest)
            },
        ),
        ("a clashing waiting one above the one named", |named| {
            named.is_below(|other| other.clashing && !other.executing)
        }),
        (
            "an executing one above the one named that does not clash",
            |named| named.is_below(|other| other.executing && !other.clashing),
        ),
        (
            "a clashing one above the one named admitted by the scan",
            |named| named.is_below(|other| other.clashing && other.admitted),
        ),
    ];

    /// Sought here among all of them, apart from the way in which the session finds it.
    const NEVER: Case<TaskNamed> = (
        "one named that is not the highest ranked clashing executing one",
        |named| !named.is_right(),
    );
}

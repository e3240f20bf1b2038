//! The tally of a report: what each event books, and the figures of all that was booked.
//!
//! Every name here is a word of requests CR 1 and CR 2 in document 02. The figures are kept wider
//! than any total may be, so that one that would pass is seen plainly.

use std::cmp::Reverse;
use std::collections::{BTreeMap, BTreeSet, VecDeque};

use crate::rules::{Action, Answer, Event, Outcome, Refusal};

/// What a total may not pass.
pub const MOST_TOTAL: u64 = 4_294_967_295;
/// Over how many of the last waits the middle and the nine tenths are taken, at most.
pub const LAST_WAITS: usize = 4096;

/// What one event books: nothing, a commit, waits, or both.
#[derive(Clone, Debug, Default, PartialEq, Eq)]
pub struct Booking {
    pub commit: Option<Commit>,
    /// In the order of admission.
    pub waits: Vec<Wait>,
}

/// A transaction that commits, and whether it had waited.
#[derive(Clone, Debug, PartialEq, Eq)]
pub struct Commit {
    pub task: u8,
    pub waited: bool,
}

/// A wait that ends: from its release's tick to the tick of the event that admits it.
#[derive(Clone, Debug, PartialEq, Eq)]
pub struct Wait {
    pub task: u8,
    pub ticks: u64,
    pub clashes: u64,
    pub retries: u64,
}

/// What must be remembered of one session, so that its next event can be booked. It follows the
/// session alone, and not what became of the bookings.
#[derive(Default)]
pub struct Memory {
    /// The open waits: each waiting task with its release's tick.
    open: BTreeMap<u8, u32>,
    /// The executing tasks whose transaction had waited.
    had_waited: BTreeSet<u8>,
}

impl Memory {
    /// Follows an accepted event, and says what it books.
    pub fn follow(&mut self, event: &Event, outcome: &Outcome) -> Booking {
        let mut booking = Booking::default();
        if matches!(outcome.answer, Answer::Wait { .. }) {
            self.open.insert(event.task, event.tick);
        }
        if event.action == Action::Commit {
            booking.commit = Some(Commit {
                task: event.task,
                waited: self.had_waited.remove(&event.task),
            });
        }
        for admission in &outcome.admitted {
            let task = admission.task;
            let since = self
                .open
                .remove(&task)
                .expect("only a waiting task is admitted");
            self.had_waited.insert(task);
            booking.waits.push(Wait {
                task,
                ticks: u64::from(event.tick - since),
                clashes: u64::from(admission.clashes),
                retries: u64::from(admission.retries),
            });
        }
        booking
    }

    /// How many waits are open.
    pub fn open_waits(&self) -> usize {
        self.open.len()
    }
}

/// The figures of one task. All but the longest wait are totals.
#[derive(Clone, Debug, Default)]
pub struct Figures {
    /// Transactions committed.
    pub committed: u64,
    /// How many of them had waited.
    pub waited: u64,
    /// Clashes of the waits booked.
    pub clashes: u64,
    /// Retries of the waits booked.
    pub retries: u64,
    /// The longest wait booked, in ticks.
    pub longest: u64,
    /// The mean wait as two whole numbers: ticks and waits.
    pub ticks: u64,
    pub waits: u64,
}

impl Figures {
    fn add_commit(&mut self, commit: &Commit) {
        self.committed += 1;
        self.waited += u64::from(commit.waited);
    }

    pub fn add_wait(&mut self, wait: &Wait) {
        self.clashes += wait.clashes;
        self.retries += wait.retries;
        self.longest = self.longest.max(wait.ticks);
        self.ticks += wait.ticks;
        self.waits += 1;
    }

    /// Whether some total has passed what it may be.
    pub fn passes(&self) -> bool {
        let totals = [
            self.committed,
            self.waited,
            self.clashes,
            self.retries,
            self.ticks,
            self.waits,
        ];
        totals.iter().any(|total| *total > MOST_TOTAL)
    }
}

/// All that was booked: the figures of each task, and the last waits of all tasks.
pub struct Tally {
    tasks: Vec<Figures>,
    /// In the order of admission, the last one at the back.
    last_waits: VecDeque<u64>,
}

impl Tally {
    /// A tally with nothing booked.
    pub fn new(tasks: usize) -> Tally {
        Tally {
            tasks: vec![Figures::default(); tasks],
            last_waits: VecDeque::new(),
        }
    }

    /// Books what one event books: all of it, or none if a total would pass (41).
    pub fn book(&mut self, booking: &Booking) -> Result<(), Refusal> {
        let mut tasks = self.tasks.clone();
        if let Some(commit) = &booking.commit {
            tasks[usize::from(commit.task)].add_commit(commit);
        }
        for wait in &booking.waits {
            tasks[usize::from(wait.task)].add_wait(wait);
        }
        if tasks.iter().any(Figures::passes) {
            return Err(Refusal::TotalWouldPass);
        }
        self.tasks = tasks;
        for wait in &booking.waits {
            self.last_waits.push_back(wait.ticks);
            if self.last_waits.len() > LAST_WAITS {
                self.last_waits.pop_front();
            }
        }
        Ok(())
    }

    /// The figures of each task, by number.
    pub fn tasks(&self) -> &[Figures] {
        &self.tasks
    }

    /// How many waits were booked, of all tasks.
    pub fn waits(&self) -> u64 {
        self.tasks.iter().map(|task| task.waits).sum()
    }

    /// The wait at the middle: of k last waits in rising order, number ⌈k/2⌉.
    pub fn middle(&self) -> u64 {
        self.wait_number(self.last_waits.len().div_ceil(2))
    }

    /// The wait at nine tenths: of k last waits in rising order, number ⌈9k/10⌉.
    pub fn nine_tenths(&self) -> u64 {
        self.wait_number((9 * self.last_waits.len()).div_ceil(10))
    }

    /// The last waits in rising order, counted from 1; 0 where there is none.
    fn wait_number(&self, number: usize) -> u64 {
        let mut rising: Vec<u64> = self.last_waits.iter().copied().collect();
        rising.sort();
        match number {
            0 => 0,
            _ => rising[number - 1],
        }
    }

    /// The tasks that have a wait booked: most ticks first, then the lower number.
    pub fn most(&self) -> Vec<usize> {
        let tasks = 0..self.tasks.len();
        let mut waited: Vec<usize> = tasks.filter(|task| self.tasks[*task].waits > 0).collect();
        waited.sort_by_key(|task| (Reverse(self.tasks[*task].ticks), *task));
        waited
    }
}

//! Counts of the cases that things of one sort come to, each case told in words.

use std::marker::PhantomData;

use crate::counts::{add, add_all, count, Class, Counts, Never};

/// How often each case must come up.
const LEAST: u64 = 20;

/// In words what a thing can come to, and whether it does.
pub type Case<T> = (&'static str, fn(&T) -> bool);

/// Things of one sort, and the cases that are counted of them.
pub trait Cases: Sized + 'static {
    /// The cases that must come up.
    const CASES: &'static [Case<Self>];

    /// The case that the rules never let come up.
    const NEVER: Case<Self>;
}

/// How often each case came up.
pub struct CaseCounts<T> {
    /// By the words of the case.
    came_up: Counts<&'static str>,
    of: PhantomData<T>,
}

impl<T> Default for CaseCounts<T> {
    fn default() -> CaseCounts<T> {
        CaseCounts {
            came_up: Counts::new(),
            of: PhantomData,
        }
    }
}

impl<T: Cases> CaseCounts<T> {
    pub fn book(&mut self, thing: &T) {
        for (words, holds) in T::CASES.iter().chain([&T::NEVER]) {
            if holds(thing) {
                add(&mut self.came_up, *words);
            }
        }
    }

    /// Books all that came up in a part: a log, or a list of logs.
    pub fn book_all(&mut self, part: &CaseCounts<T>) {
        add_all(&mut self.came_up, &part.came_up);
    }

    /// Books each case that came up in a part once, however often it did there.
    pub fn book_once(&mut self, part: &CaseCounts<T>) {
        for words in part.came_up.keys() {
            add(&mut self.came_up, *words);
        }
    }

    /// What must have come up; `of` says in words what was booked.
    pub fn must_come_up(&self, of: &str) -> Vec<Class> {
        let class = |(words, _): &Case<T>| {
            let what = format!("{of} with {words}");
            Class::new(what, count(&self.came_up, *words), LEAST)
        };
        T::CASES.iter().map(class).collect()
    }

    pub fn must_not_come_up(&self, of: &str) -> Never {
        let (words, _) = T::NEVER;
        Never::new(format!("{of} with {words}"), count(&self.came_up, words))
    }
}

/// How often each case came up in logs: every time, and once for each log.
pub struct InLogs<T> {
    /// In the present log.
    present: CaseCounts<T>,
    /// In all logs before it.
    every_time: CaseCounts<T>,
    once_a_log: CaseCounts<T>,
}

impl<T> Default for InLogs<T> {
    fn default() -> InLogs<T> {
        InLogs {
            present: CaseCounts::default(),
            every_time: CaseCounts::default(),
            once_a_log: CaseCounts::default(),
        }
    }
}

impl<T: Cases> InLogs<T> {
    pub fn book(&mut self, thing: &T) {
        self.present.book(thing);
    }

    /// Books the end of the present log.
    pub fn book_end(&mut self) {
        let present = std::mem::take(&mut self.present);
        self.every_time.book_all(&present);
        self.once_a_log.book_once(&present);
    }

    /// What must have come up; `of` says in words what was booked, and `logs` logs that have it.
    pub fn must_come_up(&self, of: &str, logs: &str) -> Vec<Class> {
        let mut classes = self.every_time.must_come_up(of);
        classes.extend(self.once_a_log.must_come_up(logs));
        classes
    }

    pub fn must_not_come_up(&self, of: &str) -> Never {
        self.every_time.must_not_come_up(of)
    }
}

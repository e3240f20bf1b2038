//! Counts of what came up in the releases of logs: good ones of both kinds, and those by which a
//! log goes bad.

use std::collections::BTreeSet;

use crate::cases::Case;
use crate::counts::{add, count, Class, Counts};
use crate::log::{Fault, LogReader, BEFORE_LISTS, HEAD, LIST_RELEASE, RELEASE, TICK_AND_TASK};
use crate::rules::{Action, Refusal, Transaction};

/// A release that reads well.
struct Release {
    kind: u16,
    reads: BTreeSet<u8>,
    writes: BTreeSet<u8>,
}

/// What must come up in logs.
const RELEASES: [Case<Release>; 10] = [
    ("kind 3", |release| release.kind == RELEASE),
    ("kind 8", Release::is_lists),
    ("kind 8 and no object", |release| {
        release.is_lists() && release.reads.is_empty() && release.writes.is_empty()
    }),
    ("kind 8, reads and no write", |release| {
        release.is_lists() && !release.reads.is_empty() && release.writes.is_empty()
    }),
    ("kind 8, writes and no read", |release| {
        release.is_lists() && release.reads.is_empty() && !release.writes.is_empty()
    }),
    ("kind 8 and object 0 in both lists", |release| {
        release.in_both_lists(0)
    }),
    ("kind 8 and object 255 in both lists", |release| {
        release.in_both_lists(255)
    }),
    ("kind 8 and all objects read", |release| {
        release.is_lists() && release.reads.len() == 256
    }),
    ("kind 8 and all objects written", |release| {
        release.is_lists() && release.writes.len() == 256
    }),
    ("kind 8 and a write not above the last read", |release| {
        release.is_lists()
            && release
                .writes
                .first()
                .zip(release.reads.last())
                .is_some_and(|(write, read)| write <= read)
    }),
];

impl Release {
    fn is_lists(&self) -> bool {
        self.kind == LIST_RELEASE
    }

    fn in_both_lists(&self, object: u8) -> bool {
        self.is_lists() && self.reads.contains(&object) && self.writes.contains(&object)
    }
}

/// A release record behind the setup by which a log goes bad.
struct Bad {
    refusal: Refusal,
    kind: u16,
    /// The kind of the releases before it, if there are any.
    before: Option<u16>,
    /// Its body, as far as the log has it.
    body: Vec<u8>,
    /// How long it says that its body is.
    length: usize,
}

/// What must come up in bad logs.
const BAD: [Case<Bad>; 12] = [
    ("20 by kind 8", |bad| bad.lists_refused(Refusal::CutOff)),
    ("22 by kind 8, under 9 bytes", |bad| {
        bad.lists_refused(Refusal::WrongLength) && bad.length < BEFORE_LISTS
    }),
    ("22 by kind 8, 9 bytes and a count", |bad| {
        bad.lists_refused(Refusal::WrongLength) && bad.length == BEFORE_LISTS
    }),
    ("22 by kind 8, too few objects", |bad| {
        bad.has_wrong_counts() && bad.length < BEFORE_LISTS + bad.counts()
    }),
    ("22 by kind 8, too many objects", |bad| {
        bad.has_wrong_counts() && bad.length > BEFORE_LISTS + bad.counts()
    }),
    ("22 by kind 8, and a list that does not rise", |bad| {
        bad.has_wrong_counts() && bad.pair().is_some()
    }),
    ("29 by a level pair", |bad| {
        bad.does_not_rise() && bad.pair().is_some_and(|(one, next)| one == next)
    }),
    ("29 by a falling pair", |bad| {
        bad.does_not_rise() && bad.pair().is_some_and(|(one, next)| one > next)
    }),
    ("29 by the writes alone", |bad| {
        bad.does_not_rise() && not_rising(bad.lists().0).is_none()
    }),
    ("29 by a release that has the wrong kind too", |bad| {
        bad.does_not_rise() && bad.before == Some(RELEASE)
    }),
    ("24 by kind 8 behind kind 3", |bad| {
        bad.lists_refused(Refusal::WrongPlace) && bad.before == Some(RELEASE)
    }),
    ("24 by kind 3 behind kind 8", |bad| {
        bad.refusal == Refusal::WrongPlace
            && (bad.kind, bad.before) == (RELEASE, Some(LIST_RELEASE))
    }),
];

impl Bad {
    fn lists_refused(&self, refusal: Refusal) -> bool {
        self.kind == LIST_RELEASE && self.refusal == refusal
    }

    fn does_not_rise(&self) -> bool {
        self.lists_refused(Refusal::ListDoesNotRise)
    }

    /// Whether it is refused for a length that has objects behind the counts.
    fn has_wrong_counts(&self) -> bool {
        self.lists_refused(Refusal::WrongLength) && self.length > BEFORE_LISTS
    }

    fn count_at(&self, place: usize) -> usize {
        usize::from(u16::from_le_bytes([self.body[place], self.body[place + 1]]))
    }

    fn counts(&self) -> usize {
        self.count_at(TICK_AND_TASK) + self.count_at(TICK_AND_TASK + 2)
    }

    /// Both lists, as far as the body has them.
    fn lists(&self) -> (&[u8], &[u8]) {
        let objects = &self.body[BEFORE_LISTS..self.length];
        objects.split_at(self.count_at(TICK_AND_TASK).min(objects.len()))
    }

    /// The first two objects that do not rise.
    fn pair(&self) -> Option<(u8, u8)> {
        let (reads, writes) = self.lists();
        not_rising(reads).or_else(|| not_rising(writes))
    }
}

fn not_rising(list: &[u8]) -> Option<(u8, u8)> {
    let mut pairs = list.windows(2).map(|pair| (pair[0], pair[1]));
    pairs.find(|(one, next)| one >= next)
}

#[derive(Default)]
pub struct ReleaseCounts {
    /// Logs, by what came up in their releases.
    logs: Counts<&'static str>,
    /// Bad logs, by the release that they went bad by.
    bad: Counts<&'static str>,
}

impl ReleaseCounts {
    pub fn book_log(&mut self, log: &[u8]) {
        let Ok((_, mut events)) = LogReader::open(log) else {
            return;
        };
        let mut came_up = BTreeSet::new();
        loop {
            let start = events.place();
            match events.next_event() {
                Ok(Some(event)) => {
                    if let Action::Release(Transaction { reads, writes }) = event.action {
                        let kind = events.kind();
                        let release = Release {
                            kind,
                            reads,
                            writes,
                        };
                        came_up.extend(cases(&RELEASES, &release));
                    }
                }
                Err(Fault::Bad(refusal)) if log.len() >= start + HEAD => {
                    let length = usize::from(u16::from_le_bytes([log[start], log[start + 1]]));
                    let bad = Bad {
                        refusal,
                        kind: events.kind(),
                        before: events.release_kind(),
                        body: log[start + HEAD..].iter().copied().take(length).collect(),
                        length,
                    };
                    for words in cases(&BAD, &bad) {
                        add(&mut self.bad, words);
                    }
                    break;
                }
                _ => break,
            }
        }
        for words in came_up {
            add(&mut self.logs, words);
        }
    }

    /// What must have come up, each so many times.
    pub fn must_come_up(&self, least: u64) -> Vec<Class> {
        let logs = RELEASES.map(|(words, _)| {
            let what = format!("logs with a release of {words}");
            Class::new(what, count(&self.logs, words), least)
        });
        let bad = BAD.map(|(words, _)| {
            let what = format!("logs bad with {words}");
            Class::new(what, count(&self.bad, words), least)
        });
        logs.into_iter().chain(bad).collect()
    }
}

/// The words of the cases that a thing comes to.
fn cases<'a, T>(cases: &'a [Case<T>], thing: &'a T) -> impl Iterator<Item = &'static str> + 'a {
    let holding = cases.iter().filter(|(_, holds)| holds(thing));
    holding.map(|(words, _)| *words)
}

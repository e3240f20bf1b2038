//! Long logs with records where they are wanted: on the borders of the pieces that a program may
//! read a log in.

use crate::log::{write_end, write_event, write_setup, HEAD, LIST_RELEASE, TICK_AND_TASK};
use crate::rules::{Action, Event, Setup, Task, Transaction, DEADLINE, FIXED_PRIORITY};

/// The bytes of a piece that a program may read a log in.
pub const PIECE: usize = 1 << 16;

/// The bytes of a record that is no release, a setup or an end.
const PLAIN: usize = HEAD + TICK_AND_TASK;
/// The bytes of an end.
const END: usize = HEAD + 4;

/// A log in which the first border, the second and so on lies so many bytes behind the start of a
/// release of this kind, by lists one of 278 bytes. Most of its other events are refused.
pub fn across_borders(release_kind: u16, behind_start: &[usize]) -> Vec<u8> {
    let mut log = LongLog::new(release_kind);
    for (number, behind) in (1..).zip(behind_start) {
        log.fill_to(number * PIECE - behind);
        log.release((0..=255).collect(), (3..12).collect());
    }
    log.end()
}

/// A log of exactly so many bytes.
pub fn of_size(release_kind: u16, bytes: usize) -> Vec<u8> {
    let mut log = LongLog::new(release_kind);
    log.fill_to(bytes - END);
    log.end()
}

/// A long log in the making.
struct LongLog {
    release_kind: u16,
    events: u32,
    log: Vec<u8>,
}

impl LongLog {
    fn new(release_kind: u16) -> LongLog {
        let task = Task {
            priority: 7,
            period: 1000,
            transactions: 255,
        };
        let mode = match release_kind {
            LIST_RELEASE => DEADLINE,
            _ => FIXED_PRIORITY,
        };
        let setup = Setup {
            processors: 1,
            mode,
            tasks: vec![task],
        };
        let mut log = Vec::new();
        write_setup(&mut log, &setup).expect("the setup is allowed");
        let (release_kind, events) = (release_kind, 0);
        let mut log = LongLog {
            release_kind,
            events,
            log,
        };
        log.event(Action::Arrive);
        log
    }

    fn event(&mut self, action: Action) {
        let event = Event {
            tick: self.events,
            task: 0,
            action,
        };
        write_event(&mut self.log, &event, self.release_kind);
        self.events += 1;
    }

    fn release(&mut self, reads: Vec<u8>, writes: Vec<u8>) {
        let reads = reads.into_iter().collect();
        let writes = writes.into_iter().collect();
        self.event(Action::Release(Transaction { reads, writes }));
    }

    /// Adds events until the next record starts at this place. A release of one object has 73 bytes
    /// or 14, which leave 1 or 5 when they are divided by those of a commit: a few of them, and then
    /// commits, come to every place.
    fn fill_to(&mut self, place: usize) {
        while self.log.len() < place {
            match (place - self.log.len()) % PLAIN {
                0 => self.event(Action::Commit),
                _ => self.release(vec![self.events as u8], Vec::new()),
            }
        }
    }

    fn end(mut self) -> Vec<u8> {
        write_end(&mut self.log, self.events);
        self.log
    }
}

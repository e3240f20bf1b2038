//! Random logs that read well. The same seed always gives the same log.
//!
//! The generator keeps a session of its own, so that it can choose events that are accepted, and
//! wrong ones only as often as it wants to.

use std::collections::BTreeSet;

use crate::log::{write_end, write_event, write_setup, LIST_RELEASE, RELEASE};
use crate::rules::{Action, Event, Session, Setup, State, Task, Transaction};
use crate::rules::{FIXED_PRIORITY, LONGEST_PERIOD, MOST_ACCEPTED};

/// A small generator of numbers (splitmix64).
pub struct Random(u64);

impl Random {
    pub fn new(seed: u64) -> Random {
        Random(seed)
    }

    fn next(&mut self) -> u64 {
        self.0 = self.0.wrapping_add(0x9e37_79b9_7f4a_7c15);
        let mut mixed = self.0;
        mixed = (mixed ^ (mixed >> 30)).wrapping_mul(0xbf58_476d_1ce4_e5b9);
        mixed = (mixed ^ (mixed >> 27)).wrapping_mul(0x94d0_49bb_1331_11eb);
        mixed ^ (mixed >> 31)
    }

    /// A number from 0 to `limit` - 1.
    pub fn below(&mut self, limit: usize) -> usize {
        (self.next() % limit as u64) as usize
    }

    /// A number from `low` to `high`, both included.
    pub fn between(&mut self, low: u32, high: u32) -> u32 {
        low + (self.next() % (u64::from(high - low) + 1)) as u32
    }

    /// A number from 1 to `high`, and one time in eight `high` itself.
    fn up_to(&mut self, high: u32) -> u32 {
        if self.below(8) == 0 {
            high
        } else {
            self.between(1, high)
        }
    }

    /// True so many times in a hundred.
    pub fn percent(&mut self, share: u32) -> bool {
        self.between(0, 99) < share
    }

    pub fn pick<T: Copy>(&mut self, choices: &[T]) -> T {
        choices[self.below(choices.len())]
    }
}

/// How large a log is, the mode of its setup, and the kind of its releases.
#[derive(Clone, Copy, Debug)]
pub struct Shape {
    pub processors: u8,
    pub tasks: u8,
    pub events: u32,
    pub mode: u8,
    pub release_kind: u16,
}

impl Shape {
    /// A shape of mode 0, with releases of kind 3.
    pub fn new(processors: u8, tasks: u8, events: u32) -> Shape {
        Shape {
            processors,
            tasks,
            events,
            mode: FIXED_PRIORITY,
            release_kind: RELEASE,
        }
    }

    pub fn in_mode(self, mode: u8) -> Shape {
        Shape { mode, ..self }
    }

    pub fn with_releases(self, release_kind: u16) -> Shape {
        Shape {
            release_kind,
            ..self
        }
    }

    /// The shape that goes with a seed: 1,024 seeds in a row give every m with every n, the modes
    /// like the colours of a chessboard. One log in three has releases by lists.
    pub fn of_seed(seed: u64) -> Shape {
        Shape {
            processors: (1 + seed / 64 % 16) as u8,
            tasks: (1 + seed % 64) as u8,
            events: Random::new(!seed).between(0, 150),
            mode: ((seed / 64 + seed) % 2) as u8,
            release_kind: match seed / 3 % 3 {
                2 => LIST_RELEASE,
                _ => RELEASE,
            },
        }
    }

    /// The setup of these tasks.
    fn setup(self, tasks: Vec<Task>) -> Setup {
        Setup {
            processors: self.processors,
            mode: self.mode,
            tasks,
        }
    }
}

/// The most ticks of a leap.
const LEAPS: [u32; 3] = [1 << 20, 1 << 28, 1 << 31];

/// The tick of the first events. The last three have deadlines before and past the last tick.
const STARTS: [u32; 7] = [
    0,
    0,
    1,
    65_530,
    u32::MAX - LONGEST_PERIOD / 2,
    u32::MAX - 5000,
    u32::MAX - 20,
];

/// How the tasks of a log behave.
struct Style {
    /// The objects that transactions are made of.
    objects: Vec<u8>,
    most_reads: usize,
    least_writes: usize,
    most_writes: usize,
    /// Of a hundred transactions, how many write every one of the objects.
    write_all: u32,
    /// Whether every set is an edge of what a set can be, instead of all this.
    edges: bool,
    /// Of a hundred choices of a plain task, how many are to finish.
    finish: u32,
    /// Of a hundred events, how many are chosen without a look at the rules.
    wrong: u32,
    /// The most ticks from one event to the next.
    step: u32,
    /// Of a hundred events, how many come after a leap of very many ticks.
    leaps: u32,
    /// The tick of the first events.
    start: u32,
}

impl Style {
    /// A style of its own for every log.
    fn mixed(random: &mut Random) -> Style {
        let most_writes = random.pick(&[0, 1, 2, 8]);
        Style {
            objects: mixed_objects(random),
            most_reads: random.pick(&[0, 2, 8]),
            least_writes: random.below(2).min(most_writes),
            most_writes,
            write_all: random.pick(&[0, 2, 10, 40]),
            edges: false,
            finish: random.pick(&[2, 10, 40]),
            wrong: random.pick(&[0, 5, 10, 40]),
            step: random.pick(&[0, 1, 2, 10, 1000]),
            leaps: 0,
            start: random.pick(&STARTS),
        }
    }

    /// Few objects that are mostly written, so that many transactions wait.
    fn contended(random: &mut Random) -> Style {
        let objects = random.between(1, 6) as u8;
        Style {
            objects: (0..objects).collect(),
            most_reads: 2,
            least_writes: random.below(2),
            most_writes: random.pick(&[1, 2]),
            write_all: random.pick(&[0, 10, 40]),
            edges: false,
            finish: random.pick(&[2, 10, 40]),
            wrong: random.pick(&[0, 5, 20]),
            step: random.pick(&[0, 1, 10, 1000]),
            leaps: 0,
            start: random.pick(&[0, 0, 7, u32::MAX - 5000]),
        }
    }

    /// A contended style in which a few events come after a very long time.
    fn long(random: &mut Random) -> Style {
        Style {
            leaps: random.pick(&[2, 5, 10]),
            start: 0,
            ..Style::contended(random)
        }
    }

    /// A busy box: jobs with many transactions, of which about one in four waits.
    fn busy(shape: Shape) -> Style {
        let objects = (9 * shape.processors).saturating_sub(10).max(1);
        Style {
            objects: (0..objects).collect(),
            most_reads: 2,
            least_writes: 1,
            most_writes: 2,
            write_all: 0,
            edges: false,
            finish: 3,
            wrong: 1,
            step: 1,
            leaps: 0,
            start: 0,
        }
    }
}

fn mixed_objects(random: &mut Random) -> Vec<u8> {
    match random.below(5) {
        0 => vec![random.below(256) as u8],
        1 => vec![0, 7, 8, 31, 32, 63, 64, 127, 128, 191, 192, 255],
        2 => (0..=255).collect(),
        _ => {
            let count = random.between(2, 20);
            (0..count).map(|_| random.below(256) as u8).collect()
        }
    }
}

/// A good log, as the seed will have it.
pub fn good_log(random: &mut Random, shape: Shape) -> Vec<u8> {
    let style = Style::mixed(random);
    log_of_style(random, shape, style)
}

/// A log whose sets are empty, full, or at the ends of all objects.
pub fn edges_log(random: &mut Random, shape: Shape) -> Vec<u8> {
    let style = Style {
        edges: true,
        ..Style::mixed(random)
    };
    log_of_style(random, shape, style)
}

fn log_of_style(random: &mut Random, shape: Shape, style: Style) -> Vec<u8> {
    let setup = mixed_setup(random, shape);
    let mut maker = Maker::new(random, style, setup, shape.release_kind);
    for _ in 0..shape.events {
        maker.add_chosen_event();
    }
    maker.end()
}

/// A log of a busy box.
pub fn busy_log(random: &mut Random, shape: Shape) -> Vec<u8> {
    let setup = busy_setup(random, shape);
    let mut maker = Maker::new(random, Style::busy(shape), setup, shape.release_kind);
    for _ in 0..shape.events {
        maker.add_chosen_event();
    }
    maker.end()
}

/// A busy log that goes on until no more events are accepted, and then for `shape.events` more.
pub fn full_log(random: &mut Random, shape: Shape) -> Vec<u8> {
    let setup = busy_setup(random, shape);
    let mut maker = Maker::new(random, Style::busy(shape), setup, shape.release_kind);
    while maker.session.accepted() < MOST_ACCEPTED {
        maker.add_chosen_event();
    }
    maker.style.wrong = 50;
    for _ in 0..shape.events {
        maker.add_chosen_event();
    }
    maker.end()
}

/// Task 0 writes every object and all the others come to wait for it, so that its commit admits
/// as many as there is room for. Then `shape.events` more.
pub fn flock_log(random: &mut Random, shape: Shape) -> Vec<u8> {
    let style = Style::mixed(random);
    let setup = busy_setup(random, shape);
    let mut maker = Maker::new(random, style, setup, shape.release_kind);
    maker.add_flock(0, 1);
    for _ in 0..shape.events {
        maker.add_chosen_event();
    }
    maker.end()
}

/// First a release that waits and admits one that clashes with it; see `Maker::add_deferred`. Then
/// `shape.events` more.
pub fn deferred_log(random: &mut Random, shape: Shape) -> Vec<u8> {
    let setup = season_setup(random, shape);
    let Shape {
        events,
        release_kind,
        ..
    } = shape;
    log_of_setup(random, &setup, events, Behaviour::Deferred, release_kind)
}

/// How the tasks of one log of a given setup behave.
#[derive(Clone, Copy)]
pub enum Behaviour {
    /// In any way.
    Mixed,
    /// Many wait.
    Contended,
    /// Many wait, and some of them very long.
    Long,
    /// First as in a flock log, with waits of any length, and then as in a long one.
    Flock,
    /// First as in a deferred log, and then many wait.
    Deferred,
}

/// A good log of a given setup.
pub fn log_of_setup(
    random: &mut Random,
    setup: &Setup,
    events: u32,
    behaviour: Behaviour,
    release_kind: u16,
) -> Vec<u8> {
    let style = match behaviour {
        Behaviour::Mixed => Style::mixed(random),
        Behaviour::Contended | Behaviour::Deferred => Style::contended(random),
        Behaviour::Long | Behaviour::Flock => Style::long(random),
    };
    let mut maker = Maker::new(random, style, setup.clone(), release_kind);
    match behaviour {
        Behaviour::Mixed | Behaviour::Contended | Behaviour::Long => {}
        Behaviour::Flock => {
            let apart = maker.random.pick(&[0, 1, 1000, 60_000_000]);
            let commit = maker.random.between(64 * apart, u32::MAX);
            maker.add_flock(apart, commit);
        }
        Behaviour::Deferred => maker.add_deferred(),
    }
    for _ in 0..events {
        maker.add_chosen_event();
    }
    maker.end()
}

/// A setup for the logs of a season: every task has transactions, and jobs come soon again.
pub fn season_setup(random: &mut Random, shape: Shape) -> Setup {
    let most_priority = random.pick(&[1, 3, 65_535]);
    let most_period = random.pick(&[1, 5, 50, 5000]);
    let most_transactions = random.pick(&[2, 5, 255]);
    let tasks = (0..shape.tasks).map(|_| Task {
        priority: random.up_to(most_priority) as u16,
        period: random.up_to(most_period),
        transactions: random.between(1, most_transactions) as u8,
    });
    shape.setup(tasks.collect())
}

/// A log with one wait after another, of these lengths in ticks. Tasks 1 and 2 wait in turn for
/// task 0.
pub fn log_of_waits(random: &mut Random, waits: &[u32], release_kind: u16) -> Vec<u8> {
    let task = Task {
        priority: 1,
        period: 1,
        transactions: 1,
    };
    let setup = Shape::new(3, 3, 0).setup(vec![task; 3]);
    let style = Style::contended(random);
    let mut maker = Maker::new(random, style, setup, release_kind);
    let mut tick = 0;
    for (wait, second) in waits.iter().zip([1, 2].into_iter().cycle()) {
        for task in [0, second] {
            maker.add_released(tick, task, &[], &[9]);
        }
        for task in [0, second] {
            maker.add(tick + wait, task, Action::Commit);
            maker.add(tick + wait, task, Action::Finish);
        }
        tick += wait + 1;
    }
    maker.end()
}

/// A setup of any kind that is allowed.
pub fn mixed_setup(random: &mut Random, shape: Shape) -> Setup {
    let most_priority = random.pick(&[1, 3, 100, 65_535]);
    let most_period = random.pick(&[1, 5, 50, 5000, LONGEST_PERIOD]);
    let most_transactions = random.pick(&[2, 5, 255]);
    let tasks = (0..shape.tasks).map(|_| Task {
        priority: random.up_to(most_priority) as u16,
        period: random.up_to(most_period),
        transactions: random.between(0, most_transactions) as u8,
    });
    shape.setup(tasks.collect())
}

/// Short periods, so that jobs come again and again, with many transactions each.
fn busy_setup(random: &mut Random, shape: Shape) -> Setup {
    let tasks = (0..shape.tasks).map(|_| Task {
        priority: random.between(1, 65_535) as u16,
        period: random.between(1, 20),
        transactions: random.between(100, 255) as u8,
    });
    shape.setup(tasks.collect())
}

/// A log in the making.
struct Maker<'a> {
    random: &'a mut Random,
    style: Style,
    session: Session,
    release_kind: u16,
    events: u32,
    log: Vec<u8>,
}

impl Maker<'_> {
    fn new(random: &mut Random, style: Style, setup: Setup, release_kind: u16) -> Maker<'_> {
        let mut log = Vec::new();
        write_setup(&mut log, &setup).expect("the setups made here are allowed");
        Maker {
            random,
            style,
            session: Session::new(setup),
            release_kind,
            events: 0,
            log,
        }
    }

    fn add_chosen_event(&mut self) {
        let event = self.next_event();
        self.add_event(event);
    }

    /// Task 0 writes every object, the others release so many ticks apart, and task 0 commits.
    fn add_flock(&mut self, apart: u32, commit: u32) {
        let all: Vec<u8> = (0..=255).collect();
        for task in 0..self.session.setup().tasks.len() as u8 {
            let tick = apart * u32::from(task);
            match task {
                0 => self.add_released(tick, task, &[], &all),
                _ => self.add_released(tick, task, &[task], &[]),
            }
        }
        self.add(commit, 0, Action::Commit);
    }

    /// Some task executes, and the second in rank waits for it. Then others execute until no
    /// processor is left, the highest ranked task arrives, and the first one commits: the second in
    /// rank has no room, since the highest ranked one is plain. That one's release clashes with it
    /// and with some of the others, and waits, so that its scan admits the second in rank.
    ///
    /// All arrive at tick 0: by deadline the shortest period ranks highest. With fewer than m + 2
    /// tasks the second in rank has room, and the commit admits it.
    fn add_deferred(&mut self) {
        let mut ranked = self.tasks_by_rank();
        if ranked.len() < 3 {
            return;
        }
        let mut rest = ranked.split_off(2);
        let (highest, second) = (ranked[0], ranked[1]);
        let first = rest.swap_remove(self.random.below(rest.len()));
        self.add_released(0, first, &[], &[64]);
        self.add_released(0, second, &[], &[64]);
        let (mut reads, mut writes) = (vec![64], Vec::new());
        let others = usize::from(self.session.setup().processors) - 1;
        for _ in 0..others.min(rest.len()) {
            let other = rest.swap_remove(self.random.below(rest.len()));
            // The higher its number, the lower is its object.
            let object = [63 - other];
            match self.random.below(3) {
                0 => self.add_released(0, other, &[], &object),
                _ => self.add_released(0, other, &object, &[]),
            }
            match self.random.below(2) {
                0 => reads.extend(object),
                _ => writes.extend(object),
            }
        }
        self.add(0, highest, Action::Arrive);
        self.add(3, first, Action::Commit);
        self.add_release(4, highest, &reads, &writes);
    }

    /// All tasks as they rank if each arrives at tick 0, the highest rank first.
    fn tasks_by_rank(&self) -> Vec<u8> {
        let setup = self.session.setup();
        let place = setup.ranking();
        let mut ranked: Vec<u8> = (0..setup.tasks.len() as u8).collect();
        ranked.sort_by_key(|task| (place(setup, *task, 0), *task));
        ranked
    }

    /// An arrival, and a release at the same tick.
    fn add_released(&mut self, tick: u32, task: u8, reads: &[u8], writes: &[u8]) {
        self.add(tick, task, Action::Arrive);
        self.add_release(tick, task, reads, writes);
    }

    fn add_release(&mut self, tick: u32, task: u8, reads: &[u8], writes: &[u8]) {
        let reads = reads.iter().copied().collect();
        let writes = writes.iter().copied().collect();
        self.add(tick, task, Action::Release(Transaction { reads, writes }));
    }

    fn add(&mut self, tick: u32, task: u8, action: Action) {
        self.add_event(Event { tick, task, action });
    }

    fn add_event(&mut self, event: Event) {
        write_event(&mut self.log, &event, self.release_kind);
        self.events += 1;
        // A refused event stays in the log and changes nothing.
        let _ = self.session.take(event);
    }

    fn end(mut self) -> Vec<u8> {
        write_end(&mut self.log, self.events);
        self.log
    }

    fn next_event(&mut self) -> Event {
        if self.random.percent(self.style.wrong) {
            return self.careless_event();
        }
        for _ in 0..4 * self.session.setup().tasks.len() {
            let event = self.fitting_event();
            if self.session.check(&event).is_ok() {
                return event;
            }
        }
        self.next_arrival().unwrap_or_else(|| self.careless_event())
    }

    /// A tick not below the last one.
    fn tick(&mut self) -> u32 {
        let last = self.session.last_tick().max(self.style.start);
        let leaps = self.style.leaps > 0 && self.random.percent(self.style.leaps);
        let most = if leaps {
            self.random.pick(&LEAPS)
        } else {
            self.style.step
        };
        last.saturating_add(self.random.between(0, most))
    }

    fn task(&mut self) -> u8 {
        self.random.below(self.session.setup().tasks.len()) as u8
    }

    /// An event that fits the state of some task; it may be refused all the same.
    fn fitting_event(&mut self) -> Event {
        let task = self.task();
        let action = match self.session.state(task) {
            State::Absent => Action::Arrive,
            State::Plain if self.session.transactions_used(task) => Action::Finish,
            State::Plain if self.random.percent(self.style.finish) => Action::Finish,
            State::Plain => Action::Release(self.transaction()),
            State::Waiting | State::Executing => Action::Commit,
        };
        Event {
            tick: self.tick(),
            task,
            action,
        }
    }

    /// The earliest arrival still possible when nothing else is.
    fn next_arrival(&mut self) -> Option<Event> {
        let earliest = |task: u8| -> Option<(u32, u8)> {
            let period = self.session.setup().tasks[usize::from(task)].period;
            let tick = self.session.last_arrival(task)?.checked_add(period)?;
            Some((tick.max(self.session.last_tick()), task))
        };
        let tasks = 0..self.session.setup().tasks.len() as u8;
        let absent = tasks.filter(|task| self.session.state(*task) == State::Absent);
        let (tick, task) = absent.filter_map(earliest).min()?;
        Some(Event {
            tick,
            task,
            action: Action::Arrive,
        })
    }

    /// An event chosen without a look at whether it is accepted.
    fn careless_event(&mut self) -> Event {
        let near = match self.random.below(6) {
            0 => self.arrival_near_the_period(),
            1 => self.one_release_too_many(),
            _ => None,
        };
        near.unwrap_or_else(|| self.any_event())
    }

    fn any_event(&mut self) -> Event {
        let last = self.session.last_tick();
        let tick = match self.random.below(20) {
            0 => 0,
            1 | 2 => last.saturating_sub(1),
            3 => last.saturating_sub(self.random.between(0, 100)),
            _ => self.tick(),
        };
        let task = match self.random.below(10) {
            0 => self.session.setup().tasks.len() as u8,
            1 => self.random.below(256) as u8,
            _ => self.task(),
        };
        let action = match self.random.below(5) {
            0 => Action::Arrive,
            1 => Action::Commit,
            2 => Action::Finish,
            _ => Action::Release(self.transaction()),
        };
        Event { tick, task, action }
    }

    /// An arrival exactly one period after the last one, or one tick too soon.
    fn arrival_near_the_period(&mut self) -> Option<Event> {
        let task = self.task();
        let period = self.session.setup().tasks[usize::from(task)].period;
        let due = self.session.last_arrival(task)?.checked_add(period)?;
        let tick = due - self.random.between(0, 1);
        Some(Event {
            tick,
            task,
            action: Action::Arrive,
        })
    }

    /// A release by a job that has used its transactions, if there is one.
    fn one_release_too_many(&mut self) -> Option<Event> {
        let plain = |task: &u8| self.session.state(*task) == State::Plain;
        let tasks = 0..self.session.setup().tasks.len() as u8;
        let mut used = tasks
            .filter(plain)
            .filter(|task| self.session.transactions_used(*task));
        let task = used.next()?;
        let action = Action::Release(self.transaction());
        Some(Event {
            tick: self.tick(),
            task,
            action,
        })
    }

    fn transaction(&mut self) -> Transaction {
        if self.style.edges {
            let [reads, writes] = [0; 2].map(|_| edge(self.random));
            return Transaction {
                reads: reads.into_iter().collect(),
                writes: writes.into_iter().collect(),
            };
        }
        if self.random.percent(self.style.write_all) {
            let writes = self.style.objects.iter().copied().collect();
            return Transaction {
                reads: self.some_objects(0, self.style.most_reads),
                writes,
            };
        }
        Transaction {
            reads: self.some_objects(0, self.style.most_reads),
            writes: self.some_objects(self.style.least_writes, self.style.most_writes),
        }
    }

    fn some_objects(&mut self, least: usize, most: usize) -> BTreeSet<u8> {
        let count = least + self.random.below(most - least + 1);
        (0..count)
            .map(|_| self.random.pick(&self.style.objects))
            .collect()
    }
}

/// The objects of an edge of what a set can be, in rising order: none of them, all, all but one,
/// those at either end, or few.
pub fn edge(random: &mut Random) -> Vec<u8> {
    let all = 0..=255;
    let some = random.below(256) as u8;
    match random.below(9) {
        0 => Vec::new(),
        1 => vec![0],
        2 => vec![255],
        3 => vec![0, 255],
        4 => vec![254, 255],
        5 => all.collect(),
        6 => all.filter(|object| *object != some).collect(),
        7 => all.filter(|object| object % 64 == some % 64).collect(),
        _ => all.filter(|object| *object >= some).collect(),
    }
}

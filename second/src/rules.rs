//! The rules of one session: tasks, transactions, events, refusals and the scan.
//!
//! Every name here is a word of document 01 or of requests CR 2, CR 3 and CR 5 in document 02, and
//! every step follows one of their sentences.

use std::collections::{BTreeMap, BTreeSet};

pub const MOST_PROCESSORS: u8 = 16;
pub const MOST_TASKS: usize = 64;
pub const LONGEST_PERIOD: u32 = 86_400_000;
pub const MOST_ACCEPTED: u32 = 1_000_000;

/// The modes of a setup: a job ranks by its task's priority, or by its own deadline.
pub const FIXED_PRIORITY: u8 = 0;
pub const DEADLINE: u8 = 1;

/// Why an event, a setup, a record or a booking is refused. The values are the refusal numbers.
/// Number 28 is missing: this program writes into memory that grows, so it has always room.
#[derive(Clone, Copy, Debug, PartialEq, Eq)]
pub enum Refusal {
    TaskNotBelowN = 1,
    TickBelowLast = 2,
    SessionFull = 3,
    WrongState = 4,
    ArrivesTooSoon = 5,
    NotOnProcessor = 6,
    TransactionsUsed = 7,
    ProcessorsNotAllowed = 10,
    TasksNotAllowed = 11,
    PriorityZero = 12,
    PeriodNotAllowed = 13,
    UnknownMode = 14,
    CutOff = 20,
    UnknownKind = 21,
    WrongLength = 22,
    SpareByteSet = 23,
    WrongPlace = 24,
    WrongCount = 25,
    BytesAfterEnd = 26,
    NoEnd = 27,
    ListDoesNotRise = 29,
    SetupsDiffer = 40,
    TotalWouldPass = 41,
}

impl Refusal {
    pub fn number(self) -> u8 {
        self as u8
    }
}

/// What the setup says of one task.
#[derive(Clone, Debug, PartialEq, Eq)]
pub struct Task {
    pub priority: u16,
    pub period: u32,
    /// Transactions per job; 0 is allowed.
    pub transactions: u8,
}

impl Task {
    /// Tries 12, then 13.
    pub fn check(&self) -> Result<(), Refusal> {
        if self.priority == 0 {
            return Err(Refusal::PriorityZero);
        }
        if !(1..=LONGEST_PERIOD).contains(&self.period) {
            return Err(Refusal::PeriodNotAllowed);
        }
        Ok(())
    }
}

/// The box a session runs on: m processors, the mode, and n tasks numbered from 0.
#[derive(Clone, Debug, PartialEq, Eq)]
pub struct Setup {
    pub processors: u8,
    pub mode: u8,
    pub tasks: Vec<Task>,
}

impl Setup {
    /// Tries 10, 11, 14, then 12 and 13 for each task, the lowest task first.
    pub fn check(&self) -> Result<(), Refusal> {
        if !(1..=MOST_PROCESSORS).contains(&self.processors) {
            return Err(Refusal::ProcessorsNotAllowed);
        }
        if !(1..=MOST_TASKS).contains(&self.tasks.len()) {
            return Err(Refusal::TasksNotAllowed);
        }
        if ![FIXED_PRIORITY, DEADLINE].contains(&self.mode) {
            return Err(Refusal::UnknownMode);
        }
        self.tasks.iter().try_for_each(Task::check)
    }

    /// The sum of demand 3, for a task and a wait length in ticks: over every other task,
    /// transactions per job × (⌊length / period⌋ + 2). A bad task is refused (1).
    pub fn sum(&self, task: usize, length: u32) -> Result<u64, Refusal> {
        if task >= self.tasks.len() {
            return Err(Refusal::TaskNotBelowN);
        }
        let others = self.tasks.iter().enumerate();
        let others = others.filter(|(other, _)| *other != task);
        Ok(others
            .map(|(_, other)| {
                u64::from(other.transactions) * (u64::from(length / other.period) + 2)
            })
            .sum())
    }

    /// How jobs are ranked in a setup that has been checked.
    pub fn ranking(&self) -> Ranking {
        match self.mode {
            FIXED_PRIORITY => by_priority,
            _ => by_deadline,
        }
    }
}

/// The place that a job of this task has in a ranking if it arrives at this tick: the lower place
/// ranks higher.
pub type Ranking = fn(&Setup, u8, u32) -> u64;

/// The larger priority ranks higher, whenever the job arrives.
pub fn by_priority(setup: &Setup, task: u8, _arrival: u32) -> u64 {
    u64::from(u16::MAX - setup.tasks[usize::from(task)].priority)
}

/// The earlier deadline ranks higher: the arrival tick plus the period, which can be later than
/// any tick.
pub fn by_deadline(setup: &Setup, task: u8, arrival: u32) -> u64 {
    u64::from(arrival) + u64::from(setup.tasks[usize::from(task)].period)
}

/// The objects a transaction reads and those it writes. An object may stand in both.
#[derive(Clone, Debug, Default, PartialEq, Eq)]
pub struct Transaction {
    pub reads: BTreeSet<u8>,
    pub writes: BTreeSet<u8>,
}

impl Transaction {
    /// Two transactions clash if some object is in both and at least one of the two writes it.
    pub fn clashes_with(&self, other: &Transaction) -> bool {
        !(self.writes.is_disjoint(&other.writes)
            && self.writes.is_disjoint(&other.reads)
            && self.reads.is_disjoint(&other.writes))
    }

    /// The objects on which the two clash; one may come up more than once.
    fn clashing_objects<'a>(&'a self, other: &'a Transaction) -> impl Iterator<Item = u8> + 'a {
        let both_write = self.writes.intersection(&other.writes);
        let this_writes = self.writes.intersection(&other.reads);
        let other_writes = self.reads.intersection(&other.writes);
        both_write.chain(this_writes).chain(other_writes).copied()
    }
}

/// What an event does.
#[derive(Clone, Debug, PartialEq, Eq)]
pub enum Action {
    Arrive,
    Release(Transaction),
    Commit,
    Finish,
}

impl Action {
    pub fn name(&self) -> &'static str {
        match self {
            Action::Arrive => "arrive",
            Action::Release(_) => "release",
            Action::Commit => "commit",
            Action::Finish => "finish",
        }
    }
}

#[derive(Clone, Debug, PartialEq, Eq)]
pub struct Event {
    pub tick: u32,
    pub task: u8,
    pub action: Action,
}

/// The answer to an accepted event.
#[derive(Clone, Copy, Debug, PartialEq, Eq)]
pub enum Answer {
    Ok,
    /// The released transaction executes at once.
    Run,
    /// The released transaction waits: the clash answer.
    Wait {
        /// The lowest contested object.
        lowest: u8,
        /// How many objects are contested.
        count: usize,
        /// The highest ranked executing task that it clashes with, before the scan.
        highest: u8,
    },
}

/// A task that a scan admitted, with the clash count and the retry count it had by then.
#[derive(Clone, Copy, Debug, PartialEq, Eq)]
pub struct Admission {
    pub task: u8,
    pub clashes: u32,
    pub retries: u32,
}

/// All that comes back for an accepted event.
#[derive(Clone, Debug, PartialEq, Eq)]
pub struct Outcome {
    pub answer: Answer,
    pub admitted: Vec<Admission>,
}

impl Outcome {
    fn without_scan(answer: Answer) -> Outcome {
        Outcome {
            answer,
            admitted: Vec::new(),
        }
    }
}

/// The four states of a task.
#[derive(Clone, Copy, Debug, PartialEq, Eq)]
pub enum State {
    Absent,
    Plain,
    Waiting,
    Executing,
}

/// The rank of a present job, the same from its arrival to its finish. One that ranks higher sorts
/// earlier: by its place in the ranking, and of two equal ones the lower task number.
#[derive(Clone, Copy, Debug, PartialEq, Eq, PartialOrd, Ord)]
struct Rank {
    place: u64,
    task: u8,
}

/// A task that waits, with its transaction, its clash count and its retry count.
#[derive(Clone, Debug)]
struct Waiting {
    rank: Rank,
    transaction: Transaction,
    clashes: u32,
    retries: u32,
}

/// What is kept of a task in every state.
#[derive(Clone, Debug, Default)]
struct Job {
    last_arrival: Option<u32>,
    /// Nothing while the task is absent.
    rank: Option<Rank>,
    /// Releases accepted in the present job; 0 while the task is absent.
    releases: u8,
}

/// A session. A task is in at most one of `plain`, `waiting` and `executing`; in none it is absent.
#[derive(Clone, Debug)]
pub struct Session {
    setup: Setup,
    ranking: Ranking,
    jobs: Vec<Job>,
    plain: BTreeSet<Rank>,
    /// Sorted, the highest rank first.
    waiting: Vec<Waiting>,
    executing: BTreeMap<u8, Transaction>,
    last_tick: u32,
    accepted: u32,
}

impl Session {
    /// A fresh session of a setup that has been checked.
    pub fn new(setup: Setup) -> Session {
        let ranking = setup.ranking();
        Session::ranked(setup, ranking)
    }

    /// The same, but jobs are ranked in this way, whatever the mode.
    pub fn ranked(setup: Setup, ranking: Ranking) -> Session {
        Session {
            ranking,
            jobs: vec![Job::default(); setup.tasks.len()],
            setup,
            plain: BTreeSet::new(),
            waiting: Vec::new(),
            executing: BTreeMap::new(),
            last_tick: 0,
            accepted: 0,
        }
    }

    pub fn setup(&self) -> &Setup {
        &self.setup
    }

    pub fn last_tick(&self) -> u32 {
        self.last_tick
    }

    pub fn accepted(&self) -> u32 {
        self.accepted
    }

    pub fn last_arrival(&self, task: u8) -> Option<u32> {
        self.jobs[usize::from(task)].last_arrival
    }

    pub fn state(&self, task: u8) -> State {
        match self.jobs[usize::from(task)].rank {
            None => State::Absent,
            Some(_) if self.executing.contains_key(&task) => State::Executing,
            Some(rank) if self.plain.contains(&rank) => State::Plain,
            Some(_) => State::Waiting,
        }
    }

    /// Whether the present job has used all its transactions.
    pub fn transactions_used(&self, task: u8) -> bool {
        let task = usize::from(task);
        self.jobs[task].releases >= self.setup.tasks[task].transactions
    }

    /// The waiting tasks, the highest rank first, each with its transaction.
    pub fn waiting(&self) -> impl Iterator<Item = (u8, &Transaction)> {
        let waiting = self.waiting.iter();
        waiting.map(|waiting| (waiting.rank.task, &waiting.transaction))
    }

    /// The executing tasks, the lowest number first, each with its transaction.
    pub fn executing(&self) -> impl Iterator<Item = (u8, &Transaction)> {
        let executing = self.executing.iter();
        executing.map(|(task, transaction)| (*task, transaction))
    }

    /// Whether some task waits for a processor only: it clashes with no executing transaction.
    pub fn waits_for_room_only(&self) -> bool {
        self.waiting
            .iter()
            .any(|waiting| !self.clashes_with_executing(&waiting.transaction))
    }

    /// Takes one event. A refused event changes nothing.
    pub fn take(&mut self, event: Event) -> Result<Outcome, Refusal> {
        self.check(&event)?;
        self.last_tick = event.tick;
        self.accepted += 1;
        Ok(match event.action {
            Action::Arrive => self.arrive(event.task, event.tick),
            Action::Release(transaction) => self.release(event.task, transaction),
            Action::Commit => self.commit(event.task),
            Action::Finish => self.finish(event.task),
        })
    }

    /// Tries the refusals 1 to 7 in that order, and changes nothing.
    pub fn check(&self, event: &Event) -> Result<(), Refusal> {
        if usize::from(event.task) >= self.setup.tasks.len() {
            return Err(Refusal::TaskNotBelowN);
        }
        if event.tick < self.last_tick {
            return Err(Refusal::TickBelowLast);
        }
        if self.accepted >= MOST_ACCEPTED {
            return Err(Refusal::SessionFull);
        }
        let needed = match event.action {
            Action::Arrive => State::Absent,
            Action::Release(_) | Action::Finish => State::Plain,
            Action::Commit => State::Executing,
        };
        if self.state(event.task) != needed {
            return Err(Refusal::WrongState);
        }
        if event.action == Action::Arrive && self.arrives_too_soon(event) {
            return Err(Refusal::ArrivesTooSoon);
        }
        if needed == State::Plain && !self.has_room(self.rank(event.task)) {
            return Err(Refusal::NotOnProcessor);
        }
        let releases = matches!(event.action, Action::Release(_));
        if releases && self.transactions_used(event.task) {
            return Err(Refusal::TransactionsUsed);
        }
        Ok(())
    }

    /// Less than one period after the last arrival; the first arrival is free.
    fn arrives_too_soon(&self, event: &Event) -> bool {
        let period = self.setup.tasks[usize::from(event.task)].period;
        self.last_arrival(event.task)
            .is_some_and(|last| event.tick - last < period)
    }

    fn arrive(&mut self, task: u8, tick: u32) -> Outcome {
        let place = (self.ranking)(&self.setup, task, tick);
        let rank = Rank { place, task };
        self.plain.insert(rank);
        self.jobs[usize::from(task)] = Job {
            last_arrival: Some(tick),
            rank: Some(rank),
            releases: 0,
        };
        Outcome::without_scan(Answer::Ok)
    }

    fn release(&mut self, task: u8, transaction: Transaction) -> Outcome {
        self.plain.remove(&self.rank(task));
        self.jobs[usize::from(task)].releases += 1;
        match self.clash_answer(&transaction) {
            None => {
                self.executing.insert(task, transaction);
                Outcome::without_scan(Answer::Run)
            }
            Some(answer) => {
                self.wait(task, transaction);
                Outcome {
                    answer,
                    admitted: self.scan(),
                }
            }
        }
    }

    fn commit(&mut self, task: u8) -> Outcome {
        self.count_clashes(task);
        self.executing.remove(&task);
        self.plain.insert(self.rank(task));
        Outcome {
            answer: Answer::Ok,
            admitted: self.scan(),
        }
    }

    /// Just before a commit, with the committing task still executing: every waiting transaction
    /// that clashes with the committing one has one clash more. It has one retry more only if
    /// executing tasks plus all plain tasks plus waiting tasks ranked above it are fewer than m.
    /// The waiting ones are sorted, so that its place among them is how many rank above it.
    fn count_clashes(&mut self, committing: u8) {
        let processors = usize::from(self.setup.processors);
        let executing = self.executing.len();
        let plain = self.plain.len();
        let committing = &self.executing[&committing];
        for (waiting_above, waiting) in self.waiting.iter_mut().enumerate() {
            if waiting.transaction.clashes_with(committing) {
                waiting.clashes += 1;
                if executing + plain + waiting_above < processors {
                    waiting.retries += 1;
                }
            }
        }
    }

    fn finish(&mut self, task: u8) -> Outcome {
        self.plain.remove(&self.rank(task));
        let job = &mut self.jobs[usize::from(task)];
        job.rank = None;
        job.releases = 0;
        Outcome {
            answer: Answer::Ok,
            admitted: self.scan(),
        }
    }

    /// Puts the task among the waiting ones, in the place of its rank.
    fn wait(&mut self, task: u8, transaction: Transaction) {
        let rank = self.rank(task);
        let place = self.waiting.partition_point(|waiting| waiting.rank < rank);
        self.waiting.insert(
            place,
            Waiting {
                rank,
                transaction,
                clashes: 0,
                retries: 0,
            },
        );
    }

    /// Looks at each waiting task once, the highest rank first. One that clashes with no
    /// transaction executing at that moment, and has room at that moment, is admitted.
    fn scan(&mut self) -> Vec<Admission> {
        let mut admitted = Vec::new();
        for waiting in std::mem::take(&mut self.waiting) {
            let room = self.has_room(waiting.rank);
            if room && !self.clashes_with_executing(&waiting.transaction) {
                let task = waiting.rank.task;
                admitted.push(Admission {
                    task,
                    clashes: waiting.clashes,
                    retries: waiting.retries,
                });
                self.executing.insert(task, waiting.transaction);
            } else {
                self.waiting.push(waiting);
            }
        }
        admitted
    }

    /// A task has room if the executing tasks and the plain tasks that rank above it are fewer
    /// than the processors.
    fn has_room(&self, rank: Rank) -> bool {
        let plain_above = self.plain.range(..rank).count();
        self.executing.len() + plain_above < usize::from(self.setup.processors)
    }

    fn clashes_with_executing(&self, transaction: &Transaction) -> bool {
        self.executing
            .values()
            .any(|executing| transaction.clashes_with(executing))
    }

    /// The answer to a release that waits; nothing if the released transaction clashes with no
    /// executing one.
    fn clash_answer(&self, transaction: &Transaction) -> Option<Answer> {
        let contested = self.contested(transaction);
        Some(Answer::Wait {
            lowest: *contested.first()?,
            count: contested.len(),
            highest: self.highest_clashing(transaction)?,
        })
    }

    /// The highest ranked of the executing tasks that a transaction clashes with.
    fn highest_clashing(&self, transaction: &Transaction) -> Option<u8> {
        let clashing = self
            .executing()
            .filter(|(_, other)| transaction.clashes_with(other));
        let highest = clashing.map(|(task, _)| self.rank(task)).min()?;
        Some(highest.task)
    }

    /// The objects on which a transaction clashes with at least one executing transaction.
    fn contested(&self, transaction: &Transaction) -> BTreeSet<u8> {
        let executing = self.executing.values();
        executing
            .flat_map(|other| transaction.clashing_objects(other))
            .collect()
    }

    /// The rank of a present job.
    fn rank(&self, task: u8) -> Rank {
        let job = &self.jobs[usize::from(task)];
        job.rank.expect("only a present job is ranked")
    }
}

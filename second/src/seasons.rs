//! Seasons: lists of logs for a report, mostly of one setup. The same seed and kind always give
//! the same list.

use crate::damage::{damage_of, say_mode, setup_bytes};
use crate::log::{LIST_RELEASE, RELEASE, RELEASES};
use crate::random::{log_of_setup, season_setup, Behaviour, Random, Shape};
use crate::rules::{Setup, DEADLINE, FIXED_PRIORITY, LONGEST_PERIOD, MOST_PROCESSORS, MOST_TASKS};

/// The kinds in which every log reads well and has the same setup.
pub const GOOD: [(&str, Behaviour); 4] = [
    ("mixed", Behaviour::Mixed),
    ("contended", Behaviour::Contended),
    ("long", Behaviour::Long),
    ("flock", Behaviour::Flock),
];

/// One way in which a setup can differ. A change leaves it allowed, and may leave it as it is.
type Difference = fn(&mut Random, &mut Setup);

/// The kinds in which one log, not the first, has another setup (40).
pub const OTHER_SETUPS: [(&str, Difference); 7] = [
    ("other-m", other_processors),
    ("other-mode", other_mode),
    ("one-task-more", one_task_more),
    ("one-task-less", one_task_less),
    ("other-priority", other_priority),
    ("other-period", other_period),
    ("other-transactions", other_transactions),
];

/// The list of a seed and a kind: one of the above, or a kind of damage, which one or two of the
/// logs then have. Nothing for an unknown kind.
pub fn season(seed: u64, kind: &str) -> Option<Vec<Vec<u8>>> {
    let mut random = Random::new(seed);
    if let Some((_, behaviour)) = GOOD.iter().find(|(name, _)| *name == kind) {
        return Some(good_season(&mut random, seed, *behaviour));
    }
    if let Some((_, difference)) = OTHER_SETUPS.iter().find(|(name, _)| *name == kind) {
        return Some(other_setup(&mut random, seed, *difference));
    }
    let damage = damage_of(kind)?;
    let mut logs = good_season(&mut random, seed, Behaviour::Contended);
    let place = random.below(logs.len());
    damage(&mut random, &mut logs[place]);
    if place + 1 < logs.len() && random.percent(30) {
        damage(&mut random, &mut logs[place + 1]);
    }
    Some(logs)
}

/// Every n comes up in 128 seeds; of each two seeds in a row, one has few tasks; of each eight,
/// four have mode 1.
fn setup_of_seed(random: &mut Random, seed: u64) -> Setup {
    let few = random.between(2, 6) as u8;
    let tasks = match seed % 2 {
        0 => few,
        _ => (1 + seed / 2 % 64) as u8,
    };
    let processors = random.between(1, u32::from(MOST_PROCESSORS)) as u8;
    let processors = match random.below(2) {
        0 => processors.min(3),
        _ => processors,
    };
    let mode = (seed / 4 % 2) as u8;
    season_setup(random, Shape::new(processors, tasks, 0).in_mode(mode))
}

fn good_season(random: &mut Random, seed: u64, behaviour: Behaviour) -> Vec<Vec<u8>> {
    let setup = setup_of_seed(random, seed);
    let logs = random.between(1, 6);
    let release_kinds = random.pick(&RELEASE_KINDS);
    (0..logs)
        .map(|_| some_log(random, &setup, behaviour, release_kinds))
        .collect()
}

/// The kinds of release that the logs of one list have, each log one of them.
const RELEASE_KINDS: [&[u16]; 5] = [
    &[RELEASE],
    &[RELEASE],
    &[LIST_RELEASE],
    &RELEASES,
    &RELEASES,
];

/// A log of a setup, with releases of one of these kinds. One of mode 0 may say it in kind 7, for it
/// is the same setup.
fn some_log(
    random: &mut Random,
    setup: &Setup,
    behaviour: Behaviour,
    release_kinds: &[u16],
) -> Vec<u8> {
    let events = random.between(0, 150);
    let release_kind = random.pick(release_kinds);
    let mut log = log_of_setup(random, setup, events, behaviour, release_kind);
    if random.percent(30) {
        say_mode(&mut log);
    }
    log
}

/// A good season, but one log has another setup. In one of three lists the same log is cut too.
fn other_setup(random: &mut Random, seed: u64, difference: Difference) -> Vec<Vec<u8>> {
    let setup = setup_of_seed(random, seed);
    let mut other = setup.clone();
    while other == setup {
        difference(random, &mut other);
    }
    let mut other = some_log(random, &other, Behaviour::Contended, &RELEASES);
    if random.below(3) == 0 {
        let first_event = setup_bytes(&other);
        other.truncate(first_event + random.below(other.len() - first_event));
    }
    let mut logs: Vec<Vec<u8>> = (0..random.between(1, 4))
        .map(|_| some_log(random, &setup, Behaviour::Contended, &RELEASES))
        .collect();
    let place = 1 + random.below(logs.len());
    logs.insert(place, other);
    logs
}

fn other_processors(random: &mut Random, setup: &mut Setup) {
    setup.processors = random.between(1, u32::from(MOST_PROCESSORS)) as u8;
}

fn other_mode(_: &mut Random, setup: &mut Setup) {
    setup.mode = match setup.mode {
        FIXED_PRIORITY => DEADLINE,
        _ => FIXED_PRIORITY,
    };
}

/// A task more; where there are as many as allowed, a task less.
fn one_task_more(random: &mut Random, setup: &mut Setup) {
    if setup.tasks.len() == MOST_TASKS {
        setup.tasks.pop();
    } else {
        let task = setup.tasks[random.below(setup.tasks.len())].clone();
        setup.tasks.push(task);
    }
}

/// A task less; where there is only one, a task more.
fn one_task_less(random: &mut Random, setup: &mut Setup) {
    if setup.tasks.len() == 1 {
        one_task_more(random, setup);
    } else {
        setup.tasks.pop();
    }
}

/// One bit of one task's priority; none if the result would not be allowed.
fn other_priority(random: &mut Random, setup: &mut Setup) {
    let task = random.below(setup.tasks.len());
    let priority = setup.tasks[task].priority ^ 1 << random.below(16);
    if priority > 0 {
        setup.tasks[task].priority = priority;
    }
}

/// One bit of one task's period; none if the result would not be allowed.
fn other_period(random: &mut Random, setup: &mut Setup) {
    let task = random.below(setup.tasks.len());
    let period = setup.tasks[task].period ^ 1 << random.below(27);
    if (1..=LONGEST_PERIOD).contains(&period) {
        setup.tasks[task].period = period;
    }
}

/// One bit of one task's transactions.
fn other_transactions(random: &mut Random, setup: &mut Setup) {
    let task = random.below(setup.tasks.len());
    setup.tasks[task].transactions ^= 1 << random.below(8);
}

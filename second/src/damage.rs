//! Logs made bad on purpose, each kind of damage by its name.

// Every damage has the same form, also one that needs no more than a slice.
#![allow(clippy::ptr_arg)]

use crate::log::{before_tasks, write_record, HEAD, LIST_RELEASE, MODE_SETUP, SETUP, TASK};
use crate::random::{busy_log, deferred_log, edges_log, flock_log, full_log, good_log};
use crate::random::{Random, Shape};
use crate::release_damage::RELEASE_DAMAGES;
use crate::rules::FIXED_PRIORITY;

/// One kind of damage: it changes the bytes of a good log.
pub type Damage = fn(&mut Random, &mut Vec<u8>);

/// Where the mode lies in a log whose setup is of kind 7.
const MODE: usize = HEAD + 2;

/// Every kind of damage that any log can have, with the refusal it mostly leads to.
pub const DAMAGES: [(&str, Damage); 24] = [
    ("cut", cut),                        // 20 or 27
    ("cut-record", cut_on_boundary),     // 27
    ("no-end", drop_end),                // 27
    ("empty", leave_almost_nothing),     // 27 or 20
    ("flip", flip_bits),                 // any
    ("length", change_length),           // 20 or 22
    ("kind", unknown_kind),              // 21
    ("other-kind", known_kind),          // 22 or 24
    ("unknown-and-cut", unknown_at_cut), // 21, before 20
    ("length-and-cut", length_at_cut),   // 20, before 22
    ("short-setup", short_setup),        // 22
    ("spare", set_spare),                // 23
    ("big-n-spare", big_setup_spare),    // 23, before 11
    ("bad-m", bad_processors),           // 10
    ("bad-n", bad_tasks),                // 11
    ("bad-mode", bad_mode),              // 14
    ("bad-priority", bad_priority),      // 12
    ("bad-period", bad_period),          // 13
    ("bad-task", bad_tasks_both),        // 12 or 13
    ("setup-twice", second_setup),       // 24
    ("no-setup", drop_setup),            // 24
    ("end-count", wrong_count),          // 25
    ("after-end", bytes_after_end),      // 26, or 25 before it
    ("twice", two_damages),              // any
];

/// Every kind of damage, those of releases included.
pub fn damages() -> impl Iterator<Item = (&'static str, Damage)> {
    DAMAGES.into_iter().chain(RELEASE_DAMAGES)
}

/// A log of a kind: `good`, `kind-7`, which says mode 0 too, `edges`, `busy`, `full`, `flock`,
/// `deferred`, or a kind of damage. Nothing for an unknown kind.
pub fn make(seed: u64, kind: &str, shape: Shape) -> Option<Vec<u8>> {
    let mut random = Random::new(seed);
    match kind {
        "good" => return Some(good_log(&mut random, shape)),
        "kind-7" => {
            let mut log = good_log(&mut random, shape);
            say_mode(&mut log);
            return Some(log);
        }
        "edges" => return Some(edges_log(&mut random, shape)),
        "busy" => return Some(busy_log(&mut random, shape)),
        "full" => return Some(full_log(&mut random, shape)),
        "flock" => return Some(flock_log(&mut random, shape)),
        "deferred" => return Some(deferred_log(&mut random, shape)),
        _ => {}
    }
    let damage = damage_of(kind)?;
    let mut log = good_log(&mut random, shape);
    damage(&mut random, &mut log);
    Some(log)
}

/// The damage of a kind.
pub fn damage_of(kind: &str) -> Option<Damage> {
    let (_, damage) = damages().find(|(name, _)| *name == kind)?;
    Some(damage)
}

/// Where each record of a log starts, as far as its lengths can be followed.
pub fn record_starts(log: &[u8]) -> Vec<usize> {
    let mut starts = Vec::new();
    let mut place = 0;
    while place + HEAD <= log.len() {
        starts.push(place);
        place += HEAD + usize::from(u16::from_le_bytes([log[place], log[place + 1]]));
    }
    starts
}

/// The kind of the record that starts there.
pub fn kind_at(log: &[u8], start: usize) -> u16 {
    u16::from_le_bytes([log[start + 2], log[start + 3]])
}

fn some_record(random: &mut Random, log: &[u8]) -> usize {
    let starts = record_starts(log);
    // The first and the last record come up as often as all the others.
    match random.below(4) {
        0 => starts[0],
        1 => starts[starts.len() - 1],
        _ => random.pick(&starts),
    }
}

pub fn last_record(log: &[u8]) -> usize {
    record_starts(log).last().copied().unwrap_or(0)
}

/// The kind of the setup that this log begins with.
fn setup_kind(log: &[u8]) -> u16 {
    kind_at(log, 0)
}

/// The body of that setup up to its tasks.
fn setup_start(log: &[u8]) -> &[u8] {
    &log[HEAD..HEAD + before_tasks(setup_kind(log))]
}

/// How many bytes that setup has, its head included.
pub fn setup_bytes(log: &[u8]) -> usize {
    HEAD + setup_start(log).len() + TASK * usize::from(log[HEAD + 1])
}

/// Makes a setup of kind 1 one of kind 7 that says mode 0. One of kind 7 stays as it is.
pub fn say_mode(log: &mut Vec<u8>) {
    if setup_kind(log) == SETUP {
        let mut body = log[HEAD..setup_bytes(log)].to_vec();
        body.insert(MODE - HEAD, FIXED_PRIORITY);
        replace_setup(log, MODE_SETUP, &body);
    }
}

/// Where the setup's task lies: one of the n tasks of a good log.
fn some_task(random: &mut Random, log: &[u8]) -> usize {
    HEAD + setup_start(log).len() + TASK * random.below(usize::from(log[HEAD + 1]))
}

pub fn put(log: &mut [u8], place: usize, bytes: &[u8]) {
    log[place..place + bytes.len()].copy_from_slice(bytes);
}

fn cut(random: &mut Random, log: &mut Vec<u8>) {
    log.truncate(random.below(log.len()));
}

fn cut_on_boundary(random: &mut Random, log: &mut Vec<u8>) {
    log.truncate(random.pick(&record_starts(log)));
}

fn drop_end(_: &mut Random, log: &mut Vec<u8>) {
    log.truncate(last_record(log));
}

fn leave_almost_nothing(random: &mut Random, log: &mut Vec<u8>) {
    log.truncate(random.below(8));
}

fn flip_bits(random: &mut Random, log: &mut Vec<u8>) {
    for _ in 0..random.between(1, 3) {
        let place = random.below(log.len());
        log[place] ^= 1 << random.below(8);
    }
}

fn change_length(random: &mut Random, log: &mut Vec<u8>) {
    let start = some_record(random, log);
    let length = u16::from_le_bytes([log[start], log[start + 1]]);
    let any = random.between(0, 65_535) as u16;
    let near = [length + 1, length - 1, length + 8, length - 2];
    let length = match random.below(3) {
        0 => random.pick(&[0, 1, 2, 4, 5, 69, 65_535, any]),
        _ => random.pick(&near),
    };
    put(log, start, &length.to_le_bytes());
}

fn unknown_kind(random: &mut Random, log: &mut Vec<u8>) {
    let start = some_record(random, log);
    let kind: u16 = random.pick(&[0, 9, 10, 255, 256, 258, 264, 1024, 65_535]);
    put(log, start + 2, &kind.to_le_bytes());
}

fn known_kind(random: &mut Random, log: &mut Vec<u8>) {
    let start = some_record(random, log);
    let kind = random.between(u32::from(SETUP), u32::from(LIST_RELEASE)) as u16;
    put(log, start + 2, &kind.to_le_bytes());
}

/// An unknown kind whose body is cut off too.
fn unknown_at_cut(random: &mut Random, log: &mut Vec<u8>) {
    let start = some_record(random, log);
    log.truncate(start + HEAD + random.below(4));
    put(
        log,
        start + 2,
        &random.pick(&[0, 9, 65_535u16]).to_le_bytes(),
    );
}

/// A length that only a release by lists can have, with a body that is cut off too.
fn length_at_cut(random: &mut Random, log: &mut Vec<u8>) {
    let start = some_record(random, log);
    log.truncate(start + HEAD + random.below(4));
    put(
        log,
        start,
        &random.pick(&[6, 70, 300, 65_535u16]).to_le_bytes(),
    );
}

/// A setup with a body too short for m, n and the mode, or for the tasks it names.
fn short_setup(random: &mut Random, log: &mut Vec<u8>) {
    let kind = setup_kind(log);
    let start = before_tasks(kind);
    let length = random.pick(&[0, 1, 2, start, start + TASK - 1]);
    let body = log[HEAD..HEAD + length].to_vec();
    log.clear();
    write_record(log, kind, &body);
}

/// A spare byte; sometimes with a bad m too, or a bad mode where the setup says it.
fn set_spare(random: &mut Random, log: &mut Vec<u8>) {
    let task = some_task(random, log);
    log[task + 7] = random.between(1, 255) as u8;
    if random.percent(30) {
        log[HEAD] = 0;
    } else if setup_kind(log) == MODE_SETUP && random.percent(30) {
        log[MODE] = 2;
    }
}

/// Far too many tasks, with the right length for them, and most times a spare byte set.
fn big_setup_spare(random: &mut Random, log: &mut Vec<u8>) {
    let tasks = random.pick(&[65, 128, 200, 255]);
    let mut body = setup_start(log).to_vec();
    body[1] = tasks as u8;
    let first_task = body.len();
    for _ in 0..tasks {
        body.extend([1, 0, 1, 0, 0, 0, 1, 0]);
    }
    if random.percent(80) {
        body[first_task + TASK * random.below(tasks) + 7] = 1;
    }
    let kind = setup_kind(log);
    replace_setup(log, kind, &body);
}

fn replace_setup(log: &mut Vec<u8>, kind: u16, body: &[u8]) {
    let mut changed = Vec::new();
    write_record(&mut changed, kind, body);
    log.splice(..setup_bytes(log), changed);
}

fn bad_processors(random: &mut Random, log: &mut Vec<u8>) {
    log[HEAD] = random.pick(&[0, 17, 18, 255]);
    if random.percent(30) {
        bad_priority(random, log);
    }
}

/// A number of tasks that is not allowed, with the right length or without.
fn bad_tasks(random: &mut Random, log: &mut Vec<u8>) {
    let tasks: u8 = random.pick(&[0, 65, 66, 200]);
    if random.percent(20) {
        log[HEAD + 1] = tasks;
        return;
    }
    let mut body = setup_start(log).to_vec();
    body[1] = tasks;
    for _ in 0..tasks {
        // Priority 0 here: 11 is tried before 12.
        body.extend([0; TASK]);
    }
    let kind = setup_kind(log);
    replace_setup(log, kind, &body);
    if random.percent(20) {
        log[HEAD] = 17;
    }
}

/// A mode that nobody knows, in some logs with another fault, tried before it or after it.
fn bad_mode(random: &mut Random, log: &mut Vec<u8>) {
    say_mode(log);
    log[MODE] = random.pick(&[2, 3, 128, 255]);
    match random.below(8) {
        0 => bad_processors(random, log),
        1 => bad_tasks(random, log),
        2 => bad_tasks_both(random, log),
        3 => set_spare(random, log),
        _ => {}
    }
}

fn bad_priority(random: &mut Random, log: &mut Vec<u8>) {
    let task = some_task(random, log);
    put(log, task, &[0, 0]);
}

fn bad_period(random: &mut Random, log: &mut Vec<u8>) {
    let task = some_task(random, log);
    let period: u32 = random.pick(&[0, 86_400_001, u32::MAX]);
    put(log, task + 2, &period.to_le_bytes());
}

/// A bad priority and a bad period, in one task or in two.
fn bad_tasks_both(random: &mut Random, log: &mut Vec<u8>) {
    bad_priority(random, log);
    bad_period(random, log);
}

/// A second setup somewhere, of the same kind or of kind 7; by itself it may be bad too, which is
/// tried first.
fn second_setup(random: &mut Random, log: &mut Vec<u8>) {
    let starts = record_starts(log);
    let mut setup = log[..starts[1]].to_vec();
    match random.below(8) {
        0 => bad_priority(random, &mut setup),
        1 => set_spare(random, &mut setup),
        2 => setup[HEAD] = 0,
        3 => bad_mode(random, &mut setup),
        4 => say_mode(&mut setup),
        _ => {}
    }
    let place = random.pick(&starts);
    log.splice(place..place, setup);
}

fn drop_setup(_: &mut Random, log: &mut Vec<u8>) {
    let first_event = record_starts(log)[1];
    log.drain(..first_event);
}

pub fn wrong_count(random: &mut Random, log: &mut Vec<u8>) {
    let count = last_record(log) + HEAD;
    let byte = count + random.below(4);
    log[byte] ^= 1 << random.below(8);
}

pub fn bytes_after_end(random: &mut Random, log: &mut Vec<u8>) {
    if random.percent(25) {
        wrong_count(random, log);
    }
    let end = last_record(log);
    match random.below(3) {
        0 => log.push(0),
        1 => log.extend_from_within(end..),
        _ => log.extend_from_within(..),
    }
}

fn two_damages(random: &mut Random, log: &mut Vec<u8>) {
    wrong_count(random, log);
    flip_bits(random, log);
    if random.percent(50) {
        cut(random, log);
    }
}

//! Logs that go bad by their first record, which is no good setup, or by a second one, each with
//! the number that it must be refused with.

use crate::log::{before_tasks, write_record};
use crate::log::{ARRIVE, COMMIT, END, FINISH, LIST_RELEASE, MODE_SETUP, RELEASE, SETUP, TASK};

/// A bad beginning of a log.
pub struct BadRecord {
    pub what: &'static str,
    pub number: u8,
    pub bytes: Vec<u8>,
}

/// The body of 01's setup.
pub const BODY: [u8; 26] = [
    2, 3, 10, 0, 100, 0, 0, 0, 2, 0, 30, 0, 50, 0, 0, 0, 1, 0, 20, 0, 80, 0, 0, 0, 1, 0,
];

/// One task that is allowed, as a setup has it.
const GOOD_TASK: [u8; TASK] = [1, 0, 1, 0, 0, 0, 1, 0];

/// Where the parts of a task stand in it.
const PRIORITY: usize = 0;
const PERIOD: usize = 2;
const SPARE: usize = 7;

pub fn record(kind: u16, body: &[u8]) -> Vec<u8> {
    let mut bytes = Vec::new();
    write_record(&mut bytes, kind, body);
    bytes
}

/// A record whose head says another length than its body has.
pub fn record_of_length(length: u16, kind: u16, body: &[u8]) -> Vec<u8> {
    let mut bytes = record(kind, body);
    bytes[..2].copy_from_slice(&length.to_le_bytes());
    bytes
}

/// 01's setup with some bytes of its body changed: each change is a place, and what stands there.
fn changed(changes: &[(usize, &[u8])]) -> Vec<u8> {
    record(SETUP, &changed_body(changes))
}

fn changed_body(changes: &[(usize, &[u8])]) -> [u8; 26] {
    let mut body = BODY;
    for (place, bytes) in changes {
        body[*place..place + bytes.len()].copy_from_slice(bytes);
    }
    body
}

/// The same in kind 7, with this mode behind m and n.
fn changed_in_mode(mode: u8, changes: &[(usize, &[u8])]) -> Vec<u8> {
    record(MODE_SETUP, &with_mode(mode, &changed_body(changes)))
}

/// The body of a setup of kind 1 as one of kind 7.
fn with_mode(mode: u8, body: &[u8]) -> Vec<u8> {
    let mut body = body.to_vec();
    body.insert(before_tasks(SETUP), mode);
    body
}

/// Where this part of a task stands in the body of a setup of kind 1.
fn place(task: usize, part: usize) -> usize {
    before_tasks(SETUP) + TASK * task + part
}

/// A setup of n tasks like this one, on m processors.
fn setup(m: u8, n: u8, task: [u8; TASK]) -> Vec<u8> {
    record(SETUP, &setup_body(m, n, task))
}

fn setup_body(m: u8, n: u8, task: [u8; TASK]) -> Vec<u8> {
    let mut body = vec![m, n];
    for _ in 0..n {
        body.extend(task);
    }
    body
}

/// All that go bad by their first record. Where two numbers could be given, the words name both,
/// the first one first.
pub fn first_records() -> Vec<BadRecord> {
    let parts = [
        kinds(),
        cut_off(),
        lengths(),
        spare_bytes(),
        values(),
        bad_tasks(),
        places(),
    ];
    let mut records: Vec<BadRecord> = parts.into_iter().flat_map(named).collect();
    records.extend(mode_records());
    records
}

/// Of these, the ones that bring in kind 7.
pub fn mode_records() -> Vec<BadRecord> {
    let parts = [mode_lengths(), modes(), mode_values()];
    parts.into_iter().flat_map(named).collect()
}

/// All that go bad by a second setup.
pub fn second_setups() -> Vec<BadRecord> {
    named(seconds()).collect()
}

pub fn named(part: Part) -> impl Iterator<Item = BadRecord> {
    part.into_iter().map(|(what, number, bytes)| BadRecord {
        what,
        number,
        bytes,
    })
}

pub type Part = Vec<(&'static str, u8, Vec<u8>)>;

fn kinds() -> Part {
    vec![
        ("kind 0", 21, record(0, &BODY)),
        ("kind 9", 21, record(9, &BODY)),
        ("kind 257", 21, record(257, &BODY)),
        ("kind 263", 21, record(263, &with_mode(1, &BODY))),
        ("kind 264", 21, record(264, &[0; 9])),
        ("kind 65,535", 21, record(65_535, &BODY)),
        (
            "an unknown kind, and no body",
            21,
            record_of_length(26, 9, &[]),
        ),
        ("kind 0 and nothing else", 21, vec![0, 0, 0, 0]),
    ]
}

fn cut_off() -> Part {
    vec![
        (
            "a length far too large, cut off",
            20,
            record_of_length(65_535, SETUP, &BODY),
        ),
        (
            "a byte too many in the length, cut off",
            20,
            record_of_length(27, SETUP, &BODY),
        ),
        (
            "an event with a wrong length, cut off",
            20,
            record_of_length(6, ARRIVE, &[0; 5]),
        ),
        ("an end cut off", 20, record_of_length(4, END, &[0; 3])),
    ]
}

fn lengths() -> Part {
    vec![
        ("a setup without a body", 22, record(SETUP, &[])),
        ("a setup with one byte", 22, record(SETUP, &BODY[..1])),
        ("a setup with a byte less", 22, record(SETUP, &BODY[..25])),
        (
            "a setup with a byte more",
            22,
            record(SETUP, &[&BODY[..], &[0]].concat()),
        ),
        (
            "a setup with a task less than n",
            22,
            record(SETUP, &BODY[..18]),
        ),
        ("a setup with n 0 and tasks", 22, changed(&[(1, &[0])])),
        (
            "a setup with a wrong length and a spare byte",
            22,
            changed(&[(1, &[4]), (9, &[1])]),
        ),
        (
            "an arrival with 4 bytes, first",
            22,
            record(ARRIVE, &[0; 4]),
        ),
        (
            "a release with 5 bytes, first",
            22,
            record(RELEASE, &[0; 5]),
        ),
        (
            "a commit with 69 bytes, first",
            22,
            record(COMMIT, &[0; 69]),
        ),
        (
            "a release by lists with 8 bytes, first",
            22,
            record(LIST_RELEASE, &[0; 8]),
        ),
        (
            "a setup as a release by lists",
            22,
            record(LIST_RELEASE, &BODY),
        ),
        ("an end with 5 bytes, first", 22, record(END, &[0; 5])),
    ]
}

fn spare_bytes() -> Part {
    let mut with_spare = GOOD_TASK;
    with_spare[SPARE] = 1;
    vec![
        (
            "a spare byte of the first task",
            23,
            changed(&[(place(0, SPARE), &[1])]),
        ),
        (
            "a spare byte of the last task",
            23,
            changed(&[(place(2, SPARE), &[255])]),
        ),
        (
            "a spare byte and m 0",
            23,
            changed(&[(0, &[0]), (place(1, SPARE), &[1])]),
        ),
        ("spare bytes and n 65", 23, setup(2, 65, with_spare)),
        (
            "a spare byte and a priority before it",
            23,
            changed(&[(place(0, PRIORITY), &[0, 0]), (place(2, SPARE), &[1])]),
        ),
    ]
}

fn values() -> Part {
    let mut no_priority = GOOD_TASK;
    no_priority[PRIORITY] = 0;
    vec![
        ("m 0", 10, changed(&[(0, &[0])])),
        ("m 17", 10, changed(&[(0, &[17])])),
        (
            "m 255 and a priority",
            10,
            changed(&[(0, &[255]), (place(0, PRIORITY), &[0, 0])]),
        ),
        ("m 0 and n 0", 10, setup(0, 0, GOOD_TASK)),
        ("n 0", 11, setup(2, 0, GOOD_TASK)),
        ("n 65", 11, setup(2, 65, GOOD_TASK)),
        ("n 255 and priorities", 11, setup(2, 255, no_priority)),
    ]
}

/// The lowest bad task decides, and in one task the priority.
fn bad_tasks() -> Part {
    let too_long = 86_400_001u32.to_le_bytes();
    let no_priority = |task| (place(task, PRIORITY), &[0u8, 0][..]);
    let no_period = |task| (place(task, PERIOD), &[0u8; 4][..]);
    let long_period = |task| (place(task, PERIOD), &too_long[..]);
    vec![
        ("priority 0, first task", 12, changed(&[no_priority(0)])),
        ("priority 0, last task", 12, changed(&[no_priority(2)])),
        (
            "priority 0 and period 0",
            12,
            changed(&[no_priority(1), no_period(1)]),
        ),
        (
            "priority 0, a later period",
            12,
            changed(&[no_priority(0), no_period(1)]),
        ),
        ("period 0, first task", 13, changed(&[no_period(0)])),
        ("a long period, last task", 13, changed(&[long_period(2)])),
        (
            "a period of 4,294,967,295",
            13,
            changed(&[(place(1, PERIOD), &[255; 4])]),
        ),
        (
            "period 0, a later priority",
            13,
            changed(&[no_period(0), no_priority(1)]),
        ),
        (
            "a long period, a later priority",
            13,
            changed(&[long_period(1), no_priority(2)]),
        ),
    ]
}

fn places() -> Part {
    let end = record(END, &[0; 4]);
    let good_setup = record(SETUP, &BODY);
    vec![
        ("an arrival first", 24, record(ARRIVE, &[0; 5])),
        ("a release first", 24, record(RELEASE, &[255; 69])),
        (
            "a release by lists first",
            24,
            record(LIST_RELEASE, &[0; 9]),
        ),
        (
            "a release by lists that does not rise, first",
            29,
            record(LIST_RELEASE, &[0, 0, 0, 0, 0, 2, 0, 0, 0, 7, 7]),
        ),
        ("a commit first", 24, record(COMMIT, &[0; 5])),
        ("a finish first", 24, record(FINISH, &[255; 5])),
        ("an end first", 24, end.clone()),
        (
            "an end first, with a wrong count",
            24,
            record(END, &[9, 0, 0, 0]),
        ),
        (
            "an end first, and a setup after it",
            24,
            [end, good_setup].concat(),
        ),
    ]
}

fn mode_lengths() -> Part {
    let body = with_mode(1, &BODY);
    let bad = with_mode(2, &changed_body(&[(place(0, SPARE), &[1])]));
    vec![
        ("kind 7 without a body", 22, record(MODE_SETUP, &[])),
        ("kind 7 with one byte", 22, record(MODE_SETUP, &body[..1])),
        ("kind 7 with m and n", 22, record(MODE_SETUP, &body[..2])),
        ("kind 7 with m and n 0", 22, record(MODE_SETUP, &[2, 0])),
        ("kind 7 without tasks", 22, record(MODE_SETUP, &body[..3])),
        ("kind 7 without a mode", 22, record(MODE_SETUP, &BODY)),
        (
            "kind 7 with a byte more",
            22,
            record(MODE_SETUP, &[&body[..], &[0]].concat()),
        ),
        (
            "kind 7 with a wrong length, a spare byte and mode 2",
            22,
            record(MODE_SETUP, &bad[..26]),
        ),
        ("kind 1 with a mode", 22, record(SETUP, &body)),
        (
            "kind 7 with a byte too many in the length, cut off",
            20,
            record_of_length(28, MODE_SETUP, &body),
        ),
    ]
}

fn modes() -> Part {
    let no_tasks = |mode| record(MODE_SETUP, &[2, 0, mode]);
    let many_tasks = with_mode(255, &setup_body(2, 65, GOOD_TASK));
    let priority = (place(0, PRIORITY), &[0u8, 0][..]);
    let period = (place(0, PERIOD), &[0u8; 4][..]);
    let spare = (place(2, SPARE), &[1u8][..]);
    vec![
        ("mode 2", 14, changed_in_mode(2, &[])),
        ("mode 255", 14, changed_in_mode(255, &[])),
        ("mode 2 and priority 0", 14, changed_in_mode(2, &[priority])),
        ("mode 255 and period 0", 14, changed_in_mode(255, &[period])),
        ("m 0 and mode 2", 10, changed_in_mode(2, &[(0, &[0])])),
        ("n 0 and mode 2", 11, no_tasks(2)),
        ("n 65 and mode 255", 11, record(MODE_SETUP, &many_tasks)),
        ("a spare byte and mode 2", 23, changed_in_mode(2, &[spare])),
    ]
}

/// What kind 1 is refused for, in kind 7.
fn mode_values() -> Part {
    let no_priority = |task| (place(task, PRIORITY), &[0u8, 0][..]);
    let no_period = |task| (place(task, PERIOD), &[0u8; 4][..]);
    let spare = (place(1, SPARE), &[1u8][..]);
    let m = (0, &[17u8][..]);
    vec![
        ("m 17 in kind 7", 10, changed_in_mode(1, &[m])),
        ("n 0 in kind 7", 11, record(MODE_SETUP, &[2, 0, 1])),
        (
            "priority 0 in mode 1",
            12,
            changed_in_mode(1, &[no_priority(2)]),
        ),
        (
            "period 0, a later priority, in mode 0",
            13,
            changed_in_mode(0, &[no_period(1), no_priority(2)]),
        ),
        ("a spare byte in kind 7", 23, changed_in_mode(0, &[spare])),
    ]
}

fn seconds() -> Part {
    let kind_1 = record(SETUP, &BODY);
    let kind_7 = changed_in_mode(1, &[]);
    let after = |first: &[u8], second: &[u8]| [first, second].concat();
    vec![
        ("kind 1 behind kind 1", 24, after(&kind_1, &kind_1)),
        ("kind 7 behind kind 1", 24, after(&kind_1, &kind_7)),
        ("kind 1 behind kind 7", 24, after(&kind_7, &kind_1)),
        ("kind 7 behind kind 7", 24, after(&kind_7, &kind_7)),
        (
            "mode 2 behind kind 1",
            14,
            after(&kind_1, &changed_in_mode(2, &[])),
        ),
        (
            "a wrong length behind kind 7",
            22,
            after(&kind_7, &record(MODE_SETUP, &BODY)),
        ),
        (
            "kind 9 behind kind 7",
            21,
            after(&kind_7, &record(9, &BODY)),
        ),
    ]
}

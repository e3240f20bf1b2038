//! Logs that go bad by a release by lists, or by a release of another kind than the one before it,
//! each with the number that it must be refused with.

use crate::first_records::{named, record, record_of_length, BadRecord, Part, BODY};
use crate::log::{ARRIVE, END, LIST_RELEASE, RELEASE, SETUP};

/// All of them. Where two numbers could be given, the words name both, the first one first.
pub fn release_records() -> Vec<BadRecord> {
    let parts = [
        kinds(),
        cut_off(),
        lengths(),
        lists_that_do_not_rise(),
        mixed_kinds(),
        ends(),
    ];
    parts.into_iter().flat_map(named).collect()
}

/// A release by lists at tick 7 of task 1, with the counts and the objects as they are given.
fn lists(reads: u16, writes: u16, objects: &[u8]) -> Vec<u8> {
    record(LIST_RELEASE, &lists_body(reads, writes, objects))
}

fn lists_body(reads: u16, writes: u16, objects: &[u8]) -> Vec<u8> {
    let (reads, writes) = (reads.to_le_bytes(), writes.to_le_bytes());
    [&[7, 0, 0, 0, 1][..], &reads, &writes, objects].concat()
}

/// A release of kind 3 at tick 7 of this task, which reads and writes every object.
fn sets(task: u8) -> Vec<u8> {
    record(RELEASE, &[&[7, 0, 0, 0, task][..], &[255; 64]].concat())
}

/// 01's setup, an arrival, and then these bytes.
fn behind_arrival(bytes: &[&[u8]]) -> Vec<u8> {
    let setup = record(SETUP, &BODY);
    let arrival = record(ARRIVE, &[0, 0, 0, 0, 1]);
    [&[&setup[..], &arrival], bytes].concat().concat()
}

/// The same with an end that counts so many events.
fn with_end(bytes: &[&[u8]], events: u8) -> Vec<u8> {
    let end = record(END, &[events, 0, 0, 0]);
    [behind_arrival(bytes), end].concat()
}

/// Such a log with one release by lists, good but for what is wrong with that.
fn one(release: Vec<u8>) -> Vec<u8> {
    with_end(&[&release], 2)
}

/// Such a log with two releases.
fn two(first: Vec<u8>, second: Vec<u8>) -> Vec<u8> {
    with_end(&[&first, &second], 3)
}

fn kinds() -> Part {
    vec![
        (
            "kind 9 behind kind 8",
            21,
            two(lists(0, 0, &[]), record(9, &[0; 9])),
        ),
        (
            "kind 0 with the body of kind 8",
            21,
            one(record(0, &[0; 9])),
        ),
        (
            "kind 264 with the body of kind 8",
            21,
            one(record(264, &[0; 9])),
        ),
        (
            "kind 2,048 with the body of kind 8",
            21,
            one(record(2048, &[0; 9])),
        ),
    ]
}

fn cut_off() -> Part {
    let body = lists_body(1, 2, &[9, 3, 4]);
    let cut =
        |length: usize| behind_arrival(&[&record_of_length(12, LIST_RELEASE, &body[..length])]);
    let falling = record_of_length(12, LIST_RELEASE, &lists_body(2, 1, &[9, 3]));
    vec![
        ("kind 8 without its body", 20, cut(0)),
        ("kind 8 cut off in its tick", 20, cut(3)),
        ("kind 8 cut off in its counts", 20, cut(8)),
        ("kind 8 cut off before its objects", 20, cut(9)),
        ("kind 8 cut off before its last object", 20, cut(11)),
        (
            "kind 8 cut off behind a falling pair",
            20,
            behind_arrival(&[&falling]),
        ),
    ]
}

/// The length is 9 plus both counts.
fn lengths() -> Part {
    vec![
        ("kind 8 of no byte", 22, one(record(LIST_RELEASE, &[]))),
        (
            "kind 8 with the body of an arrival",
            22,
            one(record(LIST_RELEASE, &[0; 5])),
        ),
        ("kind 8 of 8 bytes", 22, one(record(LIST_RELEASE, &[0; 8]))),
        ("kind 8 of 9 bytes and 1 read", 22, one(lists(1, 0, &[]))),
        ("kind 8 of 9 bytes and 1 write", 22, one(lists(0, 1, &[]))),
        (
            "kind 8 of 10 bytes and no object",
            22,
            one(lists(0, 0, &[4])),
        ),
        (
            "kind 8 with an object too few",
            22,
            one(lists(2, 1, &[4, 5])),
        ),
        (
            "kind 8 with an object too many",
            22,
            one(lists(1, 1, &[4, 5, 6])),
        ),
        ("kind 8 with the reads alone", 22, one(lists(2, 2, &[4, 5]))),
        ("kind 8 with 256 reads for 1", 22, one(lists(256, 0, &[4]))),
        ("kind 8 with 256 writes for 1", 22, one(lists(0, 256, &[4]))),
        (
            "counts that are 0 in 16 bits",
            22,
            one(lists(32_768, 32_768, &[])),
        ),
        (
            "counts that are 1 in 16 bits",
            22,
            one(lists(65_535, 2, &[4])),
        ),
        (
            "a length that is 9 in 16 bits",
            22,
            one(lists(65_535, 1, &[])),
        ),
        ("both counts 65,535", 22, one(lists(65_535, 65_535, &[]))),
        (
            "kind 8 of 69 bytes and no object",
            22,
            one(record(LIST_RELEASE, &[0; 69])),
        ),
        (
            "kind 3 with the body of kind 8",
            22,
            one(record(RELEASE, &lists_body(1, 1, &[4, 7]))),
        ),
        (
            "a wrong length and a falling pair",
            22,
            one(lists(3, 0, &[5, 4])),
        ),
        (
            "a wrong length and a level pair",
            22,
            one(lists(0, 2, &[4, 4, 5])),
        ),
        (
            "a wrong length behind kind 3, another kind",
            22,
            two(sets(1), lists(1, 0, &[])),
        ),
    ]
}

/// Each list rises strictly by itself.
fn lists_that_do_not_rise() -> Part {
    let all: Vec<u8> = (0..=255).collect();
    let full_and = |object: u8| [&all[..], &[object]].concat();
    let mut late = all.clone();
    late.swap(254, 255);
    let mut early = all.clone();
    early.swap(0, 1);
    let both = [&all[..], &late].concat();
    let cycle: Vec<u8> = all.iter().copied().cycle().take(65_526).collect();
    vec![
        ("reads 4 4", 29, one(lists(2, 0, &[4, 4]))),
        ("reads 5 4", 29, one(lists(2, 0, &[5, 4]))),
        ("writes 4 4", 29, one(lists(0, 2, &[4, 4]))),
        ("writes 5 4", 29, one(lists(0, 2, &[5, 4]))),
        ("reads 0 0", 29, one(lists(2, 0, &[0, 0]))),
        ("writes 255 255", 29, one(lists(0, 2, &[255, 255]))),
        ("reads 255 0", 29, one(lists(2, 0, &[255, 0]))),
        ("reads 1 3 2, writes 4", 29, one(lists(3, 1, &[1, 3, 2, 4]))),
        (
            "reads 1 2 3, writes 5 4",
            29,
            one(lists(3, 2, &[1, 2, 3, 5, 4])),
        ),
        ("reads 1, writes 2 3 3", 29, one(lists(1, 3, &[1, 2, 3, 3]))),
        ("reads 7 6, writes 7 6", 29, one(lists(2, 2, &[7, 6, 7, 6]))),
        ("reads 127 128 127", 29, one(lists(3, 0, &[127, 128, 127]))),
        (
            "all objects, the last two in the wrong order",
            29,
            one(lists(256, 0, &late)),
        ),
        (
            "all objects, the first two in the wrong order",
            29,
            one(lists(0, 256, &early)),
        ),
        (
            "all objects twice, the writes not rising",
            29,
            one(lists(256, 256, &both)),
        ),
        (
            "257 reads, the last level",
            29,
            one(lists(257, 0, &full_and(255))),
        ),
        (
            "257 writes, the last falling",
            29,
            one(lists(0, 257, &full_and(0))),
        ),
        ("the longest body", 29, one(lists(65_526, 0, &cycle))),
        (
            "a falling pair behind kind 3, another kind",
            29,
            two(sets(1), lists(2, 0, &[5, 4])),
        ),
    ]
}

/// The first release decides, be it accepted or not: task 9 is none of 01's.
fn mixed_kinds() -> Part {
    let by_lists = lists(1, 1, &[4, 7]);
    let empty = lists(0, 0, &[]);
    let arrival = record(ARRIVE, &[7, 0, 0, 0, 2]);
    let of_no_task = record(LIST_RELEASE, &[7, 0, 0, 0, 9, 0, 0, 0, 0]);
    let late = |first: &[u8], other: &[u8]| with_end(&[first, first, &arrival, first, other], 6);
    let setup = record(SETUP, &BODY);
    vec![
        ("kind 8 behind kind 3", 24, two(sets(1), by_lists.clone())),
        ("kind 3 behind kind 8", 24, two(by_lists.clone(), sets(1))),
        (
            "kind 8 behind a kind 3 of no task",
            24,
            two(sets(9), by_lists.clone()),
        ),
        (
            "kind 3 behind a kind 8 of no task",
            24,
            two(of_no_task, sets(1)),
        ),
        (
            "a kind 3 of no task behind kind 8",
            24,
            two(by_lists.clone(), sets(9)),
        ),
        (
            "an empty kind 8 behind kind 3",
            24,
            two(sets(1), empty.clone()),
        ),
        ("kind 3 behind an empty kind 8", 24, two(empty, sets(1))),
        (
            "kind 8 behind more of kind 3",
            24,
            late(&sets(1), &by_lists),
        ),
        (
            "kind 3 behind more of kind 8",
            24,
            late(&by_lists, &sets(1)),
        ),
        (
            "mixed kinds and a wrong count",
            24,
            with_end(&[&by_lists, &sets(1)], 9),
        ),
        (
            "mixed kinds and no end",
            24,
            behind_arrival(&[&by_lists, &sets(1)]),
        ),
        (
            "mixed kinds, then kind 9",
            24,
            with_end(&[&by_lists, &sets(1), &record(9, &[])], 3),
        ),
        (
            "a second setup behind kind 8",
            24,
            with_end(&[&by_lists, &setup], 2),
        ),
    ]
}

/// A release by lists is an event record like any other.
fn ends() -> Part {
    let by_lists = lists(1, 1, &[4, 7]);
    let good = one(by_lists.clone());
    vec![
        (
            "an end that does not count kind 8",
            25,
            with_end(&[&by_lists], 1),
        ),
        (
            "an end that counts kind 8 twice",
            25,
            with_end(&[&by_lists], 3),
        ),
        ("kind 8 and no end", 27, behind_arrival(&[&by_lists])),
        ("kind 8 behind the end", 26, [&good[..], &by_lists].concat()),
    ]
}

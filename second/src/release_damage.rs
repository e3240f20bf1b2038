//! Logs made bad on purpose by a release: one by lists that is bad itself, or one of another kind
//! than the releases before it.

// Every damage has the same form, also one that needs no more than a slice.
#![allow(clippy::ptr_arg)]

use std::ops::Range;

use crate::damage::{
    bytes_after_end, kind_at, last_record, put, record_starts, wrong_count, Damage,
};
use crate::log::{write_record, BEFORE_LISTS, HEAD, LIST_RELEASE, RELEASE, RELEASES};
use crate::log::{SETUP, TICK_AND_TASK};
use crate::random::{edge, Random};

/// Every kind of such damage, with the refusal it mostly leads to.
pub const RELEASE_DAMAGES: [(&str, Damage); 12] = [
    ("counts", change_counts),               // 22
    ("split", move_split),                   // 29, or none
    ("level", level_pair),                   // 29
    ("falling", falling_pair),               // 29
    ("long-list", long_list),                // 29
    ("falling-and-length", falling_at_cut),  // 22, before 29
    ("cut-release", cut_release),            // 20, before 29
    ("short-release", short_release),        // 22
    ("counts-alone", counts_alone),          // 22
    ("renamed", rename),                     // 22
    ("mixed", mix_kinds),                    // 24
    ("mixed-and-worse", mix_kinds_and_more), // 20, 22, 29 or 24, and no other
];

/// Where the bytes of a record lie.
fn record_at(log: &[u8], start: usize) -> Range<usize> {
    let length = usize::from(u16::from_le_bytes([log[start], log[start + 1]]));
    start..start + HEAD + length
}

/// Where the releases of these kinds start.
fn releases(log: &[u8], kinds: &[u16]) -> Vec<usize> {
    let mut starts = record_starts(log);
    starts.retain(|start| kinds.contains(&kind_at(log, *start)));
    starts
}

/// Puts one more event record into a log, which then counts it.
fn put_in(log: &mut Vec<u8>, place: usize, kind: u16, body: &[u8]) {
    let mut record = Vec::new();
    write_record(&mut record, kind, body);
    log.splice(place..place, record);
    let count = last_record(log) + HEAD;
    let events = u32::from_le_bytes([log[count], log[count + 1], log[count + 2], log[count + 3]]);
    put(log, count, &(events + 1).to_le_bytes());
}

/// Where some release by lists starts. If there is none yet, one without objects is put in.
fn some_list_release(random: &mut Random, log: &mut Vec<u8>) -> usize {
    match &releases(log, &[LIST_RELEASE])[..] {
        [] => {
            let place = random.pick(&record_starts(log)[1..]);
            put_in(log, place, LIST_RELEASE, &[0; BEFORE_LISTS]);
            place
        }
        found => random.pick(found),
    }
}

/// Both counts and both lists, behind some tick and task.
fn body_of_lists(tick_and_task: &[u8], reads: &[u8], writes: &[u8]) -> Vec<u8> {
    let count = |list: &[u8]| (list.len() as u16).to_le_bytes();
    [tick_and_task, &count(reads), &count(writes), reads, writes].concat()
}

/// Some release by lists gets another body; its tick and its task stay.
fn replace_lists(random: &mut Random, log: &mut Vec<u8>, reads: &[u8], writes: &[u8]) -> usize {
    let start = some_list_release(random, log);
    let body = body_of_lists(&log[start + HEAD..][..TICK_AND_TASK], reads, writes);
    replace_body(log, start, &body);
    start
}

fn replace_body(log: &mut Vec<u8>, start: usize, body: &[u8]) {
    let mut record = Vec::new();
    write_record(&mut record, kind_at(log, start), body);
    log.splice(record_at(log, start), record);
}

/// A list of this many objects or more, in rising order.
fn rising(random: &mut Random, least: usize) -> Vec<u8> {
    loop {
        let list = edge(random);
        if list.len() >= least {
            return list;
        }
    }
}

/// Puts a list that does not rise into some release by lists, as its reads or as its writes.
fn replace_one_list(random: &mut Random, log: &mut Vec<u8>, list: &[u8]) -> usize {
    let other = edge(random);
    match random.below(2) {
        0 => replace_lists(random, log, list, &other),
        _ => replace_lists(random, log, &other, list),
    }
}

/// One count, or both, by little or by much; twice 32,768 more is 0 more in 16 bits.
fn change_counts(random: &mut Random, log: &mut Vec<u8>) {
    let start = some_list_release(random, log);
    let changes: [[u16; 2]; 7] = [
        [1, 0],
        [0, 1],
        [u16::MAX, 0],
        [0, u16::MAX],
        [256, 0],
        [0, 512],
        [32_768, 32_768],
    ];
    let places = [HEAD + TICK_AND_TASK, HEAD + TICK_AND_TASK + 2];
    for (place, change) in places.into_iter().zip(random.pick(&changes)) {
        let place = start + place;
        let count = u16::from_le_bytes([log[place], log[place + 1]]);
        put(log, place, &count.wrapping_add(change).to_le_bytes());
    }
}

/// Two lists whose counts say that the second begins elsewhere; both together are as long.
fn move_split(random: &mut Random, log: &mut Vec<u8>) {
    let objects = [rising(random, 1), rising(random, 1)].concat();
    let (reads, writes) = objects.split_at(random.below(objects.len() + 1));
    replace_lists(random, log, reads, writes);
}

/// A list with two equal objects side by side.
fn level_pair(random: &mut Random, log: &mut Vec<u8>) {
    let mut list = rising(random, 1);
    let place = random.below(list.len());
    list.insert(place, list[place]);
    replace_one_list(random, log, &list);
}

/// A list with two objects in the wrong order.
fn falling(random: &mut Random) -> Vec<u8> {
    let mut list = rising(random, 2);
    let place = random.below(list.len() - 1);
    list.swap(place, place + 1);
    list
}

fn falling_pair(random: &mut Random, log: &mut Vec<u8>) {
    let list = falling(random);
    replace_one_list(random, log, &list);
}

/// More objects than there are, in a body of the right length.
fn long_list(random: &mut Random, log: &mut Vec<u8>) {
    let all: Vec<u8> = (0..=255).collect();
    let length = random.pick(&[257, 300, 512, 4096, 60_000]);
    let list: Vec<u8> = all.into_iter().cycle().take(length).collect();
    replace_one_list(random, log, &list);
}

/// A list that does not rise, in a body that is a few bytes too short or too long.
fn falling_at_cut(random: &mut Random, log: &mut Vec<u8>) {
    let list = falling(random);
    let start = replace_one_list(random, log, &list);
    let mut body = log[record_at(log, start)][HEAD..].to_vec();
    match random.below(2) {
        0 => body.truncate(body.len() - 1),
        _ => body.extend(&list[..random.pick(&[1, 2])]),
    }
    replace_body(log, start, &body);
}

/// A log that ends inside a release by lists, which may be one that does not rise.
fn cut_release(random: &mut Random, log: &mut Vec<u8>) {
    let list = match random.below(2) {
        0 => falling(random),
        _ => rising(random, 1),
    };
    let start = replace_one_list(random, log, &list);
    let length = record_at(log, start).len() - HEAD;
    log.truncate(start + HEAD + random.below(length));
}

/// A body that ends before its counts do.
fn short_release(random: &mut Random, log: &mut Vec<u8>) {
    let start = some_list_release(random, log);
    let length = random.pick(&[0, 1, 4, 5, 6, 7, 8, 8, 8]);
    let body = log[start + HEAD..][..length].to_vec();
    replace_body(log, start, &body);
}

/// A body that ends behind its counts, which are not both 0.
fn counts_alone(random: &mut Random, log: &mut Vec<u8>) {
    let list = rising(random, 1);
    let start = replace_one_list(random, log, &list);
    let body = log[start + HEAD..][..BEFORE_LISTS].to_vec();
    replace_body(log, start, &body);
}

/// Some release gets the number of the other kind, and keeps its body.
fn rename(random: &mut Random, log: &mut Vec<u8>) {
    let start = match &releases(log, &RELEASES)[..] {
        [] => some_list_release(random, log),
        found => random.pick(found),
    };
    let kind = other_kind(kind_at(log, start));
    put(log, start + 2, &kind.to_le_bytes());
}

fn other_kind(kind: u16) -> u16 {
    match kind {
        RELEASE => LIST_RELEASE,
        _ => RELEASE,
    }
}

fn mix_kinds(random: &mut Random, log: &mut Vec<u8>) {
    put_other_kind(random, log);
}

/// Somewhere behind the first release one of the other kind, good by itself, and where it starts.
/// A log without a release gets the first one too.
fn put_other_kind(random: &mut Random, log: &mut Vec<u8>) -> usize {
    if releases(log, &RELEASES).is_empty() {
        let place = random.pick(&record_starts(log)[1..]);
        match random.below(2) {
            0 => put_in(log, place, RELEASE, &[0; 69]),
            _ => put_in(log, place, LIST_RELEASE, &[0; BEFORE_LISTS]),
        }
    }
    let first = releases(log, &RELEASES)[0];
    let mut places = record_starts(log);
    places.retain(|place| *place > first);
    let place = random.pick(&places);
    let tick_and_task = log[first + HEAD..][..TICK_AND_TASK].to_vec();
    let kind = other_kind(kind_at(log, first));
    let body = match kind {
        RELEASE => [&tick_and_task[..], &[170; 64]].concat(),
        _ => body_of_lists(&tick_and_task, &edge(random), &edge(random)),
    };
    put_in(log, place, kind, &body);
    place
}

/// A release of the other kind, with something else wrong: in it, which is tried before its place,
/// or behind it, which is never reached.
fn mix_kinds_and_more(random: &mut Random, log: &mut Vec<u8>) {
    let start = put_other_kind(random, log);
    let record = record_at(log, start);
    let body = log[record.clone()][HEAD..].to_vec();
    match random.below(8) {
        0 => wrong_count(random, log),
        1 => bytes_after_end(random, log),
        2 => log.truncate(record.end),
        3 => log.truncate(record.end - 1),
        4 => replace_body(log, start, &body[..body.len() - 1]),
        5 => replace_body(log, start, &[&body[..], &[255]].concat()),
        6 if kind_at(log, start) == LIST_RELEASE => {
            let lists = body_of_lists(&body[..TICK_AND_TASK], &falling(random), &[]);
            replace_body(log, start, &lists);
        }
        _ => put_unknown_behind(log, record.end),
    }
}

/// A setup, or a record of an unknown kind, where no setup has a place.
fn put_unknown_behind(log: &mut Vec<u8>, place: usize) {
    let kind = match place % 2 {
        0 => SETUP,
        _ => 9,
    };
    let mut record = Vec::new();
    write_record(&mut record, kind, &[1, 1, 1, 0, 1, 0, 0, 0, 1, 0]);
    log.splice(place..place, record);
}

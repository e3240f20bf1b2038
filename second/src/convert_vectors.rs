//! Logs in both kinds, byte by byte as documents 01 and 02 have them.

/// One log with its releases in kind 3, and the same in kind 8.
pub struct BothKinds {
    pub what: &'static str,
    pub sets: Vec<u8>,
    pub lists: Vec<u8>,
}

/// One task of priority 1, period 1 and 3 transactions, on one processor.
const SETUP: [u8; 14] = [10, 0, 1, 0, 1, 1, 1, 0, 1, 0, 0, 0, 3, 0];
/// The same in kind 7 and in mode 1.
const MODE_SETUP: [u8; 15] = [11, 0, 7, 0, 1, 1, 1, 1, 0, 1, 0, 0, 0, 3, 0];
/// The arrival of task 0 at tick 3, its commit at 258, and its finish at 65,536.
const ARRIVAL: [u8; 9] = [5, 0, 2, 0, 3, 0, 0, 0, 0];
const COMMIT: [u8; 9] = [5, 0, 4, 0, 2, 1, 0, 0, 0];
const FINISH: [u8; 9] = [5, 0, 5, 0, 0, 0, 1, 0, 0];
/// An arrival of task 200, which there is not.
const REFUSED: [u8; 9] = [5, 0, 2, 0, 9, 0, 0, 0, 200];

/// The first bytes of a release of task 0 at tick 4, in kind 3: head, tick and task.
const SETS: [u8; 9] = [69, 0, 3, 0, 4, 0, 0, 0, 0];

fn end(events: u8) -> [u8; 8] {
    [4, 0, 6, 0, events, 0, 0, 0]
}

/// A set in which these bytes are not 0: each is a place, and what stands there.
fn set(bytes: &[(usize, u8)]) -> [u8; 32] {
    let mut set = [0; 32];
    for (place, byte) in bytes {
        set[*place] = *byte;
    }
    set
}

/// Object b is bit b mod 8 of byte b / 8: 4 is 16 in byte 0, 7 is 128 in byte 0, 9 is 2 in byte 1,
/// 64 is 1 in byte 8, and 255 is 128 in byte 31.
pub fn both_kinds() -> Vec<BothKinds> {
    let none = [0; 32];
    let full = [255; 32];
    let all: Vec<u8> = (0..=255).collect();
    let one = |sets: [&[u8]; 2], lists: &[u8]| {
        let before = [&SETUP[..], &ARRIVAL];
        let end = &end(2)[..];
        let sets = [&before[..], &[&SETS, sets[0], sets[1], end]].concat();
        let lists = [&before[..], &[lists, end]].concat();
        (sets.concat(), lists.concat())
    };
    let logs = [
        (
            "reads 4 and writes 7",
            one(
                [&set(&[(0, 16)]), &set(&[(0, 128)])],
                &[11, 0, 8, 0, 4, 0, 0, 0, 0, 1, 0, 1, 0, 4, 7],
            ),
        ),
        (
            "no object",
            one([&none, &none], &[9, 0, 8, 0, 4, 0, 0, 0, 0, 0, 0, 0, 0]),
        ),
        (
            "reads 0 and no write",
            one(
                [&set(&[(0, 1)]), &none],
                &[10, 0, 8, 0, 4, 0, 0, 0, 0, 1, 0, 0, 0, 0],
            ),
        ),
        (
            "no read, and writes 255",
            one(
                [&none, &set(&[(31, 128)])],
                &[10, 0, 8, 0, 4, 0, 0, 0, 0, 0, 0, 1, 0, 255],
            ),
        ),
        (
            "reads 9 64 255 and writes 4 7 9, which begin below them",
            one(
                [
                    &set(&[(1, 2), (8, 1), (31, 128)]),
                    &set(&[(0, 144), (1, 2)]),
                ],
                &[15, 0, 8, 0, 4, 0, 0, 0, 0, 3, 0, 3, 0, 9, 64, 255, 4, 7, 9],
            ),
        ),
        (
            // 521 = 9 + 256 + 256 is 9 and 2 in bytes.
            "all objects in both",
            one(
                [&full, &full],
                &[&[9, 2, 8, 0, 4, 0, 0, 0, 0, 0, 1, 0, 1][..], &all, &all].concat(),
            ),
        ),
        (
            "all objects but 0 read, and all but 255 written",
            one(
                [
                    &[&[254][..], &[255; 31]].concat(),
                    &[&[255; 31][..], &[127]].concat(),
                ],
                &[
                    &[7, 2, 8, 0, 4, 0, 0, 0, 0, 255, 0, 255, 0][..],
                    &all[1..],
                    &all[..255],
                ]
                .concat(),
            ),
        ),
        ("every kind of record", every_kind()),
        ("no release, kind 1", {
            let log = [&SETUP[..], &ARRIVAL, &REFUSED, &end(2)].concat();
            (log.clone(), log)
        }),
        ("no event, kind 7", {
            let log = [&MODE_SETUP[..], &end(0)].concat();
            (log.clone(), log)
        }),
    ];
    let both = |(what, (sets, lists))| BothKinds { what, sets, lists };
    logs.into_iter().map(both).collect()
}

/// A setup of kind 7, and three releases among other events, the second by task 255 and the third
/// at the last tick: both may be refused, and stay in the log as they are.
fn every_kind() -> (Vec<u8>, Vec<u8>) {
    let release = |tick_and_task: [u8; 5], kind: u16, objects: &[u8]| {
        let length = 5 + objects.len() as u16;
        let head = [length.to_le_bytes(), kind.to_le_bytes()].concat();
        [&head[..], &tick_and_task, objects].concat()
    };
    let places = [[4, 0, 0, 0, 0], [1, 2, 3, 4, 255], [255, 255, 255, 255, 0]];
    let sets = [set(&[(0, 16)]), [0; 32]].concat();
    let lists = [1, 0, 0, 0, 4];
    let log = |kind: u16, objects: &[u8]| {
        let [first, second, third] = places.map(|place| release(place, kind, objects));
        let before = [&MODE_SETUP[..], &ARRIVAL, &first, &COMMIT, &REFUSED];
        let behind = [&second[..], &third, &FINISH, &end(7)];
        [before.concat(), behind.concat()].concat()
    };
    (log(3, &sets), log(8, &lists))
}

//! The paper's own cases as traces: W1 to W11 and the further cases, for the fixed sample.

use paper::form::Entry;
use paper::page::Bounds;
use paper::restore::{Image, RawLock, RawRecord};
use paper::store::{Bytes, Kind};
use paper::trace::{Call, MOST_BYTES};

use crate::batch::mutation_bytes;
use crate::random::Random;
use crate::room;
use crate::rows::SMALLEST;

fn key(name: &[u8]) -> Bytes {
    [&[0, 0, 0, 1], name].concat()
}

fn prewrite(name: &[u8], start: u64) -> Call {
    let (primary, key, row) = (key(b"a"), key(name), SMALLEST.to_vec());
    Call::Prewrite { transaction: 7, start, time_to_live: 1, kind: Kind::Put, primary, key, row }
}

fn puts(names: &[&[u8]]) -> Bytes {
    let entry = |name: &&[u8]| Entry { key: key(name), kind: Kind::Put, row: SMALLEST.to_vec() };
    mutation_bytes(&names.iter().map(entry).collect::<Vec<Entry>>())
}

fn commit(name: &[u8], start: u64, commit: u64) -> Call {
    Call::Commit { transaction: 7, start, commit, key: key(name) }
}

fn rollback(name: &[u8], start: u64) -> Call {
    Call::Rollback { transaction: 7, start, key: key(name) }
}

fn read(name: &[u8], moment: u64) -> Call {
    Call::Read { moment, key: key(name) }
}

fn page(byte_limit: u64, buffer: u16) -> Call {
    Call::Page { moment: 12, row_limit: 1, byte_limit, bounds: Bounds::default(), buffer }
}

fn one_step(names: &[&[u8]]) -> Call {
    Call::OneStep { transaction: 7, start: 10, commit: 12, batch: puts(names) }
}

/// Each case by its name: the calls that lead to it and the calls it is about.
pub fn cases() -> Vec<(&'static str, Vec<Call>)> {
    let w2 = || vec![prewrite(b"a", 10), commit(b"a", 10, 12)];
    let after_w2 = |calls: Vec<Call>| [w2(), calls].concat();
    let mut cases = vec![
        ("W1", vec![prewrite(b"a", 10), read(b"a", 9), read(b"a", 10)]),
        ("W2", after_w2(vec![read(b"a", 11), read(b"a", 12)])),
        ("W3", after_w2(vec![rollback(b"a", 12)])),
        ("W4", after_w2(vec![rollback(b"a", 10)])),
        ("W5", after_w2(vec![prewrite(b"a", 12), prewrite(b"a", 13)])),
        ("W6", vec![rollback(b"a", 5), Call::Statistics, rollback(b"a", 5), Call::Statistics]),
        ("W7", vec![rollback(b"a", 5), prewrite(b"a", 5)]),
        ("W8", after_w2(vec![one_step(&[b"a"]), one_step(&[b"a", b"b"])])),
        ("W9", after_w2(vec![page(8, 12), page(8, 13), page(8, 15)])),
        ("W10", after_w2(vec![page(7, 13)])),
        ("W11", after_w2(vec![prewrite(b"b", 12), page(8, 13)])),
        ("the last start", {
            let last = u64::MAX;
            vec![
                prewrite(b"a", last),
                commit(b"a", last, last),
                commit(b"a", last, 0),
                rollback(b"a", last),
                Call::Marks,
            ]
        }),
    ];
    for length in [4, 5, 48, 49] {
        let name = vec![b'k'; length - 4];
        let calls = vec![
            read(&name, 1),
            Call::OneIntent { moment: 1, key: key(&name) },
            prewrite(&name, 10),
            commit(&name, 10, 11),
            rollback(&name, 12),
            one_step(&[&name[..]]),
        ];
        cases.push(("key lengths", calls));
    }
    cases.push(("1,023 lines", full_but_one()));
    cases.push(("all four rooms full", all_full()));
    cases.push(("one byte past the most", vec![Call::Restore { image: vec![0; MOST_BYTES + 1 - 9] }]));
    cases
}

/// All four rooms just full by an image of more than 65,535 bytes: a line may replace a line, nothing may be added, and
/// 1,025 rows with their lines are no image for this box; if one of them has no line, the image is sick.
fn all_full() -> Vec<Call> {
    let image = room::all_full(&mut Random::new(1));
    let mut beyond = Image { table: 1, ..Image::default() };
    for number in 0..1025_u16 {
        beyond.defaults.push((key(&number.to_be_bytes()), 1, SMALLEST.to_vec()));
        beyond.writes.push((key(&number.to_be_bytes()), 2, RawRecord { start: 1, commit: 2, kind: 1 }));
    }
    let mut orphan = beyond.clone();
    orphan.writes.remove(512);
    let (held, lock) = image.locks[0].clone();
    let undo = Call::Rollback { transaction: lock.transaction, start: lock.start, key: held };
    let restore = |image: &Image| Call::Restore { image: image.write() };
    let new_line = || Call::Rollback { transaction: 7, start: 5, key: key(b"a") };
    vec![
        restore(&image),
        Call::Statistics,
        new_line(),
        undo,
        new_line(),
        restore(&beyond),
        restore(&orphan),
        Call::Statistics,
        Call::Marks,
    ]
}

/// "1,023 lines, at most 200 locks, bytes far from full, prewrite of two keys 11, of one 0, and its commit 0".
fn full_but_one() -> Vec<Call> {
    let mut image = Image { table: 1, ..Image::default() };
    for number in 0..823_u16 {
        let record = RawRecord { start: 1, commit: 1, kind: 3 };
        image.writes.push((key(&number.to_be_bytes()), 1, record));
    }
    for number in 0..200_u16 {
        let lock = RawLock { transaction: 9, primary: key(b"a"), start: 2, time_to_live: 1, kind: 2 };
        image.locks.push((key(&(60_000 + number).to_be_bytes()), lock));
    }
    let batch = |names: &[&[u8]]| Call::PrewriteBatch {
        transaction: 7,
        start: 10,
        time_to_live: 1,
        primary: key(b"a"),
        batch: puts(names),
    };
    let restore = Call::Restore { image: image.write() };
    vec![restore, batch(&[b"a", b"b"]), batch(&[b"a"]), commit(b"a", 10, 12), read(b"a", 12), prewrite(b"b", 13)]
}

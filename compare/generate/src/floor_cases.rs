//! Collections for the fixed sample: small cases by name, and traces drawn.

use paper::form::Entry;
use paper::page::Bounds;
use paper::restore::{Image, RawLock, RawRecord};
use paper::store::{Bytes, Kind};
use paper::trace::Call;

use crate::Ops;
use crate::batch::{key_bytes, mutation_bytes};
use crate::maker::Maker;
use crate::random::Random;
use crate::room;
use crate::rows::SMALLEST;

fn key(name: u8) -> Bytes {
    vec![0, 0, 0, 1, name]
}

/// A batch of one Put.
fn one(key: Bytes) -> Bytes {
    mutation_bytes(&[Entry { key, kind: Kind::Put, row: SMALLEST.to_vec() }])
}

fn put(name: u8, start: u64, commit: u64) -> Call {
    Call::OneStep { transaction: 7, start, commit, batch: one(key(name)) }
}

fn delete(name: u8, start: u64, commit: u64) -> Call {
    let batch = mutation_bytes(&[Entry { key: key(name), kind: Kind::Delete, row: Bytes::new() }]);
    Call::OneStep { transaction: 7, start, commit, batch }
}

fn undo(name: u8, start: u64) -> Call {
    Call::Rollback { transaction: 7, start, key: key(name) }
}

fn lock(name: u8, transaction: u64, start: u64) -> Call {
    let (kind, primary, row) = (Kind::Delete, key(b'a'), Bytes::new());
    Call::Prewrite { transaction, start, time_to_live: 9, kind, primary, key: key(name), row }
}

fn read(name: u8, moment: u64) -> Call {
    Call::Read { moment, key: key(name) }
}

fn page(moment: u64, end: Option<u8>, resume: Option<u8>) -> Call {
    let bounds = Bounds { start: None, end: end.map(key), resume: resume.map(key) };
    Call::Page { moment, row_limit: 9, byte_limit: 99, bounds, buffer: 40 }
}

fn collect(floor: u64) -> Call {
    Call::Collect { floor }
}

fn written() -> Call {
    Call::WriteImage { table: 1, buffer: 300 }
}

/// An image with a floor: Delete locks by key and start, and records of key a by start, commit and kind.
fn image(floor: u64, locks: &[(u8, u64)], writes: &[(u64, u64, u8)]) -> Call {
    let lock = |(name, start): &(u8, u64)| {
        (key(*name), RawLock { transaction: 7, primary: key(b'a'), start: *start, time_to_live: 1, kind: 2 })
    };
    let write = |(start, commit, kind): &(u64, u64, u8)| {
        (key(b'a'), *commit, RawRecord { start: *start, commit: *commit, kind: *kind })
    };
    let puts = writes.iter().filter(|(_, _, kind)| *kind == 1);
    let image = Image {
        table: 1,
        floor,
        defaults: puts.map(|(start, ..)| (key(b'a'), *start, SMALLEST.to_vec())).collect(),
        locks: locks.iter().map(lock).collect(),
        writes: writes.iter().map(write).collect(),
    };
    Call::Restore { image: image.write() }
}

const LAST: u64 = u64::MAX;

/// Small cases by name, with the numbers that their calls answer.
pub fn named() -> Vec<(&'static str, Vec<Call>, &'static [u8])> {
    let chain =
        || [put(b'a', 1, 2), undo(b'a', 3), put(b'a', 4, 5), undo(b'a', 6), delete(b'b', 1, 3), put(b'b', 6, 9)];
    let after = |calls: Vec<Call>| [chain().to_vec(), calls].concat();
    let ends = |moment| [read(b'a', moment), page(moment, None, None), page(moment, Some(b'a'), Some(b'a'))];
    vec![
        (
            "what stays and what goes",
            after(vec![collect(7), Call::Statistics, read(b'a', 7), read(b'b', 9), written()]),
            &[0; 11],
        ),
        (
            "a Delete and what is under it",
            vec![put(b'a', 1, 2), delete(b'a', 3, 4), collect(5), Call::Statistics, Call::Marks],
            &[0; 5],
        ),
        (
            "a Put stamped above the floor",
            vec![put(b'a', 10, 12), collect(11), read(b'a', 11), read(b'a', 12), undo(b'a', 11), undo(b'a', 13)],
            &[0, 0, 0, 0, 14, 0],
        ),
        (
            "lower, equal and last floors",
            vec![
                collect(0),
                undo(b'a', 5),
                collect(5),
                Call::Marks,
                collect(5),
                collect(4),
                collect(6),
                collect(LAST),
                undo(b'a', LAST),
                read(b'a', LAST),
                read(b'a', LAST - 1),
                collect(LAST),
                collect(0),
                written(),
            ],
            &[0, 0, 0, 0, 0, 14, 0, 0, 14, 0, 14, 0, 14, 0],
        ),
        (
            "the first key's holder",
            vec![
                lock(b'b', 8, 3),
                lock(b'a', 9, 4),
                collect(5),
                collect(4),
                collect(3),
                collect(2),
                written(),
                undo(b'b', 2),
                undo(b'c', 3),
            ],
            &[0, 0, 7, 7, 7, 0, 0, 14, 0],
        ),
        (
            "moments beside the floor",
            after(
                [
                    vec![collect(5)],
                    ends(4).to_vec(),
                    ends(5).to_vec(),
                    ends(6).to_vec(),
                    vec![Call::Read { moment: 4, key: key(b'a')[..4].to_vec() }],
                ]
                .concat(),
            ),
            &[0, 0, 0, 0, 0, 0, 0, 14, 14, 14, 0, 0, 0, 0, 0, 0, 1],
        ),
        (
            "locks are shown below the floor",
            vec![
                lock(b'a', 7, 6),
                collect(5),
                Call::OneIntent { moment: 3, key: key(b'a') },
                Call::Conflicting { moment: 3, lock_limit: 1, byte_limit: 99, bounds: Bounds::default(), buffer: 3 },
                Call::IntentPage { lock_limit: 1, bounds: Bounds::default(), buffer: 90 },
            ],
            &[0; 5],
        ),
        (
            "starts beside the floor",
            starts(),
            &[0, 0, 14, 14, 14, 14, 14, 14, 14, 14, 1, 5, 6, 3, 3, 1, 3, 14, 14, 0, 0],
        ),
        (
            "replays",
            vec![
                put(b'a', 10, 12),
                undo(b'a', 13),
                collect(10),
                put(b'a', 10, 12),
                undo(b'a', 13),
                collect(13),
                undo(b'a', 13),
                put(b'a', 10, 12),
                read(b'a', 13),
            ],
            &[0, 0, 0, 14, 0, 0, 14, 14, 0],
        ),
        (
            "images with a floor",
            vec![
                image(5, &[(b'a', 5)], &[]),
                image(5, &[(b'a', 4)], &[]),
                image(5, &[(b'a', 9), (b'b', 5)], &[]),
                image(5, &[(b'a', 6)], &[]),
                written(),
                undo(b'b', 5),
                undo(b'b', 6),
                collect(4),
                collect(5),
                collect(6),
            ],
            &[13, 13, 13, 0, 0, 14, 0, 14, 0, 7],
        ),
        (
            "an image that was not collected",
            vec![
                image(9, &[], &[(3, 4, 2), (1, 2, 1)]),
                Call::Statistics,
                read(b'a', 9),
                read(b'a', 8),
                collect(9),
                Call::Statistics,
                written(),
            ],
            &[0, 0, 0, 14, 0, 0, 0],
        ),
        (
            "a lower floor by an image",
            vec![
                collect(9),
                image(0, &[], &[(1, 2, 1)]),
                read(b'a', 3),
                image(LAST, &[], &[(1, 2, 1)]),
                read(b'a', LAST),
                read(b'a', 3),
                image(3, &[(b'a', 3)], &[]),
                written(),
            ],
            &[0, 0, 0, 0, 0, 14, 13, 0],
        ),
        ("full boxes", full_boxes(), &[11, 0, 11, 0, 0, 0, 13, 11, 13, 0, 0, 7]),
        (
            "a table that is not there",
            vec![collect(9), Call::WriteImage { table: 2, buffer: 18 }, Call::WriteImage { table: 2, buffer: 17 }],
            &[0, 0, 12],
        ),
    ]
}

/// Just full of live bytes, with a floor, which takes none: no line more, a collection, and then lines again; and locks at the
/// floor of an image that is too large besides.
fn full_boxes() -> Vec<Call> {
    let random = &mut Random::new(2);
    let mut restore = |which, past, floor| {
        let image = Image { floor, ..room::beside_room(random, which, past) };
        Call::Restore { image: image.write() }
    };
    vec![
        restore(3, 1, 0),
        restore(3, 0, 7),
        undo(b'a', 8),
        collect(7),
        undo(b'a', 8),
        Call::Statistics,
        restore(1, 1, 9),
        restore(1, 1, 8),
        restore(1, 0, 9),
        restore(1, 0, 8),
        collect(8),
        collect(9),
    ]
}

/// After a collection up to 5: calls at 5, with an entry out of form, with earlier faults, and at 6.
fn starts() -> Vec<Call> {
    let short = key(b'a')[..4].to_vec();
    let (kind, time_to_live, transaction, row) = (Kind::Put, 1, 7, SMALLEST.to_vec());
    let prewrite = |start, primary: &Bytes, time_to_live| Call::Prewrite {
        transaction,
        start,
        time_to_live,
        kind,
        primary: primary.clone(),
        key: short.clone(),
        row: row.clone(),
    };
    let (a, batch) = (key(b'a'), |bytes: Bytes| Call::PrewriteBatch {
        transaction,
        start: 5,
        time_to_live,
        primary: key(b'a'),
        batch: bytes,
    });
    vec![
        undo(b'a', 3),
        collect(5),
        prewrite(5, &a, 1),
        batch(one(short.clone())),
        Call::Commit { transaction, start: 5, commit: 6, key: short.clone() },
        Call::CommitBatch { transaction, start: 4, commit: 9, batch: key_bytes(&[short.clone()]) },
        Call::Rollback { transaction, start: 5, key: short.clone() },
        Call::RollbackBatch { transaction, start: 1, batch: key_bytes(&[short.clone()]) },
        Call::OneStep { transaction, start: 5, commit: 6, batch: one(short.clone()) },
        Call::OneStep { transaction, start: 3, commit: 9, batch: mutation_bytes(&[]) },
        Call::OneStep { transaction, start: 6, commit: 9, batch: one(short.clone()) },
        batch(mutation_bytes(&[])),
        batch(Bytes::new()),
        Call::OneStep { transaction, start: 5, commit: 5, batch: one(short.clone()) },
        prewrite(0, &a, 1),
        prewrite(5, &short, 0),
        prewrite(5, &a, 0),
        undo(b'a', 5),
        put(b'a', 5, 9),
        put(b'a', 6, 9),
        lock(b'b', 7, 6),
    ]
}

/// For the fixed sample.
pub fn cases() -> Vec<(&'static str, Vec<Call>)> {
    let drawn = |seed| {
        let mut maker = Maker::new(seed, Ops::all());
        maker.collected();
        ("collections drawn", maker.calls)
    };
    let named = named().into_iter().map(|(name, calls, _)| (name, calls));
    named.chain((1..=DRAWN).map(drawn)).collect()
}

/// So many traces of the sample are drawn.
const DRAWN: u64 = 16;

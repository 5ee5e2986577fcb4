//! Write the image (change request 1): which entries, in which order, the refusals, the buffer, and what a restore of it
//! brings.

mod common;

use common::*;
use paper::restore::{Image, RawLock, RawRecord};
use paper::room::{DEFAULTS, LINES, LIVE_BYTES, LOCKS, Use};
use paper::run::{BEFORE, run_call};
use paper::store::{Kind, Store};
use paper::trace::{Call, LONG_BUFFER};

fn write(table: u32, buffer: u32) -> Call {
    Call::WriteImage { table, buffer }
}

/// Key of another table.
fn of(table: u32, name: &[u8]) -> Vec<u8> {
    [&table.to_be_bytes(), name].concat()
}

/// The image of a table after the calls, which must fit into 999 bytes.
fn image(before: &[Call], table: u32) -> Image {
    let answer = last(&[before, &[write(table, 999)]].concat());
    assert_eq!(answer.number, 0);
    let (image, rest) = answer.payload.split_at(answer.count as usize);
    assert!(rest.iter().all(|byte| *byte == BEFORE));
    Image::read(image).expect("an image that is written is in form")
}

/// Put (5, 20) and Put (6, 10) of a: "defaults, locks, writes, each ascending by key, then stamp".
fn crossed() -> Image {
    let record = |start, commit| (a(), commit, RawRecord { start, commit, kind: 1 });
    Image {
        table: 1,
        defaults: vec![(a(), 6, vec![0, 0, 0]), (a(), 5, vec![0, 1, 0, 0])],
        locks: vec![],
        writes: vec![record(5, 20), record(6, 10)],
        ..Image::default()
    }
}

#[test]
fn each_section_ascends_by_key_then_stamp() {
    let written = image(&[restore(&crossed())], 1);
    assert_eq!(written.defaults.iter().map(|(_, start, _)| *start).collect::<Vec<_>>(), [5, 6]);
    assert_eq!(written.writes.iter().map(|(_, stamp, _)| *stamp).collect::<Vec<_>>(), [10, 20]);
    // A proper prefix goes first, whatever the stamps.
    let keys = [key(b"a"), key(&[b'a', 0]), key(b"aa"), key(b"b")];
    let calls: Vec<Call> = (0..4).rev().map(|at| prewrite(keys[at].clone(), 10 + at as u64)).collect();
    let written = image(&calls, 1);
    assert_eq!(written.locks.iter().map(|(key, _)| key.clone()).collect::<Vec<_>>(), keys);
    assert_eq!(written.defaults.iter().map(|(key, ..)| key.clone()).collect::<Vec<_>>(), keys);
}

/// The bytes themselves: the Put lock of W1.
#[test]
fn the_bytes_of_one_lock() {
    let w1 = prewrite(a(), 10);
    let needed = 18 + (1 + 5 + 8 + 1 + 3) + (1 + 5 + 8 + 1 + 5 + 8 + 8 + 1);
    let answer = last(&[w1, write(1, needed)]);
    let mut expected =
        vec![0, 0, 0, 1, 0, 0, 0, 0, 0, 0, 0, 0, 0, 1, 5, 0, 0, 0, 1, b'a', 0, 0, 0, 0, 0, 0, 0, 10, 3, 0, 0, 0];
    expected.extend([0, 1, 5, 0, 0, 0, 1, b'a', 0, 0, 0, 0, 0, 0, 0, 7, 5, 0, 0, 0, 1, b'a']);
    expected.extend([0, 0, 0, 0, 0, 0, 0, 10, 0, 0, 0, 0, 0, 0, 0, 1, 1, 0, 0]);
    assert_eq!((answer.number, answer.count, answer.payload), (0, u64::from(needed), expected));
}

/// A table of which the store holds nothing: the floor and three zero counts.
#[test]
fn an_absent_table() {
    for before in [vec![], vec![prewrite(a(), 10)]] {
        let answer = last(&[&before[..], &[write(2, 20)]].concat());
        assert_eq!((answer.number, answer.count), (0, 18));
        assert_eq!(answer.payload, [&[0, 0, 0, 2][..], &[0; 14], &[BEFORE; 2]].concat());
    }
}

/// "that table's part of the store": by the entry's key, whatever a lock's primary is.
#[test]
fn entries_are_of_the_table_of_their_key() {
    let lock = |key: Vec<u8>, primary: Vec<u8>| Call::Prewrite {
        transaction: 7,
        start: 10,
        time_to_live: 1,
        kind: Kind::Delete,
        primary,
        key,
        row: vec![],
    };
    let tables = [1, 2, 256, 0x0100_0000, 0x0100_0001, u32::MAX];
    let calls: Vec<Call> = (0..6).map(|at| lock(of(tables[at], b"a"), of(tables[5 - at], b"p"))).collect();
    for (at, table) in tables.iter().enumerate() {
        let written = image(&calls, *table);
        let held = RawLock { transaction: 7, primary: of(tables[5 - at], b"p"), start: 10, time_to_live: 1, kind: 2 };
        assert_eq!(written.locks, [(of(*table, b"a"), held)], "table {table}");
        assert_eq!(written.entries(), 1);
    }
}

/// "Refusals: a zero table number 3, then a short buffer 12." A refusal leaves every byte of the buffer.
#[test]
fn refusals_and_the_buffer() {
    let before = [prewrite(a(), 10)];
    let needed = image(&before, 1).write().len() as u32;
    let refused = |table, buffer, number| {
        let answer = last(&[&before[..], &[write(table, buffer)]].concat());
        assert_eq!((answer.number, answer.count), (number, 0), "table {table}, buffer {buffer}");
        assert_eq!(answer.payload, vec![BEFORE; buffer as usize]);
    };
    for buffer in [0, 17, 18, 99] {
        refused(0, buffer, 3);
    }
    for buffer in [0, 1, 4, 18, needed - 1] {
        refused(1, buffer, 12);
    }
    refused(2, 17, 12);
    for buffer in [needed, needed + 1, LONG_BUFFER] {
        let answer = last(&[&before[..], &[write(1, buffer)]].concat());
        assert_eq!((answer.number, answer.count, answer.payload.len()), (0, u64::from(needed), buffer as usize));
        assert!(answer.payload[needed as usize..].iter().all(|byte| *byte == BEFORE));
    }
}

/// "Restoring what was written gives that table's part of the store", and the store that was written stays as it is.
#[test]
fn restoring_gives_the_tables_part() {
    let mut store = Store::default();
    let calls = [
        restore(&crossed()),
        prewrite(b(), 30),
        rollback(a(), 30),
        one_step(&[of(2, b"a"), of(2, b"b")], 10, 12),
        prewrite(of(2, b"a"), 20),
    ];
    assert!(calls.iter().all(|call| run_call(&mut store, call).number == 0));
    let whole = store.clone();
    for table in [1, 2, 3] {
        let answer = run_call(&mut store, &write(table, 999));
        assert_eq!(store, whole);
        let mut other = Store::default();
        let image = answer.payload[..answer.count as usize].to_vec();
        assert_eq!(run_call(&mut other, &Call::Restore { image: image.clone() }).number, 0);
        assert_eq!(other.tables().into_iter().collect::<Vec<_>>(), if table < 3 { vec![table] } else { vec![] });
        let of_table = |key: &[u8]| key.starts_with(&table.to_be_bytes());
        let mut part = whole.clone();
        part.defaults.retain(|key, _| of_table(key));
        part.locks.retain(|key, _| of_table(key));
        part.records.retain(|key, _| of_table(key));
        assert_eq!(other, part, "table {table}");
        // "two stores holding only that table have equal bytes exactly when they hold the same entries"
        assert_eq!(run_call(&mut other, &write(table, image.len() as u32)).payload, image);
    }
}

/// 256 Put locks, 768 Put records, 1,024 defaults at 49,152 live bytes: 86,290 bytes, which 2 bytes cannot count.
#[test]
fn the_longest_image() {
    let mut image = Image { table: 1, ..Image::default() };
    let long = |number: usize| key(&[&(number as u16).to_be_bytes()[..], b"f"].concat());
    let mut left = LIVE_BYTES - LOCKS * (7 + 5) - (LINES - LOCKS) * 7;
    for number in 0..LINES {
        let row = left / (LINES - number) - 7;
        left -= 7 + row;
        let row = [&[0, 1, row as u8 - 4][..], &vec![9; row - 4], &[0]].concat();
        image.defaults.push((long(number), 5, row));
        if number < LOCKS {
            let lock = RawLock { transaction: 7, primary: a(), start: 5, time_to_live: 1, kind: 1 };
            image.locks.push((long(number), lock));
        } else {
            image.writes.push((long(number), 6, RawRecord { start: 5, commit: 6, kind: 1 }));
        }
    }
    let bytes = image.write();
    assert_eq!(bytes.len(), 86_290);
    image.defaults.reverse();
    image.locks.reverse();
    image.writes.reverse();
    let mut store = Store::default();
    assert_eq!(run_call(&mut store, &restore(&image)).number, 0);
    let full = Use { lines: LINES, locks: LOCKS, defaults: DEFAULTS, live_bytes: LIVE_BYTES };
    assert_eq!(store.room_used(), full);
    assert_eq!(run_call(&mut store, &write(1, 86_289)).number, 12);
    let answer = run_call(&mut store, &write(1, 86_290));
    assert_eq!((answer.number, answer.count), (0, 86_290));
    assert!(answer.payload == bytes);
}

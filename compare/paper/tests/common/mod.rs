//! Words for the tests: calls of table 1 with the paper's defaults, run through the trace form.
#![allow(dead_code)] // each test file uses its own part

use paper::answer::Answer;
use paper::page::Bounds;
use paper::restore::{Image, RawLock, RawRecord};
use paper::run::run_trace;
use paper::store::Kind;
use paper::trace::{Call, write_trace};

/// "the smallest row is 00 00 00".
pub const ROW: [u8; 3] = [0, 0, 0];
pub const TRANSACTION: u64 = 7;

/// Key of table 1: `key(b"a")` is 00 00 00 01 61.
pub fn key(name: &[u8]) -> Vec<u8> {
    [&[0, 0, 0, 1], name].concat()
}

pub fn a() -> Vec<u8> {
    key(b"a")
}

pub fn b() -> Vec<u8> {
    key(b"b")
}

/// Runs the calls as a trace and gives every answer.
pub fn answers(calls: &[Call]) -> Vec<Answer> {
    run_trace(&write_trace(calls))
}

/// The last answer of the calls.
pub fn last(calls: &[Call]) -> Answer {
    answers(calls).pop().expect("a trace with calls has answers")
}

pub fn numbers(calls: &[Call]) -> Vec<u8> {
    answers(calls).iter().map(|answer| answer.number).collect()
}

pub fn prewrite(key: Vec<u8>, start: u64) -> Call {
    Call::Prewrite {
        transaction: TRANSACTION,
        start,
        time_to_live: 1,
        kind: Kind::Put,
        primary: a(),
        key,
        row: ROW.to_vec(),
    }
}

pub fn prewrite_batch(keys: &[Vec<u8>], start: u64) -> Call {
    Call::PrewriteBatch { transaction: TRANSACTION, start, time_to_live: 1, primary: a(), batch: puts(keys) }
}

pub fn commit(key: Vec<u8>, start: u64, commit: u64) -> Call {
    Call::Commit { transaction: TRANSACTION, start, commit, key }
}

pub fn rollback(key: Vec<u8>, start: u64) -> Call {
    Call::Rollback { transaction: TRANSACTION, start, key }
}

pub fn one_step(keys: &[Vec<u8>], start: u64, commit: u64) -> Call {
    Call::OneStep { transaction: TRANSACTION, start, commit, batch: puts(keys) }
}

pub fn read(key: Vec<u8>, moment: u64) -> Call {
    Call::Read { moment, key }
}

pub fn page(moment: u64, byte_limit: u64, buffer: u16) -> Call {
    Call::Page { moment, row_limit: 1, byte_limit, bounds: Bounds::default(), buffer }
}

/// A batch that puts the smallest row at each key.
pub fn puts(keys: &[Vec<u8>]) -> Vec<u8> {
    let mut batch = (keys.len() as u16).to_be_bytes().to_vec();
    for key in keys {
        batch.push(key.len() as u8);
        batch.extend_from_slice(key);
        batch.extend_from_slice(&[1, 3, 0, 0, 0]);
    }
    batch
}

/// An image of table 1 with Rollback records at `key(two bytes)`, one a key, all stamped 1, and Delete locks at start 2
/// on further keys.
pub fn image_of_lines(rollbacks: u16, locks: u16) -> Image {
    let mut image = Image { table: 1, ..Image::default() };
    for name in 0..rollbacks {
        image.writes.push((key(&name.to_be_bytes()), 1, RawRecord { start: 1, commit: 1, kind: 3 }));
    }
    for name in 0..locks {
        let lock = RawLock { transaction: 9, primary: a(), start: 2, time_to_live: 1, kind: 2 };
        image.locks.push((key(&[b'l', (name >> 8) as u8, name as u8]), lock));
    }
    image
}

pub fn restore(image: &Image) -> Call {
    Call::Restore { image: image.write() }
}

/// The row a read shows, or none.
pub fn shown(answer: &Answer) -> Option<Vec<u8>> {
    assert_eq!(answer.number, 0, "the read was refused: {answer:?}");
    match answer.payload.split_first() {
        Some((1, row)) => Some(row.to_vec()),
        Some((0, [])) => None,
        _ => panic!("no read's payload: {answer:?}"),
    }
}

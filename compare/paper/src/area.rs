//! A model of the byte area in which the box's store keeps its lines. The paper has no area and no answer depends on it;
//! the model says when the store packs its area anew, so that traces can be made to force that in every call that can,
//! and so that a repack which loses a row can be played.
//!
//! It follows docs/ARCHITECTURE.md, "The store": a line is one stretch of bytes, which begins at an even byte. New
//! stretches go at the top; nothing goes back. A call that changes something first asks place for all its entries, each as
//! if it were the longest; where that would pass the end, the stretches of the standing lines are packed anew.

use std::collections::BTreeMap;
use std::slice::from_ref;

use crate::answer::Answer;
use crate::bend::{Bend, bent};
use crate::form::{Entry, key_batch, mutation_batch};
use crate::run::run_call;
use crate::store::{Bytes, Kind, Lock, Record, Store};
use crate::trace::{Call, read_trace};

/// The area's bytes.
pub const AREA: usize = 131_072;
/// Beside its key and a Put's row, a stretch has two numbers; that of a lock has one more, and the primary.
pub const NUMBERS: usize = 16;
const LOCK_NUMBER: usize = 8;
/// The longest stretches: of a Rollback, of any record, and of a lock.
pub const LONGEST_ROLLBACK: usize = 48 + NUMBERS;
pub const LONGEST_RECORD: usize = LONGEST_ROLLBACK + 255;
pub const LONGEST_LOCK: usize = LONGEST_RECORD + LOCK_NUMBER + 48;
/// The bytes that may stay free before a stretch.
pub const BEFORE: usize = 1;

fn even(at: usize) -> usize {
    at + at % 2
}

/// The top after stretches of these lengths have come, one after the other.
pub fn laid(top: usize, lengths: &[usize]) -> usize {
    lengths.iter().filter(|length| **length > 0).fold(top, |top, length| even(top) + length)
}

/// The top after the area has been packed with stretches of these lengths.
pub fn packed(lengths: &[usize]) -> usize {
    even(laid(0, lengths))
}

/// The area of one store: its first byte past all that came since it was packed.
#[derive(Clone, Copy, Debug, Default)]
pub struct Area {
    top: usize,
}

impl Area {
    /// The bytes left before the end.
    pub fn gap(&self) -> usize {
        AREA - self.top
    }

    /// Runs a call on the store: its answer, and whether the area was packed anew. A refused call leaves the area.
    pub fn run(&mut self, store: &mut Store, call: &Call) -> (Answer, bool) {
        let (asked, brought) = place(store, call);
        let anew = (asked > self.gap()).then(|| packed(&store.stretches()));
        let answer = run_call(store, call);
        if answer.number != 0 {
            return (answer, false);
        }
        self.top = match call {
            Call::Restore { .. } => laid(0, &store.stretches()),
            _ => laid(anew.unwrap_or(self.top), &brought),
        };
        (answer, anew.is_some())
    }
}

/// The place for which a call asks if it is accepted, and the lengths of the stretches that it brings, 0 for an entry that
/// brings none; no place if it changes nothing.
fn place(store: &Store, call: &Call) -> (usize, Vec<usize>) {
    let (longest, brought) = match call {
        Call::Prewrite { primary, key, kind, row, .. } => {
            let entry = Entry { key: key.clone(), kind: *kind, row: row.clone() };
            (LONGEST_LOCK, new_locks(store, primary, &[entry]))
        }
        Call::PrewriteBatch { primary, batch, .. } => {
            (LONGEST_LOCK, new_locks(store, primary, &mutation_batch(batch).unwrap_or_default()))
        }
        Call::Commit { start, key, .. } => (LONGEST_RECORD, committed(store, *start, from_ref(key))),
        Call::CommitBatch { start, batch, .. } => {
            (LONGEST_RECORD, committed(store, *start, &key_batch(batch).unwrap_or_default()))
        }
        Call::Rollback { start, key, .. } => (LONGEST_ROLLBACK, rolled_back(store, *start, from_ref(key))),
        Call::RollbackBatch { start, batch, .. } => {
            (LONGEST_ROLLBACK, rolled_back(store, *start, &key_batch(batch).unwrap_or_default()))
        }
        Call::OneStep { start, commit, batch, .. } => {
            (LONGEST_RECORD, stepped(store, *start, *commit, &mutation_batch(batch).unwrap_or_default()))
        }
        _ => return (0, Vec::new()),
    };
    let entries = if brought.iter().all(|length| *length == 0) { 0 } else { brought.len() };
    ((longest + BEFORE) * entries, brought)
}

/// The bytes of an entry's record.
fn record(entry: &Entry) -> usize {
    entry.key.len() + NUMBERS + if entry.kind == Kind::Put { entry.row.len() } else { 0 }
}

/// What each entry of a prewrite brings: a lock, unless it stands already.
fn new_locks(store: &Store, primary: &[u8], entries: &[Entry]) -> Vec<usize> {
    let lock = |entry: &Entry| match store.lock_of(&entry.key) {
        Some(_) => 0,
        None => record(entry) + LOCK_NUMBER + primary.len(),
    };
    entries.iter().map(lock).collect()
}

/// What each key of a commit brings: a record with the lock's row, unless it was committed before.
fn committed(store: &Store, start: u64, keys: &[Bytes]) -> Vec<usize> {
    let record = |key: &Bytes| match store.lock_of(key) {
        Some(lock) if lock.start == start => key.len() + NUMBERS + store.default_at(key, start).map_or(0, Vec::len),
        _ => 0,
    };
    keys.iter().map(record).collect()
}

/// What each key of a rollback brings: a Rollback, unless it stands already.
fn rolled_back(store: &Store, start: u64, keys: &[Bytes]) -> Vec<usize> {
    let rollback = |key: &Bytes| match store.record_at(key, start) {
        Some(_) => 0,
        None => key.len() + NUMBERS,
    };
    keys.iter().map(rollback).collect()
}

/// What each entry of a one-step batch brings: a record, unless the batch is a replay.
fn stepped(store: &Store, start: u64, commit: u64, entries: &[Entry]) -> Vec<usize> {
    let step = |entry: &Entry| match store.record_at(&entry.key, commit) {
        Some(applied) if applied.start == start => 0,
        _ => record(entry),
    };
    entries.iter().map(step).collect()
}

/// The ops of the trace's calls that pack the area anew, in turn.
pub fn repacks(trace: &[u8]) -> Vec<u8> {
    let mut store = Store::default();
    let mut area = Area::default();
    let calls = read_trace(trace).unwrap_or_default();
    calls.iter().filter(|call| area.run(&mut store, call).1).map(|call| call.op()).collect()
}

/// The calls that bring bytes, by their ops, and the bend in which a repack by one of them loses a row.
const LOSING: [(u8, Bend); 7] = [
    (6, Bend::RepackInPrewriteLosesARow),
    (7, Bend::RepackInPrewriteBatchLosesARow),
    (8, Bend::RepackInCommitLosesARow),
    (9, Bend::RepackInCommitBatchLosesARow),
    (10, Bend::RepackInRollbackLosesARow),
    (11, Bend::RepackInRollbackBatchLosesARow),
    (12, Bend::RepackInOneStepLosesARow),
];

/// The op whose repacks lose a row now, if such a bend is in force.
pub fn losing() -> Option<u8> {
    LOSING.iter().find(|(_, bend)| bent(*bend)).map(|(op, _)| *op)
}

impl Store {
    /// The lengths of the stretches of all lines, in the order of the table: by key, a lock before the records. A row stands
    /// for exactly the Put lines, so each is one line's.
    fn stretches(&self) -> Vec<usize> {
        let row = |key: &Bytes, start| self.default_at(key, start).map_or(0, Vec::len);
        let lock = |(key, lock): (&Bytes, &Lock)| {
            let length = key.len() + NUMBERS + row(key, lock.start) + LOCK_NUMBER + lock.primary.len();
            ((key.clone(), None), length)
        };
        let record = |key: &Bytes, stamp: u64, record: &Record| {
            ((key.clone(), Some(stamp)), key.len() + NUMBERS + row(key, record.start))
        };
        let chain = |(key, chain): (&Bytes, &BTreeMap<u64, Record>)| {
            chain.iter().map(|(stamp, one)| record(key, *stamp, one)).collect::<Vec<_>>()
        };
        let all = self.locks.iter().map(lock).chain(self.records.iter().flat_map(chain));
        all.collect::<BTreeMap<(Bytes, Option<u64>), usize>>().into_values().collect()
    }

    /// The last row goes, and nothing says so.
    pub fn lose_a_row(&mut self) {
        let last = self.defaults.iter().next_back().and_then(|(key, chain)| Some((key.clone(), *chain.keys().last()?)));
        if let Some((key, start)) = last {
            self.drop_default(&key, start);
        }
    }
}

//! The floor beside mvcc.rs, which has none: change request 7 read a second time, over the Rust's own maps and by the Rust's
//! own reads, without the paper.

use std::collections::BTreeMap;

use paper::form::{key_batch, mutation_batch};
use paper::page::Bounds;
use paper::trace::Call;
use ragnor::engine::Engine;
use ragnordb_common::codec::{WriteKind, WriteRecord, is_key};
use ragnordb_common::ids::Timestamp;

use crate::rust_side::{Outcome, Side};

type Writes = BTreeMap<Vec<u8>, BTreeMap<Timestamp, WriteRecord>>;
type Defaults = BTreeMap<Vec<u8>, BTreeMap<Timestamp, Vec<u8>>>;

/// A collection: 14 first, then 7 for the first key whose lock is at or below the floor, then what is dropped. "Reads and
/// pages at moments at or above F answer as before": the Rust's own reads must, else the outcome is none that the paper has.
pub fn collect<E: Engine>(side: &mut Side<E>, floor: u64) -> Outcome {
    if side.floor > floor {
        return Outcome::BelowFloor;
    }
    let (defaults, locks, writes) = side.engine.maps();
    if let Some(lock) = locks.values().find(|lock| lock.start_timestamp.0 <= floor) {
        return Outcome::Held { transaction: lock.txn_id.0, start: lock.start_timestamp.0 };
    }
    let (defaults, writes) = left(floor, defaults, writes);
    let mut after = E::default();
    after.set_maps(defaults, locks.clone(), writes);
    let same = reads_as_before(&side.engine, &after, floor);
    *side = Side { engine: after, floor };
    if same { Outcome::Accepted { count: 0, payload: Vec::new() } } else { Outcome::NotImplemented }
}

/// What a collection leaves, from the oldest record up: a record at or below the floor goes if it is a Rollback, a Delete, or
/// a Put above which, and not above the floor, stands another record that is no Rollback. A Put's row goes with it.
fn left(floor: u64, defaults: &Defaults, writes: &Writes) -> (Defaults, Writes) {
    let (mut defaults, mut writes) = (defaults.clone(), writes.clone());
    for (key, chain) in &mut writes {
        let stamps: Vec<u64> =
            chain.iter().filter(|(_, write)| write.op != WriteKind::Rollback).map(|(at, _)| at.0).collect();
        let covered = |at: u64| stamps.iter().any(|other| *other > at && *other <= floor);
        let gone = |at: u64, write: &WriteRecord| at <= floor && (write.op != WriteKind::Put || covered(at));
        for (at, write) in chain.iter() {
            if gone(at.0, write) && write.op == WriteKind::Put {
                defaults.entry(key.clone()).or_default().remove(&write.start_timestamp);
            }
        }
        chain.retain(|at, write| !gone(at.0, write));
    }
    defaults.retain(|_, chain| !chain.is_empty());
    writes.retain(|_, chain| !chain.is_empty());
    (defaults, writes)
}

/// Does the Rust read every key of both states alike at the floor, right above it, at each stamp above it and at the last
/// moment?
fn reads_as_before<E: Engine>(before: &E, after: &E, floor: u64) -> bool {
    let (_, locks, writes) = before.maps();
    let stamps =
        |key: &Vec<u8>| writes.get(key).into_iter().flat_map(|chain| chain.keys().map(|at| at.0)).collect::<Vec<u64>>();
    writes.keys().chain(locks.keys()).all(|key| {
        let mut moments =
            stamps(key).into_iter().filter(|at| *at > floor).chain([floor, floor.saturating_add(1), u64::MAX]);
        moments.all(|moment| format!("{:?}", before.read(moment, key)) == format!("{:?}", after.read(moment, key)))
    })
}

/// Is 14 the call's answer under this floor? Its moment is below it, or its start at or below it, and no refusal goes before:
/// "in a read after 1, in a page after the resume key's 1", and "after the last 3, in a prewrite after the time to live, and
/// before any entry is judged".
pub fn below_floor(call: &Call, floor: u64) -> bool {
    let given = |numbers: &[u64]| numbers.iter().all(|number| *number != 0);
    let keys = |batch: &[u8]| key_batch(batch).is_some_and(|keys| !keys.is_empty());
    let entries = |batch: &[u8]| mutation_batch(batch).is_some_and(|entries| !entries.is_empty());
    match call {
        Call::Read { moment, key } => *moment < floor && is_key(key),
        Call::Page { moment, row_limit, byte_limit, bounds, .. } => {
            *moment < floor && given(&[*row_limit, *byte_limit]) && in_order(bounds)
        }
        Call::Prewrite { transaction, start, time_to_live, primary, .. } => {
            *start <= floor && given(&[*transaction, *start, *time_to_live]) && is_key(primary)
        }
        Call::PrewriteBatch { transaction, start, time_to_live, primary, batch } => {
            *start <= floor && given(&[*transaction, *start, *time_to_live]) && is_key(primary) && entries(batch)
        }
        Call::Commit { transaction, start, commit, .. } => {
            *start <= floor && given(&[*transaction, *start]) && commit > start
        }
        Call::CommitBatch { transaction, start, commit, batch } => {
            *start <= floor && given(&[*transaction, *start]) && commit > start && keys(batch)
        }
        Call::Rollback { transaction, start, .. } => *start <= floor && given(&[*transaction, *start]),
        Call::RollbackBatch { transaction, start, batch } => {
            *start <= floor && given(&[*transaction, *start]) && keys(batch)
        }
        Call::OneStep { transaction, start, commit, batch } => {
            *start <= floor && given(&[*transaction, *start]) && commit > start && mutation_batch(batch).is_some()
        }
        _ => false,
    }
}

fn in_order(bounds: &Bounds) -> bool {
    let Bounds { start, end, resume } = bounds;
    let crossed = matches!((start, end), (Some(start), Some(end)) if start >= end);
    [start, end, resume].into_iter().flatten().all(|key| is_key(key)) && !crossed
}

/// Has the Rust a lock at or below the floor beside it?
pub fn locked_below<E: Engine>(side: &Side<E>) -> bool {
    side.engine.maps().1.values().any(|lock| lock.start_timestamp.0 <= side.floor)
}

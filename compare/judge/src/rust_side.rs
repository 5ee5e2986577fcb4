//! mvcc.rs as a driver of calls: a call's arguments handed over, its result put into the paper's terms, and its state
//! read and set. It has no floor; the floor stands beside it (floored.rs).

use std::collections::{BTreeMap, BTreeSet};

use paper::form::{key_batch, mutation_batch};
use paper::page::Bounds;
use paper::restore::{Image, RawLock, RawRecord};
use paper::room::{DEFAULTS, LINES, LIVE_BYTES, LOCKS};
use paper::store::{Bytes, Kind, Lock, Store};
use paper::trace::Call;
use ragnor::checkpoint::CapturedMvccState;
use ragnor::engine::{Batch, Engine, Entries, Intent, Page, Range};
use ragnordb_common::codec::{LockRecord, WriteKind, WriteRecord};
use ragnordb_common::ids::{Timestamp, TxnId};
use ragnordb_common::proto::snapshot;
use ragnordb_common::{Error, Result};

use crate::floored::collect;

/// What mvcc.rs says to a call.
#[derive(Clone, Debug, PartialEq, Eq)]
pub enum Outcome {
    /// Ok, with the count and payload that TRACE.md would have; of a page, the page's own bytes.
    Accepted {
        count: u64,
        payload: Bytes,
    },
    /// WriteConflict whose text names the holder of a lock.
    Held {
        transaction: u64,
        start: u64,
    },
    /// Any other WriteConflict.
    Conflict,
    CorruptData,
    InvalidArgument,
    NotImplemented,
    /// A collection with a lower floor than the one that stands beside the Rust.
    BelowFloor,
    /// The batch or image is not in form, or the table number is 0, so there is nothing to hand over; or the Rust has no such
    /// call.
    NoCall,
}

impl Outcome {
    fn from_error(error: Error) -> Self {
        match error {
            Error::WriteConflict(text) => {
                holder(&text).map_or(Outcome::Conflict, |(transaction, start)| Outcome::Held { transaction, start })
            }
            Error::CorruptData(_) => Outcome::CorruptData,
            Error::InvalidArgument(_) => Outcome::InvalidArgument,
            Error::NotImplemented(_) => Outcome::NotImplemented,
        }
    }

    /// The name of the Rust's result.
    pub fn name(&self) -> &'static str {
        match self {
            Outcome::Accepted { .. } => "Ok",
            Outcome::Held { .. } => "WriteConflict (row is locked)",
            Outcome::Conflict => "WriteConflict",
            Outcome::CorruptData => "CorruptData",
            Outcome::InvalidArgument => "InvalidArgument",
            Outcome::NotImplemented => "NotImplemented",
            Outcome::BelowFloor => "below the floor",
            Outcome::NoCall => "no call",
        }
    }
}

/// The holder in "row is locked by transaction T at start timestamp S".
fn holder(text: &str) -> Option<(u64, u64)> {
    let (transaction, start) =
        text.strip_prefix("row is locked by transaction ")?.split_once(" at start timestamp ")?;
    Some((transaction.parse().ok()?, start.parse().ok()?))
}

/// mvcc.rs, and the floor beside it: that of the last collection or restore that was taken.
#[derive(Default)]
pub struct Side<E> {
    pub engine: E,
    pub floor: u64,
}

/// One call on mvcc.rs. It has no collection: what that leaves is worked out over its maps.
pub fn run_rust<E: Engine>(side: &mut Side<E>, call: &Call) -> Outcome {
    if let Call::Collect { floor } = call {
        return collect(side, *floor);
    }
    let said = run_engine(&mut side.engine, side.floor, call);
    if let (Call::Restore { image }, Outcome::Accepted { .. }) = (call, &said) {
        side.floor = Image::read(image).map_or(0, |image| image.floor);
    }
    said
}

fn run_engine<E: Engine>(engine: &mut E, floor: u64, call: &Call) -> Outcome {
    match call {
        Call::Read { moment, key } => {
            let examined = examined(engine, *moment, key);
            outcome(engine.read(*moment, key), |row| (examined, flagged(row)))
        }
        Call::OneIntent { moment, key } => {
            outcome(engine.one_intent(*moment, key), |lock| (0, flagged(lock.map(|lock| lock_bytes(&lock)))))
        }
        Call::Page { moment, row_limit, byte_limit, bounds, .. } => {
            let page = engine.page(*moment, *row_limit, *byte_limit, range(bounds));
            outcome(page, |page| page_bytes(page, |row| [&[row.len() as u8][..], row].concat()))
        }
        Call::IntentPage { lock_limit, bounds, .. } => {
            outcome(engine.intent_page(*lock_limit, range(bounds)), |page| page_bytes(page, lock_bytes))
        }
        Call::Conflicting { moment, lock_limit, byte_limit, bounds, .. } => {
            let page = engine.conflicting(*moment, *lock_limit, *byte_limit, range(bounds));
            outcome(page, |page| page_bytes(page, lock_bytes))
        }
        Call::Prewrite { transaction, start, time_to_live, kind, primary, key, row } => {
            let intent = Intent { transaction: *transaction, start: *start, time_to_live: *time_to_live, primary };
            let row = (*kind == Kind::Put).then_some(&row[..]);
            outcome(engine.prewrite(&intent, key, row), |()| (0, Bytes::new()))
        }
        Call::PrewriteBatch { transaction, start, time_to_live, primary, batch } => {
            let Some(batch) = mutations(batch) else {
                return Outcome::NoCall;
            };
            let intent = Intent { transaction: *transaction, start: *start, time_to_live: *time_to_live, primary };
            outcome(engine.prewrite_batch(&intent, &batch), |()| (0, Bytes::new()))
        }
        Call::Commit { transaction, start, commit, key } => {
            outcome(engine.commit(*transaction, *start, *commit, key), |()| (0, Bytes::new()))
        }
        Call::CommitBatch { transaction, start, commit, batch } => {
            let Some(keys) = key_batch(batch) else {
                return Outcome::NoCall;
            };
            let keys = keys.into_iter().collect();
            outcome(engine.commit_batch(*transaction, *start, *commit, &keys), |()| (0, Bytes::new()))
        }
        Call::Rollback { transaction, start, key } => {
            outcome(engine.rollback(*transaction, *start, key), |()| (0, Bytes::new()))
        }
        Call::RollbackBatch { transaction, start, batch } => {
            let Some(keys) = key_batch(batch) else {
                return Outcome::NoCall;
            };
            outcome(engine.rollback_batch(*transaction, *start, &keys.into_iter().collect()), |()| (0, Bytes::new()))
        }
        Call::OneStep { transaction, start, commit, batch } => {
            let Some(batch) = mutations(batch) else {
                return Outcome::NoCall;
            };
            let count = engine.one_step(*transaction, *start, *commit, &batch);
            outcome(count, |count| (count as u64, Bytes::new()))
        }
        Call::Restore { image } => match Image::read(image) {
            Some(image) => outcome(engine.restore(entries(image)), |()| (0, Bytes::new())),
            None => Outcome::NoCall,
        },
        Call::Collect { .. } | Call::Bone { .. } | Call::Bones { .. } | Call::Convert { .. } => Outcome::NoCall,
        Call::Statistics => Outcome::Accepted { count: 0, payload: numbers(&engine.statistics()) },
        Call::Marks => Outcome::Accepted { count: 0, payload: numbers(&engine.marks()) },
        Call::WriteImage { table: 0, .. } => Outcome::NoCall,
        Call::WriteImage { table, .. } => outcome(engine.capture(), |all| {
            let image = Image { floor, ..image_of(*table, all) }.write();
            (image.len() as u64, image)
        }),
    }
}

/// The Rust captures all tables into one and is not told a table number. What it captured, in its order, less the entries
/// whose key is of another table, is what the table's image must hold.
fn image_of(table: u32, all: CapturedMvccState) -> Image {
    let of_table = |key: &[u8]| key.starts_with(&table.to_be_bytes());
    let stamp = |stamp: Option<snapshot::Timestamp>| stamp.expect("every entry has its stamp").id;
    let defaults = all.default_values.into_iter().filter(|entry| of_table(&entry.key));
    let locks = all.locks.into_iter().filter(|entry| of_table(&entry.key));
    let writes = all.writes.into_iter().filter(|entry| of_table(&entry.key));
    Image {
        table,
        floor: 0,
        defaults: defaults.map(|entry| (entry.key, stamp(entry.start_timestamp), entry.row)).collect(),
        locks: locks.map(|entry| (entry.key, raw_lock(entry.record.expect("every lock has its record")))).collect(),
        writes: writes
            .map(|entry| {
                let record = entry.record.expect("every write has its record");
                let record = RawRecord { start: record.start, commit: record.commit, kind: record.kind };
                (entry.key, stamp(entry.write_timestamp), record)
            })
            .collect(),
    }
}

fn raw_lock(lock: snapshot::LockRecord) -> RawLock {
    let snapshot::LockRecord { transaction, primary, start, time_to_live, kind } = lock;
    RawLock { transaction, primary, start, time_to_live, kind }
}

/// The write records that the Rust's read looks at, which it does not say. Counted here, from its own maps, by change
/// request 6: "For an answer from a Put or Delete it is one more than the Rollbacks passed over"; where there is none, these.
fn examined<E: Engine>(engine: &E, moment: u64, key: &[u8]) -> u64 {
    let (_, _, writes) = engine.maps();
    let by = || writes.get(key).into_iter().flat_map(|chain| chain.range(..=Timestamp(moment)).rev());
    let passed = by().take_while(|(_, write)| write.op == WriteKind::Rollback).count();
    (passed + by().skip(passed).take(1).count()) as u64
}

fn outcome<T>(result: Result<T>, shown: impl FnOnce(T) -> (u64, Bytes)) -> Outcome {
    match result {
        Ok(value) => {
            let (count, payload) = shown(value);
            Outcome::Accepted { count, payload }
        }
        Err(error) => Outcome::from_error(error),
    }
}

fn range(bounds: &Bounds) -> Range<'_> {
    Range { start: bounds.start.as_deref(), end: bounds.end.as_deref(), resume: bounds.resume.as_deref() }
}

fn mutations(batch: &[u8]) -> Option<Batch> {
    let entries = mutation_batch(batch)?;
    Some(entries.into_iter().map(|entry| (entry.key, (entry.kind == Kind::Put).then_some(entry.row))).collect())
}

/// The page of 01's form that these entries make, and its length.
fn page_bytes<T>((entries, more): Page<T>, shown: impl Fn(&T) -> Bytes) -> (u64, Bytes) {
    let mut page = (entries.len() as u16).to_be_bytes().to_vec();
    for (key, entry) in &entries {
        page.push(key.len() as u8);
        page.extend_from_slice(key);
        page.extend_from_slice(&shown(entry));
    }
    page.push(u8::from(more));
    (page.len() as u64, page)
}

fn lock_bytes(lock: &LockRecord) -> Bytes {
    let mut out = lock.txn_id.0.to_be_bytes().to_vec();
    out.push(lock.primary_key.len() as u8);
    out.extend_from_slice(&lock.primary_key);
    out.extend_from_slice(&lock.start_timestamp.0.to_be_bytes());
    out.extend_from_slice(&lock.ttl_ms.to_be_bytes());
    out.push(lock.op.number());
    out
}

fn flagged(shown: Option<Bytes>) -> Bytes {
    shown.map_or(vec![0], |bytes| [&[1][..], &bytes].concat())
}

fn numbers(figures: &[u64]) -> Bytes {
    figures.iter().flat_map(|figure| figure.to_be_bytes()).collect()
}

fn entries(image: Image) -> Entries {
    let stamp = |id: u64| Some(snapshot::Timestamp { id });
    Entries {
        table: image.table,
        defaults: image
            .defaults
            .into_iter()
            .map(|(key, start, row)| snapshot::DefaultValueEntry { key, start_timestamp: stamp(start), row })
            .collect(),
        locks: image
            .locks
            .into_iter()
            .map(|(key, lock)| snapshot::LockEntry {
                key,
                record: Some(snapshot::LockRecord {
                    transaction: lock.transaction,
                    primary: lock.primary,
                    start: lock.start,
                    time_to_live: lock.time_to_live,
                    kind: lock.kind,
                }),
            })
            .collect(),
        writes: image
            .writes
            .into_iter()
            .map(|(key, at, record)| snapshot::WriteEntry {
                key,
                write_timestamp: stamp(at),
                record: Some(snapshot::WriteRecord { start: record.start, commit: record.commit, kind: record.kind }),
            })
            .collect(),
    }
}

/// Is the Rust's state the paper's, and the floor beside it?
pub fn same_state<E: Engine>(side: &Side<E>, store: &Store) -> bool {
    let (defaults, locks, writes) = side.engine.maps();
    side.floor == store.floor
        && defaults.len() == store.defaults.len()
        && locks.len() == store.locks.len()
        && writes.len() == store.records.len()
        && defaults.iter().zip(&store.defaults).all(|((key, chain), (other, rows))| {
            key == other
                && chain.len() == rows.len()
                && chain.iter().zip(rows).all(|((at, row), (start, other))| at.0 == *start && row == other)
        })
        && locks.iter().zip(&store.locks).all(|((key, lock), (other, held))| key == other && *lock == rust_lock(held))
        && writes.iter().zip(&store.records).all(|((key, chain), (other, records))| {
            key == other
                && chain.len() == records.len()
                && chain
                    .iter()
                    .zip(records)
                    .all(|((at, write), (stamp, record))| at.0 == *stamp && *write == rust_record(record))
        })
}

/// Does the Rust's own state exceed one of the four rooms? Counted here, by document 01's "Room": "At most 1,024 lines
/// (locks plus records), 256 locks, 1,024 defaults, 49,152 live bytes. Live bytes: for a default, key plus row; a lock, key
/// plus primary; a record, key."
pub fn beyond_room<E: Engine>(engine: &E) -> bool {
    let (defaults, locks, writes) = engine.maps();
    let rows = || defaults.iter().flat_map(|(key, chain)| chain.values().map(move |row| key.len() + row.len()));
    let locked = locks.iter().map(|(key, lock)| key.len() + lock.primary_key.len());
    let records = || writes.iter().flat_map(|(key, chain)| chain.values().map(move |_| key.len()));
    let live_bytes: usize = rows().chain(locked).chain(records()).sum();
    locks.len() + records().count() > LINES
        || locks.len() > LOCKS
        || rows().count() > DEFAULTS
        || live_bytes > LIVE_BYTES
}

/// Is the Rust's own state sick? Counted here, by change request 3: "a Put lock without its default; a default to which no
/// Put lock or Put record of its key and start points; two lines of one key and start". So: as many lines as pairs of key
/// and start, and the pairs of the Put lines are those of the defaults.
pub fn sick<E: Engine>(engine: &E) -> bool {
    let (defaults, locks, writes) = engine.maps();
    let locked = locks.iter().map(|(key, lock)| (key, lock.start_timestamp.0, lock.op));
    let chains = writes.iter().flat_map(|(key, chain)| chain.values().map(move |write| (key, write)));
    let recorded = chains.map(|(key, write)| (key, write.start_timestamp.0, write.op));
    let lines: Vec<(&Bytes, u64, WriteKind)> = locked.chain(recorded).collect();
    let pairs: BTreeSet<(&Bytes, u64)> = lines.iter().map(|(key, start, _)| (*key, *start)).collect();
    let puts = lines.iter().filter(|(_, _, kind)| *kind == WriteKind::Put);
    let puts: BTreeSet<(&Bytes, u64)> = puts.map(|(key, start, _)| (*key, *start)).collect();
    let rows = defaults.iter().flat_map(|(key, chain)| chain.keys().map(move |start| (key, start.0)));
    pairs.len() < lines.len() || puts != rows.collect()
}

/// Sets the Rust to the paper's state, and the floor beside it.
pub fn set_state<E: Engine>(side: &mut Side<E>, store: &Store) {
    let defaults = store.defaults.iter().map(|(key, chain)| (key.clone(), stamped(chain, |row| row.clone())));
    let locks = store.locks.iter().map(|(key, lock)| (key.clone(), rust_lock(lock)));
    let writes = store.records.iter().map(|(key, chain)| (key.clone(), stamped(chain, rust_record)));
    side.engine.set_maps(defaults.collect(), locks.collect(), writes.collect());
    side.floor = store.floor;
}

fn stamped<T, U>(chain: &BTreeMap<u64, T>, each: impl Fn(&T) -> U) -> BTreeMap<Timestamp, U> {
    chain.iter().map(|(at, item)| (Timestamp(*at), each(item))).collect()
}

fn rust_kind(kind: Kind) -> WriteKind {
    match kind {
        Kind::Put => WriteKind::Put,
        Kind::Delete => WriteKind::Delete,
        Kind::Rollback => WriteKind::Rollback,
    }
}

fn rust_lock(lock: &Lock) -> LockRecord {
    LockRecord {
        txn_id: TxnId(lock.transaction),
        primary_key: lock.primary.clone(),
        start_timestamp: Timestamp(lock.start),
        ttl_ms: lock.time_to_live,
        op: rust_kind(lock.kind),
    }
}

fn rust_record(record: &paper::store::Record) -> WriteRecord {
    WriteRecord {
        start_timestamp: Timestamp(record.start),
        commit_timestamp: Timestamp(record.commit),
        op: rust_kind(record.kind),
    }
}

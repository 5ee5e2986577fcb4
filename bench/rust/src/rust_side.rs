//! mvcc.rs as it stands, timed: its own arguments made beforehand, so that a turn holds its calls alone.

use std::collections::BTreeMap;
use std::hint::black_box;

use paper::form::mutation_batch;
use paper::restore::Image;
use paper::store::{Bytes, Kind};
use paper::trace::{Call, read_trace};
use ragnor::shown::{InMemoryMvcc, Mutation, MvccStorage};
use ragnordb_common::ids::{TableId, Timestamp, TxnId};
use ragnordb_common::proto::snapshot::{DefaultValueEntry, LockEntry, WriteEntry};
use ragnordb_common::proto::snapshot::{LockRecord, Timestamp as Stamp, WriteRecord};

use crate::cases::made_for;

type Entries = (TableId, Vec<DefaultValueEntry>, Vec<LockEntry>, Vec<WriteEntry>);

/// A call with mvcc.rs's own arguments.
enum Ready {
    Read { key: Bytes, moment: Timestamp },
    Page { start: Option<Bytes>, moment: Timestamp, rows: usize, bytes: usize },
    Prewrite { txn: TxnId, start: Timestamp, key: Bytes, mutation: Mutation, primary: Bytes, ttl: u64 },
    Commit { txn: TxnId, start: Timestamp, commit: Timestamp, key: Bytes },
    Rollback { txn: TxnId, start: Timestamp, key: Bytes },
    OneStep { txn: TxnId, start: Timestamp, commit: Timestamp, batch: BTreeMap<Bytes, Mutation> },
    Restore(Entries),
    Statistics,
    Capture,
}

impl Ready {
    fn from_call(call: &Call) -> Option<Ready> {
        Some(match call {
            Call::Read { moment, key } => Ready::Read { key: key.clone(), moment: Timestamp(*moment) },
            Call::Page { moment, row_limit, byte_limit, bounds, .. } => Ready::Page {
                start: bounds.start.clone(),
                moment: Timestamp(*moment),
                rows: *row_limit as usize,
                bytes: *byte_limit as usize,
            },
            Call::Prewrite { transaction, start, time_to_live, kind, primary, key, row } => Ready::Prewrite {
                txn: TxnId(*transaction),
                start: Timestamp(*start),
                key: key.clone(),
                mutation: mutation(*kind, row),
                primary: primary.clone(),
                ttl: *time_to_live,
            },
            Call::Commit { transaction, start, commit, key } => Ready::Commit {
                txn: TxnId(*transaction),
                start: Timestamp(*start),
                commit: Timestamp(*commit),
                key: key.clone(),
            },
            Call::Rollback { transaction, start, key } => {
                Ready::Rollback { txn: TxnId(*transaction), start: Timestamp(*start), key: key.clone() }
            }
            Call::OneStep { transaction, start, commit, batch } => Ready::OneStep {
                txn: TxnId(*transaction),
                start: Timestamp(*start),
                commit: Timestamp(*commit),
                batch: mutation_batch(batch)?.into_iter().map(|e| (e.key, mutation(e.kind, &e.row))).collect(),
            },
            Call::Restore { image } => Ready::Restore(entries(image)?),
            Call::Statistics => Ready::Statistics,
            // All tables are captured into one; the boxes have no other.
            Call::WriteImage { .. } => Ready::Capture,
            _ => return None,
        })
    }

    /// Is the call made on a copy of the store?
    fn changes(&self) -> bool {
        matches!(self, Ready::Prewrite { .. } | Ready::Commit { .. } | Ready::Rollback { .. } | Ready::OneStep { .. })
    }

    /// What the turn needs beside the call: the entries that a restore takes over.
    fn beside(&self) -> u64 {
        if let Ready::Restore(entries) = self {
            black_box(entries.clone());
        }
        1
    }

    /// Makes the call; 1 if it is accepted.
    fn run(&self, store: &mut InMemoryMvcc, turn: u64) -> u64 {
        let later = |moment: &Timestamp| Timestamp(moment.0 + turn % 2);
        let accepted = match self {
            Ready::Read { key, moment } => black_box(store.read(black_box(key), later(moment))).is_ok(),
            Ready::Page { start, moment, rows, bytes } => {
                black_box(store.scan_page(start.as_deref(), None, None, later(moment), *rows, *bytes)).is_ok()
            }
            Ready::Prewrite { txn, start, key, mutation, primary, ttl } => {
                store.prewrite(*txn, *start, black_box(key), mutation, primary, *ttl).is_ok()
            }
            Ready::Commit { txn, start, commit, key } => {
                store.commit_intent(*txn, *start, *commit, black_box(key)).is_ok()
            }
            Ready::Rollback { txn, start, key } => store.rollback_intent(*txn, *start, black_box(key)).is_ok(),
            Ready::OneStep { txn, start, commit, batch } => {
                store.commit_batch(*txn, *start, *commit, black_box(batch)).is_ok()
            }
            Ready::Restore(entries) => {
                let (table, defaults, locks, writes) = entries.clone();
                black_box(InMemoryMvcc::restore_from_snapshot_entries(table, defaults, locks, writes)).is_ok()
            }
            Ready::Statistics => {
                black_box(black_box(&*store).stats());
                true
            }
            Ready::Capture => black_box(black_box(&*store).capture_snapshot_state()).is_ok(),
        };
        u64::from(accepted)
    }
}

fn mutation(kind: Kind, row: &[u8]) -> Mutation {
    if kind == Kind::Put { Mutation::Put(row.to_vec()) } else { Mutation::Delete }
}

fn entries(image: &[u8]) -> Option<Entries> {
    let image = Image::read(image)?;
    let stamp = |id| Some(Stamp { id });
    let default = |(key, start, row)| DefaultValueEntry { key, start_timestamp: stamp(start), row };
    let lock = |(key, lock): (Bytes, paper::restore::RawLock)| LockEntry {
        key,
        record: Some(LockRecord {
            transaction: lock.transaction,
            primary: lock.primary,
            start: lock.start,
            time_to_live: lock.time_to_live,
            kind: lock.kind,
        }),
    };
    let write = |(key, at, record): (Bytes, u64, paper::restore::RawRecord)| WriteEntry {
        key,
        write_timestamp: stamp(at),
        record: Some(WriteRecord { start: record.start, commit: record.commit, kind: record.kind }),
    };
    Some((
        TableId(u64::from(image.table)),
        image.defaults.into_iter().map(default).collect(),
        image.locks.into_iter().map(lock).collect(),
        image.writes.into_iter().map(write).collect(),
    ))
}

/// The turns of an input, as the Rattle program makes them; how many calls were accepted. All calls of a turn are made
/// on one copy of the store, one after the other, since a copy takes far longer than a call.
pub fn turns(input: &[u8]) -> Option<u64> {
    let (turns, rest) = input.split_first_chunk::<8>()?;
    let (way, rest) = rest.split_first()?;
    let (length, rest) = rest.split_first_chunk::<4>()?;
    let (image, trace) = rest.split_at_checked(u32::from_be_bytes(*length) as usize)?;
    let (table, defaults, locks, writes) = entries(image)?;
    let mut store = InMemoryMvcc::restore_from_snapshot_entries(table, defaults, locks, writes).ok()?;
    let calls = read_trace(trace)?.iter().flat_map(|call| made_for(*way, call)).collect::<Vec<_>>();
    let calls = calls.iter().map(Ready::from_call).collect::<Option<Vec<_>>>()?;
    let changes = calls.iter().any(Ready::changes);
    let mut accepted = 0;
    for turn in 0..u64::from_be_bytes(*turns) {
        let mut copy = changes.then(|| store.clone());
        let on = copy.as_mut().unwrap_or(&mut store);
        for call in &calls {
            accepted += if *way == 0 { call.beside() } else { call.run(on, turn) };
        }
        black_box(&copy);
    }
    Some(accepted)
}

/// So many restores of an image, each of a copy of its entries, or the copies alone; how many were accepted.
pub fn restores(input: &[u8]) -> Option<u64> {
    let (turns, rest) = input.split_first_chunk::<8>()?;
    let (made, image) = rest.split_first()?;
    let restore = Ready::Restore(entries(image)?);
    let store = &mut InMemoryMvcc::default();
    Some(
        (0..u64::from_be_bytes(*turns))
            .map(|turn| if *made == 1 { restore.run(store, turn) } else { restore.beside() })
            .sum(),
    )
}

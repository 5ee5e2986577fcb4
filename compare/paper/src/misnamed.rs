//! Wrong holders, each a bend: with another field, of another lock, of the call's own, short in one call alone, or in an
//! answer that has none.

use crate::answer::{Answer, CONTRADICTION, HISTORY, Holder, LOCKED};
use crate::bend::{Bend, bent};
use crate::form::{Entry, key_batch, mutation_batch};
use crate::store::{Bytes, Kind, Lock, Store};
use crate::trace::Call;

/// The calls that give 7, by their ops, and the bend in which that of one of them has zeros for time to live and kind.
const SHORT: [(u8, Bend); 10] = [
    (1, Bend::HolderShortInRead),
    (2, Bend::HolderShortInPage),
    (6, Bend::HolderShortInPrewrite),
    (7, Bend::HolderShortInPrewriteBatch),
    (8, Bend::HolderShortInCommit),
    (9, Bend::HolderShortInCommitBatch),
    (10, Bend::HolderShortInRollback),
    (11, Bend::HolderShortInRollbackBatch),
    (12, Bend::HolderShortInOneStep),
    (13, Bend::HolderShortInCollect),
];

/// The calls that change the store.
const CHANGING: &[u8] = &[6, 7, 8, 9, 10, 11, 12];

/// The bends in which an answer that is no 7 has the time to live and kind of its key's lock: of which ops, and the number.
const NAMING: [(Bend, &[u8], u8); 5] = [
    (Bend::AcceptedReadNamesLock, &[1], 0),
    (Bend::OneIntentNamesLock, &[5], 0),
    (Bend::AcceptedChangeNamesLock, CHANGING, 0),
    (Bend::HistoryNamesLock, CHANGING, HISTORY),
    (Bend::ContradictionNamesLock, CHANGING, CONTRADICTION),
];

/// The lock, before the call, of the first of its keys that has one.
pub fn beside(store: &Store, call: &Call) -> Option<Lock> {
    keys_of(call).iter().find_map(|key| store.lock_of(key)).cloned()
}

/// The answer with the holder that the bend in force gives it. A 7 leaves the store as it was before the call.
pub fn misnamed(store: &Store, call: &Call, beside: Option<Lock>, mut answer: Answer) -> Answer {
    let op = call.op();
    if answer.number == LOCKED {
        answer.holder = of_another(store, call, field_for_field(answer.holder));
        if SHORT.iter().any(|(short, bend)| *short == op && bent(*bend)) {
            (answer.holder.time_to_live, answer.holder.kind) = (0, 0);
        }
    } else if NAMING.iter().any(|(bend, ops, number)| answer.number == *number && ops.contains(&op) && bent(*bend)) {
        let named = beside.map_or(Holder::default(), |lock| Holder::of(&lock));
        answer.holder = Holder { transaction: 0, start: 0, ..named };
    }
    answer
}

/// One of the lock's own fields wrong.
fn field_for_field(named: Holder) -> Holder {
    let mut holder = named;
    if bent(Bend::HolderSwapped) {
        (holder.transaction, holder.start) = (named.start, named.transaction);
    }
    if bent(Bend::HolderMissing) {
        holder = Holder::default();
    }
    if bent(Bend::HolderTimeToLiveIsStart) {
        holder.time_to_live = named.start;
    }
    if bent(Bend::HolderStartIsTimeToLive) {
        holder.start = named.time_to_live;
    }
    if bent(Bend::HolderTimeToLiveZero) || bent(Bend::HolderNewFieldsZero) {
        holder.time_to_live = 0;
    }
    if bent(Bend::HolderTimeToLiveOf32) {
        holder.time_to_live = u64::from(named.time_to_live as u32);
    }
    if bent(Bend::HolderKindZero) || bent(Bend::HolderNewFieldsZero) {
        holder.kind = 0;
    }
    if bent(Bend::HolderKindAlwaysPut) {
        holder.kind = Kind::Put.byte();
    }
    if bent(Bend::HolderKindFromZero) {
        holder.kind = named.kind - 1;
    }
    holder
}

/// A field of another line, of the call, or by its moment.
fn of_another(store: &Store, call: &Call, named: Holder) -> Holder {
    let mut holder = named;
    let key = || store.locks.iter().find(|(key, lock)| met(call, key) && Holder::of(lock) == named).map(|(key, _)| key);
    if bent(Bend::HolderFieldsOfFirstLock)
        && let Some(lock) = store.locks.values().next()
    {
        (holder.time_to_live, holder.kind) = (lock.time_to_live, lock.kind.byte());
    }
    if bent(Bend::HolderKindOfNewestRecord)
        && let Some((_, record)) = key().and_then(|key| store.records_of(key).next_back())
    {
        holder.kind = record.kind.byte();
    }
    if bent(Bend::HolderKindOfEntry)
        && let Some(entry) = key().and_then(|key| entries_of(call).into_iter().find(|entry| entry.key == *key))
    {
        holder.kind = entry.kind.byte();
    }
    match call {
        Call::Prewrite { time_to_live, .. } | Call::PrewriteBatch { time_to_live, .. }
            if bent(Bend::HolderTimeToLiveOfCall) =>
        {
            holder.time_to_live = *time_to_live;
        }
        Call::Read { moment, .. } | Call::Page { moment, .. } if bent(Bend::HolderTimeLeft) => {
            holder.time_to_live = named.time_to_live.saturating_sub(moment.saturating_sub(named.start));
        }
        _ => {}
    }
    holder
}

/// May the call meet the lock of this key? A page and a collection may meet any.
fn met(call: &Call, key: &Bytes) -> bool {
    matches!(call, Call::Page { .. } | Call::Collect { .. }) || keys_of(call).contains(key)
}

/// The keys that the call names one by one.
fn keys_of(call: &Call) -> Vec<Bytes> {
    match call {
        Call::Read { key, .. }
        | Call::OneIntent { key, .. }
        | Call::Commit { key, .. }
        | Call::Rollback { key, .. } => vec![key.clone()],
        Call::CommitBatch { batch, .. } | Call::RollbackBatch { batch, .. } => key_batch(batch).unwrap_or_default(),
        _ => entries_of(call).into_iter().map(|entry| entry.key).collect(),
    }
}

/// The entries that the call brings.
fn entries_of(call: &Call) -> Vec<Entry> {
    match call {
        Call::Prewrite { key, kind, row, .. } => vec![Entry { key: key.clone(), kind: *kind, row: row.clone() }],
        Call::PrewriteBatch { batch, .. } | Call::OneStep { batch, .. } => mutation_batch(batch).unwrap_or_default(),
        _ => Vec::new(),
    }
}

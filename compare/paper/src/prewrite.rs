//! **Prewrite** of a batch and of one entry.

use crate::answer::{BATCH, CONTRADICTION, EMPTY, HISTORY, KEY, NO_ROOM, ROW, Refusal, ZERO, refuse, refuse_held};
use crate::as_rust::no_conflict;
use crate::bend::{Bend, bent};
use crate::floor::PREWRITE;
use crate::form::{Entry, key_in_form, mutation_batch, table_of};
use crate::row::row_in_form;
use crate::single::{single_key, single_row};
use crate::store::{Kind, Lock, Store};

/// The call's own fields: what each new lock takes over.
pub struct Prewrite<'a> {
    pub transaction: u64,
    pub start: u64,
    pub time_to_live: u64,
    pub primary: &'a [u8],
}

impl Store {
    /// "**Prewrite:** batch 6, 5; .."
    pub fn prewrite_batch(&mut self, call: &Prewrite, batch: &[u8]) -> Result<(), Refusal> {
        self.start_misplaced(call.start, &PREWRITE, Bend::PrewriteFloorFirst)?;
        // "batch 6, 5"
        let Some(entries) = mutation_batch(batch) else {
            return refuse(BATCH);
        };
        if entries.is_empty() && !bent(Bend::PrewriteEmptyTaken) {
            return refuse(EMPTY);
        }
        self.prewrite_entries(call, &entries)
    }

    /// "Single forms, here and below, take the steps without 6 and 5; the kind is Put or Delete, and a Delete's row
    /// argument is ignored."
    pub fn prewrite(&mut self, call: &Prewrite, kind: Kind, key: &[u8], row: &[u8]) -> Result<(), Refusal> {
        let (key, row) = (single_key(key)?, single_row(kind, row)?);
        self.prewrite_entries(call, &[Entry { key, kind, row }])
    }

    fn prewrite_entries(&mut self, call: &Prewrite, entries: &[Entry]) -> Result<(), Refusal> {
        self.start_misplaced(call.start, &PREWRITE, Bend::PrewriteFloorBeforeZero)?;
        // "transaction, start 3"
        if call.transaction == 0 && !bent(Bend::PrewriteTransactionZero) || call.start == 0 {
            return refuse(ZERO);
        }
        if bent(Bend::TimeToLiveBeforePrimary) && call.time_to_live == 0 {
            return refuse(ZERO);
        }
        self.start_misplaced(call.start, &PREWRITE, Bend::PrewriteFloorBeforePrimary)?;
        // "primary 1"
        if !key_in_form(call.primary) && !bent(Bend::PrimaryUnjudged) {
            return refuse(KEY);
        }
        self.start_misplaced(call.start, &PREWRITE, Bend::PrewriteFloorBeforeTimeToLive)?;
        // "time to live 3"
        if call.time_to_live == 0 && !bent(Bend::TimeToLiveZeroTaken) {
            return refuse(ZERO);
        }
        // "14, below the floor [..] for a start at or below F in any changing call ([..] in a prewrite after the time to live, and
        // before any entry is judged)"
        let own = |entry: &Entry| self.lock_of(&entry.key).is_some_and(|lock| lock.own(call.transaction, call.start));
        let replay = || entries.iter().all(own);
        self.start_spared(call.start, &PREWRITE, Bend::PrewriteFloorSparesReplays, replay)?;
        if bent(Bend::PrimaryMustBeAnEntry) && !entries.iter().any(|entry| entry.key == call.primary) {
            return refuse(KEY);
        }
        if bent(Bend::PrewriteContentsFirst) {
            entries.iter().try_for_each(contents)?;
        }
        // "then per entry ascending": the whole list entry by entry
        let mut next = self.clone();
        for entry in entries {
            if let Err(refusal) = self.prewrite_judged(call, entry).map(|new| next.take_lock(call, entry, new)) {
                if bent(Bend::PrewriteAppliesAsItGoes) {
                    *self = next;
                }
                return Err(refusal);
            }
            if bent(Bend::PrewriteFirstEntryOnly) {
                break;
            }
            if bent(Bend::RoomPerEntry) && next.beyond_room() {
                return refuse(NO_ROOM);
            }
        }
        // "Then 11."
        self.take_over(next)
    }

    /// The steps of one entry: true says that it is not yet locked.
    fn prewrite_judged(&self, call: &Prewrite, entry: &Entry) -> Result<bool, Refusal> {
        let new = self.prewrite_entry(call, entry)?;
        self.start_misplaced(call.start, &PREWRITE, Bend::PrewriteFloorAfterEntry)?;
        Ok(new)
    }

    fn prewrite_entry(&self, call: &Prewrite, entry: &Entry) -> Result<bool, Refusal> {
        let key = &entry.key;
        // "1, 2"
        if bent(Bend::RowAfterHistory) {
            if !key_in_form(key) {
                return refuse(KEY);
            }
            self.prewrite_history(call, key)?;
        }
        contents(entry)?;
        self.start_misplaced(call.start, &PREWRITE, Bend::PrewriteFloorAfterContents)?;
        self.default_first(call.start, entry)?;
        if bent(Bend::PrewritePrimaryOfTable) && table_of(call.primary) != table_of(key) {
            return refuse(KEY);
        }
        let own_first = bent(Bend::OwnLockBeforeHistory)
            && self.lock_of(key).is_some_and(|lock| lock.own(call.transaction, call.start));
        let held_first = bent(Bend::LockBeforeHistory);
        if !own_first && !held_first {
            self.prewrite_history(call, key)?;
        }
        let Some(lock) = self.lock_of(key) else {
            if held_first {
                self.prewrite_history(call, key)?;
            }
            // "a default without lock, 9": the default at this start
            let any = bent(Bend::DefaultOfAnyStart) && self.defaults.contains_key(key);
            let orphan = self.default_at(key, call.start).is_some() && !bent(Bend::DefaultWithoutLockTaken);
            return if orphan || any { refuse(CONTRADICTION) } else { Ok(true) };
        };
        // "a lock of another transaction or start, 7"
        if !lock.own(call.transaction, call.start) {
            return refuse_held(lock);
        }
        if held_first {
            self.prewrite_history(call, key)?;
        }
        // "own lock with any other field [..] 9": primary, time to live or kind
        if lock.primary != call.primary && !bent(Bend::ReplayPrimaryAny)
            || lock.time_to_live != call.time_to_live && !bent(Bend::ReplayTimeToLiveAny)
            || lock.kind != entry.kind && !bent(Bend::ReplayKindAny)
        {
            return refuse(CONTRADICTION);
        }
        // "or a Put whose stored row is missing or different, 9"
        let stored = self.default_at(key, call.start);
        let faulty = match stored {
            None => !bent(Bend::ReplayRowMissingTaken),
            Some(row) => *row != entry.row && !bent(Bend::ReplayRowAny),
        };
        if entry.kind == Kind::Put && faulty {
            return refuse(CONTRADICTION);
        }
        if entry.kind == Kind::Delete && stored.is_some() && bent(Bend::ReplayDeleteWithDefaultRefused) {
            return refuse(CONTRADICTION);
        }
        // "own equal lock, accepted and unchanged"
        Ok(false)
    }

    fn prewrite_history(&self, call: &Prewrite, key: &[u8]) -> Result<(), Refusal> {
        // "each record of the key sound (9)"
        self.records_judged(key)?;
        // "any record stamp at or above start, 8 (the public Percolator paper's rule)"
        for (stamp, record) in self.records_of(key) {
            let counts = stamp > call.start || stamp == call.start && !bent(Bend::PrewriteStampAbove);
            let ignored = record.kind == Kind::Rollback && bent(Bend::PrewriteIgnoresRollbacks);
            if counts && !ignored && !no_conflict(stamp, record, call.start) {
                return refuse(HISTORY);
            }
        }
        Ok(())
    }

    /// "Each entry not yet locked gets a lock with the call's fields and the entry's kind, and a Put's row is stored
    /// at this start."
    fn take_lock(&mut self, call: &Prewrite, entry: &Entry, new: bool) {
        if !new {
            return;
        }
        let lock = Lock {
            transaction: call.transaction,
            primary: call.primary.to_vec(),
            start: call.start,
            time_to_live: call.time_to_live,
            kind: entry.kind,
        };
        self.locks.insert(entry.key.clone(), lock);
        if entry.kind == Kind::Put && !bent(Bend::PrewriteStoresNoRow) {
            self.put_default(&entry.key, call.start, &entry.row);
        }
    }
}

/// "1, 2": the key, then a Put's row.
pub fn contents(entry: &Entry) -> Result<(), Refusal> {
    if bent(Bend::RowBeforeKey) && entry.kind == Kind::Put && !row_in_form(&entry.row) {
        return refuse(ROW);
    }
    if !key_in_form(&entry.key) {
        return refuse(KEY);
    }
    let judged = entry.kind == Kind::Put || bent(Bend::DeleteRowJudged) && !entry.row.is_empty();
    if judged && !row_in_form(&entry.row) && !bent(Bend::RowUnjudged) {
        return refuse(ROW);
    }
    Ok(())
}

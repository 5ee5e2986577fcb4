//! **Rollback** of a key batch and of one key.

use crate::answer::{BATCH, CONTRADICTION, EMPTY, HISTORY, KEY, Refusal, ZERO, refuse, refuse_held};
use crate::bend::{Bend, bent};
use crate::floor::ROLLBACK;
use crate::form::{key_batch, key_in_form};
use crate::row::row_in_form;
use crate::single::single_key;
use crate::store::{Bytes, Kind, Record, Store};

impl Store {
    /// "**Rollback:** 6, 5; 3; per key: .."
    pub fn rollback_batch(&mut self, transaction: u64, start: u64, batch: &[u8]) -> Result<(), Refusal> {
        self.start_misplaced(start, &ROLLBACK, Bend::RollbackFloorFirst)?;
        // "6, 5"
        let Some(keys) = key_batch(batch) else {
            return refuse(BATCH);
        };
        if keys.is_empty() && !bent(Bend::RollbackEmptyTaken) {
            return refuse(EMPTY);
        }
        self.rollback_keys(transaction, start, &keys)
    }

    /// The single form takes "the steps without 6 and 5".
    pub fn rollback(&mut self, transaction: u64, start: u64, key: &[u8]) -> Result<(), Refusal> {
        self.rollback_keys(transaction, start, &[single_key(key)?])
    }

    fn rollback_keys(&mut self, transaction: u64, start: u64, keys: &[Bytes]) -> Result<(), Refusal> {
        self.start_misplaced(start, &ROLLBACK, Bend::RollbackFloorBeforeZero)?;
        // "3"
        if transaction == 0 && !bent(Bend::RollbackTransactionZero) || start == 0 {
            return refuse(ZERO);
        }
        // "14, below the floor [..] for a start at or below F in any changing call (after the last 3, [..] and before any entry is
        // judged)"
        let undone = |key: &Bytes| self.record_at(key, start).is_some_and(|record| record.start == start);
        let replay = || keys.iter().all(undone);
        self.start_spared(start, &ROLLBACK, Bend::RollbackFloorSparesReplays, replay)?;
        // "per key"
        let mut next = self.clone();
        for key in keys {
            match self.rollback_judged(transaction, start, key) {
                Ok(Some(())) => next.undo(start, key),
                Ok(None) => {}
                Err(refusal) => {
                    if bent(Bend::RollbackAppliesAsItGoes) {
                        *self = next;
                    }
                    return Err(refusal);
                }
            }
        }
        // "Then 11."
        self.take_over(next)
    }

    /// The steps of one key: none if its Rollback stands already.
    fn rollback_judged(&self, transaction: u64, start: u64, key: &[u8]) -> Result<Option<()>, Refusal> {
        // "1"
        if !key_in_form(key) {
            return refuse(KEY);
        }
        self.start_misplaced(start, &ROLLBACK, Bend::RollbackFloorAfterKeys)?;
        let lock = self.lock_of(key);
        if bent(Bend::RollbackLockFirst)
            && let Some(lock) = lock.filter(|lock| !lock.own(transaction, start))
        {
            return refuse_held(lock);
        }
        // "records by ascending stamp, each sound (9), with this start and not Rollback 8"
        for (stamp, record) in self.records_of(key) {
            record.judged(stamp)?;
            if record.start == start && record.kind != Kind::Rollback && !bent(Bend::RollbackOfCommittedTaken) {
                return refuse(if bent(Bend::RollbackOfCommitted9) { CONTRADICTION } else { HISTORY });
            }
        }
        let stored = self.default_at(key, start);
        if let Some(record) = self.record_at(key, start) {
            // "a record stamped with this start that is not its Rollback, 9"
            if record.kind != Kind::Rollback || record.start != start {
                if bent(Bend::RollbackOverStampTaken) {
                    return Ok(Some(()));
                }
                return refuse(if bent(Bend::RollbackOverStamp8) { HISTORY } else { CONTRADICTION });
            }
            // "its Rollback with lock or default at this start, 9": the lock of this start, of any transaction
            let locked = lock.is_some_and(|lock| lock.start == start || bent(Bend::RollbackBesideAnyLock));
            if locked && !bent(Bend::RollbackReplayLockIgnored)
                || stored.is_some() && !bent(Bend::RollbackReplayRowIgnored)
            {
                return refuse(CONTRADICTION);
            }
            // "else accepted and unchanged"
            return if bent(Bend::RollbackReplayRefused) { refuse(HISTORY) } else { Ok(None) };
        }
        // "another's lock 7"
        if let Some(lock) = lock.filter(|lock| !lock.own(transaction, start)) {
            return refuse_held(lock);
        }
        let fault = match lock.map(|lock| lock.kind) {
            // "Put lock without decoding default 9"
            Some(Kind::Put) => !stored.is_some_and(|row| row_in_form(row)) && !bent(Bend::RollbackWithoutRowTaken),
            // "Delete lock or no lock with a default 9"
            Some(Kind::Delete) => stored.is_some() && !bent(Bend::RollbackDeleteWithRowTaken),
            None => stored.is_some() && !bent(Bend::RollbackOrphanTaken),
            // "kind Rollback 9"
            Some(Kind::Rollback) => true,
        };
        if fault {
            return refuse(CONTRADICTION);
        }
        if bent(Bend::RollbackNeedsLock) && lock.is_none() {
            return refuse(HISTORY);
        }
        Ok(Some(()))
    }

    /// "Lock and its row go, a Rollback record comes."
    fn undo(&mut self, start: u64, key: &[u8]) {
        let kind = self.lock_of(key).map(|lock| lock.kind);
        if !bent(Bend::RollbackKeepsLock) {
            self.locks.remove(key);
        }
        // The row of a Put lock goes; the others have none at this point.
        if kind == Some(Kind::Put) && !bent(Bend::RollbackKeepsRow) {
            self.drop_default(key, start);
        }
        if !bent(Bend::RollbackLeavesNoRecord) {
            self.put_record(key, start, Record { start, commit: start, kind: Kind::Rollback });
        }
    }
}

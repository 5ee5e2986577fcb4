//! **Commit** of a key batch and of one key.

use crate::answer::{BATCH, CONTRADICTION, EMPTY, HISTORY, KEY, Refusal, ZERO, refuse, refuse_held};
use crate::bend::{Bend, bent};
use crate::floor::COMMIT;
use crate::form::{key_batch, key_in_form};
use crate::row::row_in_form;
use crate::single::single_key;
use crate::store::{Bytes, Kind, Record, Store};

/// The numbers of a commit or of a one-step batch.
#[derive(Clone, Copy, Debug)]
pub struct Commit {
    pub transaction: u64,
    pub start: u64,
    pub commit: u64,
}

impl Commit {
    /// "3": transaction, start, and commit not above start.
    pub fn judged(&self) -> Result<(), Refusal> {
        if self.transaction == 0 || self.start == 0 {
            return refuse(ZERO);
        }
        if self.commit < self.start || self.commit == self.start && !bent(Bend::CommitMayEqualStart) {
            return refuse(ZERO);
        }
        Ok(())
    }
}

impl Store {
    /// "**Commit:** 6, 5; 3; per key: .."
    pub fn commit_batch(&mut self, call: Commit, batch: &[u8]) -> Result<(), Refusal> {
        if bent(Bend::CommitZeroFirst) {
            call.judged()?;
        }
        self.start_misplaced(call.start, &COMMIT, Bend::CommitFloorFirst)?;
        // "6, 5"
        let Some(keys) = key_batch(batch) else {
            return refuse(BATCH);
        };
        if keys.is_empty() && !bent(Bend::CommitEmptyTaken) {
            return refuse(EMPTY);
        }
        self.commit_keys(call, &keys)
    }

    /// The single form takes "the steps without 6 and 5".
    pub fn commit(&mut self, call: Commit, key: &[u8]) -> Result<(), Refusal> {
        self.commit_keys(call, &[single_key(key)?])
    }

    fn commit_keys(&mut self, call: Commit, keys: &[Bytes]) -> Result<(), Refusal> {
        self.start_misplaced(call.start, &COMMIT, Bend::CommitFloorBeforeZero)?;
        // "3"
        call.judged()?;
        // "14, below the floor [..] for a start at or below F in any changing call (after the last 3, [..] and before any entry is
        // judged)"
        let start = if bent(Bend::CommitFloorByStamp) { call.commit } else { call.start };
        let committed = |key: &Bytes| self.record_at(key, call.commit).is_some_and(|record| record.start == call.start);
        let replay = || keys.iter().all(committed);
        self.start_spared(start, &COMMIT, Bend::CommitFloorSparesReplays, replay)?;
        if bent(Bend::CommitKeysFirst) && !keys.iter().all(|key| key_in_form(key)) {
            return refuse(KEY);
        }
        // "per key"
        let mut next = self.clone();
        for key in keys {
            match self.commit_judged(call, key) {
                Ok(None) => {}
                Ok(Some(kind)) => next.finish(call, key, kind),
                Err(refusal) => {
                    if bent(Bend::CommitAppliesAsItGoes) {
                        *self = next;
                    }
                    return Err(refusal);
                }
            }
        }
        // No 11: a line replaces a line, defaults stay, live bytes fall by the primary's length.
        *self = next;
        Ok(())
    }

    /// The steps of one key: the lock's kind if a record is to replace it, none if the call was carried out before.
    fn commit_judged(&self, call: Commit, key: &[u8]) -> Result<Option<Kind>, Refusal> {
        let Commit { transaction, start, commit } = call;
        // "1"
        if !key_in_form(key) {
            return refuse(KEY);
        }
        self.start_misplaced(start, &COMMIT, Bend::CommitFloorAfterKeys)?;
        // "records sound, 9"
        self.records_judged(key)?;
        self.commit_first(call, key)?;
        // "the lowest-stamped record with this start, if any"
        let mut with_start = self.records_of(key).filter(|(_, record)| record.start == start);
        let found = if bent(Bend::CommitHighestRecord) { with_start.next_back() } else { with_start.next() };
        if let Some((_, record)) = found {
            // "Rollback, 8"
            if record.kind == Kind::Rollback {
                return refuse(if bent(Bend::CommitOfRolledBack9) { CONTRADICTION } else { HISTORY });
            }
            // "other commit, 8"
            if record.commit != commit {
                if bent(Bend::OtherCommitTaken) {
                    return Ok(None);
                }
                return refuse(HISTORY);
            }
            // "equal commit, accepted and unchanged, but 9 if this start's lock stands": of any transaction
            let standing = self.lock_of(key).is_some_and(|lock| {
                lock.start == start && (lock.transaction == transaction || !bent(Bend::ReplayLockOfOwnAlone))
            });
            if standing && !bent(Bend::ReplayLockIgnored) {
                return refuse(CONTRADICTION);
            }
            // "or a Put's default is missing"
            let stored = self.default_at(key, start);
            if record.kind == Kind::Put && stored.is_none() && !bent(Bend::ReplayDefaultIgnored) {
                return refuse(CONTRADICTION);
            }
            if record.kind == Kind::Delete && stored.is_some() && bent(Bend::ReplayDeleteDefaultRefused) {
                return refuse(CONTRADICTION);
            }
            return if bent(Bend::ReplayRefused) { refuse(HISTORY) } else { Ok(None) };
        }
        // "None: no lock, 8"
        let Some(lock) = self.lock_of(key) else {
            return refuse(if bent(Bend::CommitNoLock9) { CONTRADICTION } else { HISTORY });
        };
        // "another's lock, 7"
        if !lock.own(transaction, start) {
            return refuse_held(lock);
        }
        let stored = self.default_at(key, start);
        let fault = match lock.kind {
            Kind::Put => !stored.is_some_and(|row| row_in_form(row)) && !bent(Bend::CommitWithoutRowTaken),
            Kind::Delete => stored.is_some() && !bent(Bend::CommitDeleteWithRowTaken),
            Kind::Rollback => true,
        };
        if fault && bent(Bend::CommitRowBeforeHistory) {
            return refuse(CONTRADICTION);
        }
        // "newest stamp at or above commit, 8": of records of any kind
        let newest = if bent(Bend::CommitNewestIgnoresRollbacks) {
            let committed = self.records_of(key).rev().find(|(_, record)| record.kind != Kind::Rollback);
            committed.map(|(stamp, _)| stamp)
        } else {
            self.newest_stamp(key)
        };
        let limit = if bent(Bend::CommitOverNoNewer) { start + 1 } else { commit };
        if newest.is_some_and(|newest| newest > limit || newest == limit && !bent(Bend::CommitNewestAbove))
            && !bent(Bend::CommitNewestIgnored)
            || self.committed_above(start, key)
        {
            return refuse(HISTORY);
        }
        // "Put whose default is missing or does not decode, Delete with a default, or kind Rollback, 9."
        if fault {
            return refuse(CONTRADICTION);
        }
        Ok(Some(lock.kind))
    }

    /// "Then a record of the lock's start and kind, stamped with the commit, replaces the lock; a Put's row stays."
    fn finish(&mut self, call: Commit, key: &[u8], kind: Kind) {
        let kind = if bent(Bend::CommitAlwaysPut) { Kind::Put } else { kind };
        if !bent(Bend::CommitKeepsLock) {
            self.locks.remove(key);
        }
        if bent(Bend::CommitDropsRow) {
            self.drop_default(key, call.start);
        }
        self.put_record(key, call.commit, Record { start: call.start, commit: call.commit, kind });
    }
}

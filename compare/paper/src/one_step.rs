//! **One-step batch**: prewrite and commit of a batch in one call.

use crate::answer::{BATCH, CONTRADICTION, HISTORY, Refusal, refuse, refuse_held};
use crate::as_rust::no_conflict;
use crate::bend::{Bend, bent};
use crate::commit::Commit;
use crate::floor::ONE_STEP;
use crate::form::{Entry, mutation_batch};
use crate::prewrite::contents;
use crate::store::{Kind, Record, Store};

impl Store {
    /// "**One-step batch:** 6; 3; each entry in turn 1, 2; empty, accepted with count 0. .."
    pub fn one_step(&mut self, call: Commit, batch: &[u8]) -> Result<u64, Refusal> {
        self.start_misplaced(call.start, &ONE_STEP, Bend::OneStepFloorFirst)?;
        // "6"
        let Some(entries) = mutation_batch(batch) else {
            return refuse(BATCH);
        };
        if bent(Bend::OneStepEmptyFirst) && entries.is_empty() {
            return Ok(0);
        }
        self.start_misplaced(call.start, &ONE_STEP, Bend::OneStepFloorBeforeZero)?;
        // "3"
        call.judged()?;
        // "14, below the floor [..] for a start at or below F in any changing call (after the last 3, [..] and before any entry is
        // judged)": of an empty batch too
        let start = if bent(Bend::OneStepFloorByStamp) { call.commit } else { call.start };
        let applied = |entry: &Entry| self.record_at(&entry.key, call.commit).is_some_and(|at| at.start == call.start);
        let replay = || !entries.is_empty() && entries.iter().all(applied);
        self.start_spared(start, &ONE_STEP, Bend::OneStepFloorSparesReplays, replay)?;
        if !entries.is_empty() {
            self.start_misplaced(start, &ONE_STEP, Bend::OneStepEmptyBelowFloorTaken)?;
        }
        // "each entry in turn 1, 2"
        if !bent(Bend::OneStepContentsLater) {
            entries.iter().try_for_each(|entry| {
                contents(entry)?;
                self.default_first(call.start, entry)
            })?;
        }
        self.start_misplaced(call.start, &ONE_STEP, Bend::OneStepFloorAfterContents)?;
        // "empty, accepted with count 0."
        let count = entries.len() as u64;
        if entries.is_empty() {
            return Ok(count);
        }
        if bent(Bend::OneStepLocksBeforeReplay) {
            entries.iter().try_for_each(|entry| self.one_step_lock(call, entry))?;
        }
        let mut applied = 0;
        for entry in &entries {
            applied += u64::from(self.applied(call, entry)?);
        }
        // "All applied: accepted, unchanged."
        if applied == count {
            if bent(Bend::OneStepReplayDropsLock) {
                entries.iter().for_each(|entry| self.drop_own_lock(call, entry));
            }
            return Ok(if bent(Bend::OneStepReplayCountsNone) { 0 } else { count });
        }
        // "Some: 9."
        if applied > 0 && !bent(Bend::OneStepSomeTaken) {
            return refuse(CONTRADICTION);
        }
        // "None: per entry, another's lock 7, own lock of other kind 9, unsound record 9, record at or above start 8"
        for entry in entries.iter().filter(|entry| applied == 0 || !self.applied(call, entry).unwrap_or(false)) {
            if bent(Bend::OneStepContentsLater) {
                contents(entry)?;
            }
            if bent(Bend::OneStepHistoryFirst) {
                self.one_step_history(call, entry)?;
            }
            self.one_step_lock(call, entry)?;
            self.one_step_history(call, entry)?;
        }
        // "then per entry newest at or above commit 8"
        for entry in &entries {
            let newest = self.newest_stamp(&entry.key);
            if newest.is_some_and(|newest| newest >= call.commit) && !bent(Bend::OneStepNewestUnjudged) {
                return refuse(HISTORY);
            }
        }
        let mut next = self.clone();
        let stored = if bent(Bend::OneStepFirstEntryOnly) { &entries[..1] } else { &entries };
        stored.iter().for_each(|entry| next.one_step_entry(call, entry));
        // "11."
        self.take_over(next)?;
        // "The count is the number of entries."
        Ok(if bent(Bend::OneStepCountsPuts) {
            entries.iter().filter(|entry| entry.kind == Kind::Put).count() as u64
        } else {
            count
        })
    }

    /// "An entry is applied if the record at commit has this start, this kind and, for a Put, this row; same start but
    /// other kind or row, 9." A record of another start is left to the later steps.
    fn applied(&self, call: Commit, entry: &Entry) -> Result<bool, Refusal> {
        let Some(record) = self.record_at(&entry.key, call.commit) else {
            return Ok(false);
        };
        if record.start != call.start {
            return if bent(Bend::OneStepOccupied9) { refuse(CONTRADICTION) } else { Ok(false) };
        }
        let same_kind = record.kind == entry.kind || bent(Bend::OneStepReplayKindAny);
        let same_row = entry.kind != Kind::Put
            || self.default_at(&entry.key, call.start) == Some(&entry.row)
            || bent(Bend::OneStepReplayRowAny);
        if same_kind && same_row {
            return Ok(true);
        }
        if bent(Bend::OneStepOtherRowNotApplied) { Ok(false) } else { refuse(CONTRADICTION) }
    }

    /// "another's lock 7, own lock of other kind 9"
    fn one_step_lock(&self, call: Commit, entry: &Entry) -> Result<(), Refusal> {
        let Some(lock) = self.lock_of(&entry.key) else {
            return Ok(());
        };
        if !lock.own(call.transaction, call.start) {
            return refuse_held(lock);
        }
        if lock.kind != entry.kind && !bent(Bend::OneStepOwnKindAny) {
            return refuse(CONTRADICTION);
        }
        Ok(())
    }

    /// "unsound record 9, record at or above start 8"
    fn one_step_history(&self, call: Commit, entry: &Entry) -> Result<(), Refusal> {
        self.records_judged(&entry.key)?;
        for (stamp, record) in self.records_of(&entry.key) {
            let counts = stamp > call.start || stamp == call.start && !bent(Bend::OneStepStampAbove);
            let ignored = record.kind == Kind::Rollback && bent(Bend::OneStepIgnoresRollbacks);
            if counts && !ignored && !no_conflict(stamp, record, call.start) {
                return refuse(HISTORY);
            }
        }
        Ok(())
    }

    /// "Each entry gets a record of this start and its kind, stamped with the commit; a Put's row is stored and
    /// replaces one already stored at this start; an own lock goes."
    fn one_step_entry(&mut self, call: Commit, entry: &Entry) {
        let Commit { start, commit, .. } = call;
        self.put_record(&entry.key, commit, Record { start, commit, kind: entry.kind });
        let keep = bent(Bend::OneStepOldRowStays) && self.default_at(&entry.key, start).is_some();
        if entry.kind == Kind::Put && !keep {
            self.put_default(&entry.key, start, &entry.row);
        }
        // A Delete drops no default at its start.
        if entry.kind == Kind::Delete && bent(Bend::OneStepDeleteDropsRow) {
            self.drop_default(&entry.key, start);
        }
        if !bent(Bend::OneStepKeepsLock) {
            self.drop_own_lock(call, entry);
        }
    }

    fn drop_own_lock(&mut self, call: Commit, entry: &Entry) {
        if self.lock_of(&entry.key).is_some_and(|lock| lock.own(call.transaction, call.start)) {
            self.locks.remove(&entry.key);
        }
    }
}

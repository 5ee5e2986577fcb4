//! Rules of mvcc.rs that the paper does not have, or has elsewhere, each as a bend: with it the paper answers as the Rust
//! does. docs/DIFFERENCES.md describes them; the comparison of the two names a difference only by one of these.

use crate::answer::{CONTRADICTION, Refusal, refuse, refuse_held};
use crate::bend::{Bend, bent};
use crate::commit::Commit;
use crate::form::Entry;
use crate::store::{Kind, Record, Store};

/// Is this record of the key, stamped at or above the start, no conflict to the Rust's `validate_write_history`?
pub fn no_conflict(stamp: u64, record: &Record, start: u64) -> bool {
    match record.kind {
        Kind::Rollback => stamp > start && bent(Bend::RustRollbackAbove),
        _ => stamp == start && bent(Bend::RustStampAtStart),
    }
}

impl Store {
    /// What `validate_mutation` as shown asks of an entry in form: a Put's row must be the one stored at the start, if one
    /// is, and a Delete's start must have none.
    pub fn default_first(&self, start: u64, entry: &Entry) -> Result<(), Refusal> {
        let stored = self.default_at(&entry.key, start);
        let fault = match entry.kind {
            Kind::Put => stored.is_some_and(|row| *row != entry.row),
            _ => stored.is_some(),
        };
        if fault && bent(Bend::RustDefaultFirst) { refuse(CONTRADICTION) } else { Ok(()) }
    }

    /// What `prepare_intent_commit` asks of a key before the records of this start: of the record at the commit, or,
    /// without one, of the lock.
    pub fn commit_first(&self, call: Commit, key: &[u8]) -> Result<(), Refusal> {
        let Commit { transaction, start, commit } = call;
        if let Some(record) = self.record_at(key, commit) {
            let other = record.start != start && bent(Bend::RustCommitTaken);
            return if other { refuse(CONTRADICTION) } else { Ok(()) };
        }
        match self.lock_of(key) {
            Some(lock) if !lock.own(transaction, start) && bent(Bend::RustCommitHolderFirst) => refuse_held(lock),
            _ => Ok(()),
        }
    }

    /// A Put or Delete stamped above the start, for which `prepare_intent_commit` asks too.
    pub fn committed_above(&self, start: u64, key: &[u8]) -> bool {
        let above = |(stamp, record): (u64, &Record)| stamp > start && record.kind != Kind::Rollback;
        bent(Bend::RustCommitBetween) && self.records_of(key).any(above)
    }
}

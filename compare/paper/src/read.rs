//! **Read**, with the count of change request 6, and "One intent at a point".

use crate::answer::{BELOW_FLOOR, CONTRADICTION, KEY, Refusal, ZERO, refuse, refuse_held};
use crate::bend::{Bend, any_bent, bent};
use crate::floor::READ;
use crate::form::key_in_form;
use crate::row::row_in_form;
use crate::store::{Bytes, Kind, Lock, Record, Store};

/// What a read comes to: the row that it shows, nothing or a refusal, and "the number of write records it examined".
pub struct Looked<'a> {
    pub shown: Shown<'a>,
    pub examined: u64,
}

type Shown<'a> = Result<Option<&'a Bytes>, Refusal>;

impl Store {
    /// "**Read:** 1; lock with start at or below the moment, 7; then records .." "14, below the floor, for a read or row page
    /// moment below F (in a read after 1".
    pub fn read(&self, moment: u64, key: &[u8]) -> Looked<'_> {
        let below = self.moment_at_floor(moment, READ);
        if bent(Bend::ReadFloorFirst)
            && let Err(refusal) = below
        {
            return unexamined(Err(refusal));
        }
        // "1"
        if !key_in_form(key) && !bent(Bend::ReadKeyUnjudged) {
            return unexamined(refuse(KEY));
        }
        if bent(Bend::ReadMomentZeroRefused) && moment == 0 {
            return unexamined(refuse(ZERO));
        }
        // "14, below the floor"
        if let Err(refusal) = below
            && !self.floor_misread(moment, key)
        {
            let by = self.records_by(moment, key).len() as u64;
            return Looked { shown: Err(refusal), examined: by * u64::from(bent(Bend::ReadFloorCounts)) };
        }
        let looked = self.read_key(moment, key);
        if any_bent() { self.miscounted(moment, key, looked) } else { looked }
    }

    /// Is a read below the floor let through, or refused for something else?
    fn floor_misread(&self, moment: u64, key: &[u8]) -> bool {
        bent(Bend::ReadFloorOfRecordsAlone) && !self.records.contains_key(key)
            || bent(Bend::ReadFloorAfterLock) && self.lock_by(moment, key).is_err()
            || bent(Bend::ReadFloorAfterHistory) && !matches!(self.read_key(moment, key).shown, Ok(None))
    }

    /// The read's steps after its key was judged, as a page takes them for each key.
    pub fn read_key(&self, moment: u64, key: &[u8]) -> Looked<'_> {
        if bent(Bend::ReadLockLast) {
            let looked = self.read_history(moment, key);
            return match (&looked.shown, self.lock_by(moment, key)) {
                (Ok(None), Err(refusal)) => unexamined(Err(refusal)),
                _ => looked,
            };
        }
        // "lock with start at or below the moment, 7"
        match self.lock_by(moment, key) {
            Err(refusal) => unexamined(Err(refusal)),
            Ok(()) => self.read_history(moment, key),
        }
    }

    fn lock_by(&self, moment: u64, key: &[u8]) -> Result<(), Refusal> {
        match self.lock_of(key) {
            Some(lock) if at_or_below(lock.start, moment) => refuse_held(lock),
            _ => Ok(()),
        }
    }

    fn read_history(&self, moment: u64, key: &[u8]) -> Looked<'_> {
        // "then records from the newest at or below the moment downward, each checked (9)"
        let mut walk = self.records_by(moment, key);
        if bent(Bend::ReadFromTheOldest) {
            walk.reverse();
        }
        let mut examined = 0;
        for (stamp, record) in walk {
            // "the number of write records it examined, the refusing one included"
            examined += 1;
            if let Some(shown) = self.read_record(key, stamp, record) {
                return Looked { shown, examined };
            }
        }
        Looked { shown: Ok(None), examined }
    }

    /// The key's records at or below the moment, the newest first.
    pub fn records_by(&self, moment: u64, key: &[u8]) -> Vec<(u64, &Record)> {
        let by = |stamp: u64| stamp < moment || stamp == moment && !bent(Bend::ReadRecordStrictlyBelow);
        self.records_of(key).rev().filter(|(stamp, _)| by(*stamp)).collect()
    }

    /// What the read comes to at this record; none says go on.
    fn read_record(&self, key: &[u8], stamp: u64, record: &Record) -> Option<Shown<'_>> {
        if !bent(Bend::ReadRecordUnjudged)
            && let Err(refusal) = record.judged(stamp)
        {
            return Some(Err(refusal));
        }
        match record.kind {
            // "Rollback, go on"
            Kind::Rollback if bent(Bend::RollbackReadsAsDelete) => Some(Ok(None)),
            Kind::Rollback => None,
            // "Delete, nothing"
            Kind::Delete if bent(Bend::DeleteReadsThrough) => None,
            Kind::Delete => Some(Ok(None)),
            // "Put, its default must exist and decode (9), shown."
            Kind::Put if bent(Bend::ReadNewestDefault) => {
                Some(Ok(self.defaults.get(key).and_then(|chain| chain.values().next_back())))
            }
            Kind::Put => Some(match self.default_at(key, record.start) {
                Some(row) if row_in_form(row) || bent(Bend::ReadRowUnjudged) => Ok(Some(row)),
                _ => refuse(CONTRADICTION),
            }),
        }
    }

    /// "One intent at a point: 1; no lock or one above the moment, nothing; unsound, 9; else the lock".
    pub fn one_intent(&self, moment: u64, key: &[u8]) -> Result<Option<&Lock>, Refusal> {
        // "1"
        if !key_in_form(key) {
            return refuse(KEY);
        }
        if bent(Bend::OneIntentFloorJudged) && moment < self.floor {
            return refuse(BELOW_FLOOR);
        }
        // "no lock or one above the moment, nothing"
        let Some(lock) = self.lock_of(key) else {
            return Ok(None);
        };
        let above = lock.start > moment && !bent(Bend::OneIntentAtAnyMoment)
            || lock.start == moment && bent(Bend::OneIntentStrictlyBelow);
        if above {
            return Ok(None);
        }
        // "unsound, 9"
        if !lock.sound() && !bent(Bend::OneIntentUnjudged) {
            return refuse(CONTRADICTION);
        }
        // "else the lock"
        Ok(Some(lock))
    }
}

/// "Other refusals still count 0".
fn unexamined(shown: Shown<'_>) -> Looked<'_> {
    Looked { shown, examined: 0 }
}

fn at_or_below(start: u64, moment: u64) -> bool {
    if bent(Bend::ReadLockAtAnyMoment) {
        return true;
    }
    start < moment || start == moment && !bent(Bend::ReadLockStrictlyBelow)
}

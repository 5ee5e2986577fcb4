//! Sick images (change request 3): "Restore shall also refuse: a Put lock without its default; a default to which no Put
//! lock or Put record of its key and start points; two lines of one key and start."

use std::collections::{BTreeMap, BTreeSet};

use crate::bend::{Bend, bent};
use crate::store::{Bytes, Kind, Record, Store};

/// What makes an image sick.
#[derive(Clone, Copy, Debug, PartialEq, Eq, PartialOrd, Ord)]
pub enum Sickness {
    LockWithoutDefault,
    Orphan,
    TwoLines,
}

impl Store {
    /// Is the store that an image brings sick?
    pub fn sick(&self) -> bool {
        let found = !bent(Bend::RustSickTaken) && !self.sicknesses().is_empty();
        found || bent(Bend::LowLockRefused) && self.has_low_lock() || self.shares_a_start()
    }

    /// All that makes it so.
    pub fn sicknesses(&self) -> BTreeSet<Sickness> {
        let mut found = BTreeSet::new();
        if self.has_lock_without_default() {
            found.insert(Sickness::LockWithoutDefault);
        }
        if self.has_orphan() {
            found.insert(Sickness::Orphan);
        }
        if self.has_two_records() || self.has_lock_beside_record() {
            found.insert(Sickness::TwoLines);
        }
        found
    }

    /// "a Put lock without its default": the default of the lock's key and start.
    fn has_lock_without_default(&self) -> bool {
        self.locks.iter().any(|(key, lock)| {
            let taken = bent(Bend::PutLockWithoutDefaultTaken)
                || bent(Bend::PutLockWithAnyDefaultTaken) && self.defaults.contains_key(key);
            lock.kind == Kind::Put && self.default_at(key, lock.start).is_none() && !taken
        })
    }

    /// "a default to which no Put lock or Put record of its key and start points": a Delete or a Rollback does not help.
    fn has_orphan(&self) -> bool {
        let starts = self.defaults.iter().flat_map(|(key, chain)| chain.keys().map(move |start| (key, *start)));
        starts.into_iter().any(|(key, start)| {
            let pointed = |kind, at| kind == Kind::Put && at == start;
            let locked = self.lock_of(key).is_some_and(|lock| pointed(lock.kind, lock.start));
            let recorded = self.records_of(key).any(|(_, record)| pointed(record.kind, record.start));
            let alone = !recorded && (!locked || bent(Bend::LockedDefaultRefused));
            alone && !bent(Bend::OrphanTaken) && !self.orphan_misread(key, start)
        })
    }

    /// Wrong readings that let an orphan through.
    fn orphan_misread(&self, key: &Bytes, start: u64) -> bool {
        let line = || self.records_of(key).any(|(_, record)| record.start == start);
        let lock = || self.lock_of(key).is_some_and(|lock| lock.start == start);
        let puts = || self.puts().into_iter();
        bent(Bend::OrphanBesideLineTaken) && (line() || lock())
            || bent(Bend::OrphanBesideDeleteLockTaken) && lock()
            || bent(Bend::OrphanOfAnyStartTaken) && puts().any(|(other, _)| other == key)
            || bent(Bend::OrphanBelowPutsTaken) && puts().any(|put| put > (key, start))
            || bent(Bend::OrphanBeyondPutsTaken) && puts().all(|put| put < (key, start))
    }

    /// The key and start of each Put line.
    fn puts(&self) -> Vec<(&Bytes, u64)> {
        let locks = self.locks.iter().filter(|(_, lock)| lock.kind == Kind::Put);
        let chains = self.records.iter().flat_map(|(key, chain)| chain.values().map(move |record| (key, record)));
        let records = chains.filter(|(_, record)| record.kind == Kind::Put);
        locks.map(|(key, lock)| (key, lock.start)).chain(records.map(|(key, record)| (key, record.start))).collect()
    }

    /// "two lines of one key and start": two records with different stamps, of whatever kinds.
    fn has_two_records(&self) -> bool {
        self.records.values().any(|chain| {
            let records: Vec<&Record> = chain.values().collect();
            let mut places = BTreeMap::new();
            (0..records.len()).any(|at| {
                let before = places.insert(records[at].start, at);
                before.is_some_and(|before| !two_records_misread(&records[before..=at]))
            })
        })
    }

    /// The same of a lock, of any transaction, and a record.
    fn has_lock_beside_record(&self) -> bool {
        self.locks.iter().any(|(key, lock)| {
            self.records_of(key).filter(|(_, record)| record.start == lock.start).any(|(_, record)| {
                !bent(Bend::LockBesideRecordTaken)
                    && !(bent(Bend::LockBesideRollbackTaken) && record.kind == Kind::Rollback)
            })
        })
    }

    /// A lock whose start is at or below a stamp of its key, which is none of the three.
    fn has_low_lock(&self) -> bool {
        self.locks.iter().any(|(key, lock)| self.newest_stamp(key).is_some_and(|newest| newest >= lock.start))
    }

    /// One start on two keys, for the bend that minds it; "of one key and start" are both.
    fn shares_a_start(&self) -> bool {
        if !bent(Bend::OneStartOnTwoKeysRefused) {
            return false;
        }
        let mut keys: BTreeMap<u64, BTreeSet<&Bytes>> = BTreeMap::new();
        for (key, lock) in &self.locks {
            keys.entry(lock.start).or_default().insert(key);
        }
        for (key, chain) in &self.records {
            chain.values().for_each(|record| {
                keys.entry(record.start).or_default().insert(key);
            });
        }
        keys.values().any(|keys| keys.len() > 1)
    }
}

/// Wrong readings that let two records of one key and start through: the first and the last of these, by ascending stamp,
/// with what is stamped between.
fn two_records_misread(records: &[&Record]) -> bool {
    let (first, last) = (records[0].kind, records[records.len() - 1].kind);
    bent(Bend::TwoRecordsTaken)
        || bent(Bend::TwoRecordsApartTaken) && records.len() > 2
        || bent(Bend::TwoPutsTaken) && (first, last) == (Kind::Put, Kind::Put)
        || bent(Bend::RollbackBesideRecordTaken) && first == Kind::Rollback
}

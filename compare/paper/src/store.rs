//! The box over maps: defaults, locks and records, and what makes a lock or a record sound.

use std::collections::BTreeMap;

use crate::answer::{CONTRADICTION, Refusal, refuse};
use crate::bend::{Bend, bent};
use crate::form::key_in_form;
use crate::room::Use;

pub type Bytes = Vec<u8>;

/// "Kinds: 1 Put, 2 Delete, 3 Rollback."
#[derive(Clone, Copy, Debug, PartialEq, Eq)]
pub enum Kind {
    Put,
    Delete,
    Rollback,
}

impl Kind {
    pub fn byte(self) -> u8 {
        match self {
            Kind::Put => 1,
            Kind::Delete => 2,
            Kind::Rollback => 3,
        }
    }

    pub fn from_byte(byte: u8) -> Option<Kind> {
        match byte {
            1 => Some(Kind::Put),
            2 => Some(Kind::Delete),
            3 => Some(Kind::Rollback),
            _ => None,
        }
    }
}

#[derive(Clone, Debug, PartialEq, Eq)]
pub struct Lock {
    pub transaction: u64,
    pub primary: Bytes,
    pub start: u64,
    pub time_to_live: u64,
    pub kind: Kind,
}

impl Lock {
    /// "Sound lock: transaction, start, time to live not 0, kind Put or Delete, primary a key."
    pub fn sound(&self) -> bool {
        (self.transaction != 0 || bent(Bend::LockTransactionZero))
            && (self.start != 0 || bent(Bend::LockStartZero))
            && (self.time_to_live != 0 || bent(Bend::LockTimeToLiveZero))
            && (self.kind != Kind::Rollback || bent(Bend::LockKindRollback))
            && (key_in_form(&self.primary) || bent(Bend::LockPrimaryAny))
    }

    /// Own means that both transaction and start are the call's.
    pub fn own(&self, transaction: u64, start: u64) -> bool {
        if bent(Bend::OwnByStart) {
            return self.start == start;
        }
        if bent(Bend::OwnByTransaction) {
            return self.transaction == transaction;
        }
        self.transaction == transaction && self.start == start
    }

    /// "Lock: 8-byte transaction, primary length, primary, 8-byte start, 8-byte time to live, kind byte."
    pub fn write(&self, out: &mut Bytes) {
        let (mut start, mut time_to_live) = (self.start, self.time_to_live);
        if bent(Bend::LockFieldsSwapped) {
            (start, time_to_live) = (time_to_live, start);
        }
        out.extend_from_slice(&self.transaction.to_be_bytes());
        out.push(self.primary.len() as u8);
        out.extend_from_slice(&self.primary);
        out.extend_from_slice(&start.to_be_bytes());
        out.extend_from_slice(&time_to_live.to_be_bytes());
        out.push(self.kind.byte());
    }
}

#[derive(Clone, Copy, Debug, PartialEq, Eq)]
pub struct Record {
    pub start: u64,
    pub commit: u64,
    pub kind: Kind,
}

impl Record {
    /// "Sound record: its commit equals its write stamp; start not 0; Put and Delete have commit above start,
    /// Rollback has commit equal to start".
    pub fn sound(&self, stamp: u64) -> bool {
        (self.commit == stamp || bent(Bend::RecordStampAny))
            && (self.start != 0 || bent(Bend::RecordStartZero))
            && match self.kind {
                Kind::Put | Kind::Delete => {
                    self.commit > self.start || self.commit == self.start && bent(Bend::RecordCommitEqual)
                }
                Kind::Rollback => {
                    self.commit == self.start || self.commit > self.start && bent(Bend::RollbackCommitAbove)
                }
            }
    }

    /// "otherwise 9".
    pub fn judged(&self, stamp: u64) -> Result<(), Refusal> {
        if self.sound(stamp) || bent(Bend::StoredRecordUnjudged) { Ok(()) } else { refuse(CONTRADICTION) }
    }
}

/// "A line is either a standing intent with its kind or a finished record; a fresh store has none."
#[derive(Clone, Debug, Default, PartialEq, Eq)]
pub struct Store {
    pub defaults: BTreeMap<Bytes, BTreeMap<u64, Bytes>>,
    pub locks: BTreeMap<Bytes, Lock>,
    pub records: BTreeMap<Bytes, BTreeMap<u64, Record>>,
    /// "The floor is part of the store, begins at 0".
    pub floor: u64,
    /// Room that collections have freed and that is taken still; by a bend alone.
    pub unfreed: Use,
}

impl Store {
    pub fn default_at(&self, key: &[u8], start: u64) -> Option<&Bytes> {
        self.defaults.get(key)?.get(&start)
    }

    pub fn lock_of(&self, key: &[u8]) -> Option<&Lock> {
        self.locks.get(key)
    }

    /// A key's records by ascending stamp.
    pub fn records_of(&self, key: &[u8]) -> impl DoubleEndedIterator<Item = (u64, &Record)> {
        self.records.get(key).into_iter().flatten().map(|(stamp, record)| (*stamp, record))
    }

    pub fn record_at(&self, key: &[u8], stamp: u64) -> Option<&Record> {
        self.records.get(key)?.get(&stamp)
    }

    pub fn newest_stamp(&self, key: &[u8]) -> Option<u64> {
        self.records_of(key).next_back().map(|(stamp, _)| stamp)
    }

    /// Each record of the key sound, else 9.
    pub fn records_judged(&self, key: &[u8]) -> Result<(), Refusal> {
        self.records_of(key).try_for_each(|(stamp, record)| record.judged(stamp))
    }

    pub fn put_default(&mut self, key: &[u8], start: u64, row: &[u8]) {
        self.defaults.entry(key.to_vec()).or_default().insert(start, row.to_vec());
    }

    /// A key without defaults stands in no map, so that keys with a default can be counted.
    pub fn drop_default(&mut self, key: &[u8], start: u64) {
        if let Some(chain) = self.defaults.get_mut(key) {
            chain.remove(&start);
            if chain.is_empty() {
                self.defaults.remove(key);
            }
        }
    }

    pub fn put_record(&mut self, key: &[u8], stamp: u64, record: Record) {
        self.records.entry(key.to_vec()).or_default().insert(stamp, record);
    }
}

//! Changing calls, aimed: at standing locks, at records for replays, at the starts of defaults, or at nothing yet.

use std::collections::BTreeSet;

use paper::form::{Entry, key_in_form};
use paper::store::{Bytes, Kind};
use paper::trace::Call;

use crate::batch::{broken_keys, broken_mutations, key_bytes, mutation_bytes};
use crate::maker::Maker;
use crate::rows::{row, row_out_of_form};
use crate::stock::{stamp, time_to_live, transaction};

/// What a changing call is aimed at; the keys ascend.
pub struct Aim {
    transaction: u64,
    start: u64,
    commit: u64,
    keys: Vec<Bytes>,
}

impl Maker {
    pub fn prewrite(&mut self, op: u8, faulty: bool) -> Call {
        let aim = self.aim([35, 10, 10, 45], faulty);
        let entries = self.entries(&aim, faulty, op == 6);
        let held = self.store.lock_of(&aim.keys[0]).filter(|lock| lock.start == aim.start).cloned();
        let mut primary = match &held {
            Some(lock) if self.random.percent(85) => lock.primary.clone(),
            _ if self.random.percent(50) => aim.keys[0].clone(),
            _ => self.stock.key(&mut self.random, &self.store),
        };
        if self.random.percent(if faulty { 35 } else { 2 }) {
            primary = self.stock.key_out_of_form(&mut self.random, true);
        }
        let time_to_live = match &held {
            _ if self.random.percent(if faulty { 30 } else { 2 }) => 0,
            Some(lock) if self.random.percent(85) => lock.time_to_live,
            _ => time_to_live(&mut self.random),
        };
        let Aim { transaction, start, .. } = aim;
        if op == 7 {
            let batch = self.mutation_batch(entries, faulty);
            return Call::PrewriteBatch { transaction, start, time_to_live, primary, batch };
        }
        let Entry { mut key, kind, mut row } = entries.into_iter().next().expect("an aim has a key");
        if self.random.percent(if faulty { 10 } else { 1 }) {
            key = self.stock.key_out_of_form(&mut self.random, true);
        }
        // A Delete's row argument is ignored, whatever it is.
        if kind == Kind::Delete {
            row = if self.random.percent(50) { row_out_of_form(&mut self.random, true) } else { Bytes::new() };
        }
        Call::Prewrite { transaction, start, time_to_live, kind, primary, key, row }
    }

    pub fn commit(&mut self, op: u8, faulty: bool) -> Call {
        let aim = self.aim([60, 25, 5, 10], faulty);
        let Aim { transaction, start, commit, .. } = aim;
        if op == 8 {
            let key = self.single(&aim, faulty);
            return Call::Commit { transaction, start, commit, key };
        }
        Call::CommitBatch { transaction, start, commit, batch: self.key_batch(aim.keys, faulty) }
    }

    pub fn rollback(&mut self, op: u8, faulty: bool) -> Call {
        let mut aim = self.aim([45, 25, 12, 18], faulty);
        // A record may be stamped with the start of a rollback: its commit is asked for too.
        if self.random.percent(15) {
            aim.start = aim.commit;
        }
        let Aim { transaction, start, .. } = aim;
        if op == 10 {
            let key = self.single(&aim, faulty);
            return Call::Rollback { transaction, start, key };
        }
        Call::RollbackBatch { transaction, start, batch: self.key_batch(aim.keys, faulty) }
    }

    pub fn one_step(&mut self, faulty: bool) -> Call {
        let mut aim = self.aim([30, 30, 15, 25], faulty);
        // A key more, of which the batch may not be applied although others are.
        if self.random.percent(12) {
            aim.keys.push(self.stock.key(&mut self.random, &self.store));
            aim.keys.sort();
            aim.keys.dedup();
        }
        let mut entries = self.entries(&aim, faulty, false);
        // A Put that may be applied as a Delete.
        if self.random.percent(10) {
            let at = self.random.below(entries.len());
            entries[at] = Entry { key: entries[at].key.clone(), kind: Kind::Delete, row: Bytes::new() };
        }
        let batch = self.mutation_batch(entries, faulty);
        let Aim { transaction, start, commit, .. } = aim;
        Call::OneStep { transaction, start, commit, batch }
    }

    /// By weights: a lock's owner, a record's, a default's start, or a new one; then now and then changed a little.
    fn aim(&mut self, weights: [usize; 4], faulty: bool) -> Aim {
        let mut aim = match self.random.weighted(&weights) {
            0 if !self.store.locks.is_empty() => self.aim_at_lock(),
            1 if !self.store.records.is_empty() => self.aim_at_record(),
            2 if !self.store.defaults.is_empty() => self.aim_at_default(),
            _ => self.aim_anew(faulty),
        };
        let key = aim.keys[0].clone();
        match self.random.below(100) {
            0..5 => aim.transaction = transaction(&mut self.random, faulty),
            5..9 => aim.start = stamp(&mut self.random, &self.store, &key, faulty),
            9..16 => aim.commit = stamp(&mut self.random, &self.store, &key, faulty),
            16..24 => aim.keys.push(self.stock.key(&mut self.random, &self.store)),
            24..28 if aim.keys.len() > 1 => {
                let at = self.random.below(aim.keys.len());
                aim.keys.remove(at);
            }
            28..31 => aim.keys.push(self.stock.key_out_of_form(&mut self.random, false)),
            31..34 => aim.keys.extend((0..self.random.below(4)).map(|_| self.random.pick(&self.stock.keys).clone())),
            34..36 => aim.keys = self.thirty(),
            _ => {}
        }
        if faulty && self.random.percent(40) {
            match self.random.below(4) {
                0 => aim.transaction = 0,
                1 => aim.start = 0,
                2 => aim.commit = aim.start,
                _ => aim.keys.push(self.stock.key_out_of_form(&mut self.random, false)),
            }
        }
        aim.keys.sort();
        aim.keys.dedup();
        aim
    }

    /// 31 to 33 keys, around a batch's most.
    fn thirty(&mut self) -> Vec<Bytes> {
        let count = self.random.between(31, 33) as u8;
        (0..count).map(|name| vec![0, 0, 0, 1, b't', name]).collect()
    }

    fn aim_at_lock(&mut self) -> Aim {
        let at = self.random.below(self.store.locks.len());
        let (key, lock) = self.store.locks.iter().nth(at).expect("the place is below the number of locks");
        let mut keys = vec![key.clone()];
        let (transaction, start) = (lock.transaction, lock.start);
        let others = self.store.locks.iter().filter(|(_, lock)| lock.own(transaction, start));
        let mut others: Vec<Bytes> = others.map(|(key, _)| key.clone()).collect();
        self.random.shuffle(&mut others);
        keys.extend(others.into_iter().take(self.random.below(4)));
        let commit = self.commit_above(&keys[0].clone(), start);
        Aim { transaction, start, commit, keys }
    }

    fn aim_at_record(&mut self) -> Aim {
        let at = self.random.below(self.store.records.len());
        let (key, chain) = self.store.records.iter().nth(at).expect("the place is below the number of keys");
        let place = self.random.below(chain.len());
        let (stamp, record) = chain.iter().nth(place).expect("the place is in the chain");
        let (start, commit) = (record.start, *stamp);
        let mut keys = vec![key.clone()];
        let others = self
            .store
            .records
            .iter()
            .filter(|(_, chain)| chain.get(&commit).is_some_and(|record| record.start == start));
        keys.extend(others.map(|(key, _)| key.clone()).take(4));
        Aim { transaction: self.random.between(1, 3) as u64, start, commit, keys }
    }

    fn aim_at_default(&mut self) -> Aim {
        let at = self.random.below(self.store.defaults.len());
        let (key, chain) = self.store.defaults.iter().nth(at).expect("the place is below the number of keys");
        let key = key.clone();
        let start = if self.random.percent(50) {
            *chain.keys().next_back().expect("a chain has a default")
        } else {
            *self.random.pick(&chain.keys().copied().collect::<Vec<u64>>())
        };
        let commit = self.commit_above(&key, start);
        Aim { transaction: self.random.between(1, 3) as u64, start, commit, keys: vec![key] }
    }

    /// New lines: often above all that stands at the first key, so that the call is accepted.
    fn aim_anew(&mut self, faulty: bool) -> Aim {
        let count = *self.random.pick(&[1, 1, 1, 2, 2, 3, 4]);
        let keys: Vec<Bytes> = (0..count).map(|_| self.stock.key(&mut self.random, &self.store)).collect();
        let newest = keys.iter().filter_map(|key| self.store.newest_stamp(key)).max().unwrap_or(0);
        let newest = if self.random.percent(85) { newest.max(self.store.floor) } else { newest };
        let start = if self.random.percent(60) {
            newest.saturating_add(self.random.between(1, 3) as u64)
        } else {
            stamp(&mut self.random, &self.store, &keys[0], faulty)
        };
        let commit = self.commit_above(&keys[0].clone(), start);
        Aim { transaction: transaction(&mut self.random, faulty), start, commit, keys }
    }

    /// A commit just above the start, or at or beside the newest stamp of the key.
    fn commit_above(&mut self, key: &[u8], start: u64) -> u64 {
        let newest = self.store.newest_stamp(key).unwrap_or(start);
        match self.random.below(10) {
            0 => newest,
            1 => newest.saturating_add(1),
            2 => stamp(&mut self.random, &self.store, key, false),
            3 => *self.random.pick(&[u64::MAX, start, start.saturating_sub(1)]),
            _ => start.saturating_add(self.random.between(1, 4) as u64),
        }
    }

    /// An entry a key: of the kind and row that stand there if it is a replay, mostly.
    fn entries(&mut self, aim: &Aim, faulty: bool, alone: bool) -> Vec<Entry> {
        let bad_row = self.random.percent(if faulty { 50 } else { 15 }).then(|| self.random.below(aim.keys.len()));
        aim.keys
            .iter()
            .enumerate()
            .map(|(at, key)| {
                // Where the key is out of form the row often is too, so that the order of 1 and 2 shows.
                let bad_rows = if bad_row == Some(at) {
                    90
                } else if key_in_form(key) {
                    1
                } else {
                    30
                };
                let lock = self.store.lock_of(key).filter(|lock| lock.start == aim.start).map(|lock| lock.kind);
                let record = self.store.record_at(key, aim.commit).map(|record| record.kind);
                let stored = self.store.default_at(key, aim.start);
                let kind = match lock.or(record) {
                    None if stored.is_some() && self.random.percent(40) => Kind::Delete,
                    Some(kind) if kind != Kind::Rollback && self.random.percent(75) => kind,
                    _ => *self.random.pick(&[Kind::Put, Kind::Put, Kind::Delete]),
                };
                let row = match stored {
                    _ if kind == Kind::Delete => Bytes::new(),
                    _ if self.random.percent(bad_rows) => row_out_of_form(&mut self.random, alone),
                    Some(row) if self.random.percent(75) => row.clone(),
                    _ => row(&mut self.random),
                };
                Entry { key: key.clone(), kind, row }
            })
            .collect()
    }

    fn single(&mut self, aim: &Aim, faulty: bool) -> Bytes {
        if self.random.percent(if faulty { 30 } else { 2 }) {
            return self.stock.key_out_of_form(&mut self.random, true);
        }
        self.random.pick(&aim.keys).clone()
    }

    fn mutation_batch(&mut self, entries: Vec<Entry>, faulty: bool) -> Bytes {
        match self.random.below(100) {
            0..3 => mutation_bytes(&[]),
            3..12 if faulty => mutation_bytes(&[]),
            12..30 if faulty => broken_mutations(&mut self.random, entries),
            30..34 => broken_mutations(&mut self.random, entries),
            _ => mutation_bytes(&entries),
        }
    }

    fn key_batch(&mut self, mut keys: Vec<Bytes>, faulty: bool) -> Bytes {
        match self.random.below(100) {
            0..3 => key_bytes(&[]),
            3..12 if faulty => key_bytes(&[]),
            12..30 if faulty => broken_keys(&mut self.random, keys),
            30..34 => broken_keys(&mut self.random, keys),
            34..37 => {
                let also: BTreeSet<Bytes> = self.stock.keys.iter().cloned().chain(keys).collect();
                keys = also.into_iter().collect();
                key_bytes(&keys)
            }
            _ => key_bytes(&keys),
        }
    }
}

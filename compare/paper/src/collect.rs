//! **Collect** (change request 7): "Collect up to a floor F".

use std::collections::BTreeMap;

use crate::answer::{BELOW_FLOOR, Refusal, refuse, refuse_held};
use crate::bend::{Bend, any_bent, bent};
use crate::miscollected;
use crate::store::{Bytes, Kind, Lock, Record, Store};

/// A key's records by ascending stamp.
pub type Chain = BTreeMap<u64, Record>;

impl Store {
    /// Drops what no read at or above the floor can show, in every table, and takes the floor over. The records and locks are
    /// not judged, and nothing comes that needs room.
    pub fn collect(&mut self, floor: u64) -> Result<(), Refusal> {
        if let Some(number) = miscollected::refused(self, floor) {
            return refuse(number);
        }
        if bent(Bend::CollectHeldFirst)
            && let Some(lock) = self.first_lock_by(floor)
        {
            return refuse_held(lock);
        }
        // "14 [..] for a collection with a lower floor, tested first": an equal one is none
        if floor < self.floor && !miscollected::lower_taken() {
            if bent(Bend::RefusedLowerSetsFloor) {
                self.floor = floor;
            }
            return refuse(BELOW_FLOOR);
        }
        // "a collection with a lock at or below F answers 7 for the first such key"
        if let Some(lock) = self.first_lock_by(floor) {
            let held = refuse_held(lock);
            self.miscollect_refused(floor);
            return held;
        }
        let before = any_bent().then(|| self.clone());
        // "for each key"
        let keys = self.records.keys().filter(|key| !miscollected::passed_over(self, floor, key));
        for key in keys.cloned().collect::<Vec<Bytes>>() {
            self.collect_key(floor, &key);
        }
        self.floor = floor;
        if let Some(before) = before {
            self.miscollect(before, floor);
        }
        Ok(())
    }

    fn first_lock_by(&self, floor: u64) -> Option<&Lock> {
        if any_bent() {
            return self.misfound(floor);
        }
        self.locks.values().find(|lock| lock.start <= floor)
    }

    /// "of records stamped at or below F keep the newest that is not a Rollback, if it is a Put, and drop the rest with their
    /// rows": of a Delete, or where there is none, nothing stays.
    pub fn collect_key(&mut self, floor: u64, key: &[u8]) {
        let chain = self.records.remove(key).unwrap_or_default();
        let kept = if any_bent() { miscollected::kept(floor, &chain) } else { kept(floor, &chain) };
        for (stamp, record) in &chain {
            if !kept.contains_key(stamp) && record.kind == Kind::Put && !bent(Bend::DroppedRowsStay) {
                self.drop_default(key, record.start);
            }
        }
        if !kept.is_empty() {
            self.records.insert(key.to_vec(), kept);
        }
    }
}

/// What stays of a key's records.
pub fn kept(floor: u64, chain: &Chain) -> Chain {
    let newest = chain.range(..=floor).rev().find(|(_, record)| record.kind != Kind::Rollback);
    let newest = newest.filter(|(_, record)| record.kind == Kind::Put).map(|(stamp, _)| *stamp);
    chain
        .iter()
        .filter(|(stamp, _)| **stamp > floor || Some(**stamp) == newest)
        .map(|(at, record)| (*at, *record))
        .collect()
}

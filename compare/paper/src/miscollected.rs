//! Wrong collections, each a bend: other records kept or dropped, other locks minded, refusals that are none, a floor that is
//! not the one asked for.

use crate::answer::{BELOW_FLOOR, NO_ROOM, ZERO};
use crate::bend::{Bend, bent};
use crate::collect::{Chain, kept as kept_by};
use crate::form::table_of;
use crate::room::{LINES, LIVE_BYTES};
use crate::store::{Bytes, Kind, Lock, Record, Store};

/// The number with which a collection is refused that is not.
pub fn refused(store: &Store, floor: u64) -> Option<u8> {
    let used = || store.room_used();
    match () {
        () if bent(Bend::CollectEqualRefused) => (floor > 0 && floor == store.floor).then_some(BELOW_FLOOR),
        () if bent(Bend::CollectZeroRefused) => (floor == 0).then_some(ZERO),
        () if bent(Bend::CollectLastRefused) => (floor == u64::MAX).then_some(ZERO),
        () if bent(Bend::CollectEmptyRefused) => store.records.is_empty().then_some(ZERO),
        () if bent(Bend::CollectFullRefused) => {
            (used().lines == LINES || used().live_bytes == LIVE_BYTES).then_some(NO_ROOM)
        }
        () => None,
    }
}

/// Is a lower floor let through?
pub fn lower_taken() -> bool {
    bent(Bend::CollectLowerTaken) || bent(Bend::CollectLowerIgnored)
}

/// Is this key left as it is?
pub fn passed_over(store: &Store, floor: u64, key: &Bytes) -> bool {
    let first = || store.records.keys().next();
    let last = || store.records.keys().next_back();
    match () {
        () if bent(Bend::CollectLowerIgnored) => floor < store.floor,
        () if bent(Bend::CollectEqualDoesNothing) => floor == store.floor,
        () if bent(Bend::CollectLastKeyLeft) => last() == Some(key),
        () if bent(Bend::CollectFirstTableAlone) => first().is_some_and(|first| table_of(first) != table_of(key)),
        () if bent(Bend::CollectLockedKeysLeft) => store.locks.contains_key(key),
        () if bent(Bend::CollectDropsNothing) => true,
        () => false,
    }
}

/// What a wrong collection keeps of a key's records.
pub fn kept(floor: u64, chain: &Chain) -> Chain {
    let right = kept_by(floor, chain);
    let by = |stamp: u64| stamp <= floor;
    let newest = |kinds: &[Kind]| chain.range(..=floor).rev().find(|(_, record)| kinds.contains(&record.kind));
    let alone = |also: Option<(&u64, &Record)>| {
        let above = chain.iter().filter(|(stamp, _)| !by(**stamp));
        above.chain(also).map(|(stamp, record)| (*stamp, *record)).collect::<Chain>()
    };
    let and = |also: &dyn Fn(u64, &Record) -> bool| {
        let stays = |stamp: u64, record: &Record| right.contains_key(&stamp) || also(stamp, record);
        chain
            .iter()
            .filter(|(stamp, record)| stays(**stamp, record))
            .map(|(at, record)| (*at, *record))
            .collect::<Chain>()
    };
    let top = right.range(..=floor).next_back().map(|(stamp, _)| *stamp);
    let all = &[Kind::Put, Kind::Delete, Kind::Rollback];
    match () {
        () if bent(Bend::CollectDropsNewestPut) => alone(None),
        () if bent(Bend::CollectKeepsDelete) => alone(newest(&[Kind::Put, Kind::Delete])),
        () if bent(Bend::CollectRollbackIsNewest) => alone(newest(all).filter(|(_, record)| record.kind == Kind::Put)),
        () if bent(Bend::CollectKeepsNewestOfAny) => alone(newest(all)),
        () if bent(Bend::CollectKeepsPutUnderDelete) => alone(newest(&[Kind::Put])),
        () if bent(Bend::CollectKeepsOldestPut) => {
            let oldest = chain.range(..=floor).find(|(_, record)| record.kind == Kind::Put);
            alone(oldest.filter(|_| top.is_some()))
        }
        () if bent(Bend::CollectKeepsPuts) => and(&|_, record| record.kind == Kind::Put),
        () if bent(Bend::CollectKeepsRollbacks) => and(&|_, record| record.kind == Kind::Rollback),
        () if bent(Bend::CollectKeepsAboveNewest) => and(&|stamp, _| top.is_some_and(|top| stamp > top)),
        () if bent(Bend::CollectKeepsLowest) => and(&|stamp, _| chain.keys().next() == Some(&stamp)),
        () if bent(Bend::CollectStrictlyBelow) => {
            floor.checked_sub(1).map_or(chain.clone(), |floor| kept_by(floor, chain))
        }
        () if bent(Bend::CollectOneAbove) => kept_by(floor.saturating_add(1), chain),
        () if bent(Bend::CollectByStart) => {
            let through = chain.iter().filter(|(_, record)| record.start <= floor).map(|(stamp, _)| *stamp).max();
            through.map_or(chain.clone(), |through| kept_by(through, chain))
        }
        () if bent(Bend::CollectKeepsStartsAbove) => {
            // By the start of the newest that is kept.
            let start = top.and_then(|top| chain.get(&top)).map(|record| record.start);
            and(&|_, record| start.is_some_and(|start| record.start > start))
        }
        () => right,
    }
}

impl Store {
    /// The lock for which a wrong collection is refused.
    pub fn misfound(&self, floor: u64) -> Option<&Lock> {
        let minded = |lock: &&Lock| {
            lock.start < floor
                || lock.start == floor && !bent(Bend::CollectLockAtTaken)
                || lock.start == floor.saturating_add(1) && bent(Bend::CollectLockAboveRefused)
                || bent(Bend::CollectAnyLockRefused)
        };
        let mut locks = self.locks.iter().filter(|(_, lock)| minded(lock));
        match () {
            () if bent(Bend::CollectLocksUnjudged) => None,
            () if bent(Bend::CollectNamesLastKey) => locks.next_back().map(|(_, lock)| lock),
            () if bent(Bend::CollectNamesLowestStart) => locks.map(|(_, lock)| lock).min_by_key(|lock| lock.start),
            () if bent(Bend::CollectNamesHighestStart) => locks.map(|(_, lock)| lock).max_by_key(|lock| lock.start),
            () if bent(Bend::CollectLocksBesideRecords) => {
                locks.find(|(key, _)| self.records.contains_key(*key)).map(|(_, lock)| lock)
            }
            () if bent(Bend::CollectFirstLockAlone) => self.locks.values().next().filter(minded),
            () => locks.map(|(_, lock)| lock).next(),
        }
    }

    /// What a 7 leaves: a refusal changes nothing.
    pub fn miscollect_refused(&mut self, floor: u64) {
        if bent(Bend::RefusedCollectSetsFloor) {
            self.floor = floor;
        }
        if bent(Bend::RefusedCollectDrops) {
            let first = self.locks.iter().find(|(_, lock)| lock.start <= floor).map(|(key, _)| key.clone());
            let keys: Vec<Bytes> = self.records.keys().take_while(|key| Some(*key) < first.as_ref()).cloned().collect();
            keys.iter().for_each(|key| self.collect_key(floor, key));
        }
    }

    /// What an accepted collection leaves, from this store before it.
    pub fn miscollect(&mut self, before: Store, floor: u64) {
        let collected = |key: &Bytes| before.records.get(key) != self.records.get(key);
        match () {
            () if bent(Bend::CollectSetsNoFloor) => self.floor = before.floor,
            () if bent(Bend::CollectLowerIgnored) => self.floor = before.floor.max(floor),
            () if bent(Bend::CollectFloorOneMore) && floor > 0 => self.floor = floor.saturating_add(1),
            () if bent(Bend::CollectFloorOneLess) => self.floor = floor.saturating_sub(1).max(before.floor),
            () if bent(Bend::CollectFloorOf32) => self.floor = u64::from(floor as u32),
            () if bent(Bend::CollectFloorIsHighestDropped) => {
                let stamps = before.records.values().flat_map(|chain| chain.range(..=floor).map(|(stamp, _)| *stamp));
                self.floor = stamps.max().unwrap_or(before.floor).max(before.floor);
            }
            () if bent(Bend::CollectDropsKeptRows) => {
                for (key, chain) in &before.records {
                    chain.range(..=floor).for_each(|(_, record)| self.drop_default(key, record.start));
                }
            }
            () if bent(Bend::CollectDropsRowsByStart) => {
                for (key, chain) in &before.defaults {
                    let kept = self.records.get(key).and_then(|chain| chain.range(..=floor).next_back());
                    let kept = kept.map(|(_, record)| record.start);
                    let low = chain.range(..=floor).map(|(start, _)| *start).filter(|start| Some(*start) != kept);
                    low.for_each(|start| self.drop_default(key, start));
                }
            }
            () if bent(Bend::CollectDropsLocks) => {
                let keys: Vec<Bytes> = self.locks.keys().filter(|key| collected(key)).cloned().collect();
                for key in keys {
                    let lock = self.locks.remove(&key);
                    lock.into_iter().for_each(|lock| self.drop_default(&key, lock.start));
                }
            }
            () if bent(Bend::CollectDropsLockRows) => {
                let locks: Vec<(Bytes, u64)> = self
                    .locks
                    .iter()
                    .filter(|(key, _)| collected(key))
                    .map(|(key, lock)| (key.clone(), lock.start))
                    .collect();
                locks.iter().for_each(|(key, start)| self.drop_default(key, *start));
            }
            () if bent(Bend::CollectFreesNoRoom) => {
                let (was, is) = (before.room_used(), self.room_used());
                self.unfreed.lines += was.lines - is.lines;
                self.unfreed.defaults += was.defaults - is.defaults;
                self.unfreed.live_bytes += was.live_bytes - is.live_bytes;
            }
            () => {}
        }
    }

    /// The lines that a collection drops, for the bend that counts them.
    pub fn dropped_by(&self, floor: u64) -> u64 {
        let mut after = self.clone();
        match after.collect(floor) {
            Ok(()) => (self.room_used().lines - after.room_used().lines) as u64,
            Err(_) => 0,
        }
    }
}

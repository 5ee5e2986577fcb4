//! Calls that meet another's lock: each that can answer 7, on locks of every time to live and of both kinds, beside
//! records and alone, with entries whose kind is often not the lock's.

use paper::answer::LOCKED;
use paper::form::Entry;
use paper::page::Bounds;
use paper::restore::{Image, RawLock, RawRecord};
use paper::run::run_call;
use paper::store::{Bytes, Kind, Lock};
use paper::trace::Call;

use crate::batch::{key_bytes, mutation_bytes};
use crate::maker::Maker;
use crate::rows::{SMALLEST, row};
use crate::stock::{stamp, time_to_live};

/// The ops that can answer 7, and how often each is drawn.
const OPS: [(u8, usize); 9] = [(1, 1), (2, 1), (6, 3), (7, 5), (8, 6), (9, 6), (10, 5), (11, 6), (12, 5)];
/// How often a call that meets no lock is drawn anew.
const TRIES: usize = 8;

/// What a call that is to meet a lock is made of; the keys ascend, and the lock's is among them.
struct Meeting {
    key: Bytes,
    lock: Lock,
    keys: Vec<Bytes>,
    transaction: u64,
    start: u64,
}

impl Maker {
    /// Locks by an image and by prewrites, and calls that meet them.
    pub fn held(&mut self) {
        if self.random.percent(70) {
            let restore = self.sound_restore();
            self.push(restore);
        }
        for _ in 0..self.random.between(1, 3) {
            self.new_lock();
        }
        for _ in 0..self.random.between(30, 110) {
            let drawn: Vec<(u8, usize)> = OPS.into_iter().filter(|(op, _)| self.ops.has(*op)).collect();
            if drawn.is_empty() || self.store.locks.is_empty() || self.random.percent(8) {
                self.any_call();
                self.new_lock();
                continue;
            }
            let weights: Vec<usize> = drawn.iter().map(|(_, weight)| *weight).collect();
            let op = drawn[self.random.weighted(&weights)].0;
            let call = self.meeting_call(op);
            self.push(call);
        }
    }

    /// A prewrite of one key, mostly accepted.
    fn new_lock(&mut self) {
        let op = if self.ops.has(6) { 6 } else { 7 };
        let call = self.prewrite(op, false);
        self.push(call);
    }

    /// A call of this op, drawn a few times over until it answers 7.
    fn meeting_call(&mut self, op: u8) -> Call {
        let mut call = self.toward_lock(op);
        for _ in 0..TRIES {
            if run_call(&mut self.store.clone(), &call).number == LOCKED {
                break;
            }
            call = self.toward_lock(op);
        }
        call
    }

    fn toward_lock(&mut self, op: u8) -> Call {
        let Meeting { key, lock, keys, transaction, start } = self.meeting(matches!(op, 7 | 9 | 11 | 12));
        let commit = start.saturating_add(self.random.between(1, 4) as u64);
        let moment = match self.random.below(4) {
            0 => u64::MAX,
            1 => lock.start,
            _ => lock.start.saturating_add(self.random.below(4) as u64),
        };
        let other = time_to_live(&mut self.random);
        let primary = self.stock.key(&mut self.random, &self.store);
        match op {
            1 => Call::Read { moment, key },
            2 => self.page_toward(moment, &key),
            6 => {
                let Entry { key, kind, row } = self.entry(key);
                Call::Prewrite { transaction, start, time_to_live: other, kind, primary, key, row }
            }
            7 => {
                let batch = self.entry_batch(keys);
                Call::PrewriteBatch { transaction, start, time_to_live: other, primary, batch }
            }
            8 => Call::Commit { transaction, start, commit, key },
            9 => Call::CommitBatch { transaction, start, commit, batch: key_bytes(&keys) },
            10 => Call::Rollback { transaction, start, key },
            11 => Call::RollbackBatch { transaction, start, batch: key_bytes(&keys) },
            _ => Call::OneStep { transaction, start, commit, batch: self.entry_batch(keys) },
        }
    }

    /// A lock, and the numbers of one who meets it: a stranger, mostly above all that stands, or the owner of another lock
    /// among the keys.
    fn meeting(&mut self, several: bool) -> Meeting {
        let (key, lock) = self.some_lock();
        let mut keys = vec![key.clone()];
        for _ in 0..if several { self.random.below(4) } else { 0 } {
            let other = if self.random.percent(50) {
                self.some_lock().0
            } else {
                self.stock.key(&mut self.random, &self.store)
            };
            keys.push(other);
        }
        // A last key out of form: its 1 comes after the 7.
        if several && self.random.percent(8) {
            keys.push(vec![255; 49]);
        }
        keys.sort();
        keys.dedup();
        let newest = keys.iter().filter_map(|key| self.store.newest_stamp(key)).max().unwrap_or(0);
        let owner = self.store.lock_of(self.random.pick::<Bytes>(&keys)).cloned();
        let (transaction, start) = match (owner, self.random.below(10)) {
            (Some(owner), 0..3) if several => (owner.transaction, owner.start),
            (_, 3) => (self.random.between(1, 9) as u64, lock.start),
            (_, 4) => (lock.transaction, stamp(&mut self.random, &self.store, &key, false)),
            _ => (self.random.between(1, 9) as u64, newest.saturating_add(self.random.between(1, 5) as u64)),
        };
        Meeting { key, lock, keys, transaction, start }
    }

    fn some_lock(&mut self) -> (Bytes, Lock) {
        let at = self.random.below(self.store.locks.len());
        let (key, lock) = self.store.locks.iter().nth(at).expect("the place is below the number of locks");
        (key.clone(), lock.clone())
    }

    /// A page over the key, mostly from it on, now and then after other keys.
    fn page_toward(&mut self, moment: u64, key: &Bytes) -> Call {
        let start = self.random.percent(60).then(|| key.clone());
        let bounds = Bounds { start, end: None, resume: None };
        let row_limit = *self.random.pick(&[1, 2, u64::MAX]);
        Call::Page { moment, row_limit, byte_limit: u64::MAX, bounds, buffer: self.random.below(40) as u16 }
    }

    /// An entry of the key, mostly of another kind than its lock's.
    fn entry(&mut self, key: Bytes) -> Entry {
        let other = match self.store.lock_of(&key).map(|lock| lock.kind) {
            Some(Kind::Put) => Kind::Delete,
            _ => Kind::Put,
        };
        let kind = if self.random.percent(60) { other } else { *self.random.pick(&[Kind::Put, Kind::Delete]) };
        let row = if kind == Kind::Put { row(&mut self.random) } else { Bytes::new() };
        Entry { key, kind, row }
    }

    fn entry_batch(&mut self, keys: Vec<Bytes>) -> Bytes {
        mutation_bytes(&keys.into_iter().map(|key| self.entry(key)).collect::<Vec<Entry>>())
    }
}

/// A time to live that 4 bytes cannot say, with a different value in each byte.
const LONG: u64 = 0x0102_0304_0506_0708;

/// For the fixed sample: locks of both kinds, alone and above a record, and every call that meets them.
pub fn cases() -> Vec<(&'static str, Vec<Call>)> {
    let key = |name: u8| vec![0, 0, 0, 1, name];
    let lock = |name: u8, time_to_live: u64, kind: u8| {
        (key(name), RawLock { transaction: 9, primary: key(b'a'), start: 20, time_to_live, kind })
    };
    let write = |name: u8, kind: u8| (key(name), 12, RawRecord { start: 10, commit: 12, kind });
    let image = Image {
        table: 1,
        defaults: [(b'a', 20), (b'c', 20), (b'd', 10)]
            .map(|(name, start)| (key(name), start, SMALLEST.to_vec()))
            .to_vec(),
        locks: vec![lock(b'a', 3, 1), lock(b'b', LONG, 2), lock(b'c', u64::MAX, 1), lock(b'd', 1, 2)],
        writes: vec![write(b'c', 2), write(b'd', 1)],
        ..Image::default()
    };
    let restore = Call::Restore { image: image.write() };
    let met = [b'a', b'b', b'c', b'd'].into_iter().flat_map(|name| met_by_all(&key(name)));
    vec![("every call that meets a lock", [restore].into_iter().chain(met).collect())]
}

/// Each call that meets the lock of this key, entries of both kinds.
fn met_by_all(key: &Bytes) -> Vec<Call> {
    let (transaction, start, commit, time_to_live) = (7, 30, 32, 77);
    let (name, keys) = (|| key.clone(), key_bytes(&[vec![0, 0, 0, 1, 1], key.clone()]));
    let from = Bounds { start: Some(name()), ..Bounds::default() };
    let mut calls: Vec<Call> = [19, 20, 21, u64::MAX].map(|moment| Call::Read { moment, key: name() }).to_vec();
    calls.push(Call::Page { moment: 25, row_limit: 1, byte_limit: 99, bounds: from, buffer: 9 });
    for (kind, row) in [(Kind::Put, SMALLEST.to_vec()), (Kind::Delete, vec![])] {
        let batch = mutation_bytes(&[Entry { key: name(), kind, row: row.clone() }]);
        let primary = name();
        calls.push(Call::Prewrite { transaction, start, time_to_live, kind, primary: name(), key: name(), row });
        calls.push(Call::PrewriteBatch { transaction, start, time_to_live, primary, batch: batch.clone() });
        calls.push(Call::OneStep { transaction, start, commit, batch });
    }
    calls.push(Call::Commit { transaction, start, commit, key: name() });
    calls.push(Call::CommitBatch { transaction, start, commit, batch: key_bytes(&[name()]) });
    calls.push(Call::Rollback { transaction, start, key: name() });
    calls.push(Call::RollbackBatch { transaction, start, batch: keys });
    calls
}

//! What calls are made of: few keys with common prefixes in several tables, and small or extreme numbers, drawn
//! from the store as it stands where that is sharper.

use paper::store::{Bytes, Store};

use crate::random::Random;

/// The numbers at the ends of the width.
pub const EXTREMES: [u64; 7] = [0, 1, u32::MAX as u64, i64::MAX as u64, i64::MAX as u64 + 1, u64::MAX - 1, u64::MAX];

/// The keys of one trace: those in form, and those that are not.
pub struct Stock {
    pub keys: Vec<Bytes>,
}

fn key(table: u32, name: &[u8]) -> Bytes {
    [&table.to_be_bytes(), name].concat()
}

impl Stock {
    pub fn new(random: &mut Random) -> Self {
        let mut all = vec![
            key(1, b"a"),
            key(1, b"b"),
            key(1, &[b'a', 0]),
            key(1, b"aa"),
            key(1, b"ab"),
            key(1, &[0]),
            key(1, &[255]),
            key(1, &[b'a'; 44]),
            key(1, &[[b'a'; 43].as_slice(), b"b"].concat()),
            key(1, &[255; 44]),
            key(2, b"a"),
            key(2, &[b'k'; 44]),
            key(0x0100_0000, b"a"),
            key(u32::MAX, b"z"),
            key(256, &[0, 0]),
        ];
        random.shuffle(&mut all);
        let wanted = random.between(2, 8);
        all.truncate(wanted);
        all.push(key(1, b"a"));
        all.sort();
        all.dedup();
        Stock { keys: all }
    }

    /// A key out of form: of 0, 3, 4, 49 or 255 bytes, or of table 0; alone also of 300 bytes.
    pub fn key_out_of_form(&self, random: &mut Random, alone: bool) -> Bytes {
        match random.below(if alone { 9 } else { 8 }) {
            0 => Bytes::new(),
            1 => vec![0, 0, 1],
            2 => vec![0, 0, 0, 1],
            3 => key(1, &[b'a'; 45]),
            4 => key(u32::MAX, &[255; 45]),
            5 => key(0, b"a"),
            6 => vec![255; 255],
            7 => key(1, &[b'm'; 251]),
            _ => key(1, &[b'n'; 296]),
        }
    }

    /// A key in form: of the store, of the stock, or right beside one of them.
    pub fn key(&self, random: &mut Random, store: &Store) -> Bytes {
        let held = held_keys(random, store);
        match held {
            Some(key) if random.percent(60) => key,
            Some(key) if random.percent(10) => beside(random, key),
            _ => random.pick(&self.keys).clone(),
        }
    }

    /// A key, now and then out of form.
    pub fn any_key(&self, random: &mut Random, store: &Store, faulty: bool) -> Bytes {
        if random.percent(if faulty { 35 } else { 3 }) {
            self.key_out_of_form(random, true)
        } else {
            self.key(random, store)
        }
    }
}

/// A key of a lock, a record or a default, if there is one.
fn held_keys(random: &mut Random, store: &Store) -> Option<Bytes> {
    let (locks, records, defaults) = (store.locks.len(), store.records.len(), store.defaults.len());
    let all = locks + records + defaults;
    if all == 0 {
        return None;
    }
    let at = random.below(all);
    let mut keys = store.locks.keys().chain(store.records.keys()).chain(store.defaults.keys());
    keys.nth(at).cloned()
}

/// The key right after, or a near one in form.
fn beside(random: &mut Random, mut key: Bytes) -> Bytes {
    match random.below(3) {
        0 if key.len() < 48 => key.push(0),
        1 if key.len() > 5 => {
            key.pop();
        }
        _ => {
            let last = key.len() - 1;
            key[last] = key[last].wrapping_add(1);
        }
    }
    key
}

/// A transaction: few, so that they meet.
pub fn transaction(random: &mut Random, faulty: bool) -> u64 {
    match random.below(100) {
        0..3 => *random.pick(&EXTREMES),
        3..25 if faulty => 0,
        _ => random.between(1, 3) as u64,
    }
}

/// A start, stamp or moment: small, extreme, at or beside one of this key's, or at or beside the floor.
pub fn stamp(random: &mut Random, store: &Store, key: &[u8], faulty: bool) -> u64 {
    if faulty && random.percent(20) {
        return 0;
    }
    // At the floor and beside it, or above it by as much as it would be above 0.
    let from = if store.floor > 0 && random.percent(75) { store.floor } else { 0 };
    if from > 0 && random.percent(20) {
        return (from - 1).saturating_add(random.below(4) as u64);
    }
    match random.below(100) {
        0..4 => *random.pick(&EXTREMES),
        4..50 => {
            let known = stamps_of(store, key);
            if known.is_empty() {
                return from.saturating_add(random.between(1, 14) as u64);
            }
            let at = *random.pick(&known);
            match random.below(4) {
                0 => at.wrapping_sub(1),
                1 => at.wrapping_add(1),
                _ => at,
            }
        }
        _ => from.saturating_add(random.between(1, 14) as u64),
    }
}

/// A time to live of any size; not 0.
pub fn time_to_live(random: &mut Random) -> u64 {
    match random.below(10) {
        0..4 => random.between(1, 3) as u64,
        4 => *random.pick(&EXTREMES[1..]),
        _ => (random.number() >> random.below(64)).max(1),
    }
}

/// Every start and stamp that stands at the key.
pub fn stamps_of(store: &Store, key: &[u8]) -> Vec<u64> {
    let mut known: Vec<u64> = store.records_of(key).flat_map(|(stamp, record)| [stamp, record.start]).collect();
    known.extend(store.lock_of(key).map(|lock| lock.start));
    known.extend(store.defaults.get(key).into_iter().flat_map(|chain| chain.keys().copied()));
    known
}

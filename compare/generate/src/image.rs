//! Sound images on few keys, full of odd states.

use std::collections::BTreeMap;

use paper::form::table_of;
use paper::restore::{Image, RawLock, RawRecord};
use paper::store::Bytes;

use crate::faults::below_locks;
use crate::orders::{ORDERS, put};
use crate::random::Random;
use crate::rows::row;
use crate::stock::{EXTREMES, Stock, time_to_live};

/// How often a record is drawn for each one wanted.
const TRIES: usize = 20;

/// A sound image on few keys: chains around the figures' edges, starts that need not ascend with their stamps, locks at
/// and below stamps of their key. Each key and start has one line, and a row stands for each Put alone. The entries stand
/// in any order.
pub fn few_keys(random: &mut Random, stock: &Stock) -> Image {
    drawn(random, stock, |random| {
        let long = random.percent(15);
        let chain = if long { *random.pick(&[4, 5, 15, 16, 17, 18]) } else { random.below(4) };
        (chain, if long && random.percent(50) { &[1] } else { &[1, 1, 2, 3] })
    })
}

/// The same with chains of Rollbacks above all.
pub fn few_chains(random: &mut Random, stock: &Stock) -> Image {
    drawn(random, stock, |random| {
        let kinds: [&[u8]; 3] = [&[1, 2, 3, 3, 3], &[1, 3, 3, 3, 3, 3, 3, 3, 3], &[3]];
        (*random.pick(&[1, 2, 3, 4, 5, 6, 9, 17]), *random.pick(&kinds))
    })
}

/// How many records a key has, and of which kinds these are drawn.
type Chain = (usize, &'static [u8]);

fn drawn(random: &mut Random, stock: &Stock, chain: impl Fn(&mut Random) -> Chain) -> Image {
    let table = table_of(random.pick::<Bytes>(&stock.keys));
    let mut image = Image { table, ..Image::default() };
    for key in stock.keys.iter().filter(|key| table_of(key) == table) {
        if random.percent(85) {
            let chain = chain(random);
            one_key(random, stock, &mut image, key, chain);
        }
    }
    let order = *random.pick(&ORDERS);
    put(random, &mut image, order);
    if random.percent(20) {
        give_floor(random, &mut image);
    }
    image
}

/// A floor below every lock of the image: right below the lowest, at or beside a stamp, small, or now and then extreme.
pub fn give_floor(random: &mut Random, image: &mut Image) {
    let most = below_locks(image);
    let stamps: Vec<u64> = image.writes.iter().map(|(_, stamp, _)| *stamp).collect();
    let floor = match random.below(20) {
        0..6 if !image.locks.is_empty() => most,
        6..15 if !stamps.is_empty() => match (*random.pick(&stamps), random.below(4)) {
            (at, 0) => at.saturating_sub(1),
            (at, 1) => at.saturating_add(1),
            (at, _) => at,
        },
        15 => *random.pick(&EXTREMES),
        _ => random.between(1, 14) as u64,
    };
    image.floor = floor.min(most);
}

fn one_key(random: &mut Random, stock: &Stock, image: &mut Image, key: &Bytes, (chain, kinds): Chain) {
    let mut writes: BTreeMap<u64, RawRecord> = BTreeMap::new();
    let span = chain + 10;
    for _ in 0..TRIES * chain {
        if writes.len() < chain {
            let kind = *random.pick(kinds);
            add_record(random, &mut writes, span, kind);
        }
    }
    if random.percent(4) {
        writes.insert(u64::MAX, RawRecord { start: u64::MAX, commit: u64::MAX, kind: 3 });
    }
    let puts = writes.values().filter(|record| record.kind == 1);
    let mut defaults: BTreeMap<u64, Bytes> = puts.map(|record| (record.start, row(random))).collect();
    let lock = some_lock(random, stock, &writes, span);
    if !has_start(&writes, lock.start) && random.percent(60) {
        if lock.kind == 1 {
            defaults.insert(lock.start, row(random));
        }
        image.locks.push((key.clone(), lock));
    }
    image.defaults.extend(defaults.into_iter().map(|(start, row)| (key.clone(), start, row)));
    image.writes.extend(writes.into_iter().map(|(stamp, record)| (key.clone(), stamp, record)));
}

/// Adds a record of a stamp and a start that the key does not have yet, if such are drawn.
fn add_record(random: &mut Random, writes: &mut BTreeMap<u64, RawRecord>, span: usize, kind: u8) {
    let stamp = random.between(1, span) as u64;
    let start = if kind == 3 { stamp } else { random.below(stamp as usize) as u64 };
    if start > 0 && !writes.contains_key(&stamp) && !has_start(writes, start) {
        writes.insert(stamp, RawRecord { start, commit: stamp, kind });
    }
}

fn has_start(writes: &BTreeMap<u64, RawRecord>, start: u64) -> bool {
    writes.values().any(|record| record.start == start)
}

/// A lock whose start is often a stamp of its key.
fn some_lock(random: &mut Random, stock: &Stock, writes: &BTreeMap<u64, RawRecord>, span: usize) -> RawLock {
    let stamps: Vec<u64> = writes.keys().copied().collect();
    let start = match stamps.is_empty() {
        false if random.percent(20) => *random.pick(&stamps),
        _ if random.percent(3) => u64::MAX,
        _ => random.between(1, span) as u64,
    };
    RawLock {
        transaction: if random.percent(4) { u64::MAX } else { random.between(1, 3) as u64 },
        primary: random.pick(&stock.keys).clone(),
        start,
        time_to_live: time_to_live(random),
        kind: *random.pick(&[1, 1, 2]),
    }
}

/// One number of an image set to an extreme; the image may stay sound, or become sick or faulty.
pub fn with_extreme(random: &mut Random, mut image: Image) -> Bytes {
    let extreme = *random.pick(&EXTREMES);
    match random.below(3) {
        0 if !image.defaults.is_empty() => {
            let at = random.below(image.defaults.len());
            image.defaults[at].1 = extreme;
        }
        1 if !image.locks.is_empty() => {
            let at = random.below(image.locks.len());
            let lock = &mut image.locks[at].1;
            match random.below(3) {
                0 => lock.transaction = extreme,
                1 => lock.start = extreme,
                _ => lock.time_to_live = extreme,
            }
        }
        _ if !image.writes.is_empty() => {
            let at = random.below(image.writes.len());
            let (_, stamp, record) = &mut image.writes[at];
            (*stamp, record.commit) = (extreme, extreme);
        }
        _ => {}
    }
    image.write()
}

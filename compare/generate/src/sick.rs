//! Sick images (change request 3): a sound image made sick in one way, at any place; and what keeps other faults from
//! making it so.

use paper::form::Entry;
use paper::restore::{Image, RawLock, RawRecord};
use paper::store::{Bytes, Kind};
use paper::trace::Call;

use crate::batch::mutation_bytes;
use crate::faults::{Fault, Place, add};
use crate::orders::{Order, ascends, default_mark, lock_mark, put, write_mark};
use crate::random::Random;
use crate::rows::{SMALLEST, row};

/// The longest key.
const LONGEST: usize = 48;

/// Drops the default of a key and start, if it is there.
fn drop_default(image: &mut Image, key: &Bytes, start: u64) {
    image.defaults.retain(|(other, at, _)| other != key || *at != start);
}

/// Adds a default of this key and start at the place, unless one is there.
fn add_default(random: &mut Random, image: &mut Image, key: &Bytes, start: u64, place: Place) {
    if !image.defaults.iter().any(|(other, at, _)| other == key && *at == start) {
        let entry = (key.clone(), start, row(random));
        add(random, &mut image.defaults, entry, place);
    }
}

/// Makes a Put lock a Delete, without its default.
pub fn delete_lock(image: &mut Image, at: usize) {
    let (key, lock) = image.locks[at].clone();
    if lock.kind == 1 {
        image.locks[at].1.kind = 2;
        drop_default(image, &key, lock.start);
    }
}

/// Makes a Put record a Delete, without its default.
pub fn delete_write(image: &mut Image, at: usize) {
    let (key, _, record) = image.writes[at].clone();
    if record.kind == 1 {
        image.writes[at].2.kind = 2;
        drop_default(image, &key, record.start);
    }
}

/// The starts of the key's lines and defaults.
fn starts(image: &Image, key: &Bytes) -> Vec<u64> {
    let locks = image.locks.iter().filter(|(other, _)| other == key).map(|(_, lock)| lock.start);
    let records = image.writes.iter().filter(|(other, ..)| other == key).map(|(_, _, record)| record.start);
    let defaults = image.defaults.iter().filter(|(other, ..)| other == key).map(|(_, start, _)| *start);
    locks.chain(records).chain(defaults).collect()
}

/// A start below this number that the key does not have, near those that it has; the number itself where there is none.
pub fn free_start(random: &mut Random, image: &Image, key: &Bytes, below: u64) -> u64 {
    let taken = starts(image, key);
    let free: Vec<u64> = (1..=60).filter(|start| *start < below && !taken.contains(start)).collect();
    if free.is_empty() { below } else { *random.pick(&free) }
}

/// Makes the image sick in this way at this place; none if the fault is another, or has no entry to stand at. An image
/// that ascends mostly does so still.
pub fn make_sick(random: &mut Random, image: &mut Image, fault: Fault, place: Place) -> Option<()> {
    let ascended = ascends(image);
    sicken(random, image, fault, place)?;
    if ascended && random.percent(60) {
        put(random, image, Order::Ascending);
    }
    Some(())
}

fn sicken(random: &mut Random, image: &mut Image, fault: Fault, place: Place) -> Option<()> {
    match fault {
        Fault::LockWithoutDefault if !image.locks.is_empty() => {
            let at = place.of(random, &image.locks, lock_mark);
            delete_lock(image, at);
            image.locks[at].1.kind = 1;
        }
        Fault::Orphan if !(image.defaults.is_empty() && image.writes.is_empty()) => orphan(random, image, place),
        Fault::OrphanBesideRecord if !image.writes.is_empty() => {
            let at = place.of(random, &image.writes, write_mark);
            let (key, _, record) = &mut image.writes[at];
            record.kind = if record.kind == 1 { 2 } else { record.kind };
            let (key, start) = (key.clone(), record.start);
            add_default(random, image, &key, start, place);
        }
        Fault::OrphanBesideLock if !image.locks.is_empty() => {
            let at = place.of(random, &image.locks, lock_mark);
            image.locks[at].1.kind = 2;
            let (key, lock) = image.locks[at].clone();
            add_default(random, image, &key, lock.start, place);
        }
        Fault::TwoRecords if !image.writes.is_empty() => two_records(random, image, place),
        Fault::LockBesideRecord if !image.writes.is_empty() => lock_beside_record(random, image, place),
        _ => return None,
    }
    Some(())
}

/// A default of a start that no line of its key has, or of a key without lines.
fn orphan(random: &mut Random, image: &mut Image, place: Place) {
    let key = if image.defaults.is_empty() {
        image.writes[place.of(random, &image.writes, write_mark)].0.clone()
    } else {
        image.defaults[place.of(random, &image.defaults, default_mark)].0.clone()
    };
    let longer = [&key[..], &[0]].concat();
    let new = longer.len() <= LONGEST && starts(image, &longer).is_empty() && random.percent(30);
    let key = if new { longer } else { key };
    let taken = starts(image, &key);
    let start = match place {
        Place::Least => (1..).find(|start| !taken.contains(start)).expect("a free start"),
        Place::Greatest => (1..=u64::MAX).rev().find(|start| !taken.contains(start)).expect("a free start"),
        _ => free_start(random, image, &key, u64::MAX),
    };
    add_default(random, image, &key, start, place);
}

/// A second record of a record's key and start, at another stamp: a Put or Delete above, or a Rollback at the start.
fn two_records(random: &mut Random, image: &mut Image, place: Place) {
    let at = place.of(random, &image.writes, write_mark);
    let (key, stamp, record) = image.writes[at].clone();
    let start = record.start;
    let stamps: Vec<u64> = image.writes.iter().filter(|(other, ..)| *other == key).map(|(_, at, _)| *at).collect();
    let above = (1..=40).map(|step| start.saturating_add(step)).filter(|at| *at > start && !stamps.contains(at));
    let above: Vec<u64> = above.collect();
    let (second, kind) = if above.is_empty() || record.kind != 3 && !stamps.contains(&start) && random.percent(30) {
        (start, 3)
    } else {
        (*random.pick(&above), *random.pick(&[1, 1, 2]))
    };
    // A Rollback of the last start has no stamp above; it stays alone, and an orphan makes the image sick.
    if second == stamp {
        return orphan(random, image, place);
    }
    add(random, &mut image.writes, (key.clone(), second, RawRecord { start, commit: second, kind }), place);
    if kind == 1 {
        add_default(random, image, &key, start, place);
    }
}

/// A lock of a record's key and start, of whatever transaction and kind; it takes the place of the key's lock.
fn lock_beside_record(random: &mut Random, image: &mut Image, place: Place) {
    let at = place.of(random, &image.writes, write_mark);
    let (key, _, record) = image.writes[at].clone();
    if let Some(at) = image.locks.iter().position(|(other, _)| *other == key) {
        delete_lock(image, at);
        image.locks.remove(at);
    }
    let (transaction, start, kind) = (random.between(1, 3) as u64, record.start, *random.pick(&[1, 2]));
    let lock = RawLock { transaction, primary: key.clone(), start, time_to_live: 1, kind };
    add(random, &mut image.locks, (key.clone(), lock), place);
    if kind == 1 {
        add_default(random, image, &key, start, place);
    }
}

fn a() -> Bytes {
    vec![0, 0, 0, 1, b'a']
}

fn lock(transaction: u64, start: u64, kind: u8) -> (Bytes, RawLock) {
    (a(), RawLock { transaction, primary: a(), start, time_to_live: 1, kind })
}

fn write(start: u64, commit: u64, kind: u8) -> (Bytes, u64, RawRecord) {
    (a(), commit, RawRecord { start, commit, kind })
}

type Locks<'a> = &'a [(Bytes, RawLock)];
type Writes<'a> = &'a [(Bytes, u64, RawRecord)];

/// A restore of lines of key a, with defaults of these starts.
fn restore(defaults: &[u64], locks: Locks, writes: Writes) -> Call {
    let defaults = defaults.iter().map(|start| (a(), *start, SMALLEST.to_vec())).collect();
    let (locks, writes) = (locks.to_vec(), writes.to_vec());
    Call::Restore { image: Image { table: 1, floor: 0, defaults, locks, writes }.write() }
}

fn commit(start: u64, commit: u64) -> Call {
    Call::Commit { transaction: 7, start, commit, key: a() }
}

fn rollback(start: u64) -> Call {
    Call::Rollback { transaction: 7, start, key: a() }
}

fn read(moment: u64) -> Call {
    Call::Read { moment, key: a() }
}

const PUT: u8 = 1;
const DELETE: u8 = 2;
const UNDONE: u8 = 3;

/// Images of key a for the fixed sample, sick and just not sick, and calls from those that are taken.
pub fn cases() -> Vec<(&'static str, Vec<Call>)> {
    vec![
        ("sick in each way", sick_in_each_way()),
        ("an orphan among 1,025 defaults, and orphans alone", vec![many(1), many(1025), Call::Statistics]),
        ("a lock below a stamp of its key", low_lock()),
        ("a lock that cannot end", endless_lock()),
        ("calls from an image", calls_from_an_image()),
        ("no entries", vec![restore(&[], &[], &[]), Call::Statistics]),
    ]
}

/// A sound image, then eleven sick ones, which leave the store as it is.
fn sick_in_each_way() -> Vec<Call> {
    vec![
        restore(&[10], &[], &[write(10, 12, PUT)]),
        restore(&[], &[lock(7, 10, PUT)], &[]),
        restore(&[11], &[lock(7, 10, PUT)], &[]),
        restore(&[10], &[], &[]),
        restore(&[10], &[], &[write(10, 12, DELETE)]),
        restore(&[10], &[], &[write(10, 10, UNDONE)]),
        restore(&[10], &[lock(7, 10, DELETE)], &[]),
        restore(&[9, 10], &[], &[write(10, 12, PUT)]),
        restore(&[], &[], &[write(3, 4, DELETE), write(3, 7, DELETE)]),
        restore(&[3], &[], &[write(3, 4, PUT), write(3, 7, PUT)]),
        restore(&[3], &[lock(7, 3, PUT)], &[write(3, 4, PUT)]),
        restore(&[], &[lock(8, 3, DELETE)], &[write(3, 3, UNDONE)]),
        Call::Statistics,
        read(12),
    ]
}

/// Not sick: the lock's commit is 8 below the stamp and 0 above it.
fn low_lock() -> Vec<Call> {
    let image = restore(&[], &[lock(7, 5, DELETE)], &[write(7, 9, DELETE)]);
    vec![image, commit(5, 8), commit(5, 10), Call::Statistics]
}

/// Not sick either, although the lock can be neither committed nor rolled back.
fn endless_lock() -> Vec<Call> {
    let last = u64::MAX;
    let image = restore(&[], &[lock(7, last, DELETE)], &[write(7, last, DELETE)]);
    let batch = mutation_bytes(&[Entry { key: a(), kind: Kind::Delete, row: vec![] }]);
    let one_step = Call::OneStep { transaction: 7, start: last, commit: last, batch };
    vec![image, commit(last, last), rollback(last), one_step]
}

/// A replay, refusals, a commit of the image's lock and a new line.
fn calls_from_an_image() -> Vec<Call> {
    let image = restore(&[10, 20], &[lock(7, 20, PUT)], &[write(10, 12, PUT)]);
    let before = vec![image, commit(10, 12), rollback(10), read(19), rollback(5)];
    [before, vec![commit(20, 21), rollback(5), read(21), Call::Statistics]].concat()
}

/// 1,025 defaults of as many keys; so many of them have no line.
fn many(orphans: usize) -> Call {
    let mut image = Image { table: 1, ..Image::default() };
    for number in 0..1025 {
        let key = [&a()[..], &(number as u16).to_be_bytes()].concat();
        image.defaults.push((key.clone(), 1, SMALLEST.to_vec()));
        if number >= orphans {
            image.writes.push((key, 2, RawRecord { start: 1, commit: 2, kind: 1 }));
        }
    }
    Call::Restore { image: image.write() }
}

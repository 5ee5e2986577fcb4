//! Hostile images: of few or many keys that are alike almost to their end, each with several lines, the entries in any
//! order, sound or with one fault at any place. Who sorts or merges wrongly answers them wrongly.

use paper::restore::{Image, RawLock, RawRecord};
use paper::store::Bytes;
use paper::trace::Call;

use crate::faults::{self, Fault, Place};
use crate::image::give_floor;
use crate::orders::{ORDERS, Order, put};
use crate::random::Random;
use crate::rows::{SMALLEST, row};
use crate::stock::Stock;

/// How the keys of an image differ.
#[derive(Clone, Copy, Debug, PartialEq, Eq, PartialOrd, Ord)]
pub enum Keys {
    /// From the first byte of the name on, and in length.
    Spread,
    /// In the last byte, of more than 256 in the last two; of 48 bytes, or as short as can be.
    Alike,
    AlikeAndShort,
    /// Each is the front of the next.
    Prefixes,
}

pub const KEYS: [Keys; 4] = [Keys::Spread, Keys::Alike, Keys::AlikeAndShort, Keys::Prefixes];

const TABLE: u32 = 1;
/// The longest name of a key.
const NAME: usize = 44;

/// So many different keys, ascending; of prefixes no more than there are.
fn keys(keys: Keys, many: usize) -> Vec<Bytes> {
    let key = |name: Bytes| [&TABLE.to_be_bytes()[..], &name].concat();
    let last = |number: usize| if many > 256 { (number as u16).to_be_bytes().to_vec() } else { vec![number as u8] };
    let name = |number: usize| match keys {
        Keys::Spread => {
            // A different pair of bytes for each number, near numbers far apart.
            let mut name = (number as u16).wrapping_mul(40_503).to_be_bytes().to_vec();
            name.resize(2 + number % (NAME - 1), b's');
            name
        }
        Keys::Alike => [vec![b'a'; NAME - last(number).len()], last(number)].concat(),
        Keys::AlikeAndShort => last(number),
        Keys::Prefixes => vec![b'p'; number + 1],
    };
    let many = if keys == Keys::Prefixes { many.min(NAME) } else { many };
    let mut all: Vec<Bytes> = (0..many).map(name).map(key).collect();
    all.sort();
    all
}

/// A sound image of so many keys. A key has one to three records, whose starts need not ascend with their stamps, a lock
/// or none, now and then below a stamp of its key, and a row for each Put.
pub fn sound(random: &mut Random, keys_of: Keys, many: usize, order: Order) -> Image {
    let mut image = Image { table: TABLE, ..Image::default() };
    for key in keys(keys_of, many) {
        one_key(random, &mut image, &key);
    }
    put(random, &mut image, order);
    if random.percent(15) {
        give_floor(random, &mut image);
    }
    image
}

fn one_key(random: &mut Random, image: &mut Image, key: &Bytes) {
    let mut starts: Vec<u64> = (1..=9).collect();
    random.shuffle(&mut starts);
    for (record, start) in starts.iter().take(random.between(1, 3)).enumerate() {
        let stamp = 10 * (record as u64 + 1);
        let kind = *random.pick(&[1, 1, 2, 3]);
        let start = if kind == 3 { stamp } else { *start };
        image.writes.push((key.clone(), stamp, RawRecord { start, commit: stamp, kind }));
        if kind == 1 {
            let row = if random.percent(90) { SMALLEST.to_vec() } else { row(random) };
            image.defaults.push((key.clone(), start, row));
        }
    }
    if random.percent(40) {
        let kind = *random.pick(&[1, 1, 2]);
        let (transaction, start) = (random.between(1, 3) as u64, *random.pick(&[40, 40, 40, 15]));
        image.locks.push((key.clone(), RawLock { transaction, primary: key.clone(), start, time_to_live: 1, kind }));
        if kind == 1 {
            image.defaults.push((key.clone(), start, SMALLEST.to_vec()));
        }
    }
}

/// A hostile image drawn: sound or with one fault.
pub fn any(random: &mut Random, stock: &Stock) -> Bytes {
    let many = match random.below(100) {
        0..50 => random.between(1, 8),
        50..85 => random.between(9, 40),
        85..98 => random.between(41, 150),
        _ => random.between(151, 700),
    };
    let (keys, order) = (*random.pick(&KEYS), *random.pick(&ORDERS));
    let image = sound(random, keys, many, order);
    if random.percent(30) { image.write() } else { faults::any(random, stock, image) }
}

/// Hostile images of hundreds of entries for the fixed sample, each after the one before, with figures between: sound
/// ones are taken, and those with the fault at the very end leave the store as it was.
pub fn cases() -> Vec<(&'static str, Vec<Call>)> {
    let random = &mut Random::new(1);
    let stock = &Stock::new(random);
    let mut shapes = Vec::new();
    for (name, keys, order) in [
        ("shuffled, all keys alike but the last byte", Keys::Alike, Order::Shuffled),
        ("ascending, all keys alike but the last byte", Keys::AlikeAndShort, Order::Ascending),
        ("descending", Keys::Spread, Order::Descending),
    ] {
        let image = sound(random, keys, 100, order);
        let mut calls = vec![Call::Restore { image: image.write() }, Call::Statistics, Call::Marks];
        for (fault, place) in [
            (Fault::SecondDefault, Place::Greatest),
            (Fault::SecondLock, Place::Last),
            (Fault::SecondWrite, Place::Last),
            (Fault::PutWithoutDefault, Place::Greatest),
            (Fault::Trailing, Place::Last),
            (Fault::LockWithoutDefault, Place::Greatest),
            (Fault::Orphan, Place::Greatest),
            (Fault::OrphanBesideRecord, Place::Greatest),
            (Fault::OrphanBesideLock, Place::Greatest),
            (Fault::TwoRecords, Place::Greatest),
            (Fault::LockBesideRecord, Place::Greatest),
            (Fault::LockAtFloor, Place::Greatest),
            (Fault::LockBelowFloor, Place::Greatest),
        ] {
            let image = sound(random, keys, 30, order);
            calls.push(Call::Restore { image: faults::one(random, stock, image, fault, place) });
        }
        calls.extend([Call::Statistics, Call::Marks]);
        shapes.push((name, calls));
    }
    shapes
}

//! One fault in an image, of each kind and at each place.

use paper::restore::{Image, RawLock, RawRecord};
use paper::store::Bytes;

use crate::orders::{Mark, default_mark, lock_mark, write_mark};
use crate::random::Random;
use crate::rows::{row, row_out_of_form};
use crate::sick::{delete_lock, delete_write, free_start, make_sick};
use crate::stock::Stock;

/// What is at fault, and nothing else: where a Put line is given another key, start or kind, its default goes. Only a
/// default of a key or start that no line can have is an orphan besides.
#[derive(Clone, Copy, Debug, PartialEq, Eq, PartialOrd, Ord)]
pub enum Fault {
    Trailing,
    Missing,
    Cut,
    Count,
    Table,
    DefaultKey,
    DefaultTable,
    DefaultStart,
    DefaultRow,
    SecondDefault,
    LockKey,
    LockTable,
    LockTransaction,
    LockStart,
    LockTimeToLive,
    LockKind,
    LockPrimary,
    SecondLock,
    WriteKey,
    WriteTable,
    WriteStamp,
    WriteStart,
    WriteKind,
    WriteCommit,
    RollbackStart,
    RollbackCommit,
    SecondWrite,
    PutWithoutDefault,
    // Sick images, made in sick.rs.
    LockWithoutDefault,
    Orphan,
    OrphanBesideRecord,
    OrphanBesideLock,
    TwoRecords,
    LockBesideRecord,
    // Locks at or below the floor.
    LockAtFloor,
    LockBelowFloor,
}

/// The faults of the image as a whole.
pub const WHOLE: [Fault; 5] = [Fault::Trailing, Fault::Missing, Fault::Cut, Fault::Count, Fault::Table];

/// The faults of an entry.
pub const OF_ENTRIES: [Fault; 23] = [
    Fault::DefaultKey,
    Fault::DefaultTable,
    Fault::DefaultStart,
    Fault::DefaultRow,
    Fault::SecondDefault,
    Fault::LockKey,
    Fault::LockTable,
    Fault::LockTransaction,
    Fault::LockStart,
    Fault::LockTimeToLive,
    Fault::LockKind,
    Fault::LockPrimary,
    Fault::SecondLock,
    Fault::WriteKey,
    Fault::WriteTable,
    Fault::WriteStamp,
    Fault::WriteStart,
    Fault::WriteKind,
    Fault::WriteCommit,
    Fault::RollbackStart,
    Fault::RollbackCommit,
    Fault::SecondWrite,
    Fault::PutWithoutDefault,
];

/// What makes an image sick.
pub const SICK: [Fault; 6] = [
    Fault::LockWithoutDefault,
    Fault::Orphan,
    Fault::OrphanBesideRecord,
    Fault::OrphanBesideLock,
    Fault::TwoRecords,
    Fault::LockBesideRecord,
];

/// Locks that the image's floor forbids.
pub const FLOORED: [Fault; 2] = [Fault::LockAtFloor, Fault::LockBelowFloor];

/// Those of an entry's that it has only beside others.
const AGAINST_OTHERS: [Fault; 4] =
    [Fault::SecondDefault, Fault::SecondLock, Fault::SecondWrite, Fault::PutWithoutDefault];

/// Which entry of its section is at fault.
#[derive(Clone, Copy, Debug, PartialEq, Eq, PartialOrd, Ord)]
pub enum Place {
    First,
    Last,
    /// The least by key, then start or stamp, wherever it stands.
    Least,
    Greatest,
    Any,
}

pub const PLACES: [Place; 5] = [Place::First, Place::Last, Place::Least, Place::Greatest, Place::Any];

impl Place {
    /// The place of the entry meant, of which there is one.
    pub fn of<T>(self, random: &mut Random, entries: &[T], mark: fn(&T) -> Mark<'_>) -> usize {
        let by_mark = |left: &usize, right: &usize| mark(&entries[*left]).cmp(&mark(&entries[*right]));
        match self {
            Place::First => 0,
            Place::Last => entries.len() - 1,
            Place::Least => (0..entries.len()).min_by(by_mark).expect("an entry"),
            Place::Greatest => (0..entries.len()).max_by(by_mark).expect("an entry"),
            Place::Any => random.below(entries.len()),
        }
    }
}

/// An image with a fault drawn at a place drawn, its bytes; now and then sick besides.
pub fn any(random: &mut Random, stock: &Stock, mut image: Image) -> Bytes {
    if random.percent(5) {
        sick(random, &mut image);
    }
    let fault = match random.below(100) {
        0..10 => *random.pick(&FLOORED),
        10..39 => *random.pick(&SICK),
        _ => of_01(random),
    };
    let place = *random.pick(&PLACES);
    one(random, stock, image, fault, place)
}

/// A fault by document 01's own checks, drawn.
pub fn of_01(random: &mut Random) -> Fault {
    match random.below(100) {
        0..14 => *random.pick(&WHOLE),
        14..36 => *random.pick(&AGAINST_OTHERS),
        36..50 => Fault::DefaultRow,
        50..53 => Fault::DefaultStart,
        53..56 => Fault::LockStart,
        _ => *random.pick(&OF_ENTRIES),
    }
}

/// Makes the image sick in a way drawn, at a place drawn, if it has an entry for it.
pub fn sick(random: &mut Random, image: &mut Image) {
    let (fault, place) = (*random.pick(&SICK), *random.pick(&PLACES));
    make_sick(random, image, fault, place);
}

/// A lock at or below the image's floor, if it has one.
pub fn floored(random: &mut Random, image: &mut Image) {
    let (fault, place) = (*random.pick(&FLOORED), *random.pick(&PLACES));
    by_floor(random, image, fault, place);
}

/// The bytes of an image with this fault at this place; where the section has no entry, with a byte that follows.
pub fn one(random: &mut Random, stock: &Stock, mut image: Image, fault: Fault, place: Place) -> Bytes {
    if WHOLE.contains(&fault) {
        return whole(random, image, fault, Image::write);
    }
    let done = in_entries(random, stock, &mut image, fault, place);
    if done.is_some() { image.write() } else { whole(random, image, Fault::Trailing, Image::write) }
}

/// Gives the image this fault of an entry at this place; none if it has no entry for it. Where another lock has come, the
/// floor stays below it.
pub fn in_entries(random: &mut Random, stock: &Stock, image: &mut Image, fault: Fault, place: Place) -> Option<()> {
    if FLOORED.contains(&fault) {
        return by_floor(random, image, fault, place);
    }
    let done = of_entries(random, stock, image, fault, place);
    image.floor = image.floor.min(below_locks(image));
    done
}

fn of_entries(random: &mut Random, stock: &Stock, image: &mut Image, fault: Fault, place: Place) -> Option<()> {
    in_default(random, stock, image, fault, place)
        .or_else(|| in_lock(random, stock, image, fault, place))
        .or_else(|| in_write(random, stock, image, fault, place))
        .or_else(|| make_sick(random, image, fault, place))
}

/// A floor at the start of the image's lowest lock, or above that of the lock at this place.
fn by_floor(random: &mut Random, image: &mut Image, fault: Fault, place: Place) -> Option<()> {
    let lowest = image.locks.iter().map(|(_, lock)| lock.start).min()?;
    let (_, lock) = &image.locks[place.of(random, &image.locks, lock_mark)];
    image.floor = match fault {
        Fault::LockAtFloor => lowest,
        _ => lock.start.saturating_add(random.between(1, 3) as u64),
    };
    Some(())
}

/// The highest floor that the image's locks let stand.
pub fn below_locks(image: &Image) -> u64 {
    image.locks.iter().map(|(_, lock)| lock.start).min().map_or(u64::MAX, |lowest| lowest.saturating_sub(1))
}

/// The bytes of an image with this fault of the whole; of any other, with a byte that follows.
pub fn whole(random: &mut Random, image: Image, fault: Fault, write: fn(&Image) -> Bytes) -> Bytes {
    if fault == Fault::Table {
        return write(&Image { table: 0, ..if random.percent(75) { Image::default() } else { image } });
    }
    let mut bytes = write(&image);
    match fault {
        Fault::Missing => {
            bytes.pop();
        }
        Fault::Cut => bytes.truncate(random.below(bytes.len())),
        Fault::Count => {
            let at = *random.pick(&counts(image, write));
            bytes[at] = bytes[at].wrapping_add(*random.pick(&[1, 255]));
        }
        _ => bytes.push(*random.pick(&[0, 1, 255])),
    }
    bytes
}

/// Where the low bytes of the three counts stand.
fn counts(image: Image, write: fn(&Image) -> Bytes) -> [usize; 3] {
    let without_entries = write(&Image::default()).len();
    let bytes_of = |image: Image| write(&image).len() - without_entries;
    let first = without_entries - 5;
    let defaults = bytes_of(Image { defaults: image.defaults, ..Image::default() });
    let locks = bytes_of(Image { locks: image.locks, ..Image::default() });
    [first, first + 2 + defaults, first + 4 + defaults + locks]
}

/// A key out of form: this one, of its table, cut to 4 bytes or made as long as 49, or any.
fn key_out_of_form(random: &mut Random, stock: &Stock, key: &[u8]) -> Bytes {
    let mut near = key.to_vec();
    near.resize(*random.pick(&[4, 49]), b'f');
    if random.percent(50) { near } else { stock.key_out_of_form(random, false) }
}

/// The same key in another table.
fn foreign(key: &Bytes) -> Bytes {
    let mut other = key.clone();
    other[0] ^= 1;
    if other[..4] == [0, 0, 0, 0] {
        other[3] = 1;
    }
    other
}

/// Adds an entry at the place, or anywhere where the place is the order's.
pub fn add<T>(random: &mut Random, entries: &mut Vec<T>, entry: T, place: Place) {
    let at = match place {
        Place::First => 0,
        Place::Last => entries.len(),
        _ => random.below(entries.len() + 1),
    };
    entries.insert(at, entry);
}

/// Adds an entry like the one at this place: beside it, or as far from it as can be.
fn again<T>(random: &mut Random, entries: &mut Vec<T>, entry: T, at: usize) {
    let far = if 2 * at < entries.len() { entries.len() } else { 0 };
    let at = *random.pick(&[at, at + 1, far, far]);
    entries.insert(at, entry);
}

fn in_default(random: &mut Random, stock: &Stock, image: &mut Image, fault: Fault, place: Place) -> Option<()> {
    let defaults = &mut image.defaults;
    if !(Fault::DefaultKey..=Fault::SecondDefault).contains(&fault) || defaults.is_empty() {
        return None;
    }
    let at = place.of(random, defaults, default_mark);
    let (key, start, _) = defaults[at].clone();
    match fault {
        Fault::DefaultKey => {
            let entry = (key_out_of_form(random, stock, &key), start, row(random));
            add(random, defaults, entry, place);
        }
        Fault::DefaultTable => {
            let entry = (foreign(&key), start, row(random));
            add(random, defaults, entry, place);
        }
        Fault::DefaultStart => {
            let entry = (key, 0, row(random));
            add(random, defaults, entry, place);
        }
        Fault::DefaultRow => defaults[at].2 = row_out_of_form(random, false),
        _ => {
            let entry = (key, start, row(random));
            again(random, defaults, entry, at);
        }
    }
    Some(())
}

fn in_lock(random: &mut Random, stock: &Stock, image: &mut Image, fault: Fault, place: Place) -> Option<()> {
    if !(Fault::LockKey..=Fault::SecondLock).contains(&fault) || image.locks.is_empty() {
        return None;
    }
    let at = place.of(random, &image.locks, lock_mark);
    if !matches!(fault, Fault::LockTransaction | Fault::LockTimeToLive | Fault::LockPrimary) {
        delete_lock(image, at);
    }
    let (key, lock) = &mut image.locks[at];
    match fault {
        Fault::LockKey => *key = key_out_of_form(random, stock, key),
        Fault::LockTable => *key = foreign(key),
        Fault::LockTransaction => lock.transaction = 0,
        Fault::LockStart => lock.start = 0,
        Fault::LockTimeToLive => lock.time_to_live = 0,
        Fault::LockKind => lock.kind = *random.pick(&[0, 3, 3, 3, 4, 255]),
        Fault::LockPrimary => lock.primary = key_out_of_form(random, stock, key),
        _ => {
            let (key, lock) = image.locks[at].clone();
            let start = free_start(random, image, &key, u64::MAX);
            again(random, &mut image.locks, (key, RawLock { start, ..lock }), at);
        }
    }
    Some(())
}

fn in_write(random: &mut Random, stock: &Stock, image: &mut Image, fault: Fault, place: Place) -> Option<()> {
    if !(Fault::WriteKey..=Fault::PutWithoutDefault).contains(&fault) || image.writes.is_empty() {
        return None;
    }
    let at = place.of(random, &image.writes, write_mark);
    let as_it_is = fault == Fault::SecondWrite && random.percent(50);
    if fault != Fault::WriteStamp && !as_it_is {
        delete_write(image, at);
    }
    let (key, stamp, record) = image.writes[at].clone();
    // A record of this key whose start no other line has, if there is one below.
    let free = free_start(random, image, &key, stamp);
    let new = |stamp, start, kind| (key.clone(), stamp, RawRecord { start, commit: stamp, kind });
    image.writes[at] = match fault {
        Fault::WriteKey => (key_out_of_form(random, stock, &key), stamp, record),
        Fault::WriteTable => (foreign(&key), stamp, record),
        Fault::WriteStamp => (key.clone(), stamp.wrapping_add(1), record),
        Fault::WriteStart => new(stamp, 0, 2),
        Fault::WriteKind => (key.clone(), stamp, RawRecord { kind: *random.pick(&[0, 4, 255]), ..record }),
        Fault::WriteCommit => new(stamp, stamp, 2),
        Fault::RollbackStart => new(0, 0, 3),
        Fault::RollbackCommit if free < stamp => new(stamp, free, 3),
        Fault::RollbackCommit => new(stamp.max(1) + 1, stamp.max(1), 3),
        Fault::SecondWrite => (key.clone(), stamp, record),
        // Whatever it was, it is a Put now, and no default stands at its start.
        _ if record.start < stamp => new(stamp, record.start, 1),
        _ if free < stamp => new(stamp, free, 1),
        _ => new(u64::MAX - 1, stamp.min(u64::MAX - 2), 1),
    };
    if fault == Fault::SecondWrite {
        let second = if as_it_is || free >= stamp { (key, stamp, record) } else { new(stamp, free, 2) };
        again(random, &mut image.writes, second, at);
    }
    Some(())
}

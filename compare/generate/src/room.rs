//! Boxes at and beside each of the four rooms, all four at once, and images beyond all of them.

use paper::restore::{Image, RawLock, RawRecord};
use paper::room::{DEFAULTS, LINES, LIVE_BYTES, LOCKS};
use paper::store::Bytes;

use crate::random::Random;
use crate::rows::{SMALLEST, row_of};

/// The table of full boxes.
const TABLE: u32 = 1;

/// The n-th key, of 6 bytes.
fn key(number: usize) -> Bytes {
    [&TABLE.to_be_bytes()[..], &(number as u16).to_be_bytes()].concat()
}

/// The n-th key, of 48 bytes.
fn long_key(number: usize) -> Bytes {
    let mut long = key(number);
    long.resize(48, b'l');
    long
}

fn lock(random: &mut Random, primary: Bytes) -> RawLock {
    let kind = *random.pick(&[1, 2]);
    RawLock { transaction: random.between(1, 2) as u64, primary, start: 9, time_to_live: 1, kind }
}

/// An image at a room or a few beside it: which of the four, and by how much past (below 0: short of it).
pub fn beside_room(random: &mut Random, which: usize, past: isize) -> Image {
    let near = |most: usize| (most as isize + past) as usize;
    let mut image = Image { table: TABLE, ..Image::default() };
    match which {
        0 => lines(random, &mut image, near(LINES)),
        1 => locks(random, &mut image, near(LOCKS)),
        2 => defaults(random, &mut image, near(DEFAULTS)),
        _ => live_bytes(random, &mut image, near(LIVE_BYTES)),
    }
    image
}

/// Records in chains beside some locks, far from the other rooms.
fn lines(random: &mut Random, image: &mut Image, lines: usize) {
    let locks = *random.pick(&[0, 1, 30, 200, LOCKS]);
    add_locks(random, image, locks);
    let mut left = lines - locks;
    let mut number = 0;
    while left > 0 {
        let chain = (*random.pick(&[1, 1, 2, 4, 5, 16, 17])).min(left);
        for start in 1..=chain as u64 {
            if number % 9 == 0 {
                add_put(image, key(number), start, SMALLEST.to_vec());
            } else {
                image.writes.push((key(number), start, RawRecord { start, commit: start, kind: 3 }));
            }
        }
        left -= chain;
        number += 1;
    }
}

/// A Put record of this start, stamped above all starts of its key, with its row.
fn add_put(image: &mut Image, key: Bytes, start: u64, row: Bytes) {
    let stamp = 100 + start;
    image.writes.push((key.clone(), stamp, RawRecord { start, commit: stamp, kind: 1 }));
    image.defaults.push((key, start, row));
}

fn locks(random: &mut Random, image: &mut Image, locks: usize) {
    add_locks(random, image, locks);
    for number in 0..random.below(20) {
        image.writes.push((key(number), 2, RawRecord { start: 2, commit: 2, kind: 3 }));
    }
}

/// Locks on keys from 60,000 on, some of them beside records of lower stamps; a Put lock has its row.
fn add_locks(random: &mut Random, image: &mut Image, locks: usize) {
    for number in 60_000..60_000 + locks {
        let lock = lock(random, key(60_000));
        if lock.kind == 1 {
            image.defaults.push((key(number), lock.start, SMALLEST.to_vec()));
        }
        image.locks.push((key(number), lock));
    }
}

/// Defaults in chains, those of some locks among them; each has its line, so the lines are at their room too, or a few
/// beyond.
fn defaults(random: &mut Random, image: &mut Image, defaults: usize) {
    for number in 60_000..60_000 + *random.pick(&[0, 1, 30]) {
        image.locks.push((key(number), RawLock { kind: 1, ..lock(random, key(60_000)) }));
        image.defaults.push((key(number), 9, SMALLEST.to_vec()));
    }
    let mut left = defaults - image.defaults.len();
    let mut number = 0;
    while left > 0 {
        let chain = (*random.pick(&[1, 2, 4, 5, 16, 17])).min(left);
        for start in 1..=chain as u64 {
            add_put(image, key(number), start, SMALLEST.to_vec());
        }
        left -= chain;
        number += 1;
    }
}

/// Locks with long primaries, records of long keys in chains, and rows up to just these live bytes.
fn live_bytes(random: &mut Random, image: &mut Image, live_bytes: usize) {
    let mut left = live_bytes;
    for number in 0..random.below(40) {
        let primary = long_key(random.below(9));
        left -= long_key(number).len() + primary.len();
        let mut lock = lock(random, primary);
        lock.kind = 2;
        image.locks.push((long_key(number), lock));
    }
    for number in 100..100 + random.below(60) {
        for stamp in 1..=random.between(1, 4) as u64 {
            left -= long_key(number).len();
            image.writes.push((long_key(number), stamp, RawRecord { start: stamp, commit: stamp, kind: 3 }));
        }
    }
    fill_with_rows(image, left, 1000);
}

/// Put records of just these live bytes, of which there are at least 15: a 6-byte key, that of the default, and a row of
/// 3 to 255 bytes each.
fn fill_with_rows(image: &mut Image, mut left: usize, mut number: usize) {
    while left > 0 {
        let row = if left <= 267 { left - 12 } else { (left - 12 - 15).min(250) };
        add_put(image, key(number), 1, row_of(row));
        left -= 12 + row;
        number += 1;
    }
}

/// All four rooms just full: every line is a Put. The image has more than 65,535 bytes.
pub fn all_full(random: &mut Random) -> Image {
    let mut image = Image { table: TABLE, ..Image::default() };
    let mut left = LIVE_BYTES - LOCKS * 12 - (LINES - LOCKS) * 6;
    for number in 0..LINES {
        let row = row_of(left / (LINES - number) - 6);
        left -= 6 + row.len();
        if number < LOCKS {
            image.locks.push((key(number), RawLock { kind: 1, ..lock(random, key(0)) }));
            image.defaults.push((key(number), 9, row));
        } else {
            add_put(&mut image, key(LOCKS + (number - LOCKS) / 5), (number % 5 + 1) as u64, row);
        }
    }
    image
}

/// A sound image far beyond the room, of this many lines of one sort.
pub fn far_beyond(random: &mut Random, entries: usize) -> Image {
    let mut image = Image { table: TABLE, ..Image::default() };
    let section = random.below(3);
    for number in 0..entries {
        match section {
            0 => add_put(&mut image, key(number), 1, SMALLEST.to_vec()),
            1 => image.locks.push((key(number), RawLock { kind: 2, ..lock(random, key(0)) })),
            _ => image.writes.push((key(number), 1, RawRecord { start: 1, commit: 1, kind: 3 })),
        }
    }
    image
}

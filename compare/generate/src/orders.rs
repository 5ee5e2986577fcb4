//! The order in which the entries of an image stand.

use paper::restore::{Image, RawLock, RawRecord};
use paper::store::Bytes;

use crate::random::Random;

#[derive(Clone, Copy, Debug, PartialEq, Eq, PartialOrd, Ord)]
pub enum Order {
    /// Each section by key, then start or stamp.
    Ascending,
    Descending,
    Shuffled,
    /// Ascending, but for one entry of each section.
    OneAstray,
}

pub const ORDERS: [Order; 4] = [Order::Ascending, Order::Descending, Order::Shuffled, Order::OneAstray];

/// Puts the entries of each section in this order.
pub fn put(random: &mut Random, image: &mut Image, order: Order) {
    arrange(random, &mut image.defaults, order, default_mark);
    arrange(random, &mut image.locks, order, lock_mark);
    arrange(random, &mut image.writes, order, write_mark);
}

/// What a section is ordered by.
pub type Mark<'a> = (&'a [u8], u64);

pub fn default_mark((key, start, _): &(Bytes, u64, Bytes)) -> Mark<'_> {
    (key, *start)
}

pub fn lock_mark((key, _): &(Bytes, RawLock)) -> Mark<'_> {
    (key, 0)
}

pub fn write_mark((key, stamp, _): &(Bytes, u64, RawRecord)) -> Mark<'_> {
    (key, *stamp)
}

/// Do the entries of each section ascend? Entries alike may stand beside each other.
pub fn ascends(image: &Image) -> bool {
    image.defaults.is_sorted_by_key(default_mark)
        && image.locks.is_sorted_by_key(lock_mark)
        && image.writes.is_sorted_by_key(write_mark)
}

fn arrange<T>(random: &mut Random, entries: &mut Vec<T>, order: Order, mark: fn(&T) -> Mark<'_>) {
    match order {
        Order::Shuffled => return random.shuffle(entries),
        _ => entries.sort_by(|left, right| mark(left).cmp(&mark(right))),
    }
    if order == Order::Descending {
        entries.reverse();
    }
    if order == Order::OneAstray && !entries.is_empty() {
        let astray = entries.remove(random.below(entries.len()));
        entries.insert(random.below(entries.len() + 1), astray);
    }
}

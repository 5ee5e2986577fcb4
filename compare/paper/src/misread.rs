//! Wrong readings of an image by one who sorts its entries and walks the sorted lists, as bends of **Restore**: each lets
//! through an image with one fault of some place, or refuses a sound one.

use std::collections::{BTreeMap, BTreeSet};

use crate::bend::{Bend, bent};
use crate::restore::Image;
use crate::store::Bytes;

/// What sets the entries of a section apart: the key and the start or stamp; a lock's key alone.
type Mark = (Bytes, u64);

#[derive(Clone, Copy)]
enum Section {
    Defaults,
    Locks,
    Writes,
}

use Section::{Defaults, Locks, Writes};

/// An entry that stands again is noticed only right after the first.
const APART: [(Bend, Section); 3] = [
    (Bend::SecondDefaultApartTaken, Defaults),
    (Bend::SecondLockApartTaken, Locks),
    (Bend::SecondWriteApartTaken, Writes),
];

/// The last entry of a section is judged neither by itself nor against the others.
const LAST: [(Bend, Section); 3] =
    [(Bend::LastDefaultUnjudged, Defaults), (Bend::LastLockUnjudged, Locks), (Bend::LastWriteUnjudged, Writes)];

/// Of the entries in order the last one is not held against the one before.
const GREATEST: [(Bend, Section); 3] =
    [(Bend::GreatestDefaultTwice, Defaults), (Bend::GreatestLockTwice, Locks), (Bend::GreatestWriteTwice, Writes)];

/// Is a sound image refused by a wrong reading?
pub fn refused(image: &Image) -> bool {
    bent(Bend::PutAheadRefused) && put_ahead(image) || bent(Bend::PutsByStampRefused) && starts_descend(image)
}

/// The image that a wrong reading sees in the place of one with a fault: without the entries that it does not judge.
pub fn seen(image: &Image) -> Option<Image> {
    let in_force = |list: &[(Bend, Section)]| list.iter().find(|(bend, _)| bent(*bend)).map(|(_, section)| *section);
    if let Some(section) = in_force(&APART) {
        return Some(without(image, section, &apart(&marks(image, section))));
    }
    if let Some(section) = in_force(&LAST) {
        let last = marks(image, section).len().checked_sub(1)?;
        return Some(without(image, section, &BTreeSet::from([last])));
    }
    if let Some(section) = in_force(&GREATEST) {
        return Some(without(image, section, &BTreeSet::from([greatest_twice(&marks(image, section))?])));
    }
    for (bend, beyond) in [(Bend::PutBelowDefaultsTaken, false), (Bend::PutBeyondDefaultsTaken, true)] {
        if bent(bend) {
            return Some(without(image, Writes, &puts_alone(image, beyond)));
        }
    }
    None
}

fn marks(image: &Image, section: Section) -> Vec<Mark> {
    match section {
        Defaults => image.defaults.iter().map(|(key, start, _)| (key.clone(), *start)).collect(),
        Locks => image.locks.iter().map(|(key, _)| (key.clone(), 0)).collect(),
        Writes => image.writes.iter().map(|(key, stamp, _)| (key.clone(), *stamp)).collect(),
    }
}

/// The image without the entries at these places of a section.
fn without(image: &Image, section: Section, places: &BTreeSet<usize>) -> Image {
    fn left<T: Clone>(entries: &[T], places: &BTreeSet<usize>) -> Vec<T> {
        entries.iter().enumerate().filter(|(at, _)| !places.contains(at)).map(|(_, entry)| entry.clone()).collect()
    }
    let mut image = image.clone();
    match section {
        Defaults => image.defaults = left(&image.defaults, places),
        Locks => image.locks = left(&image.locks, places),
        Writes => image.writes = left(&image.writes, places),
    }
    image
}

/// The places of entries that stand again, but not right after one like them.
fn apart(marks: &[Mark]) -> BTreeSet<usize> {
    let mut met = BTreeSet::new();
    let again = |(at, mark): (usize, &Mark)| (!met.insert(mark.clone()) && marks[at - 1] != *mark).then_some(at);
    marks.iter().enumerate().filter_map(again).collect()
}

/// The place of the second of two entries alike, if no entry's mark is greater.
fn greatest_twice(marks: &[Mark]) -> Option<usize> {
    let greatest = marks.iter().max()?;
    let mut places = (0..marks.len()).filter(|at| marks[*at] == *greatest);
    places.nth(1)
}

/// The key and start of each Put, by its place among the writes.
fn puts(image: &Image) -> impl Iterator<Item = (usize, Mark)> {
    let puts = image.writes.iter().enumerate().filter(|(_, (_, _, record))| record.kind == 1);
    puts.map(|(at, (key, _, record))| (at, (key.clone(), record.start)))
}

/// The places of Puts without default, those above every default or the others.
fn puts_alone(image: &Image, beyond: bool) -> BTreeSet<usize> {
    let defaults: BTreeSet<Mark> = marks(image, Defaults).into_iter().collect();
    let alone = puts(image).filter(|(_, put)| !defaults.contains(put));
    alone.filter(|(_, put)| defaults.last().is_none_or(|last| put > last) == beyond).map(|(at, _)| at).collect()
}

/// Is there a Put whose default has more defaults before it than the Put has writes?
fn put_ahead(image: &Image) -> bool {
    let places: BTreeMap<Mark, usize> = marks(image, Defaults).into_iter().zip(0..).collect();
    puts(image).any(|(at, put)| places.get(&put).is_some_and(|place| *place > at))
}

/// Is there a key with two Puts of which the one with the lower stamp has the higher start?
fn starts_descend(image: &Image) -> bool {
    let stamp = |at: usize| image.writes[at].1;
    let starts: BTreeMap<Mark, u64> = puts(image).map(|(at, (key, start))| ((key, stamp(at)), start)).collect();
    let starts: Vec<(&Mark, &u64)> = starts.iter().collect();
    starts.windows(2).any(|two| two[0].0.0 == two[1].0.0 && two[0].1 > two[1].1)
}

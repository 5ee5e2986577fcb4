//! Wrong images, each a bend of **Write the image**: entries of other tables, entries left out or in another order, and
//! what a refusal leaves in the buffer or counts.

use std::cmp::Reverse;

use crate::answer::{Answer, SHORT_BUFFER};
use crate::bend::{Bend, bent};
use crate::form::table_of;
use crate::restore::Image;
use crate::store::{Bytes, Kind, Store};

/// The image that the bend in force makes of the right one.
pub fn seen(store: &Store, image: Image) -> Image {
    ordered(store, chosen(store, image))
}

/// Other entries than the table's.
fn chosen(store: &Store, mut image: Image) -> Image {
    let table = image.table;
    let all = || everything(store, table);
    let by = |of_table: &dyn Fn(u32) -> bool| of_tables(all(), of_table);
    let part = image.clone();
    match () {
        () if bent(Bend::EveryTableWritten) => return all(),
        () if bent(Bend::LaterTablesWritten) => return by(&|other| other >= table),
        () if bent(Bend::EarlierTablesWritten) => return by(&|other| other <= table),
        () if bent(Bend::TableByFirstByte) => return by(&|other| other >> 24 == table >> 24),
        () if bent(Bend::TableByLastByte) => return by(&|other| other & 255 == table & 255),
        () if bent(Bend::LocksOfEveryTable) => image.locks = all().locks,
        () if bent(Bend::LocksByPrimary) => {
            image.locks = all().locks;
            image.locks.retain(|(_, lock)| table_of(&lock.primary) == table);
        }
        () if bent(Bend::ForeignPrimaryLeftOut) => image.locks.retain(|(_, lock)| table_of(&lock.primary) == table),
        () if bent(Bend::RollbacksNotWritten) => {
            image.writes.retain(|(_, _, record)| record.kind != Kind::Rollback.byte());
        }
        () if bent(Bend::LockedRowsNotWritten) => image.defaults.retain(|(key, start, _)| !locked(&part, key, *start)),
        () => {}
    }
    image
}

/// The image of every table's entries, under this number.
fn everything(store: &Store, table: u32) -> Image {
    let mut all = Image { table, floor: store.floor, ..Image::default() };
    for other in store.tables() {
        let part = store.image_of(other);
        all.defaults.extend(part.defaults);
        all.locks.extend(part.locks);
        all.writes.extend(part.writes);
    }
    all
}

fn of_tables(mut image: Image, of_table: &dyn Fn(u32) -> bool) -> Image {
    image.defaults.retain(|(key, ..)| of_table(table_of(key)));
    image.locks.retain(|(key, _)| of_table(table_of(key)));
    image.writes.retain(|(key, ..)| of_table(table_of(key)));
    image
}

/// Is the default of this key and start a lock's?
fn locked(image: &Image, key: &Bytes, start: u64) -> bool {
    image.locks.iter().any(|(held, lock)| held == key && lock.start == start)
}

/// The stamp of the record of this key and start; none if it is a lock's.
fn stamp_of(store: &Store, key: &[u8], start: u64) -> Option<u64> {
    store.records_of(key).find(|(_, record)| record.start == start).map(|(stamp, _)| stamp)
}

/// The entries in another order.
fn ordered(store: &Store, mut image: Image) -> Image {
    let stamp = |key: &[u8], start| stamp_of(store, key, start);
    match () {
        // None goes before all stamps.
        () if bent(Bend::DefaultsByLines) => {
            image.defaults.sort_by_key(|(key, start, _)| (key.clone(), stamp(key, *start)));
        }
        () if bent(Bend::DefaultsByStamps) => {
            image.defaults.sort_by_key(|(key, start, _)| (key.clone(), stamp(key, *start).unwrap_or(u64::MAX)));
        }
        () if bent(Bend::WritesByStart) => image.writes.sort_by_key(|(key, _, record)| (key.clone(), record.start)),
        () if bent(Bend::WritesDescend) => image.writes.sort_by_key(|(key, stamp, _)| (key.clone(), Reverse(*stamp))),
        () if bent(Bend::StampsBeforeKeys) => {
            image.defaults.sort_by_key(|(key, start, _)| (*start, key.clone()));
            image.locks.sort_by_key(|(key, lock)| (lock.start, key.clone()));
            image.writes.sort_by_key(|(key, stamp, _)| (*stamp, key.clone()));
        }
        () if bent(Bend::LongKeysLast) => {
            image.defaults.sort_by_key(|(key, ..)| key.len());
            image.locks.sort_by_key(|(key, _)| key.len());
            image.writes.sort_by_key(|(key, ..)| key.len());
        }
        () => {}
    }
    image
}

/// The image's bytes, locks before defaults.
pub fn locks_first(image: &Image) -> Bytes {
    let [table, floor, defaults, locks, writes] = sections(image);
    [table, floor, locks, defaults, writes].concat()
}

/// The table number, the floor, and each section with its count. Each is cut out of an image that has no other entries, so
/// that the counts beside it have 2 bytes each.
fn sections(image: &Image) -> [Bytes; 5] {
    let Image { table, floor, defaults, locks, writes } = image.clone();
    let defaults = Image { table, floor, defaults, ..Image::default() }.write();
    let locks = Image { table, locks, ..Image::default() }.write();
    let writes = Image { table, writes, ..Image::default() }.write();
    let ends = [&defaults[12..defaults.len() - 4], &locks[14..locks.len() - 2], &writes[16..]];
    [&defaults[..4], &defaults[4..12], ends[0], ends[1], ends[2]].map(<[u8]>::to_vec)
}

/// What a 12 leaves in the buffer, which is shorter than the image or taken to be.
pub fn refused(image: &Image, bytes: &[u8], buffer: &mut [u8]) {
    if bent(Bend::ShortImageFilled) {
        let part = buffer.len().min(bytes.len());
        buffer[..part].copy_from_slice(&bytes[..part]);
    }
    if bent(Bend::ShortImageLastByte)
        && let Some(last) = buffer.last_mut()
    {
        *last = 0;
    }
    if bent(Bend::ShortImageSections) {
        let mut rest = buffer;
        for section in sections(image) {
            let Some((part, after)) = rest.split_at_mut_checked(section.len()) else {
                return;
            };
            part.copy_from_slice(&section);
            rest = after;
        }
    }
}

/// The count of an accepted image of so many bytes in a buffer of so many.
pub fn count(bytes: usize, buffer: usize) -> u64 {
    let count = match () {
        () if bent(Bend::ImageCountZero) => 0,
        () if bent(Bend::ImageCountsBuffer) => buffer,
        () if bent(Bend::ImageCountOfTwoBytes) => bytes % 65_536,
        () => bytes,
    };
    count as u64
}

impl Store {
    /// The answer that the bend in force gives, and the store that it leaves.
    pub fn after_writing(&mut self, table: u32, mut answer: Answer) -> Answer {
        if bent(Bend::ShortImageCounts) && answer.number == SHORT_BUFFER {
            answer.count = self.image_of(table).write().len() as u64;
        }
        if bent(Bend::WritingDropsOthers) && answer.number == 0 {
            self.defaults.retain(|key, _| table_of(key) == table);
            self.locks.retain(|key, _| table_of(key) == table);
            self.records.retain(|key, _| table_of(key) == table);
        }
        answer
    }
}

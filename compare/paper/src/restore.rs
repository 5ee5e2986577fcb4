//! **Restore**: the image's form, its faults, and the store it brings. What makes it sick is in sick.rs.

use crate::answer::{IMAGE, NO_ROOM, Refusal, refuse};
use crate::bend::{Bend, bent};
use crate::convert::{old_image, with_counts};
use crate::form::{Reader, key_in_form, table_of};
use crate::misfloored;
use crate::misread;
use crate::room::{DEFAULTS, LINES, LOCKS};
use crate::row::{old_row_in_form, row_in_form};
use crate::store::{Bytes, Kind, Lock, Record, Store};

/// An image read by its form alone: entries as they stand, in their order.
#[derive(Clone, Debug, Default, PartialEq, Eq)]
pub struct Image {
    pub table: u32,
    pub floor: u64,
    pub defaults: Vec<(Bytes, u64, Bytes)>,
    pub locks: Vec<(Bytes, RawLock)>,
    pub writes: Vec<(Bytes, u64, RawRecord)>,
}

/// A lock whose kind is any byte.
#[derive(Clone, Debug, PartialEq, Eq)]
pub struct RawLock {
    pub transaction: u64,
    pub primary: Bytes,
    pub start: u64,
    pub time_to_live: u64,
    pub kind: u8,
}

/// A record whose kind is any byte.
#[derive(Clone, Copy, Debug, PartialEq, Eq)]
pub struct RawRecord {
    pub start: u64,
    pub commit: u64,
    pub kind: u8,
}

impl Image {
    /// "Image: 4-byte table number; 2-byte count of defaults (key length, key, 8-byte start, row length, row); 2-byte
    /// count of locks (key length, key, lock); 2-byte count of writes (key length, key, 8-byte write stamp, start,
    /// commit, kind byte)." Start and commit have 8 bytes. The floor "stands in the image, 8 bytes, after the table number".
    pub fn read(bytes: &[u8]) -> Option<Image> {
        let mut reader = Reader::new(bytes);
        let (table, floor) = (reader.four()?, reader.eight()?);
        Image { table, floor, ..Image::default() }.sections(reader)
    }

    /// An image of document 01's own form, which has no floor.
    pub fn read_old(bytes: &[u8]) -> Option<Image> {
        let mut reader = Reader::new(bytes);
        Image { table: reader.four()?, ..Image::default() }.sections(reader)
    }

    /// The three sections, after which nothing may follow.
    fn sections(self, mut reader: Reader) -> Option<Image> {
        let mut image = self;
        for _ in 0..reader.two()? {
            image.defaults.push((reader.short()?, reader.eight()?, reader.short()?));
        }
        for _ in 0..reader.two()? {
            let key = reader.short()?;
            let transaction = reader.eight()?;
            let primary = reader.short()?;
            let (start, time_to_live, kind) = (reader.eight()?, reader.eight()?, reader.byte()?);
            image.locks.push((key, RawLock { transaction, primary, start, time_to_live, kind }));
        }
        for _ in 0..reader.two()? {
            let (key, stamp) = (reader.short()?, reader.eight()?);
            let (start, commit, kind) = (reader.eight()?, reader.eight()?, reader.byte()?);
            image.writes.push((key, stamp, RawRecord { start, commit, kind }));
        }
        if !bent(Bend::ImageTrailing) {
            reader.ended()?;
        }
        Some(image)
    }

    /// The image's bytes, whatever it holds; a key, primary or row of more than 255 bytes has no form.
    pub fn write(&self) -> Bytes {
        [&self.table.to_be_bytes()[..], &self.floor.to_be_bytes(), &self.written_sections()].concat()
    }

    /// The same in document 01's own form, without the floor.
    pub fn write_old(&self) -> Bytes {
        [&self.table.to_be_bytes()[..], &self.written_sections()].concat()
    }

    fn written_sections(&self) -> Bytes {
        let mut out = Bytes::new();
        let short = |out: &mut Bytes, bytes: &[u8]| {
            out.push(bytes.len() as u8);
            out.extend_from_slice(bytes);
        };
        out.extend_from_slice(&(self.defaults.len() as u16).to_be_bytes());
        for (key, start, row) in &self.defaults {
            short(&mut out, key);
            out.extend_from_slice(&start.to_be_bytes());
            short(&mut out, row);
        }
        out.extend_from_slice(&(self.locks.len() as u16).to_be_bytes());
        for (key, lock) in &self.locks {
            short(&mut out, key);
            out.extend_from_slice(&lock.transaction.to_be_bytes());
            short(&mut out, &lock.primary);
            out.extend_from_slice(&lock.start.to_be_bytes());
            out.extend_from_slice(&lock.time_to_live.to_be_bytes());
            out.push(lock.kind);
        }
        out.extend_from_slice(&(self.writes.len() as u16).to_be_bytes());
        for (key, stamp, record) in &self.writes {
            short(&mut out, key);
            for number in [*stamp, record.start, record.commit] {
                out.extend_from_slice(&number.to_be_bytes());
            }
            out.push(record.kind);
        }
        out
    }

    /// Do the counts alone exceed a room?
    fn counts_beyond_room(&self) -> bool {
        self.locks.len() > LOCKS || self.defaults.len() > DEFAULTS || self.locks.len() + self.writes.len() > LINES
    }

    /// The store of an image, sick or not; none is a fault by document 01's own checks, of which "row decodes" means the row
    /// that stands: "an image with an unconverted row is refused".
    pub fn store(&self) -> Option<Store> {
        self.judged_by(row_in_form)
    }

    /// The same of an old image, whose rows are document 01's.
    pub fn old_store(&self) -> Option<Store> {
        let new = bent(Bend::NewRowKept) || bent(Bend::NewRowConverted);
        self.judged_by(if new { |row| old_row_in_form(row) || row_in_form(row) } else { old_row_in_form })
    }

    fn judged_by(&self, row: fn(&[u8]) -> bool) -> Option<Store> {
        self.judged(row).filter(|_| !misread::refused(self)).or_else(|| misread::seen(self)?.judged(row))
    }

    /// "then each entry, in any order": entries need not be sorted, and since every fault is 13 the order of the
    /// checks can't be seen.
    fn judged(&self, row_decodes: fn(&[u8]) -> bool) -> Option<Store> {
        // "a restored store taking the image's" floor
        let mut store = Store { floor: self.floor, ..Store::default() };
        // "table number not zero"
        fine(self.table != 0 || bent(Bend::ImageTableZero))?;
        // "key of this table"
        let of_table = |key: &[u8]| key_in_form(key) && (table_of(key) == self.table || bent(Bend::ImageOtherTable));
        let mut before: &[u8] = &[];
        for (key, start, row) in &self.defaults {
            fine(of_table(key) && !(bent(Bend::ImageSortedOnly) && key[..] < *before))?;
            before = key;
            // "default start not 0, row decodes"
            fine(*start != 0 || bent(Bend::DefaultStartZero))?;
            fine(row_decodes(row) || bent(Bend::ImageRowUnjudged))?;
            // "no second default [..] for one key and stamp"
            let second = store.defaults.entry(key.clone()).or_default().insert(*start, row.clone());
            fine(second.is_none() || bent(Bend::SecondDefaultTaken))?;
        }
        for (key, raw) in &self.locks {
            fine(of_table(key))?;
            // "lock sound"
            let lock = raw.lock()?;
            fine(lock.sound())?;
            fine(!bent(Bend::ImagePrimaryOfTable) || table_of(&lock.primary) == self.table)?;
            // "no second lock for a key"
            fine(store.locks.insert(key.clone(), lock).is_none() || bent(Bend::SecondLockTaken))?;
        }
        for (key, stamp, raw) in &self.writes {
            fine(of_table(key))?;
            // "record sound"
            let record = raw.record()?;
            fine(record.sound(*stamp))?;
            // "no second [..] write for one key and stamp"
            let second = store.records.entry(key.clone()).or_default().insert(*stamp, record);
            fine(second.is_none() || bent(Bend::SecondWriteTaken))?;
            // "every write Put has its default."
            let row_there = record.kind != Kind::Put || store.default_at(key, record.start).is_some();
            fine(row_there || bent(Bend::PutWithoutDefaultTaken))?;
        }
        Some(store)
    }
}

impl RawLock {
    fn lock(&self) -> Option<Lock> {
        Some(Lock {
            transaction: self.transaction,
            primary: self.primary.clone(),
            start: self.start,
            time_to_live: self.time_to_live,
            kind: Kind::from_byte(self.kind)?,
        })
    }
}

impl RawRecord {
    fn record(&self) -> Option<Record> {
        Some(Record { start: self.start, commit: self.commit, kind: Kind::from_byte(self.kind)? })
    }
}

fn fine(condition: bool) -> Option<()> {
    condition.then_some(())
}

impl Store {
    /// "**Restore** (replaces the whole store): form, table number not zero, then each entry [..] Any fault 13, then
    /// 11." A refusal leaves the former store.
    pub fn restore(&mut self, image: &[u8]) -> Result<(), Refusal> {
        let next = match restored(self, image) {
            Ok(next) => next,
            Err(refusal) => {
                if bent(Bend::RefusedImageSetsFloor) {
                    self.floor = Image::read(image).map_or(self.floor, |image| image.floor);
                }
                if bent(Bend::RefusedImageEmpties) {
                    *self = Store::default();
                }
                return Err(refusal);
            }
        };
        let floor = misfloored::restored(self.floor, next.floor);
        if bent(Bend::ImageAddsToStore) {
            self.locks.extend(next.locks);
            self.defaults.extend(next.defaults);
            self.records.extend(next.records);
        } else {
            *self = next;
        }
        self.floor = floor;
        if bent(Bend::ImageCollected) {
            self.collect(floor)?;
        }
        Ok(())
    }
}

/// The store that an image brings: document 01's checks, then those of sick images, then its locks against its floor, then
/// the room.
fn restored(former: &Store, image: &[u8]) -> Result<Store, Refusal> {
    let mut read = Image::read(image);
    if bent(Bend::ImageWithoutFloorTaken) {
        read = read.or_else(|| Image::read_old(image));
    }
    if bent(Bend::RestoreConverts)
        && let Some(old) = old_image(image)
    {
        read = Some(with_counts(old));
    }
    if bent(Bend::ImageRoomFirst) && read.as_ref().is_some_and(Image::counts_beyond_room) {
        return refuse(NO_ROOM);
    }
    let Some(next) = read.and_then(|image| image.store()) else {
        return refuse(IMAGE);
    };
    let beyond = next.beyond_room() && !bent(Bend::RoomUnjudged);
    // "all are 13, after 01's image checks and before 11"
    if next.sick() {
        return refuse(if beyond && bent(Bend::SickRoomFirst) { NO_ROOM } else { IMAGE });
    }
    // "an image with such a lock is 13": one at or below its own floor
    if let Some(number) = misfloored::refused(former, &next) {
        return refuse(number);
    }
    if next.has_lock_by(next.floor) {
        return refuse(misfloored::number(beyond));
    }
    if beyond {
        return refuse(if bent(Bend::ImageWithoutRoom13) { IMAGE } else { NO_ROOM });
    }
    Ok(next)
}

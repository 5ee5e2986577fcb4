//! **Write the image** (change request 1): "From a store and a table number, write that table's image".

use std::collections::BTreeSet;

use crate::answer::{Refusal, SHORT_BUFFER, ZERO, refuse};
use crate::bend::{Bend, any_bent, bent};
use crate::form::table_of;
use crate::misfloored;
use crate::miswritten;
use crate::restore::{Image, RawLock, RawRecord};
use crate::store::{Lock, Record, Store};

/// An image without entries: the table number, the floor and three counts.
pub const WITHOUT_ENTRIES: usize = 18;

impl Store {
    /// The image of a table, into the lent buffer. "A writing call also gives the bytes written"; bytes beyond the image keep
    /// what they held, and so does the whole buffer on a refusal.
    pub fn write_image(&self, table: u32, buffer: &mut [u8]) -> Result<u64, Refusal> {
        let image = self.image_of(table);
        let image = if any_bent() { self.floor_miswritten(miswritten::seen(self, image)) } else { image };
        let bytes = match () {
            () if bent(Bend::LocksBeforeDefaults) => miswritten::locks_first(&image),
            () if any_bent() => misfloored::written(&image),
            () => image.write(),
        };
        let short = too_short(buffer.len(), bytes.len());
        // "Refusals: a zero table number 3,"
        if table == 0 && !bent(Bend::TableZeroWritten) && !(short && bent(Bend::ShortBeforeTableZero)) {
            if bent(Bend::TableZeroFills) && !short {
                buffer[..bytes.len()].copy_from_slice(&bytes);
            }
            return refuse(ZERO);
        }
        if bent(Bend::AbsentTableRefused) && image.entries() == 0 {
            return refuse(ZERO);
        }
        // "then a short buffer 12."
        if short {
            miswritten::refused(&image, &bytes, buffer);
            return refuse(SHORT_BUFFER);
        }
        buffer[..bytes.len()].copy_from_slice(&bytes);
        if bent(Bend::ImageRestCleared) {
            buffer[bytes.len()..].fill(0);
        }
        Ok(miswritten::count(bytes.len(), buffer.len()))
    }

    /// "that table's image: defaults, locks, writes, each ascending by key, then stamp". An entry is of the table of its key,
    /// whatever a lock's primary is; the stamp of a default is its start. The maps ascend by key, each chain by stamp. The floor
    /// "stands in the image", of any table the store's.
    pub fn image_of(&self, table: u32) -> Image {
        let of_table = |key: &[u8]| table_of(key) == table;
        let defaults = self.defaults.iter().filter(|(key, _)| of_table(key));
        let locks = self.locks.iter().filter(|(key, _)| of_table(key));
        let writes = self.records.iter().filter(|(key, _)| of_table(key));
        Image {
            table,
            floor: self.floor,
            defaults: defaults
                .flat_map(|(key, chain)| chain.iter().map(move |(start, row)| (key.clone(), *start, row.clone())))
                .collect(),
            locks: locks.map(|(key, lock)| (key.clone(), RawLock::of(lock))).collect(),
            writes: writes
                .flat_map(|(key, chain)| {
                    chain.iter().map(move |(at, record)| (key.clone(), *at, RawRecord::of(record)))
                })
                .collect(),
        }
    }

    /// The tables of which the store holds something.
    pub fn tables(&self) -> BTreeSet<u32> {
        let keys = self.locks.keys().chain(self.records.keys()).chain(self.defaults.keys());
        keys.map(|key| table_of(key)).collect()
    }
}

/// Is a buffer of this length short for so many bytes? One just as long is enough.
fn too_short(buffer: usize, bytes: usize) -> bool {
    buffer < bytes
        || buffer == bytes && bent(Bend::ImageBufferOneLonger)
        || bytes > 65_535 && bent(Bend::LongImageShort)
}

impl RawLock {
    pub fn of(lock: &Lock) -> Self {
        let Lock { transaction, ref primary, start, time_to_live, kind } = *lock;
        RawLock { transaction, primary: primary.clone(), start, time_to_live, kind: kind.byte() }
    }
}

impl RawRecord {
    pub fn of(record: &Record) -> Self {
        let Record { start, commit, kind } = *record;
        RawRecord { start, commit, kind: kind.byte() }
    }
}

impl Image {
    /// How many entries it has.
    pub fn entries(&self) -> usize {
        self.defaults.len() + self.locks.len() + self.writes.len()
    }
}

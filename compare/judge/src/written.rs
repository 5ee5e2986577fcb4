//! The images that were written: by answer, by the buffer against what is needed, by what stood in the store, and those that
//! were restored after.

use std::collections::{BTreeMap, BTreeSet};

use paper::answer::Answer;
use paper::form::table_of;
use paper::restore::{Image, RawLock};
use paper::room::{DEFAULTS, LINES, LIVE_BYTES, LOCKS, Use};
use paper::store::{Bytes, Store};
use paper::trace::{Call, LONG_BUFFER};

/// All four rooms just full.
const FULL: Use = Use { lines: LINES, locks: LOCKS, defaults: DEFAULTS, live_bytes: LIVE_BYTES };

#[derive(Default)]
pub struct Written {
    /// How many calls were of each kind.
    kinds: BTreeMap<&'static str, u64>,
    answers: BTreeMap<u8, u64>,
    longest: u64,
    /// What the trace at hand has written, and whether one of these stands in the store.
    images: BTreeSet<Bytes>,
    restored: bool,
}

impl Written {
    /// Before the first call of a trace.
    pub fn begin(&mut self) {
        self.images.clear();
        self.restored = false;
    }

    /// Takes a call's answer and the store as it is after the call.
    pub fn take(&mut self, store: &Store, call: &Call, answer: &Answer) {
        match call {
            Call::WriteImage { table, buffer } => self.take_image(store, *table, *buffer, answer),
            Call::Restore { image } if answer.number == 0 => {
                self.restored = self.images.contains(image);
                self.count("restored after", self.restored);
            }
            _ => self.count("calls on what was restored so", self.restored),
        }
    }

    fn count(&mut self, kind: &'static str, met: bool) {
        *self.kinds.entry(kind).or_default() += u64::from(met);
    }

    fn take_image(&mut self, store: &Store, table: u32, buffer: u32, answer: &Answer) {
        *self.answers.entry(answer.number).or_default() += 1;
        self.count("table 0 with an empty buffer", (table, buffer) == (0, 0));
        self.count("a buffer of 262,144 bytes", buffer == LONG_BUFFER);
        if table == 0 {
            return;
        }
        let image = store.image_of(table);
        let needed = image.write().len() as u64;
        self.longest = self.longest.max(needed);
        self.count("exact buffers", u64::from(buffer) == needed);
        self.count("one byte short", u64::from(buffer) + 1 == needed);
        self.count("longer buffers", u64::from(buffer) > needed);
        let tables = store.tables();
        self.count("an absent table", !tables.contains(&table));
        self.count("of an empty store", tables.is_empty());
        self.count("several tables in the store", tables.len() > 1);
        self.count("locks with primaries of other tables", foreign(&image));
        self.count("locks of other tables with primaries of this", named_by_others(store, table));
        self.count("starts not in the order of stamps", crossed(&image));
        self.count("a lock's row before a record's", low_locks(&image));
        self.count("above 65,535 bytes", needed > 65_535);
        self.count("all four rooms full", store.room_used() == FULL);
        if answer.number == 0 {
            self.images.insert(answer.payload[..answer.count as usize].to_vec());
        }
    }

    pub fn print(&self) {
        let answers: Vec<String> = self.answers.iter().map(|(number, count)| format!("{number} x{count}")).collect();
        let kinds: Vec<String> = self.kinds.iter().map(|(kind, count)| format!("{kind} x{count}")).collect();
        if !answers.is_empty() {
            println!("images written by answer: {}; the longest {} bytes", answers.join(", "), self.longest);
            println!("images written: {}", kinds.join(", "));
        }
    }
}

/// Has the image a lock whose primary is of another table?
fn foreign(image: &Image) -> bool {
    image.locks.iter().any(|(_, lock)| table_of(&lock.primary) != image.table)
}

/// Has another table a lock whose primary is of this one?
fn named_by_others(store: &Store, table: u32) -> bool {
    store.locks.iter().any(|(key, lock)| table_of(key) != table && table_of(&lock.primary) == table)
}

/// Has a key two Puts of which the one with the lower stamp has the higher start? Then its rows stand in another order than
/// its lines.
fn crossed(image: &Image) -> bool {
    let puts: Vec<_> = image.writes.iter().filter(|(_, _, record)| record.kind == 1).collect();
    puts.windows(2).any(|two| two[0].0 == two[1].0 && two[0].2.start > two[1].2.start)
}

/// Is there a key whose Put lock has a lower start than one of its Puts?
fn low_locks(image: &Image) -> bool {
    let puts = || image.writes.iter().filter(|(_, _, record)| record.kind == 1);
    let low = |key: &Bytes, lock: &RawLock| puts().any(|(other, _, put)| other == key && lock.start < put.start);
    image.locks.iter().any(|(key, lock)| lock.kind == 1 && low(key, lock))
}

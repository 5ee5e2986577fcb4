//! The conversions: by answer, by the buffer against what is needed, by what the old image is, and what became of those that
//! were accepted.

use std::collections::{BTreeMap, BTreeSet};

use generate::orders::ascends;
use paper::answer::{Answer, IMAGE};
use paper::convert::{has_longest_row, old_image, with_counts};
use paper::restore::Image;
use paper::room::LIVE_BYTES;
use paper::store::Bytes;
use paper::trace::{Call, LONG_BUFFER};

#[derive(Default)]
pub struct Converted {
    kinds: BTreeMap<&'static str, u64>,
    answers: BTreeMap<u8, u64>,
    restored: BTreeMap<u8, u64>,
    longest: u64,
    /// What the trace at hand has converted.
    images: BTreeSet<Bytes>,
}

impl Converted {
    /// Before the first call of a trace.
    pub fn begin(&mut self) {
        self.images.clear();
    }

    pub fn take(&mut self, call: &Call, answer: &Answer) {
        match call {
            Call::Convert { buffer, image } => self.take_image(*buffer, image, answer),
            Call::Restore { image } if self.images.contains(image) => {
                *self.restored.entry(answer.number).or_default() += 1;
            }
            _ => {}
        }
    }

    fn count(&mut self, kind: &'static str, met: bool) {
        *self.kinds.entry(kind).or_default() += u64::from(met);
    }

    fn take_image(&mut self, buffer: u32, image: &Bytes, answer: &Answer) {
        *self.answers.entry(answer.number).or_default() += 1;
        self.count("a buffer of 262,144 bytes", buffer == LONG_BUFFER);
        self.count("what was converted before", self.images.contains(image));
        self.count("with an empty buffer", buffer == 0);
        let Some(old) = old_image(image) else {
            self.count("13 not by a row alone", !by_a_row_alone(image));
            return self.count("13 by a row alone", by_a_row_alone(image));
        };
        self.count("a 255-byte row", has_longest_row(&old));
        if answer.number == IMAGE {
            return;
        }
        let needed = with_counts(old.clone()).write().len() as u64;
        self.count("exact buffers", u64::from(buffer) == needed);
        self.count("one byte short", u64::from(buffer) + 1 == needed);
        self.count("longer buffers", u64::from(buffer) > needed);
        self.count("more than the longest buffer", needed > u64::from(LONG_BUFFER));
        if answer.number == 0 {
            self.longest = self.longest.max(needed);
            self.images.insert(answer.payload[..answer.count as usize].to_vec());
            self.take_accepted(&old, needed);
        }
    }

    fn take_accepted(&mut self, old: &Image, needed: u64) {
        let store = old.old_store().unwrap_or_default();
        let grown = store.room_used().live_bytes + old.defaults.len() > LIVE_BYTES;
        let lengths: BTreeSet<usize> = old.defaults.iter().map(|(_, _, row)| row.len()).collect();
        self.count("sick and accepted", !store.sicknesses().is_empty());
        self.count("beyond the room and accepted", store.beyond_room());
        self.count("beyond it once converted alone", grown && !store.beyond_room());
        self.count("in other orders and accepted", !ascends(old));
        self.count("without defaults", old.defaults.is_empty());
        self.count("without entries", old.entries() == 0);
        self.count("a 253-byte row", lengths.contains(&253));
        self.count("a 254-byte row", lengths.contains(&254));
        self.count("above 65,535 bytes", needed > 65_535);
    }

    pub fn print(&self) {
        if self.answers.is_empty() {
            return;
        }
        let of = |answers: &BTreeMap<u8, u64>| {
            answers.iter().map(|(number, count)| format!("{number} x{count}")).collect::<Vec<String>>().join(", ")
        };
        let all: u64 = self.answers.values().sum();
        let kinds: Vec<String> = self.kinds.iter().map(|(kind, count)| format!("{kind} x{count}")).collect();
        println!("conversions by answer: {all} in all; {}; the longest {} bytes", of(&self.answers), self.longest);
        println!("conversions: {}; restored after: {}", kinds.join(", "), of(&self.restored));
    }
}

/// Has the image no other fault than rows that are not document 01's?
fn by_a_row_alone(image: &[u8]) -> bool {
    Image::read_old(image).is_some_and(|mut image| {
        image.defaults.iter_mut().for_each(|(_, _, row)| *row = vec![0, 0]);
        image.old_store().is_some()
    })
}

//! Questions about the bones of a row: of rows in form, of document 01's and with a fault, and bone numbers at, below and far
//! above the count.

use paper::form::Entry;
use paper::row::third_section;
use paper::store::{Bytes, Kind};
use paper::trace::Call;

use crate::Ops;
use crate::batch::mutation_bytes;
use crate::maker::Maker;
use crate::rows::{SMALLEST, boned_row, bones_out_of_form, old_row, row, row_out_of_form};

impl Maker {
    /// Is a bone of a row shown?
    pub fn bone(&mut self, faulty: bool) -> Call {
        let row = self.asked_row(faulty);
        Call::Bone { number: self.bone_number(&row), row }
    }

    /// How many bones of a row are shown?
    pub fn how_many(&mut self, faulty: bool) -> Call {
        Call::Bones { row: self.asked_row(faulty) }
    }

    /// A row of the store, or another; one in four is out of form.
    fn asked_row(&mut self, faulty: bool) -> Bytes {
        let stored: Vec<&Bytes> = self.store.defaults.values().flat_map(|chain| chain.values()).collect();
        if !stored.is_empty() && self.random.percent(20) {
            return self.random.pick(&stored).to_vec();
        }
        match self.random.below(if faulty { 8 } else { 20 }) {
            0 | 1 => row_out_of_form(&mut self.random, true),
            2 => old_row(&mut self.random),
            3 | 4 => bones_out_of_form(&mut self.random),
            5 => row(&mut self.random),
            _ => boned_row(&mut self.random),
        }
    }

    /// A bone's number: below the count, at it, beside it, and where one byte or four cannot say it. The count is that of a row
    /// whose sections read.
    fn bone_number(&mut self, row: &[u8]) -> u64 {
        let count = third_section(row).map_or(self.random.below(256) as u64, |bones| u64::from(bones.count));
        let below = self.random.below(count.max(1) as usize) as u64;
        match self.random.below(16) {
            0 | 1 => count,
            2 => count + 1,
            3 | 4 => count.saturating_sub(1),
            5 => 0,
            6 => *self.random.pick(&[254, 255, 256, 257]),
            7 => 256 * self.random.between(1, 3) as u64 + below,
            8 => (1 << 32) + below,
            9 => *self.random.pick(&[u64::MAX, u64::MAX - 1, 1 << 63, u64::from(u32::MAX), 1 << 32]),
            _ => below,
        }
    }

    /// Rows that are put into the store, or refused there, and asked: those that were taken as a read shows them.
    pub fn asked(&mut self) {
        for _ in 0..self.random.between(3, 12) {
            let row = self.asked_row(false);
            if self.random.percent(50) {
                self.put_row(&row);
            }
            for _ in 0..self.random.between(1, 6) {
                let number = self.bone_number(&row);
                self.push(Call::Bone { number, row: row.clone() });
            }
            self.push(Call::Bones { row });
        }
    }

    /// A Put of this row above all that stands at its key, by any call that takes one; then a read.
    fn put_row(&mut self, row: &[u8]) {
        let key = self.random.pick(&self.stock.keys).clone();
        let (transaction, time_to_live, kind, primary) = (7, 1, Kind::Put, key.clone());
        let start = self.store.newest_stamp(&key).unwrap_or(0).saturating_add(1);
        let commit = start.saturating_add(1);
        let batch = mutation_bytes(&[Entry { key: key.clone(), kind, row: row[..row.len().min(255)].to_vec() }]);
        let call = match self.random.below(3) {
            0 => {
                Call::Prewrite { transaction, start, time_to_live, kind, primary, key: key.clone(), row: row.to_vec() }
            }
            1 => Call::PrewriteBatch { transaction, start, time_to_live, primary, batch },
            _ => Call::OneStep { transaction, start, commit, batch },
        };
        self.push(call);
        if self.random.percent(60) {
            self.push(Call::Commit { transaction, start, commit, key: key.clone() });
        }
        self.push(Call::Read { moment: commit, key });
    }
}

/// So many traces of the sample are drawn.
const DRAWN: u64 = 6;

/// For the fixed sample: each row around the counts at which a mask changes, asked for each bone around them; and traces
/// drawn.
pub fn cases() -> Vec<(&'static str, Vec<Call>)> {
    let drawn = |seed| {
        let mut maker = Maker::new(seed, Ops::all());
        maker.asked();
        ("bones drawn", maker.calls)
    };
    let rows = [
        &SMALLEST[..],
        &[0, 0],
        &[0, 0, 0, 0],
        &[0, 0, 1, 1],
        &[0, 0, 1, 2],
        &[0, 0, 1],
        &[0, 0, 7, 0x55],
        &[0, 0, 7, 0x80],
        &[0, 0, 8, 0x81],
        &[0, 0, 8, 0x81, 0],
        &[0, 0, 9, 0, 1],
        &[0, 0, 9, 1, 2],
        &[0, 0, 9, 1],
        &[0, 1, 1, b'x', 3, 5],
    ];
    let mask = |count: u8, last: u8| [&[0, 0, count][..], &[0xA7; 31], &[last]].concat();
    let long = [mask(254, 0x3F), mask(254, 0x40), mask(255, 0x7F), mask(255, 0x80), mask(255, 0xFF)];
    let mut calls = Vec::new();
    for row in rows.map(<[u8]>::to_vec).into_iter().chain(long) {
        for number in [0, 1, 2, 6, 7, 8, 9, 253, 254, 255, 256, 264, 1 << 32, u64::MAX] {
            calls.push(Call::Bone { number, row: row.clone() });
        }
        calls.push(Call::Bones { row });
    }
    [("bones at every count", calls)].into_iter().chain((1..=DRAWN).map(drawn)).collect()
}

//! Calls that grow a box near its rooms: new lines, locks, defaults and live bytes, up to a room and one past it.

use paper::form::Entry;
use paper::room::LIVE_BYTES;
use paper::store::{Bytes, Kind};
use paper::trace::Call;

use crate::batch::{key_bytes, mutation_bytes};
use crate::maker::Maker;
use crate::rows::row_of;

impl Maker {
    /// Fills a fresh box by calls alone, batch after batch of 32 keys, to one of the rooms or a little short of it.
    pub fn fill(&mut self, which: usize) {
        let rows = if which == 3 { row_of(255) } else { row_of(3) };
        // So many batches fill the lines, the locks, the defaults or the live bytes.
        let batches = [32, 8, 32, 6][which];
        for number in 0..batches {
            let keys: Vec<Bytes> = (0..32).map(|name| vec![0, 0, 0, 1, b'f', number, name]).collect();
            let kind = if which == 2 || which == 3 { Kind::Put } else { Kind::Delete };
            let entry = |key: &Bytes| Entry {
                key: key.clone(),
                kind,
                row: if kind == Kind::Put { rows.clone() } else { Bytes::new() },
            };
            let left_out = if number + 1 == batches { self.random.below(4) } else { 0 };
            let keys = &keys[left_out..];
            let batch = mutation_bytes(&keys.iter().map(entry).collect::<Vec<Entry>>());
            let (transaction, start) = (1, 9);
            self.push(match which {
                0 => Call::RollbackBatch { transaction, start, batch: key_bytes(keys) },
                1 => Call::PrewriteBatch { transaction, start, time_to_live: 1, primary: keys[0].clone(), batch },
                _ => Call::OneStep { transaction, start, commit: 10, batch },
            });
        }
    }

    /// A prewrite, a one-step batch or a rollback on keys that are new to the box, or on one of its locks.
    pub fn grow(&mut self) {
        let first = self.random.below(200) as u8;
        let count = self.random.between(1, 4) as u8;
        let mut keys: Vec<Bytes> = (first..first + count).map(|name| vec![0, 0, 0, 1, b'g', name]).collect();
        // A last key out of form: its 1 goes before the 11 of the whole call.
        if self.random.percent(30) {
            keys.push(vec![255; 49]);
        }
        let start = self.random.between(30, 40) as u64;
        let kind = *self.random.pick(&[Kind::Put, Kind::Put, Kind::Delete]);
        let row = self.fitting_row(keys.len(), keys[0].len());
        let entries: Vec<Entry> = keys
            .iter()
            .map(|key| {
                let row = if kind == Kind::Put { row.clone() } else { Bytes::new() };
                Entry { key: key.clone(), kind, row }
            })
            .collect();
        let primary = keys[0].clone();
        let (transaction, time_to_live, commit) = (5, 1, start + 5);
        let batch = mutation_bytes(&entries);
        let call = match self.random.below(8) {
            0 => Call::Prewrite { transaction, start, time_to_live, kind, primary: primary.clone(), key: primary, row },
            1 | 2 => Call::PrewriteBatch { transaction, start, time_to_live, primary, batch },
            3 | 4 => Call::OneStep { transaction, start, commit, batch },
            5 => Call::Rollback { transaction, start, key: primary },
            // Room that a call frees is free at once: a standing lock is finished in a full box.
            6 => self.rollback(10, false),
            _ => self.one_step(false),
        };
        self.push(call);
    }

    /// A row for so many new entries: small, or just what brings the live bytes of a one-step batch or a prewrite to
    /// the room or one past it.
    fn fitting_row(&mut self, entries: usize, key: usize) -> Bytes {
        let free = LIVE_BYTES.saturating_sub(self.store.room_used().live_bytes);
        let lines = if self.random.percent(50) { 2 * key } else { 3 * key };
        let wanted = (free / entries).saturating_sub(lines) + self.random.below(2);
        if (3..=255).contains(&wanted) && self.random.percent(70) { row_of(wanted) } else { row_of(3) }
    }
}

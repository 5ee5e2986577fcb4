//! **Statistics** and **High-water marks**.

use crate::bend::{Bend, bent};
use crate::store::Store;

impl Store {
    /// "keys with a default, defaults, locks, keys with a record, records; for defaults and for records apart, chains
    /// of 1, 2 to 4, 5 to 16 and above 16, and the longest."
    pub fn statistics(&self) -> [u64; 15] {
        let defaults: Vec<usize> = self.defaults.values().map(|chain| chain.len()).collect();
        let records: Vec<usize> = self.records.values().map(|chain| chain.len()).collect();
        let mut figures = [0; 15];
        figures[0] = defaults.len() as u64;
        figures[1] = defaults.iter().sum::<usize>() as u64;
        figures[2] = self.locks.len() as u64;
        figures[3] = records.len() as u64;
        figures[4] = records.iter().sum::<usize>() as u64;
        if bent(Bend::StatisticsKeysWithALine) {
            figures[3] += self.locks.keys().filter(|key| !self.records.contains_key(*key)).count() as u64;
        }
        figures[5..10].copy_from_slice(&chains(&defaults));
        figures[10..].copy_from_slice(&chains(&records));
        if bent(Bend::StatisticsChainsSwapped) {
            let (front, back) = figures[5..].split_at_mut(5);
            front.swap_with_slice(back);
        }
        figures
    }

    /// "**High-water marks:** largest lock transaction, largest stamp or start of any kind, each 0 if none." Write
    /// stamps, record starts, lock starts, default starts.
    pub fn marks(&self) -> [u64; 2] {
        let transaction = self.locks.values().map(|lock| lock.transaction).max().unwrap_or(0);
        let mut largest = 0;
        for (stamp, record) in self.records.values().flatten() {
            if !bent(Bend::MarksWithoutStamps) {
                largest = largest.max(*stamp);
            }
            if !bent(Bend::MarksWithoutRecordStarts) {
                largest = largest.max(record.start);
            }
        }
        if !bent(Bend::MarksWithoutLocks) {
            largest = self.locks.values().map(|lock| lock.start).fold(largest, u64::max);
        }
        if !bent(Bend::MarksWithoutDefaults) {
            largest = self.defaults.values().flatten().map(|(start, _)| *start).fold(largest, u64::max);
        }
        if bent(Bend::MarksWithFloor) {
            largest = largest.max(self.floor);
        }
        [transaction, largest]
    }
}

/// The chains of 1, of 2 to 4, of 5 to 16, above 16, and the longest.
fn chains(lengths: &[usize]) -> [u64; 5] {
    let few = if bent(Bend::ChainsToThree) { 3 } else { 4 };
    let many = if bent(Bend::ChainsToFifteen) { 15 } else { 16 };
    let mut counts = [0; 5];
    for length in lengths.iter().copied() {
        let class = match length {
            1 => 0,
            length if length <= few => 1,
            length if length <= many => 2,
            _ => 3,
        };
        counts[class] += 1;
        counts[4] = counts[4].max(length as u64);
    }
    counts
}

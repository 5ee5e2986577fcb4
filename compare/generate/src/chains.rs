//! Reads of keys with many records, Rollbacks above all: how many a read examines, and where its walk begins and ends.

use paper::page::Bounds;
use paper::restore::{Image, RawLock, RawRecord};
use paper::store::Bytes;
use paper::trace::Call;

use crate::image::few_chains;
use crate::maker::Maker;
use crate::random::Random;
use crate::rows::SMALLEST;
use crate::stock::stamp;

impl Maker {
    /// Chains by an image or by calls, and reads at their stamps and beside them, with other calls between.
    pub fn chains(&mut self) {
        let image = if self.random.percent(16) { long_chain(&mut self.random) } else { self.chained_image() };
        if self.random.percent(75) {
            self.push(Call::Restore { image: image.write() });
        }
        for _ in 0..if self.store.records.is_empty() { 12 } else { 2 } {
            self.more_records();
        }
        for _ in 0..self.random.between(20, 80) {
            let call = match self.random.below(20) {
                0 => {
                    self.any_call();
                    continue;
                }
                1 | 2 => {
                    self.more_records();
                    continue;
                }
                3 => self.page(false),
                _ => self.read_of_chain(),
            };
            self.push(call);
        }
    }

    fn chained_image(&mut self) -> Image {
        few_chains(&mut self.random, &self.stock)
    }

    /// One more record, mostly a Rollback.
    fn more_records(&mut self) {
        if self.random.percent(25) {
            let call = self.one_step(false);
            return self.push(call);
        }
        let key = self.chained_key();
        let newest = self.store.newest_stamp(&key).unwrap_or(0);
        let above = newest.saturating_add(self.random.between(1, 3) as u64);
        let start = if self.random.percent(60) { above } else { self.random.between(1, 20) as u64 };
        let transaction = self.random.between(1, 3) as u64;
        self.push(Call::Rollback { transaction, start, key });
    }

    /// A key with records, the longest chain's in half of the cases; any key where there are none.
    fn chained_key(&mut self) -> Bytes {
        let longest = self.store.records.iter().max_by_key(|(_, chain)| chain.len()).map(|(key, _)| key.clone());
        match longest {
            Some(key) if self.random.percent(50) => key,
            Some(_) if self.random.percent(80) => {
                let at = self.random.below(self.store.records.len());
                self.store.records.keys().nth(at).expect("the place is below the number of keys").clone()
            }
            _ => self.stock.key(&mut self.random, &self.store),
        }
    }

    /// A read at or beside one of the key's stamps, above all of them, or anywhere.
    fn read_of_chain(&mut self) -> Call {
        let key = self.chained_key();
        let stamps: Vec<u64> = self.store.records_of(&key).map(|(stamp, _)| stamp).collect();
        let moment = match self.random.below(10) {
            0 => u64::MAX,
            1 => self.store.newest_stamp(&key).unwrap_or(0).saturating_add(1),
            2..9 if !stamps.is_empty() => match (*self.random.pick(&stamps), self.random.below(4)) {
                (at, 0) => at - 1,
                (at, 1) => at.saturating_add(1),
                (at, _) => at,
            },
            _ => stamp(&mut self.random, &self.store, &key, false),
        };
        Call::Read { moment, key }
    }
}

fn a() -> Bytes {
    vec![0, 0, 0, 1, b'a']
}

fn record(key: &Bytes, start: u64, commit: u64, kind: u8) -> (Bytes, u64, RawRecord) {
    (key.clone(), commit, RawRecord { start, commit, kind })
}

/// A Put or Delete of key a stamped 2, or neither, under so many Rollbacks that one byte cannot count them.
fn long_chain(random: &mut Random) -> Image {
    let lowest = *random.pick(&[0, 1, 2]);
    chain_of(lowest, *random.pick(&[254, 255, 256, 257, 300, 511, 700, 1023]))
}

/// Key a with a record of this kind stamped 2, if it is one, and so many Rollbacks above.
fn chain_of(lowest: u8, rollbacks: u64) -> Image {
    let mut image = Image { table: 1, ..Image::default() };
    if lowest > 0 {
        image.writes.push(record(&a(), 1, 2, lowest));
    }
    if lowest == 1 {
        image.defaults.push((a(), 1, SMALLEST.to_vec()));
    }
    image.writes.extend((3..3 + rollbacks).map(|at| record(&a(), at, at, 3)));
    image
}

/// For the fixed sample: chains whose every moment is read, the longest that the room lets stand, and W6 read.
pub fn cases() -> Vec<(&'static str, Vec<Call>)> {
    let read = |moment: u64| Call::Read { moment, key: a() };
    let full = Call::Restore { image: chain_of(1, 1023).write() };
    let edges = [2, 3, 255, 256, 257, 258, 511, 512, 513, 1024, 1025, 1026, u64::MAX];
    let rolled_back = Call::Rollback { transaction: 7, start: 5, key: a() };
    vec![
        ("every moment of some chains", every_moment()),
        ("the longest chain", [full].into_iter().chain(edges.map(read)).collect()),
        ("W6, read", [rolled_back].into_iter().chain([4, 5, 6].map(read)).collect()),
    ]
}

/// A chain of every kind under a lock, Rollbacks alone, a lock alone, and a key without lines: reads, points and pages.
fn every_moment() -> Vec<Call> {
    let [a, b, c, d] = [b"a", b"b", b"c", b"d"].map(|name| [&[0, 0, 0, 1], &name[..]].concat());
    let lock = |time_to_live| RawLock { transaction: 7, primary: a.clone(), start: 14, time_to_live, kind: 2 };
    let image = Image {
        table: 1,
        defaults: vec![(a.clone(), 1, SMALLEST.to_vec())],
        locks: vec![(a.clone(), lock(3)), (c.clone(), lock(4))],
        writes: vec![
            record(&a, 1, 2, 1),
            record(&a, 4, 4, 3),
            record(&a, 5, 5, 3),
            record(&a, 6, 8, 2),
            record(&a, 10, 10, 3),
            record(&a, 11, 11, 3),
            record(&a, 12, 12, 3),
            record(&b, 3, 3, 3),
            record(&b, 9, 9, 3),
        ],
        ..Image::default()
    };
    let mut calls = vec![Call::Restore { image: image.write() }];
    for moment in (0..=15).chain([u64::MAX]) {
        calls.extend([&a, &b, &c, &d].map(|key| Call::Read { moment, key: key.clone() }));
        calls.push(Call::OneIntent { moment, key: a.clone() });
        calls.push(Call::Page { moment, row_limit: 9, byte_limit: 99, bounds: Bounds::default(), buffer: 20 });
    }
    calls
}

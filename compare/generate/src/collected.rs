//! Collections, and calls at the floor and beside it: reads, pages and changing calls, with other faults besides, so that the
//! place of 14 among the refusals shows; what was collected sent again; and images with a floor, written, restored, converted.

use paper::answer::Answer;
use paper::form::Entry;
use paper::page::Bounds;
use paper::restore::{Image, RawLock};
use paper::run::run_call;
use paper::store::{Bytes, Kind, Record};
use paper::trace::Call;

use crate::batch::{key_bytes, mutation_bytes};
use crate::faults::{self, FLOORED, PLACES};
use crate::image::{few_chains, few_keys, give_floor};
use crate::maker::Maker;
use crate::stock::EXTREMES;

/// The changing ops, and how often each is drawn.
const CHANGES: [(u8, usize); 7] = [(6, 4), (7, 4), (8, 4), (9, 4), (10, 3), (11, 3), (12, 6)];

impl Maker {
    /// A collection: mostly up to a floor that the store's locks let stand, at a stamp or beside it; or at a lock's start, with
    /// the store's own floor, a lower one, or an extreme one.
    pub fn collect(&mut self) -> Call {
        let own = self.store.floor;
        let starts: Vec<u64> = self.store.locks.values().map(|lock| lock.start).collect();
        let lowest = starts.iter().min().copied();
        let chains = self.store.records.values().flat_map(|chain| chain.keys().copied());
        let stamps: Vec<u64> = chains.filter(|stamp| *stamp > own && *stamp < u64::MAX).collect();
        let (less, more) = (self.random.below(2) as u64, self.random.below(2) as u64);
        let floor = match self.random.below(40) {
            0..5 => own,
            5..9 => own.saturating_sub(self.random.between(1, 3) as u64),
            9..14 if lowest.is_some() => lowest.map_or(0, |lowest| (lowest - 1).saturating_add(less + more)),
            14..16 if !starts.is_empty() => self.random.pick(&starts).saturating_add(less),
            16..32 if !stamps.is_empty() => (*self.random.pick(&stamps) - less).saturating_add(more),
            16..36 => own.saturating_add(self.random.between(1, 5) as u64),
            36 => 0,
            37 | 38 => *self.random.pick(&EXTREMES),
            _ => stamps.iter().max().map_or(own, |highest| highest.saturating_add(1)),
        };
        // Mostly one that is accepted.
        let most = lowest.map_or(u64::MAX, |lowest| lowest - 1);
        let floor = if floor >= own && most >= own && self.random.percent(45) { floor.min(most) } else { floor };
        Call::Collect { floor }
    }

    /// A collection that drops something, if one can be drawn.
    pub fn collect_some(&mut self) {
        let mut call = self.collect();
        for _ in 0..12 {
            let mut after = self.store.clone();
            if run_call(&mut after, &call).number == 0 && after.room_used().lines < self.store.room_used().lines {
                break;
            }
            call = self.collect();
        }
        self.push(call);
    }

    /// A number at the floor or beside it.
    fn beside_floor(&mut self) -> u64 {
        let floor = self.store.floor;
        match self.random.below(10) {
            0..3 => floor.saturating_sub(1),
            3..6 => floor,
            6..8 => floor.saturating_add(1),
            8 => floor.saturating_sub(self.random.between(1, 6) as u64),
            _ => floor.saturating_add(self.random.between(1, 6) as u64),
        }
    }

    /// Lines by an image or by calls, collections, and calls around the floor.
    pub fn collected(&mut self) {
        if self.random.percent(60) {
            let image = self.floored_image();
            self.push(Call::Restore { image: image.write() });
        }
        for _ in 0..self.random.between(2, 7) {
            self.more_lines();
        }
        self.collect_some();
        for _ in 0..self.random.between(30, 90) {
            self.around_floor();
        }
        self.look();
    }

    /// An image on few keys, mostly with a floor and few locks.
    fn floored_image(&mut self) -> Image {
        let mut image = if self.random.percent(60) {
            few_keys(&mut self.random, &self.stock)
        } else {
            few_chains(&mut self.random, &self.stock)
        };
        let locks = *self.random.pick(&[0, 1, 2, 9]);
        let gone: Vec<(Bytes, RawLock)> = image.locks.split_off(locks.min(image.locks.len()));
        let pointed = |key: &Bytes, start: u64| gone.iter().any(|(other, lock)| other == key && lock.start == start);
        image.defaults.retain(|(key, start, _)| !pointed(key, *start));
        image.floor = image.floor.min(faults::below_locks(&image));
        if self.random.percent(55) {
            give_floor(&mut self.random, &mut image);
        }
        image
    }

    /// A line or more above the floor: records of every kind above all, and now and then a lock.
    fn more_lines(&mut self) {
        match self.random.below(6) {
            0..3 => {
                let call = self.one_step(false);
                self.push(call);
            }
            3 => {
                let call = self.rollback(11, false);
                self.push(call);
            }
            4 => {
                let call = self.commit(9, false);
                self.push(call);
            }
            _ => self.new_lines(),
        }
    }

    fn around_floor(&mut self) {
        // Above the last floor nothing can come.
        if self.store.floor == u64::MAX && self.random.percent(30) {
            let image = self.floored_image();
            self.push(Call::Restore { image: image.write() });
        }
        let faulty = self.random.percent(35);
        match self.random.below(40) {
            0..6 => {
                let call = self.collect();
                self.push(call);
            }
            6..10 => {
                let (key, moment) = (self.stock.any_key(&mut self.random, &self.store, faulty), self.beside_floor());
                self.push(Call::Read { moment, key });
            }
            10..14 => {
                let (bounds, moment) = (self.bounds(faulty), self.beside_floor());
                let call = self.page_at(moment, bounds, faulty);
                self.push(call);
            }
            14 | 15 => self.past_end(),
            16..26 => self.change_beside_floor(faulty),
            26..28 => self.replay(),
            28 => self.empty_one_step(),
            29 => self.locks_beside_floor(),
            30 => self.write_and_restore(),
            31 | 32 => self.restore_floored(),
            33 => self.convert_and_restore(),
            34..37 => self.more_lines(),
            37 => {
                self.push(Call::Statistics);
                self.push(Call::Marks);
            }
            38 => {
                let call = self.write_image(false);
                self.push(call);
            }
            _ => self.any_call(),
        }
    }

    /// A page whose resume is at or past its end.
    fn past_end(&mut self) {
        let (end, moment) = (self.stock.key(&mut self.random, &self.store), self.beside_floor());
        let resume = match self.random.below(8) {
            0..3 => end.clone(),
            3..6 => [&end[..4], &[255; 44]].concat(),
            _ => self.stock.key_out_of_form(&mut self.random, true),
        };
        let call = self.page_at(moment, Bounds { start: None, end: Some(end), resume: Some(resume) }, false);
        self.push(call);
    }

    /// A changing call whose start is at the floor or beside it, often with another fault.
    fn change_beside_floor(&mut self, faulty: bool) {
        let drawn: Vec<(u8, usize)> = CHANGES.into_iter().filter(|(op, _)| self.ops.has(*op)).collect();
        if drawn.is_empty() {
            return;
        }
        let weights: Vec<usize> = drawn.iter().map(|(_, weight)| *weight).collect();
        let op = drawn[self.random.weighted(&weights)].0;
        let mut call = match op {
            6 | 7 => self.prewrite(op, faulty),
            8 | 9 => self.commit(op, faulty),
            10 | 11 => self.rollback(op, faulty),
            _ => self.one_step(faulty),
        };
        let (at, above) = (self.beside_floor(), self.random.between(1, 3) as u64);
        let keep = self.random.percent(if faulty { 25 } else { 12 });
        match &mut call {
            Call::Prewrite { start, .. }
            | Call::PrewriteBatch { start, .. }
            | Call::Rollback { start, .. }
            | Call::RollbackBatch { start, .. }
                if !keep =>
            {
                *start = at;
            }
            Call::Commit { start, commit, .. }
            | Call::CommitBatch { start, commit, .. }
            | Call::OneStep { start, commit, .. }
                if !keep =>
            {
                *start = at;
                if *commit <= at && !faulty {
                    *commit = at.saturating_add(above);
                }
            }
            _ => {}
        }
        if self.random.percent(20) {
            self.spoil(&mut call);
        }
        self.push(call);
    }

    /// The call with a key out of form in the place of its own.
    fn spoil(&mut self, call: &mut Call) {
        let short = self.stock.key_out_of_form(&mut self.random, false);
        match call {
            Call::Prewrite { key, .. } | Call::Commit { key, .. } | Call::Rollback { key, .. } => *key = short,
            Call::CommitBatch { batch, .. } | Call::RollbackBatch { batch, .. } => *batch = key_bytes(&[short]),
            Call::PrewriteBatch { batch, .. } | Call::OneStep { batch, .. } => {
                *batch = mutation_bytes(&[Entry { key: short, kind: Kind::Delete, row: Bytes::new() }]);
            }
            _ => {}
        }
    }

    /// A changing call of this trace once more, whose start may be below the floor by now; or what would be the replay of a
    /// record that stands at or below the floor.
    fn replay(&mut self) {
        if self.random.percent(50) && self.replay_of_kept() {
            return;
        }
        let changes: Vec<&Call> = self.calls.iter().filter(|call| (6..=12).contains(&call.op())).collect();
        if !changes.is_empty() {
            let call = (*self.random.pick(&changes)).clone();
            self.push(call);
        }
    }

    /// False where no record's start is at or below the floor.
    fn replay_of_kept(&mut self) -> bool {
        let chains = self.store.records.iter().flat_map(|(key, chain)| chain.values().map(move |record| (key, record)));
        let kept: Vec<(&Bytes, &Record)> = chains.filter(|(_, record)| record.start <= self.store.floor).collect();
        if kept.is_empty() {
            return false;
        }
        let (key, record) = *self.random.pick(&kept);
        let (key, Record { start, commit, kind }, transaction) = (key.clone(), *record, 1);
        let row = self.store.default_at(&key, start).cloned().unwrap_or_default();
        let alone = self.random.percent(50);
        let call = match kind {
            Kind::Rollback if alone => Call::Rollback { transaction, start, key },
            Kind::Rollback => Call::RollbackBatch { transaction, start, batch: key_bytes(&[key]) },
            _ if self.random.percent(40) => {
                Call::OneStep { transaction, start, commit, batch: mutation_bytes(&[Entry { key, kind, row }]) }
            }
            _ if alone => Call::Commit { transaction, start, commit, key },
            _ => Call::CommitBatch { transaction, start, commit, batch: key_bytes(&[key]) },
        };
        self.push(call);
        true
    }

    fn empty_one_step(&mut self) {
        let (start, above) = (self.beside_floor(), self.random.below(3) as u64);
        let transaction = self.random.between(0, 3) as u64;
        let batch = mutation_bytes(&[]);
        self.push(Call::OneStep { transaction, start, commit: start.saturating_add(above), batch });
    }

    /// Locks are looked for at every moment: these calls have no 14.
    fn locks_beside_floor(&mut self) {
        let (key, moment) = (self.stock.key(&mut self.random, &self.store), self.beside_floor());
        let (bounds, buffer) = (self.bounds(false), self.random.between(3, 90) as u16);
        self.push(Call::OneIntent { moment, key });
        let call = Call::Conflicting { moment, lock_limit: 9, byte_limit: 999, bounds, buffer };
        self.push(call);
    }

    /// An image with a floor: below its locks, at one of them or above; or of the form without.
    fn restore_floored(&mut self) {
        let mut image = self.floored_image();
        let bytes = match self.random.below(10) {
            0..2 => {
                let (fault, place) = (*self.random.pick(&FLOORED), *self.random.pick(&PLACES));
                faults::one(&mut self.random, &self.stock, image, fault, place)
            }
            2 => image.write_old(),
            3 => {
                // As high as the locks let it be, or one higher.
                image.floor = faults::below_locks(&image).saturating_add(self.random.below(2) as u64);
                image.write()
            }
            _ => image.write(),
        };
        self.push(Call::Restore { image: bytes });
    }

    /// An old image converted, and what came of it restored: its floor is 0.
    fn convert_and_restore(&mut self) {
        let call = self.convert();
        let Answer { number, count, payload, .. } = run_call(&mut self.store.clone(), &call);
        self.push(call);
        if number == 0 {
            self.push(Call::Restore { image: payload[..count as usize].to_vec() });
        }
    }
}

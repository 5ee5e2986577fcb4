//! A trace in the making: the paper runs beside, so that the next call can be aimed at the store as it stands.

use paper::form::{key_batch, mutation_batch};
use paper::run::run_call;
use paper::store::Store;
use paper::trace::Call;

use crate::Ops;
use crate::faults;
use crate::image::{few_keys, with_extreme};
use crate::random::Random;
use crate::stock::Stock;

pub struct Maker {
    pub random: Random,
    pub stock: Stock,
    pub store: Store,
    pub ops: Ops,
    pub calls: Vec<Call>,
}

/// The ops and how often each is drawn.
const OPS: [(u8, usize); 20] = [
    (1, 10),
    (2, 16),
    (3, 5),
    (4, 9),
    (5, 5),
    (6, 12),
    (7, 10),
    (8, 10),
    (9, 8),
    (10, 8),
    (11, 6),
    (12, 12),
    (13, 3),
    (17, 4),
    (18, 2),
    (32, 4),
    (33, 4),
    (34, 2),
    (35, 4),
    (36, 2),
];

/// How many points stand for a page.
const POINTS: usize = 3;

impl Maker {
    pub fn new(seed: u64, ops: Ops) -> Self {
        let mut random = Random::new(seed);
        let stock = Stock::new(&mut random);
        Maker { random, stock, store: Store::default(), ops, calls: Vec::new() }
    }

    /// Takes the call into the trace and runs it, unless its op is left out.
    pub fn push(&mut self, call: Call) {
        if self.ops.has(call.op()) {
            run_call(&mut self.store, &call);
            self.calls.push(call);
        }
    }

    /// One call by the weights; one in eight has several arguments at fault, so that the order of refusals shows.
    pub fn any_call(&mut self) {
        let mut drawn: Vec<(u8, usize)> = OPS.into_iter().filter(|(op, _)| self.ops.has(*op)).collect();
        // Many reads of each image.
        drawn.iter_mut().filter(|(op, _)| *op == 32 && self.ops.reads_images()).for_each(|(_, weight)| *weight = 1);
        let weights: Vec<usize> = drawn.iter().map(|(_, weight)| *weight).collect();
        let op = drawn[self.random.weighted(&weights)].0;
        let faulty = self.random.percent(12);
        let call = match op {
            1 | 5 => self.point(op, faulty),
            2 => self.page(faulty),
            3 => self.intent_page(faulty),
            4 => self.conflicting(faulty),
            6 | 7 => self.prewrite(op, faulty),
            8 | 9 => self.commit(op, faulty),
            10 | 11 => self.rollback(op, faulty),
            12 => self.one_step(faulty),
            13 => self.collect(),
            17 => self.bone(faulty),
            18 => self.how_many(faulty),
            32 => self.restore(),
            33 => Call::Statistics,
            34 => Call::Marks,
            35 => self.write_image(faulty),
            _ => self.convert(),
        };
        let look_after = (6..=12).contains(&op) && self.random.percent(if op == 12 { 60 } else { 25 });
        self.push(call);
        if look_after {
            self.look_after();
        }
    }

    /// A read of what the last call may have changed.
    fn look_after(&mut self) {
        let (moment, key) = match self.calls.last() {
            Some(Call::Prewrite { start, key, .. } | Call::Rollback { start, key, .. }) => (*start, Some(key.clone())),
            Some(Call::Commit { commit, key, .. }) => (*commit, Some(key.clone())),
            Some(Call::OneStep { commit, batch, .. }) => {
                (*commit, mutation_batch(batch).and_then(|entries| Some(entries.first()?.key.clone())))
            }
            Some(Call::CommitBatch { commit, batch, .. }) => {
                (*commit, key_batch(batch).and_then(|keys| keys.first().cloned()))
            }
            _ => (u64::MAX, None),
        };
        let key = key.unwrap_or_else(|| self.stock.key(&mut self.random, &self.store));
        let call = if self.random.percent(70) { Call::Read { moment, key } } else { Call::Statistics };
        self.push(call);
    }

    /// A restore on few keys: sound, with an extreme number, sick or with a fault.
    pub fn restore(&mut self) -> Call {
        let image = few_keys(&mut self.random, &self.stock);
        let image = match self.random.below(10) {
            0..4 => image.write(),
            4 => with_extreme(&mut self.random, image),
            _ => faults::any(&mut self.random, &self.stock, image),
        };
        Call::Restore { image }
    }

    /// A sound restore on few keys, so that a trace starts from an odd store.
    pub fn sound_restore(&mut self) -> Call {
        Call::Restore { image: few_keys(&mut self.random, &self.stock).write() }
    }

    /// The store's figures, and a look at every part of it that the ops allow: by pages, or by points where there are
    /// no pages.
    pub fn look(&mut self) {
        self.push(Call::Statistics);
        self.push(Call::Marks);
        for (op, page) in [(1, 2), (5, 3)] {
            for _ in 0..if self.ops.has(op) && !self.ops.has(page) { POINTS } else { 0 } {
                let call = self.point(op, false);
                self.push(call);
            }
        }
        if self.ops.has(2) {
            let call = self.page(false);
            self.push(call);
        }
        if self.ops.has(3) {
            let call = self.intent_page(false);
            self.push(call);
        }
        if self.ops.has(35) {
            let call = self.write_image(false);
            self.push(call);
            if self.random.percent(20) {
                self.restore_written();
            }
        }
    }
}

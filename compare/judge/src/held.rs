//! The answers of 7 that were compared: by the call that gave them, and by what the holder's lock is.

use std::collections::{BTreeMap, BTreeSet};

use paper::answer::{Answer, LOCKED};
use paper::bend::{Bend, with_bend};
use paper::run::run_call;
use paper::store::{Kind, Store};
use paper::trace::Call;

/// The ops that can give 7.
const OPS: [u8; 10] = [1, 2, 6, 7, 8, 9, 10, 11, 12, 13];
/// Those of them whose entries have a kind.
const WITH_KIND: [u8; 3] = [6, 7, 12];

#[derive(Default)]
pub struct Held {
    ops: BTreeMap<u8, u64>,
    kinds: BTreeMap<u8, u64>,
    other_kind: BTreeMap<u8, u64>,
    times_to_live: BTreeSet<u64>,
}

impl Held {
    /// Takes an answer; a 7 has left the store as the call met it.
    pub fn take(&mut self, store: &mut Store, call: &Call, answer: &Answer) {
        if answer.number != LOCKED {
            return;
        }
        let op = call.op();
        *self.ops.entry(op).or_default() += 1;
        *self.kinds.entry(answer.holder.kind).or_default() += 1;
        self.times_to_live.insert(answer.holder.time_to_live);
        if WITH_KIND.contains(&op) {
            let of_entry = with_bend(Bend::HolderKindOfEntry, || run_call(store, call)).holder.kind;
            *self.other_kind.entry(op).or_default() += u64::from(of_entry != answer.holder.kind);
        }
    }

    pub fn print(&self) {
        let kind = |kind: Kind| self.kinds.get(&kind.byte()).unwrap_or(&0);
        println!(
            "answers of 7 by op: {}; Put locks x{}, Delete locks x{}, {} times to live; to an entry of another kind: {}",
            by_op(&OPS, &self.ops),
            kind(Kind::Put),
            kind(Kind::Delete),
            self.times_to_live.len(),
            by_op(&WITH_KIND, &self.other_kind)
        );
    }
}

fn by_op(ops: &[u8], counts: &BTreeMap<u8, u64>) -> String {
    let of = |op: &u8| format!("{op} x{}", counts.get(op).unwrap_or(&0));
    ops.iter().map(of).collect::<Vec<String>>().join(", ")
}

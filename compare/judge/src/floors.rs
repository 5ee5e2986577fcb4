//! The floor in what was compared: the collections by answer and by what they met and dropped, the calls at the floor and
//! beside it, the answers of 14 by op, what went before them, and the images with a floor.

use std::collections::{BTreeMap, BTreeSet};

use generate::faults::below_locks;
use paper::answer::{Answer, BELOW_FLOOR};
use paper::form::{Entry, key_batch, key_in_form, mutation_batch};
use paper::restore::Image;
use paper::store::{Bytes, Kind, Store};
use paper::trace::Call;

#[derive(Default)]
pub struct Floors {
    collections: BTreeMap<u8, u64>,
    kinds: BTreeMap<&'static str, u64>,
    below: BTreeMap<u8, u64>,
    /// By op: one below the floor, at it, one above it.
    beside: BTreeMap<u8, [u64; 3]>,
    calls: BTreeMap<&'static str, u64>,
    images: BTreeMap<&'static str, u64>,
    /// Of the trace at hand: the pairs whose line a collection dropped, and what was converted.
    dropped: BTreeSet<(Bytes, u64)>,
    converted: BTreeSet<Bytes>,
}

/// The key and start of each record, and its kind.
fn pairs(store: &Store) -> BTreeMap<(Bytes, u64), Kind> {
    let chains = store.records.iter().flat_map(|(key, chain)| chain.values().map(move |record| (key, record)));
    chains.map(|(key, record)| ((key.clone(), record.start), record.kind)).collect()
}

/// The moment or start of a call that has one.
fn asked(call: &Call) -> Option<u64> {
    match call {
        Call::Read { moment, .. } | Call::Page { moment, .. } => Some(*moment),
        Call::Conflicting { moment, .. } | Call::OneIntent { moment, .. } => Some(*moment),
        Call::Prewrite { start, .. } | Call::PrewriteBatch { start, .. } => Some(*start),
        Call::Commit { start, .. } | Call::CommitBatch { start, .. } => Some(*start),
        Call::Rollback { start, .. } | Call::RollbackBatch { start, .. } => Some(*start),
        Call::OneStep { start, .. } => Some(*start),
        _ => None,
    }
}

fn entries_of(call: &Call) -> Vec<Entry> {
    let of_key = |key: &Bytes| Entry { key: key.clone(), kind: Kind::Delete, row: Bytes::new() };
    match call {
        Call::Prewrite { key, kind, row, .. } => vec![Entry { key: key.clone(), kind: *kind, row: row.clone() }],
        Call::PrewriteBatch { batch, .. } | Call::OneStep { batch, .. } => mutation_batch(batch).unwrap_or_default(),
        Call::Commit { key, .. } | Call::Rollback { key, .. } => vec![of_key(key)],
        Call::CommitBatch { batch, .. } | Call::RollbackBatch { batch, .. } => {
            key_batch(batch).unwrap_or_default().iter().map(of_key).collect()
        }
        _ => Vec::new(),
    }
}

impl Floors {
    /// Before the first call of a trace.
    pub fn begin(&mut self) {
        self.dropped.clear();
        self.converted.clear();
    }

    /// Takes a call's answer, and the store before and after the call.
    pub fn take(&mut self, before: &Store, after: &Store, call: &Call, answer: &Answer) {
        match call {
            Call::Collect { floor } => self.take_collection(*floor, before, after, answer),
            Call::Restore { image } => self.take_restore(image, before, answer),
            Call::WriteImage { table, .. } if answer.number == 0 && before.floor > 0 => {
                self.image("written with a floor", true);
                self.image("written with a floor, of an absent table", !before.tables().contains(table));
                self.image("written with a floor above 4 bytes", before.floor > u64::from(u32::MAX));
            }
            Call::Convert { .. } if answer.number == 0 => {
                self.image("converted beside a store with a floor", before.floor > 0);
                self.converted.insert(answer.payload[..answer.count as usize].to_vec());
            }
            _ => self.take_call(before, call, answer),
        }
    }

    fn image(&mut self, kind: &'static str, met: bool) {
        *self.images.entry(kind).or_default() += u64::from(met);
    }

    fn take_collection(&mut self, floor: u64, before: &Store, after: &Store, answer: &Answer) {
        *self.collections.entry(answer.number).or_default() += 1;
        let starts: Vec<u64> = before.locks.values().map(|lock| lock.start).collect();
        let low = starts.iter().filter(|start| **start <= floor).count();
        let (was, is) = (pairs(before), pairs(after));
        let gone: Vec<(Bytes, u64)> = was.keys().filter(|pair| !is.contains_key(*pair)).cloned().collect();
        let of_kind = |kind: Kind| gone.iter().any(|pair| was[pair] == kind);
        let by = |key: &Bytes| after.records[key].range(..=floor).next().is_some();
        let mut count = |kind, met: bool| *self.kinds.entry(kind).or_default() += u64::from(met);
        count("floor 0", floor == 0);
        count("floor 2^64 - 1", floor == u64::MAX);
        count("above 4 bytes", floor > u64::from(u32::MAX));
        count("lower by one", floor.checked_add(1) == Some(before.floor));
        count("equal", floor == before.floor && floor > 0);
        count("equal and dropping", floor == before.floor && !gone.is_empty());
        count("a lock at the floor", starts.contains(&floor));
        count("a lock one above", starts.iter().any(|start| start.checked_sub(1) == Some(floor)));
        count("several locks at or below", low > 1);
        count("accepted beside locks", answer.number == 0 && !starts.is_empty());
        count("dropping a Put", of_kind(Kind::Put));
        count("dropping a Delete", of_kind(Kind::Delete));
        count("dropping a Rollback", of_kind(Kind::Rollback));
        count("dropping all of a key", before.records.len() > after.records.len());
        count("dropping under a kept Put", gone.iter().any(|(key, _)| after.records.contains_key(key) && by(key)));
        count("of several tables", !gone.is_empty() && before.tables().len() > 1);
        count("of a full box", !gone.is_empty() && before.room_used().lines == paper::room::LINES);
        self.dropped.extend(gone);
    }

    fn take_call(&mut self, before: &Store, call: &Call, answer: &Answer) {
        let Some(asked) = asked(call).filter(|_| before.floor > 0) else {
            return;
        };
        let op = call.op();
        let beside = (asked.checked_add(1)).and_then(|above| above.checked_sub(before.floor));
        if let Some(count) = beside.and_then(|at| self.beside.entry(op).or_default().get_mut(at as usize)) {
            *count += 1;
        }
        *self.below.entry(op).or_default() += u64::from(answer.number == BELOW_FLOOR);
        let entries = entries_of(call);
        let pair = |entry: &Entry| (entry.key.clone(), asked);
        let low = (6..=12).contains(&op) && asked <= before.floor || op <= 2 && asked < before.floor;
        let below = answer.number == BELOW_FLOOR;
        let stands = |entry: &Entry| pairs(before).contains_key(&pair(entry));
        let mut count = |kind, met: bool| *self.calls.entry(kind).or_default() += u64::from(met);
        count("another refusal before 14", low && !below);
        count("14 before an entry's 1", below && entries.iter().any(|entry| !key_in_form(&entry.key)));
        count(
            "14 to a pair that was dropped",
            below && entries.iter().any(|entry| self.dropped.contains(&pair(entry))),
        );
        count("14 to a pair that was kept", below && entries.iter().any(stands));
        let empty =
            matches!(call, Call::OneStep { batch, .. } if mutation_batch(batch).is_some_and(|all| all.is_empty()));
        count("14 to an empty one-step batch", below && empty);
        count("empty one-step batches above the floor", !low && empty);
        if let Call::Page { bounds, .. } = call {
            let past = bounds.resume.is_some() && bounds.end.is_some() && bounds.resume >= bounds.end;
            count("14 to a page past its end", below && past);
        }
    }

    fn take_restore(&mut self, bytes: &Bytes, before: &Store, answer: &Answer) {
        let old = Image::read(bytes).is_none() && Image::read_old(bytes).is_some();
        self.image("restored without a floor", old);
        self.image("restored as converted, over a floor", before.floor > 0 && self.converted.contains(bytes));
        let Some(image) = Image::read(bytes).filter(|image| image.floor > 0 || before.floor > 0) else {
            return;
        };
        let starts: Vec<u64> = image.locks.iter().map(|(_, lock)| lock.start).collect();
        let low: Vec<&u64> = starts.iter().filter(|start| **start <= image.floor).collect();
        let uncollected = image.writes.iter().filter(|(_, stamp, _)| *stamp <= image.floor).count();
        let taken = answer.number == 0;
        self.image("taken with a floor", taken && image.floor > 0);
        self.image("taken with floor 2^64 - 1", taken && image.floor == u64::MAX);
        self.image("taken with a lower floor than the store's", taken && image.floor < before.floor);
        self.image(
            "taken with a higher floor than the store's",
            taken && image.floor > before.floor && before.floor > 0,
        );
        self.image(
            "taken with a lock one above its floor",
            taken && below_locks(&image) == image.floor && !starts.is_empty(),
        );
        self.image("taken with records at or below its floor", taken && uncollected > 0);
        self.image("refused with a floor above the store's", !taken && image.floor > before.floor);
        let at_alone = low.iter().all(|start| **start == image.floor);
        self.image("locks at the floor alone", !low.is_empty() && at_alone);
        self.image("locks below the floor", !low.is_empty() && !at_alone);
        let Some(store) = image.store().filter(|store| !store.sick() && !low.is_empty()) else {
            return;
        };
        self.image("13 by the floor alone", true);
        self.image("13 by the floor, beyond the room", store.beyond_room());
    }

    pub fn print(&self) {
        if self.collections.is_empty() && self.images.values().all(|count| *count == 0) {
            return;
        }
        let list = |counts: &BTreeMap<&'static str, u64>| {
            counts.iter().map(|(kind, count)| format!("{kind} x{count}")).collect::<Vec<String>>().join(", ")
        };
        let numbers = |counts: &BTreeMap<u8, u64>| {
            counts.iter().map(|(number, count)| format!("{number} x{count}")).collect::<Vec<String>>().join(", ")
        };
        let beside = |(op, [below, at, above]): (&u8, &[u64; 3])| format!("{op} x{below} x{at} x{above}");
        let beside: Vec<String> = self.beside.iter().map(beside).collect();
        println!("collections by answer: {}; {}", numbers(&self.collections), list(&self.kinds));
        println!("answers of 14 by op: {}; {}", numbers(&self.below), list(&self.calls));
        println!("calls one below the floor, at it, one above it, by op: {}", beside.join(", "));
        println!("images and the floor: {}", list(&self.images));
    }
}

//! Boxes that are filled by calls alone until the store packs its area anew (paper/src/area.rs), in each call that brings
//! bytes, and then looked at from end to end: locks, rows, a page of all, replays, statistics and marks.

use paper::area::{Area, BEFORE, LONGEST_LOCK, LONGEST_ROLLBACK, NUMBERS};
use paper::form::Entry;
use paper::page::Bounds;
use paper::room::{LINES, LIVE_BYTES, LOCKS};
use paper::store::{Bytes, Kind, Store};
use paper::trace::Call;

use crate::batch::{key_bytes, mutation_bytes};
use crate::random::Random;
use crate::rows::SMALLEST;

/// The calls that bring bytes, by their ops.
pub const OPS: [u8; 7] = [6, 7, 8, 9, 10, 11, 12];
/// A trace has no room for more repacks.
pub const MOST: usize = 3;
/// By their number: the live bytes of what stands, and the length of the rows that come and go. The more repacks, the more
/// must each of the 1,024 lines bring.
const FILLS: [(usize, usize); MOST] = [(20_000, 12), (34_000, 110), (34_000, 255)];
/// Every call is of this transaction.
const TRANSACTION: u64 = 7;
/// The rows that stand have these lengths in turn, where 0 is a Delete, and their keys those, both from a place of the
/// trace's own on.
const ROWS: [usize; 9] = [3, 255, 60, 0, 130, 254, 12, 200, 90];
const KEYS: [usize; 5] = [6, 48, 7, 20, 33];
/// The shortest key that is made here; a Rollback of it has so many bytes.
const SHORT: usize = 6;
const SHORT_ROLLBACK: usize = SHORT + NUMBERS;
/// The place for which a rollback asks, as the fewest even bytes: a stretch begins at an even byte.
const ROLLBACK_PLACE: usize = LONGEST_ROLLBACK + 2 * BEFORE;

/// The box, its area, and the trace that made them.
#[derive(Default)]
struct Filler {
    calls: Vec<Call>,
    store: Store,
    area: Area,
    keys: usize,
    time: u64,
    turn: usize,
}

/// The name of the cases in full boxes.
pub const FULL: &str = "a full box, packed anew";

/// The traces of the fixed sample: a repack in each call that brings bytes, on new keys, two or three to a trace; on locks,
/// one to a trace; after a collection; and in boxes of 1,024 lines.
pub fn cases() -> Vec<(&'static str, Vec<Call>)> {
    let new = [&OPS[..3], &OPS[3..5], &OPS[5..]].map(|ops| ("a repack on new keys", packed(0, ops, false, false)));
    let locked = OPS.map(|op| ("a repack on locks", packed(0, &[op], true, false)));
    let collected = [&OPS[..2], &OPS[5..]].map(|ops| ("a repack after a collection", packed(7, ops, true, true)));
    let full = [9, 12].map(|op| (FULL, full_and_packed(op)));
    new.into_iter().chain(locked).chain(collected).chain(full).collect()
}

/// Calls with a repack in some of those that bring bytes, in any order, or in a full box.
pub fn calls(random: &mut Random) -> Vec<Call> {
    if random.percent(10) {
        return full_and_packed(*random.pick(&[9, 12]));
    }
    let mut ops = OPS;
    random.shuffle(&mut ops);
    let ops = &ops[..*random.pick(&[1, MOST, MOST, MOST, MOST, MOST])];
    let turn = random.below(KEYS.len() * ROWS.len());
    let on_locks = random.percent(50);
    packed(turn, ops, on_locks, random.percent(50))
}

/// Lines that stand, and then for each op a box so full that a call of this op packs the area anew; where it is collected,
/// what is packed has gaps.
fn packed(turn: usize, ops: &[u8], on_locks: bool, collected: bool) -> Vec<Call> {
    let mut filler = Filler { turn, ..Filler::default() };
    let (live, row) = FILLS[ops.len() - 1];
    while filler.store.room_used().live_bytes < live {
        filler.stand();
    }
    if collected {
        let floor = filler.time;
        filler.push(Call::Collect { floor });
    }
    ops.iter().for_each(|op| filler.pack_by(*op, on_locks, row));
    filler.look();
    filler.calls
}

/// 1,024 lines and as many rows, a quarter of them locked; half of the locks are rolled back; the other half is committed,
/// with longer rows if that is done in one step, until the area is packed anew although no line has come. One line more
/// is 11.
fn full_and_packed(op: u8) -> Vec<Call> {
    let mut filler = Filler::default();
    for _ in 0..21 {
        let ((start, keys), commit) = (filler.lock(32, 20), filler.tick());
        filler.commit_batch(start, commit, &keys);
    }
    let locked = [20, 20, 20, 20, 40, 40, 40, 40].map(|row| filler.lock(32, row));
    let more = |filler: &mut Filler, count| {
        let (start, commit, entries) = (filler.tick(), filler.tick(), filler.entries(count, |_| SHORT, |_| 20));
        filler.one_step(start, commit, &entries);
    };
    (0..12).for_each(|_| more(&mut filler, 8));
    more(&mut filler, 1);
    for (start, keys) in &locked[..4] {
        let (singles, batch) = keys.split_at(4);
        singles.iter().for_each(|key| filler.rollback(*start, key));
        filler.rollback_batch(*start, batch);
    }
    for (start, keys) in &locked[4..] {
        let commit = filler.tick();
        if op == 9 {
            filler.commit_batch(*start, commit, keys);
        } else {
            let entries: Vec<Entry> = keys.iter().enumerate().map(|(at, key)| entry(key, 150 + at)).collect();
            filler.one_step(*start, commit, &entries);
        }
        filler.show_locks();
    }
    more(&mut filler, 1);
    filler.look();
    filler.calls
}

/// A Put with a row of this length that tells its key; of length 0, a Delete.
fn entry(key: &Bytes, length: usize) -> Entry {
    let text = (0..length.saturating_sub(4)).map(|at| key[4].wrapping_mul(7) ^ key[5] ^ at as u8);
    let (kind, row) = match length {
        0 => (Kind::Delete, Bytes::new()),
        3 => (Kind::Put, SMALLEST.to_vec()),
        _ => (Kind::Put, [0, 1, (length - 4) as u8].into_iter().chain(text).chain([0]).collect()),
    };
    Entry { key: key.clone(), kind, row }
}

fn keys_of(entries: &[Entry]) -> Vec<Bytes> {
    entries.iter().map(|entry| entry.key.clone()).collect()
}

/// A primary of 48 bytes that tells the start of its lock.
fn primary_of(start: u64) -> Bytes {
    start.to_be_bytes().repeat(6).into_iter().map(|byte| byte ^ 0xA5).collect()
}

impl Filler {
    fn push(&mut self, call: Call) {
        self.area.run(&mut self.store, &call);
        self.calls.push(call);
    }

    /// A number above all that were given before.
    fn tick(&mut self) -> u64 {
        self.time += 1;
        self.time
    }

    /// A key that is new to the box. They come in an order of their own, so that lines come in at every place.
    fn key(&mut self, length: usize) -> Bytes {
        let number = (self.keys / 1024 * 1024 + self.keys * 389 % 1024) as u16;
        self.keys += 1;
        let mut key = [&[0, 0, 0, 1][..], &number.to_be_bytes()].concat();
        key.resize(length, number as u8);
        key
    }

    /// Entries of new keys, ascending.
    fn entries(&mut self, count: usize, key: impl Fn(usize) -> usize, row: impl Fn(usize) -> usize) -> Vec<Entry> {
        let mut entries: Vec<Entry> = (0..count).map(|at| entry(&self.key(key(at)), row(at))).collect();
        entries.sort_by(|left, right| left.key.cmp(&right.key));
        entries
    }

    /// Entries of new keys, of many lengths.
    fn mixed(&mut self, count: usize) -> Vec<Entry> {
        let turn = self.turn;
        self.entries(count, |at| KEYS[(turn + at) % KEYS.len()], |at| ROWS[(turn + at) % ROWS.len()])
    }

    fn one_step(&mut self, start: u64, commit: u64, entries: &[Entry]) {
        self.push(Call::OneStep { transaction: TRANSACTION, start, commit, batch: mutation_bytes(entries) });
    }

    fn prewrite(&mut self, start: u64, entry: Entry) {
        let (primary, Entry { key, kind, row }) = (primary_of(start), entry);
        self.push(Call::Prewrite { transaction: TRANSACTION, start, time_to_live: 1, kind, primary, key, row });
    }

    fn prewrite_batch(&mut self, start: u64, entries: &[Entry]) {
        let (primary, batch) = (primary_of(start), mutation_bytes(entries));
        self.push(Call::PrewriteBatch { transaction: TRANSACTION, start, time_to_live: 1, primary, batch });
    }

    fn commit(&mut self, start: u64, commit: u64, key: &[u8]) {
        self.push(Call::Commit { transaction: TRANSACTION, start, commit, key: key.to_vec() });
    }

    fn commit_batch(&mut self, start: u64, commit: u64, keys: &[Bytes]) {
        self.push(Call::CommitBatch { transaction: TRANSACTION, start, commit, batch: key_bytes(keys) });
    }

    fn rollback(&mut self, start: u64, key: &[u8]) {
        self.push(Call::Rollback { transaction: TRANSACTION, start, key: key.to_vec() });
    }

    fn rollback_batch(&mut self, start: u64, keys: &[Bytes]) {
        self.push(Call::RollbackBatch { transaction: TRANSACTION, start, batch: key_bytes(keys) });
    }

    /// A Rollback of a new key, which has so many bytes in the area.
    fn rollback_new(&mut self, bytes: usize) {
        let (start, key) = (self.tick(), self.key(bytes - NUMBERS));
        self.rollback(start, &key);
    }

    /// A batch of Puts of short keys is prewritten: its start and its keys.
    fn lock(&mut self, count: usize, row: usize) -> (u64, Vec<Bytes>) {
        let (start, entries) = (self.tick(), self.entries(count, |_| SHORT, |_| row));
        self.prewrite_batch(start, &entries);
        (start, keys_of(&entries))
    }

    /// A batch that stays: of new keys, and then a second row for some of them in one step.
    fn stand(&mut self) {
        let (start, commit, mut entries) = (self.tick(), self.tick(), self.mixed(18));
        self.prewrite_batch(start, &entries);
        self.commit_batch(start, commit, &keys_of(&entries));
        entries.retain(|entry| entry.row.len() < 20);
        entries.iter_mut().for_each(|old| *old = entry(&old.key, old.row.len() + 4));
        let (start, commit) = (self.tick(), self.tick());
        self.one_step(start, commit, &entries);
    }

    /// Uses the area up until just the longest Rollback has place: by rows of this length that are prewritten and rolled
    /// back, as many at a time as there is place and room for, and at last by rollbacks of new keys.
    fn close_gap(&mut self, row: usize) {
        loop {
            let over = (self.area.gap() / 2 * 2).saturating_sub(ROLLBACK_PLACE);
            let used = self.store.room_used();
            let live = (LIVE_BYTES - used.live_bytes) / (2 * SHORT + 48 + row);
            let room = live.min(LINES - used.lines).min(LOCKS - used.locks).min(32);
            if over < SHORT_ROLLBACK || room == 0 {
                return;
            }
            let count = room.min((over - SHORT_ROLLBACK) / (LONGEST_LOCK + SHORT_ROLLBACK + 2 * BEFORE));
            match over {
                _ if count > 0 => {
                    let (start, keys) = self.lock(count, row);
                    self.rollback_batch(start, &keys);
                }
                // What is left over is never less than a Rollback.
                0..=LONGEST_ROLLBACK => self.rollback_new(over),
                _ => self.rollback_new((over - SHORT_ROLLBACK).min(LONGEST_ROLLBACK)),
            }
        }
    }

    /// A call of this op for whose bytes the area has no place: on new keys, or with eight that have locks of its own, one of
    /// which may be ended before. Then the locks are shown and committed. The area is filled by rows of this length.
    fn pack_by(&mut self, op: u8, on_locks: bool, row: usize) {
        let (start, commit, entries) = (self.tick(), self.tick(), self.mixed(8));
        let keys = keys_of(&entries);
        if on_locks || op == 8 || op == 9 {
            self.prewrite_batch(start, &entries);
        }
        match op {
            9 if on_locks => self.commit(start, commit, &keys[0]),
            11 if on_locks => self.rollback(start, &keys[0]),
            _ => {}
        }
        self.close_gap(row);
        match op {
            6 => {
                let longest = entry(&self.key(48), 255);
                self.prewrite(start, longest);
            }
            7 => {
                let mut all = if on_locks { self.mixed(5) } else { Vec::new() };
                all.extend(entries);
                all.sort_by(|left, right| left.key.cmp(&right.key));
                self.prewrite_batch(start, &all);
            }
            8 => {
                let longest = entries.iter().max_by_key(|entry| entry.row.len()).expect("one of eight");
                self.commit(start, commit, &longest.key);
            }
            9 => self.commit_batch(start, commit, &keys),
            10 => {
                // The first of them fills the area but for the last bytes.
                self.rollback_new(LONGEST_ROLLBACK);
                self.rollback(start, &keys[0]);
            }
            11 => self.rollback_batch(start, &keys),
            _ => {
                let other = |old: &Entry| entry(&old.key, if old.kind == Kind::Put { 70 } else { 0 });
                self.one_step(start, commit, &entries.iter().map(other).collect::<Vec<Entry>>());
            }
        }
        self.show_locks();
        let locked: Vec<Bytes> = self.store.locks.keys().cloned().collect();
        if !locked.is_empty() {
            self.commit_batch(start, commit, &locked);
        }
    }

    fn show_locks(&mut self) {
        let (lock_limit, bounds) = (u64::MAX, Bounds::default());
        let needed = self.store.intent_page(lock_limit, &bounds, &mut [0; 65_535]).unwrap_or(0);
        self.push(Call::IntentPage { lock_limit, bounds, buffer: needed as u16 });
    }

    /// Fills the lines to the last and asks for one more; then the newest row of each key on one page, one in four of them
    /// and every older row by its own read; every commit and rollback once more; the statistics and the marks.
    fn look(&mut self) {
        let used = self.store.room_used();
        let free = (LINES - used.lines).min((LIVE_BYTES - used.live_bytes) / SHORT);
        let mut keys: Vec<Bytes> = (0..free).map(|_| self.key(SHORT)).collect();
        keys.sort();
        for keys in keys.chunks(32) {
            let start = self.tick();
            self.rollback_batch(start, keys);
        }
        self.rollback_new(SHORT_ROLLBACK);
        let (moment, most, bounds) = (self.time, u64::MAX, Bounds::default());
        let needed = self.store.page(moment, most, most, &bounds, &mut [0; 65_535]).unwrap_or(0);
        self.push(Call::Page { moment, row_limit: most, byte_limit: most, bounds, buffer: needed as u16 });
        let mut reads = Vec::new();
        for (at, (key, chain)) in self.store.records.iter().enumerate() {
            let puts = chain.iter().rev().filter(|(_, record)| record.kind == Kind::Put);
            let puts = puts.skip(usize::from(at % 4 != 0));
            let moment = |stamp: u64| stamp.max(self.store.floor);
            reads.extend(puts.map(|(stamp, _)| Call::Read { moment: moment(*stamp), key: key.clone() }));
        }
        let replays: Vec<Call> = self.calls.iter().filter(|call| (8..=11).contains(&call.op())).cloned().collect();
        reads.into_iter().chain(replays).chain([Call::Statistics, Call::Marks]).for_each(|call| self.push(call));
    }
}

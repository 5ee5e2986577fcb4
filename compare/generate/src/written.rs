//! Images written: of stores with several tables and of tables that are not there, into buffers at, one short of and beyond
//! what is needed; and what was written restored.

use paper::answer::Answer;
use paper::form::{Entry, table_of};
use paper::page::Bounds;
use paper::restore::{Image, RawLock, RawRecord};
use paper::run::run_call;
use paper::store::{Bytes, Kind, Store};
use paper::trace::{Call, LONG_BUFFER, MOST_BYTES, write_trace};
use paper::write_image::WITHOUT_ENTRIES;

use crate::Ops;
use crate::batch::mutation_bytes;
use crate::maker::Maker;
use crate::orders::{Order, put};
use crate::random::Random;
use crate::repacks;
use crate::room;
use crate::rows::SMALLEST;

/// Tables that are alike in some of their bytes, or beside each other.
const TABLES: [u32; 12] =
    [1, 2, 3, 255, 256, 257, 0x1_0000, 0x100_0000, 0x100_0001, i32::MAX as u32, 1 << 31, u32::MAX];
const NAMES: [&[u8]; 7] = [b"a", b"b", b"aa", &[b'a', 0], &[0], &[255], &[b'a'; 44]];

/// So many bytes of a trace are left to the calls after a restore, since one of them may have the image of a full box.
const SPARE: usize = 75_000;

/// Some names in some tables.
fn keys(random: &mut Random) -> Vec<Bytes> {
    let (mut tables, mut keys) = (TABLES, Vec::new());
    random.shuffle(&mut tables);
    for table in &tables[..random.between(2, 5)] {
        let mut names = NAMES;
        random.shuffle(&mut names);
        keys.extend(names[..random.between(1, 3)].iter().map(|name| [&table.to_be_bytes()[..], name].concat()));
    }
    keys.sort();
    keys
}

impl Maker {
    /// Several tables in one store, by an image of one and by calls; their images, and now and then one of them restored.
    pub fn written(&mut self) {
        self.stock.keys = keys(&mut self.random);
        match self.random.below(10) {
            0..5 => {
                let restore = self.sound_restore();
                self.push(restore);
            }
            5 => {
                let key = self.random.pick(&self.stock.keys).clone();
                let many = *self.random.pick(&[2, 3, 5, 17, 40, 130, 260, 1023]);
                let image = crossed_chain(&mut self.random, &key, many);
                self.push(Call::Restore { image: image.write() });
            }
            _ => {}
        }
        for _ in 0..self.random.between(2, 6) {
            self.new_lines();
        }
        for _ in 0..self.random.between(6, 24) {
            match self.random.below(10) {
                0..2 => self.any_call(),
                2 if self.random.percent(35) => {
                    let call = self.collect();
                    self.push(call);
                }
                2..5 => self.new_lines(),
                5..9 => {
                    let call = self.write_image(false);
                    self.push(call);
                }
                _ => self.write_and_restore(),
            }
        }
        for table in self.store.tables() {
            let buffer = self.needed(table);
            self.push(Call::WriteImage { table, buffer });
        }
    }

    /// Locks, often with a primary of another table, or records.
    pub fn new_lines(&mut self) {
        let call = match self.random.below(4) {
            0 => self.prewrite(6, false),
            1 => self.prewrite(7, false),
            2 => self.rollback(11, false),
            _ => self.one_step(false),
        };
        self.push(call);
    }

    /// An image that fits, restored, and a look at what it brought; nothing where images are not written.
    pub fn write_and_restore(&mut self) {
        if !self.ops.has(35) {
            return;
        }
        let table = self.table(false).max(1);
        let buffer = self.needed(table) + *self.random.pick(&[0, 0, 1, 7]);
        self.push(Call::WriteImage { table, buffer });
        self.restore_written();
        self.push(Call::Statistics);
        self.push(Call::Marks);
        let call = self.write_image(false);
        self.push(call);
    }

    /// The image that the last call wrote, if it did, restored; unless the trace has no place for it.
    pub fn restore_written(&mut self) {
        let Some(call @ Call::WriteImage { .. }) = self.calls.last() else {
            return;
        };
        let Answer { number, count, payload, .. } = run_call(&mut self.store.clone(), call);
        let image = payload[..count as usize].to_vec();
        if number == 0 && write_trace(&self.calls).len() + image.len() + SPARE <= MOST_BYTES {
            self.push(Call::Restore { image });
        }
    }

    /// The image of a table of the store or of another, or of none.
    pub fn write_image(&mut self, faulty: bool) -> Call {
        let table = self.table(faulty);
        let needed = self.needed(table);
        let buffer = match self.random.below(20) {
            _ if table == 0 && self.random.percent(50) => 0,
            0..8 => needed,
            8..11 => needed - 1,
            11 => 0,
            12 => self.random.below(needed as usize) as u32,
            13 => self.random.between(4, 12) as u32,
            14..18 => needed + self.random.between(1, 9) as u32,
            18 => needed + self.random.between(10, 300) as u32,
            _ if self.random.percent(6) => *self.random.pick(&[65_535, 65_536, LONG_BUFFER]),
            _ => needed,
        };
        Call::WriteImage { table, buffer }
    }

    /// The bytes of a table's image.
    fn needed(&self, table: u32) -> u32 {
        self.store.image_of(table).write().len() as u32
    }

    fn table(&mut self, faulty: bool) -> u32 {
        if self.random.percent(if faulty { 40 } else { 4 }) {
            return 0;
        }
        let tables: Vec<u32> = self.store.tables().into_iter().collect();
        let some = if tables.is_empty() { 1 } else { *self.random.pick(&tables) };
        let primaries: Vec<u32> = self.store.locks.values().map(|lock| table_of(&lock.primary)).collect();
        match self.random.below(20) {
            0..2 => table_of(self.random.pick::<Bytes>(&self.stock.keys)),
            2 => *self.random.pick(&[some.wrapping_add(1), some.wrapping_sub(1), some.swap_bytes(), some << 8]),
            3 if !primaries.is_empty() => *self.random.pick(&primaries),
            _ => some,
        }
    }
}

/// The calls, and then the images of all tables that the store holds after them.
pub fn then_written(mut calls: Vec<Call>) -> Vec<Call> {
    let mut store = Store::default();
    calls.iter().for_each(|call| _ = run_call(&mut store, call));
    let written = |table| Call::WriteImage { table, buffer: store.image_of(table).write().len() as u32 };
    calls.extend(store.tables().into_iter().map(written));
    calls
}

fn key(table: u32, name: &[u8]) -> Bytes {
    [&table.to_be_bytes()[..], name].concat()
}

/// So many traces of the sample are drawn.
const DRAWN: u64 = 12;

/// One key with so many Puts, whose starts are in no order by their stamps, and a Put lock whose start is among them; each
/// row says its start. The entries of the image stand in no order.
fn crossed_chain(random: &mut Random, key: &Bytes, many: usize) -> Image {
    let row = |start: u64| [&[1][..], &start.to_be_bytes(), &[0, 0]].concat();
    let mut starts: Vec<u64> = (1..=many as u64 + 1).collect();
    random.shuffle(&mut starts);
    let mut image = Image { table: table_of(key), ..Image::default() };
    image.defaults = starts.iter().map(|start| (key.clone(), *start, row(*start))).collect();
    let stamp = |at: usize| 2_000 + at as u64;
    let put_at =
        |(at, start): (usize, &u64)| (key.clone(), stamp(at), RawRecord { start: *start, commit: stamp(at), kind: 1 });
    image.writes = starts[1..].iter().enumerate().map(put_at).collect();
    let lock = RawLock { transaction: 7, primary: key.clone(), start: starts[0], time_to_live: 1, kind: 1 };
    image.locks.push((key.clone(), lock));
    put(random, &mut image, Order::Shuffled);
    image
}

/// For the fixed sample: small images of several tables and what a restore of them brings, full boxes, some packed anew, the
/// longest chain and the longest buffer, and traces drawn.
pub fn cases() -> Vec<(&'static str, Vec<Call>)> {
    let drawn = |seed| {
        let mut maker = Maker::new(seed, Ops::all());
        maker.written();
        ("images drawn", maker.calls)
    };
    let past = Call::WriteImage { table: 1, buffer: LONG_BUFFER + 1 };
    let mut cases = vec![
        ("images of several tables", several_tables()),
        ("a full box, written and restored", full_box()),
        ("the longest chain, its starts in no order", longest_chain()),
        ("a long buffer past the most", vec![past]),
    ];
    let packed = repacks::cases().into_iter().filter(|(name, _)| *name == repacks::FULL);
    cases.extend(packed.map(|(_, calls)| ("a full box, packed anew and written", then_written(calls))));
    cases.extend((1..=DRAWN).map(drawn));
    cases
}

/// Each buffer around what an image needs.
fn around(maker: &mut Maker, table: u32) {
    let needed = maker.needed(table);
    for buffer in [needed, needed - 1, needed + 3, needed / 2, 4, 0] {
        maker.push(Call::WriteImage { table, buffer });
    }
}

/// Put (5, 20) and Put (6, 10) of a under a Put lock of start 3, whose primary is of table 2; Rollbacks, a Delete, longer
/// keys. The starts are not in the order of the stamps, and the lock's is the least.
fn odd_image() -> Image {
    let [a, aa, b] = [b"a" as &[u8], b"aa", b"b"].map(|name| key(1, name));
    let lock = |primary: Bytes, start, kind| RawLock { transaction: 7, primary, start, time_to_live: 9, kind };
    let write = |key: &Bytes, start, commit, kind| (key.clone(), commit, RawRecord { start, commit, kind });
    Image {
        table: 1,
        defaults: vec![
            (b.clone(), 30, vec![0, 1, 1, b'b', 0]),
            (a.clone(), 6, vec![0, 1, 1, b'6', 1, 1]),
            (a.clone(), 3, vec![0, 1, 1, b'3', 9, 0, 1]),
            (a.clone(), 5, vec![0, 1, 1, b'5', 0]),
        ],
        locks: vec![(b.clone(), lock(b.clone(), 30, 1)), (a.clone(), lock(key(2, b"a"), 3, 1))],
        writes: vec![
            write(&b, 4, 4, 3),
            write(&a, 5, 20, 1),
            write(&a, 6, 10, 1),
            write(&aa, 2, 7, 2),
            write(&a, 15, 15, 3),
        ],
        ..Image::default()
    }
}

fn several_tables() -> Vec<Call> {
    let maker = &mut Maker::new(1, Ops::all());
    around(maker, 1);
    for buffer in [0, WITHOUT_ENTRIES as u32 - 1, WITHOUT_ENTRIES as u32, 12] {
        maker.push(Call::WriteImage { table: 0, buffer });
    }
    maker.push(Call::Restore { image: odd_image().write() });
    around(maker, 1);
    for table in [256, 2, 0x100_0000, 0x101] {
        let keys = [key(table, b"a"), key(table, b"aa"), key(table, b"b")];
        let entry = |key: &Bytes| Entry { key: key.clone(), kind: Kind::Put, row: SMALLEST.to_vec() };
        let batch = mutation_bytes(&keys[..2].iter().map(entry).collect::<Vec<Entry>>());
        let (transaction, start, primary) = (8, 40, key(1, b"a"));
        maker.push(Call::OneStep { transaction, start, commit: 41, batch: batch.clone() });
        maker.push(Call::Rollback { transaction, start: 45, key: keys[2].clone() });
        maker.push(Call::PrewriteBatch { transaction, start: 50, time_to_live: 1, primary, batch });
    }
    for table in [1, 2, 256, 0x101, 0x100_0000, 3, u32::MAX] {
        around(maker, table);
    }
    look(maker);
    for table in [2, 1, 3] {
        let buffer = maker.needed(table);
        maker.push(Call::WriteImage { table, buffer });
        maker.restore_written();
        look(maker);
        around(maker, table);
        maker.push(Call::Commit { transaction: 8, start: 50, commit: 60, key: key(table, b"a") });
        maker.push(Call::Rollback { transaction: 7, start: 3, key: key(table, b"a") });
    }
    maker.calls.clone()
}

/// The figures, and all rows and locks that stand.
fn look(maker: &mut Maker) {
    maker.push(Call::Statistics);
    maker.push(Call::Marks);
    let (bounds, buffer) = (Bounds::default(), 400);
    maker.push(Call::Page { moment: 2, row_limit: 99, byte_limit: 999, bounds: bounds.clone(), buffer });
    maker.push(Call::IntentPage { lock_limit: 99, bounds, buffer });
}

/// 1,024 lines of one key.
fn longest_chain() -> Vec<Call> {
    let image = crossed_chain(&mut Random::new(1), &key(1, b"a"), 1023);
    then_written(vec![Call::Restore { image: image.write() }])
}

/// All four rooms full by an image in no order: it is written into the longest buffer, refused in one a byte short, and
/// restored; then the box is full as before.
fn full_box() -> Vec<Call> {
    let maker = &mut Maker::new(1, Ops::all());
    let mut image = room::all_full(&mut maker.random);
    put(&mut maker.random, &mut image, Order::Shuffled);
    maker.push(Call::Restore { image: image.write() });
    let needed = maker.needed(1);
    maker.push(Call::WriteImage { table: 1, buffer: needed - 1 });
    maker.push(Call::WriteImage { table: 1, buffer: LONG_BUFFER });
    maker.restore_written();
    maker.push(Call::Statistics);
    maker.push(Call::Rollback { transaction: 9, start: 5, key: key(1, b"a") });
    maker.push(Call::WriteImage { table: 1, buffer: needed });
    maker.calls.clone()
}

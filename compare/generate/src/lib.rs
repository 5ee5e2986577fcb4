//! A seeded generator of traces that is hard on the box: few keys with common prefixes in several tables, small and
//! extreme numbers, replays, batches, rows and images in and out of form, every combination of bounds, buffers and
//! byte limits at and one short of what is needed, boxes at and one past each of the four rooms, images sound and sick
//! and longer than 65,535 bytes, images written and restored, old images converted, bones asked, damaged traces.

pub mod batch;
pub mod bones;
pub mod chains;
mod collected;
mod damage;
pub mod faults;
pub mod floor_cases;
mod grow;
pub mod held;
pub mod hostile;
mod image;
mod looks;
mod maker;
pub mod named;
pub mod old;
pub mod orders;
pub mod random;
pub mod repacks;
mod room;
pub mod rows;
pub mod sick;
pub mod singles;
pub mod stock;
mod writes;
pub mod written;

use paper::restore::Image;
use paper::store::Bytes;
use paper::trace::{Call, write_trace};

use crate::maker::Maker;

/// The ops that calls may have.
#[derive(Clone, Copy, Debug, PartialEq, Eq)]
pub struct Ops(u64);

/// The ops that the driver does not have yet: it is sent none of them unless they are asked for by `--ops`, and the sample
/// that it is tested by has none. Once it has them all, this list is empty and the sample is written anew.
pub const AWAITED: &[u8] = &[];

impl Ops {
    /// Every op of TRACE.md's table.
    pub const LIST: [u8; 20] = [1, 2, 3, 4, 5, 6, 7, 8, 9, 10, 11, 12, 13, 17, 18, 32, 33, 34, 35, 36];

    pub fn all() -> Self {
        Ops(Self::LIST.iter().fold(0, |ops, op| ops | 1 << op))
    }

    /// Those that the driver has.
    pub fn of_driver() -> Self {
        AWAITED.iter().fold(Ops::all(), |ops, op| ops.without(*op))
    }

    /// These but for one.
    pub fn without(self, op: u8) -> Self {
        Ops(self.0 & !(1 << op))
    }

    /// Are all that the driver has among them?
    pub fn complete(self) -> bool {
        self.0 & Ops::of_driver().0 == Ops::of_driver().0
    }

    /// A list such as `32,33,34`; none if it holds another word, or no op at all.
    pub fn read(list: &str) -> Option<Self> {
        let mut ops = Ops(0);
        for word in list.split(',').map(str::trim).filter(|word| !word.is_empty()) {
            let op: u8 = word.parse().ok().filter(|op| Self::LIST.contains(op))?;
            ops.0 |= 1 << op;
        }
        (ops.0 != 0).then_some(ops)
    }

    pub fn has(self, op: u8) -> bool {
        op < 64 && self.0 >> op & 1 == 1
    }

    /// Are the changing ops among them single forms alone?
    pub fn singles_alone(self) -> bool {
        [6, 8, 10].iter().any(|op| self.has(*op)) && ![7, 9, 11, 12].iter().any(|op| self.has(*op))
    }

    /// Is restore the only op among them beside the figures?
    pub fn restores_alone(self) -> bool {
        self.has(32) && !(1..=13).any(|op| self.has(op))
    }

    /// Are images converted, and nothing else done but restore, figures and questions?
    pub fn converts_alone(self) -> bool {
        self.has(36) && !(1..=13).any(|op| self.has(op))
    }

    /// Does none of them touch the box? Then they ask a row or convert an image.
    pub fn without_store(self) -> bool {
        Self::LIST.iter().all(|op| !self.has(*op) || [17, 18, 36].contains(op))
    }

    /// Are bones asked?
    pub fn bones_asked(self) -> bool {
        self.has(17) || self.has(18)
    }

    /// Is there something to read by, and restore the only op that changes the box? Then what is read comes from images.
    pub fn reads_images(self) -> bool {
        self.has(32) && (1..=5).any(|op| self.has(op)) && !(6..=13).any(|op| self.has(op))
    }
}

/// What a trace is about.
#[derive(Clone, Copy, Debug, PartialEq, Eq)]
pub enum Kind {
    /// Calls of every op from a fresh store; mostly from an image where images are what is read.
    Fresh,
    /// The same from an odd but sound image.
    Odd,
    /// Calls that meet another's lock.
    Held,
    /// Reads of keys with many records.
    Chains,
    /// Single forms above all, with keys and rows of odd lengths.
    Singles,
    /// Collections, and calls at the floor and beside it.
    Collected,
    /// Images written, of stores with several tables, and restored.
    Written,
    /// Old images converted, and what came of them.
    Converted,
    /// The bones of rows, and calls that take these rows.
    Bones,
    /// Images, sound, sick and faulty, with the store's figures between.
    Images,
    /// The same of few or many keys that are much alike, the entries in any order.
    Hostile,
    /// A box at one of the four rooms, and calls that pass it.
    Room,
    /// All four rooms full, or an image far beyond, of more than 65,535 bytes.
    Large,
    /// A box filled by calls alone until its area is packed anew; damaged where an op is left out.
    Repacks,
    /// A fault in the trace's own form.
    Damaged,
    /// A trace at an edge of its form.
    Edge,
}

const KINDS: [(Kind, usize); 11] = [
    (Kind::Fresh, 200),
    (Kind::Odd, 250),
    (Kind::Held, 65),
    (Kind::Chains, 50),
    (Kind::Images, 130),
    (Kind::Hostile, 40),
    (Kind::Room, 70),
    (Kind::Large, 24),
    (Kind::Repacks, 25),
    (Kind::Damaged, 100),
    (Kind::Edge, 46),
];

/// The kind of trace that a seed gives.
pub fn kind_of(seed: u64) -> Kind {
    let weights: Vec<usize> = KINDS.iter().map(|(_, weight)| *weight).collect();
    KINDS[random::Random::new(!seed).weighted(&weights)].0
}

/// So many traces of one seed are apart from those of the next.
const TRACES_OF_A_SEED: u64 = 1 << 20;

/// The n-th trace of a run from this seed.
pub fn nth_trace(seed: u64, number: u64, ops: Ops) -> Bytes {
    trace(seed.wrapping_mul(TRACES_OF_A_SEED).wrapping_add(number), ops)
}

/// The trace of a seed of its own. A full box costs a driver as much time as thousands of reads and shows restore alone, so where
/// images are what is read, most of these give way to small ones. One trace in twelve, and where the changing ops are
/// single forms alone every second, is about these; one in twelve is about collections, one in 24 about images that are written, one in twelve about old
/// images, one in 24 about bones. Where restore stands alone, all that would be about calls is about images; where no op
/// touches the box, all is about old images and bones.
pub fn trace(seed: u64, ops: Ops) -> Bytes {
    let kind = match kind_of(seed) {
        Kind::Damaged => Kind::Damaged,
        Kind::Edge => Kind::Edge,
        Kind::Large if ops.without_store() && ops.has(36) => Kind::Large,
        _ if ops.without_store() && ops.has(36) && !(seed.is_multiple_of(4) && ops.bones_asked()) => Kind::Converted,
        _ if ops.without_store() => Kind::Bones,
        Kind::Room | Kind::Large if ops.reads_images() && !seed.is_multiple_of(8) => Kind::Odd,
        Kind::Fresh | Kind::Odd | Kind::Held | Kind::Chains if ops.converts_alone() => Kind::Converted,
        Kind::Chains if !ops.has(1) && !ops.restores_alone() => Kind::Odd,
        Kind::Fresh if ops.restores_alone() => Kind::Images,
        Kind::Odd | Kind::Held | Kind::Chains if ops.restores_alone() => Kind::Hostile,
        Kind::Fresh | Kind::Odd if ops.singles_alone() => Kind::Singles,
        Kind::Fresh | Kind::Odd if ops.complete() && seed.is_multiple_of(6) => Kind::Singles,
        Kind::Fresh | Kind::Odd if ops.has(13) && matches!(seed % 12, 7 | 11) => Kind::Collected,
        Kind::Fresh | Kind::Odd if ops.has(35) && seed % 12 == 1 => Kind::Written,
        Kind::Fresh | Kind::Odd if ops.has(36) && matches!(seed % 12, 3 | 9) => Kind::Converted,
        Kind::Fresh | Kind::Odd if ops.bones_asked() && seed % 12 == 5 => Kind::Bones,
        kind => kind,
    };
    trace_of(kind, seed, ops)
}

/// A trace of this kind.
pub fn trace_of(kind: Kind, seed: u64, ops: Ops) -> Bytes {
    let mut maker = Maker::new(seed, ops);
    match kind {
        Kind::Fresh => {
            if ops.reads_images() && maker.random.percent(80) {
                let restore = maker.sound_restore();
                maker.push(restore);
            }
            some_calls(&mut maker, 4, if ops.reads_images() { 200 } else { 50 });
        }
        Kind::Odd => {
            let restore = maker.sound_restore();
            maker.push(restore);
            some_calls(&mut maker, 4, if ops.reads_images() { 200 } else { 35 });
        }
        Kind::Held => maker.held(),
        Kind::Chains => maker.chains(),
        Kind::Singles => single_forms(&mut maker),
        Kind::Collected => maker.collected(),
        Kind::Written => maker.written(),
        Kind::Converted => maker.converted(),
        Kind::Bones => maker.asked(),
        Kind::Images => {
            for _ in 0..maker.random.between(3, 10) {
                let restore = maker.restore();
                maker.push(restore);
                maker.look();
            }
        }
        Kind::Hostile => {
            for _ in 0..maker.random.between(2, 8) {
                let image = hostile::any(&mut maker.random, &maker.stock);
                maker.push(Call::Restore { image });
                maker.look();
            }
        }
        Kind::Room => room(&mut maker),
        Kind::Large => large(&mut maker),
        Kind::Repacks if ops.complete() => {
            let calls = repacks::calls(&mut maker.random);
            return write_trace(&if ops.has(35) { written::then_written(calls) } else { calls });
        }
        Kind::Repacks | Kind::Damaged => {
            if maker.random.percent(50) {
                let restore = maker.sound_restore();
                maker.push(restore);
            }
            some_calls(&mut maker, 1, 8);
            if maker.random.percent(40) {
                let call = maker.prewrite(6, false);
                maker.push(call);
            }
            return damage::damaged(&mut maker.random, &maker.calls, ops);
        }
        Kind::Edge => return damage::edge(&mut maker.random, ops),
    }
    write_trace(&maker.calls)
}

fn some_calls(maker: &mut Maker, least: usize, most: usize) {
    for _ in 0..maker.random.between(least, most) {
        maker.any_call();
    }
}

/// Single forms, and now and then another call, from a fresh store or an odd one.
fn single_forms(maker: &mut Maker) {
    if maker.random.percent(60) {
        let restore = maker.sound_restore();
        maker.push(restore);
    }
    for _ in 0..maker.random.between(4, 40) {
        maker.single_form();
        if maker.random.percent(25) {
            maker.any_call();
        }
    }
}

/// A box short of, at or one past a room, by an image or by calls alone, then calls around it.
fn room(maker: &mut Maker) {
    if maker.ops.has(36) && maker.random.percent(25) {
        return maker.converted_room();
    }
    let which = maker.random.below(4);
    if maker.ops.has(32) && maker.random.percent(80) {
        let past = *maker.random.pick(&[-40, -3, -2, -1, 0, 0, 1, 1]);
        let mut image = room::beside_room(&mut maker.random, which, past);
        // A floor takes no room.
        image.floor = if maker.random.percent(75) { maker.random.between(1, 8) as u64 } else { 0 };
        maker.push(Call::Restore { image: image.write() });
    } else {
        maker.fill(which);
    }
    for _ in 0..maker.random.between(2, 6) {
        maker.grow();
    }
    // What a collection drops is free at once.
    if maker.random.percent(45) {
        maker.collect_some();
        for _ in 0..maker.random.between(2, 8) {
            maker.grow();
        }
    }
    some_calls(maker, 2, 8);
    maker.look();
    if maker.random.percent(60) {
        let past = *maker.random.pick(&[0, 1]);
        let image = room::beside_room(&mut maker.random, which, past);
        let mut image = if past == 1 && maker.random.percent(75) { at_fault(maker, image) } else { image };
        image.defaults.reverse();
        maker.push(Call::Restore { image: image.write() });
        maker.look();
    }
}

/// All four rooms full and calls on them, images beyond, or old ones of that length.
fn large(maker: &mut Maker) {
    if maker.ops.has(36) && (maker.ops.without_store() || maker.random.percent(50)) {
        return maker.converted_large();
    }
    if maker.random.percent(50) {
        let image = room::all_full(&mut maker.random);
        maker.push(Call::Restore { image: image.write() });
        maker.look();
        maker.write_and_restore();
        some_calls(maker, 2, 6);
    } else {
        let entries = *maker.random.pick(&[257, 1025, 3000, 6000]);
        let mut image = room::far_beyond(&mut maker.random, entries);
        if maker.random.percent(60) {
            image = at_fault(maker, image);
        }
        maker.push(Call::Restore { image: image.write() });
        maker.look();
    }
}

/// A fault in the last entry, sick at any place, or with a lock by its floor: 13 goes before 11.
fn at_fault(maker: &mut Maker, mut image: Image) -> Image {
    match maker.random.below(10) {
        0..3 => return with_last_fault(image),
        3..7 if !image.locks.is_empty() => faults::floored(&mut maker.random, &mut image),
        _ => faults::sick(&mut maker.random, &mut image),
    }
    image
}

/// A fault in the last entry.
fn with_last_fault(mut image: Image) -> Image {
    if let Some((key, ..)) = image.writes.last_mut() {
        key[0] ^= 1;
    } else if let Some((_, lock)) = image.locks.last_mut() {
        lock.time_to_live = 0;
    } else if let Some((_, start, _)) = image.defaults.last_mut() {
        *start = 0;
    }
    image
}

//! The cases: for each box and kind of call, the image and the calls of one turn.

use generate::AWAITED;
use paper::page::Bounds;
use paper::store::{Bytes, Kind};
use paper::trace::{Call, LONG_BUFFER, write_trace};

use crate::boxes::{
    BETWEEN, COMMIT, FULL, LOCKED, MOMENT, SEASON, START, Size, TABLE, TIME_TO_LIVE, TRANSACTION, image, key, missing,
    row,
};

/// A turn makes a call at so many keys.
const KEYS: usize = 32;
/// A turn makes so many one-step batches, each above the one before.
const BATCHES: u64 = 4;
const BATCH: usize = 32;
const PAGE: u64 = 50;
/// The longest buffer that a trace can lend, and a byte limit that no page reaches.
const BUFFER: u16 = 65_535;
const BYTES: u64 = 1_000_000;

/// How a turn makes its calls: each alone, or each prewrite with its commit after it.
pub const ALONE: u8 = 1;
pub const PAIRS: u8 = 2;

pub struct Case {
    pub name: &'static str,
    pub size: Size,
    pub image: Bytes,
    pub calls: Vec<Call>,
    pub way: u8,
}

impl Case {
    /// Does crates/bench have the call?
    pub fn in_program(&self) -> bool {
        self.calls.iter().all(|call| !AWAITED.contains(&call.op()))
    }

    /// Does mvcc.rs have the call? It has no collection.
    pub fn in_rust(&self) -> bool {
        self.calls.iter().all(|call| !matches!(call, Call::Collect { .. }))
    }

    /// What the Rust's turns read: turns, how the calls are made (0: not at all), the image, and the trace.
    pub fn rust_input(&self, turns: u64, made: bool) -> Bytes {
        self.input(turns, if made { self.way } else { 0 }, &write_trace(&self.calls))
    }

    /// What crates/bench reads: turns, the kind of call, the image, and the calls in the program's own form.
    pub fn program_input(&self, turns: u64, made: bool) -> Bytes {
        let kind = kind_of(self.way, &self.calls[0]);
        let none = if kind < COPIED || WRITTEN <= kind { 0 } else { COPIED };
        let calls: Vec<Bytes> = self.calls.iter().map(asked).collect();
        self.input(turns, if made { kind } else { none }, &calls.concat())
    }

    fn input(&self, turns: u64, kind: u8, calls: &[u8]) -> Bytes {
        let mut input = turns.to_be_bytes().to_vec();
        input.push(kind);
        input.extend_from_slice(&(self.image.len() as u32).to_be_bytes());
        input.extend_from_slice(&self.image);
        input.extend_from_slice(calls);
        input
    }
}

/// From this kind on a call of crates/bench is made on a copy of the area; this one is the copy alone.
const COPIED: u8 = 4;

/// From this kind on it is not: the kinds of an image written and of a collection, which leave the area as it was.
const WRITTEN: u8 = 11;
const COLLECTED: u8 = 12;

/// The kind of call, as crates/bench numbers it (its ways.rt).
fn kind_of(way: u8, call: &Call) -> u8 {
    match call {
        Call::Read { .. } => 1,
        Call::Page { .. } => 2,
        Call::Statistics => 3,
        Call::Prewrite { .. } if way == PAIRS => 7,
        Call::Prewrite { .. } => 5,
        Call::Commit { .. } => 6,
        Call::Rollback { .. } => 8,
        Call::OneStep { .. } => 9,
        Call::Restore { .. } => 10,
        Call::WriteImage { .. } => WRITTEN,
        Call::Collect { .. } => COLLECTED,
        _ => panic!("crates/bench has no such call"),
    }
}

/// A call's arguments in the form of crates/bench (its asked.rt). A commit is one above its start, a restore takes the
/// image of the input.
fn asked(call: &Call) -> Bytes {
    let none: &[u8] = &[];
    let (numbers, parts) = match call {
        Call::Read { moment, key } => ([*moment, 0, 0], [none, key, none]),
        Call::Page { moment, row_limit, bounds, .. } => {
            ([*moment, *row_limit, 0], [none, bounds.start.as_deref().unwrap_or(none), none])
        }
        Call::Prewrite { transaction, start, time_to_live, primary, key, row, .. } => {
            ([*transaction, *start, *time_to_live], [&primary[..], key, row])
        }
        Call::Commit { transaction, start, commit, key } if *commit == start + 1 => {
            ([*transaction, *start, 0], [none, key, none])
        }
        Call::Rollback { transaction, start, key } => ([*transaction, *start, 0], [none, key, none]),
        Call::OneStep { transaction, start, commit, batch } if *commit == start + 1 => {
            ([*transaction, *start, 0], [none, none, batch])
        }
        Call::Restore { .. } | Call::Statistics => ([0; 3], [none; 3]),
        Call::WriteImage { table, .. } => ([u64::from(*table), 0, 0], [none; 3]),
        Call::Collect { floor } => ([*floor, 0, 0], [none; 3]),
        _ => panic!("crates/bench has no such call"),
    };
    let mut bytes = numbers.map(u64::to_be_bytes).concat();
    parts.iter().for_each(|part| bytes.extend_from_slice(&(part.len() as u16).to_be_bytes()));
    parts.iter().for_each(|part| bytes.extend_from_slice(part));
    bytes
}

/// What is made for a call, each on what the one before left: the call alone, or a prewrite and its commit.
pub fn made_for(way: u8, call: &Call) -> Vec<Call> {
    match call {
        Call::Prewrite { transaction, start, key, .. } if way == PAIRS => {
            let commit = Call::Commit { transaction: *transaction, start: *start, commit: start + 1, key: key.clone() };
            vec![call.clone(), commit]
        }
        _ => vec![call.clone()],
    }
}

/// Every case of a box.
pub fn cases(size: Size) -> Vec<Case> {
    let places = size.spread(KEYS);
    let plain = image(size, &[]);
    let locked = image(size, &places);
    let at = |call: &dyn Fn(usize) -> Call| places.iter().map(|&place| call(place)).collect::<Vec<_>>();
    let starts = (0..4).map(|part| part * size.keys.saturating_sub(PAGE as usize) / 4);
    let case = |name, image: &Bytes, calls| Case { name, size, image: image.clone(), calls, way: ALONE };
    vec![
        case("read, a row", &plain, at(&|place| Call::Read { moment: MOMENT, key: key(place) })),
        case("read, missing key", &plain, at(&|place| Call::Read { moment: MOMENT, key: missing(place) })),
        case("page of 50 rows", &plain, starts.map(|start| page(PAGE, Some(key(start)))).collect()),
        case("page, everything", &plain, vec![page(u64::from(u32::MAX), None)]),
        case("prewrite", &plain, at(&|place| prewrite(place, &places))),
        case("commit", &locked, at(&|place| commit(place))),
        Case { way: PAIRS, ..case("prewrite and commit", &plain, at(&|place| prewrite(place, &places))) },
        case("rollback", &locked, at(&|place| rollback(place))),
        case("one-step, 32 keys", &plain, (0..BATCHES).map(|number| one_step(size, 2 * number)).collect()),
        case("restore", &plain, vec![Call::Restore { image: plain.clone() }]),
        case("statistics", &plain, vec![Call::Statistics]),
        case("write the image", &plain, vec![written()]),
    ]
}

/// The image of a box with all four rooms full, written.
pub fn full_box() -> Case {
    let image = image(FULL, &FULL.spread(LOCKED));
    assert_eq!(image.len(), 86_290, "the longest image");
    Case { name: "write the image, full box", size: FULL, image, calls: vec![written()], way: ALONE }
}

/// A season's box, collected up to a floor that drops none of it and up to one that drops half, each time from the full
/// box; and its statistics beside.
pub fn season() -> Vec<Case> {
    let image = image(SEASON, &[]);
    let case = |name, call| Case { name, size: SEASON, image: image.clone(), calls: vec![call], way: ALONE };
    vec![
        case("collection, nothing dropped", Call::Collect { floor: BETWEEN }),
        case("collection, half dropped", Call::Collect { floor: MOMENT }),
        case("statistics, full box", Call::Statistics),
    ]
}

fn written() -> Call {
    Call::WriteImage { table: TABLE, buffer: LONG_BUFFER }
}

fn page(row_limit: u64, start: Option<Bytes>) -> Call {
    let bounds = Bounds { start, end: None, resume: None };
    Call::Page { moment: MOMENT, row_limit, byte_limit: BYTES, bounds, buffer: BUFFER }
}

fn prewrite(place: usize, places: &[usize]) -> Call {
    Call::Prewrite {
        transaction: TRANSACTION,
        start: START,
        time_to_live: TIME_TO_LIVE,
        kind: Kind::Put,
        primary: key(places[0]),
        key: key(place),
        row: row(place + 1),
    }
}

fn commit(place: usize) -> Call {
    Call::Commit { transaction: TRANSACTION, start: START, commit: COMMIT, key: key(place) }
}

fn rollback(place: usize) -> Call {
    Call::Rollback { transaction: TRANSACTION, start: START, key: key(place) }
}

/// Puts at 32 keys: keys of the box, spread, and where it has fewer, new ones between them.
fn one_step(size: Size, above: u64) -> Call {
    let mut keys: Vec<Bytes> = size.spread(BATCH).into_iter().map(key).collect();
    keys.extend((0..BATCH - keys.len()).map(missing));
    keys.sort();
    let mut batch = (keys.len() as u16).to_be_bytes().to_vec();
    for (number, key) in keys.iter().enumerate() {
        let row = row(number);
        batch.push(key.len() as u8);
        batch.extend_from_slice(key);
        batch.extend_from_slice(&[1, row.len() as u8]);
        batch.extend_from_slice(&row);
    }
    Call::OneStep { transaction: TRANSACTION, start: START + above, commit: COMMIT + above, batch }
}

//! Single forms of prewrite, commit and rollback with keys and rows of the lengths at which a batch's length byte ends.

use paper::store::{Bytes, Kind};
use paper::trace::Call;

use crate::maker::Maker;
use crate::random::Random;
use crate::rows::{SMALLEST, row_of};

/// Lengths of keys and rows: none, the most that a length byte can say, and beyond.
pub const LENGTHS: [usize; 5] = [0, 255, 256, 300, 600];

impl Maker {
    /// A prewrite, commit or rollback of a single key, as in any trace; three in ten have a key or row of odd length.
    pub fn single_form(&mut self) {
        let drawn: Vec<u8> = [6, 6, 8, 10].into_iter().filter(|op| self.ops.has(*op)).collect();
        let faulty = self.random.percent(12);
        let mut call = match *self.random.pick(&drawn) {
            6 => self.prewrite(6, faulty),
            8 => self.commit(8, faulty),
            _ => self.rollback(10, faulty),
        };
        if self.random.percent(30) {
            lengthen(&mut self.random, &mut call);
        }
        self.push(call);
    }
}

fn lengthen(random: &mut Random, call: &mut Call) {
    match call {
        Call::Prewrite { row, .. } if random.percent(60) => *row = odd_row(random, row),
        Call::Prewrite { primary: key, .. } if random.percent(15) => *key = odd_key(random, key),
        Call::Prewrite { key, .. } | Call::Commit { key, .. } | Call::Rollback { key, .. } => {
            *key = odd_key(random, key)
        }
        _ => {}
    }
}

/// A key of one of the lengths, or 256 bytes longer than this one, so that a length byte would say the same.
fn odd_key(random: &mut Random, key: &[u8]) -> Bytes {
    if random.percent(25) { longer(key) } else { key_of(*random.pick(&LENGTHS)) }
}

/// A row of one of the lengths whose sections read, a row of 255 bytes with others behind it, or one that is 256 bytes
/// longer than this one.
fn odd_row(random: &mut Random, row: &[u8]) -> Bytes {
    match random.below(4) {
        0 => longer(row),
        1 => followed(*random.pick(&[256, 300, 600])),
        _ => sections(*random.pick(&LENGTHS)),
    }
}

fn longer(bytes: &[u8]) -> Bytes {
    [bytes, &[b'n'; 256]].concat()
}

/// A key of table 1; its first 44 bytes alone would be one in form.
fn key_of(length: usize) -> Bytes {
    let mut key = vec![0, 0, 0, 1];
    key.resize(length.max(4), b'n');
    key.truncate(length);
    key
}

/// A row in form of 255 bytes, then more.
fn followed(length: usize) -> Bytes {
    let mut row = row_of(255);
    row.resize(length, 0);
    row
}

/// No integers, as many texts as fill the length, each of its own length byte and at most 255 more, and no bones.
fn sections(length: usize) -> Bytes {
    if length < 3 {
        return Bytes::new();
    }
    let texts: Vec<usize> = (0..length - 3).step_by(256).map(|at| (length - 3 - at).min(256)).collect();
    let mut row = vec![0, texts.len() as u8];
    for text in texts {
        row.push((text - 1) as u8);
        row.resize(row.len() + text - 1, b's');
    }
    row.push(0);
    row
}

/// The cases of the fixed sample: every length as a key and as a row, alone and behind other faults, and the store after.
pub fn cases() -> Vec<(&'static str, Vec<Call>)> {
    vec![("keys of odd lengths", odd_keys()), ("rows of odd lengths", odd_rows())]
}

fn a() -> Bytes {
    vec![0, 0, 0, 1, b'a']
}

fn prewrite((transaction, start): (u64, u64), primary: Bytes, key: Bytes, kind: Kind, row: &[u8]) -> Call {
    Call::Prewrite { transaction, start, time_to_live: 1, kind, primary, key, row: row.to_vec() }
}

/// Beside a lock of the key that a wrapped length would name.
fn odd_keys() -> Vec<Call> {
    let (start, commit) = (10, 12);
    let mut calls = vec![prewrite((7, start), a(), a(), Kind::Put, &SMALLEST)];
    for key in LENGTHS.into_iter().map(key_of).chain([longer(&a())]) {
        for transaction in [7, 0] {
            calls.push(prewrite((transaction, start), a(), key.clone(), Kind::Put, &SMALLEST));
            calls.push(Call::Commit { transaction, start, commit, key: key.clone() });
            calls.push(Call::Rollback { transaction, start, key: key.clone() });
        }
        calls.push(prewrite((7, start), key, a(), Kind::Put, &SMALLEST));
    }
    calls.push(Call::Statistics);
    calls
}

/// Behind a zero transaction, behind a primary and behind a key out of form, and then alone; what was taken is rolled back.
fn odd_rows() -> Vec<Call> {
    let read_well = LENGTHS.into_iter().map(sections);
    let others = [followed(256), followed(300), followed(600), longer(&SMALLEST), longer(&row_of(100))];
    let mut calls = Vec::new();
    let rows = read_well.chain(others).flat_map(|row| [(Kind::Put, row.clone()), (Kind::Delete, row)]);
    for (start, (kind, row)) in (10..).zip(rows) {
        calls.push(prewrite((0, start), a(), a(), kind, &row));
        calls.push(prewrite((7, start), vec![0], a(), kind, &row));
        calls.push(prewrite((7, start), a(), vec![0], kind, &row));
        calls.push(prewrite((7, start), a(), a(), kind, &row));
        calls.push(Call::Read { moment: start, key: a() });
        calls.push(Call::Rollback { transaction: 7, start, key: a() });
    }
    calls.push(Call::Statistics);
    calls
}

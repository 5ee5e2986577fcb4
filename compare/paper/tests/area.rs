//! The model of the area: the bytes that each call brings, the place for which it asks, and what packing leaves.

mod common;

use common::*;
use paper::area::{AREA, Area, laid, packed};
use paper::store::{Kind, Store};
use paper::trace::Call;

/// A store with its area, and the bytes of the Rollbacks that filled it.
#[derive(Default)]
struct Filled {
    store: Store,
    area: Area,
    keys: u16,
    rolled_back: usize,
}

impl Filled {
    /// The call is accepted: the bytes by which the top moved, or none if the area was packed anew.
    fn run(&mut self, call: &Call) -> Option<usize> {
        let gap = self.area.gap();
        let (answer, packed) = self.area.run(&mut self.store, call);
        assert_eq!(answer.number, 0, "{call:?}");
        (!packed).then(|| gap - self.area.gap())
    }

    /// Rolls back a new key of this length, 7 to 48; it is locked with the longest row before, if asked, where the top is even.
    /// It is so after if the length is.
    fn rollback(&mut self, length: usize, locked: bool) {
        self.keys += 1;
        let mut new = key(&self.keys.to_be_bytes());
        new.resize(length, b'n');
        if locked {
            let (start, kind, primary, row) = (1, Kind::Put, a(), [vec![0, 1, 251], vec![0; 252]].concat());
            let key = new.clone();
            let call = Call::Prewrite { transaction: TRANSACTION, start, time_to_live: 1, kind, primary, key, row };
            assert_eq!(self.run(&call), Some(length + 16 + 255 + 8 + 5), "an even stretch");
        }
        let odd = self.area.gap() % 2;
        assert_eq!(self.run(&rollback(new, 1)), Some(odd + length + 16));
        self.rolled_back += length + 16;
    }

    /// Uses the area up to just so many bytes before its end, 63 or more. Only the last stretch may be odd.
    fn close(&mut self, left: usize) {
        if self.area.gap() % 2 == 1 {
            self.rollback(8, false);
        }
        while self.area.gap() > left {
            match self.area.gap() - left {
                over @ ..=64 => self.rollback(over - 16, false),
                over @ ..=700 => self.rollback(((over - 24).min(64) - 16) / 2 * 2, false),
                _ => self.rollback(8, true),
            }
        }
        assert_eq!(self.area.gap(), left);
    }
}

fn key_batch(keys: [Vec<u8>; 2]) -> Vec<u8> {
    let [first, second] = keys;
    [vec![0, 2, 5], first, vec![5], second].concat()
}

fn commit_batch(keys: [Vec<u8>; 2], start: u64, commit: u64) -> Call {
    Call::CommitBatch { transaction: TRANSACTION, start, commit, batch: key_batch(keys) }
}

fn rollback_batch(keys: [Vec<u8>; 2], start: u64) -> Call {
    Call::RollbackBatch { transaction: TRANSACTION, start, batch: key_batch(keys) }
}

/// The stretches of keys of 5 bytes, rows of 3 and a primary of 5. Those of a lock and of a Rollback are odd.
const LOCK: usize = 5 + 16 + 3 + 8 + 5;
const PUT: usize = 5 + 16 + 3;
const ROLLBACK: usize = 5 + 16;

#[test]
fn each_call_brings_its_stretches() {
    let mut all = Filled::default();
    assert_eq!(all.run(&prewrite(a(), 10)), Some(LOCK));
    assert_eq!(all.run(&prewrite(a(), 10)), Some(0), "a replay");
    assert_eq!(all.run(&prewrite_batch(&[a(), b()], 10)), Some(1 + LOCK), "one of two is new, from an even byte on");
    assert_eq!(all.run(&commit(a(), 10, 12)), Some(1 + PUT));
    assert_eq!(all.run(&commit(a(), 10, 12)), Some(0), "a replay");
    assert_eq!(all.run(&commit_batch([a(), b()], 10, 12)), Some(PUT), "one of two is new");
    assert_eq!(all.run(&rollback(a(), 13)), Some(ROLLBACK));
    assert_eq!(all.run(&rollback_batch([a(), b()], 13)), Some(1 + ROLLBACK), "one of two is new");
    assert_eq!(all.run(&rollback_batch([a(), b()], 13)), Some(0), "a replay");
    assert_eq!(all.run(&one_step(&[a(), b()], 14, 15)), Some(1 + 2 * PUT));
    assert_eq!(all.run(&one_step(&[a(), b()], 14, 15)), Some(0), "a replay");
    assert_eq!(all.run(&read(a(), 20)), Some(0));
    let gap = all.area.gap();
    assert_eq!(all.area.run(&mut all.store, &prewrite(a(), 14)).0.number, 8);
    assert_eq!(all.area.gap(), gap, "a refused call leaves the area");
    let (answer, packed) = all.area.run(&mut all.store, &restore(&image_of_lines(100, 3)));
    assert_eq!((answer.number, packed), (0, false));
    assert_eq!(AREA - all.area.gap(), 100 * (6 + 16) + 3 * (7 + 16 + 8 + 5));
}

/// A call packs the area if that lacks one byte of what the longest entries would need. Then what stands is left, the locks
/// that the call ends among it, and what the call brings.
#[test]
fn each_call_asks_for_the_longest() {
    let (c, d) = (|| key(b"c"), || key(b"d"));
    for (asked, brought, call) in [
        (376, &[LOCK][..], prewrite(b(), 10)),
        (2 * 376, &[LOCK], prewrite_batch(&[a(), b()], 10)),
        (320, &[PUT], commit(a(), 10, 12)),
        (2 * 320, &[PUT, PUT], commit_batch([a(), c()], 10, 12)),
        (65, &[ROLLBACK], rollback(a(), 10)),
        (2 * 65, &[ROLLBACK, ROLLBACK], rollback_batch([b(), d()], 13)),
        (2 * 320, &[PUT, PUT], one_step(&[a(), c()], 10, 12)),
    ] {
        for (left, packs) in [(asked, false), (asked - 1, true)] {
            let mut filled = Filled::default();
            filled.run(&prewrite_batch(&[a(), c()], 10));
            filled.close(left);
            assert_eq!(filled.run(&call).is_none(), packs, "{left} bytes left for {call:?}");
            let top = if packs { packed(&[2 * (LOCK + 1) + filled.rolled_back]) } else { AREA - left };
            assert_eq!(AREA - filled.area.gap(), laid(top, brought), "{call:?}");
        }
    }
}

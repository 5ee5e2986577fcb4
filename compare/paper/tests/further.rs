//! "Further cases run and are compared", through the trace form.

mod common;

use common::*;
use paper::answer::{IMAGE, KEY, NO_ROOM, ZERO};
use paper::restore::{Image, RawLock, RawRecord};
use paper::store::Store;
use paper::trace::Call;

/// "1,023 lines, at most 200 locks, bytes far from full, prewrite of two keys 11, of one 0, and its commit 0".
#[test]
fn lines_at_the_room() {
    for locks in [0, 1, 200] {
        let image = image_of_lines(1023 - locks, locks);
        let calls = [
            restore(&image),
            prewrite_batch(&[a(), b()], 10),
            prewrite_batch(&[a()], 10),
            commit(a(), 10, 12),
            read(a(), 12),
            prewrite(b(), 13),
        ];
        assert_eq!(numbers(&calls), [0, NO_ROOM, 0, 0, 0, NO_ROOM], "with {locks} locks");
        assert_eq!(shown(&last(&calls[..5])), Some(ROW.to_vec()));
    }
}

/// "start 2^64 - 1 can be rolled back and never committed".
#[test]
fn the_last_start() {
    let calls = [
        prewrite(a(), u64::MAX),
        commit(a(), u64::MAX, u64::MAX),
        commit(a(), u64::MAX, 0),
        commit(a(), u64::MAX, 1),
        one_step(&[a()], u64::MAX, u64::MAX),
        rollback(a(), u64::MAX),
        rollback(a(), u64::MAX),
        Call::Marks,
    ];
    assert_eq!(numbers(&calls), [0, ZERO, ZERO, ZERO, ZERO, 0, 0, 0]);
    assert_eq!(last(&calls).payload, [[0; 8], [0xFF; 8]].concat());
}

/// "keys of 4, 5, 48, 49 bytes": in every call that takes a key.
#[test]
fn key_lengths() {
    for (length, expected) in [(4, KEY), (5, 0), (48, 0), (49, KEY)] {
        let name = vec![b'k'; length - 4];
        let of = || key(&name);
        assert_eq!(numbers(&[read(of(), 1)]), [expected], "read of {length}");
        assert_eq!(numbers(&[Call::OneIntent { moment: 1, key: of() }]), [expected], "one intent of {length}");
        let calls = [prewrite(of(), 10), prewrite_batch(&[of()], 10), rollback(of(), 10)];
        assert_eq!(numbers(&calls), [expected; 3], "prewrites and rollback of {length}");
        assert_eq!(numbers(&[prewrite(of(), 10), commit(of(), 10, 11)]), [expected; 2], "commit of {length}");
        assert_eq!(numbers(&[one_step(&[of()], 10, 11)]), [expected], "one-step of {length}");
    }
}

/// A section's count has 2 bytes: 65,535 entries in each are read, judged, and refused for room alone.
#[test]
fn the_longest_sections() {
    let mut image = Image { table: 1, ..Image::default() };
    for number in 0..u16::MAX {
        let name = key(&number.to_be_bytes());
        let lock = RawLock { transaction: 9, primary: a(), start: 2, time_to_live: 1, kind: 2 };
        image.defaults.push((name.clone(), 1, ROW.to_vec()));
        image.locks.push((name.clone(), lock));
        image.writes.push((name, 3, RawRecord { start: 1, commit: 3, kind: 1 }));
    }
    let mut store = Store::default();
    assert_eq!(store.restore(&image.write()).map_err(|refusal| refusal.number), Err(NO_ROOM));
    // The last write's default is missing: 13 goes before 11.
    image.defaults.pop();
    assert_eq!(store.restore(&image.write()).map_err(|refusal| refusal.number), Err(IMAGE));
    assert_eq!(store, Store::default(), "a refusal changes nothing");
}

//! The floor (change request 7): what a collection keeps, its refusals, 14 and its place among the refusals, and the floor in
//! images. The readings are those of docs/DECISIONS.md.

mod common;

use common::*;
use paper::answer::{BELOW_FLOOR, Holder, IMAGE, LOCKED};
use paper::page::Bounds;
use paper::restore::{Image, RawLock, RawRecord};
use paper::run::run_call;
use paper::store::{Kind, Store};
use paper::trace::Call;

const LAST: u64 = u64::MAX;

fn collect(floor: u64) -> Call {
    Call::Collect { floor }
}

fn delete(key: Vec<u8>, start: u64, commit: u64) -> Call {
    let batch = [&[0, 1, key.len() as u8][..], &key, &[2]].concat();
    Call::OneStep { transaction: TRANSACTION, start, commit, batch }
}

fn lock(key: Vec<u8>, transaction: u64, start: u64) -> Call {
    let (kind, primary) = (Kind::Delete, a());
    Call::Prewrite { transaction, start, time_to_live: 9, kind, primary, key, row: vec![] }
}

/// The store after the calls, none of which may be refused.
fn store(calls: &[Call]) -> Store {
    let mut store = Store::default();
    calls.iter().for_each(|call| assert_eq!(run_call(&mut store, call).number, 0, "{call:?}"));
    store
}

/// The stamps of key a's records, and the starts of its rows.
fn left(calls: &[Call]) -> (Vec<u64>, Vec<u64>) {
    let store = store(calls);
    let rows = store.defaults.get(&a()).into_iter().flat_map(|chain| chain.keys().copied()).collect();
    (store.records_of(&a()).map(|(stamp, _)| stamp).collect(), rows)
}

fn put(start: u64, commit: u64) -> Call {
    one_step(&[a()], start, commit)
}

/// "of records stamped at or below F keep the newest that is not a Rollback, if it is a Put, and drop the rest with their
/// rows".
#[test]
fn what_stays() {
    let chain = || [put(1, 2), rollback(a(), 3), put(4, 5), rollback(a(), 6), delete(a(), 7, 8), put(9, 10)].to_vec();
    let then = |floor| left(&[chain(), vec![collect(floor)]].concat());
    assert_eq!(then(0), (vec![2, 3, 5, 6, 8, 10], vec![1, 4, 9]));
    assert_eq!(then(1), (vec![2, 3, 5, 6, 8, 10], vec![1, 4, 9]));
    assert_eq!(then(2), (vec![2, 3, 5, 6, 8, 10], vec![1, 4, 9]));
    assert_eq!(then(3), (vec![2, 5, 6, 8, 10], vec![1, 4, 9]));
    assert_eq!(then(4), (vec![2, 5, 6, 8, 10], vec![1, 4, 9]));
    assert_eq!(then(5), (vec![5, 6, 8, 10], vec![4, 9]));
    assert_eq!(then(7), (vec![5, 8, 10], vec![4, 9]));
    assert_eq!(then(8), (vec![10], vec![9]));
    assert_eq!(then(9), (vec![10], vec![9]));
    assert_eq!(then(LAST), (vec![10], vec![9]));
    // "if it is a Put": else all go, and the key with them.
    assert_eq!(left(&[put(1, 2), delete(a(), 3, 4), collect(5)]), (vec![], vec![]));
    assert_eq!(left(&[rollback(a(), 1), rollback(a(), 3), collect(5)]), (vec![], vec![]));
    let emptied = store(&[put(1, 2), delete(a(), 3, 4), collect(5)]);
    assert_eq!(emptied, Store { floor: 5, ..Store::default() });
    // Locks above the floor and their rows stay; so does a record of a low start and a stamp above.
    let beside = store(&[put(1, 2), prewrite(a(), 9), one_step(&[b()], 3, 12), collect(8)]);
    assert_eq!((beside.locks.len(), beside.defaults[&a()].len(), beside.records.len()), (1, 2, 2));
}

/// "for each key", of every table.
#[test]
fn every_key_of_every_table() {
    let keys: Vec<Vec<u8>> =
        [1, 2, 256, u32::MAX].iter().map(|table: &u32| [&table.to_be_bytes()[..], b"k"].concat()).collect();
    let calls = [one_step(&keys, 1, 2), one_step(&keys, 3, 4), collect(4)];
    let store = store(&calls);
    assert!(keys.iter().all(|key| store.records[key].len() == 1 && store.defaults[key].contains_key(&3)));
}

/// "14 [..] for a collection with a lower floor, tested first"; an equal one is made again, 0 and the last are floors.
#[test]
fn lower_equal_and_last_floors() {
    let calls = [
        collect(0),
        collect(5),
        collect(5),
        collect(4),
        collect(0),
        collect(6),
        collect(LAST),
        collect(LAST),
        collect(LAST - 1),
    ];
    assert_eq!(numbers(&calls), [0, 0, 0, BELOW_FLOOR, BELOW_FLOOR, 0, 0, 0, BELOW_FLOOR]);
    // From the last floor on no start is above it, and the last moment alone can be read.
    let last = [collect(LAST), rollback(a(), LAST), read(a(), LAST), read(a(), LAST - 1)];
    assert_eq!(numbers(&last), [0, BELOW_FLOOR, 0, BELOW_FLOOR]);
    // "it drops lines" but counts none, and the marks are of what stands.
    let dropped = answers(&[rollback(a(), 5), collect(5), Call::Marks, Call::Statistics]);
    assert!(dropped.iter().all(|answer| answer.number == 0 && answer.count == 0));
    assert!(dropped[1].payload.is_empty() && dropped[2].payload == [0; 16] && dropped[3].payload == [0; 120]);
}

/// "a collection with a lock at or below F answers 7 for the first such key", and changes nothing.
#[test]
fn locks() {
    let before = [put(1, 2), lock(b(), 8, 3), lock(a(), 9, 4)];
    let then = |floor| last(&[&before[..], &[collect(floor)]].concat());
    let holder = |transaction, start| Holder { transaction, start, time_to_live: 9, kind: 2 };
    assert_eq!((then(5).number, then(5).holder), (LOCKED, holder(9, 4)));
    assert_eq!((then(4).number, then(4).holder), (LOCKED, holder(9, 4)));
    assert_eq!((then(3).number, then(3).holder), (LOCKED, holder(8, 3)));
    assert_eq!((then(2).number, then(2).holder), (0, Holder::default()));
    let mut refused = store(&before);
    assert_eq!(run_call(&mut refused, &collect(5)).number, LOCKED);
    assert_eq!(refused, store(&before));
}

/// "in a read after 1, in a page after the resume key's 1", and before a resume at or past end is looked at.
#[test]
fn moments() {
    let before = [put(1, 2), put(3, 4), collect(5)];
    let number = |call: Call| last(&[&before[..], &[call]].concat()).number;
    assert_eq!([4, 5, 6].map(|moment| number(read(a(), moment))), [BELOW_FLOOR, 0, 0]);
    assert_eq!(number(read(a()[..4].to_vec(), 4)), 1);
    assert_eq!(number(read(b(), 0)), BELOW_FLOOR);
    let page = |moment, row_limit, start: Option<Vec<u8>>, end: Option<Vec<u8>>, resume: Option<Vec<u8>>, buffer| {
        number(Call::Page { moment, row_limit, byte_limit: 1, bounds: Bounds { start, end, resume }, buffer })
    };
    let short = || Some(a()[..4].to_vec());
    assert_eq!(page(4, 0, None, None, None, 9), 3);
    assert_eq!(page(4, 1, short(), None, None, 9), 1);
    assert_eq!(page(4, 1, None, short(), None, 9), 1);
    assert_eq!(page(4, 1, Some(b()), Some(a()), None, 9), 4);
    assert_eq!(page(4, 1, None, None, short(), 9), 1);
    assert_eq!(page(4, 1, None, Some(a()), Some(a()), 9), BELOW_FLOOR);
    assert_eq!(page(4, 1, None, None, None, 0), BELOW_FLOOR);
    assert_eq!(page(5, 1, None, None, None, 0), 10);
    assert_eq!(page(5, 1, None, Some(a()), Some(a()), 3), 0);
    // Pages of locks and one intent have no 14.
    let bounds = Bounds::default();
    assert_eq!(
        number(Call::Conflicting { moment: 3, lock_limit: 1, byte_limit: 1, bounds: bounds.clone(), buffer: 3 }),
        0
    );
    assert_eq!(number(Call::IntentPage { lock_limit: 1, bounds, buffer: 3 }), 0);
    assert_eq!(number(Call::OneIntent { moment: 3, key: a() }), 0);
}

/// "Reads and pages at moments at or above F answer as before; the record counts of CR 6 may fall."
#[test]
fn reads_at_or_above_the_floor_answer_as_before() {
    let before = [put(1, 2), rollback(a(), 3), put(4, 5), rollback(a(), 6), delete(b(), 1, 3), one_step(&[b()], 6, 9)];
    for floor in 0..12 {
        for moment in floor..14 {
            for key in [a(), b()] {
                let plain = last(&[&before[..], &[read(key.clone(), moment)]].concat());
                let after = last(&[&before[..], &[collect(floor), read(key, moment)]].concat());
                assert_eq!((after.number, &after.payload), (0, &plain.payload), "floor {floor}, moment {moment}");
                assert!(after.count <= plain.count);
            }
            let page = |floor: Option<u64>| {
                last(
                    &[&before[..], &floor.map(collect).into_iter().collect::<Vec<_>>(), &[page(moment, 99, 60)]]
                        .concat(),
                )
            };
            assert_eq!(page(Some(floor)), page(None), "floor {floor}, moment {moment}");
        }
    }
}

/// "for a start at or below F in any changing call (after the last 3, in a prewrite after the time to live, and before any
/// entry is judged)".
#[test]
fn starts() {
    let short = a()[..4].to_vec();
    let number = |call: Call| last(&[rollback(a(), 3), collect(5), call]).number;
    for start in [1, 4, 5] {
        assert_eq!(number(prewrite(short.clone(), start)), BELOW_FLOOR);
        assert_eq!(number(prewrite_batch(&[short.clone()], start)), BELOW_FLOOR);
        assert_eq!(number(commit(short.clone(), start, 9)), BELOW_FLOOR);
        assert_eq!(number(rollback(short.clone(), start)), BELOW_FLOOR);
        assert_eq!(number(one_step(&[short.clone()], start, 9)), BELOW_FLOOR);
        assert_eq!(number(one_step(&[], start, 9)), BELOW_FLOOR);
        assert_eq!(number(prewrite_batch(&[], start)), 5);
        assert_eq!(number(one_step(&[short.clone()], start, start)), 3);
        let with = |primary: &Vec<u8>, time_to_live| Call::Prewrite {
            transaction: 7,
            start,
            time_to_live,
            kind: Kind::Put,
            primary: primary.clone(),
            key: a(),
            row: vec![],
        };
        assert_eq!([number(with(&short, 0)), number(with(&a(), 0)), number(with(&a(), 1))], [1, 3, BELOW_FLOOR]);
    }
    assert_eq!([number(rollback(a(), 0)), number(prewrite(a(), 0)), number(one_step(&[a()], 0, 9))], [3; 3]);
    assert_eq!([number(rollback(a(), 6)), number(prewrite(a(), 6)), number(one_step(&[a()], 6, 9))], [0; 3]);
    assert_eq!([number(one_step(&[], 6, 9)), number(commit(a(), 6, 9))], [0, 8]);
}

/// A call that was accepted once is 14 when its start is at or below the floor, though its record was kept.
#[test]
fn replays() {
    let w2 = [prewrite(a(), 10), commit(a(), 10, 12)];
    let number = |floor, call: Call| last(&[&w2[..], &[collect(floor), call]].concat()).number;
    for (floor, expected) in [(9, 0), (10, BELOW_FLOOR), (12, BELOW_FLOOR)] {
        assert_eq!(number(floor, commit(a(), 10, 12)), expected);
        assert_eq!(number(floor, one_step(&[a()], 10, 12)), expected);
        assert_eq!(number(floor, read(a(), 12)), 0);
    }
    assert_eq!(
        numbers(&[rollback(a(), 5), collect(4), rollback(a(), 5), collect(5), rollback(a(), 5)]),
        [0, 0, 0, 0, BELOW_FLOOR]
    );
}

/// What a collection dropped is free at once.
#[test]
fn freed_room() {
    let full = image_of_lines(1024, 0);
    let calls = [restore(&full), rollback(a(), 5), collect(1), rollback(a(), 5), Call::Statistics];
    assert_eq!(numbers(&calls), [0, 11, 0, 0, 0]);
}

fn floored(floor: u64, locks: &[u64], records: &[(u64, u64, u8)]) -> Image {
    let lock = |(at, start): (usize, &u64)| {
        (key(&[b'l', at as u8]), RawLock { transaction: 7, primary: a(), start: *start, time_to_live: 1, kind: 2 })
    };
    let write = |(start, commit, kind): &(u64, u64, u8)| {
        (a(), *commit, RawRecord { start: *start, commit: *commit, kind: *kind })
    };
    let puts = records.iter().filter(|(_, _, kind)| *kind == 1);
    Image {
        table: 1,
        floor,
        defaults: puts.map(|(start, ..)| (a(), *start, ROW.to_vec())).collect(),
        locks: locks.iter().enumerate().map(lock).collect(),
        writes: records.iter().map(write).collect(),
    }
}

/// "a restored store taking the image's" floor, and "an image with such a lock is 13".
#[test]
fn images() {
    let number = |image: &Image| last(&[restore(image)]).number;
    assert_eq!([0, 4, 5, 6, LAST].map(|floor| number(&floored(floor, &[5], &[]))), [0, 0, IMAGE, IMAGE, IMAGE]);
    assert_eq!(number(&floored(5, &[9, 6, 5], &[])), IMAGE);
    assert_eq!(number(&floored(LAST, &[], &[(1, 2, 1), (3, 4, 1), (5, 5, 3)])), 0);
    assert_eq!(store(&[restore(&floored(9, &[12], &[(1, 2, 1)]))]).floor, 9);
    // The former floor goes, lower or higher; a refusal leaves it.
    for former in [1, 9, 40] {
        let calls = [
            collect(former),
            restore(&floored(9, &[12], &[(1, 2, 1)])),
            read(a(), 9),
            read(a(), 8),
            collect(8),
            collect(9),
        ];
        assert_eq!(numbers(&calls), [0, 0, 0, BELOW_FLOOR, BELOW_FLOOR, 0]);
    }
    let mut kept = store(&[collect(3)]);
    assert_eq!(run_call(&mut kept, &restore(&floored(9, &[9], &[]))).number, IMAGE);
    assert_eq!(kept.floor, 3);
    // What an image brings was not collected; an equal floor does it.
    let uncollected = [restore(&floored(9, &[], &[(3, 4, 2)])), collect(9)];
    assert_eq!([left(&uncollected[..1]).0, left(&uncollected).0], [vec![4], vec![]]);
    // An image without a floor is not in form.
    let old = Call::Restore { image: floored(0, &[5], &[]).write_old() };
    assert_eq!(numbers(&[collect(7), old, read(a(), 6)]), [0, IMAGE, BELOW_FLOOR]);
}

/// "stands in the image, 8 bytes, after the table number": of any table, the store's. Restoring what was written gives it.
#[test]
fn written_images() {
    let floor = 0x0102_0304_0506_0708;
    for table in [1, 2] {
        let answer = last(&[put(1, 2), collect(floor), Call::WriteImage { table, buffer: 99 }]);
        assert_eq!((answer.number, &answer.payload[..12]), (0, &[0, 0, 0, table as u8, 1, 2, 3, 4, 5, 6, 7, 8][..]));
        let image = answer.payload[..answer.count as usize].to_vec();
        let restored = store(&[Call::Restore { image }]);
        assert_eq!((restored.floor, restored.records.len()), (floor, usize::from(table == 1)));
    }
    let short = Call::WriteImage { table: 2, buffer: 17 };
    assert_eq!(numbers(&[collect(5), short, Call::WriteImage { table: 2, buffer: 18 }]), [0, 12, 0]);
}

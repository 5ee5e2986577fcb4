//! The count of a read (change request 6): the write records that it examined.

mod common;

use common::*;
use paper::run::run_call;
use paper::store::{Kind, Record, Store};
use paper::trace::Call;

/// The counts of reads of key a at these moments, after the calls.
fn counts(before: &[Call], moments: &[u64]) -> Vec<u64> {
    let count = |moment: &u64| last(&[before, &[read(a(), *moment)]].concat()).count;
    moments.iter().map(count).collect()
}

/// Put (10, 12), Rollbacks at 20 and 21, Delete (30, 32), Rollback at 40.
fn chain() -> Vec<Call> {
    let batch = [&[0, 1, 5][..], &a(), &[2]].concat();
    let delete = Call::OneStep { transaction: TRANSACTION, start: 30, commit: 32, batch };
    vec![prewrite(a(), 10), commit(a(), 10, 12), rollback(a(), 20), rollback(a(), 21), delete, rollback(a(), 40)]
}

/// "For an answer from a Put or Delete it is one more than the Rollbacks passed over".
#[test]
fn one_more_than_the_rollbacks() {
    assert_eq!(counts(&chain(), &[12, 19, 20, 21, 31]), [1, 1, 2, 3, 3], "from the Put");
    assert_eq!(counts(&chain(), &[32, 39, 40, u64::MAX]), [1, 1, 2, 2], "from the Delete");
}

/// "as does a key [..] with no record by the moment"; records above it are never examined.
#[test]
fn no_record_by_the_moment() {
    assert_eq!(counts(&chain(), &[0, 10, 11]), [0, 0, 0]);
    assert_eq!(counts(&[], &[1]), [0]);
}

/// Rollbacks alone: each was examined, although nothing is shown. W6, read.
#[test]
fn rollbacks_alone() {
    assert_eq!(counts(&[rollback(a(), 5)], &[4, 5, 6]), [0, 1, 1]);
    assert_eq!(counts(&[rollback(a(), 5), rollback(a(), 7)], &[6, 7]), [1, 2]);
}

/// "Other refusals still count 0", and a lock is no write record.
#[test]
fn a_lock_and_a_key_out_of_form() {
    let locked = [chain(), vec![prewrite(a(), 50)]].concat();
    assert_eq!(counts(&locked, &[49, 50]), [2, 0]);
    assert_eq!(last(&[read(vec![0], 1)]).count, 0);
}

/// A page counts its bytes, one intent nothing.
#[test]
fn other_calls_count_as_before() {
    let paged = last(&[chain(), vec![page(21, 8, 13)]].concat());
    assert_eq!((paged.number, paged.count), (0, 13));
    let intent = Call::OneIntent { moment: 50, key: a() };
    assert_eq!(last(&[prewrite(a(), 50), intent]).count, 0);
}

/// "the refusing one included": an unsound record, and a Put without its row. No store of ours has either.
#[test]
fn the_refusing_record_counts() {
    let mut store = Store::default();
    store.put_record(&a(), 9, Record { start: 9, commit: 9, kind: Kind::Rollback });
    store.put_record(&a(), 8, Record { start: 9, commit: 8, kind: Kind::Delete });
    store.put_record(&a(), 7, Record { start: 6, commit: 7, kind: Kind::Put });
    for (moment, expected) in [(9, 2), (8, 1), (7, 1), (6, 0)] {
        let answer = run_call(&mut store, &read(a(), moment));
        assert_eq!((answer.number, answer.count), (if moment > 6 { 9 } else { 0 }, expected), "at {moment}");
    }
}

//! The holder that answer 7 names (change request 9), in every call that can give it, and the bytes of an answer.

mod common;

use std::slice::from_ref;

use common::*;
use paper::answer::{Answer, Holder};
use paper::run::answers as answer_bytes;
use paper::store::Kind;
use paper::trace::{Call, write_trace};

/// Longer than 4 bytes can say.
const LONG: u64 = 0x0102_0304_0506_0708;

fn lock(key: Vec<u8>, time_to_live: u64, kind: Kind) -> Call {
    let row = if kind == Kind::Put { ROW.to_vec() } else { vec![] };
    Call::Prewrite { transaction: 9, start: 10, time_to_live, kind, primary: a(), key, row }
}

/// A Put lock of a and a Delete lock of b, both of transaction 9 and start 10.
fn two_locks() -> Vec<Call> {
    vec![lock(a(), 3, Kind::Put), lock(b(), LONG, Kind::Delete)]
}

fn of_a() -> Holder {
    Holder { transaction: 9, start: 10, time_to_live: 3, kind: 1 }
}

fn of_b() -> Holder {
    Holder { transaction: 9, start: 10, time_to_live: LONG, kind: 2 }
}

fn key_batch(keys: &[Vec<u8>]) -> Vec<u8> {
    let keys: Vec<u8> = keys.iter().flat_map(|key| [&[key.len() as u8], &key[..]].concat()).collect();
    [&[0, (keys.len() / 6) as u8][..], &keys].concat()
}

fn held(call: Call, holder: Holder) {
    let answer = last(&[two_locks(), vec![call.clone()]].concat());
    assert_eq!((answer.number, answer.holder, answer.count), (7, holder, 0), "{call:?}");
}

/// "Answer 7 shall carry, besides transaction and start, the lock's time to live and kind, in every call that can give it."
#[test]
fn every_call_names_the_lock() {
    for (of, holder) in [(a(), of_a()), (b(), of_b())] {
        held(read(of.clone(), 10), holder);
        held(read(of.clone(), u64::MAX), holder);
        held(prewrite(of.clone(), 12), holder);
        held(prewrite_batch(from_ref(&of), 12), holder);
        held(commit(of.clone(), 12, 13), holder);
        held(rollback(of.clone(), 12), holder);
        held(one_step(from_ref(&of), 12, 13), holder);
        let (transaction, start, commit) = (TRANSACTION, 12, 13);
        held(Call::CommitBatch { transaction, start, commit, batch: key_batch(from_ref(&of)) }, holder);
        held(Call::RollbackBatch { transaction, start, batch: key_batch(&[of]) }, holder);
    }
}

/// The first key that refuses is the one whose lock is named, whatever was passed before it.
#[test]
fn the_lock_is_that_of_the_key_that_refuses() {
    held(page(12, 100, 0), of_a());
    let after_a = paper::page::Bounds { resume: Some(a()), ..Default::default() };
    held(Call::Page { moment: 12, row_limit: 1, byte_limit: 100, bounds: after_a, buffer: 0 }, of_b());
    let early = key(&[1]);
    held(prewrite_batch(&[early.clone(), a(), b()], 12), of_a());
    held(prewrite_batch(&[early.clone(), b()], 12), of_b());
    held(one_step(&[early.clone(), b()], 12, 13), of_b());
    held(Call::RollbackBatch { transaction: 9, start: 12, batch: key_batch(&[early, b()]) }, of_b());
    // Own at a, another's at c.
    let c = key(b"c");
    let other = lock(c.clone(), 8, Kind::Delete);
    let commit = Call::CommitBatch { transaction: TRANSACTION, start: 12, commit: 13, batch: key_batch(&[a(), c]) };
    let answer = last(&[prewrite(a(), 12), other, commit]);
    assert_eq!((answer.number, answer.holder.time_to_live, answer.holder.kind), (7, 8, 2));
}

/// "Every other answer carries zeros there."
#[test]
fn other_answers_carry_zeros() {
    let own = Call::Prewrite {
        transaction: 9,
        start: 10,
        time_to_live: 4,
        kind: Kind::Put,
        primary: a(),
        key: a(),
        row: ROW.to_vec(),
    };
    for (number, call) in [
        (0, read(a(), 9)),
        (0, Call::OneIntent { moment: 10, key: a() }),
        (0, lock(a(), 3, Kind::Put)),
        (0, Call::Commit { transaction: 9, start: 10, commit: 11, key: b() }),
        (0, Call::Rollback { transaction: 9, start: 10, key: b() }),
        (9, own),
        (3, commit(a(), 10, 10)),
    ] {
        let answer = last(&[two_locks(), vec![call.clone()]].concat());
        assert_eq!((answer.number, answer.holder), (number, Holder::default()), "{call:?}");
    }
    let history = [rollback(a(), 5), lock(a(), 3, Kind::Put), prewrite(a(), 5)];
    assert_eq!((last(&history).number, last(&history).holder), (8, Holder::default()));
}

/// The head of every answer has 38 bytes, that of a trace not in form too.
#[test]
fn the_bytes_of_an_answer() {
    let mut bytes = Vec::new();
    answer_bytes(&write_trace(&[two_locks(), vec![read(b(), 10)]].concat()), &mut bytes);
    let eight = |number: u64| number.to_be_bytes().to_vec();
    let accepted = vec![0; 38];
    let read = [vec![7], eight(9), eight(10), eight(LONG), vec![2], eight(0), vec![0, 0, 0, 1], vec![0]].concat();
    assert_eq!(bytes, [&accepted[..], &accepted, &read].concat());
    let answers = Answer::read_all(&bytes).expect("the bytes are answers");
    assert_eq!((answers.len(), answers[2].holder, answers[2].payload.len()), (3, of_b(), 1));
    let mut damaged = Vec::new();
    answer_bytes(&[], &mut damaged);
    assert_eq!(damaged, [&[6][..], &[0; 37]].concat());
}

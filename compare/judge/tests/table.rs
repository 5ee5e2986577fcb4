//! W1 to W11 and document 01's further cases on mvcc.rs itself, with validate_mutation as shown and from 01: both say what
//! the paper says, but where a class of docs/DIFFERENCES.md is named.

#[path = "../../paper/tests/common/mod.rs"]
mod common;

use common::*;
use generate::named;
use judge::classes::{Class, Rust};
use judge::one::differences;
use judge::rust_side::{Outcome, Side, run_rust};
use paper::trace::Call;
use ragnor::engine::Engine;

/// What a Rust says to the last of these calls, from a fresh store of its own.
fn said<E: Engine>(calls: &[Call]) -> Outcome {
    let mut side = Side::<E>::default();
    calls.iter().map(|call| run_rust(&mut side, call)).last().expect("a case has calls")
}

/// The last of these calls: the paper's number, what both Rusts say, and the class if that differs. No other call differs.
fn case(name: &str, calls: &[Call], number: u8, expected: Outcome, class: Option<Class>) {
    assert_eq!(last(calls).number, number, "{name}: the paper");
    assert_eq!(said::<ragnor::shown::InMemoryMvcc>(calls), expected, "{name}: as shown");
    assert_eq!(said::<ragnor::from_paper::InMemoryMvcc>(calls), expected, "{name}: from 01");
    let found: Vec<_> = differences(calls).iter().map(|found| (found.rust, found.at, found.class)).collect();
    let known = |rust| class.map(|class| (rust, calls.len() - 1, Some(class)));
    let known: Vec<_> = [Rust::Shown, Rust::FromPaper].into_iter().filter_map(known).collect();
    assert_eq!(found, known, "{name}");
}

/// Both agree with the paper.
fn same(name: &str, calls: &[Call], number: u8, expected: Outcome) {
    case(name, calls, number, expected, None);
}

fn ok() -> Outcome {
    Outcome::Accepted { count: 0, payload: vec![] }
}

fn nothing() -> Outcome {
    Outcome::Accepted { count: 0, payload: vec![0] }
}

fn the_row() -> Outcome {
    Outcome::Accepted { count: 1, payload: [&[1], &ROW[..]].concat() }
}

fn then(before: &[Call], call: Call) -> Vec<Call> {
    [before, &[call]].concat()
}

#[test]
fn w1_to_w5_and_w8() {
    let w1 = vec![prewrite(a(), 10)];
    same("W1", &w1, 0, ok());
    same("W1 at 9", &then(&w1, read(a(), 9)), 0, nothing());
    same("W1 at 10", &then(&w1, read(a(), 10)), 7, Outcome::Held { transaction: 7, start: 10 });
    let w2 = then(&w1, commit(a(), 10, 12));
    same("W2", &w2, 0, ok());
    same("W2 at 11", &then(&w2, read(a(), 11)), 0, nothing());
    same("W2 at 12", &then(&w2, read(a(), 12)), 0, the_row());
    same("W3", &then(&w2, rollback(a(), 12)), 9, Outcome::CorruptData);
    same("W4", &then(&w2, rollback(a(), 10)), 8, Outcome::Conflict);
    case("W5 at 12", &then(&w2, prewrite(a(), 12)), 8, ok(), Some(Class::StampAtStart));
    same("W5 at 13", &then(&w2, prewrite(a(), 13)), 0, ok());
    let count = |count| Outcome::Accepted { count, payload: vec![] };
    same("W8 of a", &then(&w2, one_step(&[a()], 10, 12)), 0, count(1));
    same("W8 of a and b", &then(&w2, one_step(&[a(), b()], 10, 12)), 9, Outcome::CorruptData);
}

#[test]
fn w6_and_w7() {
    let w6 = vec![rollback(a(), 5)];
    let one_line = Outcome::Accepted { count: 0, payload: last(&then(&w6, Call::Statistics)).payload };
    same("W6", &w6, 0, ok());
    same("W6, one line", &then(&w6, Call::Statistics), 0, one_line.clone());
    let again = then(&w6, rollback(a(), 5));
    same("W6 again", &again, 0, ok());
    same("W6 again, same state", &then(&again, Call::Statistics), 0, one_line);
    same("W7", &then(&w6, prewrite(a(), 5)), 8, Outcome::Conflict);
}

#[test]
fn w9_to_w11() {
    let w2 = vec![prewrite(a(), 10), commit(a(), 10, 12)];
    let bytes = vec![0x00, 0x01, 0x05, 0x00, 0x00, 0x00, 0x01, 0x61, 0x03, 0x00, 0x00, 0x00, 0x00];
    same("W9", &then(&w2, page(12, 8, 13)), 0, Outcome::Accepted { count: 13, payload: bytes });
    same("W10", &then(&w2, page(12, 7, 13)), 10, Outcome::InvalidArgument);
    let held = Outcome::Held { transaction: 7, start: 12 };
    same("W11", &then(&then(&w2, prewrite(b(), 12)), page(12, 8, 13)), 7, held);
}

/// "1,023 lines, at most 200 locks, bytes far from full, prewrite of two keys 11, of one 0, and its commit 0".
#[test]
fn lines_at_the_room() {
    for locks in [0, 1, 200] {
        let full_but_one = vec![restore(&image_of_lines(1023 - locks, locks))];
        case("two keys", &then(&full_but_one, prewrite_batch(&[a(), b()], 10)), 11, ok(), Some(Class::Room));
        let one = then(&full_but_one, prewrite_batch(&[a()], 10));
        same("one key", &one, 0, ok());
        same("its commit", &then(&one, commit(a(), 10, 12)), 0, ok());
    }
}

/// "start 2^64 - 1 can be rolled back and never committed".
#[test]
fn the_last_start() {
    let locked = vec![prewrite(a(), u64::MAX)];
    same("the last start", &locked, 0, ok());
    for stamp in [u64::MAX, 0, 1] {
        same("never committed", &then(&locked, commit(a(), u64::MAX, stamp)), 3, Outcome::InvalidArgument);
        same("never in one step", &then(&locked, one_step(&[a()], u64::MAX, stamp)), 3, Outcome::InvalidArgument);
    }
    same("rolled back", &then(&locked, rollback(a(), u64::MAX)), 0, ok());
}

/// "keys of 4, 5, 48, 49 bytes".
#[test]
fn key_lengths() {
    for length in [4, 5, 48, 49] {
        let in_form = length == 5 || length == 48;
        let number = u8::from(!in_form);
        let expected = |accepted: Outcome| if in_form { accepted } else { Outcome::InvalidArgument };
        let of = || key(&vec![b'k'; length - 4]);
        same("read", &[read(of(), 1)], number, expected(nothing()));
        same("one intent", &[Call::OneIntent { moment: 1, key: of() }], number, expected(nothing()));
        same("prewrite", &[prewrite(of(), 10)], number, expected(ok()));
        same("prewrite of a batch", &[prewrite_batch(&[of()], 10)], number, expected(ok()));
        same("commit", &[prewrite(of(), 10), commit(of(), 10, 11)], number, expected(ok()));
        same("rollback", &[rollback(of(), 10)], number, expected(ok()));
        let one = Outcome::Accepted { count: 1, payload: vec![] };
        same("one-step", &[one_step(&[of()], 10, 11)], number, expected(one));
    }
}

/// The same cases as the sample has them: the classes that each meets, at which call.
#[test]
fn the_samples_named_cases() {
    for (name, calls) in named::cases() {
        let expected: &[(usize, Class)] = match name {
            "W5" => &[(2, Class::StampAtStart)],
            // The last call is a one-step batch onto the Rollback that came before it.
            "key lengths" if last(&calls).number == 8 => &[(5, Class::OneStepTaken)],
            "1,023 lines" => &[(1, Class::Room), (5, Class::Room)],
            "all four rooms full" => &[(2, Class::Room), (4, Class::Room), (5, Class::Room), (6, Class::SickImage)],
            _ => &[],
        };
        for rust in [Rust::Shown, Rust::FromPaper] {
            let found = differences(&calls);
            let mine = found.iter().filter(|found| found.rust == rust);
            let mine: Vec<_> = mine.map(|found| (found.at, found.class.expect("a class"))).collect();
            assert_eq!(mine, expected, "{name}, {rust:?}");
        }
    }
}

//! W1 to W11, the paper's table, through the trace form: "01's row cases gain that byte, so the byte limits of W9 and W10
//! become 8 and 7".

mod common;

use common::*;
use paper::answer::Holder;
use paper::trace::Call;

fn w1() -> Vec<Call> {
    vec![prewrite(a(), 10)]
}

fn w2() -> Vec<Call> {
    [w1(), vec![commit(a(), 10, 12)]].concat()
}

fn after(before: Vec<Call>, call: Call) -> paper::answer::Answer {
    last(&[before, vec![call]].concat())
}

#[test]
fn w1_prewrite_then_read() {
    assert_eq!(numbers(&w1()), [0]);
    assert_eq!(shown(&after(w1(), read(a(), 9))), None);
    let held = after(w1(), read(a(), 10));
    assert_eq!((held.number, held.holder), (7, Holder { transaction: 7, start: 10, time_to_live: 1, kind: 1 }));
    assert_eq!(held.payload, [0]);
}

#[test]
fn w2_commit_then_read() {
    assert_eq!(numbers(&w2()), [0, 0]);
    assert_eq!(shown(&after(w2(), read(a(), 11))), None);
    assert_eq!(shown(&after(w2(), read(a(), 12))), Some(ROW.to_vec()));
}

#[test]
fn w3_rollback_over_a_stamp() {
    assert_eq!(after(w2(), rollback(a(), 12)).number, 9);
}

#[test]
fn w4_rollback_of_committed() {
    assert_eq!(after(w2(), rollback(a(), 10)).number, 8);
}

#[test]
fn w5_prewrite_at_and_above_a_stamp() {
    assert_eq!(after(w2(), prewrite(a(), 12)).number, 8);
    assert_eq!(after(w2(), prewrite(a(), 13)).number, 0);
}

#[test]
fn w6_rollback_of_nothing_leaves_one_line() {
    let calls = [rollback(a(), 5), Call::Statistics, rollback(a(), 5), Call::Statistics];
    assert_eq!(numbers(&calls), [0, 0, 0, 0]);
    let all = answers(&calls);
    assert_eq!(all[1], all[3], "the second rollback changed the state");
    let lines: Vec<u64> = all[1].payload.chunks(8).map(|n| u64::from_be_bytes(n.try_into().unwrap())).collect();
    assert_eq!((lines[2], lines[4]), (0, 1), "no lock and one record");
}

#[test]
fn w7_prewrite_of_rolled_back() {
    assert_eq!(numbers(&[rollback(a(), 5), prewrite(a(), 5)]), [0, 8]);
}

#[test]
fn w8_one_step_replay_and_part() {
    let replay = after(w2(), one_step(&[a()], 10, 12));
    assert_eq!((replay.number, replay.count), (0, 1));
    assert_eq!(after(w2(), one_step(&[a(), b()], 10, 12)).number, 9);
}

#[test]
fn w9_page_at_its_byte_limit() {
    let bytes = [0x00, 0x01, 0x05, 0x00, 0x00, 0x00, 0x01, 0x61, 0x03, 0x00, 0x00, 0x00, 0x00];
    let exact = after(w2(), page(12, 8, 13));
    assert_eq!((exact.number, exact.count, &exact.payload[..]), (0, 13, &bytes[..]));
    let longer = after(w2(), page(12, 8, 15));
    assert_eq!((longer.count, &longer.payload[..]), (13, &[&bytes[..], &[0xEE, 0xEE]].concat()[..]));
    let short = after(w2(), page(12, 8, 12));
    assert_eq!((short.number, short.count, &short.payload[..]), (12, 0, &[0xEE; 12][..]));
}

#[test]
fn w10_page_below_its_first_row() {
    assert_eq!(after(w2(), page(12, 7, 13)).number, 10);
}

#[test]
fn w11_the_key_past_the_last_row_refuses() {
    let held = after([w2(), vec![prewrite(b(), 12)]].concat(), page(12, 8, 13));
    assert_eq!((held.number, held.holder), (7, Holder { transaction: 7, start: 12, time_to_live: 1, kind: 1 }));
    assert_eq!(held.payload, [0xEE; 13], "a refusal leaves the buffer alone");
}

//! The trace form itself: what is not in form, long calls, the limit, and many traces in one input.

mod common;

use common::*;
use paper::answer::Answer;
use paper::run::{answers as answer_bytes, many_answers, run_trace};
use paper::trace::{Call, LONG_BUFFER, MOST_BYTES, read_trace, write_trace};

fn damaged(trace: &[u8]) -> bool {
    run_trace(trace) == [Answer::damaged()]
}

#[test]
fn no_calls_give_no_answer_and_no_bytes_give_6() {
    assert_eq!(run_trace(&[0, 0]), []);
    assert!(damaged(&[]));
    assert!(damaged(&[0]));
    assert!(damaged(&[0, 0, 0]));
}

#[test]
fn a_fault_at_the_end_lets_nothing_run() {
    let calls = [prewrite(a(), 10), read(a(), 10), Call::Marks];
    let trace = write_trace(&calls);
    assert_eq!(run_trace(&trace).len(), 3);
    for cut in 0..trace.len() {
        assert!(damaged(&trace[..cut]), "cut at {cut}");
    }
    assert!(damaged(&[&trace[..], &[0]].concat()));
    let mut unknown = trace.clone();
    *unknown.last_mut().unwrap() = 13;
    assert!(damaged(&unknown));
}

#[test]
fn kind_and_flag_bytes() {
    let prewritten = write_trace(&[prewrite(a(), 10)]);
    let kind_at = 2 + 2 + 1 + 24;
    assert_eq!(prewritten[kind_at], 1);
    for kind in [0, 3, 255] {
        let mut trace = prewritten.clone();
        trace[kind_at] = kind;
        assert!(damaged(&trace), "kind {kind}");
    }
    let paged = write_trace(&[page(12, 7, 12)]);
    let flag_at = 2 + 2 + 1 + 24;
    for flag in [2, 255] {
        let mut trace = paged.clone();
        trace[flag_at] = flag;
        assert!(damaged(&trace), "flag {flag}");
    }
}

#[test]
fn every_call_reads_back() {
    let calls = [
        read(a(), 1),
        page(1, 2, 3),
        Call::IntentPage { lock_limit: 1, bounds: Default::default(), buffer: 9 },
        prewrite(a(), 10),
        prewrite_batch(&[a(), b()], 10),
        commit(a(), 10, 11),
        rollback(a(), 10),
        one_step(&[a()], 10, 11),
        restore(&image_of_lines(3, 2)),
        Call::Statistics,
        Call::Marks,
        Call::Collect { floor: 0x0102_0304_0506_0708 },
        Call::WriteImage { table: 0x0102_0304, buffer: 0x0001_0203 },
    ];
    assert_eq!(read_trace(&write_trace(&calls)).as_deref(), Some(&calls[..]));
}

/// "A long buffer above 262,144 is not in form." The answer's payload is the whole buffer.
#[test]
fn long_buffers() {
    let written = |table, buffer| write_trace(&[Call::WriteImage { table, buffer }]);
    assert_eq!(written(1, LONG_BUFFER), [0, 1, 0, 9, 35, 0, 0, 0, 1, 0, 4, 0, 0]);
    for buffer in [0, 65_535, 65_536, LONG_BUFFER] {
        assert_eq!(run_trace(&written(1, buffer))[0].payload.len(), buffer as usize);
    }
    for buffer in [LONG_BUFFER + 1, 1 << 24, u32::MAX] {
        assert!(damaged(&written(1, buffer)) && damaged(&written(0, buffer)), "{buffer}");
    }
    let answer = &run_trace(&written(1, LONG_BUFFER))[0];
    let mut bytes = Vec::new();
    answer.write(&mut bytes);
    assert_eq!(bytes.len(), 38 + LONG_BUFFER as usize);
    assert_eq!(Answer::read_all(&bytes).as_deref(), Some(std::slice::from_ref(answer)));
}

#[test]
fn long_calls_and_the_limit() {
    // A restore of 65,534, 65,535 and 65,536 bytes: the first needs no long length.
    for length in [65_534, 65_535, 65_536] {
        let trace = write_trace(&[Call::Restore { image: vec![0; length - 1] }]);
        assert_eq!(trace.len(), 2 + 2 + length + if length < 65_535 { 0 } else { 4 });
        assert_eq!(run_trace(&trace)[0].number, 13);
    }
    let most = write_trace(&[Call::Restore { image: vec![0; MOST_BYTES - 2 - 6 - 1] }]);
    assert_eq!(most.len(), MOST_BYTES);
    assert_eq!(run_trace(&most)[0].number, 13);
    assert!(damaged(&[&most[..], &[0]].concat()));
    let past = write_trace(&[Call::Restore { image: vec![0; MOST_BYTES - 2 - 6] }]);
    assert!(damaged(&past));
}

#[test]
fn many_traces_each_start_fresh() {
    let first = write_trace(&[prewrite(a(), 10)]);
    let second = write_trace(&[read(a(), 10)]);
    let mut input = Vec::new();
    let mut expected = Vec::new();
    for trace in [&first[..], &second, &[], &[0, 0], &first] {
        input.extend_from_slice(&(trace.len() as u32).to_be_bytes());
        input.extend_from_slice(trace);
        answer_bytes(trace, &mut expected);
    }
    assert_eq!(many_answers(&input), Some(expected));
    assert_eq!(many_answers(&input[..input.len() - 1]), None);
}

//! The traces that pack the area anew do so, in each call that brings bytes, and show every row that stands.

use std::collections::{BTreeMap, BTreeSet};

use generate::random::Random;
use generate::repacks::{self, MOST, OPS};
use generate::written;
use paper::area;
use paper::room::{DEFAULTS, LINES};
use paper::run::{run_call, run_trace};
use paper::store::{Kind, Store};
use paper::trace::{Call, MOST_BYTES, write_trace};

/// What a trace does: the ops of the calls that pack the area anew, the most lines and defaults that the box held, and the
/// answers by op and number.
struct Seen {
    packed: Vec<u8>,
    lines: usize,
    defaults: usize,
    answers: BTreeMap<(u8, u8), usize>,
}

/// Runs the calls. None may be refused but for room, or for the floor after a collection; of every key the newest row must stand on the page, and each older
/// one must have been read.
fn look(name: &str, calls: &[Call]) -> Seen {
    let trace = write_trace(calls);
    assert!(trace.len() <= MOST_BYTES, "{name}: {} bytes", trace.len());
    let mut store = Store::default();
    let (mut lines, mut defaults, mut on_page) = (0, 0, 0);
    let (mut read, mut answers) = (BTreeSet::new(), BTreeMap::new());
    for call in calls {
        let answer = run_call(&mut store, call);
        let used = store.room_used();
        (lines, defaults) = (used.lines.max(lines), used.defaults.max(defaults));
        match call {
            Call::Read { moment, key } if answer.payload.len() > 1 => _ = read.insert((key, *moment)),
            Call::Page { .. } => on_page = usize::from(answer.payload[0]) << 8 | usize::from(answer.payload[1]),
            _ => {}
        }
        *answers.entry((call.op(), answer.number)).or_default() += 1;
        let floored = answer.number == 14 && store.floor > 0;
        assert!(matches!(answer.number, 0 | 11) || floored, "{name}: op {} answers {}", call.op(), answer.number);
    }
    assert_eq!(on_page, store.defaults.len(), "{name}: the newest row of each key stands on the page");
    for (key, chain) in &store.records {
        let puts = chain.iter().rev().filter(|(_, record)| record.kind == Kind::Put);
        assert!(puts.skip(1).all(|(stamp, _)| read.contains(&(key, *stamp))), "{name}: an older row of {key:?}");
    }
    assert!([33, 34].iter().all(|op| answers.contains_key(&(*op, 0))), "{name}: {answers:?}");
    Seen { packed: area::repacks(&trace), lines, defaults, answers }
}

#[test]
fn each_call_that_brings_bytes_packs_the_area_anew() {
    let cases = repacks::cases();
    for cases in [&cases[..3], &cases[3..10]] {
        let mut all = Vec::new();
        for (name, calls) in cases {
            let seen = look(name, calls);
            assert_eq!(seen.lines, LINES, "{name}: {:?}", seen.packed);
            all.extend(seen.packed);
        }
        assert_eq!(all, OPS);
    }
}

/// After a collection the area has gaps, and what is packed is what stands.
#[test]
fn a_collected_box_is_packed_anew() {
    for ((name, calls), ops) in repacks::cases()[10..12].iter().zip([&OPS[..2], &OPS[5..]]) {
        let seen = look(name, calls);
        assert_eq!(seen.packed, ops, "{name}");
        assert_eq!(seen.answers.get(&(13, 0)), Some(&1), "{name}: {:?}", seen.answers);
        assert!(seen.answers.get(&(9, 14)) > Some(&5), "{name}: {:?}", seen.answers);
    }
}

#[test]
fn a_full_box_is_packed_anew() {
    for ((name, calls), op) in repacks::cases()[12..].iter().zip([9, 12]) {
        let seen = look(name, calls);
        assert_eq!((seen.packed, seen.lines, seen.defaults), (vec![op], LINES, DEFAULTS), "{name}");
        assert_eq!(seen.answers.get(&(12, 11)), Some(&2), "one line more is 11, before and after");
    }
}

#[test]
fn drawn_traces_pack_the_area_anew() {
    let (mut ops, mut most) = (BTreeSet::new(), 0);
    for seed in 0..24 {
        let calls = repacks::calls(&mut Random::new(seed));
        let packed = look(&format!("seed {seed}"), &calls).packed;
        assert!(!packed.is_empty(), "seed {seed}");
        most = packed.len().max(most);
        ops.extend(packed);
    }
    assert_eq!(ops.into_iter().collect::<Vec<u8>>(), OPS);
    assert_eq!(most, MOST);
}

/// A box that was packed anew is written: its images hold all its entries.
#[test]
fn packed_boxes_are_written() {
    let (mut most, mut longest) = (0, 0);
    for (name, calls) in repacks::cases() {
        let calls = written::then_written(calls);
        let trace = write_trace(&calls);
        let answers = run_trace(&trace);
        let written: Vec<usize> = (0..calls.len())
            .filter(|at| calls[*at].op() == 35)
            .map(|at| {
                assert_eq!((answers[at].number, answers[at].count), (0, answers[at].payload.len() as u64), "{name}");
                answers[at].payload.len()
            })
            .collect();
        println!("{name}: trace {}, images {written:?}", trace.len());
        most = trace.len().max(most);
        longest = written.into_iter().chain([longest]).max().expect("one at least");
    }
    assert!(most <= MOST_BYTES && longest > 65_535, "{most}, {longest}");
}

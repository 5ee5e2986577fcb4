//! The traces about collections meet what they are to meet, and the named cases answer as they should.

use std::collections::BTreeMap;

use generate::{Ops, floor_cases, trace};
use paper::run::{run_call, run_trace};
use paper::store::Store;
use paper::trace::{Call, read_trace, write_trace};

#[test]
fn the_named_cases_answer_as_they_should() {
    for (name, calls, expected) in floor_cases::named() {
        let numbers: Vec<u8> = run_trace(&write_trace(&calls)).iter().map(|answer| answer.number).collect();
        assert_eq!(numbers, expected, "{name}");
    }
}

/// Moments and starts below, at and above the floor, in each call that has one; collections with each answer.
#[test]
fn calls_meet_the_floor_from_both_sides() {
    let mut seen: BTreeMap<(u8, &str), usize> = BTreeMap::new();
    for seed in 0..1000 {
        let mut store = Store::default();
        for call in read_trace(&trace(seed, Ops::all())).unwrap_or_default() {
            let (floor, lines) = (store.floor, store.room_used().lines);
            let number = run_call(&mut store, &call).number;
            let mut count = |what, met: bool| *seen.entry((call.op(), what)).or_default() += usize::from(met);
            if let Call::Collect { floor: asked } = call {
                count("accepted", number == 0);
                count("held", number == 7);
                count("lower", number == 14);
                count("equal", asked == floor && floor > 0);
                count("zero", asked == 0);
                count("last", asked == u64::MAX);
                count("dropping", store.room_used().lines < lines);
                continue;
            }
            let asked = match call {
                Call::Read { moment, .. } | Call::Page { moment, .. } => moment,
                Call::Prewrite { start, .. } | Call::PrewriteBatch { start, .. } => start,
                Call::Commit { start, .. } | Call::CommitBatch { start, .. } => start,
                Call::Rollback { start, .. } | Call::RollbackBatch { start, .. } => start,
                Call::OneStep { start, .. } => start,
                _ => continue,
            };
            if floor > 0 {
                count("one below", asked.checked_add(1) == Some(floor));
                count("at", asked == floor);
                count("one above", asked.checked_sub(1) == Some(floor));
                count("below", number == 14);
            }
        }
    }
    println!("{seen:?}");
    for (what, least) in
        [("accepted", 400), ("held", 60), ("lower", 60), ("equal", 60), ("zero", 20), ("last", 5), ("dropping", 100)]
    {
        assert!(seen[&(13, what)] >= least, "{what}: {}", seen[&(13, what)]);
    }
    for op in [1, 2, 6, 7, 8, 9, 10, 11, 12] {
        for what in ["one below", "at", "one above", "below"] {
            assert!(seen[&(op, what)] >= 15, "op {op}, {what}: {}", seen[&(op, what)]);
        }
    }
}

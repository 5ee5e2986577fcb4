//! The generator keeps what it says: the same seed gives the same trace, only the ops asked for, and every kind of
//! trace is what it is called.

use std::collections::{BTreeMap, BTreeSet};

use generate::{AWAITED, Kind, Ops, kind_of, named, singles, trace, trace_of};
use paper::answer::LOCKED;
use paper::restore::Image;
use paper::room::{DEFAULTS, LINES, LIVE_BYTES, LOCKS, Use};
use paper::run::{run_call, run_trace};
use paper::store::{Kind as StoredKind, Lock, Store};
use paper::trace::{Call, MOST_BYTES, read_trace, write_trace};

#[test]
fn a_seed_gives_one_trace() {
    for seed in 0..50 {
        assert_eq!(trace(seed, Ops::all()), trace(seed, Ops::all()));
    }
    assert_ne!(trace_of(Kind::Fresh, 1, Ops::all()), trace_of(Kind::Fresh, 2, Ops::all()));
}

#[test]
fn only_the_ops_asked_for() {
    for list in [
        "32,33,34",
        "1,5,32,33,34",
        "12, 2",
        "33",
        "35",
        "6,8,35",
        "32,33,34,35",
        "17,18",
        "18",
        "36",
        "17,36",
        "6,7,12,17,18,32,36",
        "1,6,7,12,17,18,32,36",
        "13",
        "13,33",
        "1,2,13,32",
        "6,8,10,13,32,35",
    ] {
        let ops = Ops::read(list).expect("a list of ops");
        let mut seen = BTreeSet::new();
        for seed in 0..300 {
            for call in read_trace(&trace(seed, ops)).unwrap_or_default() {
                assert!(ops.has(call.op()), "op {} with --ops {list}", call.op());
                seen.insert(call.op());
            }
        }
        assert_eq!(seen.len(), Ops::LIST.iter().filter(|op| ops.has(**op)).count(), "every op of {list} is drawn");
    }
    assert_eq!(Ops::read("14"), None);
    assert_eq!(Ops::read(""), None);
    assert_eq!(Ops::read("x"), None);
}

/// Where images are what is read, reads meet boxes that hold something, and see all that a read can see.
#[test]
fn reads_meet_boxes_that_hold_something() {
    let ops = Ops::read("1,5,32,33,34").expect("a list of ops");
    let mut seen: BTreeMap<(u8, &str), usize> = BTreeMap::new();
    for seed in 0..1000 {
        let mut store = Store::default();
        for call in read_trace(&trace(seed, ops)).unwrap_or_default() {
            let held = !(store.locks.is_empty() && store.records.is_empty());
            let answer = run_call(&mut store, &call);
            if matches!(call.op(), 1 | 5) {
                let mut count = |what| *seen.entry((call.op(), what)).or_default() += 1;
                count("all");
                count(if held { "of a box with lines" } else { "of a box without" });
                count(match (answer.number, answer.payload[0]) {
                    (0, 0) => "nothing",
                    (0, _) => "shown",
                    (7, _) => "held",
                    _ => "out of form",
                });
            }
        }
    }
    println!("{seen:?}");
    for op in [1, 5] {
        let all = seen[&(op, "all")];
        assert!(seen[&(op, "of a box with lines")] * 10 >= all * 8, "op {op}: {seen:?}");
        assert!(seen[&(op, "of a box without")] > 100, "op {op}: {seen:?}");
        assert!(seen[&(op, "shown")] * 10 >= all, "op {op}: {seen:?}");
        assert!(seen[&(op, "nothing")] * 10 >= all, "op {op}: {seen:?}");
    }
    assert!(seen[&(1, "held")] * 10 >= seen[&(1, "all")], "{seen:?}");
}

/// Where the changing ops are single forms alone, these are most of the calls, and keys and rows have every odd length.
#[test]
fn single_forms_come_with_every_length() {
    let ops = Ops::read("1,6,8,10,32,33,34").expect("a list of ops");
    let (mut all, mut singles) = (0, 0);
    let mut lengths: BTreeMap<(u8, &str, usize), usize> = BTreeMap::new();
    for seed in 0..2000 {
        for call in read_trace(&trace(seed, ops)).unwrap_or_default() {
            all += 1;
            singles += usize::from(matches!(call.op(), 6 | 8 | 10));
            let op = call.op();
            let mut count = |what, bytes: &[u8]| *lengths.entry((op, what, bytes.len())).or_default() += 1;
            match call {
                Call::Prewrite { key, kind, row, .. } => {
                    count("key", &key);
                    count(if kind == StoredKind::Put { "Put row" } else { "Delete row" }, &row);
                }
                Call::Commit { key, .. } | Call::Rollback { key, .. } => count("key", &key),
                _ => {}
            }
        }
    }
    assert!(singles * 10 >= all * 5, "{singles} of {all}");
    for length in singles::LENGTHS {
        for place in [(6, "key"), (8, "key"), (10, "key"), (6, "Put row"), (6, "Delete row")] {
            let seen = lengths.get(&(place.0, place.1, length)).copied().unwrap_or(0);
            assert!(seen >= 50, "{place:?} of {length} bytes: {seen}");
        }
    }
}

/// Each op that can answer 7 does so often, on locks of both kinds and of many times to live.
#[test]
fn every_call_meets_locks_of_every_sort() {
    let mut held: BTreeMap<(u8, u8), usize> = BTreeMap::new();
    let mut lives = BTreeSet::new();
    for seed in 0..1000 {
        let bytes = trace(seed, Ops::all());
        let ops: Vec<u8> = read_trace(&bytes).unwrap_or_default().iter().map(Call::op).collect();
        for (op, answer) in ops.into_iter().zip(run_trace(&bytes)).filter(|(_, answer)| answer.number == LOCKED) {
            *held.entry((op, answer.holder.kind)).or_default() += 1;
            lives.insert(answer.holder.time_to_live);
        }
    }
    for (op, least) in
        [(1, 100), (2, 100), (6, 100), (7, 100), (8, 100), (9, 100), (10, 100), (11, 100), (12, 100), (13, 15)]
    {
        let (put, delete) = (held[&(op, 1)], held[&(op, 2)]);
        assert!(put >= least && delete >= least, "op {op}: {put} Put locks, {delete} Delete locks");
    }
    assert_eq!(held.len(), 20, "no other op and no other kind: {held:?}");
    assert!(lives.len() >= 300 && lives.last() == Some(&u64::MAX), "{} times to live", lives.len());
}

/// Of the reads, a quarter meet several records of their key by the moment, a Rollback among them, and some
/// more than one byte can count.
#[test]
fn reads_meet_chains() {
    let (mut all, mut several, mut most) = (0, 0, 0);
    for seed in 0..3000 {
        let mut store = Store::default();
        for call in read_trace(&trace(seed, Ops::all())).unwrap_or_default() {
            let count = run_call(&mut store, &call).count;
            if let Call::Read { moment, key } = call {
                let by = store.records_by(moment, &key);
                let met = by.len() > 1 && by.iter().any(|(_, record)| record.kind == StoredKind::Rollback);
                all += 1;
                several += usize::from(met);
                most = most.max(count);
            }
        }
    }
    assert!(several * 4 >= all, "{several} of {all}");
    assert!(most > 255, "{most} at most");
}

/// What is written as an image: of how many tables the store holds something, and by how much the buffer is too long.
#[test]
fn images_are_written_of_every_sort() {
    let mut seen: BTreeMap<&str, usize> = BTreeMap::new();
    let (mut restored, mut after) = (0, 0);
    for seed in 0..1000 {
        let mut store = Store::default();
        let (mut images, mut own) = (BTreeSet::new(), false);
        for call in read_trace(&trace(seed, Ops::all())).unwrap_or_default() {
            let answer = run_call(&mut store, &call);
            after += usize::from(own);
            if let Call::Restore { image } = &call
                && answer.number == 0
            {
                own = images.contains(image);
                restored += usize::from(own);
            }
            let Call::WriteImage { table, buffer } = call else {
                continue;
            };
            let needed = store.image_of(table).write().len() as i64;
            let tables = store.tables();
            let mut count = |what, met: bool| *seen.entry(what).or_default() += usize::from(met);
            count("all", true);
            count("table 0, no buffer", (table, buffer) == (0, 0));
            count("exact", table > 0 && i64::from(buffer) == needed);
            count("one short", table > 0 && i64::from(buffer) == needed - 1);
            count("longer", table > 0 && i64::from(buffer) > needed);
            count("absent", table > 0 && !tables.contains(&table));
            count("several tables", tables.len() > 1);
            let foreign =
                |(key, lock): (&Vec<u8>, &Lock)| key[..4] == table.to_be_bytes() && lock.primary[..4] != key[..4];
            count("a primary of another table", store.locks.iter().any(foreign));
            count("above 65,535 bytes", needed > 65_535);
            if answer.number == 0 {
                images.insert(answer.payload[..answer.count as usize].to_vec());
            }
        }
    }
    println!("{seen:?}, {restored} restored, {after} calls after");
    let least = [("all", 1200), ("exact", 400), ("one short", 120), ("longer", 200), ("several tables", 130)];
    let few =
        [("table 0, no buffer", 20), ("absent", 60), ("a primary of another table", 150), ("above 65,535 bytes", 9)];
    for (what, least) in least.into_iter().chain(few) {
        assert!(seen[what] >= least, "{what}: {seen:?}");
    }
    assert!(restored >= 100 && after >= 500, "{restored} restored, {after} calls after");
}

/// Without the op the traces are those of a driver that does not have it.
#[test]
fn the_driver_is_sent_what_it_has() {
    let ops = Ops::of_driver();
    assert!(Ops::LIST.iter().all(|op| ops.has(*op) != AWAITED.contains(op)));
    for seed in 0..400 {
        let calls = read_trace(&trace(seed, ops)).unwrap_or_default();
        assert!(calls.iter().all(|call| ops.has(call.op())), "seed {seed}");
    }
}

#[test]
fn every_op_gets_every_answer_it_can_give() {
    let mut seen = BTreeSet::new();
    for seed in 0..3000 {
        let bytes = trace(seed, Ops::all());
        let ops: Vec<u8> = read_trace(&bytes).unwrap_or_default().iter().map(Call::op).collect();
        seen.extend(ops.into_iter().zip(run_trace(&bytes)).map(|(op, answer)| (op, answer.number)));
    }
    let expected: &[(u8, &[u8])] = &[
        (1, &[0, 1, 7, 14]),
        (2, &[0, 1, 3, 4, 7, 10, 12, 14]),
        (3, &[0, 1, 3, 4, 12]),
        (4, &[0, 1, 3, 4, 10, 12]),
        (5, &[0, 1]),
        (6, &[0, 1, 2, 3, 7, 8, 9, 11, 14]),
        (7, &[0, 1, 2, 3, 5, 6, 7, 8, 9, 11, 14]),
        (8, &[0, 1, 3, 7, 8, 14]),
        (9, &[0, 1, 3, 5, 6, 7, 8, 14]),
        (10, &[0, 1, 3, 7, 8, 9, 11, 14]),
        (11, &[0, 1, 3, 5, 6, 7, 8, 9, 11, 14]),
        (12, &[0, 1, 2, 3, 6, 7, 8, 9, 11, 14]),
        (13, &[0, 7, 14]),
        (17, &[0, 2, 3]),
        (18, &[0, 2]),
        (32, &[0, 11, 13]),
        (33, &[0]),
        (34, &[0]),
        (35, &[0, 3, 12]),
        (36, &[0, 12, 13]),
    ];
    for (op, numbers) in expected {
        let given: Vec<u8> = seen.iter().filter(|(other, _)| other == op).map(|(_, number)| *number).collect();
        assert_eq!(given, *numbers, "op {op}");
    }
}

#[test]
fn long_images_full_boxes_and_edges_come() {
    let images: Vec<Vec<u8>> = (0..40)
        .flat_map(|seed| read_trace(&trace_of(Kind::Large, seed, Ops::all())).expect("a large trace is in form"))
        .filter_map(|call| if let Call::Restore { image } = call { Some(image) } else { None })
        .collect();
    assert!(images.iter().any(|image| image.len() > 65_535));
    let full = Use { lines: LINES, locks: LOCKS, defaults: DEFAULTS, live_bytes: LIVE_BYTES };
    let used = |image: &Vec<u8>| Image::read(image).and_then(|image| image.store()).map(|store| store.room_used());
    assert!(images.iter().any(|image| used(image) == Some(full)), "a box with all four rooms just full");
    let edges: BTreeSet<usize> = (0..60).map(|seed| trace_of(Kind::Edge, seed, Ops::all()).len()).collect();
    assert!([0, 2, MOST_BYTES, MOST_BYTES + 1].iter().all(|length| edges.contains(length)), "{edges:?}");
    assert!((0..2000).any(|seed| kind_of(seed) == Kind::Large));
}

#[test]
fn each_room_is_met_and_passed_by_one() {
    let mut met = BTreeSet::new();
    for seed in 0..400 {
        let mut store = Store::default();
        for call in read_trace(&trace_of(Kind::Room, seed, Ops::all())).expect("a room trace is in form") {
            let answer = run_call(&mut store, &call);
            let used = store.room_used();
            let rooms =
                [(used.lines, LINES), (used.locks, LOCKS), (used.defaults, DEFAULTS), (used.live_bytes, LIVE_BYTES)];
            for (room, (used, most)) in rooms.into_iter().enumerate() {
                if used == most {
                    met.insert((room, "full"));
                }
                if answer.number == 11 && used + 1 >= most {
                    met.insert((room, "refused beside it"));
                }
            }
        }
    }
    assert_eq!(met.len(), 8, "{met:?}");
}

#[test]
fn the_named_cases_answer_as_the_paper_says() {
    for (name, calls) in named::cases() {
        let numbers: Vec<u8> = run_trace(&write_trace(&calls)).iter().map(|answer| answer.number).collect();
        let expected: Option<&[u8]> = match name {
            "W1" => Some(&[0, 0, 7]),
            "W2" => Some(&[0, 0, 0, 0]),
            "W3" => Some(&[0, 0, 9]),
            "W4" => Some(&[0, 0, 8]),
            "W5" => Some(&[0, 0, 8, 0]),
            "W7" => Some(&[0, 8]),
            "W8" => Some(&[0, 0, 0, 9]),
            "W9" => Some(&[0, 0, 12, 0, 0]),
            "W10" => Some(&[0, 0, 10]),
            "W11" => Some(&[0, 0, 0, 7]),
            "1,023 lines" => Some(&[0, 11, 0, 0, 0, 11]),
            "all four rooms full" => Some(&[0, 0, 11, 0, 11, 11, 13, 0, 0]),
            "one byte past the most" => Some(&[6]),
            _ => None,
        };
        if let Some(expected) = expected {
            assert_eq!(numbers, expected, "{name}");
        }
    }
}

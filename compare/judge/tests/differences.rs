//! The inputs of each class in docs/DIFFERENCES.md: exactly one call differs, in that class, and each side says what the
//! document says. Table 1, key a, row 00 00 00, transaction 7, primary a, time to live 1 where unsaid.

use generate::batch::mutation_bytes;
use judge::classes::{Class, Rust};
use judge::one::differences;
use judge::rust_side::{Outcome, Side, run_rust, set_state};
use paper::form::Entry;
use paper::page::Bounds;
use paper::restore::{Image, RawLock, RawRecord};
use paper::run::run_call;
use paper::store::{Kind, Lock, Record, Store};
use paper::trace::Call;
use ragnor::engine::Engine;

fn a() -> Vec<u8> {
    vec![0, 0, 0, 1, b'a']
}

fn prewrite(transaction: u64, start: u64, kind: Kind, row: &[u8]) -> Call {
    Call::Prewrite { transaction, start, time_to_live: 1, kind, primary: a(), key: a(), row: row.to_vec() }
}

fn one_step(start: u64, commit: u64, kind: Kind, row: &[u8]) -> Call {
    let batch = mutation_bytes(&[Entry { key: a(), kind, row: row.to_vec() }]);
    Call::OneStep { transaction: 7, start, commit, batch }
}

fn commit(start: u64, commit: u64) -> Call {
    Call::Commit { transaction: 7, start, commit, key: a() }
}

fn rollback(start: u64) -> Call {
    Call::Rollback { transaction: 7, start, key: a() }
}

fn lock(start: u64, kind: u8) -> (Vec<u8>, RawLock) {
    (a(), RawLock { transaction: 7, primary: a(), start, time_to_live: 1, kind })
}

fn write(stamp: u64, start: u64, kind: u8) -> (Vec<u8>, u64, RawRecord) {
    (a(), stamp, RawRecord { start, commit: stamp, kind })
}

fn default(start: u64) -> (Vec<u8>, u64, Vec<u8>) {
    (a(), start, vec![0, 0, 0])
}

type Write = (Vec<u8>, u64, RawRecord);

fn restore(defaults: &[u64], locks: Vec<(Vec<u8>, RawLock)>, writes: Vec<Write>) -> Call {
    let defaults = defaults.iter().map(|start| default(*start)).collect();
    Call::Restore { image: Image { table: 1, floor: 0, defaults, locks, writes }.write() }
}

/// The last call differs, alone, in this class: the paper's number, and the Rust's result with validate_mutation as
/// shown and from the paper; none where that Rust agrees with the paper.
fn differs(calls: &[Call], class: Class, paper: u8, shown: Option<&str>, from_paper: Option<&str>) {
    let found = differences(calls);
    for (rust, expected) in [(Rust::Shown, shown), (Rust::FromPaper, from_paper)] {
        let mine: Vec<_> = found.iter().filter(|difference| difference.rust == rust).collect();
        let Some(expected) = expected else {
            assert!(mine.is_empty(), "{rust:?} agrees in {}", class.word());
            continue;
        };
        assert_eq!(mine.len(), 1, "{rust:?} differs once in {}", class.word());
        let difference = mine[0];
        assert_eq!(difference.at, calls.len() - 1);
        assert_eq!(difference.class, Some(class));
        assert_eq!(difference.paper.number, paper, "{rust:?} in {}", class.word());
        assert_eq!(difference.said.name(), expected, "{rust:?} in {}", class.word());
    }
}

/// Both Rusts say the same.
fn both_differ(calls: &[Call], class: Class, paper: u8, said: &str) {
    differs(calls, class, paper, Some(said), Some(said));
}

#[test]
fn room() {
    let key = |number: u16| [&[0, 0, 0, 1][..], &number.to_be_bytes()].concat();
    let locks = (0..257).map(|number| (key(number), lock(1, 2).1)).collect();
    both_differ(&[restore(&[], locks, vec![])], Class::Room, 11, "Ok");
}

#[test]
fn stamp_at_start() {
    let before = || one_step(10, 12, Kind::Delete, &[]);
    both_differ(&[before(), prewrite(7, 12, Kind::Delete, &[])], Class::StampAtStart, 8, "Ok");
    both_differ(&[before(), one_step(12, 13, Kind::Delete, &[])], Class::StampAtStart, 8, "Ok");
}

#[test]
fn rollback_above_start() {
    both_differ(&[rollback(11), prewrite(7, 7, Kind::Delete, &[])], Class::RollbackAbove, 8, "Ok");
    both_differ(&[rollback(11), one_step(7, 12, Kind::Delete, &[])], Class::RollbackAbove, 8, "Ok");
}

/// The Rust goes on past the Rollback, and then its later steps answer.
#[test]
fn rollback_above_start_goes_on_to_another_refusal() {
    let locked = "WriteConflict (row is locked)";
    let held = [rollback(5), prewrite(9, 6, Kind::Delete, &[]), prewrite(2, 4, Kind::Delete, &[])];
    both_differ(&held, Class::RollbackAbove, 8, locked);
    assert!(differences(&held).iter().all(|found| found.said == Outcome::Held { transaction: 9, start: 6 }));

    let b = [&a()[..4], b"b"].concat();
    let delete = |key| Entry { key, kind: Kind::Delete, row: vec![] };
    let (primary, key) = (a(), b.clone());
    let other =
        Call::Prewrite { transaction: 1, start: 3, time_to_live: 1, kind: Kind::Delete, primary, key, row: vec![] };
    let batch = mutation_bytes(&[delete(a()), delete(b)]);
    let one_step = Call::OneStep { transaction: 2, start: 4, commit: 6, batch };
    let later_entry = [rollback(9), other, one_step];
    both_differ(&later_entry, Class::RollbackAbove, 8, locked);
    assert!(differences(&later_entry).iter().all(|found| found.said == Outcome::Held { transaction: 1, start: 3 }));
}

/// The same past a Put or Delete stamped with the start, and past both.
#[test]
fn stamp_at_start_goes_on_to_another_refusal() {
    let locked = "WriteConflict (row is locked)";
    let at_start = [one_step(10, 12, Kind::Delete, &[]), prewrite(9, 13, Kind::Delete, &[])];
    let held = [&at_start[..], &[prewrite(2, 12, Kind::Delete, &[])]].concat();
    both_differ(&held, Class::StampAtStart, 8, locked);
    let both = [one_step(10, 12, Kind::Delete, &[]), rollback(14), prewrite(7, 12, Kind::Delete, &[])];
    both_differ(&both, Class::StampAtStart, 8, "Ok");
}

#[test]
fn default_judged_first() {
    let corrupt = Some("CorruptData");
    let held = || prewrite(7, 10, Kind::Put, &[0, 0, 0]);
    let other_row = &[0, 0, 1, 0];
    differs(&[held(), prewrite(8, 10, Kind::Put, other_row)], Class::DefaultFirst, 7, corrupt, None);
    differs(&[held(), prewrite(8, 10, Kind::Delete, &[])], Class::DefaultFirst, 7, corrupt, None);
    differs(&[held(), one_step(10, 12, Kind::Put, other_row)], Class::DefaultFirst, 0, corrupt, None);
    let committed = [held(), commit(10, 12), prewrite(7, 10, Kind::Put, other_row)];
    differs(&committed, Class::DefaultFirst, 8, corrupt, None);
}

#[test]
fn commit_stamp_taken() {
    both_differ(&[rollback(12), commit(8, 12)], Class::CommitTaken, 8, "CorruptData");
    let held = prewrite(8, 13, Kind::Delete, &[]);
    both_differ(&[rollback(12), held, commit(8, 12)], Class::CommitTaken, 7, "CorruptData");
    // The Rust's text here is that of "multiple durable outcomes": this start has its Rollback too.
    both_differ(&[rollback(4), rollback(5), commit(4, 5)], Class::CommitTaken, 8, "CorruptData");
}

/// What no store holds since sick images are refused, set by hand: the paper's number, and CorruptData of both Rusts.
fn by_hand(defaults: &[u64], locks: Vec<(Vec<u8>, RawLock)>, writes: Vec<Write>, call: &Call, paper: u8) {
    let Call::Restore { image } = restore(defaults, locks, writes) else { unreachable!("a restore") };
    let sick = Image::read(&image).and_then(|image| image.store()).expect("without a fault by document 01's checks");
    assert!(sick.sick());
    let mut shown = Side::<ragnor::shown::InMemoryMvcc>::default();
    set_state(&mut shown, &sick);
    assert_eq!(run_rust(&mut shown, call), Outcome::CorruptData);
    let mut from_paper = Side::<ragnor::from_paper::InMemoryMvcc>::default();
    set_state(&mut from_paper, &sick);
    assert_eq!(run_rust(&mut from_paper, call), Outcome::CorruptData);
    assert_eq!(run_call(&mut sick.clone(), call).number, paper);
}

#[test]
fn what_only_sick_images_showed() {
    let two_records = || vec![write(4, 3, 2), write(7, 3, 2)];
    by_hand(&[], vec![], two_records(), &commit(3, 4), 0);
    by_hand(&[], vec![], two_records(), &commit(3, 7), 8);
    by_hand(&[3], vec![], vec![write(4, 3, 2)], &commit(3, 4), 0);
    by_hand(&[], vec![lock(4, 1)], vec![write(12, 12, 3)], &commit(4, 7), 8);
    by_hand(&[4], vec![lock(4, 2)], vec![write(4, 4, 3)], &commit(4, 5), 8);
}

/// No store holds a lock of kind Rollback; set by hand, under a history that forbids the commit.
#[test]
fn a_lock_of_kind_rollback_under_a_history_that_forbids() {
    let mut store = Store::default();
    let lock = Lock { transaction: 7, primary: a(), start: 4, time_to_live: 1, kind: Kind::Rollback };
    store.locks.insert(a(), lock);
    store.put_record(&a(), 12, Record { start: 12, commit: 12, kind: Kind::Rollback });
    let mut engine = Side::<ragnor::shown::InMemoryMvcc>::default();
    set_state(&mut engine, &store);
    assert_eq!(run_call(&mut store, &commit(4, 7)).number, 8);
    assert_eq!(run_rust(&mut engine, &commit(4, 7)), Outcome::CorruptData);
    // Above all records both say the same.
    assert_eq!(run_call(&mut store, &commit(4, 13)).number, 9);
    assert_eq!(run_rust(&mut engine, &commit(4, 13)), Outcome::CorruptData);
}

#[test]
fn record_between_start_and_commit() {
    let image = restore(&[], vec![lock(8, 2)], vec![write(11, 7, 2)]);
    both_differ(&[image, commit(8, 14)], Class::RecordBetween, 0, "WriteConflict");
}

#[test]
fn lock_named_for_history() {
    let calls = [rollback(5), prewrite(8, 6, Kind::Delete, &[]), commit(5, 9)];
    both_differ(&calls, Class::HolderForHistory, 8, "WriteConflict (row is locked)");
    let found = differences(&calls);
    assert!(found.iter().all(|difference| difference.said == Outcome::Held { transaction: 8, start: 6 }));
}

#[test]
fn one_step_stamp_taken() {
    both_differ(&[rollback(12), one_step(8, 12, Kind::Delete, &[])], Class::OneStepTaken, 8, "CorruptData");
}

#[test]
fn sick_image() {
    let sick = |defaults: &[u64], locks, writes| {
        both_differ(&[restore(defaults, locks, writes)], Class::SickImage, 13, "Ok");
    };
    sick(&[], vec![lock(10, 1)], vec![]);
    sick(&[10], vec![], vec![]);
    sick(&[10], vec![], vec![write(12, 10, 2)]);
    sick(&[], vec![], vec![write(4, 3, 2), write(7, 3, 2)]);
    sick(&[], vec![lock(3, 2)], vec![write(3, 3, 3)]);
    // Too large besides: 13 goes before 11.
    let key = |number: u16| [&[0, 0, 0, 1][..], &number.to_be_bytes()].concat();
    sick(&[], (0..257).map(|number| (key(number), lock(1, 1).1)).collect(), vec![]);
}

/// No class: the Rust captures every table into one. Only what it captured of the table asked for is compared.
#[test]
fn all_tables_are_captured_into_one() {
    let other = [&[0, 0, 0, 2][..], b"a"].concat();
    let batch = mutation_bytes(&[Entry { key: other.clone(), kind: Kind::Put, row: vec![0, 0, 0] }]);
    let calls = [
        restore(&[5, 6], vec![lock(30, 2)], vec![write(20, 5, 1), write(10, 6, 1)]),
        Call::OneStep { transaction: 7, start: 10, commit: 12, batch },
    ];
    let mut store = Store::default();
    let mut engine = Side::<ragnor::shown::InMemoryMvcc>::default();
    for call in &calls {
        assert_eq!((run_call(&mut store, call).number, run_rust(&mut engine, call).name()), (0, "Ok"));
    }
    let all = engine.engine.capture().expect("sound entries are captured");
    let keys: Vec<Vec<u8>> = all.default_values.iter().map(|entry| entry.key.clone()).collect();
    assert_eq!(keys, [a(), a(), other.clone()]);
    assert_eq!((all.locks.len(), all.writes.len()), (1, 3));
    for (table, entries) in [(1, 5), (2, 2), (3, 0)] {
        assert_eq!(store.image_of(table).entries(), entries);
        for buffer in [999, 18, 17] {
            let written = [&calls[..], &[Call::WriteImage { table, buffer }]].concat();
            assert!(differences(&written).is_empty(), "table {table}, buffer {buffer}");
        }
    }
    // The Rust is told no table number, so it has nothing to refuse.
    let zero = Call::WriteImage { table: 0, buffer: 0 };
    assert_eq!((run_call(&mut store, &zero).number, run_rust(&mut engine, &zero)), (3, Outcome::NoCall));
}

#[test]
fn empty_table_zero() {
    both_differ(&[Call::Restore { image: vec![0; 18] }], Class::EmptyTableZero, 13, "Ok");
}

fn collect(floor: u64) -> Call {
    Call::Collect { floor }
}

fn read(moment: u64) -> Call {
    Call::Read { moment, key: a() }
}

fn empty_one_step(start: u64) -> Call {
    Call::OneStep { transaction: 7, start, commit: start + 1, batch: mutation_bytes(&[]) }
}

#[test]
fn below_floor() {
    let below = |call: Call, said: &str| both_differ(&[collect(5), call], Class::BelowFloor, 14, said);
    below(read(4), "Ok");
    let bounds = Bounds { start: None, end: Some(a()), resume: Some(a()) };
    below(Call::Page { moment: 4, row_limit: 1, byte_limit: 1, bounds, buffer: 3 }, "Ok");
    below(prewrite(7, 5, Kind::Delete, &[]), "Ok");
    below(rollback(5), "Ok");
    below(one_step(5, 6, Kind::Delete, &[]), "Ok");
    below(empty_one_step(5), "Ok");
    // The Rust goes on, and then its later steps answer.
    below(commit(5, 6), "WriteConflict");
    below(Call::Rollback { transaction: 7, start: 5, key: a()[..4].to_vec() }, "InvalidArgument");
    // Both say the same at the floor and above it, and where another refusal goes before.
    let same = [read(5), prewrite(7, 6, Kind::Delete, &[]), rollback(0), empty_one_step(6), commit(5, 5)];
    assert!(differences(&[&[collect(5)][..], &same].concat()).is_empty());
    // A replay of what was kept.
    let w2 = [prewrite(7, 10, Kind::Put, &[0, 0, 0]), commit(10, 12), collect(10)];
    for replay in [commit(10, 12), one_step(10, 12, Kind::Put, &[0, 0, 0])] {
        both_differ(&[&w2[..], &[replay]].concat(), Class::BelowFloor, 14, "Ok");
    }
}

/// The Rust goes on past the floor and then differs again: the floor's is the name.
#[test]
fn below_floor_before_another_difference() {
    let taken = [one_step(10, 12, Kind::Delete, &[]), collect(9), one_step(9, 12, Kind::Delete, &[])];
    both_differ(&taken, Class::BelowFloor, 14, "CorruptData");
    let image = floored(12, vec![], vec![write(12, 10, 2)]);
    both_differ(&[image, prewrite(7, 12, Kind::Delete, &[])], Class::BelowFloor, 14, "Ok");
}

/// An image of key a's lines under a floor.
fn floored(floor: u64, locks: Vec<(Vec<u8>, RawLock)>, writes: Vec<Write>) -> Call {
    Call::Restore { image: Image { table: 1, floor, defaults: vec![], locks, writes }.write() }
}

#[test]
fn lock_below_image_floor() {
    let refused =
        |floor, start| both_differ(&[floored(floor, vec![lock(start, 2)], vec![])], Class::FlooredImage, 13, "Ok");
    refused(5, 5);
    refused(5, 4);
    refused(u64::MAX, u64::MAX);
    assert!(differences(&[floored(5, vec![lock(6, 2)], vec![write(2, 1, 2), write(3, 3, 3)]), collect(5)]).is_empty());
    // Too large besides: 13 goes before 11. Sick besides: the sickness has the name.
    let key = |number: u16| [&[0, 0, 0, 1][..], &number.to_be_bytes()].concat();
    let locks = (0..257).map(|number| (key(number), lock(1, 2).1)).collect();
    both_differ(&[floored(1, locks, vec![])], Class::FlooredImage, 13, "Ok");
    both_differ(&[floored(5, vec![lock(5, 1)], vec![])], Class::SickImage, 13, "Ok");
}

/// No class: the Rust has no collection and no floor. Over its maps the collection leaves what the paper's does, and its own
/// reads at or above the floor answer as before.
#[test]
fn collections_are_made_over_the_maps() {
    let put = |start, commit| one_step(start, commit, Kind::Put, &[0, 0, 0]);
    let chain = [put(1, 2), rollback(3), put(4, 5), rollback(6), one_step(7, 8, Kind::Delete, &[]), put(9, 10)];
    for floor in 0..12 {
        let then = [collect(floor), read(floor), read(99), Call::Statistics, Call::Marks];
        let written = [Call::WriteImage { table: 1, buffer: 400 }, collect(floor), collect(floor + 1)];
        assert!(differences(&[&chain[..], &then, &written].concat()).is_empty(), "floor {floor}");
    }
    let held = [prewrite(9, 4, Kind::Delete, &[]), collect(4), collect(3), collect(2)];
    assert!(differences(&held).is_empty());
    let mut side = Side::<ragnor::shown::InMemoryMvcc>::default();
    let said: Vec<Outcome> = held.iter().map(|call| run_rust(&mut side, call)).collect();
    assert_eq!(said[1..2], [Outcome::Held { transaction: 9, start: 4 }]);
    assert_eq!((said[2].name(), said[3].name(), side.floor), ("Ok", "below the floor", 3));
}

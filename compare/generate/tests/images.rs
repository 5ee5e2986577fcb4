//! The images of the generator are what they are called: sound, or with one fault that stands alone; and they come in
//! every order, with every fault at every place.

use std::collections::BTreeSet;

use generate::faults::{self, FLOORED, Fault, OF_ENTRIES, PLACES, SICK, WHOLE};
use generate::hostile::{self, KEYS};
use generate::orders::{ORDERS, Order, ascends};
use generate::random::Random;
use generate::stock::Stock;
use generate::{Kind, Ops, sick, trace_of};
use paper::bend::{Bend, with_bend};
use paper::restore::Image;
use paper::run::run_trace;
use paper::store::Store;
use paper::trace::{Call, read_trace, write_trace};

/// What restore answers to these bytes on a fresh store.
fn number(image: &[u8]) -> u8 {
    Store::default().restore(image).map_or_else(|refusal| refusal.number, |()| 0)
}

/// Every order, kind of keys and size, sound.
fn sound_images() -> Vec<(Order, Image)> {
    let mut random = Random::new(7);
    let mut images = Vec::new();
    for order in ORDERS {
        for keys in KEYS {
            images.extend([1, 2, 9, 40].map(|many| (order, hostile::sound(&mut random, keys, many, order))));
        }
    }
    images
}

#[test]
fn sound_ones_are_taken() {
    for (order, image) in sound_images() {
        assert_eq!(number(&image.write()), 0, "{order:?} {image:?}");
        assert!(order != Order::Ascending || ascends(&image));
    }
    let wild = |order| sound_images().iter().filter(|(other, image)| *other == order && !ascends(image)).count();
    assert!(wild(Order::Descending) >= 12 && wild(Order::Shuffled) >= 12 && wild(Order::OneAstray) >= 8);
}

/// The rule without which an image with this fault is taken, where there is one. A default whose key or start no line can
/// have has none: it is an orphan besides. Nor has a lock of start 0: it is at or below any floor.
fn rule(fault: Fault) -> Option<Bend> {
    Some(match fault {
        Fault::LockWithoutDefault => Bend::PutLockWithoutDefaultTaken,
        Fault::Orphan | Fault::OrphanBesideRecord | Fault::OrphanBesideLock => Bend::OrphanTaken,
        Fault::TwoRecords => Bend::TwoRecordsTaken,
        Fault::LockBesideRecord => Bend::LockBesideRecordTaken,
        Fault::Trailing => Bend::ImageTrailing,
        Fault::LockTable | Fault::WriteTable => Bend::ImageOtherTable,
        Fault::DefaultRow => Bend::ImageRowUnjudged,
        Fault::SecondDefault => Bend::SecondDefaultTaken,
        Fault::LockTransaction => Bend::LockTransactionZero,
        Fault::LockAtFloor | Fault::LockBelowFloor => Bend::RustFloorTaken,
        Fault::LockTimeToLive => Bend::LockTimeToLiveZero,
        Fault::LockPrimary => Bend::LockPrimaryAny,
        Fault::SecondLock => Bend::SecondLockTaken,
        Fault::WriteStamp => Bend::RecordStampAny,
        Fault::WriteStart | Fault::RollbackStart => Bend::RecordStartZero,
        Fault::WriteCommit => Bend::RecordCommitEqual,
        Fault::RollbackCommit => Bend::RollbackCommitAbove,
        Fault::SecondWrite => Bend::SecondWriteTaken,
        Fault::PutWithoutDefault => Bend::PutWithoutDefaultTaken,
        _ => return None,
    })
}

#[test]
fn each_fault_stands_alone_at_each_place() {
    let mut random = Random::new(8);
    let stock = Stock::new(&mut random);
    for (order, image) in sound_images() {
        for fault in WHOLE.into_iter().chain(OF_ENTRIES).chain(SICK).chain(FLOORED) {
            for place in PLACES {
                let bytes = faults::one(&mut random, &stock, image.clone(), fault, place);
                assert_eq!(number(&bytes), 13, "{order:?} {fault:?} {place:?} {image:?}");
                let fault = if empty(&image, fault) { Fault::Trailing } else { fault };
                let taken = rule(fault).is_none_or(|rule| with_bend(rule, || number(&bytes)) == 0);
                assert!(taken, "{order:?} {fault:?} {place:?} {image:?}");
            }
        }
    }
}

/// Has the image no entry for the fault?
fn empty(image: &Image, fault: Fault) -> bool {
    (Fault::DefaultKey..=Fault::SecondDefault).contains(&fault) && image.defaults.is_empty()
        || (Fault::LockKey..=Fault::SecondLock).contains(&fault) && image.locks.is_empty()
        || matches!(fault, Fault::LockWithoutDefault | Fault::OrphanBesideLock) && image.locks.is_empty()
        || FLOORED.contains(&fault) && image.locks.is_empty()
}

/// The place and order of a second entry: whether the first one, the last one, the least and the greatest are met, each
/// beside the other of its kind and apart from it.
#[test]
fn seconds_stand_beside_and_apart_everywhere() {
    let mut met = BTreeSet::new();
    for seed in 0..1500 {
        for call in read_trace(&trace_of(Kind::Hostile, seed, Ops::all())).unwrap_or_default() {
            let Call::Restore { image } = call else { continue };
            let Some(image) = Image::read(&image) else { continue };
            let marks: Vec<(Vec<u8>, u64)> = image.writes.iter().map(|(key, stamp, _)| (key.clone(), *stamp)).collect();
            let second = (0..marks.len()).find_map(|at| Some((marks[..at].iter().position(|m| *m == marks[at])?, at)));
            let Some((first, second)) = second else { continue };
            let beside = if second == first + 1 { "beside" } else { "apart" };
            let order = if ascends(&image) { "ascending" } else { "in other orders" };
            let greatest = marks.iter().max() == Some(&marks[first]);
            let least = marks.iter().min() == Some(&marks[first]);
            met.insert((beside, order, "any"));
            if second + 1 == marks.len() {
                met.insert((beside, order, "last"));
            }
            if greatest {
                met.insert((beside, order, "greatest"));
            }
            if least {
                met.insert((beside, order, "least"));
            }
        }
    }
    // What stands apart does not ascend.
    assert_eq!(met.len(), 12, "{met:?}");
    assert!(!met.contains(&("apart", "ascending", "any")));
}

#[test]
fn where_restore_stands_alone_traces_are_about_images() {
    let ops = Ops::read("32,33,34").expect("a list of ops");
    let (mut restores, mut refused, mut ascending) = (0, 0, 0);
    for seed in 0..1000 {
        let trace = generate::trace(seed, ops);
        for (call, answer) in read_trace(&trace).unwrap_or_default().iter().zip(run_trace(&trace)) {
            let Call::Restore { image } = call else { continue };
            restores += 1;
            refused += usize::from(answer.number == 13);
            ascending += usize::from(Image::read(image).is_some_and(|image| ascends(&image)));
        }
    }
    assert!(restores > 2500, "{restores}");
    assert!(refused * 10 > restores * 3 && refused * 10 < restores * 8, "{refused} of {restores}");
    assert!(ascending * 10 > restores * 2 && ascending * 10 < restores * 7, "{ascending} of {restores}");
}

#[test]
fn the_named_images_answer_as_they_should() {
    for (name, calls) in hostile::cases().into_iter().chain(sick::cases()) {
        let numbers: Vec<u8> = run_trace(&write_trace(&calls)).iter().map(|answer| answer.number).collect();
        let expected: &[u8] = match name {
            "sick in each way" => &[0, 13, 13, 13, 13, 13, 13, 13, 13, 13, 13, 13, 0, 0],
            "an orphan among 1,025 defaults, and orphans alone" => &[13, 13, 0],
            "a lock below a stamp of its key" => &[0, 8, 0, 0],
            "a lock that cannot end" => &[0, 3, 9, 3],
            "calls from an image" => &[0, 0, 8, 0, 7, 0, 0, 0, 0],
            "no entries" => &[0, 0],
            _ => &[0, 0, 0, 13, 13, 13, 13, 13, 13, 13, 13, 13, 13, 13, 13, 13, 0, 0],
        };
        assert_eq!(numbers, expected, "{name}");
    }
}

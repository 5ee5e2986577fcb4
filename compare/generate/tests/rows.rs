//! Rows are of the form that they are called; every call that takes a row meets both forms; and conversions and questions
//! about bones are of every sort.

use std::collections::{BTreeMap, BTreeSet};

use generate::random::Random;
use generate::rows::{self, COUNTS, rows_of};
use generate::{Ops, bones, old, trace};
use paper::convert::{FLOOR, has_longest_row, old_image};
use paper::row::{bones_of, old_row_in_form, row_in_form};
use paper::run::{run_call, run_trace};
use paper::store::Store;
use paper::trace::{Call, read_trace, write_trace};

#[test]
fn rows_are_of_their_form() {
    let mut random = Random::new(1);
    let mut counts = BTreeSet::new();
    for _ in 0..4000 {
        let row = rows::row(&mut random);
        assert!(row_in_form(&row), "{row:?}");
        counts.extend(bones_of(&row).map(|bones| bones.count));
        assert!(row_in_form(&rows::boned_row(&mut random)));
        assert!(old_row_in_form(&rows::without_bones(&row)));
        let old = rows::old_row(&mut random);
        assert!(old_row_in_form(&old) && !row_in_form(&old), "{old:?}");
        let out = rows::row_out_of_form(&mut random, true);
        assert!(!row_in_form(&out), "{out:?}");
        assert!(rows::row_out_of_form(&mut random, false).len() <= 255);
        let out = rows::old_row_out_of_form(&mut random);
        assert!(!old_row_in_form(&out) && out.len() <= 255, "{out:?}");
    }
    assert!(COUNTS.iter().all(|count| counts.contains(count)), "{counts:?}");
    for length in 3..=255 {
        assert!(rows::row_of(length).len() == length && row_in_form(&rows::row_of(length)));
        assert!(rows::old_row_of(length - 1).len() == length - 1 && old_row_in_form(&rows::old_row_of(length - 1)));
    }
}

#[test]
fn every_call_that_takes_a_row_meets_both_forms() {
    let mut seen: BTreeMap<(u8, &str), usize> = BTreeMap::new();
    for seed in 0..1000 {
        for call in read_trace(&trace(seed, Ops::all())).unwrap_or_default() {
            for row in rows_of(&call) {
                let form = match () {
                    () if row_in_form(&row) => "that stands",
                    () if old_row_in_form(&row) => "old",
                    () => "neither",
                };
                *seen.entry((call.op(), form)).or_default() += 1;
            }
        }
    }
    println!("{seen:?}");
    for op in [6, 7, 12, 17, 18, 32, 36] {
        for form in ["that stands", "old", "neither"] {
            let met = seen.get(&(op, form)).copied().unwrap_or(0);
            assert!(met >= 12, "op {op}, rows of the form {form}: {met}");
        }
    }
}

#[test]
fn conversions_are_of_every_sort() {
    let mut seen: BTreeMap<&str, usize> = BTreeMap::new();
    for seed in 0..1000 {
        let (mut store, mut images) = (Store::default(), BTreeSet::new());
        for call in read_trace(&trace(seed, Ops::all())).unwrap_or_default() {
            let answer = run_call(&mut store, &call);
            let mut count = |what, met: bool| *seen.entry(what).or_default() += usize::from(met);
            match &call {
                Call::Restore { image } => {
                    count("restored after", answer.number == 0 && images.contains(image));
                    count("restored after in vain", answer.number != 0 && images.contains(image));
                }
                Call::Convert { buffer, image } => {
                    count("all", true);
                    count("converted again", images.contains(image));
                    count("13 before a short buffer", answer.number == 13 && *buffer == 0);
                    let Some(old) = old_image(image) else { continue };
                    count("a 255-byte row", has_longest_row(&old));
                    let needed = image.len() + FLOOR + old.defaults.len();
                    count("one byte short", answer.number == 12 && *buffer as usize + 1 == needed);
                    count("as long as the old image", answer.number == 12 && *buffer as usize == image.len());
                    if answer.number == 0 {
                        images.insert(answer.payload[..answer.count as usize].to_vec());
                        let store = old.old_store().expect("an image without fault");
                        count("exact", answer.payload.len() == needed);
                        count("sick", !store.sicknesses().is_empty());
                        count("beyond the room", store.beyond_room());
                        count("above 65,535 bytes", needed > 65_535);
                        count("a 254-byte row", old.defaults.iter().any(|(_, _, row)| row.len() == 254));
                    }
                }
                _ => {}
            }
        }
    }
    println!("{seen:?}");
    let often = [("all", 600), ("exact", 120), ("one byte short", 40), ("sick", 50), ("restored after", 60)];
    let few = [
        ("restored after in vain", 20),
        ("converted again", 20),
        ("13 before a short buffer", 20),
        ("as long as the old image", 8),
        ("a 255-byte row", 20),
        ("a 254-byte row", 20),
        ("beyond the room", 3),
        ("above 65,535 bytes", 3),
    ];
    for (what, least) in often.into_iter().chain(few) {
        assert!(seen[what] >= least, "{what}: {seen:?}");
    }
}

/// The fixed cases: each conversion and question of the sample answers as it should.
#[test]
fn the_named_cases_answer_as_they_should() {
    for (name, calls) in old::cases().into_iter().chain(bones::cases()) {
        let numbers: Vec<u8> = run_trace(&write_trace(&calls)).iter().map(|answer| answer.number).collect();
        let expected: &[u8] = match name {
            "an old image that just fits into the longest buffer" => &[0],
            "an old image one byte longer" => &[12],
            "a full box, converted and restored" => &[0, 0, 0, 0],
            "a full box that fits no longer" => &[0, 11, 0, 0],
            "a converter's buffer past the most" => &[6],
            _ => continue,
        };
        assert_eq!(numbers, expected, "{name}");
    }
}

//! Change request 4: the row's third section, the two questions, and where a row without it is refused.

mod common;

use common::*;
use paper::answer::{IMAGE, ROW as NO_ROW, ZERO};
use paper::restore::{Image, RawRecord};
use paper::row::{bones_of, old_row_in_form, row_in_form};
use paper::store::Kind;
use paper::trace::Call;

/// A row without integers and texts, with this third section.
fn bones(section: &[u8]) -> Vec<u8> {
    [&[0, 0], section].concat()
}

fn ask(number: u64, row: &[u8]) -> (u8, u8) {
    let answer = last(&[Call::Bone { number, row: row.to_vec() }]);
    assert_eq!((answer.count, answer.payload.len()), (0, 1));
    (answer.number, answer.payload[0])
}

fn how_many(row: &[u8]) -> (u8, u8) {
    let answer = last(&[Call::Bones { row: row.to_vec() }]);
    assert_eq!((answer.count, answer.payload.len()), (0, 1));
    (answer.number, answer.payload[0])
}

/// "the fewest bytes that hold one bit a bone": for each count just one length of the mask, and no spare bit.
#[test]
fn every_count_has_one_mask_length_and_its_spare_bits() {
    for count in 0..=255_u8 {
        let bytes = usize::from(count).div_ceil(8);
        for length in 0..=34 {
            let row = bones(&[&[count][..], &vec![0; length]].concat());
            assert_eq!(row_in_form(&row), length == bytes, "{count} bones in {length} bytes");
        }
        for bit in 0..8 * bytes {
            let mut mask = vec![0; bytes];
            mask[bit / 8] = 1 << (bit % 8);
            let row = bones(&[&[count][..], &mask].concat());
            assert_eq!(row_in_form(&row), bit < usize::from(count), "bit {bit} of {count} bones");
        }
    }
}

/// No bytes are rows of both forms, and each old row is one of the form that stands once a zero count follows.
#[test]
fn no_row_is_of_both_forms() {
    for old in
        [vec![0, 0], vec![0, 1, 1, b'x'], [&[1][..], &[9; 8], &[0]].concat(), [vec![0, 1, 251], vec![7; 251]].concat()]
    {
        assert!(old_row_in_form(&old) && !row_in_form(&old));
        let new = [&old[..], &[0]].concat();
        assert!(row_in_form(&new) && !old_row_in_form(&new));
        assert_eq!(bones_of(&new).map(|bones| bones.count), Some(0));
    }
    for bytes in (0..=3_usize).flat_map(|length| (0..5_usize.pow(length as u32)).map(move |n| (length, n))) {
        let (length, number) = bytes;
        let row: Vec<u8> = (0..length).map(|at| (number / 5_usize.pow(at as u32) % 5) as u8).collect();
        assert!(!(old_row_in_form(&row) && row_in_form(&row)), "{row:?}");
        assert_eq!(row_in_form(&row), row == ROW, "the smallest row alone has three bytes: {row:?}");
    }
}

/// "Lengths stay at most 255".
#[test]
fn the_longest_rows() {
    let row = |length: usize, section: &[u8]| {
        let text = length - 3 - section.len();
        [&[0, 1, text as u8][..], &vec![b't'; text], section].concat()
    };
    let all = [&[255][..], &[255; 31], &[127]].concat();
    for section in [&[0][..], &[8, 1], &all] {
        assert!(row_in_form(&row(255, section)) && !row_in_form(&row(256, section)));
    }
    assert_eq!(how_many(&row(255, &all)), (0, 255));
    assert_eq!(how_many(&row(256, &all)), (NO_ROW, 0));
}

/// "whether bone n is shown": 2, then 3, and bone 0 in the lowest bit of the first byte.
#[test]
fn one_bone() {
    let nine = bones(&[9, 0x02, 0x01]);
    for bone in 0..9 {
        assert_eq!(ask(bone, &nine), (0, u8::from(bone == 1 || bone == 8)), "bone {bone}");
    }
    for above in [9, 10, 255, 256, 257, 264, 1 << 32, (1 << 32) + 1, u64::MAX] {
        assert_eq!(ask(above, &nine), (ZERO, 0), "bone {above}");
    }
    assert_eq!(ask(0, &ROW), (ZERO, 0));
    let most = bones(&[&[255][..], &[0; 31], &[0x40]].concat());
    assert_eq!((ask(254, &most), ask(253, &most), ask(255, &most)), ((0, 1), (0, 0), (ZERO, 0)));
    for row in [&[0, 0][..], &[0, 0, 0, 0], &[0, 0, 1, 2], &[0, 0, 1], &[0, 0, 8, 1, 0], &[]] {
        for bone in [0, 1, 256, u64::MAX] {
            assert_eq!(ask(bone, row), (NO_ROW, 0), "{row:?}");
        }
    }
}

#[test]
fn how_many_bones() {
    assert_eq!(how_many(&ROW), (0, 0));
    assert_eq!(how_many(&bones(&[7, 0x55])), (0, 4));
    assert_eq!(how_many(&bones(&[9, 0xFF, 1])), (0, 9));
    assert_eq!(how_many(&bones(&[16, 0x0F, 0])), (0, 4));
    for row in [&[0, 0][..], &[0, 0, 0, 0], &[0, 0, 7, 0x80], &[0, 0, 9, 1], &[0]] {
        assert_eq!(how_many(row), (NO_ROW, 0), "{row:?}");
    }
}

/// "a row without the section is 2 as an argument and 13 in an image".
#[test]
fn an_old_row_is_2_as_an_argument_and_13_in_an_image() {
    for (row, taken) in [(&[0, 0][..], false), (&[0, 0, 0], true), (&[0, 0, 1, 1], true), (&[0, 0, 1, 2], false)] {
        let batch = [&[0, 1, 5][..], &a(), &[1, row.len() as u8], row].concat();
        let (transaction, start, time_to_live, kind, primary) = (7, 10, 1, Kind::Put, a());
        let calls = [
            Call::Prewrite { transaction, start, time_to_live, kind, primary: a(), key: a(), row: row.to_vec() },
            Call::PrewriteBatch { transaction, start, time_to_live, primary, batch: batch.clone() },
            Call::OneStep { transaction, start, commit: 12, batch },
        ];
        for call in calls {
            assert_eq!(last(&[call]).number, if taken { 0 } else { NO_ROW }, "{row:?}");
        }
        let writes = vec![(a(), 12, RawRecord { start: 10, commit: 12, kind: 1 })];
        let image = Image { table: 1, defaults: vec![(a(), 10, row.to_vec())], writes, ..Image::default() };
        let read = last(&[restore(&image), read(a(), 12)]);
        assert_eq!(last(&[restore(&image)]).number, if taken { 0 } else { IMAGE }, "{row:?}");
        assert_eq!(shown(&read), taken.then(|| row.to_vec()));
    }
    // A Delete's row argument is ignored, whatever it is.
    let (transaction, start, time_to_live, kind, primary, key) = (7, 10, 1, Kind::Delete, a(), a());
    let delete = Call::Prewrite { transaction, start, time_to_live, kind, primary, key, row: vec![0, 0] };
    assert_eq!(last(&[delete]).number, 0);
}

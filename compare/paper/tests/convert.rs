//! The converter of change request 4: which images it takes, what it writes, its refusals, and its buffer. Old images have no
//! floor; what it writes has floor 0 (change request 7).

mod common;

use common::*;
use paper::answer::{IMAGE, NO_ROOM, SHORT_BUFFER};
use paper::convert::FLOOR;
use paper::restore::{Image, RawLock, RawRecord};
use paper::room::LIVE_BYTES;
use paper::run::{BEFORE, run_call};
use paper::store::Store;
use paper::trace::{Call, LONG_BUFFER};

/// A row of document 01's own form, of this length.
fn old_row(length: usize) -> Vec<u8> {
    match length {
        2 => vec![0, 0],
        _ => [&[0, 1, (length - 3) as u8][..], &vec![b't'; length - 3]].concat(),
    }
}

fn convert(image: Vec<u8>, buffer: usize) -> Call {
    Call::Convert { buffer: buffer as u32, image }
}

fn put(key: Vec<u8>, start: u64, commit: u64) -> (Vec<u8>, u64, RawRecord) {
    (key, commit, RawRecord { start, commit, kind: 1 })
}

/// b's default before a's, and the writes the other way round.
fn image(rows: [usize; 2]) -> Image {
    let lock = |start| RawLock { transaction: 7, primary: a(), start, time_to_live: 1, kind: 2 };
    Image {
        table: 1,
        defaults: vec![(b(), 5, old_row(rows[0])), (a(), 6, old_row(rows[1]))],
        locks: vec![(b(), lock(9)), (a(), lock(8))],
        writes: vec![put(a(), 6, 7), put(b(), 5, 6)],
        ..Image::default()
    }
}

/// The conversion's number, and the image that it wrote; a refusal leaves the buffer.
fn converted(image: &[u8], buffer: usize) -> Result<Vec<u8>, u8> {
    let answer = last(&[convert(image.to_vec(), buffer)]);
    assert_eq!(answer.payload.len(), buffer);
    let (written, rest) = answer.payload.split_at(answer.count as usize);
    assert!(rest.iter().all(|byte| *byte == BEFORE), "what is beyond stays as it was");
    if answer.number == 0 { Ok(written.to_vec()) } else { Err(answer.number) }
}

/// "adds a zero count to each row of an old image": the order and all else stay.
#[test]
fn each_row_gets_a_zero_count() {
    let old = image([2, 40]);
    let mut new = old.clone();
    new.defaults.iter_mut().for_each(|(_, _, row)| row.push(0));
    let bytes = old.write_old();
    assert_eq!(converted(&bytes, bytes.len() + FLOOR + 2), Ok(new.write()));
    assert_eq!(converted(&bytes, bytes.len() + FLOOR + 9), Ok(new.write()));
    assert_eq!(new.write()[..13], [0, 0, 0, 1, 0, 0, 0, 0, 0, 0, 0, 0, 0]);
    assert_eq!(numbers(&[restore(&old), restore(&new), read(a(), 7)]), [IMAGE, 0, 0]);
    assert_eq!(shown(&last(&[restore(&new), read(b(), 6)])), Some(ROW.to_vec()));
    // Once more: its rows are not document 01's.
    assert_eq!(converted(&new.write(), 999), Err(IMAGE));
}

/// "then a short buffer 12".
#[test]
fn buffers() {
    let bytes = image([2, 2]).write_old();
    for short in [0, 1, 4, bytes.len(), bytes.len() + FLOOR + 1] {
        assert_eq!(converted(&bytes, short), Err(SHORT_BUFFER), "a buffer of {short}");
    }
    for fault in [&bytes[1..], &bytes[..bytes.len() - 1], &[&bytes[..], &[0]].concat(), &[]] {
        for buffer in [0, 4, 999] {
            assert_eq!(converted(fault, buffer), Err(IMAGE));
        }
    }
}

/// "a 255-byte row is 13", before 12; one of 254 bytes becomes the longest.
#[test]
fn long_rows() {
    for rows in [[255, 2], [2, 255], [254, 255]] {
        let bytes = image(rows).write_old();
        assert_eq!([0, 999].map(|buffer| converted(&bytes, buffer)), [Err(IMAGE), Err(IMAGE)]);
    }
    let longest = converted(&image([253, 254]).write_old(), 999).expect("254 bytes have place for one more");
    let lengths: Vec<usize> = Image::read(&longest).expect("in form").defaults.iter().map(|d| d.2.len()).collect();
    assert_eq!(lengths, [254, 255]);
    assert_eq!(last(&[Call::Restore { image: longest }]).number, 0);
}

/// "a fault by 01's image checks": no others. A sick image is converted, and restore refuses it then.
#[test]
fn sick_images_are_converted() {
    let bare_lock = RawLock { transaction: 7, primary: a(), start: 3, time_to_live: 1, kind: 1 };
    let lines = |writes: Vec<_>| Image { table: 1, writes, ..Image::default() };
    let delete = |start, commit| (a(), commit, RawRecord { start, commit, kind: 2 });
    let sick = [
        Image { table: 1, defaults: vec![(a(), 10, old_row(2))], ..Image::default() },
        Image { table: 1, locks: vec![(a(), bare_lock)], ..Image::default() },
        lines(vec![delete(3, 4), delete(3, 7)]),
    ];
    for old in sick {
        let new = converted(&old.write_old(), 99).expect("it has no fault by document 01's checks");
        assert_eq!(last(&[Call::Restore { image: new }]).number, IMAGE);
    }
    let faults = [
        Image { table: 0, ..Image::default() },
        Image { table: 1, defaults: vec![(a(), 0, old_row(2))], ..Image::default() },
        Image { table: 1, defaults: vec![(a(), 10, old_row(2)), (a(), 10, old_row(3))], ..Image::default() },
        Image { table: 2, defaults: vec![(a(), 10, old_row(2))], ..Image::default() },
        lines(vec![put(a(), 3, 4)]),
        lines(vec![delete(3, 4), delete(2, 4)]),
        lines(vec![delete(4, 4)]),
    ];
    for old in faults {
        assert_eq!(converted(&old.write_old(), 99), Err(IMAGE), "{old:?}");
    }
}

/// An image without defaults gets its floor alone. Then it is no old image any more: the floor's zero bytes read as counts, and
/// bytes are left over.
#[test]
fn without_defaults() {
    for old in [Image { table: 9, ..Image::default() }, image_of_lines(3, 2)] {
        let bytes = old.write_old();
        assert_eq!(converted(&bytes, bytes.len() + FLOOR), Ok(old.write()));
        assert_eq!(converted(&bytes, bytes.len() + FLOOR - 1), Err(SHORT_BUFFER));
        assert_eq!(converted(&old.write(), 999), Err(IMAGE));
    }
}

/// "no room": one that is full converts and fits no longer, and one that is far beyond converts.
#[test]
fn the_room_is_not_judged() {
    let mut full = Image { table: 1, ..Image::default() };
    let mut left = LIVE_BYTES;
    for number in 0.. {
        let name = key(&[b'n', number]);
        let row = if left <= 12 + 254 { left - 12 } else { 200 };
        full.defaults.push((name.clone(), 1, old_row(row)));
        full.writes.push(put(name, 1, 2));
        left -= 12 + row;
        if left == 0 {
            break;
        }
    }
    let bytes = full.write_old();
    let new = converted(&bytes, bytes.len() + FLOOR + full.defaults.len()).expect("it is not judged by the room");
    assert_eq!(last(&[Call::Restore { image: new }]).number, NO_ROOM);
    let beyond = image_of_lines(2000, 300);
    assert_eq!(converted(&beyond.write_old(), beyond.write().len()), Ok(beyond.write()));
    assert_eq!(last(&[restore(&beyond)]).number, NO_ROOM);
}

/// The store of the trace is not touched.
#[test]
fn the_store_stays() {
    let mut store = Store::default();
    run_call(&mut store, &prewrite(a(), 10));
    let before = store.clone();
    for buffer in [0, 999, LONG_BUFFER as usize] {
        run_call(&mut store, &convert(image([2, 2]).write_old(), buffer));
    }
    assert_eq!(store, before);
}

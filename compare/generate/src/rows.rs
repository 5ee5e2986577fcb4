//! Rows in form, of document 01's own form, and of neither: with bones at every count where a mask's bytes or its spare bits
//! change, and with each fault of the third section.

use paper::form::mutation_batch;
use paper::restore::Image;
use paper::row::{bones_of, old_row_in_form};
use paper::store::{Bytes, Kind};
use paper::trace::Call;

use crate::random::Random;

/// "the smallest row is 00 00 00".
pub const SMALLEST: [u8; 3] = [0, 0, 0];
/// The longest row.
const LONGEST: usize = 255;
/// The counts at which the bytes of a mask or its spare bits change, and the extremes.
pub const COUNTS: [u8; 14] = [0, 1, 2, 7, 8, 9, 15, 16, 17, 64, 127, 128, 254, 255];

/// A row in form; most are short.
pub fn row(random: &mut Random) -> Bytes {
    match random.below(20) {
        0..6 => SMALLEST.to_vec(),
        6 => row_of(LONGEST),
        7 => row_of(LONGEST - 1),
        8..12 => with_section(random, &[0]),
        12 => boned_row_of(random, LONGEST),
        _ => boned_row(random),
    }
}

/// A row in form with bones at one of the counts, most of them few.
pub fn boned_row(random: &mut Random) -> Bytes {
    let count = match random.below(4) {
        0 => *random.pick(&COUNTS),
        1 => random.below(256) as u8,
        _ => *random.pick(&[1, 2, 3, 7, 8, 9, 16, 17]),
    };
    let section = bones(random, count);
    with_section(random, &section)
}

/// Document 01's sections, of which there is place, before this third one.
fn with_section(random: &mut Random, section: &[u8]) -> Bytes {
    let mut old = old_row(random);
    while old.len() + section.len() > LONGEST {
        old = old_row(random);
    }
    [&old[..], section].concat()
}

/// The third section with this count: no bone shown, all, one, or any.
pub fn bones(random: &mut Random, count: u8) -> Bytes {
    let length = usize::from(count).div_ceil(8);
    let mut mask = match random.below(6) {
        0 => vec![0; length],
        1 => vec![255; length],
        2 if count > 0 => {
            let bone = random.below(usize::from(count));
            let mut mask = vec![0; length];
            mask[bone / 8] = 1 << (bone % 8);
            mask
        }
        _ => random.bytes(length),
    };
    if let Some(last) = mask.last_mut() {
        *last &= 255 >> spare(count);
    }
    [&[count][..], &mask].concat()
}

/// How many spare bits the last byte of a mask has.
fn spare(count: u8) -> usize {
    (8 - usize::from(count) % 8) % 8
}

/// A row in form of just this length, 3 or more, without bones.
pub fn row_of(length: usize) -> Bytes {
    [&old_row_of(length - 1)[..], &[0]].concat()
}

/// The same with bones; of 40 bytes or more.
fn boned_row_of(random: &mut Random, length: usize) -> Bytes {
    let count = *random.pick(&COUNTS);
    let section = bones(random, count);
    [&old_row_of(length - section.len())[..], &section].concat()
}

/// A row of document 01's own form; most are short.
pub fn old_row(random: &mut Random) -> Bytes {
    match random.below(20) {
        0..6 => vec![0, 0],
        6..9 => vec![0, 1, 1, *random.pick(b"xyz")],
        9..12 => [&[1][..], &random.bytes(8), &[0]].concat(),
        12 => [&[8][..], &random.bytes(64), &[0]].concat(),
        13 => [&[0, 8][..], &[0; 8]].concat(),
        14 => vec![0, 1, 2, 0xC3, 0x28],
        15 => old_row_of(*random.pick(&[LONGEST, LONGEST - 1, LONGEST - 2])),
        16 => [&[8][..], &random.bytes(64), &[8], &[1, 7].repeat(8)].concat(),
        17 => vec![0, 2, 0, 3, 0, 0, 255],
        _ => {
            let length = random.between(4, 60);
            old_row_of(length)
        }
    }
}

/// A row of document 01's own form, of just this length, 2 or more.
pub fn old_row_of(length: usize) -> Bytes {
    match length {
        2 => vec![0, 0],
        _ => [&[0, 1, (length - 3) as u8][..], &vec![b't'; length - 3]].concat(),
    }
}

/// The row as it was before the third section; a row out of form stays as it is.
pub fn without_bones(row: &[u8]) -> Bytes {
    let section = bones_of(row).map_or(0, |bones| 1 + bones.mask.len());
    row[..row.len() - section].to_vec()
}

/// A row out of form: one of document 01's, with a fault in the third section or in another; alone also one above 255 bytes
/// whose sections read well.
pub fn row_out_of_form(random: &mut Random, alone: bool) -> Bytes {
    match random.below(if alone { 14 } else { 12 }) {
        0..4 => old_row(random),
        4..9 => bones_out_of_form(random),
        9..12 => [&old_sections_out_of_form(random)[..], &[0]].concat(),
        12 => {
            let section = bones(random, 255);
            [&old_row_of(LONGEST - section.len() + random.between(1, 8))[..], &section].concat()
        }
        _ => [&[0, 2, 200][..], &[b'x'; 200], &[97], &[b'y'; 97], &[0]].concat(),
    }
}

/// Short sections, and a third one with a fault: no count, a mask byte too few or too many, or a spare bit set.
pub fn bones_out_of_form(random: &mut Random) -> Bytes {
    let before = random.pick(&[&[0, 0][..], &[0, 0], &[0, 1, 1, b'x'], &[1, 0, 0, 0, 0, 0, 0, 0, 9, 0]]).to_vec();
    let count = match random.below(4) {
        0 => *random.pick(&[254, 255, 255]),
        1 => random.number() as u8,
        _ => *random.pick(&COUNTS),
    };
    let mut section = bones(random, count);
    match random.below(8) {
        0 | 1 => section.push(*random.pick(&[0, 0, 1, 255])),
        2 if count > 0 => {
            section.pop();
        }
        3 => section.extend([0, 0]),
        _ if spare(count) > 0 => {
            let any = 7 - random.below(spare(count));
            let bit = *random.pick(&[8 - spare(count), 7, any]);
            *section.last_mut().expect("a mask byte") |= 1 << bit;
        }
        _ => section.push(0),
    }
    [before, section].concat()
}

/// A fault in document 01's own sections: nothing that follows makes a row of it.
fn old_sections_out_of_form(random: &mut Random) -> Bytes {
    match random.below(12) {
        0 => Bytes::new(),
        1 => vec![0],
        2..5 => [&[9][..], &[0; 72], &[0]].concat(),
        5..8 => [&[0, 9][..], &[0; 9]].concat(),
        8 => vec![0, 1, 2],
        9 => vec![1, 0, 0, 0, 0],
        10 => [&[1][..], &[0; 7]].concat(),
        _ => vec![0, 8, 0, 0],
    }
}

/// A row that document 01 does not know: of the form that stands, or of none.
pub fn old_row_out_of_form(random: &mut Random) -> Bytes {
    loop {
        let drawn = match random.below(3) {
            0 => row(random),
            1 => bones_out_of_form(random),
            _ => old_sections_out_of_form(random),
        };
        if !old_row_in_form(&drawn) {
            return drawn;
        }
    }
}

/// The rows that a call takes.
pub fn rows_of(call: &Call) -> Vec<Bytes> {
    match call {
        Call::Prewrite { kind: Kind::Put, row, .. } | Call::Bone { row, .. } | Call::Bones { row } => vec![row.clone()],
        Call::PrewriteBatch { batch, .. } | Call::OneStep { batch, .. } => {
            let entries = mutation_batch(batch).unwrap_or_default();
            entries.into_iter().filter(|entry| entry.kind == Kind::Put).map(|entry| entry.row).collect()
        }
        Call::Restore { image } => rows_in(Image::read(image)),
        Call::Convert { image, .. } => rows_in(Image::read_old(image)),
        _ => Vec::new(),
    }
}

fn rows_in(image: Option<Image>) -> Vec<Bytes> {
    image.map_or(Vec::new(), |image| image.defaults.into_iter().map(|(_, _, row)| row).collect())
}

//! Stand-in for ragnordb_common's row encoding, written from document 01: "Row: count byte 0 to 8, that many 8-byte
//! signed integers; count byte 0 to 8, that many texts, each a length byte and its bytes. Length 2 to 255." and from change
//! request 4: "A row gets a third section: a bone count byte 0 to 255, then the fewest bytes that hold one bit a bone, bone 0
//! in the lowest bit of the first byte, spare bits zero. [..] Lengths stay at most 255, the smallest row is 00 00 00".

use crate::{Error, Result};

/// A row in form, taken apart. A text holds any bytes.
#[derive(Clone, Debug, Default, PartialEq, Eq)]
pub struct Row {
    pub integers: Vec<i64>,
    pub texts: Vec<Vec<u8>>,
    /// For each bone whether it is shown.
    pub bones: Vec<bool>,
}

/// Reads a row, or refuses one that is not in form.
pub fn decode_row(bytes: &[u8]) -> Result<Row> {
    if bytes.len() < 3 || bytes.len() > 255 {
        return Err(fault("length is not 3 to 255"));
    }
    let mut row = Row::default();
    let mut at = 1;
    if bytes[0] > 8 {
        return Err(fault("more than 8 integers"));
    }
    for _ in 0..bytes[0] {
        let Some(integer) = bytes.get(at..at + 8) else {
            return Err(fault("an integer is cut"));
        };
        row.integers.push(i64::from_be_bytes(integer.try_into().expect("eight bytes")));
        at += 8;
    }
    let Some(count) = bytes.get(at).copied() else {
        return Err(fault("no count of texts"));
    };
    if count > 8 {
        return Err(fault("more than 8 texts"));
    }
    at += 1;
    for _ in 0..count {
        let Some(length) = bytes.get(at).map(|length| *length as usize) else {
            return Err(fault("no length of a text"));
        };
        let Some(text) = bytes.get(at + 1..at + 1 + length) else {
            return Err(fault("a text is cut"));
        };
        row.texts.push(text.to_vec());
        at += 1 + length;
    }
    let Some((count, mask)) = bytes[at..].split_first() else {
        return Err(fault("no count of bones"));
    };
    row.bones = decode_bones(*count, mask)?;
    Ok(row)
}

/// Each byte of the mask gives up to 8 bones; what is left of the last must be zero, and no byte may be left.
fn decode_bones(count: u8, mask: &[u8]) -> Result<Vec<bool>> {
    let mut bones = Vec::new();
    let mut left = mask.iter();
    while bones.len() < usize::from(count) {
        let Some(byte) = left.next() else {
            return Err(fault("the bones are cut"));
        };
        let mut bits = *byte;
        for _ in 0..8.min(usize::from(count) - bones.len()) {
            bones.push(bits % 2 == 1);
            bits /= 2;
        }
        if bits != 0 && bones.len() == usize::from(count) {
            return Err(fault("a spare bit is set"));
        }
    }
    match left.next() {
        Some(_) => Err(fault("bytes follow the bones")),
        None => Ok(bones),
    }
}

fn fault(text: &str) -> Error {
    Error::CorruptData(format!("row not in form: {text}"))
}

//! "Row": document 01's own form, and the third section that change request 4 adds.

use crate::bend::{Bend, bent};
use crate::form::Reader;

/// "Length 2 to 255", and "Lengths stay at most 255".
pub const MOST: usize = 255;

/// The third section of a row: how many bones it has, and the bytes with a bit for each.
#[derive(Clone, Copy, Debug, PartialEq, Eq)]
pub struct Bones<'a> {
    pub count: u8,
    pub mask: &'a [u8],
}

impl Bones<'_> {
    /// "one bit a bone, bone 0 in the lowest bit of the first byte". A bit beyond the mask's bytes is not set; there is none
    /// below the count.
    pub fn shown(&self, bone: usize) -> bool {
        let byte = if bent(Bend::BonesFromLastByte) {
            (bone / 8 < self.mask.len()).then(|| self.mask[self.mask.len() - 1 - bone / 8])
        } else {
            self.mask.get(bone / 8).copied()
        };
        let place = if bent(Bend::BonesFromHighestBit) { 7 - bone % 8 } else { bone % 8 };
        byte.is_some_and(|byte| byte >> place & 1 == 1)
    }

    /// "spare bits zero": those of the mask's bits that are no bone's.
    fn spare_bits_zero(&self) -> bool {
        let (count, bits) = (usize::from(self.count), 8 * self.mask.len());
        let judged = match () {
            () if bent(Bend::SpareBitsAny) => 0..0,
            () if bent(Bend::SpareLowestAlone) => count..bits.min(count + 1),
            () if bent(Bend::SpareHighestAlone) => bits.saturating_sub(1).max(count)..bits,
            () if bent(Bend::SpareOfOneByteAlone) && bits > 8 => 0..0,
            () if bent(Bend::SpareOf255Unjudged) && count == 255 => 0..0,
            () if bent(Bend::FullByteIsSpare) && count.is_multiple_of(8) => bits.saturating_sub(8)..bits,
            () => count..bits,
        };
        judged.into_iter().all(|bit| !self.shown(bit))
    }
}

/// "A row gets a third section": is it in the form that stands?
pub fn row_in_form(row: &[u8]) -> bool {
    bones_of(row).is_some() || bent(Bend::OldRowTaken) && old_row_in_form(row)
}

/// The bones of a row in form: "a bone count byte 0 to 255, then the fewest bytes that hold one bit a bone, bone 0 in the
/// lowest bit of the first byte, spare bits zero. [..] Lengths stay at most 255, the smallest row is 00 00 00". The length
/// is part of the form; no row below 3 bytes has three counts.
pub fn bones_of(row: &[u8]) -> Option<Bones<'_>> {
    let bones = third_section(row)?;
    let most = match () {
        () if bent(Bend::RowOfAnyLength) => usize::MAX,
        () if bent(Bend::BonesBeyondLength) => MOST + 1 + bones.mask.len(),
        () if bent(Bend::RowTo254) => MOST - 1,
        () => MOST,
    };
    (row.len() <= most && bones.spare_bits_zero()).then_some(bones)
}

/// The third section of a row whose sections read to its end; length and spare bits are not judged.
pub fn third_section(row: &[u8]) -> Option<Bones<'_>> {
    let mut reader = Reader::new(row);
    integers(&mut reader)?;
    let bones = if bent(Bend::BonesBeforeTexts) {
        let bones = bones(&mut reader)?;
        texts(&mut reader)?;
        bones
    } else {
        texts(&mut reader)?;
        bones(&mut reader)?
    };
    nothing_follows(&reader)?;
    Some(bones)
}

fn bones<'a>(reader: &mut Reader<'a>) -> Option<Bones<'a>> {
    let count = reader.byte()?;
    let most = match () {
        () if bent(Bend::BonesTo254) => 254,
        () if bent(Bend::BonesTo127) => 127,
        () if bent(Bend::BonesToEight) => 8,
        () => 255,
    };
    let mask = reader.take(mask_length(count.into()))?;
    (count <= most).then_some(Bones { count, mask })
}

/// "the fewest bytes that hold one bit a bone".
fn mask_length(count: usize) -> usize {
    match () {
        () if bent(Bend::MaskOfWholeBytesAlone) => count / 8,
        () if bent(Bend::MaskOneByteMore) => count / 8 + 1,
        () if bent(Bend::MaskOf32Bytes) => 32,
        () if bent(Bend::MaskOneByteABone) => count,
        () => count.div_ceil(8),
    }
}

/// Document 01's own form, for images that were written before: "Row: count byte 0 to 8, that many 8-byte signed integers;
/// count byte 0 to 8, that many texts, each a length byte and its bytes. Length 2 to 255."
pub fn old_row_in_form(row: &[u8]) -> bool {
    let mut reader = Reader::new(row);
    let read = integers(&mut reader).and_then(|()| texts(&mut reader)).and_then(|()| nothing_follows(&reader));
    row.len() <= MOST && read.is_some()
}

/// "count byte 0 to 8, that many 8-byte signed integers".
fn integers(reader: &mut Reader) -> Option<()> {
    let integers = reader.byte()? as usize;
    if integers > if bent(Bend::RowNineIntegers) { 9 } else { 8 } {
        return None;
    }
    reader.take(integers * if bent(Bend::RowIntegersOfFour) { 4 } else { 8 })?;
    Some(())
}

/// "count byte 0 to 8, that many texts, each a length byte and its bytes". The texts hold any bytes.
fn texts(reader: &mut Reader) -> Option<()> {
    let texts = reader.byte()? as usize;
    if texts > if bent(Bend::RowNineTexts) { 9 } else { 8 } {
        return None;
    }
    for _ in 0..texts {
        let text = reader.short()?;
        if bent(Bend::RowTextsUtf8) && std::str::from_utf8(&text).is_err() {
            return None;
        }
    }
    Some(())
}

/// "nothing may follow".
fn nothing_follows(reader: &Reader) -> Option<()> {
    if bent(Bend::RowTrailing) { Some(()) } else { reader.ended() }
}

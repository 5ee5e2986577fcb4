//! The two questions of change request 4: "whether bone n is shown, and how many bones are shown". They are asked of a row
//! argument and touch no store.

use crate::answer::{ROW, Refusal, ZERO, refuse};
use crate::bend::{Bend, bent};
use crate::row::{Bones, bones_of, old_row_in_form, third_section};

/// "whether bone n is shown". A bone that is not is no refusal.
pub fn bone_shown(number: u64, row: &[u8]) -> Result<bool, Refusal> {
    let number = match () {
        () if bent(Bend::BoneNumberOfOneByte) => number % 256,
        () if bent(Bend::BoneNumberOfFourBytes) => number % (1 << 32),
        () => number,
    };
    if number_first(number, row) {
        return refuse(ZERO);
    }
    // "a row without the section is 2 as an argument": so is any other fault of its form
    let bones = asked(row)?;
    // "a bone number not below the count is 3"
    let count = u64::from(bones.count);
    if number > count || number == count && !bent(Bend::BoneAtCountTaken) {
        return if bent(Bend::BoneAboveIsHidden) { Ok(false) } else { refuse(ZERO) };
    }
    if number + 1 == count && bent(Bend::LastBoneRefused) {
        return refuse(ZERO);
    }
    let shown = asked_bit(bones, number as usize);
    if !shown && bent(Bend::HiddenBoneRefused) { refuse(ZERO) } else { Ok(shown) }
}

/// "how many bones are shown".
pub fn bones_shown(row: &[u8]) -> Result<u8, Refusal> {
    let bones = asked(row)?;
    let shown = (0..usize::from(bones.count)).filter(|bone| bones.shown(*bone)).count();
    let whole = usize::from(bones.count) / 8 * 8;
    let shown = match () {
        () if bent(Bend::ManyIsTheCount) => usize::from(bones.count),
        () if bent(Bend::ManyOfHidden) => usize::from(bones.count) - shown,
        () if bent(Bend::ManyOfFirstByte) => (0..8).filter(|bone| bones.shown(*bone)).count(),
        () if bent(Bend::ManyOfWholeBytes) => (0..whole).filter(|bone| bones.shown(*bone)).count(),
        () if bent(Bend::ManyOfBytes) => bones.mask.iter().filter(|byte| **byte != 0).count(),
        () if bent(Bend::ManyTo127) => shown % 128,
        () => shown,
    };
    Ok(shown as u8)
}

/// The bones of the row that is asked, or 2.
fn asked(row: &[u8]) -> Result<Bones<'_>, Refusal> {
    let none = Bones { count: 0, mask: &[] };
    match bones_of(row) {
        Some(bones) => Ok(bones),
        None if bent(Bend::OldRowHasNoBones) && old_row_in_form(row) => Ok(none),
        None => refuse(ROW),
    }
}

/// The bit of a bone below the count.
fn asked_bit(bones: Bones, bone: usize) -> bool {
    let byte = |at: usize| bones.mask.get(at).copied().unwrap_or(0);
    match () {
        () if bent(Bend::AskedFromHighestBit) => byte(bone / 8) >> (7 - bone % 8) & 1 == 1,
        () if bent(Bend::AskedFromLastByte) => byte(bones.mask.len() - 1 - bone / 8) >> (bone % 8) & 1 == 1,
        () if bent(Bend::AskedInFirstByte) => byte(0) >> (bone % 8) & 1 == 1,
        () if bent(Bend::AskedFromOne) => bone > 0 && bones.shown(bone - 1),
        () if bent(Bend::AskedByteNotZero) => byte(bone / 8) != 0,
        () => bones.shown(bone),
    }
}

/// Wrong orders of 2 and 3: is it 3 although the row is out of form?
fn number_first(number: u64, row: &[u8]) -> bool {
    let past = |bones: Bones| number >= u64::from(bones.count);
    bent(Bend::LargeBoneNumberFirst) && number >= 255
        || bent(Bend::BoneNumberBeforeSpareBits) && third_section(row).is_some_and(past)
        || bent(Bend::BoneOfOldRowIs3) && old_row_in_form(row)
}

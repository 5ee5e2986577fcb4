//! Wrong conversions, each a bend of the converter: images refused that are not, other orders and other rows, and what a
//! refusal leaves in the buffer or counts. Unbent, each function here says what the converter does.

use crate::answer::{Answer, IMAGE, NO_ROOM, SHORT_BUFFER};
use crate::bend::{Bend, bent};
use crate::convert::{FLOOR, has_longest_row, old_image, with_counts};
use crate::restore::Image;
use crate::room::LIVE_BYTES;
use crate::row::{MOST, bones_of};
use crate::sick::Sickness;
use crate::store::{Bytes, Store};

/// Is a short buffer found before a fault?
pub fn short_first(image: &[u8], buffer: usize) -> bool {
    let needed = || Image::read_old(image).map_or(0, |read| read.defaults.len()) + image.len() + FLOOR;
    let all_but_longest = || old_image(image).is_some_and(|old| has_longest_row(&old));
    bent(Bend::ConvertShortFirst) && buffer < needed()
        || bent(Bend::ConvertShortBeforeLongestRow) && all_but_longest() && buffer < needed()
}

/// Is a 255-byte row let through?
pub fn longest_taken(old: &Image) -> bool {
    let of = |at: usize| old.defaults.get(at).is_some_and(|(_, _, row)| row.len() == MOST);
    bent(Bend::LongestRowKept)
        || bent(Bend::LongestRowWraps)
        || bent(Bend::LongestRowOfFirstAlone) && !of(0)
        || bent(Bend::LongestRowOfLastAlone) && !of(old.defaults.len() - 1)
}

/// The number with which an old image without fault is refused.
pub fn refused(old: &Image) -> Option<u8> {
    let store = || old.old_store().unwrap_or_default();
    let sick = |kind: Sickness| store().sicknesses().contains(&kind);
    let grown = || store().beyond_room() || store().room_used().live_bytes + old.defaults.len() > LIVE_BYTES;
    let longest = || old.defaults.iter().any(|(_, _, row)| row.len() == MOST - 1);
    match () {
        () if bent(Bend::ConvertSickRefused) => store().sick().then_some(IMAGE),
        () if bent(Bend::ConvertBareLockRefused) => sick(Sickness::LockWithoutDefault).then_some(IMAGE),
        () if bent(Bend::ConvertOrphanRefused) => sick(Sickness::Orphan).then_some(IMAGE),
        () if bent(Bend::ConvertTwoLinesRefused) => sick(Sickness::TwoLines).then_some(IMAGE),
        () if bent(Bend::ConvertRoomJudged) => store().beyond_room().then_some(NO_ROOM),
        () if bent(Bend::ConvertGrownRoomJudged) => grown().then_some(NO_ROOM),
        () if bent(Bend::ConvertUnsortedRefused) => (!ascends(old)).then_some(IMAGE),
        () if bent(Bend::ConvertNeedsDefaults) => old.defaults.is_empty().then_some(IMAGE),
        () if bent(Bend::Row254Refused) => longest().then_some(IMAGE),
        () => None,
    }
}

/// Do the entries of each section ascend by key, then stamp?
fn ascends(image: &Image) -> bool {
    image.defaults.is_sorted_by_key(|(key, start, _)| (key.clone(), *start))
        && image.locks.is_sorted_by_key(|(key, _)| key.clone())
        && image.writes.is_sorted_by_key(|(key, stamp, _)| (key.clone(), *stamp))
}

/// The bytes of what the conversion makes of the old image.
pub fn bytes(old: &Image, mut new: Image) -> Bytes {
    let last = old.defaults.len().saturating_sub(1);
    for (at, ((_, _, row), (_, _, before))) in new.defaults.iter_mut().zip(&old.defaults).enumerate() {
        let kept = bent(Bend::LongestRowKept) && before.len() == MOST
            || bent(Bend::NewRowKept) && bones_of(before).is_some()
            || bent(Bend::FirstRowAlone) && at > 0
            || bent(Bend::LastRowKept) && at == last;
        match () {
            () if kept => row.clone_from(before),
            () if bent(Bend::CountBeforeRow) => row.rotate_right(1),
            () if bent(Bend::CountOfOneAdded) => *row = [before, &[1][..]].concat(),
            () if bent(Bend::TwoCountsAdded) => row.push(0),
            () => {}
        }
    }
    match () {
        () if bent(Bend::ConvertDefaultsSorted) => new.defaults.sort_by(|a, b| (&a.0, a.1).cmp(&(&b.0, b.1))),
        () if bent(Bend::ConvertLocksSorted) => new.locks.sort_by(|a, b| a.0.cmp(&b.0)),
        () if bent(Bend::ConvertWritesSorted) => new.writes.sort_by(|a, b| (&a.0, a.1).cmp(&(&b.0, b.1))),
        () if bent(Bend::ConvertDefaultsReversed) => new.defaults.reverse(),
        () => {}
    }
    let mut bytes = new.write();
    if bent(Bend::LengthByteKept) {
        let mut at = 6 + FLOOR;
        for (key, _, row) in &new.defaults {
            at += 1 + key.len() + 8;
            bytes[at] = bytes[at].wrapping_sub(1);
            at += 1 + row.len();
        }
    }
    bytes
}

/// Is a buffer of this length short? One just as long as the new image is enough.
pub fn too_short(old: usize, new: usize, buffer: usize) -> bool {
    if bent(Bend::ConvertBufferOfOldLength) {
        return buffer < old;
    }
    buffer < new || buffer == new && bent(Bend::ConvertBufferOneLonger) || new > 65_535 && bent(Bend::LongConvertShort)
}

/// What a 12 leaves in the buffer.
pub fn leave_short(bytes: &[u8], buffer: &mut [u8]) {
    let part = bytes.len().min(buffer.len());
    if bent(Bend::ConvertShortFilled) {
        buffer[..part].copy_from_slice(&bytes[..part]);
    }
    if bent(Bend::ConvertShortLastByte)
        && let Some(last) = buffer.last_mut()
    {
        *last = 0;
    }
}

/// What a 13 leaves in the buffer, which one who writes as he judges has begun.
pub fn leave_part(image: &[u8], buffer: &mut [u8]) {
    let head = 4.min(image.len());
    if bent(Bend::ConvertFaultLeavesTable) && buffer.len() >= head {
        buffer[..head].copy_from_slice(&image[..head]);
    }
    if bent(Bend::LongestRowLeavesPart)
        && let Some(mut old) = old_image(image)
    {
        let at = old.defaults.iter().position(|(_, _, row)| row.len() == MOST).unwrap_or(0);
        old.defaults.truncate(at);
        let bytes = with_counts(Image { table: old.table, defaults: old.defaults, ..Image::default() }).write();
        let part = bytes.len() - 4;
        if part <= buffer.len() {
            buffer[..part].copy_from_slice(&bytes[..part]);
        }
    }
}

/// The count of an accepted conversion: of the old bytes, the new and the buffer, the new.
pub fn count(old: usize, new: usize, buffer: usize) -> u64 {
    let count = match () {
        () if bent(Bend::ConvertCountZero) => 0,
        () if bent(Bend::ConvertCountsOld) => old,
        () if bent(Bend::ConvertCountsBuffer) => buffer,
        () if bent(Bend::ConvertCountOfTwoBytes) => new % 65_536,
        () => new,
    };
    count as u64
}

impl Store {
    /// The answer that the bend in force gives, and the store that it leaves.
    pub fn after_converting(&mut self, image: &[u8], mut answer: Answer) -> Answer {
        if bent(Bend::ConvertShortCounts)
            && answer.number == SHORT_BUFFER
            && let Some(old) = old_image(image)
        {
            answer.count = (image.len() + FLOOR + old.defaults.len()) as u64;
        }
        if bent(Bend::ConvertRestores) && answer.number == 0 {
            let _ = self.restore(&answer.payload[..answer.count as usize]);
        }
        answer
    }
}

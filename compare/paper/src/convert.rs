//! The converter of change request 4: "A converter adds a zero count to each row of an old image". It touches no store.

use crate::answer::{IMAGE, Refusal, SHORT_BUFFER, refuse};
use crate::bend::{Bend, bent};
use crate::misconverted;
use crate::misfloored;
use crate::restore::Image;
use crate::row::MOST;

/// The old image with a zero count behind each row and with floor 0, into the lent buffer: the bytes written. Bytes beyond
/// keep what they held, and so does the whole buffer on a refusal. The store's floor is asked by a bend alone.
pub fn convert(image: &[u8], buffer: &mut [u8], floor: u64) -> Result<u64, Refusal> {
    if misconverted::short_first(image, buffer.len()) {
        return refuse(SHORT_BUFFER);
    }
    // "in the converter a fault by 01's image checks or a 255-byte row is 13": no other checks, and no room
    let Some(old) = old_image(image).filter(|old| !has_longest_row(old) || misconverted::longest_taken(old)) else {
        misconverted::leave_part(image, buffer);
        return refuse(IMAGE);
    };
    if let Some(number) = misconverted::refused(&old) {
        return refuse(number);
    }
    // "CR 4's converter writes floor 0"
    let bytes = misfloored::converted(&old, misconverted::bytes(&old, with_counts(old.clone())), floor);
    // "then a short buffer 12"
    if misconverted::too_short(image.len(), bytes.len(), buffer.len()) {
        misconverted::leave_short(&bytes, buffer);
        return refuse(SHORT_BUFFER);
    }
    let (part, rest) = buffer.split_at_mut(bytes.len().min(buffer.len()));
    part.copy_from_slice(&bytes[..part.len()]);
    if bent(Bend::ConvertRestCleared) {
        rest.fill(0);
    }
    Ok(misconverted::count(image.len(), bytes.len(), buffer.len()))
}

/// The image, if it has no fault by document 01's own checks, with document 01's own rows and without a floor.
pub fn old_image(image: &[u8]) -> Option<Image> {
    misfloored::old_image(image).filter(|image| image.old_store().is_some())
}

/// The bytes that a conversion needs beside those of the old image and of the counts: the floor's.
pub const FLOOR: usize = 8;

/// Has the image a row that has no place for one byte more?
pub fn has_longest_row(image: &Image) -> bool {
    image.defaults.iter().any(|(_, _, row)| row.len() == MOST)
}

/// "adds a zero count to each row": all else stays as it is, where it is.
pub fn with_counts(mut image: Image) -> Image {
    image.defaults.iter_mut().for_each(|(_, _, row)| row.push(0));
    image
}

//! Wrong floors of images, each a bend: locks not held against the floor or held against another, floors that a restore does
//! not take over, floors written elsewhere or not at all.

use crate::answer::{BELOW_FLOOR, IMAGE, LOCKED, NO_ROOM};
use crate::bend::{Bend, bent};
use crate::collect::kept;
use crate::restore::Image;
use crate::store::{Bytes, Kind, Lock, Store};

/// The floor that a restored store takes, of the former store's and the image's: the image's.
pub fn restored(former: u64, image: u64) -> u64 {
    match () {
        () if bent(Bend::RestoredFloorZero) => 0,
        () if bent(Bend::RestoredFloorStays) => former,
        () if bent(Bend::RestoredFloorHigher) => former.max(image),
        () if bent(Bend::RestoredFloorLower) => former.min(image),
        () if bent(Bend::ImageFloorOfFourBytes) => u64::from(image as u32),
        () => image,
    }
}

/// The number with which an image is refused for its floor that is not.
pub fn refused(former: &Store, next: &Store) -> Option<u8> {
    let by_floor = || next.records.values().any(|chain| chain.range(..=next.floor).next().is_some());
    let uncollected = || next.records.values().any(|chain| kept(next.floor, chain) != *chain);
    match () {
        () if bent(Bend::ImageLastFloorRefused) => (next.floor == u64::MAX).then_some(IMAGE),
        () if bent(Bend::ImageLowerFloorRefused) => (next.floor < former.floor).then_some(BELOW_FLOOR),
        () if bent(Bend::ImageRecordsByFloorRefused) => by_floor().then_some(IMAGE),
        () if bent(Bend::ImageUncollectedRefused) => uncollected().then_some(IMAGE),
        () if bent(Bend::ImageLocksByStoresFloor) => next.has_lock_by(former.floor).then_some(IMAGE),
        () => None,
    }
}

/// The number of an image with a lock at or below its floor.
pub fn number(beyond: bool) -> u8 {
    match () {
        () if bent(Bend::ImageLockByFloorIs7) => LOCKED,
        () if bent(Bend::ImageLockByFloorIs14) => BELOW_FLOOR,
        () if beyond && bent(Bend::ImageFloorRoomFirst) => NO_ROOM,
        () => IMAGE,
    }
}

impl Store {
    /// Has the store that an image brings a lock at or below this floor?
    pub fn has_lock_by(&self, floor: u64) -> bool {
        let by = |lock: &Lock| {
            lock.start < floor && !bent(Bend::ImageLockBelowFloorTaken)
                || lock.start == floor && !bent(Bend::ImageLockAtFloorTaken)
                || floor > 0 && lock.start == floor.saturating_add(1) && bent(Bend::ImageLockAboveFloorRefused)
        };
        let minded = |lock: &&Lock| lock.kind == Kind::Put || !bent(Bend::ImagePutLocksByFloorAlone);
        let taken = bent(Bend::RustFloorTaken) || bent(Bend::ImageLocksByStoresFloor) && floor == self.floor;
        let many = if bent(Bend::ImageFirstLockByFloorAlone) { 1 } else { self.locks.len() };
        !taken && self.locks.values().take(many).filter(minded).any(by)
    }

    /// The image with the floor that the bend in force writes.
    pub fn floor_miswritten(&self, mut image: Image) -> Image {
        let stamps =
            |image: &Image| image.writes.iter().map(|(_, stamp, _)| *stamp).filter(|stamp| *stamp <= self.floor).max();
        match () {
            () if bent(Bend::WrittenFloorZero) => image.floor = 0,
            () if bent(Bend::AbsentTableFloorZero) && image.entries() == 0 => image.floor = 0,
            () if bent(Bend::WrittenFloorReversed) => image.floor = image.floor.swap_bytes(),
            () if bent(Bend::WrittenFloorOfNewest) => image.floor = stamps(&image).unwrap_or(image.floor),
            () => {}
        }
        image
    }
}

/// The image's bytes with its floor elsewhere, or without.
pub fn written(image: &Image) -> Bytes {
    let (bytes, old) = (image.write(), image.write_old());
    let floor = image.floor.to_be_bytes();
    match () {
        () if bent(Bend::WrittenWithoutFloor) => old,
        () if bent(Bend::WrittenFloorFirst) => [&floor[..], &old].concat(),
        () if bent(Bend::WrittenFloorLast) => [&old[..], &floor].concat(),
        () => bytes,
    }
}

/// The bytes of a conversion with its floor elsewhere or without, or with another floor; the store's is known to a bend alone.
pub fn converted(old: &Image, bytes: Bytes, store: u64) -> Bytes {
    let marks = || old.old_store().map_or(0, |store| store.marks()[1]);
    let with = |floor: u64| [&bytes[..4], &floor.to_be_bytes(), &bytes[12..]].concat();
    match () {
        () if bent(Bend::ConvertWithoutFloor) => [&bytes[..4], &bytes[12..]].concat(),
        () if bent(Bend::ConvertFloorLast) => [&bytes[..4], &bytes[12..], &bytes[4..12]].concat(),
        () if bent(Bend::ConvertFloorOfStore) => with(store),
        () if bent(Bend::ConvertFloorOne) => with(1),
        () if bent(Bend::ConvertFloorOfMarks) => with(marks()),
        () => bytes,
    }
}

/// The old image that these bytes are to one who reads a floor in it.
pub fn old_image(bytes: &[u8]) -> Option<Image> {
    let zero = |image: &Image| image.floor == 0;
    match () {
        () if bent(Bend::ConvertFloorRead) => Image::read(bytes),
        () if bent(Bend::ConvertFloorTaken) => Image::read_old(bytes).or_else(|| Image::read(bytes).filter(zero)),
        () => Image::read_old(bytes),
    }
}

//! The floor of change request 7: "14, below the floor, for a read or row page moment below F [..], for a start at or below F
//! in any changing call". Where each call asks it stands in the call's own steps.

use crate::answer::{BELOW_FLOOR, Refusal, refuse};
use crate::bend::{Bend, bent};
use crate::store::Store;

/// The bends of the start's 14 in one call.
pub struct Starts {
    unjudged: Bend,
    at_taken: Bend,
    above_refused: Bend,
    /// Those that ask it at a later place.
    later: &'static [Bend],
}

pub const PREWRITE: Starts = Starts {
    unjudged: Bend::PrewriteFloorUnjudged,
    at_taken: Bend::PrewriteAtFloorTaken,
    above_refused: Bend::PrewriteAboveFloorRefused,
    later: &[Bend::PrewriteFloorAfterEntry, Bend::PrewriteFloorAfterContents],
};

pub const COMMIT: Starts = Starts {
    unjudged: Bend::CommitFloorUnjudged,
    at_taken: Bend::CommitAtFloorTaken,
    above_refused: Bend::CommitAboveFloorRefused,
    later: &[Bend::CommitFloorAfterKeys],
};

pub const ROLLBACK: Starts = Starts {
    unjudged: Bend::RollbackFloorUnjudged,
    at_taken: Bend::RollbackAtFloorTaken,
    above_refused: Bend::RollbackAboveFloorRefused,
    later: &[Bend::RollbackFloorAfterKeys],
};

pub const ONE_STEP: Starts = Starts {
    unjudged: Bend::OneStepFloorUnjudged,
    at_taken: Bend::OneStepAtFloorTaken,
    above_refused: Bend::OneStepAboveFloorRefused,
    later: &[Bend::OneStepFloorAfterContents, Bend::OneStepEmptyBelowFloorTaken],
};

/// The bends of a moment's 14: never, at the floor too, not right below it.
type Moments = [Bend; 3];

pub const READ: Moments = [Bend::ReadFloorUnjudged, Bend::ReadAtFloorRefused, Bend::ReadRightBelowFloorTaken];
const PAGE: Moments = [Bend::PageFloorUnjudged, Bend::PageAtFloorRefused, Bend::PageRightBelowFloorTaken];

impl Store {
    /// "for a start at or below F in any changing call".
    fn start_above_floor(&self, start: u64, of: &Starts) -> Result<(), Refusal> {
        if of.later.iter().any(|bend| bent(*bend)) { Ok(()) } else { self.start_judged(start, of) }
    }

    /// The same, but for a call that was carried out before, if this bend spares it.
    pub fn start_spared(
        &self,
        start: u64,
        of: &Starts,
        bend: Bend,
        replay: impl FnOnce() -> bool,
    ) -> Result<(), Refusal> {
        if bent(bend) && replay() { Ok(()) } else { self.start_above_floor(start, of) }
    }

    /// The same at another place, if this bend moves it there.
    pub fn start_misplaced(&self, start: u64, of: &Starts, bend: Bend) -> Result<(), Refusal> {
        if bent(bend) { self.start_judged(start, of) } else { Ok(()) }
    }

    fn start_judged(&self, start: u64, of: &Starts) -> Result<(), Refusal> {
        let below = start < self.floor
            || start == self.floor && !bent(of.at_taken)
            || self.floor > 0 && start == self.floor.saturating_add(1) && bent(of.above_refused);
        if below && !bent(of.unjudged) && !bent(Bend::RustHasNoFloor) { refuse(BELOW_FLOOR) } else { Ok(()) }
    }

    /// "for a read or row page moment below F".
    pub fn moment_at_floor(&self, moment: u64, [unjudged, at_refused, right_below]: Moments) -> Result<(), Refusal> {
        let below = moment < self.floor && !(bent(right_below) && moment + 1 == self.floor)
            || self.floor > 0 && moment == self.floor && bent(at_refused);
        if below && !bent(unjudged) && !bent(Bend::RustHasNoFloor) { refuse(BELOW_FLOOR) } else { Ok(()) }
    }
}

/// A row page's 14, and the bends that move it to another place.
#[derive(Clone, Copy)]
pub struct PageFloor {
    below: Result<(), Refusal>,
}

/// Those that move it to a later one.
const LATER: [Bend; 5] = [
    Bend::PageFloorAfterPastEnd,
    Bend::PageFloorOfKeysAlone,
    Bend::PageFloorAfterWalk,
    Bend::PageFloorAfterBuffer,
    Bend::PageFloorFills,
];

impl PageFloor {
    /// Pages of locks have none.
    pub const NONE: PageFloor = PageFloor { below: Ok(()) };

    pub fn of(store: &Store, moment: u64) -> Self {
        PageFloor { below: store.moment_at_floor(moment, PAGE) }
    }

    pub fn judged(self) -> Result<(), Refusal> {
        if LATER.iter().any(|bend| bent(*bend)) { Ok(()) } else { self.below }
    }

    /// The same at another place, if this bend moves it there.
    pub fn misplaced(self, bend: Bend) -> Result<(), Refusal> {
        if bent(bend) { self.below } else { Ok(()) }
    }

    /// The page written, and then its 14: after 12, or with what it leaves in the buffer.
    pub fn after_writing(
        self,
        buffer: &mut [u8],
        write: impl FnOnce(&mut [u8]) -> Result<u64, Refusal>,
    ) -> Result<u64, Refusal> {
        let late = bent(Bend::PageFloorAfterBuffer) || bent(Bend::PageFloorFills);
        let before = buffer.to_vec();
        let written = write(buffer);
        let Some(refusal) = self.below.err().filter(|_| late) else {
            return written;
        };
        if bent(Bend::PageFloorFills) {
            return Err(refusal);
        }
        buffer.copy_from_slice(&before);
        Err(written.err().unwrap_or(refusal))
    }
}

//! "Room": what a box may hold, and how a call's last state is taken over.

use crate::answer::{NO_ROOM, Refusal, refuse};
use crate::bend::{Bend, bent};
use crate::store::Store;

/// "At most 1,024 lines (locks plus records), 256 locks, 1,024 defaults, 49,152 live bytes."
pub const LINES: usize = 1024;
pub const LOCKS: usize = 256;
pub const DEFAULTS: usize = 1024;
pub const LIVE_BYTES: usize = 49_152;

/// What a store takes of each of the four.
#[derive(Clone, Copy, Debug, Default, PartialEq, Eq)]
pub struct Use {
    pub lines: usize,
    pub locks: usize,
    pub defaults: usize,
    pub live_bytes: usize,
}

impl Store {
    /// "Live bytes: for a default, key plus row; a lock, key plus primary; a record, key." The key counts once for
    /// each of them.
    pub fn room_used(&self) -> Use {
        let mut used = self.unfreed;
        used.locks += self.locks.len();
        used.lines += self.locks.len();
        used.live_bytes += 8 * usize::from(self.floor > 0 && bent(Bend::FloorTakesRoom));
        for (key, lock) in &self.locks {
            used.live_bytes += key.len() + if bent(Bend::PrimaryTakesNoRoom) { 0 } else { lock.primary.len() };
            used.lines += usize::from(bent(Bend::LockKeepsASecondLine));
        }
        for (key, chain) in &self.defaults {
            used.defaults += chain.len();
            used.live_bytes += chain.values().map(|row| key.len() + row.len()).sum::<usize>();
        }
        for (key, chain) in &self.records {
            used.lines += chain.len();
            used.live_bytes += key.len() * if bent(Bend::RecordKeyCountsOnce) { 1 } else { chain.len() };
        }
        used
    }

    /// "exceeds one of the four".
    pub fn beyond_room(&self) -> bool {
        let used = self.room_used();
        let past = |used: usize, most: usize, less: Bend, more: Bend| {
            used + usize::from(bent(less)) > most + usize::from(bent(more))
        };
        past(used.lines, LINES, Bend::LinesOneLess, Bend::LinesOneMore)
            || past(used.locks, LOCKS, Bend::LocksOneLess, Bend::LocksOneMore)
            || past(used.defaults, DEFAULTS, Bend::DefaultsOneLess, Bend::DefaultsOneMore)
            || past(used.live_bytes, LIVE_BYTES, Bend::LiveBytesOneLess, Bend::LiveBytesOneMore)
    }

    /// "Answer 11 is given exactly when the state that the whole call would leave exceeds one of the four, and no
    /// earlier refusal applies. Room that was freed counts as free at once." Only the last state counts.
    pub fn take_over(&mut self, next: Store) -> Result<(), Refusal> {
        let beyond =
            if bent(Bend::FreedRoomStaysTaken) { self.joined(&next).beyond_room() } else { next.beyond_room() };
        if beyond && !bent(Bend::RoomUnjudged) || bent(Bend::ReplayNeedsRoom) && next == *self && self.full() {
            return refuse(NO_ROOM);
        }
        *self = next;
        Ok(())
    }

    /// Is one of the four just full? Asked by a bend alone: a full box refuses nothing that adds nothing.
    fn full(&self) -> bool {
        let used = self.room_used();
        used.lines == LINES || used.locks == LOCKS || used.defaults == DEFAULTS || used.live_bytes == LIVE_BYTES
    }

    /// Both states together, for the bend that frees nothing within a call.
    fn joined(&self, next: &Store) -> Store {
        let mut all = next.clone();
        for (key, lock) in &self.locks {
            all.locks.entry(key.clone()).or_insert_with(|| lock.clone());
        }
        for (key, chain) in &self.defaults {
            let kept = all.defaults.entry(key.clone()).or_default();
            for (start, row) in chain {
                kept.entry(*start).or_insert_with(|| row.clone());
            }
        }
        all
    }
}

//! What a call answers: the number, the holder, the count, and the payload that TRACE.md adds.

use crate::bend::{Bend, bent};
use crate::form::Reader;
use crate::store::Lock;

pub const KEY: u8 = 1;
pub const ROW: u8 = 2;
pub const ZERO: u8 = 3;
pub const BOUNDS: u8 = 4;
pub const EMPTY: u8 = 5;
pub const BATCH: u8 = 6;
pub const LOCKED: u8 = 7;
pub const HISTORY: u8 = 8;
pub const CONTRADICTION: u8 = 9;
pub const BYTE_LIMIT: u8 = 10;
pub const NO_ROOM: u8 = 11;
pub const SHORT_BUFFER: u8 = 12;
pub const IMAGE: u8 = 13;
pub const BELOW_FLOOR: u8 = 14;

/// Who holds a key. "Every other answer carries zeros there": the default is zeros.
#[derive(Clone, Copy, Debug, Default, PartialEq, Eq)]
pub struct Holder {
    pub transaction: u64,
    pub start: u64,
    pub time_to_live: u64,
    /// "1 Put, 2 Delete"; 0 where there is no holder.
    pub kind: u8,
}

impl Holder {
    /// "Answer 7 shall carry, besides transaction and start, the lock's time to live and kind": the lock's fields as they
    /// stand in it.
    pub fn of(lock: &Lock) -> Self {
        let Lock { transaction, start, time_to_live, kind, .. } = *lock;
        Holder { transaction, start, time_to_live, kind: kind.byte() }
    }
}

/// A refusal: its number and, for 7 alone, the holder.
#[derive(Clone, Copy, Debug, PartialEq, Eq)]
pub struct Refusal {
    pub number: u8,
    pub holder: Holder,
}

/// Every refusal but 7 carries zeros.
pub fn refuse<T>(number: u8) -> Result<T, Refusal> {
    Err(Refusal { number, holder: Holder::default() })
}

/// A 7, "in every call that can give it".
pub fn refuse_held<T>(lock: &Lock) -> Result<T, Refusal> {
    if bent(Bend::HeldIsHistory) {
        return refuse(HISTORY);
    }
    Err(Refusal { number: LOCKED, holder: Holder::of(lock) })
}

/// One answer in full.
#[derive(Clone, Debug, PartialEq, Eq)]
pub struct Answer {
    pub number: u8,
    pub holder: Holder,
    pub count: u64,
    pub payload: Vec<u8>,
}

impl Answer {
    pub fn accepted(count: u64, payload: Vec<u8>) -> Self {
        Answer { number: 0, holder: Holder::default(), count, payload }
    }

    /// "a refusal's counts are 0".
    pub fn refused(refusal: Refusal, payload: Vec<u8>) -> Self {
        let Refusal { number, holder } = refusal;
        Answer { number, holder, count: 0, payload }
    }

    /// The one answer of a trace that is not in form.
    pub fn damaged() -> Self {
        Answer { number: BATCH, holder: Holder::default(), count: 0, payload: Vec::new() }
    }

    /// The answer's bytes: a head of 38, which are number, holder's transaction, start, time to live and kind, count and
    /// payload length; then the payload.
    pub fn write(&self, out: &mut Vec<u8>) {
        let Holder { transaction, start, time_to_live, kind } = self.holder;
        let (live, kind, count) = (&time_to_live.to_be_bytes()[..], &[kind][..], &self.count.to_be_bytes()[..]);
        let rest = if bent(Bend::HolderKindFirst) {
            [kind, live, count].concat()
        } else if bent(Bend::HolderAfterCount) {
            [count, live, kind].concat()
        } else if bent(Bend::HeadOf29) {
            count.to_vec()
        } else {
            [live, kind, count].concat()
        };
        out.push(self.number);
        out.extend_from_slice(&transaction.to_be_bytes());
        out.extend_from_slice(&start.to_be_bytes());
        out.extend_from_slice(&rest);
        out.extend_from_slice(&(self.payload.len() as u32).to_be_bytes());
        out.extend_from_slice(&self.payload);
    }

    /// The answers that these bytes hold, or none if they are no answers.
    pub fn read_all(bytes: &[u8]) -> Option<Vec<Answer>> {
        let mut reader = Reader::new(bytes);
        let mut answers = Vec::new();
        while reader.ended().is_none() {
            let number = reader.byte()?;
            let (transaction, start, time_to_live) = (reader.eight()?, reader.eight()?, reader.eight()?);
            let holder = Holder { transaction, start, time_to_live, kind: reader.byte()? };
            let count = reader.eight()?;
            let length = reader.four()? as usize;
            let payload = reader.take(length)?.to_vec();
            answers.push(Answer { number, holder, count, payload });
        }
        Some(answers)
    }
}

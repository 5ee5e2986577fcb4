//! The trace of TRACE.md: calls read from bytes, the whole trace judged before anything is run, and written to bytes.

use crate::bend::{Bend, bent};
use crate::form::Reader;
use crate::page::Bounds;
use crate::store::{Bytes, Kind};

/// "the driver takes up to 262,144" bytes.
pub const MOST_BYTES: usize = 262_144;
/// "long buffer | a 4-byte length, at most 262,144".
pub const LONG_BUFFER: u32 = 262_144;
/// A length of 65,535 says that a 4-byte length follows.
const LONG: usize = 65_535;

#[derive(Clone, Debug, PartialEq, Eq)]
pub enum Call {
    Read { moment: u64, key: Bytes },
    Page { moment: u64, row_limit: u64, byte_limit: u64, bounds: Bounds, buffer: u16 },
    IntentPage { lock_limit: u64, bounds: Bounds, buffer: u16 },
    Conflicting { moment: u64, lock_limit: u64, byte_limit: u64, bounds: Bounds, buffer: u16 },
    OneIntent { moment: u64, key: Bytes },
    Prewrite { transaction: u64, start: u64, time_to_live: u64, kind: Kind, primary: Bytes, key: Bytes, row: Bytes },
    PrewriteBatch { transaction: u64, start: u64, time_to_live: u64, primary: Bytes, batch: Bytes },
    Commit { transaction: u64, start: u64, commit: u64, key: Bytes },
    CommitBatch { transaction: u64, start: u64, commit: u64, batch: Bytes },
    Rollback { transaction: u64, start: u64, key: Bytes },
    RollbackBatch { transaction: u64, start: u64, batch: Bytes },
    OneStep { transaction: u64, start: u64, commit: u64, batch: Bytes },
    Collect { floor: u64 },
    Bone { number: u64, row: Bytes },
    Bones { row: Bytes },
    Restore { image: Bytes },
    Statistics,
    Marks,
    WriteImage { table: u32, buffer: u32 },
    Convert { buffer: u32, image: Bytes },
}

impl Call {
    pub fn op(&self) -> u8 {
        match self {
            Call::Read { .. } => 1,
            Call::Page { .. } => 2,
            Call::IntentPage { .. } => 3,
            Call::Conflicting { .. } => 4,
            Call::OneIntent { .. } => 5,
            Call::Prewrite { .. } => 6,
            Call::PrewriteBatch { .. } => 7,
            Call::Commit { .. } => 8,
            Call::CommitBatch { .. } => 9,
            Call::Rollback { .. } => 10,
            Call::RollbackBatch { .. } => 11,
            Call::OneStep { .. } => 12,
            Call::Collect { .. } => 13,
            Call::Bone { .. } => 17,
            Call::Bones { .. } => 18,
            Call::Restore { .. } => 32,
            Call::Statistics => 33,
            Call::Marks => 34,
            Call::WriteImage { .. } => 35,
            Call::Convert { .. } => 36,
        }
    }

    /// "A call is an op byte and its arguments, in the order of the table."
    pub fn read(bytes: &[u8]) -> Option<Call> {
        let mut r = Reader::new(bytes);
        let call = match r.byte()? {
            1 => Call::Read { moment: r.eight()?, key: r.long()? },
            2 => Call::Page {
                moment: r.eight()?,
                row_limit: r.eight()?,
                byte_limit: r.eight()?,
                bounds: bounds(&mut r)?,
                buffer: r.two()? as u16,
            },
            3 => Call::IntentPage { lock_limit: r.eight()?, bounds: bounds(&mut r)?, buffer: r.two()? as u16 },
            4 => Call::Conflicting {
                moment: r.eight()?,
                lock_limit: r.eight()?,
                byte_limit: r.eight()?,
                bounds: bounds(&mut r)?,
                buffer: r.two()? as u16,
            },
            5 => Call::OneIntent { moment: r.eight()?, key: r.long()? },
            6 => Call::Prewrite {
                transaction: r.eight()?,
                start: r.eight()?,
                time_to_live: r.eight()?,
                kind: kind(r.byte()?)?,
                primary: r.long()?,
                key: r.long()?,
                row: r.long()?,
            },
            7 => Call::PrewriteBatch {
                transaction: r.eight()?,
                start: r.eight()?,
                time_to_live: r.eight()?,
                primary: r.long()?,
                batch: r.rest().to_vec(),
            },
            8 => Call::Commit { transaction: r.eight()?, start: r.eight()?, commit: r.eight()?, key: r.long()? },
            9 => Call::CommitBatch {
                transaction: r.eight()?,
                start: r.eight()?,
                commit: r.eight()?,
                batch: r.rest().to_vec(),
            },
            10 => Call::Rollback { transaction: r.eight()?, start: r.eight()?, key: r.long()? },
            11 => Call::RollbackBatch { transaction: r.eight()?, start: r.eight()?, batch: r.rest().to_vec() },
            12 => Call::OneStep {
                transaction: r.eight()?,
                start: r.eight()?,
                commit: r.eight()?,
                batch: r.rest().to_vec(),
            },
            13 => Call::Collect { floor: r.eight()? },
            17 => Call::Bone { number: r.eight()?, row: r.long()? },
            18 => Call::Bones { row: r.long()? },
            32 => Call::Restore { image: r.rest().to_vec() },
            33 => Call::Statistics,
            34 => Call::Marks,
            35 => Call::WriteImage { table: r.four()?, buffer: long_buffer(&mut r, WRITTEN)? },
            36 => Call::Convert { buffer: long_buffer(&mut r, CONVERTED)?, image: r.rest().to_vec() },
            _ => return None,
        };
        if !bent(Bend::CallTrailing) {
            r.ended()?;
        }
        Some(call)
    }

    pub fn write(&self) -> Bytes {
        let mut out = vec![self.op()];
        match self {
            Call::Read { moment, key } | Call::OneIntent { moment, key } => {
                numbers(&mut out, &[*moment]);
                long(&mut out, key);
            }
            Call::Page { moment, row_limit: limit, byte_limit, bounds, buffer }
            | Call::Conflicting { moment, lock_limit: limit, byte_limit, bounds, buffer } => {
                numbers(&mut out, &[*moment, *limit, *byte_limit]);
                write_bounds(&mut out, bounds, *buffer);
            }
            Call::IntentPage { lock_limit, bounds, buffer } => {
                numbers(&mut out, &[*lock_limit]);
                write_bounds(&mut out, bounds, *buffer);
            }
            Call::Prewrite { transaction, start, time_to_live, kind, primary, key, row } => {
                numbers(&mut out, &[*transaction, *start, *time_to_live]);
                out.push(kind.byte());
                long(&mut out, primary);
                long(&mut out, key);
                long(&mut out, row);
            }
            Call::PrewriteBatch { transaction, start, time_to_live, primary, batch } => {
                numbers(&mut out, &[*transaction, *start, *time_to_live]);
                long(&mut out, primary);
                out.extend_from_slice(batch);
            }
            Call::Commit { transaction, start, commit, key } => {
                numbers(&mut out, &[*transaction, *start, *commit]);
                long(&mut out, key);
            }
            Call::CommitBatch { transaction, start, commit, batch }
            | Call::OneStep { transaction, start, commit, batch } => {
                numbers(&mut out, &[*transaction, *start, *commit]);
                out.extend_from_slice(batch);
            }
            Call::Rollback { transaction, start, key } => {
                numbers(&mut out, &[*transaction, *start]);
                long(&mut out, key);
            }
            Call::RollbackBatch { transaction, start, batch } => {
                numbers(&mut out, &[*transaction, *start]);
                out.extend_from_slice(batch);
            }
            Call::Collect { floor } => numbers(&mut out, &[*floor]),
            Call::Bone { number, row } => {
                numbers(&mut out, &[*number]);
                long(&mut out, row);
            }
            Call::Bones { row } => long(&mut out, row),
            Call::Restore { image } => out.extend_from_slice(image),
            Call::Statistics | Call::Marks => {}
            Call::WriteImage { table, buffer } => {
                out.extend_from_slice(&table.to_be_bytes());
                out.extend_from_slice(&buffer.to_be_bytes());
            }
            Call::Convert { buffer, image } => {
                out.extend_from_slice(&buffer.to_be_bytes());
                out.extend_from_slice(image);
            }
        }
        out
    }
}

/// The trace's calls, or none if it is not in form. "The whole trace is judged before anything is run."
pub fn read_trace(bytes: &[u8]) -> Option<Vec<Call>> {
    if bytes.len() > MOST_BYTES && !bent(Bend::TraceOfAnyLength) {
        return None;
    }
    if bytes.is_empty() && bent(Bend::EmptyTraceTaken) {
        return Some(Vec::new());
    }
    let mut reader = Reader::new(bytes);
    let count = reader.two()?;
    let mut calls = Vec::new();
    for _ in 0..count {
        let read = next_call(&mut reader);
        if read.is_none() && bent(Bend::TraceRunsToItsFault) && !calls.is_empty() {
            return Some(calls);
        }
        calls.push(read?);
    }
    if !bent(Bend::TraceTrailing) {
        reader.ended()?;
    }
    Some(calls)
}

/// "each call after its 2-byte length. A length of 65,535 is followed by a 4-byte length, which is then the call's
/// own", whatever it is.
fn next_call(reader: &mut Reader) -> Option<Call> {
    let mut length = reader.two()?;
    if length == LONG && !bent(Bend::TraceShortLengthsOnly) {
        length = reader.four()? as usize;
    }
    Call::read(reader.take(length)?)
}

pub fn write_trace(calls: &[Call]) -> Bytes {
    let mut out = (calls.len() as u16).to_be_bytes().to_vec();
    for call in calls {
        let bytes = call.write();
        if bytes.len() < LONG {
            out.extend_from_slice(&(bytes.len() as u16).to_be_bytes());
        } else {
            out.extend_from_slice(&(LONG as u16).to_be_bytes());
            out.extend_from_slice(&(bytes.len() as u32).to_be_bytes());
        }
        out.extend_from_slice(&bytes);
    }
    out
}

/// "kind | 1: 1 Put, 2 Delete"; another byte is not in form.
fn kind(byte: u8) -> Option<Kind> {
    match byte {
        1 => Some(Kind::Put),
        2 => Some(Kind::Delete),
        3 if bent(Bend::CallKindRollback) => Some(Kind::Rollback),
        _ => None,
    }
}

fn bounds(reader: &mut Reader) -> Option<Bounds> {
    Some(Bounds { start: bound(reader)?, end: bound(reader)?, resume: bound(reader)? })
}

/// "bound | a flag byte: 0 absent; 1 present, then a key".
fn bound(reader: &mut Reader) -> Option<Option<Bytes>> {
    match reader.byte()? {
        0 => Some(None),
        1 => Some(Some(reader.long()?)),
        _ if bent(Bend::FlagOfAnyByte) => Some(Some(reader.long()?)),
        _ => None,
    }
}

/// The bends of a long buffer's most, in each call that is lent one: one less, and one more.
const WRITTEN: [Bend; 2] = [Bend::LongBufferOneLess, Bend::LongBufferOneMore];
const CONVERTED: [Bend; 2] = [Bend::ConvertBufferMostLess, Bend::ConvertBufferMostMore];

/// "A long buffer above 262,144 is not in form."
fn long_buffer(reader: &mut Reader, bends: [Bend; 2]) -> Option<u32> {
    let [less, more] = bends.map(|bend| u32::from(bent(bend)));
    reader.four().filter(|length| *length <= LONG_BUFFER - less + more)
}

fn numbers(out: &mut Bytes, numbers: &[u64]) {
    numbers.iter().for_each(|number| out.extend_from_slice(&number.to_be_bytes()));
}

fn long(out: &mut Bytes, bytes: &[u8]) {
    out.extend_from_slice(&(bytes.len() as u16).to_be_bytes());
    out.extend_from_slice(bytes);
}

fn write_bounds(out: &mut Bytes, bounds: &Bounds, buffer: u16) {
    for bound in [&bounds.start, &bounds.end, &bounds.resume] {
        match bound {
            None => out.push(0),
            Some(key) => {
                out.push(1);
                long(out, key);
            }
        }
    }
    out.extend_from_slice(&buffer.to_be_bytes());
}

//! Damaged traces: one fault in the trace's own form, or a form just at its edge.

use paper::store::Bytes;
use paper::trace::{Call, LONG_BUFFER, MOST_BYTES, read_trace, write_trace};

use crate::Ops;
use crate::random::Random;

/// Lengths of a long buffer at and past the most.
const LONG_BUFFERS: [u32; 5] = [LONG_BUFFER, LONG_BUFFER, LONG_BUFFER + 1, LONG_BUFFER + 1, u32::MAX];
/// An image without entries, which is one of the old form too.
const NO_ENTRIES: [u8; 10] = [0, 0, 0, 1, 0, 0, 0, 0, 0, 0];

/// A trace that is empty, has no calls, stands at or one past the most bytes, or has a buffer at or past the longest.
pub fn edge(random: &mut Random, ops: Ops) -> Bytes {
    if (ops.has(35) || ops.has(36)) && random.percent(40) {
        let (buffer, image) = (*random.pick(&LONG_BUFFERS), NO_ENTRIES.to_vec());
        let written = ops.has(35) && (!ops.has(36) || random.percent(50));
        let call = if written { Call::WriteImage { table: 1, buffer } } else { Call::Convert { buffer, image } };
        return write_trace(&[call]);
    }
    let convert = ops.has(36) && (!ops.has(32) || random.percent(30));
    let fill = |length: usize| {
        let restore = Call::Restore { image: vec![0; length - 9] };
        let convert = if convert { Some(Call::Convert { buffer: 0, image: vec![0; length - 13] }) } else { None };
        write_trace(&[convert.unwrap_or(restore)])
    };
    match random.below(15) {
        0..4 => Bytes::new(),
        4 => vec![0],
        5 => vec![0, 0],
        6 => vec![0, 0, 0],
        7 => vec![0, 1],
        8 | 9 if ops.has(32) || convert => fill(MOST_BYTES),
        10..14 if ops.has(32) || convert => fill(MOST_BYTES + 1),
        _ => vec![0, 1, 0, 0],
    }
}

/// The calls' trace with a fault. Whether a fault it is, the paper says; where ops are left out, no call of such an op
/// may come of it.
pub fn damaged(random: &mut Random, calls: &[Call], ops: Ops) -> Bytes {
    let sound = write_trace(calls);
    for _ in 0..20 {
        let bytes = one_fault(random, calls, &sound);
        let allowed = read_trace(&bytes).is_none_or(|calls| calls.iter().all(|call| ops.has(call.op())));
        if allowed {
            return bytes;
        }
    }
    sound
}

fn one_fault(random: &mut Random, calls: &[Call], sound: &[u8]) -> Bytes {
    let mut bytes = sound.to_vec();
    let lends = |call: &Call| matches!(call, Call::WriteImage { .. } | Call::Convert { .. });
    if let Some(at) = calls.iter().position(lends)
        && random.percent(40)
    {
        let length = random.pick(&LONG_BUFFERS).to_be_bytes();
        // Behind the op, and a table where one is written.
        let place = if calls[at].op() == 35 { 5 } else { 1 };
        return with_call(calls, at, |call| [&call[..place], &length, &call[place + 4..]].concat());
    }
    match random.below(12) {
        0 => bytes.truncate(random.below(bytes.len())),
        1 => bytes.push(random.number() as u8),
        2 => bytes[1] = bytes[1].wrapping_add(*random.pick(&[1, 255])),
        3 => {
            let at = random.below(bytes.len());
            bytes[at] = random.number() as u8;
        }
        4 | 8..12 => return call_fault(random, calls),
        5 => return long_length(random, calls),
        6 => {
            // Cut within the last call, lengths kept: bytes are missing in it.
            bytes.pop();
        }
        _ => return op_fault(random, calls),
    }
    bytes
}

/// The trace of the calls, the one at a place given as bytes of its own.
fn with_call(calls: &[Call], at: usize, own: impl FnOnce(Bytes) -> Bytes) -> Bytes {
    let mut out = (calls.len() as u16).to_be_bytes().to_vec();
    let mut own = Some(own);
    for (place, call) in calls.iter().enumerate() {
        let mut bytes = call.write();
        if place == at {
            bytes = own.take().expect("one place")(bytes);
        }
        if bytes.len() < 65_535 {
            out.extend_from_slice(&(bytes.len() as u16).to_be_bytes());
        } else {
            out.extend_from_slice(&[255, 255]);
            out.extend_from_slice(&(bytes.len() as u32).to_be_bytes());
        }
        out.extend_from_slice(&bytes);
    }
    out
}

/// A byte more or less in one call, its length telling so; a kind or a flag of another value.
fn call_fault(random: &mut Random, calls: &[Call]) -> Bytes {
    let mut at = random.below(calls.len());
    let with_mark: Vec<usize> = (0..calls.len()).filter(|place| mark_of(&calls[*place]).is_some()).collect();
    if !with_mark.is_empty() && random.percent(80) {
        at = *random.pick(&with_mark);
        // Mostly a kind, if there is one.
        let kinds = with_mark.into_iter().find(|place| matches!(calls[*place], Call::Prewrite { .. }));
        at = kinds.filter(|_| random.percent(60)).unwrap_or(at);
    }
    // A flag that says present: another byte in its place reads on as it did.
    let present = |call: &Call| mark_of(call).is_some_and(|place| place_says_present(call, place));
    if let Some(flag) = calls.iter().position(present)
        && random.percent(25)
    {
        at = flag;
    }
    let marked = mark_of(&calls[at]);
    let choice = random.below(if marked.is_some() { 8 } else { 2 });
    let marks = if matches!(calls[at], Call::Prewrite { .. }) { [0, 3, 3, 255] } else { [2, 2, 3, 255] };
    let mark = *random.pick(&marks);
    with_call(calls, at, |mut bytes| {
        match (choice, marked) {
            (0, _) => bytes.push(0),
            (1, _) => {
                bytes.pop();
            }
            (_, Some(place)) => bytes[place] = mark,
            _ => unreachable!("a choice above 1 needs a marked place"),
        }
        bytes
    })
}

/// Does the call's first flag say present?
fn place_says_present(call: &Call, place: usize) -> bool {
    !matches!(call, Call::Prewrite { .. }) && call.write()[place] == 1
}

/// Where a call has its kind or its first flag.
fn mark_of(call: &Call) -> Option<usize> {
    match call {
        Call::Prewrite { .. } | Call::Page { .. } | Call::Conflicting { .. } => Some(25),
        Call::IntentPage { .. } => Some(9),
        _ => None,
    }
}

/// An op that the table does not have, or other arguments than its op has.
fn op_fault(random: &mut Random, calls: &[Call]) -> Bytes {
    let at = random.below(calls.len());
    let op = *random.pick(&[0, 13, 14, 16, 17, 18, 19, 31, 35, 36, 37, 64, 128, 255]);
    with_call(calls, at, |mut bytes| {
        bytes[0] = op;
        bytes
    })
}

/// One call's length given the long way although it is short: in form, if the length is the call's own.
fn long_length(random: &mut Random, calls: &[Call]) -> Bytes {
    let at = random.below(calls.len());
    let wrong = random.below(3) as u32;
    let mut out = (calls.len() as u16).to_be_bytes().to_vec();
    for (place, call) in calls.iter().enumerate() {
        let bytes = call.write();
        if place == at || bytes.len() >= 65_535 {
            out.extend_from_slice(&[255, 255]);
            let more = if place == at { wrong / 2 } else { 0 };
            out.extend_from_slice(&(bytes.len() as u32 + more).to_be_bytes());
        } else {
            out.extend_from_slice(&(bytes.len() as u16).to_be_bytes());
        }
        out.extend_from_slice(&bytes);
    }
    out
}

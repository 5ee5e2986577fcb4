//! The paper as a driver: calls of a trace run in turn on one store, and their answers in TRACE.md's form.

use crate::answer::{Answer, Refusal};
use crate::area::{self, Area};
use crate::bend::{Bend, any_bent, bent, with_bend, with_bends};
use crate::bones::{bone_shown, bones_shown};
use crate::commit::Commit;
use crate::convert::convert;
use crate::form::Reader;
use crate::in_one_call;
use crate::misnamed::{beside, misnamed};
use crate::prewrite::Prewrite;
use crate::read::Looked;
use crate::store::{Bytes, Store};
use crate::trace::{Call, read_trace};

/// Each byte of a lent buffer before the call.
pub const BEFORE: u8 = 0xEE;

/// One call on the store: its answer in full.
pub fn run_call(store: &mut Store, call: &Call) -> Answer {
    if !any_bent() {
        return answer_of(store, call);
    }
    let beside = beside(store, call);
    let answer = with_bends(in_one_call::rules(call.op()), || answer_of(store, call));
    misnamed(store, call, beside, answer)
}

fn answer_of(store: &mut Store, call: &Call) -> Answer {
    match call {
        Call::Read { moment, key } => {
            // "Each read also reports the number of write records it examined", refused or not.
            let Looked { shown, examined } = store.read(*moment, key);
            let answer = match shown {
                Ok(row) => Answer::accepted(0, flagged(row.cloned())),
                Err(refusal) => Answer::refused(refusal, flagged(None)),
            };
            Answer { count: examined, ..answer }
        }
        Call::OneIntent { moment, key } => match store.one_intent(*moment, key) {
            Ok(shown) => Answer::accepted(
                u64::from(shown.is_some() && bent(Bend::OneIntentCounts)),
                flagged(shown.map(|lock| {
                    let mut bytes = Bytes::new();
                    lock.write(&mut bytes);
                    bytes
                })),
            ),
            Err(refusal) => Answer::refused(refusal, flagged(None)),
        },
        Call::Page { moment, row_limit, byte_limit, bounds, buffer } => {
            lent(*buffer, |buffer| store.page(*moment, *row_limit, *byte_limit, bounds, buffer))
        }
        Call::IntentPage { lock_limit, bounds, buffer } => {
            lent(*buffer, |buffer| store.intent_page(*lock_limit, bounds, buffer))
        }
        Call::Conflicting { moment, lock_limit, byte_limit, bounds, buffer } => {
            lent(*buffer, |buffer| store.conflicting_intents(*moment, *lock_limit, *byte_limit, bounds, buffer))
        }
        Call::Prewrite { transaction, start, time_to_live, kind, primary, key, row } => {
            let fields = Prewrite { transaction: *transaction, start: *start, time_to_live: *time_to_live, primary };
            plain(store.prewrite(&fields, *kind, key, row))
        }
        Call::PrewriteBatch { transaction, start, time_to_live, primary, batch } => {
            let fields = Prewrite { transaction: *transaction, start: *start, time_to_live: *time_to_live, primary };
            plain(store.prewrite_batch(&fields, batch))
        }
        Call::Commit { transaction, start, commit, key } => {
            plain(store.commit(Commit { transaction: *transaction, start: *start, commit: *commit }, key))
        }
        Call::CommitBatch { transaction, start, commit, batch } => {
            plain(store.commit_batch(Commit { transaction: *transaction, start: *start, commit: *commit }, batch))
        }
        Call::Rollback { transaction, start, key } => plain(store.rollback(*transaction, *start, key)),
        Call::RollbackBatch { transaction, start, batch } => plain(store.rollback_batch(*transaction, *start, batch)),
        Call::OneStep { transaction, start, commit, batch } => {
            let call = Commit { transaction: *transaction, start: *start, commit: *commit };
            counted(store.one_step(call, batch))
        }
        // No count, although it may drop lines.
        Call::Collect { floor } => {
            let dropped = if bent(Bend::CollectCounts) { store.dropped_by(*floor) } else { 0 };
            counted(store.collect(*floor).map(|()| dropped))
        }
        Call::Bone { number, row } => {
            // "one byte, 1 if shown, else 0; 0 on a refusal"
            asked(bone_shown(*number, row).map(u8::from))
        }
        // "one byte, how many; 0 on a refusal"
        Call::Bones { row } => asked(bones_shown(row)),
        Call::Restore { image } => plain(store.restore(image)),
        Call::Statistics => Answer::accepted(0, numbers(&store.statistics())),
        Call::Marks => Answer::accepted(0, numbers(&store.marks())),
        Call::WriteImage { table, buffer } => {
            let answer = lent(*buffer, |buffer| store.write_image(*table, buffer));
            if any_bent() { store.after_writing(*table, answer) } else { answer }
        }
        Call::Convert { buffer, image } => {
            let answer = lent(*buffer, |buffer| convert(image, buffer, store.floor));
            if any_bent() { store.after_converting(image, answer) } else { answer }
        }
    }
}

/// "A trace not in form gives one answer, number 6, with zeros and no payload, and nothing is run."
pub fn run_trace(trace: &[u8]) -> Vec<Answer> {
    let Some(calls) = read_trace(trace) else {
        return if bent(Bend::DamagedTraceSilent) { Vec::new() } else { vec![Answer::damaged()] };
    };
    if let Some(op) = area::losing() {
        return run_losing(op, &calls);
    }
    let mut store = Store::default();
    calls.iter().map(|call| run_call(&mut store, call)).collect()
}

/// The calls under a bend of the area: where a call of this op makes the store pack its area anew, a row is lost.
fn run_losing(op: u8, calls: &[Call]) -> Vec<Answer> {
    let mut store = Store::default();
    let mut area = Area::default();
    let run = |call: &Call| {
        let (answer, packed) = area.run(&mut store, call);
        if packed && call.op() == op {
            store.lose_a_row();
        }
        answer
    };
    calls.iter().map(run).collect()
}

/// The answers of one trace, in bytes.
pub fn answers(trace: &[u8], out: &mut Bytes) {
    if bent(Bend::DamagedHeadOf29) && read_trace(trace).is_none() {
        return with_bend(Bend::HeadOf29, || Answer::damaged().write(out));
    }
    run_trace(trace).iter().for_each(|answer| answer.write(out));
}

/// "any number of traces, each after a 4-byte length; each runs on a fresh store, and the answers of all follow one
/// another." None if the lengths do not read.
pub fn many_answers(input: &[u8]) -> Option<Bytes> {
    let mut reader = Reader::new(input);
    let mut out = Bytes::new();
    while reader.ended().is_none() {
        let length = reader.four()? as usize;
        answers(reader.take(length)?, &mut out);
    }
    Some(out)
}

/// "the byte 0 where nothing is shown, or 1 and the row".
fn flagged(shown: Option<Bytes>) -> Bytes {
    match shown {
        None => vec![0],
        Some(bytes) => [vec![1], bytes].concat(),
    }
}

/// "the call is lent a buffer of that many bytes, each 0xEE before the call"; the payload is the whole buffer after.
fn lent(length: impl Into<u32>, call: impl FnOnce(&mut [u8]) -> Result<u64, Refusal>) -> Answer {
    let mut buffer = vec![BEFORE; length.into() as usize];
    match call(&mut buffer) {
        Ok(count) => Answer::accepted(count, buffer),
        Err(refusal) => Answer::refused(refusal, buffer),
    }
}

/// A question's answer: its byte, and the count 0.
fn asked(result: Result<u8, Refusal>) -> Answer {
    match result {
        Ok(said) => Answer::accepted(u64::from(said) * u64::from(bent(Bend::QuestionsCount)), vec![said]),
        Err(refusal) if bent(Bend::RefusedQuestionEmpty) => Answer::refused(refusal, Bytes::new()),
        Err(refusal) => Answer::refused(refusal, vec![0]),
    }
}

fn plain(result: Result<(), Refusal>) -> Answer {
    counted(result.map(|()| 0))
}

fn counted(result: Result<u64, Refusal>) -> Answer {
    match result {
        Ok(count) => Answer::accepted(count, Bytes::new()),
        Err(refusal) => Answer::refused(refusal, Bytes::new()),
    }
}

fn numbers(figures: &[u64]) -> Bytes {
    figures.iter().flat_map(|figure| figure.to_be_bytes()).collect()
}

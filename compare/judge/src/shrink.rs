//! Shrinks a trace to a small one that still shows what it is to show: fewer calls, fewer entries in images and
//! batches, fewer bytes if the trace is damaged.

use generate::batch::{key_bytes, mutation_bytes};
use paper::form::{key_batch, mutation_batch};
use paper::restore::Image;
use paper::store::Bytes;
use paper::trace::{Call, read_trace, write_trace};

/// The smallest trace found by at most so many tries; `shows` says whether a trace still shows it.
pub fn smallest(trace: &[u8], tries: usize, shows: &mut dyn FnMut(&[u8]) -> bool) -> Bytes {
    let mut left = tries;
    let mut best = trace.to_vec();
    loop {
        let before = best.clone();
        match read_trace(&best) {
            Some(calls) => best = write_trace(&fewer_calls(calls, &mut left, shows)),
            None => best = fewer_bytes(best, &mut left, shows),
        }
        if let Some(calls) = read_trace(&best) {
            best = write_trace(&smaller_calls(calls, &mut left, shows));
        }
        if best.len() >= before.len() || left == 0 {
            return if best.len() < before.len() { best } else { before };
        }
    }
}

fn fewer_calls(calls: Vec<Call>, left: &mut usize, shows: &mut dyn FnMut(&[u8]) -> bool) -> Vec<Call> {
    fewer(calls, left, &mut |calls: &[Call]| shows(&write_trace(calls)))
}

fn fewer_bytes(bytes: Bytes, left: &mut usize, shows: &mut dyn FnMut(&[u8]) -> bool) -> Bytes {
    fewer(bytes, left, &mut |bytes: &[u8]| shows(bytes))
}

/// Leaves out stretches of items, halving the stretch, while the rest still shows it.
fn fewer<T: Clone>(mut items: Vec<T>, left: &mut usize, shows: &mut dyn FnMut(&[T]) -> bool) -> Vec<T> {
    let mut stretch = items.len().div_ceil(2).max(1);
    loop {
        let mut at = 0;
        while at < items.len() {
            if *left == 0 {
                return items;
            }
            *left -= 1;
            let mut rest = items.clone();
            rest.drain(at..(at + stretch).min(items.len()));
            if shows(&rest) {
                items = rest;
            } else {
                at += stretch;
            }
        }
        if stretch == 1 {
            return items;
        }
        stretch /= 2;
    }
}

/// Each image and batch with fewer entries.
fn smaller_calls(mut calls: Vec<Call>, left: &mut usize, shows: &mut dyn FnMut(&[u8]) -> bool) -> Vec<Call> {
    for at in 0..calls.len() {
        let mut with = |call: Call| {
            let mut other = calls.clone();
            other[at] = call;
            shows(&write_trace(&other))
        };
        let smaller = match calls[at].clone() {
            Call::Restore { image } => {
                let restore = |image: &Image| Call::Restore { image: image.write() };
                Image::read(&image).map(|image| smaller_image(image, restore, left, &mut with))
            }
            Call::Convert { buffer, image } => {
                let convert = |image: &Image| Call::Convert { buffer, image: image.write_old() };
                Image::read_old(&image).map(|image| smaller_image(image, convert, left, &mut with))
            }
            call => smaller_batch(call, left, &mut with),
        };
        if let Some(call) = smaller {
            calls[at] = call;
        }
    }
    calls
}

/// The call with fewer entries in its image.
fn smaller_image(
    mut image: Image,
    call: impl Fn(&Image) -> Call,
    left: &mut usize,
    shows: &mut dyn FnMut(Call) -> bool,
) -> Call {
    let (defaults, locks, writes) = (image.defaults.clone(), image.locks.clone(), image.writes.clone());
    image.locks = fewer(locks, left, &mut |locks| shows(call(&Image { locks: locks.to_vec(), ..image.clone() })));
    let keep = image.clone();
    image.writes = fewer(writes, left, &mut |writes| shows(call(&Image { writes: writes.to_vec(), ..keep.clone() })));
    let keep = image.clone();
    image.defaults =
        fewer(defaults, left, &mut |defaults| shows(call(&Image { defaults: defaults.to_vec(), ..keep.clone() })));
    call(&image)
}

/// The call with fewer entries in its batch, if it has one in form.
fn smaller_batch(call: Call, left: &mut usize, shows: &mut dyn FnMut(Call) -> bool) -> Option<Call> {
    let with = |batch: Bytes| with_batch(&call, batch);
    match &call {
        Call::PrewriteBatch { batch, .. } | Call::OneStep { batch, .. } => {
            let entries = mutation_batch(batch)?;
            Some(with(mutation_bytes(&fewer(entries, left, &mut |entries| shows(with(mutation_bytes(entries)))))))
        }
        Call::CommitBatch { batch, .. } | Call::RollbackBatch { batch, .. } => {
            let keys = key_batch(batch)?;
            Some(with(key_bytes(&fewer(keys, left, &mut |keys| shows(with(key_bytes(keys)))))))
        }
        _ => None,
    }
}

/// The call with another batch; a call that has none stays as it is.
pub fn with_batch(call: &Call, other: Bytes) -> Call {
    let mut call = call.clone();
    match &mut call {
        Call::PrewriteBatch { batch, .. }
        | Call::CommitBatch { batch, .. }
        | Call::RollbackBatch { batch, .. }
        | Call::OneStep { batch, .. } => *batch = other,
        _ => {}
    }
    call
}

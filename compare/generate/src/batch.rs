//! Batches in and out of form.

use paper::form::Entry;
use paper::store::{Bytes, Kind};

use crate::random::Random;

pub fn mutation_bytes(entries: &[Entry]) -> Bytes {
    let mut out = (entries.len() as u16).to_be_bytes().to_vec();
    for entry in entries {
        out.push(entry.key.len() as u8);
        out.extend_from_slice(&entry.key);
        out.push(entry.kind.byte());
        if entry.kind == Kind::Put {
            out.push(entry.row.len() as u8);
            out.extend_from_slice(&entry.row);
        }
    }
    out
}

pub fn key_bytes(keys: &[Bytes]) -> Bytes {
    let mut out = (keys.len() as u16).to_be_bytes().to_vec();
    for key in keys {
        out.push(key.len() as u8);
        out.extend_from_slice(key);
    }
    out
}

/// The mutation batch with one fault of form.
pub fn broken_mutations(random: &mut Random, mut entries: Vec<Entry>) -> Bytes {
    match random.below(6) {
        0 if !entries.is_empty() => {
            let place = random.below(entries.len());
            let at = if random.percent(50) { place } else { random.below(entries.len() + 1) };
            entries.insert(at, entries[place].clone());
            mutation_bytes(&entries)
        }
        1 if entries.len() > 1 => {
            entries.reverse();
            mutation_bytes(&entries)
        }
        4 if !entries.is_empty() => {
            // A key out of form that is less than the one before.
            entries.push(Entry { key: vec![0, 0, 0], kind: Kind::Delete, row: Bytes::new() });
            mutation_bytes(&entries)
        }
        2 | 5 if !entries.is_empty() => {
            // The last entry as a Delete, whose kind byte is the last: any other kind there is no kind.
            let last = entries.len() - 1;
            entries[last] = Entry { key: entries[last].key.clone(), kind: Kind::Delete, row: Bytes::new() };
            let mut bytes = mutation_bytes(&entries);
            *bytes.last_mut().expect("a kind byte") = *random.pick(&[0, 3, 3, 4, 255]);
            bytes
        }
        _ => broken_bytes(random, mutation_bytes(&entries)),
    }
}

/// The key batch with one fault of form.
pub fn broken_keys(random: &mut Random, mut keys: Vec<Bytes>) -> Bytes {
    match random.below(3) {
        0 if !keys.is_empty() => {
            let place = random.below(keys.len());
            let at = if random.percent(50) { place } else { random.below(keys.len() + 1) };
            keys.insert(at, keys[place].clone());
            key_bytes(&keys)
        }
        1 if keys.len() > 1 => {
            keys.reverse();
            key_bytes(&keys)
        }
        _ => broken_bytes(random, key_bytes(&keys)),
    }
}

/// A byte more, a byte less, another count, or nothing at all.
fn broken_bytes(random: &mut Random, mut bytes: Bytes) -> Bytes {
    match random.below(5) {
        0 => bytes.push(0),
        1 => {
            bytes.pop();
        }
        2 => bytes[1] = bytes[1].wrapping_add(1),
        3 if bytes[1] > 0 => bytes[1] -= 1,
        _ => bytes.truncate(random.below(3)),
    }
    bytes
}

//! "Key, row, batch, image": the forms, read from bytes; rows are in row.rs. "Numbers are big-endian. Every form is sections in a fixed
//! order, each after its count; nothing may follow."

use crate::bend::{Bend, bent};
use crate::store::{Bytes, Kind};

/// A place in bytes being read; every step gives nothing when bytes are missing.
pub struct Reader<'a> {
    rest: &'a [u8],
}

impl<'a> Reader<'a> {
    pub fn new(bytes: &'a [u8]) -> Self {
        Reader { rest: bytes }
    }

    pub fn take(&mut self, length: usize) -> Option<&'a [u8]> {
        let (taken, rest) = self.rest.split_at_checked(length)?;
        self.rest = rest;
        Some(taken)
    }

    pub fn byte(&mut self) -> Option<u8> {
        Some(self.take(1)?[0])
    }

    pub fn two(&mut self) -> Option<usize> {
        Some(u16::from_be_bytes(self.take(2)?.try_into().ok()?) as usize)
    }

    pub fn four(&mut self) -> Option<u32> {
        Some(u32::from_be_bytes(self.take(4)?.try_into().ok()?))
    }

    pub fn eight(&mut self) -> Option<u64> {
        Some(u64::from_be_bytes(self.take(8)?.try_into().ok()?))
    }

    /// A length byte, then that many bytes.
    pub fn short(&mut self) -> Option<Bytes> {
        let length = self.byte()? as usize;
        Some(self.take(length)?.to_vec())
    }

    /// A 2-byte length, then that many bytes: how a trace says a key or row that stands alone.
    pub fn long(&mut self) -> Option<Bytes> {
        let length = self.two()?;
        Some(self.take(length)?.to_vec())
    }

    pub fn rest(&mut self) -> &'a [u8] {
        std::mem::take(&mut self.rest)
    }

    /// "nothing may follow".
    pub fn ended(&self) -> Option<()> {
        self.rest.is_empty().then_some(())
    }
}

/// "Key: table number, 4 bytes, not zero; then a name of 1 to 44 bytes, any values. Length 5 to 48."
pub fn key_in_form(key: &[u8]) -> bool {
    let mut least = 5;
    let mut most = 48;
    if bent(Bend::KeyOfFour) {
        least = 4;
    }
    if bent(Bend::KeyFromSix) {
        least = 6;
    }
    if bent(Bend::KeyOfFortyNine) {
        most = 49;
    }
    if bent(Bend::KeyToFortySeven) {
        most = 47;
    }
    (least..=most).contains(&key.len()) && (key[..4] != [0, 0, 0, 0] || bent(Bend::KeyTableZero))
}

/// The table number of a key in form.
pub fn table_of(key: &[u8]) -> u32 {
    u32::from_be_bytes([key[0], key[1], key[2], key[3]])
}

/// One entry of a mutation batch: a Put with its row, or a Delete.
#[derive(Clone, Debug, PartialEq, Eq)]
pub struct Entry {
    pub key: Bytes,
    pub kind: Kind,
    /// Empty for a Delete.
    pub row: Bytes,
}

/// "Mutation batch: 2-byte count 0 to 32, then for each a key length byte, key, kind byte (1 Put, 2 Delete) and, for a
/// Put only, a row length byte and row. [..] Keys strictly ascend. Key and row contents are judged later."
pub fn mutation_batch(bytes: &[u8]) -> Option<Vec<Entry>> {
    let mut reader = Reader::new(bytes);
    let count = batch_count(&mut reader)?;
    let mut entries: Vec<Entry> = Vec::new();
    for _ in 0..count {
        let key = reader.short()?;
        let kind = match Kind::from_byte(reader.byte()?)? {
            Kind::Rollback if bent(Bend::BatchKindRollback) => Kind::Delete,
            Kind::Rollback => return None,
            kind => kind,
        };
        let row = if kind == Kind::Put { reader.short()? } else { Bytes::new() };
        ascends(entries.last().map(|entry| &entry.key), &key)?;
        entries.push(Entry { key, kind, row });
    }
    batch_end(&reader)?;
    Some(entries)
}

/// "Key batch: 2-byte count 0 to 32, then length byte and key. Keys strictly ascend."
pub fn key_batch(bytes: &[u8]) -> Option<Vec<Bytes>> {
    let mut reader = Reader::new(bytes);
    let count = batch_count(&mut reader)?;
    let mut keys: Vec<Bytes> = Vec::new();
    for _ in 0..count {
        let key = reader.short()?;
        ascends(keys.last(), &key)?;
        keys.push(key);
    }
    batch_end(&reader)?;
    Some(keys)
}

fn batch_count(reader: &mut Reader) -> Option<usize> {
    let most = if bent(Bend::BatchOf33) {
        33
    } else if bent(Bend::BatchTo31) {
        31
    } else {
        32
    };
    reader.two().filter(|count| *count <= most)
}

/// "Keys strictly ascend", over raw bytes whatever the contents.
fn ascends(before: Option<&Bytes>, key: &Bytes) -> Option<()> {
    if bent(Bend::BatchKeysJudgedAsForm) && !key_in_form(key) {
        return None;
    }
    let Some(before) = before else {
        return Some(());
    };
    let unjudged = bent(Bend::BatchAnyOrder)
        || bent(Bend::BatchEqualKeys) && before == key
        || bent(Bend::BatchOrderOfSoundKeys) && !(key_in_form(before) && key_in_form(key));
    (before < key || unjudged).then_some(())
}

fn batch_end(reader: &Reader) -> Option<()> {
    if bent(Bend::BatchTrailing) { Some(()) } else { reader.ended() }
}

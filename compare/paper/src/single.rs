//! Bends of the single forms alone: what could become of a key or row that a batch's length byte cannot say. Unbent, the
//! single form takes both as they are.

use crate::answer::{BATCH, KEY, ROW, Refusal, refuse};
use crate::bend::{Bend, bent};
use crate::store::{Bytes, Kind};

/// The most that a length byte can say.
const MOST: usize = 255;

/// The key as the single form takes it.
pub fn single_key(key: &[u8]) -> Result<Bytes, Refusal> {
    let long = key.len() > MOST;
    if long && bent(Bend::LongKeyIs6) {
        return refuse(BATCH);
    }
    if long && bent(Bend::LongKeyFirst) {
        return refuse(KEY);
    }
    let length = if bent(Bend::LongKeyWraps) { key.len() % 256 } else { key.len() };
    Ok(key[..length].to_vec())
}

/// The row as the single prewrite takes it: "a Delete's row argument is ignored".
pub fn single_row(kind: Kind, row: &[u8]) -> Result<Bytes, Refusal> {
    let long = row.len() > MOST;
    if kind == Kind::Delete {
        if long && bent(Bend::DeleteLongRowJudged) {
            return refuse(ROW);
        }
        return Ok(if bent(Bend::DeleteRowJudged) { row.to_vec() } else { Bytes::new() });
    }
    if long && bent(Bend::LongRowFirst) {
        return refuse(ROW);
    }
    let length = match row.len() {
        length if bent(Bend::LongRowCut) => length.min(MOST),
        length if bent(Bend::LongRowWraps) => length % 256,
        length => length,
    };
    Ok(row[..length].to_vec())
}

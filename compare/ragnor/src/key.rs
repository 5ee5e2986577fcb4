//! Stand-in for the storage crate's keys, written from document 01: "Key: table number, 4 bytes, not zero; then a name
//! of 1 to 44 bytes, any values. Length 5 to 48." The published key.rs has another form; docs/DIFFERENCES.md says so.

use ragnordb_common::{
    Error, Result,
    codec::is_key,
    ids::{RowKey, TableId},
};

pub fn decode_row_key(bytes: &[u8]) -> Result<RowKey> {
    if !is_key(bytes) {
        return Err(Error::CorruptData("key not in form".to_string()));
    }
    let (table, name) = bytes.split_at(4);
    let table = u32::from_be_bytes(table.try_into().expect("four bytes"));
    Ok(RowKey { table_id: TableId(u64::from(table)), primary_key_bytes: name.to_vec() })
}

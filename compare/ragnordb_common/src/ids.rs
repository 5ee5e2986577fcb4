//! Stand-in for ragnordb_common's numbers, written from document 01: "Stamps and transaction numbers are 64-bit
//! unsigned." A table number has 4 bytes in 01; mvcc.rs only compares it.

use crate::proto::snapshot;

#[derive(Clone, Copy, Debug, Default, PartialEq, Eq, PartialOrd, Ord)]
pub struct TableId(pub u64);

#[derive(Clone, Copy, Debug, Default, PartialEq, Eq, PartialOrd, Ord)]
pub struct TxnId(pub u64);

#[derive(Clone, Copy, Debug, Default, PartialEq, Eq, PartialOrd, Ord)]
pub struct Timestamp(pub u64);

impl Timestamp {
    pub fn to_proto(self) -> snapshot::Timestamp {
        snapshot::Timestamp { id: self.0 }
    }

    pub fn from_proto(message: snapshot::Timestamp) -> Self {
        Timestamp(message.id)
    }
}

/// A key in form, taken apart.
#[derive(Clone, Debug, PartialEq, Eq)]
pub struct RowKey {
    pub table_id: TableId,
    pub primary_key_bytes: Vec<u8>,
}

//! Stand-in for ragnordb_common's protobuf messages, written from document 01: an image's entries as plain structs.

pub mod snapshot {
    use prost::Message;

    #[derive(Clone, Debug, PartialEq, Eq)]
    pub struct Timestamp {
        pub id: u64,
    }

    #[derive(Clone, Debug, PartialEq, Eq)]
    pub struct LockRecord {
        pub transaction: u64,
        pub primary: Vec<u8>,
        pub start: u64,
        pub time_to_live: u64,
        pub kind: u8,
    }

    /// "Cost is key plus primary length plus 26 (the Rust counts protobuf bytes)": the key is added by mvcc.rs.
    impl Message for LockRecord {
        fn encoded_len(&self) -> usize {
            self.primary.len() + 26
        }
    }

    #[derive(Clone, Debug, PartialEq, Eq)]
    pub struct WriteRecord {
        pub start: u64,
        pub commit: u64,
        pub kind: u8,
    }

    #[derive(Clone, Debug, PartialEq, Eq)]
    pub struct DefaultValueEntry {
        pub key: Vec<u8>,
        pub start_timestamp: Option<Timestamp>,
        pub row: Vec<u8>,
    }

    #[derive(Clone, Debug, PartialEq, Eq)]
    pub struct LockEntry {
        pub key: Vec<u8>,
        pub record: Option<LockRecord>,
    }

    #[derive(Clone, Debug, PartialEq, Eq)]
    pub struct WriteEntry {
        pub key: Vec<u8>,
        pub write_timestamp: Option<Timestamp>,
        pub record: Option<WriteRecord>,
    }

    /// The catalog's definition of a table is no part of the port; mvcc.rs only ever leaves it out.
    #[derive(Clone, Debug, PartialEq, Eq)]
    pub struct TableDefinition;

    #[derive(Clone, Debug, PartialEq, Eq)]
    pub struct SnapshotTable {
        pub definition: Option<TableDefinition>,
        pub default_values: Vec<DefaultValueEntry>,
        pub locks: Vec<LockEntry>,
        pub writes: Vec<WriteEntry>,
    }
}

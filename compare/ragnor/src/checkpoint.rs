//! Stand-in for the storage crate's checkpoint module: the one type that mvcc.rs hands a captured state to. It only keeps
//! the entries; which of them are an image's, and the bytes of an image, are the judge's.

use ragnordb_common::proto::snapshot;

#[derive(Clone, Debug, PartialEq)]
pub struct CapturedMvccState {
    pub default_values: Vec<snapshot::DefaultValueEntry>,
    pub locks: Vec<snapshot::LockEntry>,
    pub writes: Vec<snapshot::WriteEntry>,
}

impl CapturedMvccState {
    pub(crate) fn new(
        default_values: Vec<snapshot::DefaultValueEntry>,
        locks: Vec<snapshot::LockEntry>,
        writes: Vec<snapshot::WriteEntry>,
    ) -> Self {
        CapturedMvccState { default_values, locks, writes }
    }
}

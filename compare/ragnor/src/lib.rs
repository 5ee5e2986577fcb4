//! The Rust as it stands: src/mvcc.rs, carried over unchanged from ragnordb 18f492ed42 (MIT, LICENSE.txt), in two
//! modules that build.rs makes: `shown` is the file as published, `from_paper` has validate_mutation written from
//! document 01.
//!
//! What mvcc.rs calls but does not show is written from document 01 in the stand-ins: key.rs and checkpoint.rs here,
//! and the crates ragnordb_common and prost.

use std::collections::BTreeMap;

use ragnordb_common::codec::{LockRecord, WriteRecord};
use ragnordb_common::ids::Timestamp;

pub mod checkpoint;
pub mod engine;
pub mod key;

/// The store's maps: defaults, locks, writes.
pub type Maps<'a> = (
    &'a BTreeMap<Vec<u8>, BTreeMap<Timestamp, Vec<u8>>>,
    &'a BTreeMap<Vec<u8>, LockRecord>,
    &'a BTreeMap<Vec<u8>, BTreeMap<Timestamp, WriteRecord>>,
);

include!(concat!(env!("OUT_DIR"), "/modules.rs"));

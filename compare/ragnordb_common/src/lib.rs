//! Stand-in for the crate ragnordb_common that mvcc.rs leans on and that is not published beside it. Written from
//! document 01: the row's form, the sound lock, the lock's cost of 26 plus primary. Names and shapes are those that
//! mvcc.rs calls; what they do is 01's.

pub mod codec;
pub mod encoding;
pub mod ids;
pub mod proto;

use std::fmt;

/// The errors that mvcc.rs gives. Document 01, "In the Rust: ..", maps its numbers to three of them.
#[derive(Clone, Debug, PartialEq, Eq)]
pub enum Error {
    NotImplemented(&'static str),
    InvalidArgument(String),
    WriteConflict(String),
    CorruptData(String),
}

impl fmt::Display for Error {
    fn fmt(&self, f: &mut fmt::Formatter<'_>) -> fmt::Result {
        match self {
            Error::NotImplemented(text) => write!(f, "not implemented: {text}"),
            Error::InvalidArgument(text) => write!(f, "invalid argument: {text}"),
            Error::WriteConflict(text) => write!(f, "write conflict: {text}"),
            Error::CorruptData(text) => write!(f, "corrupt data: {text}"),
        }
    }
}

impl std::error::Error for Error {}

pub type Result<T> = std::result::Result<T, Error>;

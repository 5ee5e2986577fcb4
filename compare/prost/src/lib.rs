//! Stand-in for the protobuf crate that mvcc.rs names, written from document 01: no protobuf is ported, and the one
//! length that mvcc.rs asks for is given by 01's cost of a lock.

/// What mvcc.rs asks of a message: how many bytes it takes.
pub trait Message {
    fn encoded_len(&self) -> usize;
}

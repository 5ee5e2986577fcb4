//! Stand-in for ragnordb_common's records, written from document 01: "Sound lock: transaction, start, time to live not
//! 0, kind Put or Delete, primary a key." The record's own soundness is judged by mvcc.rs itself.

use crate::ids::{Timestamp, TxnId};
use crate::proto::snapshot;

#[derive(Clone, Copy, Debug, PartialEq, Eq)]
pub enum WriteKind {
    Put,
    Delete,
    Rollback,
}

impl WriteKind {
    /// "Kinds: 1 Put, 2 Delete, 3 Rollback."
    pub fn number(self) -> u8 {
        match self {
            WriteKind::Put => 1,
            WriteKind::Delete => 2,
            WriteKind::Rollback => 3,
        }
    }

    fn from_number(number: u8) -> Result<Self, String> {
        match number {
            1 => Ok(WriteKind::Put),
            2 => Ok(WriteKind::Delete),
            3 => Ok(WriteKind::Rollback),
            _ => Err(format!("no kind {number}")),
        }
    }
}

#[derive(Clone, Debug, PartialEq, Eq)]
pub struct LockRecord {
    pub txn_id: TxnId,
    pub primary_key: Vec<u8>,
    pub start_timestamp: Timestamp,
    pub ttl_ms: u64,
    pub op: WriteKind,
}

impl LockRecord {
    /// Is the lock sound?
    pub fn validate(&self) -> Result<(), String> {
        if self.txn_id.0 == 0 || self.start_timestamp.0 == 0 || self.ttl_ms == 0 {
            return Err("transaction, start or time to live is 0".to_string());
        }
        if self.op == WriteKind::Rollback {
            return Err("kind is Rollback".to_string());
        }
        if !is_key(&self.primary_key) {
            return Err("primary is no key".to_string());
        }
        Ok(())
    }

    /// Restore takes sound locks only.
    pub fn from_proto(message: snapshot::LockRecord) -> Result<Self, String> {
        let lock = LockRecord {
            txn_id: TxnId(message.transaction),
            primary_key: message.primary,
            start_timestamp: Timestamp(message.start),
            ttl_ms: message.time_to_live,
            op: WriteKind::from_number(message.kind)?,
        };
        lock.validate()?;
        Ok(lock)
    }

    pub fn to_proto(&self) -> Result<snapshot::LockRecord, String> {
        Ok(snapshot::LockRecord {
            transaction: self.txn_id.0,
            primary: self.primary_key.clone(),
            start: self.start_timestamp.0,
            time_to_live: self.ttl_ms,
            kind: self.op.number(),
        })
    }
}

/// "Key: table number, 4 bytes, not zero; then a name of 1 to 44 bytes, any values. Length 5 to 48."
pub fn is_key(bytes: &[u8]) -> bool {
    bytes.len() >= 5 && bytes.len() <= 48 && bytes[..4].iter().any(|byte| *byte != 0)
}

#[derive(Clone, Debug, PartialEq, Eq)]
pub struct WriteRecord {
    pub start_timestamp: Timestamp,
    pub commit_timestamp: Timestamp,
    pub op: WriteKind,
}

impl WriteRecord {
    pub fn from_proto(message: snapshot::WriteRecord) -> Result<Self, String> {
        Ok(WriteRecord {
            start_timestamp: Timestamp(message.start),
            commit_timestamp: Timestamp(message.commit),
            op: WriteKind::from_number(message.kind)?,
        })
    }

    pub fn to_proto(&self) -> Result<snapshot::WriteRecord, String> {
        Ok(snapshot::WriteRecord {
            start: self.start_timestamp.0,
            commit: self.commit_timestamp.0,
            kind: self.op.number(),
        })
    }
}

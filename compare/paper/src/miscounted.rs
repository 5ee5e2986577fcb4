//! Wrong counts of a read, each a bend: records that it did not examine, or not all that it did.

use crate::answer::LOCKED;
use crate::bend::{Bend, bent};
use crate::read::Looked;
use crate::store::{Kind, Record, Store};

impl Store {
    /// The read with the count that the bend in force gives it.
    pub fn miscounted<'a>(&self, moment: u64, key: &[u8], looked: Looked<'a>) -> Looked<'a> {
        let by = self.records_by(moment, key);
        let examined = match &looked.shown {
            Ok(_) => self.of_accepted(key, looked.examined, &by),
            Err(refusal) if refusal.number == LOCKED => of_held(looked.examined, &by),
            Err(_) if bent(Bend::RefusingRecordUncounted) => 0,
            Err(_) => looked.examined,
        };
        Looked { examined, ..looked }
    }

    /// Of an accepted read that examined so many of these records, which are the key's by the moment, the newest first.
    fn of_accepted(&self, key: &[u8], examined: u64, by: &[(u64, &Record)]) -> u64 {
        let met = &by[..by.len().min(examined as usize)];
        let undone = |record: &Record| record.kind == Kind::Rollback;
        let rollbacks = met.iter().filter(|(_, record)| undone(record)).count() as u64;
        let all = self.records_of(key).count() as u64;
        let only_rollbacks = examined > 0 && rollbacks == examined;
        match () {
            () if bent(Bend::CountsAllRecords) => all,
            () if bent(Bend::CountsAllByMoment) => by.len() as u64,
            () if bent(Bend::CountsAboveMoment) => examined + all - by.len() as u64,
            () if bent(Bend::CountsTheLock) => examined + u64::from(self.lock_of(key).is_some()),
            () if bent(Bend::CountsOneMore) => examined + 1,
            () if bent(Bend::CountsOneWithoutRecord) => examined.max(1),
            () if bent(Bend::CountsNoRollbacks) => examined - rollbacks,
            () if bent(Bend::CountsRollbacksAlone) => rollbacks,
            () if bent(Bend::CountStopsAtRollback) => {
                met.iter().position(|(_, record)| undone(record)).map_or(examined, |at| at as u64 + 1)
            }
            () if bent(Bend::OnlyRollbacksCountNone) && only_rollbacks => 0,
            () if bent(Bend::OnlyRollbacksCountOneMore) && only_rollbacks => examined + 1,
            () if bent(Bend::DeleteCountsNone) && met.last().is_some_and(|(_, record)| record.kind == Kind::Delete) => {
                0
            }
            () if bent(Bend::CountOfOneByte) => examined % 256,
            () => examined,
        }
    }
}

/// Of a read that a lock refuses.
fn of_held(examined: u64, by: &[(u64, &Record)]) -> u64 {
    if bent(Bend::HeldCountsTheLock) {
        return 1;
    }
    if bent(Bend::HeldCountsRecords) {
        return by.len() as u64;
    }
    examined
}

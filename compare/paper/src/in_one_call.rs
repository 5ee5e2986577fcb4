//! Bends that hold in calls of one op alone: there another rule is bent, so that a count of the traces which notice shows
//! whether that call meets what the rule is about.

use crate::bend::{Bend, bent};

const KEYS: &[Bend] = &[Bend::KeyOfFour, Bend::KeyOfFortyNine, Bend::KeyTableZero];
const LOCKS: &[Bend] =
    &[Bend::LockTransactionZero, Bend::LockStartZero, Bend::LockTimeToLiveZero, Bend::LockKindRollback];
const RECORDS: &[Bend] =
    &[Bend::RecordStampAny, Bend::RecordStartZero, Bend::RecordCommitEqual, Bend::RollbackCommitAbove];

/// The bend, the op, and the rules that are bent in its calls.
const LIST: &[(Bend, u8, &[Bend])] = &[
    (Bend::OldRowInPrewriteTaken, 6, &[Bend::OldRowTaken]),
    (Bend::OldRowInPrewriteBatchTaken, 7, &[Bend::OldRowTaken]),
    (Bend::OldRowInOneStepTaken, 12, &[Bend::OldRowTaken]),
    (Bend::OldRowInImageTaken, 32, &[Bend::OldRowTaken]),
    (Bend::SpareBitsInPrewriteAny, 6, &[Bend::SpareBitsAny]),
    (Bend::SpareBitsInPrewriteBatchAny, 7, &[Bend::SpareBitsAny]),
    (Bend::SpareBitsInOneStepAny, 12, &[Bend::SpareBitsAny]),
    (Bend::SpareBitsInImageAny, 32, &[Bend::SpareBitsAny]),
    (Bend::SpareBitsOfOneBoneAny, 17, &[Bend::SpareBitsAny]),
    (Bend::SpareBitsOfManyAny, 18, &[Bend::SpareBitsAny]),
    (Bend::MaskByteMoreInPrewrite, 6, &[Bend::RowTrailing]),
    (Bend::MaskByteMoreInPrewriteBatch, 7, &[Bend::RowTrailing]),
    (Bend::MaskByteMoreInOneStep, 12, &[Bend::RowTrailing]),
    (Bend::MaskByteMoreInImage, 32, &[Bend::RowTrailing]),
    (Bend::MaskByteMoreOfOneBone, 17, &[Bend::RowTrailing]),
    (Bend::MaskByteMoreOfMany, 18, &[Bend::RowTrailing]),
    (Bend::PrewriteFloorUnjudgedAlone, 6, &[Bend::PrewriteFloorUnjudged]),
    (Bend::PrewriteFloorUnjudgedInBatch, 7, &[Bend::PrewriteFloorUnjudged]),
    (Bend::CommitFloorUnjudgedAlone, 8, &[Bend::CommitFloorUnjudged]),
    (Bend::CommitFloorUnjudgedInBatch, 9, &[Bend::CommitFloorUnjudged]),
    (Bend::RollbackFloorUnjudgedAlone, 10, &[Bend::RollbackFloorUnjudged]),
    (Bend::RollbackFloorUnjudgedInBatch, 11, &[Bend::RollbackFloorUnjudged]),
    (Bend::ConvertTrailing, 36, &[Bend::ImageTrailing]),
    (Bend::ConvertTableZero, 36, &[Bend::ImageTableZero]),
    (Bend::ConvertKeyUnjudged, 36, KEYS),
    (Bend::ConvertOtherTable, 36, &[Bend::ImageOtherTable]),
    (Bend::ConvertStartZero, 36, &[Bend::DefaultStartZero]),
    (Bend::ConvertRowUnjudged, 36, &[Bend::ImageRowUnjudged]),
    (Bend::ConvertSecondDefault, 36, &[Bend::SecondDefaultTaken]),
    (Bend::ConvertLockUnsound, 36, LOCKS),
    (Bend::ConvertPrimaryAny, 36, &[Bend::LockPrimaryAny]),
    (Bend::ConvertSecondLock, 36, &[Bend::SecondLockTaken]),
    (Bend::ConvertRecordUnsound, 36, RECORDS),
    (Bend::ConvertSecondWrite, 36, &[Bend::SecondWriteTaken]),
    (Bend::ConvertPutWithoutDefault, 36, &[Bend::PutWithoutDefaultTaken]),
];

/// The rules that the bend in force bends in calls of this op.
pub fn rules(op: u8) -> &'static [Bend] {
    LIST.iter().find(|(bend, of, _)| *of == op && bent(*bend)).map_or(&[], |(_, _, rules)| rules)
}

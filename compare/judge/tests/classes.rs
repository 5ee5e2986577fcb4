//! The classes hide nothing else: with a rule of the paper bent, comparison 1 meets a difference that has no name.

use generate::{Kind, Ops, kind_of, trace, trace_of};
use judge::one::differences;
use paper::bend::{Bend, Reach, with_bend};
use paper::trace::{Call, read_trace};

/// Bends that comparison 1 cannot notice, and why; the sample notices each of them in a driver.
const UNSEEN: &[(&str, &[Bend])] = &[
    (
        "the Rust is handed entries and bounds, not the bytes of a batch, an image, a call or a trace",
        &[
            Bend::BatchOf33,
            Bend::BatchTo31,
            Bend::BatchKindRollback,
            Bend::BatchOrderOfSoundKeys,
            Bend::BatchKeysJudgedAsForm,
            Bend::BatchTrailing,
            Bend::ImageTrailing,
            Bend::CallTrailing,
            Bend::CallKindRollback,
            Bend::FlagOfAnyByte,
            Bend::TraceOfAnyLength,
            Bend::EmptyTraceTaken,
            Bend::TraceRunsToItsFault,
            Bend::TraceTrailing,
            Bend::TraceShortLengthsOnly,
            Bend::DamagedTraceSilent,
            Bend::LongBufferOneLess,
            Bend::LongBufferOneMore,
        ],
    ),
    (
        "the Rust returns a page or an image's entries and is lent no buffer",
        &[
            Bend::BufferRestZeroed,
            Bend::ShortBufferFilled,
            Bend::ShortImageFilled,
            Bend::ShortImageSections,
            Bend::ShortImageLastByte,
            Bend::TableZeroFills,
            Bend::ImageRestCleared,
            Bend::PageFloorFills,
        ],
    ),
    (
        "1, 2, 3 and 4 are one error in the Rust",
        &[
            Bend::LimitsAfterBounds,
            Bend::BoundsOrderBeforeEnd,
            Bend::ResumeBeforeOrder,
            Bend::TimeToLiveBeforePrimary,
            Bend::RowBeforeKey,
            Bend::LongKeyFirst,
            Bend::LongRowFirst,
        ],
    ),
    (
        "it is the Rust's own rule, or a part of it",
        &[
            Bend::OneStepOccupied9,
            Bend::ImageTableZero,
            Bend::RustStampAtStart,
            Bend::RustRollbackAbove,
            Bend::RustCommitTaken,
            Bend::RustCommitBetween,
            Bend::RustCommitHolderFirst,
        ],
    ),
    (
        "a WriteConflict names the holder's transaction and start alone, and no other result of the Rust names a holder",
        &[
            Bend::HolderTimeToLiveIsStart,
            Bend::HolderNewFieldsZero,
            Bend::HolderTimeToLiveZero,
            Bend::HolderTimeToLiveOf32,
            Bend::HolderKindZero,
            Bend::HolderKindAlwaysPut,
            Bend::HolderKindFromZero,
            Bend::HolderFieldsOfFirstLock,
            Bend::HolderKindOfNewestRecord,
            Bend::HolderKindOfEntry,
            Bend::HolderTimeToLiveOfCall,
            Bend::HolderTimeLeft,
            Bend::HolderShortInRead,
            Bend::HolderShortInPage,
            Bend::HolderShortInPrewrite,
            Bend::HolderShortInPrewriteBatch,
            Bend::HolderShortInCommit,
            Bend::HolderShortInCommitBatch,
            Bend::HolderShortInRollback,
            Bend::HolderShortInRollbackBatch,
            Bend::HolderShortInOneStep,
            Bend::HolderShortInCollect,
            Bend::AcceptedReadNamesLock,
            Bend::OneIntentNamesLock,
            Bend::AcceptedChangeNamesLock,
            Bend::HistoryNamesLock,
            Bend::ContradictionNamesLock,
        ],
    ),
    (
        "the Rust writes no answers",
        &[Bend::HolderKindFirst, Bend::HolderAfterCount, Bend::HeadOf29, Bend::DamagedHeadOf29],
    ),
    (
        "the Rust has no area",
        &[
            Bend::RepackInPrewriteLosesARow,
            Bend::RepackInPrewriteBatchLosesARow,
            Bend::RepackInCommitLosesARow,
            Bend::RepackInCommitBatchLosesARow,
            Bend::RepackInRollbackLosesARow,
            Bend::RepackInRollbackBatchLosesARow,
            Bend::RepackInOneStepLosesARow,
        ],
    ),
];

/// The Rust is asked for no bones and converts no image: bends that only these calls show.
const NOT_OF_THE_RUST: [u8; 3] = [17, 18, 36];

/// The calls of traces of every kind but those about the area, and of many that come to a room.
fn traces() -> Vec<Vec<Call>> {
    let seeds = (0..1500).filter(|seed| kind_of(*seed) != Kind::Repacks);
    let any = seeds.map(|seed| trace(seed, Ops::all()));
    let rooms = (0..300).map(|seed| trace_of(Kind::Room, seed, Ops::all()));
    any.chain(rooms).filter_map(|trace| read_trace(&trace)).collect()
}

/// Is there a difference without a name in one of the traces, with this rule bent?
fn fails(bend: Bend, traces: &[Vec<Call>]) -> bool {
    let unnamed = |calls: &Vec<Call>| differences(calls).iter().any(|difference| difference.class.is_none());
    with_bend(bend, || traces.iter().any(unnamed))
}

#[test]
fn eleven_too_early_or_too_late_and_8_for_7_have_no_name() {
    let traces = traces();
    for bend in [
        Bend::LinesOneLess,
        Bend::LocksOneLess,
        Bend::DefaultsOneLess,
        Bend::LiveBytesOneLess,
        Bend::LinesOneMore,
        Bend::LocksOneMore,
        Bend::LiveBytesOneMore,
        Bend::RoomUnjudged,
        Bend::HeldIsHistory,
    ] {
        assert!(fails(bend, &traces), "{bend:?}: {}", bend.text());
    }
}

#[test]
fn every_bend_that_the_rust_can_show_has_no_name() {
    let traces = traces();
    let unseen: Vec<Bend> = UNSEEN.iter().flat_map(|(_, bends)| bends.iter().copied()).collect();
    let of_the_rust = |bend: &Bend| bend.op().is_none_or(|op| !NOT_OF_THE_RUST.contains(&op));
    let shown = Bend::ALL.iter().copied().filter(|bend| bend.reach() == Reach::Shown && !unseen.contains(bend));
    let shown = shown.filter(of_the_rust);
    let hidden: Vec<Bend> = shown.filter(|bend| !fails(*bend, &traces)).collect();
    assert!(hidden.is_empty(), "comparison 1 does not notice {hidden:?}");
}

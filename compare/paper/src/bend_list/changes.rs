//! The bends of the changing calls.

macro_rules! of_changes {
    ([$($before:tt)*] $next:ident $($rest:ident)*) => {
        $next! { [$($before)*
            // Prewrite
            PrewriteEmptyTaken "an empty prewrite is accepted";
            PrewriteTransactionZero "a prewrite of transaction 0 is taken";
            TimeToLiveBeforePrimary "the time to live is judged before the primary";
            TimeToLiveZeroTaken "a time to live of 0 is taken";
            PrimaryUnjudged "the primary is not judged";
            PrimaryMustBeAnEntry "the primary must be an entry";
            PrewritePrimaryOfTable "the primary must be of the entry's table";
            PrewriteContentsFirst "1 and 2 of all entries come first";
            PrewriteAppliesAsItGoes "a prewrite applies entries before the last is checked";
            PrewriteFirstEntryOnly "a prewrite stores its first entry only";
            PrewriteStoresNoRow "a prewrite stores no row";
            RowBeforeKey "2 comes before 1";
            RowUnjudged "a row argument is not judged";
            RowAfterHistory "2 comes after 8";
            DeleteRowJudged "a Delete's row argument is judged";
            PrewriteStampAbove "a record stamped with the start itself is no 8";
            PrewriteIgnoresRollbacks "a Rollback is no 8 in a prewrite";
            OwnLockBeforeHistory "an own lock is looked at before the records";
            LockBeforeHistory "7 comes before 8 in a prewrite";
            DefaultWithoutLockTaken "a default without lock is no 9"
                never "a default has a Put line of its start, which is 7 or 8 before, or the own lock";
            DefaultOfAnyStart "a default of any start without lock is 9";
            ReplayPrimaryAny "a replay may bring another primary";
            ReplayTimeToLiveAny "a replay may bring another time to live";
            ReplayKindAny "a replay may bring another kind";
            ReplayRowMissingTaken "a replay is accepted though its row is missing" never PUT_ROWS;
            ReplayRowAny "a replay may bring another row";
            ReplayDeleteWithDefaultRefused "a Delete's replay beside a default is 9" never PUT_ROWS;
            // Single forms
            LongKeyIs6 "a single key above 255 bytes is 6";
            LongKeyFirst "a single key above 255 bytes is 1 before any other step";
            LongKeyWraps "a single key's length is taken by its last byte";
            LongRowFirst "a single Put's row above 255 bytes is 2 before any other step";
            LongRowCut "a single Put's row above 255 bytes is cut";
            LongRowWraps "a single Put's row length is taken by its last byte";
            DeleteLongRowJudged "a single Delete's row argument above 255 bytes is 2";
            // Commit
            CommitMayEqualStart "commit may equal start";
            CommitZeroFirst "3 comes before 6 in a commit";
            CommitEmptyTaken "an empty commit is accepted";
            CommitKeysFirst "1 of all keys comes first in a commit";
            CommitAppliesAsItGoes "a commit applies keys before the last is checked";
            CommitHighestRecord "the highest-stamped record with this start decides" never ONE_LINE;
            CommitOfRolledBack9 "a commit of what was rolled back is 9";
            OtherCommitTaken "a replay with another commit is accepted";
            ReplayLockOfOwnAlone "a replay minds the call's own lock only" never ONE_LINE;
            ReplayLockIgnored "a replay minds no lock" never ONE_LINE;
            ReplayDefaultIgnored "a replay minds no missing default" never PUT_ROWS;
            ReplayDeleteDefaultRefused "a Delete's replay with a default is 9" never PUT_ROWS;
            ReplayRefused "a replay of a commit is 8";
            CommitNoLock9 "a commit without lock is 9";
            CommitWithoutRowTaken "a Put lock without default is committed" never PUT_ROWS;
            CommitDeleteWithRowTaken "a Delete lock with a default is committed" never PUT_ROWS;
            CommitRowBeforeHistory "the row's 9 comes before the newest stamp's 8" never PUT_ROWS;
            CommitNewestIgnoresRollbacks "the newest stamp is that of no Rollback";
            CommitOverNoNewer "any record above the start is 8 in a commit";
            CommitNewestAbove "a newest stamp equal to commit is no 8";
            CommitNewestIgnored "the newest stamp is not looked at";
            CommitAlwaysPut "a commit's record is a Put";
            CommitKeepsLock "a commit leaves the lock";
            CommitDropsRow "a commit drops the row";
            // Rollback
            RollbackEmptyTaken "an empty rollback is accepted";
            RollbackTransactionZero "a rollback of transaction 0 is taken";
            RollbackAppliesAsItGoes "a rollback applies keys before the last is checked";
            RollbackLockFirst "7 comes first in a rollback";
            RollbackOfCommittedTaken "a rollback of what was committed is no 8";
            RollbackOfCommitted9 "a rollback of what was committed is 9";
            RollbackOverStampTaken "a rollback replaces a record stamped with its start";
            RollbackOverStamp8 "a rollback over a record stamped with its start is 8";
            RollbackBesideAnyLock "a Rollback beside any lock is 9";
            RollbackReplayLockIgnored "a rollback's replay minds no lock" never ONE_LINE;
            RollbackReplayRowIgnored "a rollback's replay minds no default" never PUT_ROWS;
            RollbackReplayRefused "a rollback's replay is 8";
            RollbackWithoutRowTaken "a Put lock without default is rolled back" never PUT_ROWS;
            RollbackDeleteWithRowTaken "a Delete lock with a default is rolled back" never PUT_ROWS;
            RollbackOrphanTaken "a default without lock is no 9 in a rollback" never PUT_ROWS;
            RollbackNeedsLock "a rollback without lock is 8";
            RollbackKeepsLock "a rollback leaves the lock";
            RollbackKeepsRow "a rollback leaves the row";
            RollbackLeavesNoRecord "a rollback leaves no record";
            // One-step batch
            OneStepEmptyFirst "an empty one-step batch is accepted before 3" of 12;
            OneStepContentsLater "1 and 2 come with each entry's history" of 12;
            OneStepLocksBeforeReplay "locks are judged before replays" of 12;
            OneStepReplayDropsLock "a replay drops an own lock" never ONE_LINE;
            OneStepReplayCountsNone "a replay counts 0" of 12;
            OneStepSomeTaken "a batch applied in part is completed" of 12;
            OneStepHistoryFirst "8 comes before 7 in a one-step batch" of 12;
            OneStepNewestUnjudged "the newest stamp against commit is not looked at"
                never "such a record is at or above start too and was 8 a pass before";
            OneStepFirstEntryOnly "a one-step batch stores its first entry only" of 12;
            OneStepCountsPuts "the count leaves Deletes out" of 12;
            OneStepOccupied9 "a record of another start at commit is 9" of 12;
            OneStepReplayKindAny "a replay may bring another kind" of 12;
            OneStepReplayRowAny "a replay may bring another row" of 12;
            OneStepOtherRowNotApplied "same start but other kind or row is not applied rather than 9" of 12;
            OneStepOwnKindAny "an own lock of other kind is no 9" of 12;
            OneStepStampAbove "a record stamped with the start itself is no 8" of 12;
            OneStepIgnoresRollbacks "a Rollback is no 8 in a one-step batch" of 12;
            OneStepOldRowStays "a row already stored at this start stays" of 12;
            OneStepDeleteDropsRow "a Delete drops a default at its start" never PUT_ROWS;
            OneStepKeepsLock "an own lock stays" of 12;
        ] $($rest)* }
    };
}

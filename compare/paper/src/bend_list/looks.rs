//! The bends of reads and pages.

macro_rules! of_looks {
    ([$($before:tt)*] $next:ident $($rest:ident)*) => {
        $next! { [$($before)*
            // Read
            ReadKeyUnjudged "a read does not judge its key";
            ReadMomentZeroRefused "moment 0 is 3";
            ReadLockLast "a read looks at the lock only if it shows nothing";
            ReadLockStrictlyBelow "a lock at the moment does not refuse a read";
            ReadLockAtAnyMoment "a lock above the moment refuses a read";
            ReadRecordStrictlyBelow "a record at the moment is not read";
            ReadFromTheOldest "records are read from the oldest upward";
            ReadRecordUnjudged "a read does not judge records" never SOUND_RECORDS;
            RollbackReadsAsDelete "a Rollback hides older rows";
            DeleteReadsThrough "a Delete shows the row before it";
            ReadNewestDefault "a Put shows the newest default of its key";
            ReadRowUnjudged "a read does not judge the row's form" never "only rows in form are stored or restored";
            // A read's count (miscounted.rs)
            CountsAllRecords "a read counts all records of its key";
            CountsAllByMoment "a read counts all records of its key at or below the moment";
            CountsAboveMoment "a read counts the records above the moment too";
            CountsTheLock "a read counts its key's lock too";
            CountsOneMore "a read counts one more than it examined";
            CountsOneWithoutRecord "a read that meets no record counts 1";
            CountsNoRollbacks "a read does not count Rollbacks";
            CountsRollbacksAlone "a read counts the Rollbacks passed over alone";
            CountStopsAtRollback "a read's count stops at the first Rollback";
            OnlyRollbacksCountNone "a read that meets Rollbacks alone counts 0";
            OnlyRollbacksCountOneMore "a read that meets Rollbacks alone counts one more";
            DeleteCountsNone "a read that a Delete answers counts 0";
            CountOfOneByte "a read's count is given by its last byte";
            HeldCountsTheLock "a read that a lock refuses counts 1";
            HeldCountsRecords "a read that a lock refuses counts the records at or below the moment";
            RefusingRecordUncounted "a read that is 9 at a record counts 0"
                never "every call leaves sound records and a row for each Put, and restore refuses others";
            OneIntentCounts "one intent counts the lock that it shows";
            OneIntentAtAnyMoment "one intent shows a lock above the moment";
            OneIntentStrictlyBelow "one intent hides a lock at the moment";
            OneIntentUnjudged "one intent shows an unsound lock" never SOUND_LOCKS;
            // Page
            LimitZeroTaken "a row or lock limit of 0 is not refused";
            ByteLimitZeroTaken "a byte limit of 0 is not refused as 3";
            LimitsAfterBounds "the limits are judged after the bounds";
            BoundsMayBeEqual "start may equal end";
            BoundsOrderBeforeEnd "4 comes before the bounds' 1";
            ResumeBeforeOrder "resume's 1 comes before 4";
            ResumeUnjudged "resume is not judged";
            ResumePastEndRefused "resume at or past end is 4";
            StartLeftOut "the start key itself is left out";
            EndTakenIn "the end key itself is taken in";
            ResumeShownAgain "the resume key itself is taken in";
            StartWinsWhenEqual "resume equal to start does not pass it";
            ResumeWinsOverStart "resume below start goes before start";
            ResumeIgnoredWithStart "resume is ignored if start is given";
            PageKeysOfRecordsAlone "a page does not visit keys with a lock alone";
            PageStopsBeforeReading "a full page stops before reading the next key";
            PageSkipsLockedKeys "a page passes over a locked key";
            RowLimitStopWithoutMore "a stop at the row limit says no more";
            PageMoreWhenFilled "a page that is just filled says more";
            PageCostOfRowAlone "a row costs its own length";
            PageCostWithLengths "a row's length bytes cost too";
            PageByteLimitReached "a sum equal to the byte limit stops";
            PageTenOnlyFirstKey "10 only if no key was passed over before";
            PageTenNever "a byte limit below the first entry gives an empty page with more";
            PageByteStopWithoutMore "a stop at the byte limit says no more";
            PageCountIsRows "a page's count is its rows";
            PageCountsRecords "a page's count is the records that its reads examined";
            PageCountAddsRecords "a page's count is its bytes and the records that its reads examined";
            EmptyPageNeedsNoBuffer "resume at or past end is accepted with a short buffer too";
            BufferOneLonger "a buffer just as long as the page is 12";
            BufferRestZeroed "bytes beyond the page are zeroed";
            ShortBufferFilled "a refusal 12 fills the buffer";
            ShortBufferFirst "a buffer below 3 bytes is 12 before any key is read";
            // Intent pages
            LockLimitStopWithoutMore "a stop at the lock limit says no more";
            IntentPageMoreWhenFilled "an intent page that is just filled says more";
            IntentPageUnjudged "an intent page shows unsound locks" never SOUND_LOCKS;
            ConflictingUnjudged "conflicting intents shows unsound locks" never SOUND_LOCKS;
            ConflictingStrictlyBelow "a lock at the moment does not conflict";
            SkippedLockMakesMore "a lock above the moment makes more";
            LockCostOf25 "a lock costs 25 plus key and primary";
            LockCostWithoutPrimary "a lock's primary costs nothing";
        ] $($rest)* }
    };
}

//! The bends of the figures, the Rust's own rules, the area and the trace.

macro_rules! of_others {
    ([$($before:tt)*] $next:ident $($rest:ident)*) => {
        $next! { [$($before)*
            // Statistics and marks
            StatisticsKeysWithALine "keys with a lock alone count as keys with a record" of 33;
            StatisticsChainsSwapped "the chains of records come before those of defaults" of 33;
            ChainsToThree "a chain of 4 counts among 5 to 16" of 33;
            ChainsToFifteen "a chain of 16 counts above 16" of 33;
            MarksWithoutStamps "the marks leave write stamps out" of 34;
            MarksWithoutRecordStarts "the marks leave record starts out"
                never "a sound record's start is never above its stamp";
            MarksWithoutLocks "the marks leave lock starts out" of 34;
            MarksWithoutDefaults "the marks leave default starts out" never "every default's start is that of its Put line";
            // Rules of mvcc.rs in the place of the paper's (as_rust.rs)
            RustStampAtStart "a Put or Delete stamped with the start itself is no 8, as in mvcc.rs";
            RustRollbackAbove "a Rollback stamped above the start is no 8, as in mvcc.rs";
            RustDefaultFirst "a default at the start is judged before records and locks, as in mvcc.rs";
            RustCommitTaken "a commit onto another start's record is 9, as in mvcc.rs";
            RustCommitBetween "a Put or Delete above the start is 8 in a commit, as in mvcc.rs";
            RustCommitHolderFirst "another's lock is 7 in a commit before the records of this start, as in mvcc.rs";
            RustSickTaken "sick images are let through, as in mvcc.rs";
            // The area, which the paper does not have (area.rs)
            RepackInPrewriteLosesARow "an area packed anew in a prewrite loses a row" of 6;
            RepackInPrewriteBatchLosesARow "an area packed anew in a prewrite of a batch loses a row" of 7;
            RepackInCommitLosesARow "an area packed anew in a commit loses a row" of 8;
            RepackInCommitBatchLosesARow "an area packed anew in a commit of a batch loses a row" of 9;
            RepackInRollbackLosesARow "an area packed anew in a rollback loses a row" of 10;
            RepackInRollbackBatchLosesARow "an area packed anew in a rollback of a batch loses a row" of 11;
            RepackInOneStepLosesARow "an area packed anew in a one-step batch loses a row" of 12;
            // Trace
            CallTrailing "bytes may follow a call's arguments";
            CallKindRollback "kind 3 in a prewrite call is in form";
            LongBufferOneLess "a long buffer of 262,144 bytes is not in form" of 35;
            LongBufferOneMore "a long buffer of 262,145 bytes is in form" of 35;
            ConvertBufferMostLess "a long buffer of 262,144 bytes is not in form in a conversion" of 36;
            ConvertBufferMostMore "a long buffer of 262,145 bytes is in form in a conversion" of 36;
            FlagOfAnyByte "a flag byte above 1 says present";
            TraceOfAnyLength "a trace above 262,144 bytes is taken";
            EmptyTraceTaken "an empty input is a trace of no calls";
            TraceRunsToItsFault "the calls before a fault are run";
            TraceTrailing "bytes may follow the last call";
            TraceShortLengthsOnly "a length of 65,535 is the call's own";
            DamagedTraceSilent "a damaged trace gives no answer";
        ] $($rest)* }
    };
}

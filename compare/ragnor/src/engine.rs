//! One face for the two modules: the calls of document 01's table as mvcc.rs has them, by plain numbers and bytes.

use std::collections::{BTreeMap, BTreeSet};

use ragnordb_common::codec::{LockRecord, WriteRecord};
use ragnordb_common::ids::{TableId, Timestamp, TxnId};
use ragnordb_common::{Result, proto::snapshot};

use crate::Maps;
use crate::checkpoint::CapturedMvccState;

/// A batch: a row for a Put, none for a Delete.
pub type Batch = BTreeMap<Vec<u8>, Option<Vec<u8>>>;
/// The rows or locks of a page, and whether there is more.
pub type Page<T> = (Vec<(Vec<u8>, T)>, bool);

/// Start, end and resume of a scan.
#[derive(Clone, Copy)]
pub struct Range<'a> {
    pub start: Option<&'a [u8]>,
    pub end: Option<&'a [u8]>,
    pub resume: Option<&'a [u8]>,
}

/// The entries of an image.
pub struct Entries {
    pub table: u32,
    pub defaults: Vec<snapshot::DefaultValueEntry>,
    pub locks: Vec<snapshot::LockEntry>,
    pub writes: Vec<snapshot::WriteEntry>,
}

/// The numbers of a prewrite, and its primary.
pub struct Intent<'a> {
    pub transaction: u64,
    pub start: u64,
    pub time_to_live: u64,
    pub primary: &'a [u8],
}

pub trait Engine: Default {
    fn maps(&self) -> Maps<'_>;
    fn set_maps(
        &mut self,
        defaults: BTreeMap<Vec<u8>, BTreeMap<Timestamp, Vec<u8>>>,
        locks: BTreeMap<Vec<u8>, LockRecord>,
        writes: BTreeMap<Vec<u8>, BTreeMap<Timestamp, WriteRecord>>,
    );
    fn read(&self, moment: u64, key: &[u8]) -> Result<Option<Vec<u8>>>;
    fn page(&self, moment: u64, rows: u64, bytes: u64, range: Range) -> Result<Page<Vec<u8>>>;
    fn intent_page(&self, locks: u64, range: Range) -> Result<Page<LockRecord>>;
    fn conflicting(&self, moment: u64, locks: u64, bytes: u64, range: Range) -> Result<Page<LockRecord>>;
    fn one_intent(&self, moment: u64, key: &[u8]) -> Result<Option<LockRecord>>;
    fn prewrite(&mut self, intent: &Intent, key: &[u8], row: Option<&[u8]>) -> Result<()>;
    fn prewrite_batch(&mut self, intent: &Intent, batch: &Batch) -> Result<()>;
    fn commit(&mut self, transaction: u64, start: u64, commit: u64, key: &[u8]) -> Result<()>;
    fn commit_batch(&mut self, transaction: u64, start: u64, commit: u64, keys: &BTreeSet<Vec<u8>>) -> Result<()>;
    fn rollback(&mut self, transaction: u64, start: u64, key: &[u8]) -> Result<()>;
    fn rollback_batch(&mut self, transaction: u64, start: u64, keys: &BTreeSet<Vec<u8>>) -> Result<()>;
    fn one_step(&mut self, transaction: u64, start: u64, commit: u64, batch: &Batch) -> Result<usize>;
    fn restore(&mut self, entries: Entries) -> Result<()>;
    /// The figures in the order of TRACE.md.
    fn statistics(&self) -> [u64; 15];
    fn marks(&self) -> [u64; 2];
    /// The entries of every table.
    fn capture(&self) -> Result<CapturedMvccState>;
}

macro_rules! engine {
    ($module:ident) => {
        mod $module {
            use super::*;
            use crate::$module::{InMemoryMvcc, Mutation, MvccStorage, VersionChainStats};

            fn mutation(row: Option<&[u8]>) -> Mutation {
                row.map_or(Mutation::Delete, |row| Mutation::Put(row.to_vec()))
            }

            fn mutations(batch: &Batch) -> BTreeMap<Vec<u8>, Mutation> {
                batch.iter().map(|(key, row)| (key.clone(), mutation(row.as_deref()))).collect()
            }

            fn chains(stats: VersionChainStats) -> [usize; 5] {
                let VersionChainStats { one, two_to_four, five_to_sixteen, more_than_sixteen, max_per_key } = stats;
                [one, two_to_four, five_to_sixteen, more_than_sixteen, max_per_key]
            }

            impl Engine for InMemoryMvcc {
                fn maps(&self) -> Maps<'_> {
                    InMemoryMvcc::maps(self)
                }

                fn set_maps(
                    &mut self,
                    defaults: BTreeMap<Vec<u8>, BTreeMap<Timestamp, Vec<u8>>>,
                    locks: BTreeMap<Vec<u8>, LockRecord>,
                    writes: BTreeMap<Vec<u8>, BTreeMap<Timestamp, WriteRecord>>,
                ) {
                    *self = InMemoryMvcc::with_maps(defaults, locks, writes);
                }

                fn read(&self, moment: u64, key: &[u8]) -> Result<Option<Vec<u8>>> {
                    MvccStorage::read(self, key, Timestamp(moment))
                }

                fn page(&self, moment: u64, rows: u64, bytes: u64, range: Range) -> Result<Page<Vec<u8>>> {
                    let Range { start, end, resume } = range;
                    let moment = Timestamp(moment);
                    let page = self.scan_page(start, end, resume, moment, rows as usize, bytes as usize)?;
                    Ok((page.rows, page.has_more))
                }

                fn intent_page(&self, locks: u64, range: Range) -> Result<Page<LockRecord>> {
                    let page = self.scan_intent_page(range.start, range.end, range.resume, locks as usize)?;
                    Ok((page.locks, page.has_more))
                }

                fn conflicting(&self, moment: u64, locks: u64, bytes: u64, range: Range) -> Result<Page<LockRecord>> {
                    let Range { start, end, resume } = range;
                    let moment = Timestamp(moment);
                    let (locks, bytes) = (locks as usize, bytes as usize);
                    let page = self.scan_conflicting_intents(start, end, resume, moment, locks, bytes)?;
                    Ok((page.locks, page.has_more))
                }

                fn one_intent(&self, moment: u64, key: &[u8]) -> Result<Option<LockRecord>> {
                    self.intent_for_read(key, Timestamp(moment))
                }

                fn prewrite(&mut self, intent: &Intent, key: &[u8], row: Option<&[u8]>) -> Result<()> {
                    let (transaction, start) = (TxnId(intent.transaction), Timestamp(intent.start));
                    let (primary, time_to_live) = (intent.primary, intent.time_to_live);
                    MvccStorage::prewrite(self, transaction, start, key, &mutation(row), primary, time_to_live)
                }

                fn prewrite_batch(&mut self, intent: &Intent, batch: &Batch) -> Result<()> {
                    let (transaction, start) = (TxnId(intent.transaction), Timestamp(intent.start));
                    let (primary, time_to_live) = (intent.primary, intent.time_to_live);
                    MvccStorage::prewrite_batch(self, transaction, start, &mutations(batch), primary, time_to_live)
                }

                fn commit(&mut self, transaction: u64, start: u64, commit: u64, key: &[u8]) -> Result<()> {
                    self.commit_intent(TxnId(transaction), Timestamp(start), Timestamp(commit), key)
                }

                fn commit_batch(
                    &mut self,
                    transaction: u64,
                    start: u64,
                    commit: u64,
                    keys: &BTreeSet<Vec<u8>>,
                ) -> Result<()> {
                    self.commit_intents_batch(TxnId(transaction), Timestamp(start), Timestamp(commit), keys)
                }

                fn rollback(&mut self, transaction: u64, start: u64, key: &[u8]) -> Result<()> {
                    self.rollback_intent(TxnId(transaction), Timestamp(start), key)
                }

                fn rollback_batch(&mut self, transaction: u64, start: u64, keys: &BTreeSet<Vec<u8>>) -> Result<()> {
                    self.rollback_intents_batch(TxnId(transaction), Timestamp(start), keys)
                }

                fn one_step(&mut self, transaction: u64, start: u64, commit: u64, batch: &Batch) -> Result<usize> {
                    let (start, commit) = (Timestamp(start), Timestamp(commit));
                    MvccStorage::commit_batch(self, TxnId(transaction), start, commit, &mutations(batch))
                }

                fn restore(&mut self, entries: Entries) -> Result<()> {
                    let Entries { table, defaults, locks, writes } = entries;
                    let table = TableId(u64::from(table));
                    *self = InMemoryMvcc::restore_from_snapshot_entries(table, defaults, locks, writes)?;
                    Ok(())
                }

                fn statistics(&self) -> [u64; 15] {
                    let stats = self.stats();
                    let counts = [
                        stats.default_keys,
                        stats.default_versions,
                        stats.locks,
                        stats.write_keys,
                        stats.write_records,
                    ];
                    let chains = [chains(stats.default_version_chains), chains(stats.write_record_chains)].concat();
                    let figures: Vec<u64> = counts.iter().chain(&chains).map(|figure| *figure as u64).collect();
                    figures.try_into().expect("15 figures")
                }

                fn marks(&self) -> [u64; 2] {
                    let (transaction, largest) = self.allocator_high_water_marks();
                    [transaction.0, largest.0]
                }

                fn capture(&self) -> Result<CapturedMvccState> {
                    self.capture_snapshot_state()
                }
            }
        }
    };
}

engine!(shown);
engine!(from_paper);

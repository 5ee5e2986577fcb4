//! **Page**, **Intent page** and **Conflicting intents**: argument checks, the walk, and the page's bytes.

use std::collections::BTreeSet;
use std::ops::Bound::{self, Excluded, Included, Unbounded};

use crate::answer::{BELOW_FLOOR, BOUNDS, BYTE_LIMIT, CONTRADICTION, KEY, LOCKED, Refusal, SHORT_BUFFER, ZERO, refuse};
use crate::bend::{Bend, any_bent, bent};
use crate::floor::PageFloor;
use crate::form::key_in_form;
use crate::store::{Bytes, Lock, Store};

/// "start, end and resume may each be absent, by a flag."
#[derive(Clone, Debug, Default, PartialEq, Eq)]
pub struct Bounds {
    pub start: Option<Bytes>,
    pub end: Option<Bytes>,
    pub resume: Option<Bytes>,
}

type Span<'a> = (Bound<&'a [u8]>, Bound<&'a [u8]>);

/// A page being made: "2-byte count; rows [..]; then a byte, 1 if more, else 0."
#[derive(Default)]
struct Page {
    count: u16,
    entries: Bytes,
    cost: u64,
    more: bool,
    /// The records that its reads examined; asked by bends alone.
    examined: u64,
    /// Resume stood at or past end; asked by a bend alone.
    past_end: bool,
}

impl Page {
    fn row(&mut self, key: &[u8], row: &[u8]) {
        self.entry(key);
        self.entries.push(row.len() as u8);
        self.entries.extend_from_slice(row);
    }

    /// "An intent page has, after each key, the lock as in the image."
    fn lock(&mut self, key: &[u8], lock: &Lock) {
        self.entry(key);
        lock.write(&mut self.entries);
    }

    fn entry(&mut self, key: &[u8]) {
        self.count += 1;
        self.entries.push(key.len() as u8);
        self.entries.extend_from_slice(key);
    }

    fn full(&self, limit: u64) -> bool {
        self.count as u64 >= limit
    }

    /// "if the sum would pass the byte limit, 10 on an empty page, else stop with more": true says stop.
    fn pays(&mut self, cost: u64, limit: u64, visited: bool) -> Result<bool, Refusal> {
        let sum = self.cost + cost;
        if sum > limit || sum == limit && bent(Bend::PageByteLimitReached) {
            let empty = self.count == 0 && !(bent(Bend::PageTenOnlyFirstKey) && visited);
            if empty && !bent(Bend::PageTenNever) {
                return refuse(BYTE_LIMIT);
            }
            self.more = !bent(Bend::PageByteStopWithoutMore);
            return Ok(true);
        }
        self.cost = sum;
        Ok(false)
    }

    /// "Last, 12." and "bytes beyond the page keep what they held": the count is the bytes written.
    fn written(self, buffer: &mut [u8]) -> Result<u64, Refusal> {
        let mut page = self.count.to_be_bytes().to_vec();
        page.extend_from_slice(&self.entries);
        page.push(u8::from(self.more));
        let length = page.len();
        if buffer.len() < length || buffer.len() == length && bent(Bend::BufferOneLonger) {
            if bent(Bend::EmptyPageNeedsNoBuffer) && self.past_end {
                return Ok(0);
            }
            if bent(Bend::ShortBufferFilled) {
                let part = buffer.len().min(length);
                buffer[..part].copy_from_slice(&page[..part]);
            }
            return refuse(SHORT_BUFFER);
        }
        buffer[..length].copy_from_slice(&page);
        if bent(Bend::BufferRestZeroed) {
            buffer[length..].fill(0);
        }
        if bent(Bend::PageCountIsRows) {
            return Ok(self.count as u64);
        }
        if bent(Bend::PageCountsRecords) {
            return Ok(self.examined);
        }
        if bent(Bend::PageCountAddsRecords) {
            return Ok(length as u64 + self.examined);
        }
        Ok(length as u64)
    }
}

impl Bounds {
    /// "start 1; end 1; 4; resume 1".
    fn judged(&self, floor: PageFloor) -> Result<(), Refusal> {
        let in_form = |bound: &Option<Bytes>| bound.as_deref().is_none_or(key_in_form);
        let crossed = match (&self.start, &self.end) {
            (Some(start), Some(end)) => start > end || start == end && !bent(Bend::BoundsMayBeEqual),
            _ => false,
        };
        if bent(Bend::BoundsOrderBeforeEnd) && crossed {
            return refuse(BOUNDS);
        }
        // "start 1; end 1"
        if !in_form(&self.start) || !in_form(&self.end) {
            return refuse(KEY);
        }
        if bent(Bend::ResumeBeforeOrder) && !in_form(&self.resume) {
            return refuse(KEY);
        }
        floor.misplaced(Bend::PageFloorBeforeOrder)?;
        // "4"
        if crossed {
            return refuse(BOUNDS);
        }
        floor.misplaced(Bend::PageFloorBeforeResume)?;
        // "resume 1"
        if !in_form(&self.resume) && !bent(Bend::ResumeUnjudged) {
            return refuse(KEY);
        }
        Ok(())
    }

    /// "resume at or past end, empty page without more." No span says the empty page.
    fn span(&self) -> Result<Option<Span<'_>>, Refusal> {
        if let (Some(resume), Some(end)) = (&self.resume, &self.end)
            && resume >= end
        {
            if bent(Bend::ResumePastEndRefused) {
                return refuse(BOUNDS);
            }
            return Ok(None);
        }
        let span = (self.lower(), self.upper());
        // Equal bounds are refused above; only a bend lets them by, and then nothing lies between them.
        if self.start.is_some() && self.start == self.end {
            return Ok(None);
        }
        Ok(Some(span))
    }

    /// "from start (from after resume, if start is absent or not above resume)".
    fn lower(&self) -> Bound<&[u8]> {
        match (self.start.as_deref(), self.resume.as_deref()) {
            (None, None) => Unbounded,
            (Some(start), None) => from(start),
            (None, Some(resume)) => after(resume),
            (Some(start), Some(resume)) if bent(Bend::StartWinsWhenEqual) && start == resume => from(start),
            (Some(start), Some(resume)) if start > resume && !bent(Bend::ResumeWinsOverStart) => from(start),
            (Some(start), Some(_)) if bent(Bend::ResumeIgnoredWithStart) => from(start),
            (Some(_), Some(resume)) => after(resume),
        }
    }

    /// "to before end".
    fn upper(&self) -> Bound<&[u8]> {
        match self.end.as_deref() {
            None => Unbounded,
            Some(end) if bent(Bend::EndTakenIn) => Included(end),
            Some(end) => Excluded(end),
        }
    }
}

fn from(start: &[u8]) -> Bound<&[u8]> {
    if bent(Bend::StartLeftOut) { Excluded(start) } else { Included(start) }
}

fn after(resume: &[u8]) -> Bound<&[u8]> {
    if bent(Bend::ResumeShownAgain) { Included(resume) } else { Excluded(resume) }
}

impl Store {
    /// "**Page:** .. 3; start 1; end 1; 4; resume 1; .. Each key is read first .. Last, 12." "14, below the floor, for a read or
    /// row page moment below F ([..] in a page after the resume key's 1".
    pub fn page(
        &self,
        moment: u64,
        row_limit: u64,
        byte_limit: u64,
        bounds: &Bounds,
        buffer: &mut [u8],
    ) -> Result<u64, Refusal> {
        let floor = PageFloor::of(self, moment);
        floor.misplaced(Bend::PageFloorFirst)?;
        limits_and_bounds(row_limit, Some(byte_limit), bounds, floor)?;
        // "14, below the floor": before a resume at or past end is looked at
        floor.judged()?;
        let span = bounds.span()?;
        if !(span.is_none() && bent(Bend::PageFloorAfterPastEnd)) {
            floor.misplaced(Bend::PageFloorAfterPastEnd)?;
        }
        if bent(Bend::ShortBufferFirst) && buffer.len() < 3 {
            return refuse(SHORT_BUFFER);
        }
        let mut page = Page { past_end: span.is_none(), ..Page::default() };
        let mut visited = false;
        for key in span.into_iter().flat_map(|span| self.keys(span)) {
            if bent(Bend::PageStopsBeforeReading) && page.full(row_limit) {
                page.more = true;
                break;
            }
            floor.misplaced(Bend::PageFloorOfKeysAlone)?;
            // "Each key is read first, and its refusal refuses the page even if the page is already full."
            let looked = self.read_key(moment, key);
            page.examined += looked.examined;
            let shown = match looked.shown {
                Err(refusal) if refusal.number == LOCKED && bent(Bend::PageSkipsLockedKeys) => None,
                read => read?,
            };
            // "With no row, go on."
            let Some(row) = shown else {
                visited = true;
                continue;
            };
            // "With the row limit reached, stop with more."
            if page.full(row_limit) {
                page.more = !bent(Bend::RowLimitStopWithoutMore);
                break;
            }
            // "Cost is key plus row length; if the sum would pass the byte limit, 10 on an empty page, else stop .."
            let cost = if bent(Bend::PageCostOfRowAlone) {
                row.len()
            } else if bent(Bend::PageCostWithLengths) {
                key.len() + row.len() + 2
            } else {
                key.len() + row.len()
            };
            if page.pays(cost as u64, byte_limit, visited)? {
                break;
            }
            visited = true;
            page.row(key, row);
            if bent(Bend::PageMoreWhenFilled) && page.full(row_limit) {
                page.more = true;
                break;
            }
        }
        floor.misplaced(Bend::PageFloorAfterWalk)?;
        if any_bent() {
            return floor.after_writing(buffer, |buffer| page.written(buffer));
        }
        page.written(buffer)
    }

    /// "Keys are those of records and locks together, ascending".
    fn keys<'a>(&'a self, span: Span<'a>) -> BTreeSet<&'a Bytes> {
        let records = self.records.range::<[u8], _>(span).map(|(key, _)| key);
        let locks = self.locks.range::<[u8], _>(span).map(|(key, _)| key);
        if bent(Bend::PageKeysOfRecordsAlone) {
            return records.collect();
        }
        records.chain(locks).collect()
    }

    /// "**Intent page:** Page's argument checks without byte limit; keys of locks only, none read; per lock the lock
    /// limit, then sound (9)." "Both: last, 12."
    pub fn intent_page(&self, lock_limit: u64, bounds: &Bounds, buffer: &mut [u8]) -> Result<u64, Refusal> {
        limits_and_bounds(lock_limit, None, bounds, PageFloor::NONE)?;
        let span = bounds.span()?;
        let mut page = Page { past_end: span.is_none(), ..Page::default() };
        for (key, lock) in span.into_iter().flat_map(|span| self.locks.range::<[u8], _>(span)) {
            // "per lock the lock limit"
            if page.full(lock_limit) {
                page.more = !bent(Bend::LockLimitStopWithoutMore);
                break;
            }
            // "then sound (9)"
            if !lock.sound() && !bent(Bend::IntentPageUnjudged) {
                return refuse(CONTRADICTION);
            }
            page.lock(key, lock);
            if bent(Bend::IntentPageMoreWhenFilled) && page.full(lock_limit) {
                page.more = true;
                break;
            }
        }
        page.written(buffer)
    }

    /// "**Conflicting intents:** Page's argument checks; per lock sound (9), skipped if it starts above the moment,
    /// lock limit, bytes as in Page. Cost is key plus primary length plus 26". "Both: last, 12."
    pub fn conflicting_intents(
        &self,
        moment: u64,
        lock_limit: u64,
        byte_limit: u64,
        bounds: &Bounds,
        buffer: &mut [u8],
    ) -> Result<u64, Refusal> {
        limits_and_bounds(lock_limit, Some(byte_limit), bounds, PageFloor::NONE)?;
        if bent(Bend::ConflictingFloorJudged) && moment < self.floor {
            return refuse(BELOW_FLOOR);
        }
        let span = bounds.span()?;
        let mut page = Page { past_end: span.is_none(), ..Page::default() };
        let mut visited = false;
        for (key, lock) in span.into_iter().flat_map(|span| self.locks.range::<[u8], _>(span)) {
            if bent(Bend::SkippedLockMakesMore) && page.full(lock_limit) {
                page.more = true;
                break;
            }
            // "per lock sound (9)"
            if !lock.sound() && !bent(Bend::ConflictingUnjudged) {
                return refuse(CONTRADICTION);
            }
            // "skipped if it starts above the moment"
            if lock.start > moment || lock.start == moment && bent(Bend::ConflictingStrictlyBelow) {
                visited = true;
                continue;
            }
            // "lock limit"
            if page.full(lock_limit) {
                page.more = true;
                break;
            }
            // "Cost is key plus primary length plus 26"
            let cost = if bent(Bend::LockCostOf25) {
                key.len() + lock.primary.len() + 25
            } else if bent(Bend::LockCostWithoutPrimary) {
                key.len() + 26
            } else {
                key.len() + lock.primary.len() + 26
            };
            if page.pays(cost as u64, byte_limit, visited)? {
                break;
            }
            page.lock(key, lock);
        }
        page.written(buffer)
    }
}

/// "3; start 1; end 1; 4; resume 1": the limits, then the bounds.
fn limits_and_bounds(limit: u64, byte_limit: Option<u64>, bounds: &Bounds, floor: PageFloor) -> Result<(), Refusal> {
    if bent(Bend::LimitsAfterBounds) {
        bounds.judged(floor)?;
    }
    if limit == 0 && !bent(Bend::LimitZeroTaken) {
        return refuse(ZERO);
    }
    if byte_limit == Some(0) && !bent(Bend::ByteLimitZeroTaken) {
        return refuse(ZERO);
    }
    floor.misplaced(Bend::PageFloorBeforeBounds)?;
    bounds.judged(floor)
}

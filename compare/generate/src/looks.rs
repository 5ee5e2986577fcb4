//! Reads and pages: every combination of bounds, and limits and buffers at and one short of what is needed.

use paper::form::Reader;
use paper::page::Bounds;
use paper::store::Bytes;
use paper::trace::Call;

use crate::maker::Maker;
use crate::stock::stamp;

/// A buffer as long as any page.
const ROOMY: usize = 65_535;
/// How often a read that shows nothing is drawn anew.
const TRIES: usize = 8;

impl Maker {
    /// A read or one intent. Where images are what is read, half of them are drawn anew, a few times over, until they
    /// show something.
    pub fn point(&mut self, op: u8, faulty: bool) -> Call {
        let aimed = self.ops.reads_images() && !faulty && self.random.percent(50);
        let mut call = self.one_point(op, faulty);
        for _ in 0..if aimed { TRIES } else { 0 } {
            if self.shows(&call) {
                break;
            }
            call = self.one_point(op, faulty);
        }
        call
    }

    fn one_point(&mut self, op: u8, faulty: bool) -> Call {
        let key = self.stock.any_key(&mut self.random, &self.store, faulty);
        let moment = stamp(&mut self.random, &self.store, &key, faulty);
        if op == 1 { Call::Read { moment, key } } else { Call::OneIntent { moment, key } }
    }

    /// Does the call show a row or a lock?
    fn shows(&self, call: &Call) -> bool {
        match call {
            Call::Read { moment, key } => matches!(self.store.read(*moment, key).shown, Ok(Some(_))),
            Call::OneIntent { moment, key } => matches!(self.store.one_intent(*moment, key), Ok(Some(_))),
            _ => false,
        }
    }

    pub fn bounds(&mut self, faulty: bool) -> Bounds {
        let mut bound = |percent: usize| {
            let present = self.random.percent(percent);
            present.then(|| self.stock.any_key(&mut self.random, &self.store, faulty))
        };
        let often = if faulty { 75 } else { 40 };
        let mut bounds = Bounds { start: bound(often), end: bound(often), resume: bound(often) };
        if bounds.start > bounds.end && bounds.end.is_some() && self.random.percent(if faulty { 40 } else { 85 }) {
            std::mem::swap(&mut bounds.start, &mut bounds.end);
        }
        // Start not below end, and a resume out of form behind it.
        if faulty && self.random.percent(12) {
            let key = self.stock.key(&mut self.random, &self.store);
            let resume = self.stock.key_out_of_form(&mut self.random, true);
            return Bounds { start: Some(key.clone()), end: Some(key), resume: Some(resume) };
        }
        if bounds.resume.is_some() && self.random.percent(15) {
            bounds.resume = self.random.pick(&[bounds.start.clone(), bounds.end.clone()]).clone();
        }
        bounds
    }

    fn moment(&mut self, faulty: bool) -> u64 {
        let key = self.stock.key(&mut self.random, &self.store);
        match self.random.below(5) {
            0 => u64::MAX,
            1 => self.store.floor.saturating_add(self.random.between(8, 20) as u64),
            2 if !self.store.locks.is_empty() => {
                // At a lock's start: this lock is met, later ones are not.
                let at = self.random.below(self.store.locks.len());
                self.store.locks.values().nth(at).map_or(0, |lock| lock.start)
            }
            _ => stamp(&mut self.random, &self.store, &key, faulty),
        }
    }

    /// A row or lock limit around the number of entries.
    fn entry_limit(&mut self, entries: usize, faulty: bool) -> u64 {
        if faulty && self.random.percent(30) {
            return 0;
        }
        match self.random.below(10) {
            0 if self.random.percent(40) => 0,
            1 => u64::MAX,
            2 => 1,
            3 => self.random.between(1, 4) as u64,
            4 | 5 => entries.saturating_sub(1).max(1) as u64,
            6 => entries as u64 + 1,
            _ => entries.max(1) as u64,
        }
    }

    /// A byte limit at, or one short of, what so many of the entries cost.
    fn byte_limit(&mut self, costs: &[usize], faulty: bool) -> u64 {
        if faulty && self.random.percent(30) {
            return 0;
        }
        if costs.is_empty() || self.random.percent(45) {
            return *self.random.pick(&[u64::MAX, u64::MAX, u64::MAX, 1, 7, 40, 100]);
        }
        let taken = if self.random.percent(25) { 1 } else { self.random.between(1, costs.len()) };
        let sum: usize = costs[..taken].iter().sum();
        (sum - self.random.below(2)) as u64
    }

    /// A buffer at, one short of or beyond the page that the call would write.
    fn buffer(&mut self, needed: Option<u64>) -> u16 {
        let Some(needed) = needed else {
            return self.random.below(30) as u16;
        };
        match self.random.below(12) {
            0..5 => needed as u16,
            5..7 => needed as u16 - 1,
            7 => self.random.below(4) as u16,
            8 if self.random.percent(5) => ROOMY as u16,
            _ => needed as u16 + self.random.between(1, 6) as u16,
        }
    }

    pub fn page(&mut self, faulty: bool) -> Call {
        let (bounds, moment) = (self.bounds(faulty), self.moment(faulty));
        self.page_at(moment, bounds, faulty)
    }

    /// A page at this moment, within these bounds.
    pub fn page_at(&mut self, moment: u64, bounds: Bounds, faulty: bool) -> Call {
        let mut buffer = vec![0; ROOMY];
        let whole = self.store.page(moment, u64::MAX, u64::MAX, &bounds, &mut buffer);
        let costs = whole.map(|count| costs(&buffer[..count as usize], false)).unwrap_or_default();
        let row_limit = self.entry_limit(costs.len(), faulty);
        let byte_limit = self.byte_limit(&costs, faulty);
        let needed = self.store.page(moment, row_limit, byte_limit, &bounds, &mut buffer).ok();
        Call::Page { moment, row_limit, byte_limit, bounds, buffer: self.buffer(needed) }
    }

    pub fn intent_page(&mut self, faulty: bool) -> Call {
        let bounds = self.bounds(faulty);
        let mut buffer = vec![0; ROOMY];
        let whole = self.store.intent_page(u64::MAX, &bounds, &mut buffer);
        let entries = whole.map(|count| costs(&buffer[..count as usize], true).len()).unwrap_or(0);
        let lock_limit = self.entry_limit(entries, faulty);
        let needed = self.store.intent_page(lock_limit, &bounds, &mut buffer).ok();
        Call::IntentPage { lock_limit, bounds, buffer: self.buffer(needed) }
    }

    /// The start of a lock that is below the last key's, if there is one.
    fn below_last_lock(&mut self) -> Option<u64> {
        let last = self.store.locks.values().next_back()?.start;
        let below: Vec<u64> = self.store.locks.values().map(|lock| lock.start).filter(|start| *start < last).collect();
        if below.is_empty() { None } else { Some(*self.random.pick(&below)) }
    }

    pub fn conflicting(&mut self, faulty: bool) -> Call {
        let (mut bounds, mut moment) = (self.bounds(faulty), self.moment(faulty));
        // Just all that conflict: a lock above the moment that comes after them makes no more.
        let below_last = if self.random.percent(40) { self.below_last_lock() } else { None };
        if let Some(start) = below_last {
            (bounds, moment) = (Bounds::default(), start);
        }
        let mut buffer = vec![0; ROOMY];
        let whole = self.store.conflicting_intents(moment, u64::MAX, u64::MAX, &bounds, &mut buffer);
        let costs = whole.map(|count| costs(&buffer[..count as usize], true)).unwrap_or_default();
        let mut lock_limit = self.entry_limit(costs.len(), faulty);
        let mut byte_limit = self.byte_limit(&costs, faulty);
        if !costs.is_empty() && (below_last.is_some() || self.random.percent(20)) {
            (lock_limit, byte_limit) = (costs.len() as u64, u64::MAX);
        }
        let needed = self.store.conflicting_intents(moment, lock_limit, byte_limit, &bounds, &mut buffer).ok();
        Call::Conflicting { moment, lock_limit, byte_limit, bounds, buffer: self.buffer(needed) }
    }
}

/// What each entry of a page costs: key plus row, or key plus primary plus 26.
fn costs(page: &[u8], locks: bool) -> Vec<usize> {
    read_costs(&mut Reader::new(page), locks).expect("the paper writes pages in form")
}

fn read_costs(reader: &mut Reader, locks: bool) -> Option<Vec<usize>> {
    let count = reader.two()?;
    let mut costs = Vec::with_capacity(count);
    for _ in 0..count {
        let key: Bytes = reader.short()?;
        if locks {
            reader.eight()?;
            costs.push(key.len() + reader.short()?.len() + 26);
            reader.take(17)?;
        } else {
            costs.push(key.len() + reader.short()?.len());
        }
    }
    Some(costs)
}

//! What was compared: the calls by op; those on a box that is just full, those that meet a lock, the reads by the records
//! that they examine, and the calls that pack the area anew; the single forms by the lengths that a batch's length byte
//! sets apart; the restores by the order of their entries, by the answer and by what makes the image sick; the images that
//! were written; the rows by their form, the bones that were asked, and the old images that were converted; collections, and
//! calls and images by the floor.

use std::collections::BTreeMap;

use generate::orders::ascends;
use generate::repacks;
use generate::singles::LENGTHS;
use paper::answer::NO_ROOM;
use paper::area::Area;
use paper::restore::Image;
use paper::room::{DEFAULTS, LINES, LIVE_BYTES, LOCKS};
use paper::sick::Sickness;
use paper::store::Store;
use paper::trace::{Call, read_trace};

use crate::converted::Converted;
use crate::floors::Floors;
use crate::held::Held;
use crate::reads::Reads;
use crate::rows::Rows;
use crate::written::Written;

#[derive(Default)]
pub struct Counts {
    pub answers: u64,
    ops: BTreeMap<u8, u64>,
    full: [u64; 4],
    no_room: u64,
    held: Held,
    reads: Reads,
    repacks: BTreeMap<u8, u64>,
    lengths: BTreeMap<usize, u64>,
    restores: BTreeMap<&'static str, BTreeMap<u8, u64>>,
    sick: BTreeMap<&'static str, u64>,
    written: Written,
    rows: Rows,
    converted: Converted,
    floors: Floors,
}

impl Counts {
    pub fn take_all(&mut self, trace: &[u8]) {
        let Some(calls) = read_trace(trace) else {
            self.answers += 1;
            return;
        };
        self.answers += calls.len() as u64;
        let (mut store, mut area) = (Store::default(), Area::default());
        self.written.begin();
        self.converted.begin();
        self.floors.begin();
        for call in &calls {
            self.take_full(&store);
            let before = store.clone();
            let (answer, packed) = area.run(&mut store, call);
            *self.ops.entry(call.op()).or_default() += 1;
            *self.repacks.entry(call.op()).or_default() += u64::from(packed);
            self.no_room += u64::from(answer.number == NO_ROOM);
            self.held.take(&mut store, call, &answer);
            self.reads.take(&store, call, &answer);
            self.written.take(&store, call, &answer);
            self.rows.take(call, &answer);
            self.converted.take(call, &answer);
            self.floors.take(&before, &store, call, &answer);
            match call {
                Call::Prewrite { key, row, .. } => self.take_lengths(&[key.len(), row.len()]),
                Call::Commit { key, .. } | Call::Rollback { key, .. } => self.take_lengths(&[key.len()]),
                Call::Restore { image } => self.take_restore(image, answer.number),
                _ => {}
            }
        }
    }

    fn take_full(&mut self, store: &Store) {
        let used = store.room_used();
        let full = [used.lines == LINES, used.locks == LOCKS, used.defaults == DEFAULTS, used.live_bytes == LIVE_BYTES];
        self.full.iter_mut().zip(full).for_each(|(count, full)| *count += u64::from(full));
    }

    fn take_lengths(&mut self, lengths: &[usize]) {
        for length in lengths.iter().filter(|length| LENGTHS.contains(length) || **length > 255) {
            *self.lengths.entry(*length).or_default() += 1;
        }
    }

    fn take_restore(&mut self, image: &[u8], number: u8) {
        let image = Image::read(image);
        let order = match &image {
            None => "not in form",
            Some(image) if ascends(image) => "ascending",
            Some(_) => "in other orders",
        };
        *self.restores.entry(order).or_default().entry(number).or_default() += 1;
        if let Some(store) = image.and_then(|image| image.store()) {
            self.take_sick(&store, order);
        }
    }

    /// Counts what makes an image sick that has no other fault, and whether it ascends or is too large besides.
    fn take_sick(&mut self, store: &Store, order: &'static str) {
        let found = store.sicknesses();
        let kind = match found.first() {
            None => return,
            Some(_) if found.len() > 1 => "several of these",
            Some(Sickness::LockWithoutDefault) => "a Put lock without its default",
            Some(Sickness::Orphan) => "an orphan default",
            Some(Sickness::TwoLines) => "two lines of one key and start",
        };
        *self.sick.entry(kind).or_default() += 1;
        *self.sick.entry(order).or_default() += 1;
        *self.sick.entry("beyond the room").or_default() += u64::from(store.beyond_room());
    }

    pub fn print(&self) {
        let ops: Vec<String> = self.ops.iter().map(|(op, count)| format!("{op} x{count}")).collect();
        println!("calls by op: {}", ops.join(", "));
        let [lines, locks, defaults, live_bytes] = self.full;
        println!(
            "calls on a box just full: lines x{lines}, locks x{locks}, defaults x{defaults}, live bytes x{live_bytes}; \
             answered 11: x{}",
            self.no_room
        );
        self.held.print();
        self.reads.print();
        let packed = |op: &u8| format!("{op} x{}", self.repacks.get(op).unwrap_or(&0));
        let packed: Vec<String> = repacks::OPS.iter().map(packed).collect();
        println!("calls that pack the area anew, by op: {}", packed.join(", "));
        let of = |length: &usize| format!("{length} bytes x{}", self.lengths.get(length).unwrap_or(&0));
        let above: u64 = self.lengths.iter().filter(|(length, _)| **length > 255).map(|(_, count)| count).sum();
        let singles: u64 = [6, 8, 10].iter().filter_map(|op| self.ops.get(op)).sum();
        let named: Vec<String> = LENGTHS.iter().map(of).collect();
        println!("single forms: {singles} calls; keys and rows of {}; above 255 in all x{above}", named.join(", "));
        self.print_images();
    }

    pub fn print_images(&self) {
        let of = |(order, answers): (&&str, &BTreeMap<u8, u64>)| {
            let answers: Vec<String> = answers.iter().map(|(number, count)| format!("{number} x{count}")).collect();
            format!("{order} {}", answers.join(", "))
        };
        let orders: Vec<String> = self.restores.iter().map(of).collect();
        println!("restores by answer: {} in all; {}", self.ops.get(&32).unwrap_or(&0), orders.join("; "));
        let sick: Vec<String> = self.sick.iter().map(|(kind, count)| format!("{kind} x{count}")).collect();
        println!("restores of sick images without other fault: {}", sick.join(", "));
        self.written.print();
        self.rows.print();
        self.converted.print();
        self.floors.print();
    }
}

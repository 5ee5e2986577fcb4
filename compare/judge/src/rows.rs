//! The rows of calls: by op, of the form that stands, of document 01's own, and of neither; and the questions about bones by
//! the bone's number and by the count.

use std::collections::BTreeMap;

use generate::rows::{COUNTS, rows_of};
use paper::answer::Answer;
use paper::row::{bones_of, old_row_in_form, row_in_form};
use paper::trace::Call;

#[derive(Default)]
pub struct Rows {
    calls: BTreeMap<u8, u64>,
    forms: BTreeMap<u8, [u64; 3]>,
    asked: BTreeMap<&'static str, u64>,
    counts: BTreeMap<u8, u64>,
}

impl Rows {
    pub fn take(&mut self, call: &Call, answer: &Answer) {
        let rows = rows_of(call);
        if rows.is_empty() {
            return;
        }
        *self.calls.entry(call.op()).or_default() += 1;
        let forms = self.forms.entry(call.op()).or_default();
        for row in &rows {
            let form = if row_in_form(row) { 0 } else { 2 - usize::from(old_row_in_form(row)) };
            forms[form] += 1;
        }
        match call {
            Call::Bone { number, row } => self.take_question(Some(*number), row, answer),
            Call::Bones { row } => self.take_question(None, row, answer),
            _ => {}
        }
    }

    fn take_question(&mut self, number: Option<u64>, row: &[u8], answer: &Answer) {
        let mut count = |what| *self.asked.entry(what).or_default() += 1;
        let Some(bones) = bones_of(row) else {
            return count("rows out of form");
        };
        let all = u64::from(bones.count);
        match number {
            None => count("how many"),
            Some(number) if number < all && answer.payload == [1] => count("a bone shown"),
            Some(number) if number < all => count("a bone not shown"),
            Some(number) if number == all => count("at the count"),
            Some(0..=254) => count("above the count"),
            Some(255) => count("255"),
            Some(256) => count("256"),
            Some(257..=0xFFFF_FFFF) => count("above 256"),
            Some(u64::MAX) => count("2^64 - 1"),
            Some(_) => count("above 4 bytes"),
        }
        if COUNTS.contains(&bones.count) {
            *self.counts.entry(bones.count).or_default() += 1;
        }
    }

    pub fn print(&self) {
        let calls: u64 = self.calls.values().sum();
        let of = |(op, [new, old, neither]): (&u8, &[u64; 3])| {
            let calls = self.calls[op];
            format!("{op} x{calls}: {new} that stand, {old} old, {neither} of neither form")
        };
        let forms: Vec<String> = self.forms.iter().map(of).collect();
        println!("calls with rows: {calls}; by op, and their rows: {}", forms.join("; "));
        if !self.asked.is_empty() {
            let asked: Vec<String> = self.asked.iter().map(|(what, count)| format!("{what} x{count}")).collect();
            let counts: Vec<String> = self.counts.iter().map(|(count, times)| format!("{count} x{times}")).collect();
            println!("bones asked: {}; by the bones of the row: {}", asked.join(", "), counts.join(", "));
        }
    }
}

//! Old images for the converter: images without a floor, whose rows are document 01's own, sound, sick, beyond the room, with a fault, or with
//! rows that are too long; and what was converted restored and converted again.

use paper::answer::Answer;
use paper::convert::FLOOR;
use paper::restore::Image;
use paper::run::run_call;
use paper::store::Bytes;
use paper::trace::{Call, LONG_BUFFER, MOST_BYTES, write_trace};
use paper::write_image::WITHOUT_ENTRIES;

use crate::Ops;
use crate::faults::{self, Fault, OF_ENTRIES, Place, SICK, WHOLE};
use crate::hostile::{self, KEYS};
use crate::image::{few_chains, few_keys};
use crate::maker::Maker;
use crate::orders::{ORDERS, Order, default_mark};
use crate::random::Random;
use crate::room;
use crate::rows::{old_row, old_row_of, old_row_out_of_form, row, without_bones};
use crate::stock::Stock;

/// So many bytes of a trace are left to other calls where an image is restored or converted again.
const SPARE: usize = 20_000;

/// The image with document 01's rows in the place of those that stand.
pub fn aged(mut image: Image) -> Image {
    image.defaults.iter_mut().for_each(|(_, _, row)| *row = without_bones(row));
    image
}

/// An old image drawn.
fn drawn(random: &mut Random, stock: &Stock) -> Bytes {
    let mut image = match random.below(20) {
        0..13 => few_keys(random, stock),
        13 | 14 => few_chains(random, stock),
        15 => Image { table: 1, ..Image::default() },
        _ => {
            let (keys, order, many) = (*random.pick(&KEYS), *random.pick(&ORDERS), random.between(1, 20));
            hostile::sound(random, keys, many, order)
        }
    };
    if random.percent(4) {
        // The default of each Put goes with it: nothing is left to convert.
        image.writes.retain(|(_, _, record)| record.kind != 1);
        image.locks.retain(|(_, lock)| lock.kind != 1);
        image.defaults.clear();
    }
    match random.below(100) {
        0..27 => aged(image).write_old(),
        // With a floor, which no old image has.
        27..30 => Image { floor: *random.pick(&[0, 0, 1, 5]), ..aged(image) }.write(),
        30..45 => {
            for _ in 0..random.between(1, 2) {
                faults::sick(random, &mut image);
            }
            aged(image).write_old()
        }
        45..60 => with_long_rows(random, aged(image)).write_old(),
        60..70 => with_row_out_of_form(random, aged(image)).write_old(),
        _ => {
            let (fault, place) = (faults::of_01(random), some_place(random));
            with_fault(random, stock, image, fault, place)
        }
    }
}

/// Some rows of 253 to 255 bytes: at one place, or anywhere.
fn with_long_rows(random: &mut Random, mut image: Image) -> Image {
    if image.defaults.is_empty() {
        return image;
    }
    let (lengths, place) = (*random.pick(&[&[253, 254][..], &[254], &[255], &[253, 254, 255]]), some_place(random));
    let at = place.of(random, &image.defaults, default_mark);
    image.defaults[at].2 = old_row_of(*random.pick(lengths));
    let others = *random.pick(&[0, 0, 30]);
    for (_, _, row) in &mut image.defaults {
        if random.percent(others) {
            *row = old_row_of(*random.pick(lengths));
        }
    }
    image
}

/// One row, or now and then each, that document 01 does not know; mostly of the form that stands.
fn with_row_out_of_form(random: &mut Random, mut image: Image) -> Image {
    if image.defaults.is_empty() {
        return image;
    }
    if random.percent(20) {
        image.defaults.iter_mut().for_each(|(_, _, old)| *old = row(random));
        return image;
    }
    let at = some_place(random).of(random, &image.defaults, default_mark);
    image.defaults[at].2 = if random.percent(50) { row(random) } else { old_row_out_of_form(random) };
    image
}

fn some_place(random: &mut Random) -> Place {
    *random.pick(&faults::PLACES)
}

/// A fault by document 01's checks, which stands in an old image.
fn with_fault(random: &mut Random, stock: &Stock, mut image: Image, fault: Fault, place: Place) -> Bytes {
    let whole = WHOLE.contains(&fault) || faults::in_entries(random, stock, &mut image, fault, place).is_none();
    let mut image = aged(image);
    // The fault of a row is that of an old one.
    if fault == Fault::DefaultRow && !image.defaults.is_empty() {
        let at = place.of(random, &image.defaults, default_mark);
        image.defaults.iter_mut().for_each(|(_, _, row)| *row = old_row(random));
        image.defaults[at].2 = old_row_out_of_form(random);
    }
    if whole { faults::whole(random, image, fault, Image::write_old) } else { image.write_old() }
}

/// The bytes that a conversion of this image needs, if its counts and lengths read.
fn needed(image: &[u8]) -> usize {
    image.len() + FLOOR + Image::read_old(image).map_or(0, |image| image.defaults.len())
}

impl Maker {
    /// A conversion of an image drawn.
    pub fn convert(&mut self) -> Call {
        let image = drawn(&mut self.random, &self.stock);
        self.conversion(image)
    }

    /// A conversion of this image, into a buffer at, one short of and beyond what is needed, or as long as the old image.
    fn conversion(&mut self, image: Bytes) -> Call {
        let needed = needed(&image);
        let buffer = match self.random.below(20) {
            0..9 => needed,
            9..12 => needed.saturating_sub(1),
            12 | 13 => 0,
            14 => *self.random.pick(&[image.len(), needed - FLOOR]),
            15 => self.random.below(needed + 1),
            16..18 => needed + self.random.between(1, 9),
            18 => needed + self.random.between(10, 300),
            _ if self.random.percent(6) => *self.random.pick(&[65_535, 65_536, LONG_BUFFER as usize]),
            _ => 4,
        };
        Call::Convert { buffer: buffer as u32, image }
    }

    /// Old images converted; what came of them restored, looked at, and converted again; and the old image restored itself.
    pub fn converted(&mut self) {
        for _ in 0..self.random.between(8, 24) {
            let call = self.convert();
            self.push(call);
            self.after_conversion();
            if self.random.percent(15) {
                self.any_call();
            }
        }
    }

    /// What the last call converted, if it did: restored, or converted again; if it did not, the old image restored.
    fn after_conversion(&mut self) {
        let Some(call @ Call::Convert { image, .. }) = self.calls.last() else {
            return;
        };
        let Answer { number, count, payload, .. } = run_call(&mut self.store.clone(), call);
        let image = image.clone();
        if write_trace(&self.calls).len() + 2 * image.len() + SPARE > MOST_BYTES {
            return;
        }
        let new = payload[..count as usize].to_vec();
        match self.random.below(10) {
            0..5 if number == 0 => {
                self.push(Call::Restore { image: new });
                self.look();
            }
            5 | 6 if number == 0 => {
                let call = self.conversion(new);
                self.push(call);
            }
            7 => self.push(Call::Restore { image }),
            8 => {
                self.push(Call::Statistics);
                self.push(Call::Marks);
            }
            _ => {}
        }
    }

    /// An old image that is short of, at or past one of the rooms, as it is or once it is converted; and that one restored.
    pub fn converted_room(&mut self) {
        let which = self.random.below(4);
        let past = match which {
            3 => *self.random.pick(&[0, 1, 40, 90, 400]),
            _ => *self.random.pick(&[-1, 0, 1]),
        };
        let mut image = room::beside_room(&mut self.random, which, past);
        if self.random.percent(20) {
            faults::sick(&mut self.random, &mut image);
        }
        image.locks.reverse();
        self.push_large(aged(image).write_old());
    }

    /// An old image of more than 65,535 bytes, most of them in boxes that are just full.
    pub fn converted_large(&mut self) {
        let image = match self.random.below(6) {
            0 => longest(*self.random.pick(&[0, 1])),
            1 => {
                let entries = *self.random.pick(&[1025, 3000]);
                aged(room::far_beyond(&mut self.random, entries)).write_old()
            }
            _ => {
                let mut image = aged(room::all_full(&mut self.random));
                if self.random.percent(15) {
                    let at = self.random.below(image.defaults.len());
                    image.defaults[at].2 = old_row_of(255);
                }
                image.write_old()
            }
        };
        self.push_large(image);
    }

    /// A conversion with a buffer that is enough, one that is not, and what came of it restored where there is place.
    fn push_large(&mut self, image: Bytes) {
        let needed = needed(&image);
        let most = LONG_BUFFER as usize;
        let buffer = *self.random.pick(&[needed, needed, needed, needed + 1, needed - 1, most]);
        self.push(Call::Convert { buffer: buffer.min(most) as u32, image: image.clone() });
        self.after_conversion();
        self.push(Call::Statistics);
    }
}

/// An old image of as many bytes as, converted, just fit into the longest buffer, or so many more. It has just place in a
/// trace.
fn longest(more: usize) -> Bytes {
    let key = |number: u16| [&[0, 0, 0, 1, b'l'][..], &number.to_be_bytes()].concat();
    let mut image = Image { table: 1, ..Image::default() };
    // Key length, key, start, row length and the count that is added.
    let beside = 1 + 7 + 8 + 1 + 1;
    let mut left = LONG_BUFFER as usize + more - WITHOUT_ENTRIES;
    while left > 0 {
        let row = if left <= beside + 254 { left - beside } else { (left - 2 * beside - 2).min(240) };
        image.defaults.push((key(image.defaults.len() as u16), 1, old_row_of(row)));
        left -= beside + row;
    }
    image.write_old()
}

/// So many traces of the sample are drawn.
const DRAWN: u64 = 12;

/// For the fixed sample: small old images, one at each edge, the longest that a trace takes, a full box, and traces drawn.
pub fn cases() -> Vec<(&'static str, Vec<Call>)> {
    let drawn = |seed| {
        let mut maker = Maker::new(seed, Ops::all());
        maker.converted();
        ("old images drawn", maker.calls)
    };
    let past = Call::Convert { buffer: LONG_BUFFER + 1, image: Image { table: 1, ..Image::default() }.write_old() };
    let cases = vec![
        ("old images at every edge", edges()),
        ("old images with each fault", each_fault()),
        ("an old image that just fits into the longest buffer", vec![longest_call(0)]),
        ("an old image one byte longer", vec![longest_call(1)]),
        ("a full box, converted and restored", full_box()),
        ("a full box that fits no longer", grown_box()),
        ("a converter's buffer past the most", vec![past]),
    ];
    cases.into_iter().chain((1..=DRAWN).map(drawn)).collect()
}

/// Each fault by document 01's checks, with a buffer that is enough and with none, and each way to be sick.
fn each_fault() -> Vec<Call> {
    let random = &mut Random::new(4);
    let stock = &Stock::new(random);
    let mut calls = Vec::new();
    for fault in WHOLE.into_iter().chain(OF_ENTRIES).chain(SICK) {
        let keys = *random.pick(&KEYS);
        let image = hostile::sound(random, keys, 9, Order::Shuffled);
        let image = with_fault(random, stock, image, fault, Place::Last);
        for buffer in [needed(&image) as u32, 0] {
            calls.push(Call::Convert { buffer, image: image.clone() });
        }
    }
    calls
}

fn longest_call(more: usize) -> Call {
    Call::Convert { buffer: LONG_BUFFER, image: longest(more) }
}

/// All four rooms full once converted, the entries in no order: restored, it fits.
fn full_box() -> Vec<Call> {
    let maker = &mut Maker::new(1, Ops::all());
    let mut image = aged(room::all_full(&mut maker.random));
    maker.random.shuffle(&mut image.defaults);
    maker.random.shuffle(&mut image.writes);
    let image = image.write_old();
    let buffer = needed(&image) as u32;
    convert_and_restore(maker, buffer, image);
    maker.calls.clone()
}

/// At just the live bytes before, past them once converted: the conversion is accepted, and its restore is 11.
fn grown_box() -> Vec<Call> {
    let maker = &mut Maker::new(2, Ops::all());
    let image = aged(room::beside_room(&mut maker.random, 3, 60)).write_old();
    let buffer = needed(&image) as u32;
    convert_and_restore(maker, buffer, image);
    maker.calls.clone()
}

fn convert_and_restore(maker: &mut Maker, buffer: u32, image: Bytes) {
    let call = Call::Convert { buffer, image };
    let Answer { count, payload, .. } = run_call(&mut maker.store.clone(), &call);
    maker.push(call);
    maker.push(Call::Restore { image: payload[..count as usize].to_vec() });
    maker.push(Call::Statistics);
    maker.push(Call::Marks);
}

/// Rows of 2, 253, 254 and 255 bytes, buffers around each, an orphan, and what was converted once more.
fn edges() -> Vec<Call> {
    let maker = &mut Maker::new(3, Ops::all());
    let key = |name: &[u8]| [&[0, 0, 0, 1], name].concat();
    for lengths in [&[2][..], &[253, 2], &[2, 254], &[254, 255], &[255, 2], &[]] {
        let mut image = Image { table: 1, ..Image::default() };
        for (at, length) in lengths.iter().enumerate() {
            // The keys descend.
            image.defaults.push((key(&[b'z' - at as u8]), 10, old_row_of(*length)));
        }
        let image = image.write_old();
        let enough = needed(&image) as u32;
        for buffer in [enough, enough - 1, enough + 3, image.len() as u32, 4, 0] {
            maker.push(Call::Convert { buffer, image: image.clone() });
        }
        maker.push(Call::Restore { image: image.clone() });
        let converted = run_call(&mut maker.store.clone(), &Call::Convert { buffer: enough, image });
        let converted = converted.payload[..converted.count as usize].to_vec();
        maker.push(Call::Restore { image: converted.clone() });
        maker.push(Call::Convert { buffer: enough + 9, image: converted });
        maker.push(Call::Statistics);
    }
    maker.calls.clone()
}

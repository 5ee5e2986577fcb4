//! Hostile images: three sections of as many entries each, in several orders, on short and long keys, some alike but for
//! their end, with no fault but that there is no room for them, or with one at the very end. How long each is judged.

use std::fs;

use generate::random::Random;
use paper::restore::{Image, RawLock, RawRecord};
use paper::store::{Bytes, Store};

use crate::timing::{Plan, Side, Times, times};

/// Entries of each section; the last is the most that a count can say.
const SIZES: [usize; 3] = [4_000, 16_000, 65_535];
const TABLE: u32 = 1;

#[derive(Clone, Copy)]
enum Order {
    Ascending,
    Descending,
    Shuffled,
}

/// How keys differ: right after the table's number, or at the end alone. Of the latter, defaults and writes have 256 keys
/// that differ in the last byte, with 256 starts and stamps each; locks have a key each and differ in the last two.
#[derive(Clone, Copy, PartialEq)]
enum Keys {
    Apart,
    Alike,
}

/// What is at fault, each time in the last entry or after it.
#[derive(Clone, Copy, PartialEq)]
enum Fault {
    Room,
    Trailing,
    PutAlone,
    SecondDefault,
    SecondLock,
    SecondWrite,
}

struct Shape {
    length: usize,
    keys: Keys,
    order: Order,
    fault: Fault,
}

impl Shape {
    fn all() -> Vec<Shape> {
        let shape = |length, keys, order, fault| Shape { length, keys, order, fault };
        let orders = [Order::Ascending, Order::Descending, Order::Shuffled];
        let mut all = Vec::new();
        for (length, keys) in [(8, Keys::Apart), (8, Keys::Alike), (48, Keys::Apart), (48, Keys::Alike)] {
            all.extend(orders.map(|order| shape(length, keys, order, Fault::Room)));
        }
        for order in [Order::Ascending, Order::Shuffled] {
            let faults =
                [Fault::Trailing, Fault::PutAlone, Fault::SecondDefault, Fault::SecondLock, Fault::SecondWrite];
            all.extend(faults.map(|fault| shape(48, Keys::Alike, order, fault)));
        }
        all
    }

    fn name(&self) -> String {
        let keys = if self.keys == Keys::Apart { "apart" } else { "alike" };
        let order = match self.order {
            Order::Ascending => "ascending",
            Order::Descending => "descending",
            Order::Shuffled => "shuffled",
        };
        let fault = match self.fault {
            Fault::Room => "no room",
            Fault::Trailing => "a byte follows",
            Fault::PutAlone => "the last Put has no default",
            Fault::SecondDefault => "the last default is a second one",
            Fault::SecondLock => "the last lock is a second one",
            Fault::SecondWrite => "the last write is a second one",
        };
        format!("{} bytes, {keys} | {order} | {fault}", self.length)
    }

    /// A key of the shape's length, told apart by its first bytes after the table's number or by its last ones.
    fn key(&self, number: usize) -> Bytes {
        let mut key = TABLE.to_be_bytes().to_vec();
        key.resize(self.length, b'k');
        let at = if self.keys == Keys::Apart { 4 } else { self.length - 2 };
        key[at..at + 2].copy_from_slice(&(number as u16).to_be_bytes());
        key
    }

    /// The key of the entry at a place of the defaults or writes, and its start.
    fn pair(&self, place: usize) -> (Bytes, u64) {
        match self.keys {
            Keys::Apart => (self.key(place), 1),
            Keys::Alike => (self.key(place / 256), (place % 256 + 1) as u64),
        }
    }

    fn image(&self, entries: usize) -> Bytes {
        let mut image = Image { table: TABLE, ..Image::default() };
        let second = matches!(self.fault, Fault::SecondDefault | Fault::SecondLock | Fault::SecondWrite);
        for place in 0..entries - usize::from(second) {
            let (key, start) = self.pair(place);
            let commit = start + 1_000;
            image.writes.push((key.clone(), commit, RawRecord { start, commit, kind: 1 }));
            image.defaults.push((key, start, vec![0, 0]));
            let primary = self.key(place);
            let lock = RawLock { transaction: 7, primary: primary.clone(), start: 5_000, time_to_live: 1, kind: 2 };
            image.locks.push((primary, lock));
        }
        self.put_in_order(&mut image);
        self.at_fault(image)
    }

    fn put_in_order(&self, image: &mut Image) {
        match self.order {
            Order::Ascending => {}
            Order::Descending => {
                image.defaults.reverse();
                image.locks.reverse();
                image.writes.reverse();
            }
            Order::Shuffled => {
                let random = &mut Random::new(1);
                random.shuffle(&mut image.defaults);
                random.shuffle(&mut image.locks);
                random.shuffle(&mut image.writes);
            }
        }
    }

    /// The bytes of the image with its fault. A second entry is like the one before it where they ascend, else like the
    /// first.
    fn at_fault(&self, mut image: Image) -> Bytes {
        let like = |length: usize| if matches!(self.order, Order::Ascending) { length - 1 } else { 0 };
        match self.fault {
            Fault::Room => {}
            Fault::Trailing => return [image.write(), vec![0]].concat(),
            Fault::PutAlone => image.writes.last_mut().expect("a write").2.start += 999,
            Fault::SecondDefault => image.defaults.push(image.defaults[like(image.defaults.len())].clone()),
            Fault::SecondLock => image.locks.push(image.locks[like(image.locks.len())].clone()),
            Fault::SecondWrite => image.writes.push(image.writes[like(image.writes.len())].clone()),
        }
        image.write()
    }
}

/// The table: a line for each shape, its milliseconds at each size, mvcc.rs's at the last, and how the time grows.
pub fn table(plan: &Plan) -> Result<(), String> {
    fs::create_dir_all(&plan.folder).map_err(|error| format!("{}: {error}", plan.folder))?;
    println!("| keys | order | fault | answer | ms at 4,000 | 16,000 | 65,535 | Rust ms at 65,535 | ratio | growth |");
    println!("|---|---|---|---|---|---|---|---|---|---|");
    let mut failed = 0;
    for shape in Shape::all().iter().filter(|shape| shape.name().contains(&plan.only)) {
        match line(plan, shape) {
            Ok(line) => println!("| {} | {line} |", shape.name()),
            Err(error) => {
                failed += 1;
                println!("| {} | {error} | | | | | | |", shape.name());
            }
        }
    }
    if failed == 0 { Ok(()) } else { Err(format!("{failed} shapes were not timed, or took a second")) }
}

fn line(plan: &Plan, shape: &Shape) -> Result<String, String> {
    let mut all: Vec<Judged> = Vec::new();
    for entries in SIZES {
        all.push(judged(plan, &shape.image(entries), entries == SIZES[2])?);
    }
    let [first, second, last] = &all[..] else { unreachable!("three sizes") };
    if last.program.middle >= 1e9 {
        return Err(format!("{:.0} ms at 65,535: a second or more", last.program.middle / 1e6));
    }
    let in_ms = |times: &Times| format!("{:.1}", times.middle / 1e6);
    let (rust, ratio) = match &last.rust {
        Some(rust) => (in_ms(rust), format!("{:.2}", last.program.middle / rust.middle)),
        None => (String::new(), String::new()),
    };
    let growth = last.program.middle / first.program.middle / (work(SIZES[2]) / work(SIZES[0]));
    let [first, second, whole] = [first, second, last].map(|judged| in_ms(&judged.program));
    Ok(format!("{} | {first} | {second} | {whole} | {rust} | {ratio} | {growth:.2}", last.number))
}

/// n log n.
fn work(entries: usize) -> f64 {
    let entries = (3 * entries) as f64;
    entries * entries.log2()
}

/// The answer to an image, and the times of both sides.
struct Judged {
    number: u8,
    program: Times,
    rust: Option<Times>,
}

/// Both sides' answers checked, and then timed. mvcc.rs is handed entries, so that an image out of form is none for it.
fn judged(plan: &Plan, image: &[u8], beside: bool) -> Result<Judged, String> {
    let number = Store::default().restore(image).map_or_else(|refusal| refusal.number, |()| 0);
    let of_program = |turns, made| program_input(image, turns, made);
    let of_rust = |turns, made| rust_input(image, turns, made);
    let mut sides = vec![Side { name: "rattle", words: &plan.program, input: &of_program, calls: 1 }];
    let (output, _) = sides[0].once(plan, 3, true)?;
    if output != (3_000 * u64::from(number)).to_be_bytes() {
        return Err(format!("the program does not answer {number}"));
    }
    if beside && Image::read(image).is_some() {
        sides.push(Side { name: "rust", words: &plan.rust, input: &of_rust, calls: 1 });
        let (output, _) = sides[1].once(plan, 3, true)?;
        // The Rust has no rooms.
        let accepted: u64 = if number == 11 { 3 } else { 0 };
        if output != accepted.to_be_bytes() {
            return Err(format!("mvcc.rs does not answer as the paper, {number}"));
        }
    }
    let mut times = times(plan, &sides)?.into_iter();
    let program = times.next().expect("a side");
    Ok(Judged { number, program, rust: times.next() })
}

/// What crates/bench reads: the turns, the kind of call (10 a restore, 4 none), the image, and one call without arguments.
fn program_input(image: &[u8], turns: u64, made: bool) -> Bytes {
    let mut input = turns.to_be_bytes().to_vec();
    input.push(if made { 10 } else { 4 });
    input.extend_from_slice(&(image.len() as u32).to_be_bytes());
    input.extend_from_slice(image);
    input.extend_from_slice(&[0; 30]);
    input
}

fn rust_input(image: &[u8], turns: u64, made: bool) -> Bytes {
    [&turns.to_be_bytes()[..], &[u8::from(made)], image].concat()
}

//! Comparison 1: the paper against mvcc.rs, call by call, state compared after every call; the Rust is set to the
//! paper's state after a difference. Both with validate_mutation as shown and written from document 01.

use std::collections::BTreeMap;

use generate::Ops;
use paper::answer::{Answer, BATCH, BELOW_FLOOR, CONTRADICTION, HISTORY, IMAGE, LOCKED, SHORT_BUFFER, ZERO};
use paper::run::run_call;
use paper::store::{Bytes, Store};
use paper::trace::{Call, read_trace};
use ragnor::engine::Engine;

use crate::classes::{Class, Rust, class_of};
use crate::counts::Counts;
use crate::floored::{below_floor, locked_below};
use crate::length::Length;
use crate::rust_side::{Outcome, Side, beyond_room, run_rust, same_state, set_state, sick};
use crate::{shrink, words};

/// One difference: at which call, what each side said, and its class if it has one.
pub struct Difference {
    pub rust: Rust,
    pub at: usize,
    pub paper: Answer,
    pub said: Outcome,
    pub class: Option<Class>,
}

/// "In the Rust: 0 Ok; 7, 8 WriteConflict; 9, 13 CorruptData; 1, 3, 4, 5, 10 InvalidArgument; the rest are ours."
///
/// More than that line is asked where it can be: an accepted call's count and payload, and that a WriteConflict's text
/// names the holder exactly for 7, of which it has transaction and start alone. Of ours, a row out of form (2) is
/// InvalidArgument, a batch not in form (6) makes no call, a short buffer (12) has the Rust give a page longer than the
/// buffer; where there is no room (11) the Rust says Ok, which is a difference of the class `room`. To write an image the
/// Rust is told no table number, so table 0 (3) makes no call. It is asked for no bones and converts no image. It has no floor
/// (14), which is the class `below-floor`; a collection is made over its maps.
pub fn agrees(call: &Call, paper: &Answer, said: &Outcome) -> bool {
    if matches!(call, Call::Bone { .. } | Call::Bones { .. } | Call::Convert { .. }) {
        return *said == Outcome::NoCall;
    }
    let buffer = match call {
        Call::Page { buffer, .. } | Call::IntentPage { buffer, .. } | Call::Conflicting { buffer, .. } => {
            Some(u64::from(*buffer))
        }
        Call::WriteImage { buffer, .. } => Some(u64::from(*buffer)),
        _ => None,
    };
    // "Other refusals still count 0": an error of the Rust's has no count. At a record a read's 9 counts, in no store of ours.
    if paper.count != 0 && !matches!(paper.number, 0 | CONTRADICTION) {
        return false;
    }
    match (paper.number, said) {
        (0, Outcome::Accepted { count, payload }) => match buffer {
            Some(_) => *count == paper.count && paper.payload.starts_with(payload),
            None => *count == paper.count && *payload == paper.payload,
        },
        (LOCKED, Outcome::Held { transaction, start }) => {
            (*transaction, *start) == (paper.holder.transaction, paper.holder.start)
        }
        (HISTORY, Outcome::Conflict) => true,
        (CONTRADICTION | IMAGE, Outcome::CorruptData) => true,
        (1 | 2 | 3 | 4 | 5 | 10, Outcome::InvalidArgument) => true,
        (BATCH | IMAGE, Outcome::NoCall) => true,
        (ZERO, Outcome::NoCall) => matches!(call, Call::WriteImage { table: 0, .. }),
        (BELOW_FLOOR, Outcome::BelowFloor) => true,
        (SHORT_BUFFER, Outcome::Accepted { count, .. }) => buffer.is_some_and(|buffer| *count > buffer),
        _ => false,
    }
}

/// Every difference of a trace with one of the Rusts.
fn differences_with<E: Engine>(rust: Rust, calls: &[Call], found: &mut Vec<Difference>) {
    let mut store = Store::default();
    let mut side = Side { engine: E::default(), floor: 0 };
    for (at, call) in calls.iter().enumerate() {
        let before = store.clone();
        let paper = run_call(&mut store, call);
        let below = below_floor(call, side.floor);
        let said = run_rust(&mut side, call);
        let agreed = agrees(call, &paper, &said);
        let same = same_state(&side, &store);
        // The Rust has no rooms and takes sick images; where its state is the paper's, the paper's is judged by it.
        let engine = &side.engine;
        if agreed && same && !below && !beyond_room(engine) && !sick(engine) && !locked_below(&side) {
            continue;
        }
        // A state that differs although the answers agree has no class, and none that is beyond a room, sick, or has a lock at
        // or below the floor; nor has an answer that is not 14 where the floor beside the Rust says so.
        let named = !agreed && (!below || paper.number == BELOW_FLOOR);
        let class = if named { class_of(rust, &before, call, &paper, &said, &side) } else { None };
        found.push(Difference { rust, at, paper, said, class });
        set_state(&mut side, &store);
    }
}

pub fn differences(calls: &[Call]) -> Vec<Difference> {
    let mut found = Vec::new();
    differences_with::<ragnor::shown::InMemoryMvcc>(Rust::Shown, calls, &mut found);
    differences_with::<ragnor::from_paper::InMemoryMvcc>(Rust::FromPaper, calls, &mut found);
    found
}

/// What was counted of one class.
#[derive(Default)]
struct Tally {
    shown: u64,
    from_paper: u64,
    smallest: Option<Bytes>,
}

/// Runs for so long from a seed; false if a difference has no class.
pub fn run(length: &Length, seed: u64, ops: Ops, show_smallest: bool) -> bool {
    let mut tallies: BTreeMap<Class, Tally> = BTreeMap::new();
    let (mut traces, mut calls_run) = (0_u64, 0_u64);
    let mut counts = Counts::default();
    while length.more(traces) {
        let trace = generate::nth_trace(seed, traces, ops);
        traces += 1;
        let Some(calls) = read_trace(&trace) else {
            continue;
        };
        calls_run += calls.len() as u64;
        counts.take_all(&trace);
        for difference in differences(&calls) {
            let Some(class) = difference.class else {
                report_unnamed(&trace);
                return false;
            };
            let tally = tallies.entry(class).or_default();
            match difference.rust {
                Rust::Shown => tally.shown += 1,
                Rust::FromPaper => tally.from_paper += 1,
            }
            if tally.smallest.as_ref().is_none_or(|smallest| trace.len() < smallest.len()) {
                tally.smallest = Some(trace.clone());
            }
        }
    }
    println!("comparison 1, paper against mvcc.rs, seed {seed}: {traces} traces, {calls_run} calls with each Rust");
    println!("{:<34} {:>9} {:>11}  which side says what", "class", "as shown", "from paper");
    for class in Class::ALL {
        let (shown, from_paper) = tallies.get(class).map_or((0, 0), |tally| (tally.shown, tally.from_paper));
        println!("{:<34} {shown:>9} {from_paper:>11}  {}", class.word(), class.text());
    }
    counts.print_images();
    println!("no difference outside these classes");
    if show_smallest {
        for (class, tally) in &tallies {
            report_smallest(*class, tally.smallest.as_deref().unwrap_or_default());
        }
    }
    true
}

fn shows_class(trace: &[u8], class: Option<Class>) -> bool {
    read_trace(trace).is_some_and(|calls| differences(&calls).iter().any(|difference| difference.class == class))
}

fn report_smallest(class: Class, trace: &[u8]) {
    let smallest = shrink::smallest(trace, 3000, &mut |trace| shows_class(trace, Some(class)));
    println!("\nsmallest found of {}:", class.word());
    report(&read_trace(&smallest).unwrap_or_default());
}

fn report_unnamed(trace: &[u8]) {
    println!("a difference between the paper and mvcc.rs has no named class; the smallest trace found:");
    let smallest = shrink::smallest(trace, 3000, &mut |trace| shows_class(trace, None));
    report(&read_trace(&smallest).unwrap_or_default());
}

/// The calls in words, with what each side says where they differ.
fn report(calls: &[Call]) {
    let found = differences(calls);
    for (at, call) in calls.iter().enumerate() {
        println!("  {}. {}", at + 1, words::call(call));
        for difference in found.iter().filter(|difference| difference.at == at) {
            let rust = match difference.rust {
                Rust::Shown => "as shown",
                Rust::FromPaper => "from paper",
            };
            let class = difference.class.map_or("no class", Class::word);
            let (paper, said) = (words::answer(&difference.paper), difference.said.name());
            println!("     paper {paper}; Rust {rust}: {said} ({class})");
        }
    }
}

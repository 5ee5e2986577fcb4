//! The named classes into which every difference between the paper and mvcc.rs falls. docs/DIFFERENCES.md has the same
//! names, with the paper's sentence and which side says what.
//!
//! A class is one rule of the Rust, given as a bend of the paper's. A difference falls into it only if the paper with that
//! rule, from the same store, says just what the Rust said and leaves just the store that the Rust left, without it does
//! not, and itself says what the class says. So the store before the call holds what the class is about, and both sides
//! answer as the class says; any other difference has no name and fails the comparison.

use paper::answer::{Answer, BELOW_FLOOR};
use paper::bend::{Bend, with_bends};
use paper::run::run_call;
use paper::store::Store;
use paper::trace::Call;
use ragnor::engine::Engine;

use crate::floored::{below_floor, locked_below};
use crate::one::agrees;
use crate::rust_side::{Outcome, Side, beyond_room, same_state, sick};

macro_rules! classes {
    ($($name:ident $word:literal $bend:ident [$($number:literal)*] $text:literal;)*) => {
        #[derive(Clone, Copy, Debug, PartialEq, Eq, PartialOrd, Ord)]
        pub enum Class { $($name,)* }

        impl Class {
            pub const ALL: &'static [Class] = &[$(Class::$name,)*];

            /// The name in docs/DIFFERENCES.md.
            pub fn word(self) -> &'static str {
                match self { $(Class::$name => $word,)* }
            }

            /// Which side says what, in one line.
            pub fn text(self) -> &'static str {
                match self { $(Class::$name => $text,)* }
            }

            /// The Rust's rule.
            fn bend(self) -> Bend {
                match self { $(Class::$name => Bend::$bend,)* }
            }

            /// What the paper says to an entry of this class, 0 also where it goes on.
            fn numbers(self) -> &'static [u8] {
                match self { $(Class::$name => &[$($number),*],)* }
            }
        }
    };
}

classes! {
    Room "room" RoomUnjudged [11]
        "paper 11, Rust Ok: the Rust has no rooms";
    StampAtStart "stamp-at-start" RustStampAtStart [8]
        "paper 8, Rust goes on: a Put or Delete record stamped with the start itself is no conflict to it";
    RollbackAbove "rollback-above-start" RustRollbackAbove [8]
        "paper 8, Rust goes on: a Rollback record stamped above the start is no conflict to it";
    DefaultFirst "default-judged-first" RustDefaultFirst [0 7 8 11]
        "Rust CorruptData, paper goes on: validate_mutation as shown judges a default at the start before all else";
    CommitTaken "commit-stamp-taken" RustCommitTaken [7 8]
        "Rust CorruptData, paper 7 or 8: another start's record stands at the commit (commit of intents)";
    RecordBetween "record-between-start-and-commit" RustCommitBetween [0]
        "Rust WriteConflict, paper 0: a Put or Delete stamped above the start and below the commit";
    HolderForHistory "lock-named-for-history" RustCommitHolderFirst [8]
        "both WriteConflict; the Rust's text names another's lock (7) where the paper says 8";
    OneStepTaken "one-step-stamp-taken" OneStepOccupied9 [7 8]
        "Rust CorruptData, paper 7 or 8: another start's record stands at the commit (one-step batch)";
    EmptyTableZero "empty-table-zero" ImageTableZero [13]
        "paper 13, Rust Ok: an image of table 0 without entries";
    SickImage "sick-image" RustSickTaken [13]
        "paper 13, Rust Ok: a Put lock without its default, an orphan default, or two lines of one key and start";
    FlooredImage "lock-below-image-floor" RustFloorTaken [13]
        "paper 13, Rust Ok: a lock at or below the image's floor";
    BelowFloor "below-floor" RustHasNoFloor [14]
        "paper 14, Rust goes on: a moment below the floor, or a start at or below it";
}

/// Which of the two Rusts: with validate_mutation as shown, or written from document 01.
#[derive(Clone, Copy, Debug, PartialEq, Eq)]
pub enum Rust {
    Shown,
    FromPaper,
}

/// The class of a difference, if it has one: the store before the call, the call, what each side said, and the Rust as the
/// call left it. Where the paper says 14, it is the floor's, whatever the Rust comes to when it goes on.
pub fn class_of<E: Engine>(
    rust: Rust,
    before: &Store,
    call: &Call,
    paper: &Answer,
    said: &Outcome,
    side: &Side<E>,
) -> Option<Class> {
    let explains = |rules: &[Bend]| {
        let mut store = before.clone();
        let answer = with_bends(rules, || run_call(&mut store, call));
        agrees(call, &answer, said) && same_state(side, &store)
    };
    let floored = paper.number == BELOW_FLOOR;
    if floored && (paper.count != 0 || !below_floor(call, before.floor)) {
        return None;
    }
    // Where the paper goes on, a later entry of the batch may be refused for what the Rust never came to.
    // What the Rust took as an image must be sick in its own state, or have a lock at or below the image's floor.
    let fits = |class: &Class| {
        let numbers = class.numbers();
        let said = numbers.contains(&paper.number) || numbers.contains(&0) && matches!(call.op(), 7 | 9 | 12);
        let shown = match class {
            Class::SickImage => sick(&side.engine),
            Class::FlooredImage => locked_below(side),
            _ => true,
        };
        said && shown
    };
    let named = |class: Class| if floored { Some(Class::BelowFloor) } else { Some(class).filter(fits) };
    // The Rust has no rooms in any call: where that alone explains it, its own state must be beyond one of them.
    let mut rules = vec![Class::Room.bend()];
    rules.extend(floored.then_some(Class::BelowFloor.bend()));
    if explains(&rules) {
        return named(Class::Room).filter(|class| *class != Class::Room || beyond_room(&side.engine));
    }
    // As shown, it judges a default first in any call.
    if rust == Rust::Shown {
        rules.push(Class::DefaultFirst.bend());
        if explains(&rules) {
            return named(Class::DefaultFirst);
        }
    }
    let with = |classes: &[Class]| [&rules[..], &classes.iter().map(|class| class.bend()).collect::<Vec<_>>()].concat();
    let every = [Class::Room, Class::DefaultFirst, Class::BelowFloor];
    let mut others = Class::ALL.iter().copied().filter(|class| !every.contains(class));
    let one = others.find(|class| named(*class).is_some() && explains(&with(&[*class])));
    // Both may stand in the way of one call: a record stamped with the start, and a Rollback above it; or a sick image and its
    // floor.
    let pairs = [[Class::StampAtStart, Class::RollbackAbove], [Class::SickImage, Class::FlooredImage]];
    let two = || pairs.iter().find(|two| named(two[0]).is_some() && explains(&with(&two[..]))).map(|two| two[0]);
    one.or_else(two).and_then(named)
}

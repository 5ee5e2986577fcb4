//! Bent rules: each bend breaks one sentence of the paper, to show that the generator's traces notice; some put a rule of
//! mvcc.rs in its place, to say where and how the two differ.
//!
//! The rules in force are kept for the thread; with none, a rule costs one comparison of a few bytes. Nothing but the
//! sharpness count, the classes of differences and tests ever bends a rule.

use std::cell::Cell;

pub use crate::bend_list::Bend;

/// So many rules may be bent at once.
const MOST: usize = 10;

thread_local! {
    static IN_FORCE: Cell<[Option<Bend>; MOST]> = const { Cell::new([None; MOST]) };
}

/// Is this rule bent now?
#[inline]
pub fn bent(bend: Bend) -> bool {
    IN_FORCE.get().contains(&Some(bend))
}

/// Is any rule bent now?
#[inline]
pub fn any_bent() -> bool {
    IN_FORCE.get()[0].is_some()
}

/// Runs the work with one rule bent, besides those that are.
pub fn with_bend<T>(bend: Bend, work: impl FnOnce() -> T) -> T {
    with_bends(&[bend], work)
}

/// Runs the work with these rules bent, besides those that are.
pub fn with_bends<T>(bends: &[Bend], work: impl FnOnce() -> T) -> T {
    let before = IN_FORCE.get();
    let mut all = before;
    for bend in bends {
        let free = all.iter_mut().find(|place| place.is_none()).expect("a place for one more bend");
        *free = Some(*bend);
    }
    IN_FORCE.set(all);
    let result = work();
    IN_FORCE.set(before);
    result
}

/// Can a store that a fresh start, a restore or a former call leaves show the bend?
#[derive(Clone, Copy, Debug, PartialEq, Eq)]
pub enum Reach {
    Shown,
    /// No such store can, for this reason.
    Never(&'static str),
}

/// Makes the list of bends: each a name, what it does, the op that alone can show it if only one can, and why no reachable
/// store can show it if none can.
macro_rules! bends {
    ([$($name:ident $text:literal $(of $op:literal)? $(never $reason:expr)?;)*]) => {
        /// One rule of the paper, bent.
        #[derive(Clone, Copy, Debug, PartialEq, Eq)]
        pub enum Bend { $($name,)* }

        impl Bend {
            pub const ALL: &'static [Bend] = &[$(Bend::$name,)*];

            /// What the bent rule does, in one line.
            pub fn text(self) -> &'static str {
                match self { $(Bend::$name => $text,)* }
            }

            /// The op without which no trace shows the bend, where it is said.
            pub fn op(self) -> Option<u8> {
                match self { $(Bend::$name => bends!(@op $($op)?),)* }
            }

            pub fn reach(self) -> $crate::bend::Reach {
                match self { $(Bend::$name => bends!(@reach $($reason)?),)* }
            }
        }
    };
    (@op) => { None };
    (@op $op:literal) => { Some($op) };
    (@reach) => { $crate::bend::Reach::Shown };
    (@reach $reason:expr) => { $crate::bend::Reach::Never($reason) };
}

pub(crate) use bends;

//! The paper: an own reading of document 01 in plain Rust over maps.
//!
//! Each module is one paragraph of document 01; write_image.rs is change request 1, sick.rs is what change request 3 adds to
//! Restore, row.rs, bones.rs and convert.rs are change request 4, read.rs has the count of change request 6, collect.rs and
//! floor.rs are change request 7 and answer.rs has the holder of change request 9. Above each step stands the sentence it carries out, in quotes, in the order of the paper, so
//! that a reader holding 01 can lay the two side by side. Where 01 leaves room, docs/DECISIONS.md has the reading.
//!
//! Nothing here is made for speed: a call that changes the box works out the box it would leave and takes it over
//! whole, or refuses and leaves the old one.

pub mod answer;
pub mod area;
mod as_rust;
pub mod bend;
mod bend_list;
pub mod bones;
pub mod collect;
pub mod commit;
pub mod convert;
pub mod figures;
pub mod floor;
pub mod form;
mod in_one_call;
mod miscollected;
mod misconverted;
mod miscounted;
mod misfloored;
mod misnamed;
mod misread;
mod miswritten;
pub mod one_step;
pub mod page;
pub mod prewrite;
pub mod read;
pub mod restore;
pub mod rollback;
pub mod room;
pub mod row;
pub mod run;
pub mod sick;
mod single;
pub mod store;
pub mod trace;
pub mod write_image;

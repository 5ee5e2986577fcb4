//! The judge: comparison 1 (the paper against mvcc.rs), comparison 2 (a driver against the paper), the sharpness of the
//! generator's traces, the fixed sample, and the shrinking of a trace to its smallest.

pub mod bends;
pub mod classes;
mod converted;
mod counts;
pub mod floored;
mod floors;
mod held;
pub mod length;
pub mod one;
mod reads;
mod rows;
pub mod rust_side;
pub mod sample;
pub mod shrink;
pub mod two;
pub mod words;
mod written;

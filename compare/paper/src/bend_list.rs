//! The list of bends: one line each, in the paper's order. One that no reachable store can show says why.
//!
//! Each file below has a part of it, as a macro that puts its lines behind those before and hands all to the next.

use crate::bend::bends;

#[macro_use]
mod changes;
#[macro_use]
mod floor;
#[macro_use]
mod forms;
#[macro_use]
mod images;
#[macro_use]
mod looks;
#[macro_use]
mod others;

const ONE_LINE: &str = "a key and start have one line: restore asks it and every call keeps it";
const PUT_ROWS: &str = "a row stands for exactly the Put lines: restore asks it and every call keeps it";
const SOUND_LOCKS: &str = "every call leaves sound locks and restore refuses others";
const SOUND_RECORDS: &str = "every call leaves sound records and restore refuses others";

of_forms! { [] of_looks of_changes of_images of_floor of_others bends }

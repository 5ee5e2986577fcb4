//! The table: each case's answers checked, then both sides timed in turn; or mvcc.rs alone.

use std::fs;

use crate::boxes::SIZES;
use crate::cases::{Case, cases, full_box, season};
use crate::clock::copies;
use crate::expected::{expected, program_agrees, rust_agrees, turns_agree};
use crate::timing::{Plan, Side, Times, times};

pub fn table(plan: &Plan) -> Result<(), String> {
    fs::create_dir_all(&plan.folder).map_err(|error| format!("{}: {error}", plan.folder))?;
    if let Some(counter) = &plan.counter {
        return copies_table(plan, counter);
    }
    if plan.program.is_empty() {
        return rust_table(plan);
    }
    println!("| call | box | Rattle ns | Rust ns | ratio | Rattle least, most | Rust least, most |");
    println!("|---|---|---|---|---|---|---|");
    let mut untimed = 0;
    for case in chosen(plan).filter(Case::in_program) {
        match one_row(plan, &case) {
            Ok(times) => println!("{}", row(&case, &times)),
            Err(error) => {
                untimed += 1;
                println!("| {} | {} | {error} | | | | |", case.name, case.size.name());
            }
        }
    }
    if untimed == 0 { Ok(()) } else { Err(format!("{untimed} cases were not timed")) }
}

/// A row of the table; without the Rust's times where mvcc.rs has not the call.
fn row(case: &Case, times: &[Times]) -> String {
    let (name, size, rattle) = (case.name, case.size.name(), &times[0]);
    let own = format!("{:.0}, {:.0}", rattle.least, rattle.most);
    match times.get(1) {
        Some(rust) => {
            let ratio = rattle.middle / rust.middle;
            let other = format!("{:.0}, {:.0}", rust.least, rust.most);
            format!("| {name} | {size} | {:.0} | {:.0} | {ratio:.1} | {own} | {other} |", rattle.middle, rust.middle)
        }
        None => format!("| {name} | {size} | {:.0} | | | {own} | |", rattle.middle),
    }
}

/// The cases that the plan names.
fn chosen(plan: &Plan) -> impl Iterator<Item = Case> {
    let all = SIZES.into_iter().flat_map(cases).chain([full_box()]).chain(season());
    all.filter(|case| case.name.contains(&plan.only))
}

/// The times of mvcc.rs alone, of calls that crates/bench does not have too.
fn rust_table(plan: &Plan) -> Result<(), String> {
    println!("| call | box | Rust ns | least, most |");
    println!("|---|---|---|---|");
    for case in chosen(plan).filter(Case::in_rust) {
        let expected = expected(&case);
        rust_agrees(&case, &expected)?;
        let input = |turns, made| case.rust_input(turns, made);
        let side = Side { name: "rust", words: &plan.rust, input: &input, calls: case.calls.len() as u64 };
        turns_agree(&expected, 3, &side.once(plan, 3, true)?.0)?;
        for Times { middle, least, most } in times(plan, &[side])? {
            println!("| {} | {} | {middle:.0} | {least:.0}, {most:.0} |", case.name, case.size.name());
        }
    }
    Ok(())
}

/// Copies of table size that a call makes, and their bytes, the copy of the area that it is made on left out.
fn copies_table(plan: &Plan, counter: &str) -> Result<(), String> {
    println!("| call | box | copies | bytes |");
    println!("|---|---|---|---|");
    for case in chosen(plan).filter(Case::in_program) {
        let input = |turns, made| case.program_input(turns, made);
        let side = program(plan, &case, &input);
        let count = |made| copies(side.words, &side.written(plan, 10, made)?, counter);
        let ([copies, bytes], [other, more]) = (count(true)?, count(false)?);
        let each = |all: u64, without: u64| (all - without) as f64 / (10 * case.calls.len()) as f64;
        println!("| {} | {} | {:.1} | {:.0} |", case.name, case.size.name(), each(copies, other), each(bytes, more));
    }
    Ok(())
}

fn program<'a>(plan: &'a Plan, case: &Case, input: &'a dyn Fn(u64, bool) -> Vec<u8>) -> Side<'a> {
    Side { name: "rattle", words: &plan.program, input, calls: case.calls.len() as u64 }
}

fn one_row(plan: &Plan, case: &Case) -> Result<Vec<Times>, String> {
    let expected = expected(case);
    let of_program = |turns, made| case.program_input(turns, made);
    let of_rust = |turns, made| case.rust_input(turns, made);
    let mut sides = vec![program(plan, case, &of_program)];
    program_agrees(&expected, 3, &sides[0].once(plan, 3, true)?.0)?;
    if case.in_rust() {
        rust_agrees(case, &expected)?;
        let side = Side { name: "rust", words: &plan.rust, input: &of_rust, calls: case.calls.len() as u64 };
        turns_agree(&expected, 3, &side.once(plan, 3, true)?.0)?;
        sides.push(side);
    }
    times(plan, &sides)
}

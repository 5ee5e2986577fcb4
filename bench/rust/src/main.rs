//! `bench turns < input`: mvcc.rs makes the turns of an input, as crates/bench does; `bench restores < input`: so many
//! restores of one image.
//! `bench table FOLDER [--runs N] [--only WORD] [--aim MILLISECONDS] --program WORDS..`: checks the
//! answers of both sides, times them in turn, and prints the table; without `--program` mvcc.rs alone.
//! `bench hostile FOLDER ..`: the same of hostile images.
//! With `--counter FILE`, the built bench/copies.c, copies are counted and nothing is timed.
//! `bench sample FOLDER`: writes stdin and stdout of the gate's own run of crates/bench.

use std::io::{Read, Write};
use std::process::ExitCode;

mod boxes;
mod cases;
mod clock;
mod expected;
mod hostile;
mod rust_side;
mod table;
mod timing;

const USAGE: &str = "usage: bench turns, bench restores, bench sample FOLDER, or bench table|hostile FOLDER [--runs N] [--only WORD] \
                     [--aim MS] [--program WORDS..]";

fn main() -> ExitCode {
    let words: Vec<String> = std::env::args().skip(1).collect();
    let done = match words.iter().map(String::as_str).collect::<Vec<_>>()[..] {
        ["turns"] => turns(rust_side::turns),
        ["restores"] => turns(rust_side::restores),
        ["table", folder, ref rest @ ..] => plan(folder, "turns", rest).and_then(|plan| table::table(&plan)),
        ["hostile", folder, ref rest @ ..] => plan(folder, "restores", rest).and_then(|plan| hostile(&plan)),
        ["sample", folder] => sample(folder),
        _ => Err(USAGE.into()),
    };
    match done {
        Ok(()) => ExitCode::SUCCESS,
        Err(error) => {
            eprintln!("bench: {error}");
            ExitCode::from(2)
        }
    }
}

fn turns(make: fn(&[u8]) -> Option<u64>) -> Result<(), String> {
    let mut input = Vec::new();
    std::io::stdin().read_to_end(&mut input).map_err(|error| error.to_string())?;
    let accepted = make(&input).ok_or("the input is not in form, or mvcc.rs has not the call")?;
    std::io::stdout().write_all(&accepted.to_be_bytes()).map_err(|error| error.to_string())
}

fn hostile(plan: &timing::Plan) -> Result<(), String> {
    if plan.program.is_empty() { Err("--program is wanted".to_string()) } else { hostile::table(plan) }
}

fn sample(folder: &str) -> Result<(), String> {
    let case = cases::cases(boxes::SIZES[0]).swap_remove(0);
    let (input, output) = expected::sample(case);
    let write = |name, bytes| std::fs::write(std::path::Path::new(folder).join(name), bytes);
    write("stdin", input).and_then(|()| write("stdout", output)).map_err(|error| error.to_string())
}

fn plan(folder: &str, rust: &str, words: &[&str]) -> Result<timing::Plan, String> {
    let own = std::env::current_exe().map_err(|error| error.to_string())?.to_string_lossy().into_owned();
    let mut plan = timing::Plan {
        folder: folder.to_string(),
        program: Vec::new(),
        rust: vec![own, rust.to_string()],
        runs: 5,
        counter: None,
        only: String::new(),
        aim: 300_000_000,
    };
    let mut words = words.iter();
    while let Some(word) = words.next() {
        let mut next = || words.next().ok_or(format!("{word} wants a word after it"));
        match *word {
            "--runs" => plan.runs = next()?.parse().map_err(|_| "--runs wants a number")?,
            "--counter" => plan.counter = Some(next()?.to_string()),
            "--only" => plan.only = next()?.to_string(),
            "--aim" => plan.aim = next()?.parse::<u64>().map_err(|_| "--aim wants a number")? * 1_000_000,
            "--program" => plan.program = words.by_ref().map(|word| word.to_string()).collect(),
            other => return Err(format!("no word {other}")),
        }
    }
    match plan {
        _ if plan.runs < 5 => Err("--runs wants five or more".to_string()),
        plan => Ok(plan),
    }
}

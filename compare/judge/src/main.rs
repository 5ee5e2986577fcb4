//! The judge's commands; `judge` alone says how they are used.

use std::process::ExitCode;
use std::time::{Duration, SystemTime, UNIX_EPOCH};

use generate::Ops;
use judge::length::Length;
use judge::two::{Choice, Driver};
use judge::{bends, one, sample, shrink, two};

const USAGE: &str = "\
judge one      [--seconds N | --traces N] [--seed S] [--ops LIST] [--smallest]
                                                                     comparison 1: the paper against mvcc.rs
judge two      [--seconds N | --traces N] [--seed S] [--ops LIST] [--per-start N] [--patience N] [--save FILE]
               --driver COMMAND..                                    comparison 2: a driver against the paper
judge bends    [--traces N] [--seed S] [--ops LIST]                  how many traces notice each bent rule
judge sample   [--ops LIST] FOLDER                                   writes the fixed sample of traces and answers
judge check    FOLDER --driver COMMAND..                             replays a sample with a driver
judge smallest FILE --bend NAME | [--save FILE] --driver COMMAND..   shrinks the trace in a file
LIST is ops of TRACE.md such as 32,33,34; if left out, all, and for a driver and its sample those that the driver has.
COMMAND takes all words to the end of the line; a driver that writes nothing for as many seconds as --patience says (20)
counts as hanging and is stopped.";

/// The words of a command line.
struct Words {
    seconds: u64,
    seed: u64,
    traces: Option<u64>,
    per_start: u64,
    patience: u64,
    ops: Option<Ops>,
    smallest: bool,
    bend: Option<String>,
    save: Option<String>,
    driver: Vec<String>,
    plain: Vec<String>,
}

fn main() -> ExitCode {
    match command() {
        Some(true) => ExitCode::SUCCESS,
        Some(false) => ExitCode::from(1),
        None => {
            eprintln!("{USAGE}");
            ExitCode::from(2)
        }
    }
}

/// Runs the command: whether all was well, or none if the words make no command.
fn command() -> Option<bool> {
    let mut words = std::env::args().skip(1);
    let name = words.next()?;
    let words = read(words)?;
    let length = Length::new(Duration::from_secs(words.seconds), words.traces);
    let driver = Driver { words: words.driver.clone(), patience: Duration::from_secs(words.patience) };
    let has_driver = !words.driver.is_empty();
    let (ops, of_driver) = (words.ops.unwrap_or(Ops::all()), words.ops.unwrap_or(Ops::of_driver()));
    match (name.as_str(), &words.plain[..]) {
        ("one", []) => Some(one::run(&length, words.seed, ops, words.smallest)),
        ("two", []) if has_driver && words.per_start > 0 => {
            let Words { seed, per_start, save, .. } = words;
            Some(two::run(&driver, &length, &Choice { seed, ops: of_driver, per_start, save }))
        }
        ("bends", []) => Some(bends::run(words.traces.unwrap_or(1000), words.seed, ops)),
        ("sample", [folder]) => Some(sample::write(folder, of_driver)),
        ("check", [folder]) if has_driver => Some(sample::check(folder, &driver)),
        ("smallest", [file]) => smallest(file, &words, &driver),
        _ => None,
    }
}

fn smallest(file: &str, words: &Words, driver: &Driver) -> Option<bool> {
    let trace = match std::fs::read(file) {
        Ok(trace) => trace,
        Err(error) => {
            eprintln!("{file} does not read: {error}");
            return Some(false);
        }
    };
    if let Some(name) = &words.bend {
        let bend = bends::named(name)?;
        let shows = &mut |trace: &[u8]| bends::notices(bend, trace, &bends::answers_of(trace));
        if !shows(&trace) {
            println!("the trace does not notice {name}");
            return Some(false);
        }
        two::print_calls(&shrink::smallest(&trace, 5000, shows));
        return Some(true);
    }
    if words.driver.is_empty() {
        return None;
    }
    if !driver.differs(&trace) {
        println!("driver and paper agree on the trace");
        return Some(true);
    }
    two::report_trace(driver, &trace, words.save.as_deref());
    Some(false)
}

fn read(mut words: impl Iterator<Item = String>) -> Option<Words> {
    let now = SystemTime::now().duration_since(UNIX_EPOCH).map_or(0, |since| since.as_secs());
    let mut read = Words {
        seconds: 10,
        seed: now,
        traces: None,
        per_start: 200,
        patience: 20,
        ops: None,
        smallest: false,
        bend: None,
        save: None,
        driver: Vec::new(),
        plain: Vec::new(),
    };
    while let Some(word) = words.next() {
        match word.as_str() {
            "--seconds" => read.seconds = words.next()?.parse().ok()?,
            "--seed" => read.seed = words.next()?.parse().ok()?,
            "--traces" => read.traces = Some(words.next()?.parse().ok()?),
            "--per-start" => read.per_start = words.next()?.parse().ok()?,
            "--patience" => read.patience = words.next()?.parse().ok()?,
            "--ops" => read.ops = Some(Ops::read(&words.next()?)?),
            "--smallest" => read.smallest = true,
            "--bend" => read.bend = Some(words.next()?),
            "--save" => read.save = Some(words.next()?),
            "--driver" => read.driver = words.by_ref().collect(),
            flag if flag.starts_with("--") => return None,
            _ => read.plain.push(word),
        }
    }
    Some(read)
}

//! The time that programs take: processor time, user and system, since a clock on the wall counts what else runs on the
//! machine.

use std::fs::File;
use std::process::{Command, Output, Stdio};

/// getrusage's struct on 64-bit Linux: user and system time, each in seconds and microseconds, and 14 numbers more.
#[repr(C)]
struct Usage([i64; 18]);

const CHILDREN: i32 = -1;

unsafe extern "C" {
    fn getrusage(who: i32, usage: *mut Usage) -> i32;
}

/// The processor time of all ended children, in nanoseconds.
fn children() -> u64 {
    let mut usage = Usage([0; 18]);
    // Safety: the struct is as long as the C library's, and lives through the call.
    let status = unsafe { getrusage(CHILDREN, &mut usage) };
    assert_eq!(status, 0, "getrusage");
    let [seconds, micros, system, more, ..] = usage.0;
    ((seconds + system) * 1_000_000 + micros + more) as u64 * 1_000
}

/// The C library keeps what a copy of the Rust's maps gives back; else some runs ask the kernel for it anew at every turn,
/// and others do not.
const KEEP: [(&str, &str); 2] = [("MALLOC_TRIM_THRESHOLD_", "1073741824"), ("MALLOC_TOP_PAD_", "67108864")];

/// Runs a program on an input file: what it wrote, and its processor time in nanoseconds.
pub fn run(words: &[String], input: &str) -> Result<(Vec<u8>, u64), String> {
    let before = children();
    let output = output(words, input, &KEEP)?;
    Ok((output.stdout, children() - before))
}

/// Runs a program with bench/copies.c loaded: how many copies of table size it made, and their bytes.
pub fn copies(words: &[String], input: &str, counter: &str) -> Result<[u64; 2], String> {
    let output = output(words, input, &[("LD_PRELOAD", counter)])?;
    let said = String::from_utf8_lossy(&output.stderr).into_owned();
    // the program is the last to say it: a script that starts it, and what that calls, have the counter too
    let numbers = said.lines().rev().find_map(|line| line.strip_prefix("copies ")?.split_once(' '));
    let (copies, bytes) = numbers.ok_or("the copies were not counted")?;
    let number = |text: &str| text.parse().map_err(|_| format!("no number: {text}"));
    Ok([number(copies)?, number(bytes)?])
}

fn output(words: &[String], input: &str, variables: &[(&str, &str)]) -> Result<Output, String> {
    let file = File::open(input).map_err(|error| format!("{input}: {error}"))?;
    let mut command = Command::new(&words[0]);
    command.args(&words[1..]).envs(variables.iter().copied()).stdin(Stdio::from(file));
    let output = command.output().map_err(|error| format!("{}: {error}", words[0]))?;
    if output.status.success() { Ok(output) } else { Err(format!("{}: {}", words[0], output.status)) }
}

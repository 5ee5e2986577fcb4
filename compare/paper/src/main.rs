//! The paper's own binary, used exactly like the driver: `paper < trace > answers`, and `paper many` for any number of
//! traces, each after a 4-byte length.

use std::io::{Read, Write};
use std::process::ExitCode;

use paper::run::{answers, many_answers};

fn main() -> ExitCode {
    let words: Vec<String> = std::env::args().skip(1).collect();
    let mut input = Vec::new();
    if std::io::stdin().read_to_end(&mut input).is_err() {
        eprintln!("paper: standard input does not read");
        return ExitCode::from(2);
    }
    let out = match words.iter().map(String::as_str).collect::<Vec<_>>()[..] {
        [] => {
            let mut out = Vec::new();
            answers(&input, &mut out);
            Some(out)
        }
        ["many"] => many_answers(&input),
        _ => None,
    };
    let Some(out) = out else {
        eprintln!("usage: paper < trace, or paper many < traces each after a 4-byte length");
        return ExitCode::from(2);
    };
    match std::io::stdout().write_all(&out) {
        Ok(()) => ExitCode::SUCCESS,
        Err(_) => ExitCode::from(2),
    }
}

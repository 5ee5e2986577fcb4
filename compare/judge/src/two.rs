//! Comparison 2: a driver against the paper, where nothing may differ. Many traces go to each start of the driver, and
//! one of them is given to it alone as well.

use std::io::{ErrorKind, Read, Write};
use std::process::{Child, ChildStdout, Command, ExitStatus, Stdio};
use std::sync::mpsc::{Receiver, RecvTimeoutError, channel};
use std::time::{Duration, Instant};

use generate::Ops;
use paper::answer::Answer;
use paper::form::Reader;
use paper::store::Bytes;
use paper::trace::read_trace;

use crate::bends::answers_of;
use crate::counts::Counts;
use crate::length::Length;
use crate::{shrink, words};

/// A driver's command: its program and words before `many`; and how long it may be silent, so that one that hangs is
/// found. A driver that writes each answer as it comes is silent no longer than a call takes.
pub struct Driver {
    pub words: Vec<String>,
    pub patience: Duration,
}

/// Why a driver's output is not whole, and what it wrote before that.
pub struct Fault {
    pub text: String,
    pub hangs: bool,
    pub output: Bytes,
}

impl Fault {
    fn plain(text: String) -> Self {
        Fault { text, hangs: false, output: Bytes::new() }
    }
}

impl Driver {
    /// The driver's output for this input, or why there is none.
    pub fn run(&self, input: &[u8], many: bool) -> Result<Bytes, Fault> {
        let (program, first) = self.words.split_first().ok_or(Fault::plain("no driver is named".to_string()))?;
        let mut child = Command::new(program)
            .args(first)
            .args(many.then_some("many"))
            .stdin(Stdio::piped())
            .stdout(Stdio::piped())
            .spawn()
            .map_err(|error| Fault::plain(format!("{program} does not start: {error}")))?;
        let mut to = child.stdin.take().expect("the driver's input is a pipe");
        let from = child.stdout.take().expect("the driver's output is a pipe");
        // Neither thread is waited for: where a driver hangs, one that it has started may hold the pipes open.
        // A driver that stops reading early breaks the pipe; what it wrote is judged all the same.
        let input = input.to_vec();
        std::thread::spawn(move || {
            let _ = to.write_all(&input);
        });
        let mut output = Bytes::new();
        let ended = match take_all(&pieces(from), self.patience, &mut output) {
            Some(Ok(())) => ended(&mut child, self.patience),
            Some(Err(error)) => Some(Err(error)),
            None => None,
        };
        match ended {
            Some(Ok(status)) if status.success() => Ok(output),
            Some(Ok(status)) => Err(Fault { text: format!("the driver ends with {status}"), hangs: false, output }),
            Some(Err(error)) => {
                Err(Fault { text: format!("the driver's answers do not read: {error}"), hangs: false, output })
            }
            None => {
                let _ = child.kill();
                let _ = child.wait();
                let text = format!(
                    "the driver hangs: no byte and no end for {} seconds, after {} bytes of answers; it was stopped",
                    self.patience.as_secs_f64(),
                    output.len()
                );
                Err(Fault { text, hangs: true, output })
            }
        }
    }

    /// Does the driver differ from the paper on this one trace?
    pub fn differs(&self, trace: &[u8]) -> bool {
        self.run(trace, false).ok() != Some(answers_of(trace))
    }
}

type Pieces = Receiver<std::io::Result<Bytes>>;

/// What the driver writes, piece by piece, from a thread of its own.
fn pieces(mut from: ChildStdout) -> Pieces {
    let (send, receive) = channel();
    std::thread::spawn(move || {
        let mut piece = vec![0; 65_536];
        loop {
            let said = match from.read(&mut piece) {
                Ok(0) => return,
                Ok(length) => Ok(piece[..length].to_vec()),
                Err(error) if error.kind() == ErrorKind::Interrupted => continue,
                Err(error) => Err(error),
            };
            let fault = said.is_err();
            if send.send(said).is_err() || fault {
                return;
            }
        }
    });
    receive
}

/// All that is written, to its end; none if nothing comes for too long.
fn take_all(pieces: &Pieces, patience: Duration, output: &mut Bytes) -> Option<std::io::Result<()>> {
    loop {
        match pieces.recv_timeout(patience) {
            Ok(Ok(piece)) => output.extend_from_slice(&piece),
            Ok(Err(error)) => return Some(Err(error)),
            Err(RecvTimeoutError::Disconnected) => return Some(Ok(())),
            Err(RecvTimeoutError::Timeout) => return None,
        }
    }
}

/// How the driver ends once its output has; none if it does not.
fn ended(child: &mut Child, patience: Duration) -> Option<std::io::Result<ExitStatus>> {
    let begin = Instant::now();
    loop {
        match child.try_wait() {
            Ok(Some(status)) => return Some(Ok(status)),
            Ok(None) if begin.elapsed() < patience => std::thread::sleep(Duration::from_millis(1)),
            Ok(None) => return None,
            Err(error) => return Some(Err(error)),
        }
    }
}

/// The traces as `many` takes them: each after a 4-byte length.
pub fn many_form(traces: &[Bytes]) -> Bytes {
    let mut out = Bytes::new();
    for trace in traces {
        out.extend_from_slice(&(trace.len() as u32).to_be_bytes());
        out.extend_from_slice(trace);
    }
    out
}

/// The traces that `many` would take, or none if the lengths do not read.
pub fn traces_of(input: &[u8]) -> Option<Vec<&[u8]>> {
    let mut reader = Reader::new(input);
    let mut traces = Vec::new();
    while reader.ended().is_none() {
        let length = reader.four()? as usize;
        traces.push(reader.take(length)?);
    }
    Some(traces)
}

/// Which traces are run, and where the smallest that differs is kept.
pub struct Choice {
    pub seed: u64,
    pub ops: Ops,
    pub per_start: u64,
    pub save: Option<String>,
}

/// Runs for so long; false at the first byte that differs.
pub fn run(driver: &Driver, length: &Length, choice: &Choice) -> bool {
    let Choice { seed, ops, per_start, save } = choice;
    let (seed, ops, per_start, save) = (*seed, *ops, *per_start, save.as_deref());
    let (mut traces, mut starts) = (0_u64, 0_u64);
    let mut counts = Counts::default();
    while length.more(traces) {
        let batch: Vec<Bytes> = (0..per_start).map(|number| generate::nth_trace(seed, traces + number, ops)).collect();
        let expected: Vec<Bytes> = batch.iter().map(|trace| answers_of(trace)).collect();
        match driver.run(&many_form(&batch), true) {
            Ok(output) if output == expected.concat() => {}
            other => {
                report(driver, &batch, &expected, other, save);
                return false;
            }
        }
        let alone = &batch[(starts % per_start) as usize];
        if driver.differs(alone) {
            println!("the driver differs from the paper on a trace given alone");
            report_trace(driver, alone, save);
            return false;
        }
        traces += per_start;
        starts += 1;
        batch.iter().for_each(|trace| counts.take_all(trace));
    }
    println!(
        "comparison 2, driver against paper, seed {seed}: {traces} traces, {} answers, {starts} starts with \
         {per_start} traces each; every byte equal",
        counts.answers
    );
    counts.print();
    true
}

/// Finds the trace at which the outputs part, and shrinks it.
fn report(driver: &Driver, batch: &[Bytes], expected: &[Bytes], output: Result<Bytes, Fault>, save: Option<&str>) {
    let (output, whole) = match output {
        Ok(output) => (output, true),
        Err(fault) => {
            println!("{}", fault.text);
            (fault.output, false)
        }
    };
    let mut place = 0;
    for (number, (trace, answers)) in batch.iter().zip(expected).enumerate() {
        if output.get(place..place + answers.len()) != Some(answers) {
            println!("the driver differs from the paper at trace {} of the {} of this start", number + 1, batch.len());
            if driver.differs(trace) {
                report_trace(driver, trace, save);
            } else {
                println!("the trace alone is answered well; it differs only after others in one start:");
                print_calls(trace);
            }
            return;
        }
        place += answers.len();
    }
    if whole {
        println!("the driver writes {} bytes beyond the last answer", output.len() - place);
    } else {
        println!("every answer of this start was written");
    }
}

/// The smallest trace found, and both sides' answers; the trace is kept in a file if one is named. A trace at which the
/// driver hangs is not made smaller, since each try would wait.
pub fn report_trace(driver: &Driver, trace: &[u8], save: Option<&str>) {
    let hangs = driver.run(trace, false).is_err_and(|fault| fault.hangs);
    let (smallest, what) = if hangs {
        (trace.to_vec(), "a trace at which the driver hangs")
    } else {
        (shrink::smallest(trace, 400, &mut |trace| driver.differs(trace)), "the smallest trace found")
    };
    println!("{what}, {} bytes: {}", smallest.len(), words::hex(&smallest));
    if let Some(file) = save {
        match std::fs::write(file, &smallest) {
            Ok(()) => println!("kept in {file}"),
            Err(error) => println!("not kept in {file}: {error}"),
        }
    }
    print_calls(&smallest);
    println!("the paper's answers:");
    print_answers(&answers_of(&smallest));
    println!("the driver's answers:");
    match driver.run(&smallest, false) {
        Ok(output) => print_answers(&output),
        Err(fault) => {
            print_answers(&fault.output);
            println!("  {}", fault.text);
        }
    }
}

fn print_answers(bytes: &[u8]) {
    match Answer::read_all(bytes) {
        None => println!("  (no answers) {}", words::hex(bytes)),
        Some(answers) => answers.iter().for_each(|answer| println!("  {}", words::answer(answer))),
    }
}

pub fn print_calls(trace: &[u8]) {
    match read_trace(trace) {
        None => println!("  (a trace not in form) {}", words::hex(trace)),
        Some(calls) => {
            for (at, call) in calls.iter().enumerate() {
                println!("  {}. {}", at + 1, words::call(call));
            }
        }
    }
}

//! The fixed sample: traces and the paper's answers, in the files that a program of the repository is tested by, so that
//! the driver run on its `stdin` with the argument `many` must write its `stdout`.

use std::collections::BTreeMap;
use std::path::Path;

use generate::{Ops, bones, chains, floor_cases, held, hostile, named, old, repacks, sick, singles, written};
use paper::area;
use paper::bend::Bend;
use paper::run::run_trace;
use paper::store::Bytes;
use paper::trace::{read_trace, write_trace};

use crate::bends::{answers_of, may_show, notices, ops_of, shown};
use crate::two::{Driver, many_form};

/// Traces are tried from this seed on, so many of each size.
const SEED: u64 = 20_260_101;
const TRIED: u64 = 3_000;
/// A trace is taken if it shows an op's answer or notices a bend that fewer than this many taken ones do.
const WANTED: u64 = 2;
/// Short traces are tried first, so that long ones are taken only for what needs them.
const SIZES: [usize; 3] = [3_000, 20_000, 70_000];
/// What is drawn for the sample stays below this.
const MOST_OF_ALL: usize = 1_400_000;

/// What the sample has so far, of calls of these ops.
struct Sample {
    ops: Ops,
    traces: Vec<Bytes>,
    bytes: usize,
    answers: BTreeMap<(u8, u8), u64>,
    bends: BTreeMap<usize, u64>,
    calls: u64,
}

impl Sample {
    fn new(ops: Ops) -> Self {
        let (traces, answers, bends) = (Vec::new(), BTreeMap::new(), BTreeMap::new());
        Sample { ops, traces, bytes: 0, answers, bends, calls: 0 }
    }

    /// Takes the trace if it shows something of which the sample has too little and is no longer with its answers than
    /// this; or if it must be in, for which no length is given.
    fn offer(&mut self, trace: Bytes, longest: Option<usize>) {
        let straight = answers_of(&trace);
        let size = trace.len() + straight.len() + 4;
        if longest.is_some_and(|longest| size > longest || self.bytes + size > MOST_OF_ALL) {
            return;
        }
        let pairs = pairs(&trace);
        let wanted = |have: Option<&u64>| have.is_none_or(|have| *have < WANTED);
        let calls = ops_of(&trace);
        let new_answer = pairs.iter().any(|pair| wanted(self.answers.get(pair)));
        let noticed: Vec<usize> = Bend::ALL
            .iter()
            .enumerate()
            .filter(|(at, bend)| shown(**bend, self.ops) && wanted(self.bends.get(at)))
            .filter(|(_, bend)| may_show(**bend, calls.as_deref()))
            .filter(|(_, bend)| notices(**bend, &trace, &straight))
            .map(|(at, _)| at)
            .collect();
        if longest.is_some() && !new_answer && noticed.is_empty() {
            return;
        }
        self.calls += pairs.len() as u64;
        pairs.into_iter().for_each(|pair| *self.answers.entry(pair).or_default() += 1);
        noticed.into_iter().for_each(|at| *self.bends.entry(at).or_default() += 1);
        self.bytes += size;
        self.traces.push(trace);
    }
}

/// Each call's op with its answer's number; op 0 stands for a trace not in form.
fn pairs(trace: &[u8]) -> Vec<(u8, u8)> {
    let ops: Vec<u8> = read_trace(trace).map_or(vec![0], |calls| calls.iter().map(|call| call.op()).collect());
    ops.into_iter().zip(run_trace(trace)).map(|(op, answer)| (op, answer.number)).collect()
}

/// Writes the traces to `stdin` and the answers to `stdout` of the folder, and says what is in them; false if that fails
/// or something is not covered.
pub fn write(folder: &str, ops: Ops) -> bool {
    let mut sample = Sample::new(ops);
    for (_, calls) in named::cases() {
        if calls.iter().all(|call| ops.has(call.op())) {
            sample.offer(write_trace(&calls), None);
        }
    }
    // Images are written and converted in cases of their own: those of full boxes are long, and would keep out what else a
    // trace shows.
    let drawn = ops.without(35).without(36);
    for longest in SIZES {
        for number in 0..TRIED {
            // With every full box: a sample may take its time.
            let seed = SEED + number;
            sample.offer(generate::trace_of(generate::kind_of(seed), seed, drawn), Some(longest));
        }
    }
    // Last, so that what the drawn traces are taken for does not hang on them.
    let last = [
        repacks::cases,
        singles::cases,
        hostile::cases,
        sick::cases,
        held::cases,
        chains::cases,
        floor_cases::cases,
        written::cases,
        bones::cases,
        old::cases,
    ];
    for (_, calls) in last.into_iter().flat_map(|cases| cases()) {
        if calls.iter().all(|call| ops.has(call.op())) {
            sample.offer(write_trace(&calls), None);
        }
    }
    let answers: Bytes = sample.traces.iter().flat_map(|trace| answers_of(trace)).collect();
    let contents = contents(&sample, answers.len());
    let folder = Path::new(folder);
    let written = std::fs::create_dir_all(folder)
        .and_then(|()| std::fs::write(folder.join("stdin"), many_form(&sample.traces)))
        .and_then(|()| std::fs::write(folder.join("stdout"), &answers));
    print!("{contents}");
    match written {
        Ok(()) => !ops.complete() || uncovered(&sample).is_empty(),
        Err(error) => {
            println!("the sample is not written: {error}");
            false
        }
    }
}

/// The bends that a reachable store can show by the sample's ops, and that no trace of it notices.
fn uncovered(sample: &Sample) -> Vec<Bend> {
    let all = Bend::ALL.iter().enumerate();
    let missing = all.filter(|(at, bend)| shown(**bend, sample.ops) && !sample.bends.contains_key(at));
    missing.map(|(_, bend)| *bend).collect()
}

fn contents(sample: &Sample, answers: usize) -> String {
    let mut text = format!(
        "{} traces, {} calls, {} bytes of stdin, {answers} bytes of stdout\n",
        sample.traces.len(),
        sample.calls,
        many_form(&sample.traces).len(),
    );
    text += "calls by op and answer (op 0: a trace not in form):\n";
    let mut of_op: BTreeMap<u8, Vec<String>> = BTreeMap::new();
    for ((op, number), count) in &sample.answers {
        of_op.entry(*op).or_default().push(format!("{number} x{count}"));
    }
    for (op, numbers) in of_op {
        text += &format!("  op {op}: {}\n", numbers.join(", "));
    }
    let mut packed: BTreeMap<u8, u64> = BTreeMap::new();
    for op in sample.traces.iter().flat_map(|trace| area::repacks(trace)) {
        *packed.entry(op).or_default() += 1;
    }
    let packed: Vec<String> = packed.iter().map(|(op, count)| format!("op {op} x{count}")).collect();
    text += &format!("calls that pack the area anew: {}\n", packed.join(", "));
    let missing = uncovered(sample);
    text += &format!("bent rules noticed: {} of {}", sample.bends.len(), sample.bends.len() + missing.len());
    if !missing.is_empty() {
        text += &format!("; not noticed: {missing:?}");
    }
    text + "\n"
}

/// Replays a sample with a driver; false if a byte differs.
pub fn check(folder: &str, driver: &Driver) -> bool {
    let folder = Path::new(folder);
    let files =
        std::fs::read(folder.join("stdin")).and_then(|traces| Ok((traces, std::fs::read(folder.join("stdout"))?)));
    let (traces, answers) = match files {
        Ok(files) => files,
        Err(error) => {
            println!("the sample does not read: {error}");
            return false;
        }
    };
    match driver.run(&traces, true) {
        Ok(output) if output == answers => {
            println!("sample: {} bytes of answers, every byte equal", answers.len());
            true
        }
        Ok(output) => {
            let place = output.iter().zip(&answers).take_while(|(left, right)| left == right).count();
            println!("sample: the answers part at byte {place}; {} bytes against {}", output.len(), answers.len());
            false
        }
        Err(fault) => {
            println!("{}", fault.text);
            false
        }
    }
}

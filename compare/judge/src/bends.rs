//! The sharpness of the traces: each rule of the paper is bent in turn, and the traces that notice are counted.

use generate::Ops;
use paper::bend::{Bend, Reach, with_bend};
use paper::run::answers;
use paper::store::Bytes;
use paper::trace::read_trace;

/// A trace above so many bytes takes long.
const LONG: usize = 8_000;
/// It is not run for a bend that so many others notice.
const ENOUGH: u64 = 20;

/// The answers of a trace, in bytes.
pub fn answers_of(trace: &[u8]) -> Bytes {
    let mut out = Bytes::new();
    answers(trace, &mut out);
    out
}

/// Does the trace answer otherwise with this rule bent?
pub fn notices(bend: Bend, trace: &[u8], straight: &[u8]) -> bool {
    with_bend(bend, || answers_of(trace)) != straight
}

/// Is the bend one that a reachable store can show by calls of these ops?
pub fn shown(bend: Bend, ops: Ops) -> bool {
    bend.reach() == Reach::Shown && bend.op().is_none_or(|op| ops.has(op))
}

/// The ops of a trace's calls; none if it is not in form, since then any bend of the form may show.
pub fn ops_of(trace: &[u8]) -> Option<Vec<u8>> {
    read_trace(trace).map(|calls| calls.iter().map(|call| call.op()).collect())
}

/// May a trace with calls of these ops show the bend?
pub fn may_show(bend: Bend, ops: Option<&[u8]>) -> bool {
    bend.op().is_none_or(|op| ops.is_none_or(|ops| ops.contains(&op)))
}

/// The bend of this name.
pub fn named(name: &str) -> Option<Bend> {
    Bend::ALL.iter().copied().find(|bend| format!("{bend:?}") == name)
}

/// Prints the table of the bends that these ops can show; false if one that a reachable store can show goes unnoticed, or
/// one that none can is noticed.
pub fn run(traces: u64, seed: u64, ops: Ops) -> bool {
    let all: Vec<Bend> = Bend::ALL.iter().copied().filter(|bend| bend.op().is_none_or(|op| ops.has(op))).collect();
    let mut counts = vec![0_u64; all.len()];
    let mut drawn: Vec<Bytes> = (0..traces).map(|number| generate::nth_trace(seed, number, ops)).collect();
    drawn.sort_by_key(Vec::len);
    for trace in &drawn {
        let straight = answers_of(trace);
        let calls = ops_of(trace);
        for (bend, count) in all.iter().zip(&mut counts) {
            let wanted = trace.len() <= LONG || *count < ENOUGH;
            *count += u64::from(wanted && may_show(*bend, calls.as_deref()) && notices(*bend, trace, &straight));
        }
    }
    println!("{traces} traces from seed {seed}; each line: how many notice, the bend, what it does");
    println!("(traces above {LONG} bytes are not run for bends that {ENOUGH} others notice)");
    let mut unnoticed = 0;
    let mut never = 0;
    let mut fewest = u64::MAX;
    for (bend, count) in all.iter().zip(&counts) {
        let mark = match (bend.reach(), count) {
            (Reach::Shown, 0) => {
                unnoticed += 1;
                "  UNNOTICED".to_string()
            }
            (Reach::Shown, count) => {
                fewest = fewest.min(*count);
                String::new()
            }
            (Reach::Never(reason), 0) => {
                never += 1;
                format!("  (no reachable store can show it: {reason})")
            }
            (Reach::Never(_), _) => {
                unnoticed += 1;
                "  NOTICED THOUGH MARKED AS UNREACHABLE".to_string()
            }
        };
        println!("{count:>7}  {:<32} {}{mark}", format!("{bend:?}"), bend.text());
    }
    let shown = all.len() - never - unnoticed;
    let all = all.len();
    println!("{all} bends: {shown} noticed, the least by {fewest} traces; {never} that no reachable store can show");
    println!("{unnoticed} bends at fault");
    unnoticed == 0
}

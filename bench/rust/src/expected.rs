//! What the paper answers: the answers that both sides are held to before anything is timed.

use judge::rust_side::{Outcome, Side, run_rust};
use paper::answer::Answer;
use paper::run::run_call;
use paper::store::{Bytes, Store};
use paper::trace::Call;
use ragnor::shown::InMemoryMvcc;

use crate::cases::{Case, made_for};

/// The paper's answers to what is made for each call, each from the same box, and the sum of what the last ones are worth.
pub struct Expected {
    answers: Vec<Vec<Answer>>,
    worth: u64,
}

/// The input of the gate's own run, two turns of one read, and what the program writes.
pub fn sample(mut case: Case) -> (Bytes, Bytes) {
    case.calls.truncate(1);
    let expected = expected(&case);
    let sum = 2 * expected.worth;
    (case.program_input(2, true), sum.to_be_bytes().to_vec())
}

pub fn expected(case: &Case) -> Expected {
    let mut restored = Store::default();
    restored.restore(&case.image).unwrap_or_else(|refusal| panic!("the image is refused with {}", refusal.number));
    let mut worth = 0;
    let mut answers = Vec::new();
    for call in &case.calls {
        let mut store = restored.clone();
        let given: Vec<Answer> = made_for(case.way, call).iter().map(|call| run_call(&mut store, call)).collect();
        worth += worth_of(call, &given[given.len() - 1], &store);
        answers.push(given);
    }
    Expected { answers, worth }
}

/// The number that crates/bench makes of an answer (its worths.rt).
fn worth_of(call: &Call, answer: &Answer, store: &Store) -> u64 {
    let number = 1_000 * u64::from(answer.number);
    match call {
        Call::Read { .. } if answer.payload.len() == 1 => 1,
        Call::Read { .. } => answer.payload.len() as u64 + 1,
        Call::Page { .. } | Call::WriteImage { .. } => number + answer.count,
        Call::Statistics => {
            let figures: Vec<u64> =
                answer.payload.chunks_exact(8).map(|n| u64::from_be_bytes(n.try_into().expect("8 bytes"))).collect();
            [0, 1, 3, 4, 9, 14].iter().map(|&place| figures[place]).sum()
        }
        _ => {
            let used = store.room_used();
            number + answer.count + (used.lines + used.locks + used.defaults + used.live_bytes) as u64
        }
    }
}

/// Does mvcc.rs, as it stands, answer as the paper does?
pub fn rust_agrees(case: &Case, expected: &Expected) -> Result<(), String> {
    for (call, answers) in case.calls.iter().zip(&expected.answers) {
        let mut side = Side::<InMemoryMvcc>::default();
        run_rust(&mut side, &Call::Restore { image: case.image.clone() });
        for (call, answer) in made_for(case.way, call).iter().zip(answers) {
            match run_rust(&mut side, call) {
                Outcome::Accepted { count, payload } if answer.number == 0 && same(call, answer, count, &payload) => {}
                other => return Err(format!("mvcc.rs: {} where the paper answers {}", other.name(), answer.number)),
            }
        }
    }
    Ok(())
}

/// Were all calls of so many turns of mvcc.rs accepted, one after the other on a copy?
pub fn turns_agree(expected: &Expected, turns: u64, output: &[u8]) -> Result<(), String> {
    let calls: usize = expected.answers.iter().map(Vec::len).sum();
    let all = output == (turns * calls as u64).to_be_bytes();
    if all { Ok(()) } else { Err("mvcc.rs refuses a call in its turns".to_string()) }
}

/// The payload of a page or an image is the whole lent buffer; mvcc.rs gives the page or the entries alone.
fn same(call: &Call, answer: &Answer, count: u64, payload: &Bytes) -> bool {
    let lent = matches!(call, Call::Page { .. } | Call::WriteImage { .. });
    let shown = if lent { &answer.payload[..payload.len()] } else { &answer.payload[..] };
    count == answer.count && payload == shown
}

/// Is the program's output the sum that so many turns of the paper's answers are worth?
pub fn program_agrees(expected: &Expected, turns: u64, output: &[u8]) -> Result<(), String> {
    let wanted = expected.worth.wrapping_mul(turns);
    let same = output == wanted.to_be_bytes();
    if same { Ok(()) } else { Err(format!("the program's turns are not worth {wanted}")) }
}

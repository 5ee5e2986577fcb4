//! The sample that stands in the repository, crates/drive/stdin and stdout: it holds the paper's answers, and it notices
//! every bend that a reachable store can show by calls that the driver has.

use std::path::PathBuf;

use generate::{Ops, repacks};
use judge::bends::{answers_of, notices, shown};
use judge::two::traces_of;
use paper::area;
use paper::bend::Bend;
use paper::run::many_answers;

fn file(name: &str) -> Vec<u8> {
    let path = PathBuf::from(env!("CARGO_MANIFEST_DIR")).join("../../crates/drive").join(name);
    std::fs::read(&path).unwrap_or_else(|error| panic!("{} does not read: {error}", path.display()))
}

#[test]
fn its_answers_are_the_papers() {
    assert_eq!(file("args"), b"many\n");
    assert!(many_answers(&file("stdin")) == Some(file("stdout")), "run `judge sample crates/drive` anew");
}

/// Each call that brings bytes packs the area anew, more than once. That a repack which loses a row is noticed in each of
/// them is among the bends.
#[test]
fn its_calls_pack_the_area_anew() {
    let input = file("stdin");
    let packed: Vec<u8> =
        traces_of(&input).expect("the sample's lengths read").into_iter().flat_map(area::repacks).collect();
    for op in repacks::OPS {
        let times = packed.iter().filter(|packed| **packed == op).count();
        assert!(times >= 2, "op {op} packs the area anew {times} times");
    }
}

#[test]
fn every_bend_is_noticed() {
    let input = file("stdin");
    let mut traces = traces_of(&input).expect("the sample's lengths read");
    traces.sort_by_key(|trace| trace.len());
    let straight: Vec<_> = traces.iter().map(|trace| answers_of(trace)).collect();
    let noticed = |bend| traces.iter().zip(&straight).any(|(trace, straight)| notices(bend, trace, straight));
    for bend in Bend::ALL {
        assert_eq!(noticed(*bend), shown(*bend, Ops::of_driver()), "{bend:?}: {}", bend.text());
    }
}

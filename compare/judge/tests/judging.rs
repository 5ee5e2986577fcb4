//! The judge judges: no difference outside the classes, a planted fault is found and shrunk, and bends are noticed.

use std::time::{Duration, Instant};

use generate::Ops;
use judge::bends::{answers_of, named, notices};
use judge::classes::Class;
use judge::one::differences;
use judge::shrink::smallest;
use judge::two::{Driver, many_form};
use paper::bend::{Bend, Reach};
use paper::run::many_answers;
use paper::trace::read_trace;

#[test]
fn differences_from_the_rust_have_names() {
    let mut seen = Vec::new();
    for seed in 0..400 {
        for difference in read_trace(&generate::trace(seed, Ops::all())).map_or(Vec::new(), |calls| differences(&calls))
        {
            let class = difference.class;
            assert!(class.is_some(), "seed {seed}: paper {:?}, Rust {:?}", difference.paper, difference.said);
            seen.extend(class);
        }
    }
    for class in Class::ALL {
        assert!(seen.contains(class), "{} was not met", class.word());
    }
}

#[test]
fn a_bend_is_noticed_and_its_trace_shrinks() {
    let bend = named("PageStopsBeforeReading").expect("a bend of this name");
    let shows = &mut |trace: &[u8]| notices(bend, trace, &answers_of(trace));
    let trace = (0..).map(|seed| generate::trace(seed, Ops::all())).find(|trace| shows(trace)).expect("one notices");
    let small = smallest(&trace, 5000, shows);
    assert!(shows(&small) && small.len() <= trace.len());
    let calls = read_trace(&small).expect("the smallest is in form");
    assert!(calls.len() <= 4, "{calls:?}");
}

#[test]
fn unreachable_bends_say_why() {
    for bend in Bend::ALL {
        if let Reach::Never(reason) = bend.reach() {
            assert!(reason.len() > 20, "{bend:?}");
        }
    }
    let shown = Bend::ALL.iter().filter(|bend| bend.reach() == Reach::Shown).count();
    assert!(shown >= 60, "{shown} bends");
}

#[test]
fn many_traces_in_one_start_answer_as_each_alone() {
    let traces: Vec<Vec<u8>> = (0..60).map(|seed| generate::trace(seed, Ops::all())).collect();
    let alone: Vec<u8> = traces.iter().flat_map(|trace| answers_of(trace)).collect();
    assert_eq!(many_answers(&many_form(&traces)), Some(alone));
}

fn shell(command: &str, patience: Duration) -> Driver {
    Driver { words: ["sh", "-c", command].map(String::from).to_vec(), patience }
}

#[test]
fn a_driver_is_judged_by_its_bytes() {
    let silent = shell("cat > /dev/null", Duration::from_secs(10));
    assert!(!silent.differs(&[0, 0]), "a trace of no calls has no answer");
    assert!(silent.differs(&[]), "an empty input has one");
    let failing = shell("exit 3", Duration::from_secs(10));
    assert!(failing.differs(&[0, 0]), "a driver that ends with a fault differs");
}

#[test]
fn a_driver_that_hangs_is_stopped() {
    let begin = Instant::now();
    for (command, written) in [("sleep 30", 0), ("printf xy; sleep 30", 2), ("exec >&-; sleep 30", 0)] {
        let fault = shell(command, Duration::from_millis(300)).run(&[0, 0], false).expect_err("it hangs");
        assert!(fault.hangs && fault.text.contains("hangs"), "{command}: {}", fault.text);
        assert_eq!(fault.output.len(), written, "{command}");
    }
    assert!(begin.elapsed() < Duration::from_secs(15));
    let slow = shell("for i in 1 2 3 4 5; do printf x; sleep 0.1; done", Duration::from_millis(400));
    assert_eq!(slow.run(&[], false).ok(), Some(b"xxxxx".to_vec()), "a slow one that writes on is let be");
}

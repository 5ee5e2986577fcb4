//! Makes the two modules that carry the Rust, without touching src/mvcc.rs:
//!
//! - `shown`: mvcc.rs byte for byte, then parts/accessor.rs, which reaches the private maps;
//! - `from_paper`: the same with the one function validate_mutation replaced by parts/validate_mutation.rs.
//!
//! Both are written to cargo's output folder. If mvcc.rs no longer holds the function where it is looked for, the
//! build fails.

use std::path::Path;
use std::{env, fs};

/// The function begins at the first line and ends before the second; each stands in mvcc.rs once.
const FUNCTION: &str = "    fn validate_mutation(\n";
const NEXT_FUNCTION: &str = "    fn validate_lock(\n";

fn main() {
    for path in ["src/mvcc.rs", "parts/accessor.rs", "parts/validate_mutation.rs", "build.rs"] {
        println!("cargo::rerun-if-changed={path}");
    }
    let out = env::var("OUT_DIR").expect("cargo names an output folder");
    let read = |path: &str| fs::read_to_string(path).unwrap_or_else(|error| panic!("{path} does not read: {error}"));
    let published = read("src/mvcc.rs");
    let accessor = read("parts/accessor.rs");
    let replaced = with_function(&published, &read("parts/validate_mutation.rs"));

    let mut modules = String::new();
    for (name, text) in [("shown", &published), ("from_paper", &replaced)] {
        let path = Path::new(&out).join(format!("{name}.rs"));
        fs::write(&path, format!("{text}\n{accessor}")).expect("the module is written");
        modules += &format!("#[allow(dead_code, clippy::all)]\n#[path = {path:?}]\npub mod {name};\n");
    }
    fs::write(Path::new(&out).join("modules.rs"), modules).expect("the list of modules is written");
}

fn with_function(published: &str, function: &str) -> String {
    let place = |anchor: &str| {
        let places: Vec<usize> = published.match_indices(anchor).map(|(at, _)| at).collect();
        match places[..] {
            [at] => at,
            _ => panic!("mvcc.rs holds {anchor:?} {} times, not once", places.len()),
        }
    };
    let (begin, end) = (place(FUNCTION), place(NEXT_FUNCTION));
    assert!(begin < end, "validate_lock stands before validate_mutation");
    format!("{}{function}\n{}", &published[..begin], &published[end..])
}

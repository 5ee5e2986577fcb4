//! mvcc.rs is the published file, and the second module differs from it in one function only.

const PUBLISHED: &[u8] = include_bytes!("../src/mvcc.rs");

/// FNV-1a over the bytes.
fn hash(bytes: &[u8]) -> u64 {
    bytes.iter().fold(0xCBF2_9CE4_8422_2325, |hash, byte| (hash ^ u64::from(*byte)).wrapping_mul(0x0000_0100_0000_01B3))
}

#[test]
fn mvcc_is_the_published_file() {
    assert_eq!(PUBLISHED.len(), 70_305);
    assert_eq!(hash(PUBLISHED), 0x3587_01E9_1D97_8BA2);
}

#[test]
fn one_function_is_replaced() {
    let published = std::str::from_utf8(PUBLISHED).unwrap();
    let shown = include_str!(concat!(env!("OUT_DIR"), "/shown.rs"));
    let from_paper = include_str!(concat!(env!("OUT_DIR"), "/from_paper.rs"));
    assert!(shown.starts_with(published), "the first module is the published file and more");
    let function = published.find("    fn validate_mutation(").unwrap();
    let next = published.find("    fn validate_lock(").unwrap();
    assert_eq!(&from_paper[..function], &published[..function]);
    assert!(from_paper.contains(&published[next..]), "all from validate_lock on is as published");
    assert!(!from_paper.contains("already has a different default value"));
}

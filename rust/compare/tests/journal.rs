//! Verdicts on journals, conforming, unfinished, truncated and damaged, against the library's.

use std::env;

/// Journals judged.
const JOURNALS: u64 = 20_000;

#[test]
fn verdicts_agree() {
    let journals = env::var("COMPARE_JOURNALS").map_or(JOURNALS, |n| {
        n.parse().expect("COMPARE_JOURNALS is a number")
    });
    let reached = match compare::journal::run_many(journals, 1) {
        Ok(reached) => reached,
        Err(text) => panic!("{text}"),
    };
    println!("{reached:#?}");
    let missing = reached.missing();
    assert!(missing.is_empty(), "never occurred: {missing:?}");
}

//! Reason, object count and whole store of single readings, against the library's.

use std::env;

/// Readings made.
const READINGS: u64 = 400_000;

#[test]
fn readings_agree() {
    let readings = env::var("COMPARE_READINGS").map_or(READINGS, |n| {
        n.parse().expect("COMPARE_READINGS is a number")
    });
    let reached = match compare::reading::run_many(readings, 1) {
        Ok(reached) => reached,
        Err(text) => panic!("{text}"),
    };
    println!("{reached:#?}");
    let missing = reached.missing();
    assert!(missing.is_empty(), "never occurred: {missing:?}");
}

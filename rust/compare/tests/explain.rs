//! Explanations of drawn and damaged records, against the library's.

use std::env;

/// Records explained; fewer without optimization.
const RECORDS: u64 = if cfg!(debug_assertions) {
    40_000
} else {
    400_000
};

#[test]
fn explanations_agree() {
    let records = env::var("COMPARE_RECORDS")
        .map_or(RECORDS, |n| n.parse().expect("COMPARE_RECORDS is a number"));
    let reached = match compare::explain::run_many(records, 1) {
        Ok(reached) => reached,
        Err(text) => panic!("{text}"),
    };
    print!("{}", reached.report());
    let missing = reached.missing();
    assert!(missing.is_empty(), "never occurred: {missing:?}");
}

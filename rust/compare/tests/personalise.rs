//! Answer and both buffers of the card's side, against the library's.

use std::env;

/// Layouts made; fewer without optimization.
const LAYOUTS: u64 = if cfg!(debug_assertions) {
    10_000
} else {
    100_000
};

#[test]
fn layouts_agree() {
    let layouts = env::var("COMPARE_LAYOUTS")
        .map_or(LAYOUTS, |n| n.parse().expect("COMPARE_LAYOUTS is a number"));
    let reached = match compare::personalise::run_many(layouts, 1) {
        Ok(reached) => reached,
        Err(text) => panic!("{text}"),
    };
    print!("{}", reached.report());
    let missing = reached.missing();
    assert!(missing.is_empty(), "never occurred: {missing:?}");
}

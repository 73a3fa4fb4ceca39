//! Searches for a tag in a card's bytes, against the library's.

use std::env;

/// Searches made.
const SEARCHES: u64 = 200_000;

#[test]
fn searches_agree() {
    let searches = env::var("COMPARE_SEARCHES").map_or(SEARCHES, |n| {
        n.parse().expect("COMPARE_SEARCHES is a number")
    });
    let reached = match compare::find::run_many(searches, 1) {
        Ok(reached) => reached,
        Err(text) => panic!("{text}"),
    };
    println!("{reached:#?}");
    let missing = reached.missing();
    assert!(missing.is_empty(), "never occurred: {missing:?}");
}

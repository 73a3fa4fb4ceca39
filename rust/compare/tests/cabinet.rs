//! Lists of calls of a vending cabinet, and lookups of start objects, against the library's. COMPARE_SEED=n makes the
//! list of that seed alone and prints it.

use compare::cabinet::{self, Reached};
use std::env;

/// Lists of calls made; fewer without optimization.
const LISTS: u64 = if cfg!(debug_assertions) {
    3_000
} else {
    30_000
};

/// Lookups made; fewer without optimization.
const LOOKUPS: u64 = if cfg!(debug_assertions) {
    20_000
} else {
    200_000
};

#[test]
fn calls_agree() {
    if let Ok(seed) = env::var("COMPARE_SEED") {
        let seed = seed.parse().expect("COMPARE_SEED is a number");
        if let Err(text) = cabinet::run_seed(seed, &mut Reached::default(), true) {
            panic!("{text}");
        }
        return;
    }
    let lists =
        env::var("COMPARE_LISTS").map_or(LISTS, |n| n.parse().expect("COMPARE_LISTS is a number"));
    let reached = match cabinet::run_many(lists, 1) {
        Ok(reached) => reached,
        Err(text) => panic!("{text}"),
    };
    print!("{}", reached.report());
    let missing = reached.missing();
    assert!(missing.is_empty(), "never occurred: {missing:?}");
}

#[test]
fn lookups_agree() {
    let lookups = env::var("COMPARE_LOOKUPS")
        .map_or(LOOKUPS, |n| n.parse().expect("COMPARE_LOOKUPS is a number"));
    let reached = match compare::lookup::run_many(lookups, 1) {
        Ok(reached) => reached,
        Err(text) => panic!("{text}"),
    };
    println!("{reached:#?}");
    let missing = reached.missing();
    assert!(missing.is_empty(), "never occurred: {missing:?}");
}

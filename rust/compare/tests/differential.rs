//! The differential test. COMPARE_SEED=n runs the session of that seed alone and prints it;
//! COMPARE_SESSIONS=n sets how many sessions are run.

use compare::run::{self, Coverage};
use compare::side::{Model, OTHER};
use compare::step::Step;
use std::env;

/// Sessions of an ordinary run; fewer without optimization.
const SESSIONS: u64 = if cfg!(debug_assertions) {
    20_000
} else {
    200_000
};

#[test]
fn library_equals_model() {
    if let Ok(seed) = env::var("COMPARE_SEED") {
        let seed = seed.parse().expect("COMPARE_SEED is a number");
        if let Err(difference) = run::run_seed(&Model, &OTHER, seed, &mut Coverage::default(), true)
        {
            panic!("{}", difference.what);
        }
        return;
    }
    let sessions = env::var("COMPARE_SESSIONS").map_or(SESSIONS, |n| {
        n.parse().expect("COMPARE_SESSIONS is a number")
    });
    let coverage = match run::run_many(&Model, &OTHER, sessions, 1) {
        Ok(coverage) => coverage,
        Err(text) => panic!("{text}"),
    };
    println!("{}", coverage.report());
    let missing = coverage.missing();
    assert!(missing.is_empty(), "never occurred: {missing:?}");
    let reached_last = coverage.reached_cryptogram + coverage.checksums;
    assert!(reached_last * 3 > coverage.sessions);
    assert!(coverage.checksums * 30 > coverage.sessions);
}

#[test]
fn steps_have_a_text_form() {
    let mut play = compare::play::Play::new(7);
    let mut session = vec![0; model::SESSION_SIZE];
    let mut steps = 0;
    while let Some(step) = play.next(&session) {
        assert_eq!(Step::parse(&step.to_string()), Some(step.clone()));
        match &step {
            Step::Set(bytes) => session.clone_from(bytes),
            Step::Open => assert_eq!(model::open(&mut session), 0),
            Step::Start { terminal, buffer } => {
                model::start(&mut session, terminal, &mut buffer.clone());
            }
            Step::Answer { card, buffer } => {
                model::answer(&mut session, card, &mut buffer.clone());
            }
            Step::LinkFailed { buffer } => {
                model::link_failed(&mut session, &mut buffer.clone());
            }
            Step::Stop { buffer } => {
                model::stop(&mut session, &mut buffer.clone());
            }
        }
        steps += 1;
    }
    assert!(steps > 2);
}

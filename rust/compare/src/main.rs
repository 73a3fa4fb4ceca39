//! A longer comparison, or a replay.
//!
//!     compare [SESSIONS] [SEED]    that many sessions, from this seed on
//!     compare --seed SEED          one session, each step and reply printed
//!     compare --steps FILE         the steps of a file, as a failing run prints them

use compare::run::{self, Coverage};
use compare::side::{Model, OTHER};
use compare::step::Step;
use std::error::Error;
use std::process::ExitCode;
use std::time::Instant;
use std::{env, fs};

fn main() -> Result<ExitCode, Box<dyn Error>> {
    let words: Vec<String> = env::args().skip(1).collect();
    let words: Vec<&str> = words.iter().map(String::as_str).collect();
    match words.as_slice() {
        ["--seed", seed] => {
            let mut coverage = Coverage::default();
            replay(run::run_seed(
                &Model,
                &OTHER,
                seed.parse()?,
                &mut coverage,
                true,
            ))
        }
        ["--steps", file] => {
            let steps = fs::read_to_string(file)?
                .lines()
                .filter_map(Step::parse)
                .collect::<Vec<_>>();
            let mut coverage = Coverage::default();
            replay(run::run_steps(&Model, &OTHER, &steps, &mut coverage))
        }
        numbers if numbers.len() <= 2 => {
            let sessions = numbers.first().map_or(Ok(1_000_000), |n| n.parse())?;
            let seed = numbers.get(1).map_or(Ok(1), |n| n.parse())?;
            many(sessions, seed)
        }
        _ => Err("compare [SESSIONS] [SEED] | --seed SEED | --steps FILE".into()),
    }
}

fn replay(result: Result<(), run::Difference>) -> Result<ExitCode, Box<dyn Error>> {
    match result {
        Ok(()) => {
            println!("no difference");
            Ok(ExitCode::SUCCESS)
        }
        Err(difference) => {
            println!("differs: {}", difference.what);
            Ok(ExitCode::FAILURE)
        }
    }
}

fn many(sessions: u64, seed: u64) -> Result<ExitCode, Box<dyn Error>> {
    let begun = Instant::now();
    match run::run_many(&Model, &OTHER, sessions, seed) {
        Ok(coverage) => {
            print!("{}", coverage.report());
            println!("no difference in {:.1} s", begun.elapsed().as_secs_f64());
            Ok(ExitCode::SUCCESS)
        }
        Err(text) => {
            println!("{text}");
            Ok(ExitCode::FAILURE)
        }
    }
}

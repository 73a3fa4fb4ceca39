//! Times both readers of the static library, the plain reader and the model's, interleaved in one run, and reports the
//! deepest stack.
//!
//!     measure_readers [SAMPLES]    samples for each case and reader, 4,000 if not given
//!
//! Prints a Markdown table of nanoseconds for one reading of a record, and one of bytes of stack.

use measure::{summary, Record, BATCH};
use std::env;
use std::error::Error;
use std::hint::black_box;
use std::time::Instant;
use test_reading::stack;

const STORE_SIZE: usize = model::STORE_SIZE;

type Store = [u8; STORE_SIZE];

/// One reading. The readers are called through pointers, so that none is inlined.
type Read = fn(&mut [u8], u32, u8, &[u8]) -> u32;

/// Number and file of a record that is read.
const RECORD: u32 = 1;
const FILE: u8 = 1;

const READERS: [(&str, Read); 4] = [
    ("first", test_reading::read),
    ("no recursion", test_reading::read_flat),
    ("plain", plain_reader::read),
    ("model", by_model),
];

/// Their places.
const FIRST: usize = 0;
const FLAT: usize = 1;
const PLAIN: usize = 2;
const MODEL: usize = 3;

fn by_model(store: &mut [u8], _: u32, file: u8, card: &[u8]) -> u32 {
    let Ok(store) = store.try_into() else {
        return test_reading::NOT_READ;
    };
    let (reason, count) = model::read_answer(store, model::reading::AnswerTo::Record, file, card);
    u32::from(reason) << 16 | count
}

fn cases() -> [Record; 7] {
    [
        measure::short_record(),
        measure::long_record(),
        measure::unknown_tags(),
        measure::broken_record(),
        measure::four_levels(),
        measure::many_templates(),
        measure::padded_record(),
    ]
}

/// All readers must give the same before they are timed.
fn test(before: &Store, case: &Record) {
    let results = READERS.map(|(_, read)| {
        let mut store = *before;
        let word = read(&mut store, RECORD, FILE, &case.answer);
        (word, store)
    });
    for ((name, _), result) in READERS.iter().zip(&results) {
        assert!(*result == results[PLAIN], "{name}: {}", case.name);
    }
}

/// One sample in nanoseconds for one reading; the stores are put back before the clock is read.
fn sample(read: Read, before: &Store, answer: &[u8], stores: &mut [Store; BATCH]) -> f64 {
    stores.fill(*before);
    let (read, answer) = (black_box(read), black_box(answer));
    let begun = Instant::now();
    let sum = stores.iter_mut().fold(0u32, |sum, store| {
        sum.wrapping_add(read(store, RECORD, FILE, answer))
    });
    let time = begun.elapsed();
    black_box(sum);
    time.as_nanos() as f64 / BATCH as f64
}

fn main() -> Result<(), Box<dyn Error>> {
    let samples: usize = env::args().nth(1).map_or(Ok(4000), |n| n.parse())?;
    let [_, waiting] = measure::sessions();
    let before: Store = waiting[model::HEAD_SIZE..].try_into()?;
    let cases = cases();
    cases.iter().for_each(|case| test(&before, case));
    let mut stores = [before; BATCH];
    let mut times = vec![vec![Vec::with_capacity(samples); READERS.len()]; cases.len()];
    // All cases and readers take turns; the reader that begins changes from round to round.
    for round in 0..samples + samples / 10 {
        for (case, times) in cases.iter().zip(&mut times) {
            for turn in 0..READERS.len() {
                let which = (round + turn) % READERS.len();
                let time = sample(READERS[which].1, &before, &case.answer, &mut stores);
                if round >= samples / 10 {
                    times[which].push(time);
                }
            }
        }
    }
    print_times(&cases, times);
    println!(
        "{samples} samples of {BATCH} readings for each case and reader, interleaved. The stores were put back from a kept copy \
         before each sample, outside the timed part.\n"
    );
    print_stack(&before, &cases);
    Ok(())
}

fn print_times(cases: &[Record], times: Vec<Vec<Vec<f64>>>) {
    println!("| nanoseconds, medians | first | no recursion | plain | model | first to plain | no recursion to plain | to first | to model |");
    println!("|---|---|---|---|---|---|---|---|---|");
    for (case, times) in cases.iter().zip(times) {
        let medians: Vec<f64> = times.into_iter().map(|times| summary(times).0).collect();
        print!("| {} ", case.name);
        medians.iter().for_each(|time| print!("| {time:.0} "));
        for (one, other) in [(FIRST, PLAIN), (FLAT, PLAIN), (FLAT, FIRST), (FLAT, MODEL)] {
            print!("| {:.2} ", medians[one] / medians[other]);
        }
        println!("|");
    }
    println!();
}

fn print_stack(before: &Store, cases: &[Record]) {
    println!("| bytes of stack | first | no recursion | plain |");
    println!("|---|---|---|---|");
    let mut deepest = [0; PLAIN + 1];
    for case in cases {
        let depths = [FIRST, FLAT, PLAIN].map(|which| {
            let mut store = *before;
            let read = black_box(READERS[which].1);
            stack::depth(|| {
                black_box(read(&mut store, RECORD, FILE, &case.answer));
            })
        });
        println!(
            "| {} | {} | {} | {} |",
            case.name, depths[FIRST], depths[FLAT], depths[PLAIN]
        );
        for (deepest, depth) in deepest.iter_mut().zip(depths) {
            *deepest = depth.max(*deepest);
        }
    }
    println!(
        "| deepest | {} | {} | {} |",
        deepest[FIRST], deepest[FLAT], deepest[PLAIN]
    );
}

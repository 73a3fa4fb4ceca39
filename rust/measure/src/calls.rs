//! Times the calls of the static library and of the model, interleaved in one run.
//!
//!     measure [SAMPLES]    samples for each case and side, 4,000 if not given
//!
//! Prints a Markdown table of nanoseconds for one call (or one whole purchase).

use measure::{purchase, summary, terminal, BATCH};
use std::env;
use std::error::Error;
use std::hint::black_box;
use std::process::Command;
use std::time::Instant;

const SESSION_SIZE: usize = model::SESSION_SIZE;

type Session = [u8; SESSION_SIZE];
type Buffer = [u8; model::COMMAND_SIZE];

/// The calls of one side. They are called through pointers, so that neither side is inlined.
struct Side {
    open: fn(&mut [u8]) -> u32,
    start: fn(&mut [u8], &[u8], &mut [u8]) -> u32,
    answer: fn(&mut [u8], &[u8], &mut [u8]) -> u32,
}

const LIBRARY: Side = Side {
    open: tripodmoon::calls::open,
    start: tripodmoon::calls::start,
    answer: tripodmoon::calls::answer,
};

const MODEL: Side = Side {
    open: model::open,
    start: model::start,
    answer: model::answer,
};

/// What is timed.
enum Work {
    /// One answer on a session waiting on the first of three records.
    Answer(Vec<u8>),
    /// Start on a fresh session.
    Start,
    /// Open, start and all answers of a purchase of three records.
    Purchase,
}

struct Case {
    name: String,
    work: Work,
}

fn cases() -> Vec<Case> {
    let records = [
        measure::short_record(),
        measure::long_record(),
        measure::padded_record(),
        measure::unknown_tags(),
        measure::broken_record(),
    ];
    let mut cases: Vec<Case> = records
        .into_iter()
        .map(|record| Case {
            name: format!("answer: {}", record.name),
            work: Work::Answer(record.answer),
        })
        .collect();
    let objects = model::tlv::count_objects(&terminal(), 0).expect("a run of objects");
    cases.push(Case {
        name: format!("start, {objects} objects"),
        work: Work::Start,
    });
    cases.push(Case {
        name: "whole purchase of 3 records: open and 6 calls".into(),
        work: Work::Purchase,
    });
    cases
}

/// The bytes of the sessions before the timed calls.
struct Kept {
    fresh: Session,
    waiting: Session,
    terminal: Vec<u8>,
    purchase: Vec<Vec<u8>>,
}

impl Kept {
    fn new() -> Kept {
        let [fresh, waiting] = measure::sessions();
        Kept {
            fresh,
            waiting,
            terminal: terminal(),
            purchase: purchase(),
        }
    }

    /// One sample in nanoseconds for one call; the sessions are put back before the clock is read.
    fn sample(
        &self,
        side: &Side,
        work: &Work,
        sessions: &mut [Session; BATCH],
        buffer: &mut Buffer,
    ) -> f64 {
        let side = black_box(side);
        let sum;
        let begun;
        match work {
            Work::Answer(answer) => {
                sessions.fill(self.waiting);
                let answer = black_box(answer.as_slice());
                begun = Instant::now();
                sum = each(sessions, |session| (side.answer)(session, answer, buffer));
            }
            Work::Start => {
                sessions.fill(self.fresh);
                let terminal = black_box(self.terminal.as_slice());
                begun = Instant::now();
                sum = each(sessions, |session| (side.start)(session, terminal, buffer));
            }
            Work::Purchase => {
                sessions.fill(self.fresh);
                let terminal = black_box(self.terminal.as_slice());
                let purchase = black_box(self.purchase.as_slice());
                begun = Instant::now();
                sum = each(sessions, |session| {
                    let mut word = (side.open)(session);
                    word ^= (side.start)(session, terminal, buffer);
                    for answer in purchase {
                        word ^= (side.answer)(session, answer, buffer);
                    }
                    word
                });
            }
        }
        let time = begun.elapsed();
        black_box(sum);
        time.as_nanos() as f64 / BATCH as f64
    }

    /// Both sides must give the same before they are timed.
    fn test(&self, work: &Work) {
        let ([mut session, mut other], [mut buffer, mut buffer_other]) = match work {
            Work::Answer(_) => ([self.waiting; 2], [[7; model::COMMAND_SIZE]; 2]),
            _ => ([self.fresh; 2], [[7; model::COMMAND_SIZE]; 2]),
        };
        let run = |side: &Side, session: &mut Session, buffer: &mut Buffer| -> Vec<u32> {
            match work {
                Work::Answer(answer) => vec![(side.answer)(session, answer, buffer)],
                Work::Start => vec![(side.start)(session, &self.terminal, buffer)],
                Work::Purchase => {
                    let mut words = vec![(side.open)(session)];
                    words.push((side.start)(session, &self.terminal, buffer));
                    words.extend(
                        self.purchase
                            .iter()
                            .map(|answer| (side.answer)(session, answer, buffer)),
                    );
                    assert_eq!(words.last(), Some(&0x10000), "the purchase is approved");
                    words
                }
            }
        };
        assert_eq!(
            run(&LIBRARY, &mut session, &mut buffer),
            run(&MODEL, &mut other, &mut buffer_other)
        );
        assert_eq!(session, other);
        assert_eq!(buffer, buffer_other);
    }
}

/// Calls for each session; the sum of the words keeps the calls from being left out.
fn each(sessions: &mut [Session; BATCH], mut call: impl FnMut(&mut Session) -> u32) -> u32 {
    sessions
        .iter_mut()
        .fold(0, |sum, session| sum.wrapping_add(call(session)))
}

/// The sizes of libhost.a by the program `size`, if it is present.
fn library_size() -> Option<String> {
    let output = Command::new("size")
        .arg("-t")
        .arg(option_env!("LIBHOST")?)
        .output()
        .ok()?;
    let text = String::from_utf8(output.stdout).ok()?;
    let total = text.lines().find(|line| line.contains("TOTALS"))?;
    let numbers: Vec<&str> = total.split_whitespace().take(3).collect();
    match numbers.as_slice() {
        [text, data, bss] => Some(format!("text {text}, data {data}, bss {bss} bytes")),
        _ => None,
    }
}

fn main() -> Result<(), Box<dyn Error>> {
    let samples: usize = env::args().nth(1).map_or(Ok(4000), |n| n.parse())?;
    let kept = Kept::new();
    let cases = cases();
    let mut sessions = [[0; SESSION_SIZE]; BATCH];
    let mut buffer = [0; model::COMMAND_SIZE];
    let mut times = vec![[Vec::with_capacity(samples), Vec::with_capacity(samples)]; cases.len()];
    for case in &cases {
        kept.test(&case.work);
    }
    // All cases and both sides take turns; the side that begins changes from round to round.
    for round in 0..samples + samples / 10 {
        let warm = round >= samples / 10;
        for (case, times) in cases.iter().zip(&mut times) {
            for turn in 0..2 {
                let which = (round + turn) % 2;
                let side = if which == 0 { &LIBRARY } else { &MODEL };
                let time = kept.sample(side, &case.work, &mut sessions, &mut buffer);
                if warm {
                    times[which].push(time);
                }
            }
        }
    }

    println!("| nanoseconds | library median | library 10th | model median | model 10th | ratio of medians | ratio of 10ths |");
    println!("|---|---|---|---|---|---|---|");
    for (case, [library, model]) in cases.iter().zip(times) {
        let (library, library_10th) = summary(library);
        let (model, model_10th) = summary(model);
        println!(
            "| {} | {library:.0} | {library_10th:.0} | {model:.0} | {model_10th:.0} | {:.2} | {:.2} |",
            case.name,
            library / model,
            library_10th / model_10th
        );
    }
    println!();
    println!(
        "{samples} samples of {BATCH} sessions for each case and side, interleaved. The session bytes were put back from a \
         kept copy before each sample, outside the timed part; the command buffer was not cleared."
    );
    match library_size() {
        Some(size) => println!("libhost.a: {size}."),
        None => println!("libhost.a: size not available."),
    }
    Ok(())
}

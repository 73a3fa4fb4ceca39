//! Makes every call on both sides and compares all that comes back.

use crate::cvm::Reached;
use crate::limit;
use crate::mag_stripe;
use crate::padding;
use crate::play::Play;
use crate::rows;
use crate::side::Side;
use crate::step::{Hex, Step};
use model::dictionary::{Object, ROWS};
use model::store::{self, Store};
use model::{HEAD_SIZE, SESSION_SIZE};
use std::fmt::Write as _;
use std::panic::{self, AssertUnwindSafe};
use std::sync::atomic::{AtomicBool, Ordering};
use std::thread;

/// What occurred in some sessions.
#[derive(Clone, Debug, PartialEq, Eq)]
pub struct Coverage {
    /// Sessions run.
    pub sessions: u64,
    /// Calls made on each side.
    pub calls: u64,
    /// Sessions that reached GENERATE AC.
    pub reached_cryptogram: u64,
    /// Checksum commands.
    pub checksums: u64,
    /// Outcomes 0 to 4.
    pub outcomes: [u64; 5],
    /// Reasons 0 to 11.
    pub reasons: [u64; 12],
    /// Refusals 20 to 25, for start, answer, link failed and stop.
    pub refusals: [[u64; 6]; 4],
    /// Refusals 25 of open.
    pub refused_open: u64,
    /// GENERATE AC with P1 00, 40, 80.
    pub choices: [u64; 3],
    /// Bits of 95 that were set on GENERATE AC, in the order of `RESULT_BITS`.
    pub result_bits: [u64; RESULT_BITS.len()],
    /// Types of cryptogram (top two bits) in ended sessions, for each choice requested.
    pub types: [[u64; 4]; 3],
    /// Objects held when a session ended.
    pub held: [u64; ROWS.len()],
    /// Sessions that handed out 130 commands.
    pub longest: u64,
    /// What the choices of a CVM reached.
    pub verification: Reached,
    /// Which limits decided, and which were refused.
    pub limit: limit::Reached,
    /// What cards without EMV mode reached.
    pub stripe: mag_stripe::Reached,
    /// What was reached of each row of the dictionary.
    pub rows: rows::Reached,
    /// Padded answers that were taken with reason 0, 3 or a later one, or gave a command, in the order of `AWAITED`.
    pub padded_answers: [u64; 4],
    /// Refusals 20 because of 00 between start objects; reasons 7 because of 00 in 9F38, in 8C, and in 9F69.
    pub padding_refused: [u64; 4],
    /// Explanations of sessions that calls made, by the kinds of `EXPLANATIONS`.
    pub explanations: [u64; 5],
    /// Sessions that ended with reason 0 and an action code that came with the answer to GENERATE AC:
    /// explained, and not.
    pub late_codes: [u64; 2],
}

/// The bits of 95 that can be set: byte, counted from 0, and bit.
const RESULT_BITS: [(usize, u8); 10] = [
    (0, 0x80),
    (0, 0x20),
    (1, 0x80),
    (1, 0x40),
    (1, 0x20),
    (1, 0x10),
    (2, 0x80),
    (2, 0x40),
    (2, 0x04),
    (3, 0x80),
];

impl Default for Coverage {
    fn default() -> Coverage {
        Coverage {
            sessions: 0,
            calls: 0,
            reached_cryptogram: 0,
            checksums: 0,
            outcomes: [0; 5],
            reasons: [0; 12],
            refusals: [[0; 6]; 4],
            refused_open: 0,
            choices: [0; 3],
            result_bits: [0; RESULT_BITS.len()],
            types: [[0; 4]; 3],
            held: [0; ROWS.len()],
            longest: 0,
            verification: Reached::default(),
            limit: limit::Reached::default(),
            stripe: mag_stripe::Reached::default(),
            rows: rows::Reached::default(),
            padded_answers: [0; 4],
            padding_refused: [0; 4],
            explanations: [0; 5],
            late_codes: [0; 2],
        }
    }
}

impl Coverage {
    /// Adds the counts of other sessions.
    pub fn add(&mut self, other: &Coverage) {
        fn all(to: &mut [u64], from: &[u64]) {
            to.iter_mut().zip(from).for_each(|(to, from)| *to += from);
        }
        self.sessions += other.sessions;
        self.calls += other.calls;
        self.reached_cryptogram += other.reached_cryptogram;
        self.checksums += other.checksums;
        self.refused_open += other.refused_open;
        self.longest += other.longest;
        all(&mut self.outcomes, &other.outcomes);
        all(&mut self.reasons, &other.reasons);
        all(
            self.refusals.as_flattened_mut(),
            other.refusals.as_flattened(),
        );
        all(&mut self.choices, &other.choices);
        all(&mut self.result_bits, &other.result_bits);
        all(self.types.as_flattened_mut(), other.types.as_flattened());
        all(&mut self.held, &other.held);
        all(&mut self.padded_answers, &other.padded_answers);
        all(&mut self.padding_refused, &other.padding_refused);
        all(&mut self.explanations, &other.explanations);
        all(&mut self.late_codes, &other.late_codes);
        self.verification.add(&other.verification);
        self.limit.add(&other.limit);
        self.stripe.add(&other.stripe);
        self.rows.add(&other.rows);
    }

    /// What should occur and never did.
    pub fn missing(&self) -> Vec<String> {
        let mut missing = Vec::new();
        let mut need = |count: u64, what: String| {
            if count == 0 {
                missing.push(what);
            }
        };
        for (i, &count) in self.outcomes.iter().enumerate() {
            need(count, format!("outcome {i}"));
        }
        for (i, &count) in self.reasons.iter().enumerate() {
            need(count, format!("reason {i}"));
        }
        for (call, refusals) in CALLS.iter().zip(&self.refusals) {
            for (i, &count) in refusals.iter().enumerate() {
                if *call == "start" || matches!(i, 1 | 2 | 5) {
                    need(count, format!("refusal {} of {call}", 20 + i));
                }
            }
        }
        need(self.refused_open, "refusal 25 of open".into());
        for (i, &count) in self.choices.iter().enumerate() {
            need(count, format!("P1 {:02X}", i * 0x40));
        }
        for ((byte, bit), &count) in RESULT_BITS.iter().zip(&self.result_bits) {
            need(count, format!("bit {bit:02X} of byte {} of 95", byte + 1));
        }
        for (choice, types) in self.types.iter().enumerate() {
            for (i, &count) in types.iter().enumerate() {
                need(count, format!("type {i} with P1 {:02X}", choice * 0x40));
            }
        }
        for (row, &count) in ROWS.iter().zip(&self.held) {
            need(count, format!("object {:X} held", row.tag));
        }
        need(self.longest, "a session of 130 commands".into());
        for (what, &count) in AWAITED.iter().zip(&self.padded_answers) {
            need(count, format!("padding in the answer to {what}"));
        }
        for (what, &count) in ["start bytes", "9F38", "8C", "9F69"]
            .iter()
            .zip(&self.padding_refused)
        {
            need(count, format!("00 between the parts of {what}"));
        }
        for (what, &count) in EXPLANATIONS.iter().zip(&self.explanations) {
            need(count, format!("explanation: {what}"));
        }
        need(self.late_codes[0], "explained with a late code".into());
        need(self.late_codes[1], "unexplained for a late code".into());
        missing.extend(self.verification.missing());
        missing.extend(self.limit.missing());
        missing.extend(self.stripe.missing());
        missing.extend(self.rows.missing());
        missing
    }

    /// The counts as text.
    pub fn report(&self) -> String {
        let mut out = String::new();
        let part = 100.0 * self.reached_cryptogram as f64 / self.sessions.max(1) as f64;
        let _ = writeln!(
            out,
            "sessions {}  calls {}  reached GENERATE AC {} ({part:.0} %)  checksums {}  of 130 commands {}",
            self.sessions, self.calls, self.reached_cryptogram, self.checksums, self.longest
        );
        let _ = writeln!(out, "outcomes 0-4: {:?}", self.outcomes);
        let _ = writeln!(out, "reasons 0-11: {:?}", self.reasons);
        for (call, refusals) in CALLS.iter().zip(&self.refusals) {
            let _ = writeln!(out, "refusals 20-25 of {call}: {refusals:?}");
        }
        let _ = writeln!(out, "refusal 25 of open: {}", self.refused_open);
        let _ = writeln!(out, "P1 00, 40, 80: {:?}", self.choices);
        let _ = writeln!(out, "cryptogram types by P1: {:?}", self.types);
        let _ = writeln!(
            out,
            "bits of 95 (byte 1 b8, b6, byte 2 b8-b5, byte 3 b8, b7, b3, byte 4 b8): {:?}",
            self.result_bits
        );
        let held: Vec<String> = ROWS
            .iter()
            .zip(&self.held)
            .map(|(row, count)| format!("{:X} {count}", row.tag))
            .collect();
        let _ = writeln!(out, "objects held at the end: {}", held.join(", "));
        let _ = writeln!(
            out,
            "padded answers: {:?}  00 in start bytes, 9F38, 8C, 9F69: {:?}",
            self.padded_answers, self.padding_refused
        );
        for (what, count) in EXPLANATIONS.iter().zip(&self.explanations) {
            let _ = writeln!(out, "explanation {what}: {count}");
        }
        let _ = writeln!(
            out,
            "late action codes explained, not: {:?}",
            self.late_codes
        );
        out += &self.limit.report();
        out += &self.stripe.report();
        out += &self.rows.report();
        out += &self.verification.report();
        out
    }

    /// Counts the padding that a call met. `phase` is that of the session before it.
    fn count_padding(&mut self, step: &Step, phase: u8, word: u32, session: &[u8]) {
        let (kind, number) = (kind_of(word), word & 0xFF);
        match step {
            Step::Start { terminal, .. } if (kind, number) == (2, 20) => {
                self.padding_refused[0] += u64::from(padding::breaks_start(terminal));
            }
            Step::Answer { card, .. } if kind == 0 || kind == 1 && !matches!(number, 1 | 2) => {
                let padded = padding::is_padded(card);
                let awaited = if phase == 5 {
                    3
                } else {
                    usize::from(phase) - 1
                };
                self.padded_answers[awaited] += u64::from(padded);
            }
            _ => {}
        }
        if (kind, number) == (1, 7) {
            let store = store_of(session);
            let (which, list) = match phase {
                0 => (1, Object::Pdol),
                _ if mag_stripe::without_emv_mode(store) => (3, Object::Udol),
                _ => (2, Object::Cdol1),
            };
            self.padding_refused[which] += u64::from(padding::breaks_list(store, list));
        }
    }

    /// Counts what a call did. `asked` is P1 of the session that got an answer on GENERATE AC.
    fn count(&mut self, call: usize, word: u32, session: &[u8], command: &[u8], asked: Option<u8>) {
        self.calls += 1;
        let [method, kind, high, low] = word.to_be_bytes();
        match kind {
            0 if command.starts_with(&[0x80, 0xAE]) && session[1] == 3 => {
                self.choices[usize::from(command[2] >> 6)] += 1;
                let at = HEAD_SIZE + Object::VerificationResults.row().place + 1;
                let bits = &session[at..at + 5];
                for ((byte, bit), count) in RESULT_BITS.iter().zip(&mut self.result_bits) {
                    *count += u64::from(bits[*byte] & bit != 0);
                }
            }
            0 if command.starts_with(&[0x80, 0x2A]) && session[1] == 5 => self.checksums += 1,
            1 => {
                self.outcomes[usize::from(high)] += 1;
                self.reasons[usize::from(low)] += 1;
                self.verification.count_end(method, low);
                for (row, held) in ROWS.iter().zip(&mut self.held) {
                    *held += u64::from(session[HEAD_SIZE + row.place] != 0);
                }
                let information = HEAD_SIZE + Object::CryptogramInformation.row().place;
                if let (Some(p1), 2) = (asked, session[information]) {
                    self.types[usize::from(p1 >> 6)][usize::from(session[information + 1] >> 6)] +=
                        1;
                }
                self.longest += u64::from(session[4] == 130);
            }
            2 => self.refusals[call][usize::from(low - 20)] += 1,
            _ => {}
        }
    }
}

/// The commands whose answers are awaited, in phases 1, 2, 3 and 5.
const AWAITED: [&str; 4] = [
    "processing options",
    "a record",
    "GENERATE AC",
    "the checksum",
];

/// The kinds of explanations, from 2 on.
const EXPLANATIONS: [&str; 5] = ["none", "reason", "no choice", "lower cryptogram", "stage"];

/// The calls that return a reply.
const CALLS: [&str; 4] = ["start", "answer", "link_failed", "stop"];

/// A session in which the two sides differ.
#[derive(Clone, Debug)]
pub struct Difference {
    /// What differs.
    pub what: String,
    /// The steps up to it, the last one included.
    pub steps: Vec<Step>,
}

/// Two sides with a session each, kept equal.
struct Pair<'a, A: Side, B: Side> {
    model: &'a A,
    other: &'a B,
    session: Vec<u8>,
    session_other: Vec<u8>,
    before: Vec<u8>,
    buffer: Vec<u8>,
    buffer_other: Vec<u8>,
    /// Whether calls alone made the session, from an open on.
    by_calls: bool,
    /// Whether the answer to GENERATE AC brought an action code.
    late_code: bool,
    verbose: bool,
}

impl<A: Side, B: Side> Pair<'_, A, B> {
    /// Makes one step on both sides; an error says what differs.
    fn step(&mut self, step: &Step, coverage: &mut Coverage) -> Result<(), String> {
        let (call, buffer): (usize, &[u8]) = match step {
            Step::Set(bytes) => {
                self.session.clone_from(bytes);
                self.session_other.clone_from(bytes);
                self.by_calls = false;
                return self.same_looks(coverage);
            }
            Step::Open => return self.open(coverage),
            Step::Start { buffer, .. } => (0, buffer),
            Step::Answer { buffer, .. } => (1, buffer),
            Step::LinkFailed { buffer } => (2, buffer),
            Step::Stop { buffer } => (3, buffer),
        };
        self.before.clone_from(&self.session);
        self.buffer.clear();
        self.buffer.extend(buffer);
        self.buffer_other.clear();
        self.buffer_other.extend(buffer);
        let word = make(self.model, step, &mut self.session, &mut self.buffer);
        let word_other = make(
            self.other,
            step,
            &mut self.session_other,
            &mut self.buffer_other,
        );
        if self.verbose {
            print_reply(word, &self.buffer, &self.session);
        }
        if word != word_other {
            return Err(format!("reply: model {word:08X}, other {word_other:08X}"));
        }
        same("command buffer", &self.buffer, &self.buffer_other)?;
        same("session bytes", &self.session, &self.session_other)?;
        self.late_code |= self.brought_code();
        self.same_looks(coverage)?;
        self.kept(word, buffer)?;
        let asked = match *self.before.as_slice() {
            [_, 3, p1, ..] if call == 1 => Some(p1),
            _ => None,
        };
        coverage.count(call, word, &self.session, &self.buffer, asked);
        let phase = self.before.get(1).copied().unwrap_or_default();
        coverage.count_padding(step, phase, word, &self.session);
        if let (Step::Answer { card, .. }, 0 | 1) = (step, kind_of(word)) {
            self.count_answer(card, word, coverage);
        }
        if word == 0x0002_0000 + 25 {
            coverage.limit.count_refused(&self.session);
            coverage.stripe.count_refused(&self.session);
            coverage.rows.count_refused(&self.session);
        }
        if let (Step::Start { terminal, .. }, 0x0002_0017) = (step, word) {
            coverage.rows.count_start(terminal);
        }
        match kind_of(word) {
            0 => self.count_list(coverage),
            1 if self.by_calls => coverage.rows.count_end(store_of(&self.session)),
            _ => {}
        }
        Ok(())
    }

    /// Counts what a command's list was filled from.
    fn count_list(&self, coverage: &mut Coverage) {
        let store = store_of(&self.session);
        let list = match self.buffer[..2] {
            [0x80, 0xA8] => Object::Pdol,
            [0x80, 0xAE] => Object::Cdol1,
            [0x80, 0x2A] => Object::Udol,
            _ => return,
        };
        if let Some(list) = store::get(store, list) {
            coverage.rows.count_list(list, store);
        }
    }

    /// Counts what an answer that was not refused decided.
    fn count_answer(&self, card: &[u8], word: u32, coverage: &mut Coverage) {
        let [_, kind, outcome, reason] = word.to_be_bytes();
        let ended_with = (kind == 1).then_some(reason);
        let store = store_of(&self.session);
        match self.before[1] {
            1 => coverage.stripe.count_mode(store, ended_with),
            2 if self.session[1] != 2 => count_last_record(store, ended_with, coverage),
            5 => {
                let before = store_of(&self.before);
                coverage.stripe.count_answer(before, card, outcome, reason);
            }
            _ => {}
        }
    }

    fn open(&mut self, coverage: &mut Coverage) -> Result<(), String> {
        let word = self.model.open(&mut self.session);
        let word_other = self.other.open(&mut self.session_other);
        if self.verbose {
            print_reply(word, &[], &self.session);
        }
        if word != word_other {
            return Err(format!("reply: model {word:08X}, other {word_other:08X}"));
        }
        same("session bytes", &self.session, &self.session_other)?;
        coverage.calls += 1;
        coverage.refused_open += u64::from(word != 0);
        self.by_calls = word == 0;
        self.late_code = false;
        self.same_looks(coverage)
    }

    /// What both sides report of the session: the count and the explanation.
    fn same_looks(&self, coverage: &mut Coverage) -> Result<(), String> {
        let count = self.model.count(&self.session);
        let count_other = self.other.count(&self.session_other);
        if count != count_other {
            return Err(format!("count: model {count:X}, other {count_other:X}"));
        }
        let why = self.model.explain(&self.session);
        let why_other = self.other.explain(&self.session_other);
        if why != why_other {
            return Err(format!("explanation: model {why:X}, other {why_other:X}"));
        }
        if self.by_calls {
            self.explained(why, coverage)?;
        }
        Ok(())
    }

    /// What calls alone make is explained, unless the last answer brought an action code and gave a decision.
    fn explained(&self, why: u32, coverage: &mut Coverage) -> Result<(), String> {
        let kind = kind_of(why);
        coverage.explanations[kind as usize - 2] += 1;
        let decided = matches!(*self.session.as_slice(), [_, 4, _, 0, ..]);
        if self.late_code && decided {
            coverage.late_codes[usize::from(kind == 2)] += 1;
        } else if kind == 2 {
            return Err("calls made a session that is not explained".into());
        }
        Ok(())
    }

    /// Whether the last call was the answer to GENERATE AC and brought an action code, in a session that calls made.
    fn brought_code(&self) -> bool {
        self.by_calls
            && self.before[1] == 3
            && [
                Object::IssuerActionDefault,
                Object::IssuerActionDenial,
                Object::IssuerActionOnline,
            ]
            .into_iter()
            .any(|code| {
                let place = HEAD_SIZE + code.row().place;
                self.before[place] == 0 && self.session[place] != 0
            })
    }

    /// What holds of every call, whatever the model says: which bytes stay.
    fn kept(&self, word: u32, buffer: &[u8]) -> Result<(), String> {
        let written = if kind_of(word) == 0 { word as usize } else { 0 };
        same(
            "buffer behind the command",
            &self.buffer[written..],
            &buffer[written..],
        )?;
        let changed = if kind_of(word) < 2 { SESSION_SIZE } else { 0 };
        same(
            "session bytes that stay",
            &self.session[changed..],
            &self.before[changed..],
        )
    }
}

/// Counts what the answer to the last record decided: a command, or the reason.
fn count_last_record(store: &Store, reason: Option<u8>, coverage: &mut Coverage) {
    if !matches!(reason, None | Some(4 | 6 | 7)) {
        return;
    }
    let stripe_mode = mag_stripe::without_emv_mode(store);
    if stripe_mode {
        coverage.stripe.count_last_record(store, reason);
    }
    if reason != Some(4) {
        coverage.limit.count_decision(store);
        if reason != Some(6) && !stripe_mode {
            // A CVM was chosen.
            coverage.verification.count_choice(store);
        }
    }
}

/// The store of a whole record.
fn store_of(record: &[u8]) -> &Store {
    record[HEAD_SIZE..].first_chunk().expect("a whole record")
}

/// The kind of a word: 0 a command, 1 an outcome, 2 a refusal.
fn kind_of(word: u32) -> u32 {
    word >> 16 & 0xFF
}

/// Makes a call on one side.
fn make(side: &impl Side, step: &Step, session: &mut [u8], buffer: &mut [u8]) -> u32 {
    match step {
        Step::Start { terminal, .. } => side.start(session, terminal, buffer),
        Step::Answer { card, .. } => side.answer(session, card, buffer),
        Step::LinkFailed { .. } => side.link_failed(session, buffer),
        Step::Stop { .. } => side.stop(session, buffer),
        Step::Open => side.open(session),
        Step::Set(_) => 0,
    }
}

/// Compares bytes; an error names the first that differs.
pub(crate) fn same(what: &str, model: &[u8], other: &[u8]) -> Result<(), String> {
    if model == other {
        return Ok(());
    }
    let at = model
        .iter()
        .zip(other)
        .position(|(a, b)| a != b)
        .unwrap_or(0);
    let end = (at + 16).min(model.len()).min(other.len());
    Err(format!(
        "{what}, from byte {at}: model {}, other {}",
        Hex(&model[at..end]),
        Hex(&other[at..end])
    ))
}

fn print_reply(word: u32, buffer: &[u8], session: &[u8]) {
    let command = match word {
        0..=0xFFFF => &buffer[..(word as usize).min(buffer.len())],
        _ => &[],
    };
    let head = &session[..session.len().min(HEAD_SIZE)];
    println!("  -> {word:08X} {}  head {}", Hex(command), Hex(head));
}

/// Runs the session of a seed on both sides. With `verbose` each step and reply is printed.
pub fn run_seed(
    model: &impl Side,
    other: &impl Side,
    seed: u64,
    coverage: &mut Coverage,
    verbose: bool,
) -> Result<(), Difference> {
    let mut play = Play::new(seed);
    run(
        model,
        other,
        |session| play.next(session),
        coverage,
        verbose,
    )
}

/// Runs given steps on both sides.
pub fn run_steps(
    model: &impl Side,
    other: &impl Side,
    steps: &[Step],
    coverage: &mut Coverage,
) -> Result<(), Difference> {
    let mut steps = steps.iter().cloned();
    run(model, other, |_| steps.next(), coverage, true)
}

fn run(
    model: &impl Side,
    other: &impl Side,
    mut next: impl FnMut(&[u8]) -> Option<Step>,
    coverage: &mut Coverage,
    verbose: bool,
) -> Result<(), Difference> {
    let mut pair = Pair {
        model,
        other,
        session: Vec::new(),
        session_other: Vec::new(),
        before: Vec::new(),
        buffer: Vec::new(),
        buffer_other: Vec::new(),
        by_calls: false,
        late_code: false,
        verbose,
    };
    let mut steps = Vec::new();
    let choices = coverage.choices;
    while let Some(step) = next(&pair.session) {
        if verbose {
            println!("{step}");
        }
        let result = pair.step(&step, coverage);
        steps.push(step);
        if let Err(what) = result {
            return Err(Difference { what, steps });
        }
    }
    coverage.sessions += 1;
    coverage.reached_cryptogram += u64::from(coverage.choices != choices);
    Ok(())
}

/// Runs `sessions` sessions of the seeds from `first` on, on all cores. An error reports the first difference found.
pub fn run_many(
    model: &impl Side,
    other: &impl Side,
    sessions: u64,
    first: u64,
) -> Result<Coverage, String> {
    if model.session_size() != other.session_size() {
        return Err("the session sizes differ".into());
    }
    let threads = thread::available_parallelism().map_or(1, |n| n.get() as u64);
    let failed = AtomicBool::new(false);
    let parts: Vec<Result<Coverage, String>> = thread::scope(|scope| {
        let workers: Vec<_> = (0..threads)
            .map(|thread| {
                let failed = &failed;
                scope.spawn(move || {
                    let mut coverage = Coverage::default();
                    for i in (thread..sessions).step_by(threads as usize) {
                        if failed.load(Ordering::Relaxed) {
                            break;
                        }
                        let seed = first.wrapping_add(i);
                        if let Err(text) = run_caught(model, other, seed, &mut coverage) {
                            failed.store(true, Ordering::Relaxed);
                            return Err(text);
                        }
                    }
                    Ok(coverage)
                })
            })
            .collect();
        workers
            .into_iter()
            .map(|worker| {
                worker
                    .join()
                    .unwrap_or_else(|_| Err("a worker failed".into()))
            })
            .collect()
    });
    let mut coverage = Coverage::default();
    for part in parts {
        coverage.add(&part?);
    }
    Ok(coverage)
}

/// Runs one seed; a difference or a panic comes back as text with the seed and the steps.
fn run_caught(
    model: &impl Side,
    other: &impl Side,
    seed: u64,
    coverage: &mut Coverage,
) -> Result<(), String> {
    let run = || run_seed(model, other, seed, coverage, false);
    match panic::catch_unwind(AssertUnwindSafe(run)) {
        Ok(Ok(())) => Ok(()),
        Ok(Err(difference)) => Err(describe(seed, &difference)),
        Err(_) => Err(format!(
            "seed {seed}: a panic; replay with: compare --seed {seed}"
        )),
    }
}

/// A difference as text: the seed, what differs, and the steps for `compare --steps FILE`.
fn describe(seed: u64, difference: &Difference) -> String {
    let mut out = format!(
        "seed {seed}: {}\nreplay with: compare --seed {seed}\nor put these lines in a file for: compare --steps FILE\n",
        difference.what
    );
    for step in &difference.steps {
        let _ = writeln!(out, "{step}");
    }
    out
}

//! Lists of calls of a vending cabinet, made on the model and on the library: after each call its word, the whole
//! state, the whole buffer and what is left must be equal.
//!
//! Over every list the sum is held, too: since an accepted opening, what is left, what is set aside and the
//! amounts of the approved sessions are the cap together. The amount of a session is that of its start bytes, and
//! not of the state.

use crate::customers::{amount_due, amounts, is_running, Customers, Step};
use crate::limit::within_ranges;
use crate::never;
use crate::run::same;
use crate::step::{Hex, Step as Call};
use model::cabinet::{MOST_CAP, STATE_SIZE};
use model::{lookup, COMMAND_SIZE, SESSION_SIZE};
use std::fmt::Write as _;

/// The side that is compared with the model: the library's calls.
#[cfg(feature = "cabinet")]
use tripodmoon::cabinet::calls as other;

/// Without the library the model is compared with itself.
#[cfg(not(feature = "cabinet"))]
use model::cabinet as other;

/// Makes the call of a step on one side.
macro_rules! make {
    ($calls:path, $step:expr, $state:expr, $buffer:expr) => {{
        use $calls as calls;
        match $step {
            Step::Open(cap) => calls::open($state, *cap),
            Step::Call(Call::Start { terminal, .. }) => calls::start($state, terminal, $buffer),
            Step::Call(Call::Answer { card, .. }) => calls::answer($state, card, $buffer),
            Step::Call(Call::LinkFailed { .. }) => calls::link_failed($state, $buffer),
            Step::Call(Call::Stop { .. }) => calls::stop($state, $buffer),
            Step::Call(Call::Set(_) | Call::Open) => unreachable!("no call of the cabinet"),
        }
    }};
}

/// The calls, in the order of the counts of their refusals.
const CALLS: [&str; 5] = ["open", "start", "answer", "link failed", "stop"];

/// The refusals that each call has.
const REFUSALS: [&[u32]; 5] = [
    &[25, 31],
    &[22, 25, 21, 20, 23, 24, 30],
    &[22, 25, 21],
    &[22, 25, 21],
    &[22, 25, 21],
];

/// What some lists of calls reached.
#[derive(Clone, Debug, Default, PartialEq, Eq)]
pub struct Reached {
    /// Lists made.
    lists: u64,
    /// Calls made on each side.
    calls: u64,
    /// Refusals by call, in the order of `REFUSALS`.
    refusals: [[u64; 7]; 5],
    /// Commands by the phase that they leave, 1 to 5, but 4.
    commands: [u64; 5],
    /// Ends by outcome, 0 to 4.
    outcomes: [u64; 5],
    /// Ends by reason, 0 to 11.
    reasons: [u64; 12],
    /// Approvals by CVM, 0 to 4.
    approved: [u64; 5],
    /// Approvals of amount 0, of all that was left, and of the greatest amount.
    amounts: [u64; 3],
    /// Accepted starts of all that is left, of one less, and refused ones of one more.
    edges: [u64; 3],
    /// Starts refused with 30 that the kernel would have ended with reason 7; starts of an amount that ended so.
    broken_list: [u64; 2],
    /// Accepted starts after an end, by its outcome.
    afresh: [u64; 5],
    /// Starts refused after an end with 20, 23, 24, 30.
    refused_afresh: [u64; 4],
    /// Refused for what is set aside alone: fresh, running, ended.
    aside: [u64; 3],
    /// Refused for the sum alone: one over the most, far over, one that wraps in 64 bits.
    sum: [u64; 3],
    /// Taken with the most as the sum: none running, running.
    most: [u64; 2],
    /// Refused with 25 for too few bytes: one too few, a record alone, others.
    short: [u64; 3],
    /// 22 where 25 would come else; 22 with one byte too few.
    buffer: [u64; 2],
    /// Accepted openings: cap 0, the greatest cap, on a running session, on bytes that hold no state.
    opened: [u64; 4],
    /// Refused openings: one over the greatest cap, on a running session, too great a cap for too few bytes.
    not_opened: [u64; 3],
    /// Caps that were spent wholly by two approvals or more, and lists with a sum of five approvals or more.
    spent: [u64; 2],
    /// Calls with bytes after the state.
    behind: u64,
}

impl Reached {
    /// The counts that should not be 0, with what each is of.
    fn counts(&self) -> Vec<(String, Vec<u64>)> {
        let mut all = Vec::new();
        for ((call, numbers), counts) in CALLS.iter().zip(REFUSALS).zip(&self.refusals) {
            let counts = counts[..numbers.len()].to_vec();
            all.push((format!("{call}, refused with {numbers:?}:"), counts));
        }
        let [options, record, cryptogram, _, checksum] = self.commands;
        let waiting = vec![options, record, cryptogram, checksum];
        let mut list = |what: &str, counts: &[u64]| all.push((what.to_string(), counts.to_vec()));
        list("commands", &waiting);
        list("outcome", &self.outcomes);
        list("reason", &self.reasons);
        list("approved, method", &self.approved);
        list("approved: 0, all, the greatest", &self.amounts);
        list("start: all, one less, one more", &self.edges);
        list("broken list: 30, reason 7", &self.broken_list);
        list("start after outcome", &self.afresh);
        list("after an end: 20, 23, 24, 30", &self.refused_afresh);
        list("aside alone: fresh, running, ended", &self.aside);
        list("sum alone: one over, far, wraps", &self.sum);
        list("sum of the most: none running, running", &self.most);
        list("too few bytes: one, a record, others", &self.short);
        list("22: before 25, one byte", &self.buffer);
        list("opened: 0, the most, running, no state", &self.opened);
        list(
            "not opened: one over, running, too few bytes",
            &self.not_opened,
        );
        list("wholly spent, five approvals", &self.spent);
        list("bytes behind", &[self.behind]);
        all
    }

    /// What should be reached and never was.
    pub fn missing(&self) -> Vec<String> {
        let counts = self.counts();
        counts
            .iter()
            .flat_map(|(what, counts)| never(counts, what))
            .collect()
    }

    /// The counts as text.
    pub fn report(&self) -> String {
        let mut out = format!("lists {}  calls {}\n", self.lists, self.calls);
        for (what, counts) in self.counts() {
            let _ = writeln!(out, "{what} {counts:?}");
        }
        out
    }

    /// Counts a call and its word.
    fn count(&mut self, step: &Step, call: usize, word: u32, before: &[u8], after: &[u8]) {
        self.calls += 1;
        self.behind += u64::from(before.len() > STATE_SIZE);
        let [method, kind, high, low] = word.to_be_bytes();
        let [outcome, reason] = [high, low].map(usize::from);
        match kind {
            _ if call == 0 && word == 0 => self.count_opened(step, before),
            0 => self.commands[usize::from(after[1]) - 1] += 1,
            1 => {
                self.outcomes[outcome] += 1;
                self.reasons[reason] += 1;
                if outcome == 0 {
                    let [left, aside] = amounts(before);
                    self.approved[usize::from(method)] += 1;
                    self.amounts[0] += u64::from(aside == 0);
                    self.amounts[1] += u64::from(aside > 0 && left == 0);
                    self.amounts[2] += u64::from(aside == MOST_CAP);
                }
            }
            _ => self.count_refused(step, call, u32::from(low), before),
        }
        if kind < 2 && call > 0 {
            self.count_taken(step, word, before);
        }
    }

    /// Counts an opening that was accepted.
    fn count_opened(&mut self, step: &Step, before: &[u8]) {
        let cap = match step {
            Step::Open(cap) => *cap,
            Step::Call(_) => return,
        };
        let state = holds_state(before);
        self.opened[0] += u64::from(cap == 0);
        self.opened[1] += u64::from(cap == MOST_CAP);
        self.opened[2] += u64::from(state && is_running(before));
        self.opened[3] += u64::from(!state);
    }

    /// Counts a call that was taken: the sum of the state before it, and for a start the amount and the session before.
    fn count_taken(&mut self, step: &Step, word: u32, before: &[u8]) {
        let [left, aside] = amounts(before);
        if left + aside == MOST_CAP {
            self.most[usize::from(is_running(before))] += 1;
        }
        let Step::Call(Call::Start { terminal, .. }) = step else {
            return;
        };
        let amount = amount_of_start(terminal);
        self.edges[0] += u64::from(amount == left);
        self.edges[1] += u64::from(amount + 1 == left);
        self.broken_list[1] += u64::from(word & 0xFF == 7 && word > 0xFFFF && amount > 0);
        if before[1] == 4 {
            self.afresh[usize::from(before[2])] += 1;
        }
    }

    /// Counts a refusal.
    fn count_refused(&mut self, step: &Step, call: usize, number: u32, before: &[u8]) {
        if let Some(at) = REFUSALS[call].iter().position(|&refusal| refusal == number) {
            self.refusals[call][at] += 1;
        }
        match (step, number) {
            (Step::Open(cap), 25) => self.not_opened[2] += u64::from(*cap > MOST_CAP),
            (Step::Open(cap), _) => {
                self.not_opened[0] += u64::from(*cap == MOST_CAP + 1);
                self.not_opened[1] += u64::from(holds_state(before) && is_running(before));
            }
            (Step::Call(call), 22) => {
                self.buffer[0] += u64::from(!holds_state(before));
                self.buffer[1] += u64::from(buffer_of(call).len() == COMMAND_SIZE - 1);
            }
            (Step::Call(_), 25) => self.count_no_state(before),
            (Step::Call(Call::Start { terminal, .. }), 20 | 23 | 24 | 30) => {
                if before[1] == 4 {
                    let numbers = [20, 23, 24, 30];
                    let at = numbers.iter().position(|&other| other == number);
                    self.refused_afresh[at.expect("one of the four")] += 1;
                }
                if number == 30 {
                    let more = amount_of_start(terminal) == amounts(before)[0] + 1;
                    self.edges[2] += u64::from(more);
                    self.broken_list[0] += u64::from(kernel_ends_with_7(terminal));
                }
            }
            _ => {}
        }
    }

    /// Counts bytes that hold no state: by their number, or by what is set aside or the sum alone.
    fn count_no_state(&mut self, state: &[u8]) {
        if state.len() < STATE_SIZE {
            let which = match state.len() + 1 {
                STATE_SIZE => 0,
                length if length == SESSION_SIZE + 1 => 1,
                _ => 2,
            };
            self.short[which] += 1;
            return;
        }
        if !within_ranges(&mut state[..SESSION_SIZE].to_vec()) {
            return;
        }
        let [left, aside] = amounts(state);
        let sum = u128::from(left) + u128::from(aside);
        let in_sum = sum <= u128::from(MOST_CAP);
        let which = match state[1] {
            0 => 0,
            4 => 2,
            _ => 1,
        };
        let right = aside == amount_due(state);
        self.aside[which] += u64::from(in_sum && !right);
        if right {
            let which = if sum > u128::from(u64::MAX) {
                2
            } else {
                usize::from(sum > u128::from(MOST_CAP) + 1)
            };
            self.sum[which] += 1;
        }
    }
}

/// Whether bytes hold a state, by the model.
fn holds_state(bytes: &[u8]) -> bool {
    model::cabinet::left(bytes) != model::cabinet::NO_LEFT
}

/// The amount in start bytes that were accepted, or not: the number of their first 9F02.
fn amount_of_start(terminal: &[u8]) -> u64 {
    let digits = lookup::lookup(terminal, &[], 0x9F02);
    digits.iter().fold(0, |sum, byte| {
        sum * 100 + u64::from(byte >> 4) * 10 + u64::from(byte & 0x0F)
    })
}

/// Whether the kernel, on a fresh session, ends a start with reason 7.
fn kernel_ends_with_7(terminal: &[u8]) -> bool {
    let mut session = vec![0; SESSION_SIZE];
    model::open(&mut session);
    let word = model::start(&mut session, terminal, &mut [0; COMMAND_SIZE]);
    word & 0x00FF_00FF == 0x0001_0007
}

/// The buffer that a call is given.
fn buffer_of(call: &Call) -> &[u8] {
    match call {
        Call::Start { buffer, .. }
        | Call::Answer { buffer, .. }
        | Call::LinkFailed { buffer }
        | Call::Stop { buffer } => buffer,
        Call::Set(_) | Call::Open => &[],
    }
}

/// What a list of calls since an accepted opening comes to.
#[derive(Clone, Copy)]
struct Tally {
    cap: u64,
    /// The amounts of the approved sessions together, and how many they are.
    approved: u128,
    approvals: u64,
    /// The amount in the start bytes of the last accepted start.
    started: u64,
}

/// Two sides with a state each, kept equal.
struct Pair {
    state: Vec<u8>,
    state_other: Vec<u8>,
    /// The sum since an accepted opening, where calls alone made the state.
    tally: Option<Tally>,
    /// A state that other bytes were put in the place of, with its sum.
    laid_by: Option<(Vec<u8>, Tally)>,
    verbose: bool,
}

impl Pair {
    /// Makes one step on both sides; an error says what differs.
    fn step(&mut self, step: &Step, reached: &mut Reached) -> Result<(), String> {
        let (call, buffer): (usize, &[u8]) = match step {
            Step::Call(Call::Set(bytes)) => {
                self.set(bytes);
                return self.same_left();
            }
            Step::Open(_) => (0, &[]),
            Step::Call(call @ Call::Start { .. }) => (1, buffer_of(call)),
            Step::Call(call @ Call::Answer { .. }) => (2, buffer_of(call)),
            Step::Call(call @ Call::LinkFailed { .. }) => (3, buffer_of(call)),
            Step::Call(call) => (4, buffer_of(call)),
        };
        let before = self.state.clone();
        let (mut command, mut command_other) = (buffer.to_vec(), buffer.to_vec());
        let word = make!(model::cabinet, step, &mut self.state, &mut command);
        let word_other = make!(other, step, &mut self.state_other, &mut command_other);
        if self.verbose {
            let amounts = (self.state.len() >= STATE_SIZE).then(|| amounts(&self.state));
            println!("  -> {word:08X}  amounts {amounts:?}");
        }
        if word != word_other {
            return Err(format!("word: model {word:08X}, other {word_other:08X}"));
        }
        same("command buffer", &command, &command_other)?;
        same("state", &self.state, &self.state_other)?;
        self.same_left()?;
        let is_refused = word >> 16 & 0xFF == 2;
        let written = if call > 0 && word < 0x0001_0000 {
            word as usize
        } else {
            0
        };
        same("buffer that stays", &command[written..], &buffer[written..])?;
        let changed = if is_refused { 0 } else { STATE_SIZE };
        same(
            "bytes that stay",
            &self.state[changed..],
            &before[changed..],
        )?;
        reached.count(step, call, word, &before, &self.state);
        self.hold_sum(step, word, reached)
    }

    /// Puts other bytes in the state's place. The sum is taken up again where they are those that were laid by.
    fn set(&mut self, bytes: &[u8]) {
        let before = std::mem::replace(&mut self.state, bytes.to_vec());
        self.state_other = bytes.to_vec();
        if let Some(tally) = self.tally.take() {
            self.laid_by = Some((before, tally));
        } else if let Some((_, tally)) = self.laid_by.take_if(|(kept, _)| kept == bytes) {
            self.tally = Some(tally);
        }
    }

    /// Both sides report the same of what is left.
    fn same_left(&self) -> Result<(), String> {
        let left = model::cabinet::left(&self.state);
        let left_other = other::left(&self.state_other);
        if left != left_other {
            return Err(format!("left: model {left}, other {left_other}"));
        }
        Ok(())
    }

    /// Carries the sum on, and holds it to the cap: none of the calls is refused with 25 then.
    fn hold_sum(&mut self, step: &Step, word: u32, reached: &mut Reached) -> Result<(), String> {
        let [_, kind, outcome, number] = word.to_be_bytes();
        if let (Step::Open(cap), 0) = (step, word) {
            self.tally = Some(Tally {
                cap: *cap,
                approved: 0,
                approvals: 0,
                started: 0,
            });
        }
        let Some(tally) = &mut self.tally else {
            return Ok(());
        };
        if (kind, number) == (2, 25) {
            return Err("25 since an accepted opening".into());
        }
        if let (Step::Call(Call::Start { terminal, .. }), 0 | 1) = (step, kind) {
            tally.started = amount_of_start(terminal);
        }
        let [left, aside] = amounts(&self.state);
        if (kind, outcome) == (1, 0) {
            tally.approved += u128::from(tally.started);
            tally.approvals += 1;
            let is_spent = left == 0 && tally.approvals > 1 && tally.cap > 0;
            reached.spent[0] += u64::from(is_spent);
            reached.spent[1] += u64::from(tally.approvals == 5);
        }
        let sum = u128::from(left) + u128::from(aside) + tally.approved;
        if sum != u128::from(tally.cap) {
            return Err(format!(
                "left {left}, aside {aside}, approved {}: not the cap of {}",
                tally.approved, tally.cap
            ));
        }
        Ok(())
    }
}

/// Makes the list of a seed on both sides; an error reports what differs, with the steps up to it. With `verbose` each
/// step is printed.
pub fn run_seed(seed: u64, reached: &mut Reached, verbose: bool) -> Result<(), String> {
    let mut customers = Customers::new(seed);
    let mut pair = Pair {
        state: Vec::new(),
        state_other: Vec::new(),
        tally: None,
        laid_by: None,
        verbose,
    };
    let mut steps = Vec::new();
    while let Some(step) = customers.next(&pair.state) {
        if verbose {
            println!("{step}");
        }
        let result = pair.step(&step, reached);
        steps.push(step);
        if let Err(what) = result {
            let mut out = format!("seed {seed}: {what}\n");
            for step in steps {
                let _ = writeln!(out, "{step}");
            }
            let _ = writeln!(out, "state {}", Hex(&pair.state));
            return Err(out);
        }
    }
    reached.lists += 1;
    Ok(())
}

/// Makes this many lists on both sides, from a seed on; an error has the first that differs.
pub fn run_many(lists: u64, seed: u64) -> Result<Reached, String> {
    if model::cabinet::size() != other::size() {
        return Err("the sizes of the state differ".into());
    }
    let mut reached = Reached::default();
    for seed in seed..seed + lists {
        run_seed(seed, &mut reached, false)?;
    }
    Ok(reached)
}

//! Draws the calls of a vending cabinet: customers one after the other, on a state whose bytes are changed
//! now and then.

use crate::damage;
use crate::objects;
use crate::rng::Rng;
use crate::step::Step as Call;
use crate::{card, terminal};
use model::cabinet::{MOST_CAP, STATE_SIZE};
use model::dictionary::Object;
use model::{COMMAND_SIZE, SESSION_SIZE};
use std::fmt;

/// One step: the cabinet is opened with a cap; or other bytes are put in the state's place, or a call is made on it.
#[derive(Clone, Debug, PartialEq, Eq)]
pub enum Step {
    /// Opens the cabinet with this cap.
    Open(u64),
    /// A step as a session has it, without its opening.
    Call(Call),
}

impl fmt::Display for Step {
    fn fmt(&self, f: &mut fmt::Formatter<'_>) -> fmt::Result {
        match self {
            Step::Open(cap) => write!(f, "open {cap}"),
            Step::Call(call) => call.fmt(f),
        }
    }
}

/// The amounts of a state: what is left, and what is set aside. The slice holds a whole state.
pub fn amounts(state: &[u8]) -> [u64; 2] {
    [0, 8].map(|at| {
        let bytes = &state[SESSION_SIZE + at..][..8];
        u64::from_be_bytes(bytes.try_into().expect("eight bytes"))
    })
}

/// Puts amounts into a state.
fn put_amounts(state: &mut [u8], amounts: [u64; 2]) {
    for (bytes, amount) in state[SESSION_SIZE..].chunks_mut(8).zip(amounts) {
        bytes.copy_from_slice(&amount.to_be_bytes());
    }
}

/// The amount of a session by the digits of its 9F02; 0 where none is running.
pub fn amount_due(record: &[u8]) -> u64 {
    if !is_running(record) {
        return 0;
    }
    let place = damage::place(Object::AmountAuthorised);
    record[place + 1..][..6].iter().fold(0, |sum, byte| {
        sum * 100 + u64::from(byte >> 4) * 10 + u64::from(byte & 0x0F)
    })
}

/// Whether a session is running, by the byte of its phase.
pub fn is_running(record: &[u8]) -> bool {
    matches!(record.get(1), Some(1..=3 | 5))
}

/// How often things go wrong: each number is "one in", 0 is never.
struct Profile {
    start: usize,
    answer: usize,
    give_up: usize,
    open: usize,
    order: usize,
    buffer: usize,
    damage: usize,
    /// How many in a hundred have an ordinary card and terminal, which mostly approve.
    ordinary: usize,
}

/// The course of one list of calls.
pub struct Customers {
    rng: Rng,
    profile: Profile,
    /// Steps to make first, the last one first.
    opening: Vec<Step>,
    /// The bytes to put back, and after how many calls.
    put_back: Option<(Vec<u8>, usize)>,
    /// How many customers are to come.
    customers: usize,
    /// Whether the running session has an ordinary card.
    ordinary: bool,
    /// The state before the last step, and for how many steps it stayed.
    state: Vec<u8>,
    stayed: usize,
    steps_left: usize,
}

impl Customers {
    /// The list of a seed.
    pub fn new(seed: u64) -> Customers {
        let mut rng = Rng::new(seed);
        let profile = Profile {
            start: rng.pick(&[0, 0, 3, 8]),
            answer: rng.pick(&[0, 0, 8, 20]),
            give_up: rng.pick(&[0, 0, 10, 30]),
            open: rng.pick(&[0, 0, 0, 15]),
            order: rng.pick(&[0, 0, 10]),
            buffer: rng.pick(&[0, 0, 5, 20]),
            damage: rng.pick(&[0, 0, 0, 4, 10]),
            ordinary: rng.pick(&[10, 60, 90, 100]),
        };
        let opening = opening(&mut rng);
        Customers {
            customers: rng.within(1..=12),
            put_back: None,
            ordinary: false,
            state: Vec::new(),
            stayed: 0,
            steps_left: 120,
            profile,
            opening,
            rng,
        }
    }

    /// The next step for a state with these bytes, or none at the end.
    pub fn next(&mut self, state: &[u8]) -> Option<Step> {
        if let Some(step) = self.opening.pop() {
            return Some(step);
        }
        self.steps_left = self.steps_left.checked_sub(1)?;
        match self.put_back.take() {
            Some((bytes, 0)) => return Some(Step::Call(Call::Set(bytes))),
            Some((bytes, calls)) => self.put_back = Some((bytes, calls - 1)),
            None => {}
        }
        if state.len() < STATE_SIZE {
            // Few calls on too few bytes, then a whole state.
            if self.put_back.is_none() && self.rng.one_in(3) {
                self.opening = opening(&mut self.rng);
                return self.opening.pop();
            }
            return Some(self.any_call(state));
        }
        if self.state == state {
            self.stayed += 1;
        } else {
            self.state.clear();
            self.state.extend(state);
            self.stayed = 0;
        }
        if self.put_back.is_none() {
            if self.stayed > 5 {
                self.stayed = 0;
                return Some(Step::Open(self.cap()));
            }
            if self.rng.one_in(self.profile.damage) {
                return Some(self.changed(state));
            }
        }
        if self.rng.one_in(self.profile.open) {
            return Some(Step::Open(self.cap()));
        }
        if self.rng.one_in(self.profile.order) {
            return Some(self.any_call(state));
        }
        if is_running(state) {
            if self.rng.one_in(self.profile.give_up) {
                return Some(self.give_up());
            }
            let faults = self.rng.one_in(self.profile.answer);
            return Some(self.answer(state, faults));
        }
        self.customers = self.customers.checked_sub(1)?;
        let faults = self.rng.one_in(self.profile.start);
        Some(self.start(state, faults))
    }

    /// A cap, at the edges or near what few sessions spend; about one in eight is refused.
    fn cap(&mut self) -> u64 {
        cap(&mut self.rng)
    }

    /// A start of an amount near what is left, mostly no greater.
    fn start(&mut self, state: &[u8], faults: bool) -> Step {
        let left = match state.len() {
            STATE_SIZE.. => amounts(state)[0],
            _ => 1000,
        };
        let amount = amount(&mut self.rng, left);
        self.ordinary = self.rng.percent(self.profile.ordinary);
        let terminal = if self.ordinary && !faults {
            ordinary_start(&mut self.rng, amount)
        } else {
            terminal::start_of(&mut self.rng, amount, faults)
        };
        Step::Call(Call::Start {
            terminal,
            buffer: self.buffer(),
        })
    }

    fn answer(&mut self, state: &[u8], faults: bool) -> Step {
        let card = if self.ordinary && !faults && matches!(state.get(1), Some(1..=3)) {
            ordinary_answer(&mut self.rng, state)
        } else {
            card::answer(&mut self.rng, state, faults)
        };
        Step::Call(Call::Answer {
            card,
            buffer: self.buffer(),
        })
    }

    fn give_up(&mut self) -> Step {
        let buffer = self.buffer();
        Step::Call(if self.rng.one_in(2) {
            Call::LinkFailed { buffer }
        } else {
            Call::Stop { buffer }
        })
    }

    /// Any call, in order or not. On a running session it is mostly a start, which is refused.
    fn any_call(&mut self, state: &[u8]) -> Step {
        match self.rng.below(if is_running(state) { 12 } else { 5 }) {
            0 | 1 => self.give_up(),
            2 => {
                let faults = self.rng.one_in(2);
                self.answer(state, faults)
            }
            3 if self.rng.one_in(3) => Step::Open(self.cap()),
            _ => {
                let faults = self.rng.one_in(3);
                self.start(state, faults)
            }
        }
    }

    /// A command buffer: mostly long enough, its contents random.
    fn buffer(&mut self) -> Vec<u8> {
        let length = if self.rng.one_in(self.profile.buffer) {
            self.rng.pick(&[
                0,
                1,
                COMMAND_SIZE - 2,
                COMMAND_SIZE - 1,
                COMMAND_SIZE,
                COMMAND_SIZE + 1,
                300,
            ])
        } else {
            COMMAND_SIZE
        };
        self.rng.bytes(length)
    }

    /// Puts a changed copy of the state in place; mostly the state comes back after some calls.
    fn changed(&mut self, state: &[u8]) -> Step {
        let rng = &mut self.rng;
        let mut bytes = state.to_vec();
        match rng.below(12) {
            0 => {
                let some = rng.below(STATE_SIZE);
                bytes.truncate(rng.pick(&[
                    STATE_SIZE - 1,
                    STATE_SIZE - 8,
                    SESSION_SIZE + 8,
                    SESSION_SIZE,
                    SESSION_SIZE - 1,
                    some,
                ]));
            }
            1 | 2 => put_built(rng, &mut bytes),
            3 => damage::record(rng, &mut bytes[..SESSION_SIZE]),
            4 => put_other_amount(rng, &mut bytes),
            _ => change_amounts(rng, &mut bytes),
        }
        if rng.percent(80) {
            self.put_back = Some((state.to_vec(), rng.within(1..=3)));
        }
        Step::Call(Call::Set(bytes))
    }
}

/// The bytes to begin with, and mostly the opening; last step first.
fn opening(rng: &mut Rng) -> Vec<Step> {
    let length = match rng.below(30) {
        0 => rng.pick(&[0, 1, SESSION_SIZE, STATE_SIZE - 1]),
        1 => rng.below(STATE_SIZE),
        2..=5 => STATE_SIZE + rng.within(1..=40),
        _ => STATE_SIZE,
    };
    let mut bytes = rng.bytes(length);
    if length < STATE_SIZE || rng.percent(90) {
        return vec![Step::Open(cap(rng)), Step::Call(Call::Set(bytes))];
    }
    match rng.below(8) {
        0 => {}
        1 => bytes.fill(0),
        _ => put_built(rng, &mut bytes),
    }
    vec![Step::Call(Call::Set(bytes))]
}

/// A cap, at the edges or near what few sessions spend; about one in eight is refused.
fn cap(rng: &mut Rng) -> u64 {
    match rng.below(16) {
        0 => rng.pick(&[MOST_CAP + 1, MOST_CAP + 1, 1 << 40, 1 << 63, u64::MAX]),
        1 => MOST_CAP + 1 + rng.bits() % (1 << 20),
        2 => rng.pick(&[0, 1]),
        3 => MOST_CAP,
        4 => MOST_CAP - rng.bits() % 1000,
        5 | 6 => rng.bits() % (MOST_CAP + 1),
        7 | 8 => (1 << rng.within(8..=39)) - rng.bits() % 3,
        _ => rng.bits() % 10_000,
    }
}

/// An amount, mostly at most what is left, and often near it.
fn amount(rng: &mut Rng, left: u64) -> u64 {
    let left = left.min(MOST_CAP);
    let any = rng.bits();
    let amount = match rng.below(16) {
        0 | 1 => left,
        2 => left.saturating_sub(1),
        3 => left + 1,
        4 => left + 1 + any % 100,
        5 => rng.pick(&[0, 1, 99, 100, MOST_CAP - 1, MOST_CAP]),
        6 => any % (MOST_CAP + 1),
        7 => left - left / 2,
        8 | 9 => any % (left + 1),
        _ => any % (left / 8 + 1),
    };
    amount.min(MOST_CAP)
}

/// Start bytes of an ordinary terminal, which requests an offline approval; some have a list for the card,
/// broken or not.
fn ordinary_start(rng: &mut Rng, amount: u64) -> Vec<u8> {
    const MOST: &[u8] = &[0x99; 6];
    const ZEROS: &[u8] = &[0; 6];
    let amount = objects::amount(amount);
    let capabilities = [0xE0, rng.pick(&[0xF8, 0xF8, 0x20, 0x00]), 0xC8];
    let configuration = [rng.pick(&[0x00, 0x20, 0xA0])];
    let number = rng.bytes(4);
    let list = [
        (0x9A, &[0x25, 0x06, 0x15][..]),
        (0x9C, &[0x00]),
        (0x9F02, &amount),
        (0x9F09, &[0x00, 0x02]),
        (0x9F1A, &[0x00, 0x56]),
        (0x9F33, &capabilities),
        (0x9F35, &[rng.pick(&[0x22, 0x22, 0x23, 0x25])]),
        (0x9F37, &number),
        (0x9F6A, &[0x00, 0x00, 0x34, 0x56]),
        (0xDF811B, &configuration),
        (0xDF8120, &ZEROS[1..]),
        (0xDF8121, &ZEROS[1..]),
        (0xDF8122, &ZEROS[1..]),
        (0xDF8123, MOST),
        (0xDF8124, if rng.one_in(20) { ZEROS } else { MOST }),
        (0xDF8125, MOST),
        (0xDF8126, rng.pick(&[ZEROS, MOST])),
    ];
    let mut bytes = Vec::new();
    for (tag, value) in list {
        objects::put_object(rng, &mut bytes, tag, value);
    }
    if rng.one_in(6) {
        let list = rng.pick(&[&[0x9F][..], &[0x9F, 0x02, 0x06], &[0x95, 0xFF], &[]]);
        objects::put_object(rng, &mut bytes, 0x9F38, list);
    }
    bytes
}

/// The answer of an ordinary card of one record, to a session that waits on one of the three.
fn ordinary_answer(rng: &mut Rng, state: &[u8]) -> Vec<u8> {
    let mut answer = match state[1] {
        1 => {
            let profile = rng.pick(&[0x00, 0x10, 0x10, 0x12]);
            vec![0x80, 0x06, profile, 0x80, 0x08, 0x01, 0x01, 0x00]
        }
        2 => {
            let list = [
                (0x5F24, &[0x49, 0x12, 0x31][..]),
                (0x5A, &[0x47, 0x61, 0x73, 0x90, 0x01, 0x01, 0x00, 0x10]),
                (0x8C, &[0x9F, 0x37, 0x04, 0x9F, 0x02, 0x06]),
                (0x9F0D, &[0; 5]),
                (0x9F0E, &[0; 5]),
                (0x9F0F, &[0; 5]),
            ];
            let mut list: Vec<Vec<u8>> = list
                .into_iter()
                .map(|(tag, value)| objects::object(rng, tag, value))
                .collect();
            if rng.percent(70) {
                let code = rng.pick(&[0x1F, 0x1E, 0x02, 0x04, 0x42, 0x5E]);
                let rule = [0, 0, 0, 0, 0, 0, 0, 0, code, 0x00];
                list.push(objects::object(rng, 0x8E, &rule));
            }
            objects::template(rng, 0x70, &list)
        }
        _ => {
            let kind = rng.pick(&[0x40, 0x40, 0x40, 0x40, 0x40, 0x80, 0x00, 0xC0]);
            let mut body = vec![0x80, 0x0B, kind, 0x00, 0x01];
            body.extend(rng.bytes(8));
            body
        }
    };
    answer.extend([0x90, 0x00]);
    answer
}

/// Puts a state built from nothing in place: any phase, mostly with the amounts that go with it.
fn put_built(rng: &mut Rng, state: &mut [u8]) {
    let record = damage::built_record(rng);
    state[..SESSION_SIZE].copy_from_slice(&record);
    let due = amount_due(&record);
    let most = MOST_CAP.saturating_sub(due);
    let some = rng.bits() % (most + 1);
    let left = rng.pick(&[0, most, some, some]);
    put_amounts(state, [left, due]);
    if rng.one_in(6) {
        change_amounts(rng, state);
    }
}

/// Changes what is left or set aside: near what it was, at the edge with the other, or by a bit.
fn change_amounts(rng: &mut Rng, state: &mut [u8]) {
    let [mut left, mut aside] = amounts(state);
    let due = amount_due(state);
    let bit = 1 << rng.below(64);
    let any = rng.bits();
    if rng.one_in(2) {
        let most = MOST_CAP.saturating_sub(aside);
        let wrapped = 0u64.wrapping_sub(aside);
        left = rng.pick(&[
            most,
            most,
            most + 1,
            most + 1,
            MOST_CAP,
            MOST_CAP + 1,
            wrapped,
            wrapped.wrapping_add(1),
            u64::MAX,
            left.wrapping_add(1),
            left.wrapping_sub(1),
            left ^ bit,
            left.swap_bytes(),
            0,
            any,
        ]);
    } else {
        aside = rng.pick(&[
            0,
            1,
            due,
            aside.wrapping_add(1),
            aside.wrapping_sub(1),
            aside ^ bit,
            aside.swap_bytes(),
            left,
            MOST_CAP - left.min(MOST_CAP),
            0u64.wrapping_sub(left),
            any,
        ]);
    }
    put_amounts(state, [left, aside]);
}

/// Changes 9F02 of the record, and in one of two what is set aside with it.
fn put_other_amount(rng: &mut Rng, state: &mut [u8]) {
    let value = objects::good_value(rng, Object::AmountAuthorised);
    damage::put(state, Object::AmountAuthorised, &value);
    if rng.one_in(2) {
        let [left, _] = amounts(state);
        let due = amount_due(state);
        put_amounts(state, [left, due]);
    }
}

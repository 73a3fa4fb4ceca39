//! Chooses the next step of a session from what the session's bytes say.

use crate::rng::Rng;
use crate::step::Step;
use crate::{card, damage, terminal};
use model::{HEAD_SIZE, SESSION_SIZE};

/// How often things go wrong in a session: each number is "one in", 0 is never.
struct Profile {
    start: usize,
    answer: usize,
    give_up: usize,
    order: usize,
    buffer: usize,
    damage: usize,
}

/// The course of one session.
pub struct Play {
    rng: Rng,
    profile: Profile,
    /// Steps to make before the first call.
    opening: Vec<Step>,
    /// The bytes to put back, and after how many calls.
    put_back: Option<(Vec<u8>, usize)>,
    /// Calls to make after the end.
    calls_after_end: usize,
    /// Whether a further session follows in the same bytes.
    again: bool,
    /// The head of the record before the last step, and for how many steps it stayed.
    head: [u8; HEAD_SIZE],
    stayed: usize,
    steps_left: usize,
}

impl Play {
    /// The session of a seed.
    pub fn new(seed: u64) -> Play {
        let mut rng = Rng::new(seed);
        let profile = profile(&mut rng);
        let opening = opening(&mut rng);
        Play {
            calls_after_end: rng.pick(&[0, 0, 0, 1, 2]),
            again: rng.one_in(8),
            head: [0; HEAD_SIZE],
            stayed: 0,
            steps_left: 600,
            put_back: None,
            profile,
            opening,
            rng,
        }
    }

    /// The next step for a session with these bytes, or none at the end.
    pub fn next(&mut self, session: &[u8]) -> Option<Step> {
        if let Some(step) = self.opening.pop() {
            return Some(step);
        }
        self.steps_left = self.steps_left.checked_sub(1)?;
        match self.put_back.take() {
            Some((bytes, 0)) => return Some(Step::Set(bytes)),
            Some((bytes, calls)) => self.put_back = Some((bytes, calls - 1)),
            None => {}
        }
        if session.len() < SESSION_SIZE {
            // Few calls on too few bytes, then a whole record.
            if self.rng.one_in(3) {
                let bytes = self.rng.bytes(SESSION_SIZE);
                self.opening = vec![Step::Open];
                return Some(Step::Set(bytes));
            }
            return Some(self.any_call(session));
        }
        if session.starts_with(&self.head) {
            self.stayed += 1;
        } else {
            self.head.copy_from_slice(&session[..HEAD_SIZE]);
            self.stayed = 0;
        }
        if self.stayed > 6 && self.put_back.is_none() {
            // All calls are refused.
            self.stayed = 0;
            return self.rng.one_in(2).then_some(Step::Open);
        }
        if self.put_back.is_none() && self.rng.one_in(self.profile.damage) {
            return Some(self.damaged(session));
        }
        if self.rng.one_in(self.profile.order) {
            return Some(self.any_call(session));
        }
        match session[1] {
            0 => {
                let faults = self.rng.one_in(self.profile.start);
                Some(self.start(faults))
            }
            phase @ (1..=3 | 5)
                if self.rng.one_in(self.profile.give_up) || phase == 3 && self.rng.one_in(25) =>
            {
                let buffer = self.buffer();
                Some(if self.rng.one_in(2) {
                    Step::LinkFailed { buffer }
                } else {
                    Step::Stop { buffer }
                })
            }
            phase @ (1..=3 | 5) => {
                // More often on GENERATE AC, which each CVM is to see, and on the checksum.
                let on_last = matches!(phase, 3 | 5) && self.rng.one_in(6);
                let faults = on_last || self.rng.one_in(self.profile.answer);
                Some(self.answer(session, faults))
            }
            _ => self.after_end(session),
        }
    }

    /// A call after the end, a further session, or nothing.
    fn after_end(&mut self, session: &[u8]) -> Option<Step> {
        if self.calls_after_end > 0 {
            self.calls_after_end -= 1;
            return Some(self.any_call(session));
        }
        if self.put_back.is_some() {
            return Some(self.any_call(session));
        }
        if self.again {
            self.again = false;
            return Some(Step::Open);
        }
        None
    }

    /// Puts a damaged copy of the record in place; mostly the record comes back after some calls.
    fn damaged(&mut self, session: &[u8]) -> Step {
        let mut bytes = session.to_vec();
        match self.rng.below(12) {
            0 => {
                let length = self.rng.below(SESSION_SIZE);
                bytes.truncate(length);
            }
            1 => {
                let built = damage::built_record(&mut self.rng);
                bytes[..SESSION_SIZE].copy_from_slice(&built);
            }
            _ => {
                for _ in 0..self.rng.pick(&[1, 1, 1, 2]) {
                    damage::record(&mut self.rng, &mut bytes);
                }
            }
        }
        if self.rng.percent(80) {
            self.put_back = Some((session.to_vec(), self.rng.within(1..=3)));
        }
        Step::Set(bytes)
    }

    /// A command buffer: mostly long enough, its contents random.
    fn buffer(&mut self) -> Vec<u8> {
        let length = if self.rng.one_in(self.profile.buffer) {
            self.rng.pick(&[0, 1, 259, 260, 261, 262, 263, 300])
        } else {
            261
        };
        self.rng.bytes(length)
    }

    fn start(&mut self, faults: bool) -> Step {
        Step::Start {
            terminal: terminal::start(&mut self.rng, faults),
            buffer: self.buffer(),
        }
    }

    fn answer(&mut self, session: &[u8], faults: bool) -> Step {
        Step::Answer {
            card: card::answer(&mut self.rng, session, faults),
            buffer: self.buffer(),
        }
    }

    /// Any call, in order or not. On a running session it is mostly a start, which is refused.
    fn any_call(&mut self, session: &[u8]) -> Step {
        let running = matches!(session.get(1), Some(1..=3 | 5));
        match self.rng.below(if running { 20 } else { 4 }) {
            0 => Step::LinkFailed {
                buffer: self.buffer(),
            },
            1 => Step::Stop {
                buffer: self.buffer(),
            },
            2 => {
                let faults = self.rng.one_in(2);
                self.answer(session, faults)
            }
            3 if self.rng.one_in(8) => Step::Open,
            _ => {
                let faults = self.rng.one_in(3);
                self.start(faults)
            }
        }
    }
}

fn profile(rng: &mut Rng) -> Profile {
    let mut profile = Profile {
        start: 0,
        answer: 0,
        give_up: 0,
        order: rng.pick(&[0, 0, 20]),
        buffer: rng.pick(&[0, 2, 4, 20]),
        damage: 0,
    };
    match rng.below(20) {
        0..=6 => {}
        7..=9 => profile.start = rng.pick(&[1, 2, 3]),
        10..=13 => profile.answer = rng.pick(&[2, 3, 6, 10]),
        14 => profile.give_up = rng.pick(&[3, 10]),
        15..=17 => profile.damage = rng.pick(&[2, 3, 6]),
        _ => {
            profile.start = 4;
            profile.answer = 8;
            profile.give_up = 40;
            profile.order = 10;
            profile.damage = 10;
        }
    }
    profile
}

/// The bytes to begin with, and mostly the opening; last step first.
fn opening(rng: &mut Rng) -> Vec<Step> {
    let length = match rng.below(30) {
        0 => rng.pick(&[0, 1, 5, 6, 7, SESSION_SIZE - 1, SESSION_SIZE - 2]),
        1 => rng.below(SESSION_SIZE),
        2..=4 => SESSION_SIZE + rng.within(1..=40),
        _ => SESSION_SIZE,
    };
    let mut bytes = rng.bytes(length);
    if length < SESSION_SIZE || rng.percent(85) {
        return vec![Step::Open, Step::Set(bytes)];
    }
    match rng.below(10) {
        0 => {}
        1 => bytes.fill(0),
        _ => {
            let built = damage::built_record(rng);
            bytes[..SESSION_SIZE].copy_from_slice(&built);
            if rng.one_in(3) {
                damage::record(rng, &mut bytes);
            }
        }
    }
    vec![Step::Set(bytes)]
}

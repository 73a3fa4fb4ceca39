//! The journal of one session: written from its calls, and checked (document 02, Item 1).
//!
//! A journal is records concatenated. A record is one byte of kind and a body of fixed size:
//!
//! | kind | record | body |
//! |---|---|---|
//! | 1 | start | length, 1,024 bytes |
//! | 2 | card answer | length, 258 bytes |
//! | 3, 4 | link failed, stop | none |
//! | 5 | command | length, 261 bytes |
//! | 6 | outcome | outcome, reason |
//!
//! A length has two bytes, high first, and body bytes after what it counts are zero. An answer of more than 258 bytes
//! is not kept: its length stands as FF FF and its body is zero. Calls that are refused are not in a journal; every
//! other call is followed by its command or outcome.

use alloc::vec;
use alloc::vec::Vec;

use crate::reason::Reason;
use crate::session::{self, Reply, Session, COMMAND_SIZE, SESSION_SIZE};

/// Room for the bytes of a start.
const START_ROOM: usize = 1024;

/// Room for the bytes of a card's answer.
const ANSWER_ROOM: usize = 258;

const START: u8 = 1;
const ANSWER: u8 = 2;
const LINK_FAILED: u8 = 3;
const STOP: u8 = 4;
const COMMAND: u8 = 5;
const OUTCOME: u8 = 6;

/// One of the four calls, with the bytes it brings.
#[derive(Clone, Copy, Debug, PartialEq, Eq)]
pub enum Call<'a> {
    /// Start, with the terminal's objects.
    Start(&'a [u8]),
    /// Answer, with the card's bytes and status.
    Answer(&'a [u8]),
    /// Link failed.
    LinkFailed,
    /// Stop.
    Stop,
}

/// What a check of a journal gives. Records count from 1.
#[derive(Clone, Copy, Debug, PartialEq, Eq)]
pub enum Verdict {
    /// A conforming kernel can have written these records, so many.
    Accepted(usize),
    /// The first record that no conforming kernel writes after those before it.
    Unlike(usize),
    /// The bytes end inside this record; those before it are conforming.
    Cut(usize),
}

/// Bytes of a record with its kind, or none if there is no such kind.
pub fn record_size(kind: u8) -> Option<usize> {
    match kind {
        START => Some(3 + START_ROOM),
        ANSWER => Some(3 + ANSWER_ROOM),
        LINK_FAILED | STOP => Some(1),
        COMMAND => Some(3 + COMMAND_SIZE),
        OUTCOME => Some(3),
        _ => None,
    }
}

/// Reports whether a conforming kernel can have written these bytes.
///
/// The end between two records is always conforming. A piece of a record of kind 1 to 6 is truncated,
/// whatever it holds.
pub fn check(bytes: &[u8]) -> Verdict {
    examine(bytes).0
}

/// The one record that a conforming kernel writes in place of the first mismatching one: the reply that was expected.
///
/// None where no record is a mismatch, and where a call was expected, since then none or more than one is conforming.
pub fn right_record(bytes: &[u8]) -> Option<Vec<u8>> {
    examine(bytes).1
}

/// The verdict, and the reply that was expected where a record is a mismatch.
fn examine(bytes: &[u8]) -> (Verdict, Option<Vec<u8>>) {
    let mut kernel = Kernel::fresh();
    let mut reply_due: Option<Vec<u8>> = None;
    let mut number = 0;
    let mut rest = bytes;
    while let Some(&kind) = rest.first() {
        number += 1;
        let Some(size) = record_size(kind) else {
            return (Verdict::Unlike(number), reply_due);
        };
        let Some((record, behind)) = rest.split_at_checked(size) else {
            return (Verdict::Cut(number), None);
        };
        reply_due = match reply_due {
            Some(reply) if reply == record => None,
            Some(_) => return (Verdict::Unlike(number), reply_due),
            None => match read_call(record).and_then(|call| kernel.make(call)) {
                Some(reply) => Some(reply),
                None => return (Verdict::Unlike(number), None),
            },
        };
        rest = behind;
    }
    (Verdict::Accepted(number), None)
}

/// The journal of these calls on a fresh session. A refused call is left out.
pub fn write(calls: &[Call]) -> Vec<u8> {
    let mut kernel = Kernel::fresh();
    let mut journal = Vec::new();
    for &call in calls {
        if let Some(reply) = kernel.make(call) {
            journal.extend(call_record(call));
            journal.extend(reply);
        }
    }
    journal
}

/// The model's session, from a fresh one on.
struct Kernel {
    session: [u8; SESSION_SIZE],
}

impl Kernel {
    fn fresh() -> Kernel {
        let mut session = [0; SESSION_SIZE];
        session::open(&mut session).expect("the bytes of a record");
        Kernel { session }
    }

    /// Makes a call with a buffer that is long enough: the record of its reply, or none if the call is refused.
    fn make(&mut self, call: Call) -> Option<Vec<u8>> {
        let mut buffer = [0; COMMAND_SIZE];
        let session = Session::load(&mut self.session, &buffer).ok()?;
        let reply = match call {
            Call::Start(terminal) => session.start(terminal, &mut buffer),
            Call::Answer(card) => session.answer(card, &mut buffer),
            Call::LinkFailed => session.give_up(Reason::LinkFailed),
            Call::Stop => session.give_up(Reason::Stopped),
        };
        Some(match reply.ok()? {
            Reply::Command(length) => filled_record(COMMAND, &buffer[..length]),
            // The CVM is not in a journal.
            Reply::Outcome(outcome, reason, _) => vec![OUTCOME, outcome as u8, reason],
        })
    }
}

/// The record of a call. A start that is not refused has at most 1,024 bytes.
fn call_record(call: Call) -> Vec<u8> {
    match call {
        Call::Start(terminal) => filled_record(START, terminal),
        Call::Answer(card) if card.len() > ANSWER_ROOM => {
            let mut record = filled_record(ANSWER, &[]);
            record[1..3].fill(0xFF);
            record
        }
        Call::Answer(card) => filled_record(ANSWER, card),
        Call::LinkFailed => vec![LINK_FAILED],
        Call::Stop => vec![STOP],
    }
}

/// A record of a kind with a length: the length, the bytes, zeros after.
fn filled_record(kind: u8, bytes: &[u8]) -> Vec<u8> {
    let mut record = vec![kind, (bytes.len() >> 8) as u8, bytes.len() as u8];
    record.extend(bytes);
    record.resize(record_size(kind).unwrap_or_default(), 0);
    record
}

/// The call that a whole record stands for, or none if it is a reply or breaks the format.
fn read_call(record: &[u8]) -> Option<Call<'_>> {
    match *record {
        [START, high, low, ref body @ ..] => counted(high, low, body).map(Call::Start),
        [ANSWER, 0xFF, 0xFF, ref body @ ..] => {
            // All answers over 258 bytes have the same reply, so any one of them will do.
            all_zero(body).then_some(Call::Answer(&[0; ANSWER_ROOM + 1]))
        }
        [ANSWER, high, low, ref body @ ..] => counted(high, low, body).map(Call::Answer),
        [LINK_FAILED] => Some(Call::LinkFailed),
        [STOP] => Some(Call::Stop),
        _ => None,
    }
}

/// The front of a body that its length counts, if the length fits and the bytes after are zero.
fn counted(high: u8, low: u8, body: &[u8]) -> Option<&[u8]> {
    let length = usize::from(u16::from_be_bytes([high, low]));
    let (front, behind) = body.split_at_checked(length)?;
    all_zero(behind).then_some(front)
}

fn all_zero(bytes: &[u8]) -> bool {
    bytes.iter().all(|&byte| byte == 0)
}

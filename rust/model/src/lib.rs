//! A plain Rust model of one contactless session, written from documents 01 and 02.
//!
//! The calls take the caller's bytes and give the result words of docs/HOST.md, so that a reply, a command buffer, a
//! count and the session's bytes can be compared byte for byte with the library.
//!
//! - `tlv`: one object at the front of some bytes, and the padding between objects
//! - `dictionary`, `store`: the known tags, and one fixed place for each
//! - `reason`: why a session ends early, and with which outcome
//! - `reading`: a card's answer into a store, whole or not at all
//! - `find`: the first object of a tag in a card's bytes
//! - `dol`, `locator`, `analysis`: DOLs, the AFL, TVR bits and choice
//! - `verification`: the CVM by the card's list
//! - `stripe`: the digits that go into the track of an old magnetic stripe card
//! - `session`: the session record, its ranges and its steps
//! - `explain`: why a session made its choice
//! - `journal`: the journal of a session, written from its calls and checked
//! - `lookup`: a start object out of a site's bytes, else out of the defaults
//! - `cabinet`: a vending cabinet's calls, with a cap on what is approved offline
//! - `personalise`: the card's side, records and AFL written from a list of objects

#![no_std]
#![forbid(unsafe_code)]

extern crate alloc;

pub mod afl;
pub mod analysis;
pub mod cabinet;
pub mod cvm;
pub mod dictionary;
pub mod dol;
pub mod explain;
pub mod find;
pub mod journal;
pub mod lookup;
pub mod mag_stripe;
pub mod personalise;
pub mod reading;
pub mod reason;
pub mod session;
pub mod store;
pub mod tlv;

pub use dictionary::STORE_SIZE;
pub use session::{COMMAND_SIZE, HEAD_SIZE, SESSION_SIZE};

use cvm::NOT_APPLICABLE;
use reading::AnswerTo;
use reason::Reason;
use session::{Refusal, Reply, Session};
use store::Store;

/// What `count` gives where the bytes hold no record.
pub const NO_COUNT: u32 = 0xFFFF_FFFF;

/// The result word of a call (docs/HOST.md).
fn word(reply: Result<Reply, Refusal>) -> u32 {
    match reply {
        Ok(Reply::Command(length)) => length as u32,
        Ok(Reply::Outcome(outcome, reason, method)) => {
            let method = method.map_or(NOT_APPLICABLE, |method| method as u8);
            u32::from(method) << 24 | 0x0001_0000 | (outcome as u32) << 8 | u32::from(reason)
        }
        Err(refusal) => 0x0002_0000 | refusal as u32,
    }
}

/// Bytes that a session record needs.
pub fn session_size() -> usize {
    SESSION_SIZE
}

/// Writes a fresh record: 0, or refusal 25 if the bytes are too few.
pub fn open(session: &mut [u8]) -> u32 {
    match session::open(session) {
        Ok(()) => 0,
        Err(refusal) => word(Err(refusal)),
    }
}

/// Starts a fresh session with the terminal's objects.
pub fn start(session: &mut [u8], terminal: &[u8], command: &mut [u8]) -> u32 {
    word(Session::load(session, command).and_then(|session| session.start(terminal, command)))
}

/// Takes a card's answer with its two status bytes.
pub fn answer(session: &mut [u8], card: &[u8], command: &mut [u8]) -> u32 {
    word(Session::load(session, command).and_then(|session| session.answer(card, command)))
}

/// Ends a running session because the link failed.
pub fn link_failed(session: &mut [u8], command: &mut [u8]) -> u32 {
    word(Session::load(session, command).and_then(|session| session.give_up(Reason::LinkFailed)))
}

/// Ends a running session because it is stopped.
pub fn stop(session: &mut [u8], command: &mut [u8]) -> u32 {
    word(Session::load(session, command).and_then(|session| session.give_up(Reason::Stopped)))
}

/// The count of commands handed out, or `NO_COUNT` where the bytes hold no record.
pub fn count(session: &[u8]) -> u32 {
    session::count(session).map_or(NO_COUNT, u32::from)
}

/// Why the session made its choice: the stage, the bit that forced it and who holds it, or a word that says what
/// there is instead.
pub fn explain(session: &[u8]) -> u32 {
    explain::word(explain::explain(session))
}

/// The first object of a tag in a card's bytes: place and length of its value, or a word that says why there is none.
pub fn find(bytes: &[u8], tag: u32) -> u64 {
    find::word(find::find(bytes, tag))
}

/// Reads one answer, status bytes included, into a store of any bytes. `file` is the record's, and counts for a
/// record alone.
///
/// Gives the reason (0 if none) and the number of objects in the answer's tree. Above file 10 the status alone counts.
pub fn read_answer(store: &mut Store, to: AnswerTo, file: u8, answer: &[u8]) -> (u8, u32) {
    let record = afl::Record { file, number: 1 };
    match reading::body(answer) {
        Err(reason) => (reason as u8, 0),
        Ok(_) if to == AnswerTo::Record && !record.is_read() => (0, 0),
        Ok(body) => {
            let (result, count) = reading::read(store, to, body);
            (result.map_or_else(|reason| reason as u8, |()| 0), count)
        }
    }
}

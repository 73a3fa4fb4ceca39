//! The vending cabinet (document 02, Item 14): one session at a time, and a cap on what is approved offline
//! since opening.
//!
//! The state is the kernel's record, then what is left of the cap and what is set aside for the running session, 8
//! bytes each, high byte first. Bytes after stay. The calls give the words of docs/HOST.md.

use crate::analysis;
use crate::dictionary::Object;
use crate::reason::{Outcome, Reason};
use crate::session::{self, Phase, Refusal, Reply, Session, COMMAND_SIZE, SESSION_SIZE};
use crate::store::Store;
use crate::word;

/// Bytes of the two amounts after the record.
pub const AMOUNTS_SIZE: usize = 16;

/// Bytes of a cabinet's state.
pub const STATE_SIZE: usize = SESSION_SIZE + AMOUNTS_SIZE;

/// The greatest cap, and the most that is left and set aside together: twelve digits.
pub const MOST_CAP: u64 = 999_999_999_999;

/// What `left` gives where the bytes hold no state.
pub const NO_LEFT: u64 = u64::MAX;

/// The two amounts of a state.
#[derive(Clone, Copy)]
struct Amounts {
    /// What is left of the cap.
    left: u64,
    /// What is set aside for the running session.
    aside: u64,
}

impl Amounts {
    fn of_bytes(bytes: &[u8; AMOUNTS_SIZE]) -> Amounts {
        let both = u128::from_be_bytes(*bytes);
        Amounts {
            left: (both >> 64) as u64,
            aside: both as u64,
        }
    }

    fn to_bytes(self) -> [u8; AMOUNTS_SIZE] {
        (u128::from(self.left) << 64 | u128::from(self.aside)).to_be_bytes()
    }

    fn total(self) -> u128 {
        u128::from(self.left) + u128::from(self.aside)
    }

    /// The amounts after a reply: an offline approval spends what is set aside, every other end gives it back.
    fn after(self, reply: Reply) -> Amounts {
        let back = match reply {
            Reply::Command(_) => return self,
            Reply::Outcome(Outcome::Approved, ..) => 0,
            Reply::Outcome(..) => self.aside,
        };
        Amounts {
            left: self.left + back,
            aside: 0,
        }
    }
}

/// Bytes that a state needs.
pub fn size() -> usize {
    STATE_SIZE
}

/// Writes a fresh session with all of the cap left, whatever the bytes held: 0, or refusal 25 or 31.
pub fn open(state: &mut [u8], cap: u64) -> u32 {
    match try_open(state, cap) {
        Ok(()) => 0,
        Err(refusal) => word(Err(refusal)),
    }
}

/// Starts a session, after an end a fresh one, and sets its amount aside.
pub fn start(state: &mut [u8], terminal: &[u8], command: &mut [u8]) -> u32 {
    word(try_start(state, terminal, command))
}

/// Takes a card's answer with its two status bytes.
pub fn answer(state: &mut [u8], card: &[u8], command: &mut [u8]) -> u32 {
    word(try_carry_on(state, command, |session, command| {
        session.answer(card, command)
    }))
}

/// Ends a running session because the link failed.
pub fn link_failed(state: &mut [u8], command: &mut [u8]) -> u32 {
    word(try_carry_on(state, command, |session, _| {
        session.give_up(Reason::LinkFailed)
    }))
}

/// Ends a running session because it is stopped.
pub fn stop(state: &mut [u8], command: &mut [u8]) -> u32 {
    word(try_carry_on(state, command, |session, _| {
        session.give_up(Reason::Stopped)
    }))
}

/// What is left of the cap, or `NO_LEFT` where the bytes hold no state.
pub fn left(state: &[u8]) -> u64 {
    look(state).map_or(NO_LEFT, |(_, amounts)| amounts.left)
}

fn try_open(state: &mut [u8], cap: u64) -> Result<(), Refusal> {
    let state: &mut [u8; STATE_SIZE] = state.first_chunk_mut().ok_or(Refusal::Record)?;
    if cap > MOST_CAP {
        return Err(Refusal::Cap);
    }
    session::open(state)?;
    let opened = Amounts {
        left: cap,
        aside: 0,
    };
    state[SESSION_SIZE..].copy_from_slice(&opened.to_bytes());
    Ok(())
}

/// The kernel's start on a copy of record and buffer, which is kept only where enough is left.
fn try_start(state: &mut [u8], terminal: &[u8], command: &mut [u8]) -> Result<Reply, Refusal> {
    let (phase, amounts) = load(state, command)?;
    let mut record: [u8; SESSION_SIZE] = *state.first_chunk().ok_or(Refusal::Record)?;
    let mut buffer: [u8; COMMAND_SIZE] = *command.first_chunk().ok_or(Refusal::Buffer)?;
    if let Phase::Ended { .. } = phase {
        session::open(&mut record)?;
    }
    let reply = Session::load(&mut record, &buffer)?.start(terminal, &mut buffer)?;
    let (_, store) = session::look(&record).ok_or(Refusal::Record)?;
    let aside = amount(store).ok_or(Refusal::StartMissing)?;
    let left = amounts.left.checked_sub(aside).ok_or(Refusal::NotEnough)?;
    let after = Amounts { left, aside }.after(reply);
    state[..SESSION_SIZE].copy_from_slice(&record);
    state[SESSION_SIZE..][..AMOUNTS_SIZE].copy_from_slice(&after.to_bytes());
    command[..COMMAND_SIZE].copy_from_slice(&buffer);
    Ok(reply)
}

/// A call of the kernel on the running session, with what its reply does to the amounts.
fn try_carry_on(
    state: &mut [u8],
    command: &mut [u8],
    call: impl FnOnce(Session, &mut [u8]) -> Result<Reply, Refusal>,
) -> Result<Reply, Refusal> {
    let (_, amounts) = load(state, command)?;
    let (record, behind) = state.split_at_mut(SESSION_SIZE);
    let reply = call(Session::load(record, command)?, command)?;
    behind[..AMOUNTS_SIZE].copy_from_slice(&amounts.after(reply).to_bytes());
    Ok(reply)
}

/// Phase and amounts of the state, once the refusals that all calls but open share are ruled out, in their order.
fn load(state: &[u8], command: &[u8]) -> Result<(Phase, Amounts), Refusal> {
    if command.len() < COMMAND_SIZE {
        return Err(Refusal::Buffer);
    }
    look(state).ok_or(Refusal::Record)
}

/// Phase and amounts of the state in `bytes`, or none if they hold none: the record is in its ranges, what is set aside
/// is the running session's 9F02, or 0 where none runs, and it is at most `MOST_CAP` with what is left.
fn look(bytes: &[u8]) -> Option<(Phase, Amounts)> {
    let (record, behind) = bytes.split_first_chunk::<SESSION_SIZE>()?;
    let amounts = Amounts::of_bytes(behind.first_chunk()?);
    let (phase, store) = session::look(record)?;
    let due = if phase.is_running() {
        amount(store)?
    } else {
        0
    };
    let kept = amounts.aside == due && amounts.total() <= u128::from(MOST_CAP);
    kept.then_some((phase, amounts))
}

/// The amount of a session: the number in its 9F02.
fn amount(store: &Store) -> Option<u64> {
    analysis::amount(store, Object::AmountAuthorised)
}

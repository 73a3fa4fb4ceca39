//! The library's calls over slices, with their result words as they are (docs/HOST.md).
//!
//! Each slice passes as its pointer and its length, so the calls are safe for slices of any length.
//! [`Session`](crate::Session) and [`find`](crate::find) take the words apart.

#![allow(unsafe_code)]

/// What [`count`] gives where the bytes hold no record.
pub const NO_COUNT: u32 = 0xFFFF_FFFF;

extern "C" {
    fn emv_session_size() -> usize;
    fn emv_open(session: *mut u8, session_len: usize) -> u32;
    fn emv_start(
        session: *mut u8,
        session_len: usize,
        terminal: *const u8,
        terminal_len: usize,
        command: *mut u8,
        command_len: usize,
    ) -> u32;
    fn emv_answer(
        session: *mut u8,
        session_len: usize,
        card: *const u8,
        card_len: usize,
        command: *mut u8,
        command_len: usize,
    ) -> u32;
    fn emv_link_failed(
        session: *mut u8,
        session_len: usize,
        command: *mut u8,
        command_len: usize,
    ) -> u32;
    fn emv_stop(session: *mut u8, session_len: usize, command: *mut u8, command_len: usize) -> u32;
    fn emv_count(session: *const u8, session_len: usize) -> u32;
    fn emv_explain(session: *const u8, session_len: usize) -> u32;
    fn emv_object(
        session: *const u8,
        session_len: usize,
        tag: u32,
        value: *mut u8,
        value_len: usize,
    ) -> u32;
    fn emv_find(bytes: *const u8, len: usize, tag: u32) -> u64;
    fn emv_wipe(session: *mut u8, session_len: usize) -> u32;
    fn emv_version() -> u32;
}

/// Bytes that a session record needs.
pub fn session_size() -> usize {
    // SAFETY: the call takes nothing and reads no memory of the host.
    unsafe { emv_session_size() }
}

/// Writes a fresh record: 0, or refusal 25 if the bytes are too few.
pub fn open(session: &mut [u8]) -> u32 {
    // SAFETY: pointer and length are those of one slice borrowed for writing.
    unsafe { emv_open(session.as_mut_ptr(), session.len()) }
}

/// Starts a fresh session.
pub fn start(session: &mut [u8], terminal: &[u8], command: &mut [u8]) -> u32 {
    // SAFETY: each pointer and length are those of one slice; those borrowed for writing overlap nothing.
    unsafe {
        emv_start(
            session.as_mut_ptr(),
            session.len(),
            terminal.as_ptr(),
            terminal.len(),
            command.as_mut_ptr(),
            command.len(),
        )
    }
}

/// Takes a card's answer with its two status bytes.
pub fn answer(session: &mut [u8], card: &[u8], command: &mut [u8]) -> u32 {
    // SAFETY: each pointer and length are those of one slice; those borrowed for writing overlap nothing.
    unsafe {
        emv_answer(
            session.as_mut_ptr(),
            session.len(),
            card.as_ptr(),
            card.len(),
            command.as_mut_ptr(),
            command.len(),
        )
    }
}

/// Ends a running session because the link failed.
pub fn link_failed(session: &mut [u8], command: &mut [u8]) -> u32 {
    // SAFETY: each pointer and length are those of one slice; both are borrowed for writing, so they do not overlap.
    unsafe {
        emv_link_failed(
            session.as_mut_ptr(),
            session.len(),
            command.as_mut_ptr(),
            command.len(),
        )
    }
}

/// Ends a running session because the host stops it.
pub fn stop(session: &mut [u8], command: &mut [u8]) -> u32 {
    // SAFETY: each pointer and length are those of one slice; both are borrowed for writing, so they do not overlap.
    unsafe {
        emv_stop(
            session.as_mut_ptr(),
            session.len(),
            command.as_mut_ptr(),
            command.len(),
        )
    }
}

/// The count of commands handed out, or [`NO_COUNT`] where the bytes hold no record.
pub fn count(session: &[u8]) -> u32 {
    // SAFETY: pointer and length are those of one slice, which the call only reads.
    unsafe { emv_count(session.as_ptr(), session.len()) }
}

/// Why the session is where it is.
pub fn explain(session: &[u8]) -> u32 {
    // SAFETY: pointer and length are those of one slice, which the call only reads.
    unsafe { emv_explain(session.as_ptr(), session.len()) }
}

/// Reads an object back: the length of its value, which is at the front of the caller's bytes then, or a word that
/// says why not.
pub fn object(session: &[u8], tag: u32, value: &mut [u8]) -> u32 {
    // SAFETY: each pointer and length are those of one slice; the one borrowed for writing overlaps nothing.
    unsafe {
        emv_object(
            session.as_ptr(),
            session.len(),
            tag,
            value.as_mut_ptr(),
            value.len(),
        )
    }
}

/// The first object of a tag in a card's bytes: place and length of its value, or a word that says
/// that there is none or that the bytes are malformed.
pub fn find(bytes: &[u8], tag: u32) -> u64 {
    // SAFETY: pointer and length are those of one slice, which the call only reads.
    unsafe { emv_find(bytes.as_ptr(), bytes.len(), tag) }
}

/// Writes 0 over all bytes: 0.
pub fn wipe(session: &mut [u8]) -> u32 {
    // SAFETY: pointer and length are those of one slice borrowed for writing.
    unsafe { emv_wipe(session.as_mut_ptr(), session.len()) }
}

/// The library's version in three bytes, and the record layout's in the lowest.
pub fn version() -> u32 {
    // SAFETY: the call takes nothing and reads no memory of the host.
    unsafe { emv_version() }
}

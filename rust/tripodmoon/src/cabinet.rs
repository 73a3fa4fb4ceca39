//! The vending cabinet: one session at a time, and a cap on what is approved offline since opening. Feature `cabinet`;
//! the library is `libcabinet.a`, an archive of its own.
//!
//! A [`Cabinet`] owns the bytes of one state. The start objects come out of two lists, the site's and the
//! maker's defaults:
//!
//! ```
//! use tripodmoon::cabinet::{find, lookup, Cabinet, Found};
//! use tripodmoon::{Reply, COMMAND_SIZE};
//!
//! let mut cabinet = Cabinet::open(1000).unwrap();
//! let mut buffer = [0; COMMAND_SIZE];
//! // An empty start lacks every mandatory object.
//! assert_eq!(cabinet.start(&[], &mut buffer), Reply::Refused(24));
//! assert_eq!(cabinet.left(), Some(1000));
//! // 9C of the site; 9F1A of the defaults.
//! let site = [0x9C, 0x01, 0x00];
//! let defaults = [0x9C, 0x01, 0x20, 0x9F, 0x1A, 0x02, 0x00, 0x56];
//! assert_eq!(lookup(&site, &defaults, 0x9C), Some(&[0x00][..]));
//! assert_eq!(lookup(&site, &defaults, 0x9F1A), Some(&[0x00, 0x56][..]));
//! assert_eq!(lookup(&site, &defaults, 0x9F35), Some(&[][..]));
//! // The same, with the list that has the tag.
//! assert_eq!(find(&site, &defaults, 0x9C), Some(Found::Site(&[0x00])));
//! assert_eq!(find(&site, &defaults, 0x9F35), Some(Found::Nowhere));
//! ```
//!
//! A refused call changes neither state nor buffer. An offline approval spends what the start set aside; every other
//! end gives it back. So approvals together never exceed the cap.

use crate::{reply, Reply, Session, SESSION_SIZE};
use core::fmt;

/// Bytes of the two amounts after the record: what is left, and what is set aside.
pub const AMOUNTS_SIZE: usize = 16;

/// Bytes of a cabinet's state.
pub const STATE_SIZE: usize = SESSION_SIZE + AMOUNTS_SIZE;

/// The greatest cap: twelve digits.
pub const MOST_CAP: u64 = 999_999_999_999;

/// The library's calls over slices, with their result words as they are (docs/HOST.md).
///
/// Each slice passes as its pointer and its length, so the calls are safe for slices of any length.
pub mod calls {
    #![allow(unsafe_code)]

    /// What [`left`] gives where the bytes hold no state.
    pub const NO_LEFT: u64 = u64::MAX;

    /// What [`find`] gives for too many bytes.
    pub const TOO_MANY: u64 = u64::MAX;

    /// The source where neither list has the tag: bits 16 and 17 of what [`find`] gives.
    pub const NOWHERE: u64 = 0;

    /// The source where the site's list has the tag.
    pub const SITE: u64 = 1;

    /// The source where the defaults have the tag and the site's list does not.
    pub const DEFAULTS: u64 = 2;

    extern "C" {
        fn cabinet_size() -> usize;
        fn cabinet_open(state: *mut u8, state_len: usize, cap: u64) -> u32;
        fn cabinet_start(
            state: *mut u8,
            state_len: usize,
            terminal: *const u8,
            terminal_len: usize,
            command: *mut u8,
            command_len: usize,
        ) -> u32;
        fn cabinet_answer(
            state: *mut u8,
            state_len: usize,
            card: *const u8,
            card_len: usize,
            command: *mut u8,
            command_len: usize,
        ) -> u32;
        fn cabinet_link_failed(
            state: *mut u8,
            state_len: usize,
            command: *mut u8,
            command_len: usize,
        ) -> u32;
        fn cabinet_stop(
            state: *mut u8,
            state_len: usize,
            command: *mut u8,
            command_len: usize,
        ) -> u32;
        fn cabinet_left(state: *const u8, state_len: usize) -> u64;
        fn cabinet_find(
            site: *const u8,
            site_len: usize,
            defaults: *const u8,
            defaults_len: usize,
            tag: u32,
        ) -> u64;
    }

    /// Bytes that a state needs.
    pub fn size() -> usize {
        // SAFETY: the call takes nothing and reads no memory of the host.
        unsafe { cabinet_size() }
    }

    /// Writes a fresh session with all of the cap left: 0, or refusal 25 or 31.
    pub fn open(state: &mut [u8], cap: u64) -> u32 {
        // SAFETY: pointer and length are those of one slice borrowed for writing.
        unsafe { cabinet_open(state.as_mut_ptr(), state.len(), cap) }
    }

    /// Starts a session, after an end a fresh one.
    pub fn start(state: &mut [u8], terminal: &[u8], command: &mut [u8]) -> u32 {
        // SAFETY: each pointer and length are those of one slice; those borrowed for writing overlap nothing.
        unsafe {
            cabinet_start(
                state.as_mut_ptr(),
                state.len(),
                terminal.as_ptr(),
                terminal.len(),
                command.as_mut_ptr(),
                command.len(),
            )
        }
    }

    /// Takes a card's answer with its two status bytes.
    pub fn answer(state: &mut [u8], card: &[u8], command: &mut [u8]) -> u32 {
        // SAFETY: each pointer and length are those of one slice; those borrowed for writing overlap nothing.
        unsafe {
            cabinet_answer(
                state.as_mut_ptr(),
                state.len(),
                card.as_ptr(),
                card.len(),
                command.as_mut_ptr(),
                command.len(),
            )
        }
    }

    /// Ends a running session because the link failed.
    pub fn link_failed(state: &mut [u8], command: &mut [u8]) -> u32 {
        // SAFETY: each pointer and length are those of one slice; both are borrowed for writing, so they do
        // not overlap.
        unsafe {
            cabinet_link_failed(
                state.as_mut_ptr(),
                state.len(),
                command.as_mut_ptr(),
                command.len(),
            )
        }
    }

    /// Ends a running session because the host stops it.
    pub fn stop(state: &mut [u8], command: &mut [u8]) -> u32 {
        // SAFETY: each pointer and length are those of one slice; both are borrowed for writing, so they do
        // not overlap.
        unsafe {
            cabinet_stop(
                state.as_mut_ptr(),
                state.len(),
                command.as_mut_ptr(),
                command.len(),
            )
        }
    }

    /// What is left of the cap, or [`NO_LEFT`] where the bytes hold no state.
    pub fn left(state: &[u8]) -> u64 {
        // SAFETY: pointer and length are those of one slice, which the call only reads.
        unsafe { cabinet_left(state.as_ptr(), state.len()) }
    }

    /// The value of a start object: its start, counted over the site's bytes and then the defaults', in bits 32 to 63,
    /// its source in bits 16 and 17 and its length in bits 0 to 15; or [`TOO_MANY`]. The source is [`NOWHERE`],
    /// [`SITE`] or [`DEFAULTS`].
    pub fn find(site: &[u8], defaults: &[u8], tag: u32) -> u64 {
        // SAFETY: each pointer and length are those of one slice, which the call only reads.
        unsafe {
            cabinet_find(
                site.as_ptr(),
                site.len(),
                defaults.as_ptr(),
                defaults.len(),
                tag,
            )
        }
    }
}

/// What a lookup finds: the list that has the tag, with the value in place, which may be empty.
#[derive(Clone, Copy, Debug, PartialEq, Eq)]
pub enum Found<'a> {
    /// The site's list has the tag.
    Site(&'a [u8]),
    /// The defaults have the tag, and the site's list does not.
    Defaults(&'a [u8]),
    /// Neither list has the tag.
    Nowhere,
}

/// The value of a start object and the list that has it: the site's if the site has one, an empty one too, else that of
/// the defaults. None where both have 2 to the 32 bytes or more together, which are not examined.
pub fn find<'a>(site: &'a [u8], defaults: &'a [u8], tag: u32) -> Option<Found<'a>> {
    let word = calls::find(site, defaults, tag);
    if word == calls::TOO_MANY {
        return None;
    }
    let [start, length] = [word >> 32, word & 0xFFFF].map(|part| part as usize);
    Some(match word >> 16 & 3 {
        calls::SITE => Found::Site(&site[start..][..length]),
        calls::DEFAULTS => Found::Defaults(&defaults[start - site.len()..][..length]),
        _ => Found::Nowhere,
    })
}

/// The value of a start object, in place: the site's if the site has one, an empty one too, else that of the defaults.
/// A tag in neither gives an empty part of the defaults; [`find`] tells it from an empty value. None where both have 2
/// to the 32 bytes or more together, which are not examined.
pub fn lookup<'a>(site: &'a [u8], defaults: &'a [u8], tag: u32) -> Option<&'a [u8]> {
    Some(match find(site, defaults, tag)? {
        Found::Site(value) | Found::Defaults(value) => value,
        Found::Nowhere => &defaults[..0],
    })
}

/// One cabinet: its state's bytes.
#[derive(Clone, PartialEq, Eq)]
pub struct Cabinet {
    bytes: [u8; STATE_SIZE],
}

impl Cabinet {
    /// A cabinet with a fresh session and all of its cap left; none where the cap is over [`MOST_CAP`] (refusal 31).
    ///
    /// # Panics
    ///
    /// If the linked library has another state size than [`STATE_SIZE`].
    pub fn open(cap: u64) -> Option<Cabinet> {
        assert_eq!(
            calls::size(),
            STATE_SIZE,
            "libcabinet.a has another state size"
        );
        let mut cabinet = Cabinet {
            bytes: [0; STATE_SIZE],
        };
        cabinet.reopen(cap).then_some(cabinet)
    }

    /// Opens anew with another cap, a running session or not; false where the cap is over [`MOST_CAP`], which
    /// changes nothing.
    pub fn reopen(&mut self, cap: u64) -> bool {
        calls::open(&mut self.bytes, cap) == 0
    }

    /// The cabinet whose state was kept with [`Cabinet::as_bytes`].
    ///
    /// Any bytes are taken; the next call is refused with 25 if they hold no state.
    pub fn from_bytes(bytes: [u8; STATE_SIZE]) -> Cabinet {
        Cabinet { bytes }
    }

    /// The state's bytes, to keep.
    pub fn as_bytes(&self) -> &[u8; STATE_SIZE] {
        &self.bytes
    }

    /// A copy of the session, to read its objects and why it is where it is.
    pub fn session(&self) -> Session {
        let (record, _) = self
            .bytes
            .split_first_chunk()
            .expect("a state has a record");
        Session::from_bytes(*record)
    }

    /// Starts a session with the terminal's objects, after an end a fresh one; its amount is set aside. Refused with 30
    /// where less is left.
    pub fn start<'b>(&mut self, terminal: &[u8], command: &'b mut [u8]) -> Reply<'b> {
        let word = calls::start(&mut self.bytes, terminal, command);
        reply(word, command)
    }

    /// Takes the card's answer, with its two status bytes, to the command handed out last.
    pub fn answer<'b>(&mut self, card: &[u8], command: &'b mut [u8]) -> Reply<'b> {
        let word = calls::answer(&mut self.bytes, card, command);
        reply(word, command)
    }

    /// Ends a running session because the link to the card failed.
    pub fn link_failed<'b>(&mut self, command: &'b mut [u8]) -> Reply<'b> {
        let word = calls::link_failed(&mut self.bytes, command);
        reply(word, command)
    }

    /// Ends a running session because the host stops it.
    pub fn stop<'b>(&mut self, command: &'b mut [u8]) -> Reply<'b> {
        let word = calls::stop(&mut self.bytes, command);
        reply(word, command)
    }

    /// What is left of the cap, or none where the bytes hold no state.
    pub fn left(&self) -> Option<u64> {
        Some(calls::left(&self.bytes)).filter(|&left| left != calls::NO_LEFT)
    }
}

impl fmt::Debug for Cabinet {
    /// The record holds card data, so only the session's phase and what is left are written.
    fn fmt(&self, f: &mut fmt::Formatter<'_>) -> fmt::Result {
        f.debug_struct("Cabinet")
            .field("phase", &self.bytes[1])
            .field("left", &self.left())
            .finish_non_exhaustive()
    }
}

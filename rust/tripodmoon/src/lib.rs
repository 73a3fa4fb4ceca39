//! Safe wrapper over the static library of the payment kernel session.
//!
//! A [`Session`] owns the 6,022 bytes of one session record. The host opens it, starts it with the
//! terminal's objects, sends each command it is handed to the card, and brings each answer back,
//! until an outcome comes:
//!
//! ```
//! use tripodmoon::{Reply, Session, COMMAND_SIZE};
//!
//! let mut session = Session::new();
//! let mut buffer = [0; COMMAND_SIZE];
//! // An empty start lacks every mandatory object.
//! assert_eq!(session.start(&[], &mut buffer), Reply::Refused(24));
//! assert_eq!(session.count(), Some(0));
//! ```
//!
//! A refused call changes neither session nor buffer. The buffer must have at least 261 bytes; a
//! shorter one is refused with number 22, never written past its end.
//!
//! The record is plain bytes without pointers: [`Session::as_bytes`] and [`Session::from_bytes`]
//! keep a session across power loss. Bytes that hold no record, or one outside its ranges, are
//! refused with number 25 at the next call.
//!
//! [`Session::explain`] explains a choice to the cashier. After an online request [`Session::object`] reads back what
//! is sent to the acquirer; [`Session::wipe`] forgets the session. [`find`] looks through other bytes of the card, as
//! the answer to SELECT:
//!
//! ```
//! use tripodmoon::{find, Found};
//!
//! let answer = [0x6F, 0x09, 0x84, 0x02, 0x41, 0x42, 0xA5, 0x03, 0x50, 0x01, 0x43];
//! assert_eq!(find(&answer, 0x50), Found::Value(&[0x43]));
//! assert_eq!(find(&answer, 0x9F38), Found::Absent);
//! assert_eq!(find(&answer[..10], 0x50), Found::Malformed);
//! ```
//!
//! The C calls, the result words and the record's layout are described in docs/HOST.md, the rules
//! of the session in docs/SPEC-MAP.md.
//!
//! With the feature `personalise` the module of that name writes a card's records and AFL, by a second archive; with
//! the feature `cabinet` the module of that name is a vending cabinet with a cap on offline approvals, by a third.

#![no_std]

#[cfg(feature = "cabinet")]
pub mod cabinet;
pub mod calls;
#[cfg(feature = "personalise")]
pub mod personalise;

use core::fmt;

/// Bytes of a session record.
pub const SESSION_SIZE: usize = 6022;

/// The longest command, and so the least length of a command buffer.
pub const COMMAND_SIZE: usize = 261;

/// How a session ends.
#[derive(Clone, Copy, Debug, PartialEq, Eq)]
pub enum Outcome {
    /// The card approved offline.
    Approved,
    /// The transaction goes online.
    OnlineRequest,
    /// Declined.
    Declined,
    /// Ended; the reason says why.
    Ended,
    /// Select the next application (reason 6).
    SelectNext,
}

impl Outcome {
    /// The outcome of its number in a result word.
    fn of_number(number: u8) -> Option<Outcome> {
        Some(match number {
            0 => Outcome::Approved,
            1 => Outcome::OnlineRequest,
            2 => Outcome::Declined,
            3 => Outcome::Ended,
            4 => Outcome::SelectNext,
            _ => return None,
        })
    }
}

impl fmt::Display for Outcome {
    fn fmt(&self, f: &mut fmt::Formatter<'_>) -> fmt::Result {
        f.write_str(match self {
            Outcome::Approved => "approved",
            Outcome::OnlineRequest => "online request",
            Outcome::Declined => "declined",
            Outcome::Ended => "ended",
            Outcome::SelectNext => "select next",
        })
    }
}

/// The CVM that an outcome reports. The host carries it out.
#[derive(Clone, Copy, Debug, PartialEq, Eq)]
pub enum Method {
    /// None: the card does not support verification, none was wanted, or none succeeded; 9F34 and 95 say which.
    NoCvm,
    /// The cardholder signs.
    Signature,
    /// The PIN goes online.
    OnlinePin,
    /// The cardholder's own device has verified the holder; there is nothing to carry out.
    ConfirmationCodeVerified,
    /// A PIN that the card checks, which 9F33 says is supported. Nobody has checked it.
    OfflinePin,
    /// No CVM was chosen: the session ended before, or the card has no EMV mode.
    NotApplicable,
}

impl Method {
    /// The CVM of its number in a result word.
    fn of_number(number: u8) -> Option<Method> {
        Some(match number {
            0 => Method::NoCvm,
            1 => Method::Signature,
            2 => Method::OnlinePin,
            3 => Method::ConfirmationCodeVerified,
            4 => Method::OfflinePin,
            15 => Method::NotApplicable,
            _ => return None,
        })
    }
}

impl fmt::Display for Method {
    /// The words are those of the program `replay`.
    fn fmt(&self, f: &mut fmt::Formatter<'_>) -> fmt::Result {
        f.write_str(match self {
            Method::NoCvm => "no CVM",
            Method::Signature => "signature",
            Method::OnlinePin => "online PIN",
            Method::ConfirmationCodeVerified => "confirmation code verified",
            Method::OfflinePin => "offline PIN",
            Method::NotApplicable => "not applicable",
        })
    }
}

/// What a call returns. `'b` is the lifetime of the borrowed command buffer.
#[derive(Clone, Copy, Debug, PartialEq, Eq)]
pub enum Reply<'b> {
    /// A command to send to the card. It is at the front of the buffer.
    Command(&'b [u8]),
    /// The session has ended.
    Outcome {
        /// How it ended.
        outcome: Outcome,
        /// 0 where a decision was reached, else 1 to 11 (see [`reason_text`]).
        reason: u8,
        /// The CVM.
        method: Method,
    },
    /// The call was refused, 20 to 25, and by a cabinet 30 (see [`refusal_text`]); session and buffer are as before.
    Refused(u8),
}

/// The most bytes that a value has.
pub const MOST_VALUE: usize = 254;

/// What a session says of an object. `'b` is the lifetime of the borrowed bytes for its value.
#[derive(Clone, Copy, Debug, PartialEq, Eq)]
pub enum Object<'b> {
    /// Its value, which may be empty. It is at the front of the caller's bytes.
    Value(&'b [u8]),
    /// The session does not hold it.
    Absent,
    /// The dictionary does not have the tag.
    Unknown,
    /// Its value has so many bytes, and the caller provides fewer.
    Needed(usize),
    /// The call was refused with 25: the bytes hold no record within its ranges.
    Refused(u8),
}

/// The stage that decided a choice.
#[derive(Clone, Copy, Debug, PartialEq, Eq)]
pub enum Stage {
    /// The denial codes, 9F0E and DF8121.
    Denial,
    /// The type of a terminal that is online only; it has no codes.
    OnlineOnly,
    /// The default codes, 9F0D and DF8120.
    Default,
    /// The online codes, 9F0F and DF8122.
    Online,
}

impl Stage {
    /// The stage of its number in a result word.
    fn of_number(number: u8) -> Option<Stage> {
        Some(match number {
            0 => Stage::Denial,
            1 => Stage::OnlineOnly,
            2 => Stage::Default,
            3 => Stage::Online,
            _ => return None,
        })
    }
}

/// Whose action code holds a bit.
#[derive(Clone, Copy, Debug, PartialEq, Eq)]
pub enum Holder {
    /// The card's code alone; an absent one counts as document 01 says.
    Card,
    /// The terminal's code alone.
    Terminal,
    /// Both codes.
    Both,
}

impl Holder {
    /// The holder of its number in a result word.
    fn of_number(number: u8) -> Option<Holder> {
        Some(match number {
            1 => Holder::Card,
            2 => Holder::Terminal,
            3 => Holder::Both,
            _ => return None,
        })
    }
}

/// Why a session is where it is.
#[derive(Clone, Copy, Debug, PartialEq, Eq)]
pub enum Explanation {
    /// A bit of 95 forced the choice.
    Forced {
        /// The stage that decided.
        stage: Stage,
        /// The lowest bit that is set and held there: 0 is byte 1 b8, 39 is byte 5 b1.
        bit: u8,
        /// Whose code holds it.
        holder: Holder,
    },
    /// No bit forced the choice; this stage was consulted last.
    Unforced(Stage),
    /// The card gave a lower cryptogram than the one requested.
    LowerCryptogram,
    /// No choice was made yet, or none is: mag-stripe mode.
    NoChoice,
    /// The session ended with a reason other than 0 (see [`reason_text`]).
    Reason(u8),
    /// The call was refused with 25: the bytes hold no record within its ranges, or one that lacks what
    /// the answer needs, or whose choice or outcome the rest of it does not give.
    Refused(u8),
}

/// What a search of a card's bytes finds.
#[derive(Clone, Copy, Debug, PartialEq, Eq)]
pub enum Found<'c> {
    /// The value of the first object of the tag.
    Value(&'c [u8]),
    /// No object has the tag.
    Absent,
    /// The bytes are malformed, nest more than four levels, or are over 65,535.
    Malformed,
}

/// The first object of a tag in a card's bytes, templates counted and before what they hold.
pub fn find(bytes: &[u8], tag: u32) -> Found<'_> {
    match calls::find(bytes, tag) {
        u64::MAX => Found::Absent,
        word if word == u64::MAX - 1 => Found::Malformed,
        word => {
            let [place, length] = [word >> 32, word & 0xFFFF_FFFF].map(|half| half as usize);
            Found::Value(&bytes[place..place + length])
        }
    }
}

/// The version of the linked library, and of the record's layout.
#[derive(Clone, Copy, Debug, PartialEq, Eq)]
pub struct Version {
    /// The library's first part.
    pub major: u8,
    /// The library's second part.
    pub minor: u8,
    /// The library's third part.
    pub patch: u8,
    /// The record layout's version, the first byte of every record.
    pub layout: u8,
}

/// The version of the linked library.
pub fn version() -> Version {
    let [major, minor, patch, layout] = calls::version().to_be_bytes();
    Version {
        major,
        minor,
        patch,
        layout,
    }
}

/// What a reason means; 0 is none. The words are those of the program `replay`.
pub fn reason_text(reason: u8) -> &'static str {
    match reason {
        0 => "none",
        1 => "status of the card is not 90 00",
        2 => "answer is malformed",
        3 => "object that the card may not set so",
        4 => "mandatory object not sent by the card",
        5 => "Application File Locator breaks a rule",
        6 => "amount over the reader's transaction limit",
        7 => "PDOL, CDOL1 or UDOL cannot be filled",
        8 => "cryptogram of a type not asked for",
        9 => "no link to the card",
        10 => "stopped by the terminal",
        11 => "card without EMV mode, and mag-stripe mode is off",
        _ => "unknown reason",
    }
}

/// What a refusal means, in the same words as `replay`; 30 and 31 are a cabinet's.
pub fn refusal_text(number: u8) -> &'static str {
    match number {
        20 => "more than 1,024 start bytes, or other than whole primitive objects",
        21 => "wrong phase",
        22 => "command buffer shorter than 261 bytes",
        23 => "start object not allowed",
        24 => "mandatory start object missing",
        25 => "session record out of its ranges",
        30 => "less left of the cap than the amount",
        31 => "cap over 999,999,999,999",
        _ => "unknown refusal",
    }
}

/// One session: its record of 6,022 bytes.
#[derive(Clone, PartialEq, Eq)]
pub struct Session {
    bytes: [u8; SESSION_SIZE],
}

impl Session {
    /// A fresh session.
    ///
    /// # Panics
    ///
    /// If the linked library has another record size than [`SESSION_SIZE`].
    pub fn new() -> Session {
        assert_eq!(
            calls::session_size(),
            SESSION_SIZE,
            "libhost.a has another record size"
        );
        let mut session = Session {
            bytes: [0; SESSION_SIZE],
        };
        let word = calls::open(&mut session.bytes);
        assert_eq!(word, 0, "libhost.a refused to open a session");
        session
    }

    /// The session whose record was kept with [`Session::as_bytes`].
    ///
    /// Any bytes are taken; the next call is refused with 25 if they hold no record within its ranges.
    pub fn from_bytes(bytes: [u8; SESSION_SIZE]) -> Session {
        Session { bytes }
    }

    /// The record's bytes, to keep.
    pub fn as_bytes(&self) -> &[u8; SESSION_SIZE] {
        &self.bytes
    }

    /// Starts a fresh session with the terminal's objects; hands out GET PROCESSING OPTIONS.
    pub fn start<'b>(&mut self, terminal: &[u8], command: &'b mut [u8]) -> Reply<'b> {
        let word = calls::start(&mut self.bytes, terminal, command);
        reply(word, command)
    }

    /// Takes the card's answer, with its two status bytes, to the command handed out last.
    pub fn answer<'b>(&mut self, card: &[u8], command: &'b mut [u8]) -> Reply<'b> {
        let word = calls::answer(&mut self.bytes, card, command);
        reply(word, command)
    }

    /// Ends a running session because the link to the card failed.
    pub fn link_failed<'b>(&mut self, command: &'b mut [u8]) -> Reply<'b> {
        let word = calls::link_failed(&mut self.bytes, command);
        reply(word, command)
    }

    /// Ends a running session because the host stops it.
    pub fn stop<'b>(&mut self, command: &'b mut [u8]) -> Reply<'b> {
        let word = calls::stop(&mut self.bytes, command);
        reply(word, command)
    }

    /// Reads an object back by its tag, as 0x9F26, into the caller's bytes; [`MOST_VALUE`] of them are always enough.
    /// All but a value leave them as they were.
    pub fn object<'b>(&self, tag: u32, value: &'b mut [u8]) -> Object<'b> {
        let word = calls::object(&self.bytes, tag, value);
        let [_, kind, high, low] = word.to_be_bytes();
        let length = usize::from(u16::from_be_bytes([high, low]));
        match kind {
            0 => Object::Value(&value[..length]),
            2 => Object::Refused(low),
            3 => Object::Absent,
            4 => Object::Unknown,
            5 => Object::Needed(length),
            _ => panic!("libhost.a gave an unknown result word"),
        }
    }

    /// Why the session is where it is: the stage that decided its choice, the lowest bit that forced it and
    /// whose code holds that bit.
    ///
    /// ```
    /// use tripodmoon::{Explanation, Session};
    ///
    /// assert_eq!(Session::new().explain(), Explanation::NoChoice);
    /// ```
    pub fn explain(&self) -> Explanation {
        let word = calls::explain(&self.bytes);
        let [_, kind, high, low] = word.to_be_bytes();
        match kind {
            2 => Explanation::Refused(low),
            3 => Explanation::Reason(low),
            4 => Explanation::NoChoice,
            5 => Explanation::LowerCryptogram,
            6 => {
                let stage = Stage::of_number(high / 16).expect("libhost.a gave an unknown stage");
                match low {
                    255 => Explanation::Unforced(stage),
                    bit => Explanation::Forced {
                        stage,
                        bit,
                        holder: Holder::of_number(high % 16)
                            .expect("libhost.a gave an unknown holder"),
                    },
                }
            }
            _ => panic!("libhost.a gave an unknown result word"),
        }
    }

    /// Writes 0 over the record, which is none then: every later call is refused with 25.
    pub fn wipe(&mut self) {
        calls::wipe(&mut self.bytes);
    }

    /// The count of commands handed out, or none where the bytes hold no record.
    pub fn count(&self) -> Option<u8> {
        u8::try_from(calls::count(&self.bytes)).ok()
    }
}

impl Default for Session {
    fn default() -> Session {
        Session::new()
    }
}

impl fmt::Debug for Session {
    /// The record holds card data, so only phase and count are written.
    fn fmt(&self, f: &mut fmt::Formatter<'_>) -> fmt::Result {
        f.debug_struct("Session")
            .field("phase", &self.bytes[1])
            .field("count", &self.bytes[4])
            .finish_non_exhaustive()
    }
}

/// Takes a result word apart (docs/HOST.md).
fn reply(word: u32, command: &[u8]) -> Reply<'_> {
    let [method, kind, high, low] = word.to_be_bytes();
    match kind {
        0 => Reply::Command(&command[..usize::from(u16::from_be_bytes([high, low]))]),
        1 => Reply::Outcome {
            outcome: Outcome::of_number(high).expect("libhost.a gave an unknown outcome"),
            reason: low,
            method: Method::of_number(method).expect("libhost.a gave an unknown method"),
        },
        2 => Reply::Refused(low),
        _ => panic!("libhost.a gave an unknown result word"),
    }
}

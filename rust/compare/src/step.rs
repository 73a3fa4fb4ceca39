//! One step of a session, and its text form for a replay.

use std::fmt;

/// A step: the host puts other bytes in the session's place, or makes a call.
#[derive(Clone, Debug, PartialEq, Eq)]
pub enum Step {
    /// Puts these bytes in the session's place.
    Set(Vec<u8>),
    /// Opens the session.
    Open,
    /// Starts with these bytes; the caller's buffer has these contents.
    Start {
        /// Start bytes.
        terminal: Vec<u8>,
        /// Command buffer before the call.
        buffer: Vec<u8>,
    },
    /// Answers with these bytes.
    Answer {
        /// Card bytes.
        card: Vec<u8>,
        /// Command buffer before the call.
        buffer: Vec<u8>,
    },
    /// Link failed.
    LinkFailed {
        /// Command buffer before the call.
        buffer: Vec<u8>,
    },
    /// Stop.
    Stop {
        /// Command buffer before the call.
        buffer: Vec<u8>,
    },
}

/// Bytes as hexadecimal text; `-` for none.
pub struct Hex<'a>(pub &'a [u8]);

impl fmt::Display for Hex<'_> {
    fn fmt(&self, f: &mut fmt::Formatter<'_>) -> fmt::Result {
        if self.0.is_empty() {
            return f.write_str("-");
        }
        self.0.iter().try_for_each(|byte| write!(f, "{byte:02X}"))
    }
}

impl fmt::Display for Step {
    fn fmt(&self, f: &mut fmt::Formatter<'_>) -> fmt::Result {
        match self {
            Step::Set(bytes) => write!(f, "set {}", Hex(bytes)),
            Step::Open => write!(f, "open"),
            Step::Start { terminal, buffer } => {
                write!(f, "start {} {}", Hex(terminal), Hex(buffer))
            }
            Step::Answer { card, buffer } => write!(f, "answer {} {}", Hex(card), Hex(buffer)),
            Step::LinkFailed { buffer } => write!(f, "link_failed {}", Hex(buffer)),
            Step::Stop { buffer } => write!(f, "stop {}", Hex(buffer)),
        }
    }
}

/// Bytes of a text that `Hex` wrote.
fn unhex(text: &str) -> Option<Vec<u8>> {
    if text == "-" {
        return Some(Vec::new());
    }
    if !text.is_ascii() || !text.len().is_multiple_of(2) {
        return None;
    }
    (0..text.len() / 2)
        .map(|i| u8::from_str_radix(&text[2 * i..2 * i + 2], 16).ok())
        .collect()
}

impl Step {
    /// The step of a line that `Display` wrote.
    pub fn parse(line: &str) -> Option<Step> {
        let words: Vec<&str> = line.split_whitespace().collect();
        Some(match *words.as_slice() {
            ["set", bytes] => Step::Set(unhex(bytes)?),
            ["open"] => Step::Open,
            ["start", terminal, buffer] => Step::Start {
                terminal: unhex(terminal)?,
                buffer: unhex(buffer)?,
            },
            ["answer", card, buffer] => Step::Answer {
                card: unhex(card)?,
                buffer: unhex(buffer)?,
            },
            ["link_failed", buffer] => Step::LinkFailed {
                buffer: unhex(buffer)?,
            },
            ["stop", buffer] => Step::Stop {
                buffer: unhex(buffer)?,
            },
            _ => return None,
        })
    }
}

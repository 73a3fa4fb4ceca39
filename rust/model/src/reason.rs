//! Why a session ends early, and with which outcome (document 01, "Calls and their numbers").

/// The reasons that end a running session, by their numbers.
#[derive(Clone, Copy, Debug, PartialEq, Eq)]
#[repr(u8)]
pub enum Reason {
    /// The card's status word says no success.
    Status = 1,
    /// The answer's length, encoding, outer tag or body is wrong.
    Malformed = 2,
    /// The card sent an object that it may not set so, or its track has no place for the digits.
    NotAllowed = 3,
    /// The card left out an object that the next step needs.
    Missing = 4,
    /// An entry of 94 breaks a rule, or it names too many records.
    Locator = 5,
    /// 9F02 is greater than the transaction limit.
    Limit = 6,
    /// 9F38, 8C or 9F69 is broken, or fills to a length that its command cannot carry.
    DataList = 7,
    /// 9F27 has a type that was not requested.
    CryptogramType = 8,
    /// The host lost the card.
    LinkFailed = 9,
    /// The host gave up.
    Stopped = 10,
    /// 82 indicates that the card has no EMV mode, and DF811B that the reader has no stripe mode.
    NotEmvMode = 11,
}

impl Reason {
    /// All reasons, from number 1 on.
    const ALL: [Reason; 11] = [
        Reason::Status,
        Reason::Malformed,
        Reason::NotAllowed,
        Reason::Missing,
        Reason::Locator,
        Reason::Limit,
        Reason::DataList,
        Reason::CryptogramType,
        Reason::LinkFailed,
        Reason::Stopped,
        Reason::NotEmvMode,
    ];

    /// The reason of a number, if there is one.
    pub fn of_number(number: u8) -> Option<Reason> {
        Self::ALL.into_iter().find(|&reason| reason as u8 == number)
    }

    /// The outcome that goes with the reason.
    pub fn outcome(self) -> Outcome {
        match self {
            Reason::Limit => Outcome::SelectNext,
            _ => Outcome::Ended,
        }
    }
}

/// How a session ends, by the numbers of docs/HOST.md.
#[derive(Clone, Copy, Debug, PartialEq, Eq)]
#[repr(u8)]
pub enum Outcome {
    /// Approved offline.
    Approved = 0,
    /// Online request.
    OnlineRequest = 1,
    /// Declined.
    Declined = 2,
    /// Ended for a reason.
    Ended = 3,
    /// Another application is to be selected: the amount is above the limit.
    SelectNext = 4,
}

/// Whether an outcome and a reason, both by number, go together. Reason 0 is none: the session reached a decision.
pub fn go_together(outcome: u8, reason: u8) -> bool {
    match Reason::of_number(reason) {
        Some(reason) => outcome == reason.outcome() as u8,
        None => reason == 0 && outcome <= Outcome::Declined as u8,
    }
}

//! Why a choice was made, for the cashier (document 02, Item 7).
//!
//! The choice is recomputed from the stored TVR, terminal type and action codes. A record that does not give its own
//! choice or outcome is not explained. How the TVR came about is not examined. A session in stripe mode makes no choice
//! (document 02, Item 9).

use crate::analysis::Choice;
use crate::dictionary::Object;
use crate::reason::Outcome;
use crate::session::{self, Phase, Refusal};
use crate::store::{self, Store};

/// What there is to say of a session.
#[derive(Clone, Copy, Debug, PartialEq, Eq)]
pub enum Explanation {
    /// The session ended with this reason, which is not 0.
    Ended(u8),
    /// No choice has been made yet, or none is made: the card has no EMV mode.
    NoChoice,
    /// The card gave a lower cryptogram than was requested.
    LowerCryptogram,
    /// The stage that decided, and the bit that forced the choice if one did.
    Decided(Stage, Option<Bit>),
}

/// The stages of the action analysis, by number.
#[derive(Clone, Copy, Debug, PartialEq, Eq)]
#[repr(u8)]
pub enum Stage {
    /// The denial codes, 9F0E and DF8121.
    Denial = 0,
    /// The terminal is online only.
    OnlineOnlyType = 1,
    /// The default codes, 9F0D and DF8120, of a terminal that is offline only.
    Default = 2,
    /// The online codes, 9F0F and DF8122.
    Online = 3,
}

/// A bit of 95 that forced a choice.
#[derive(Clone, Copy, Debug, PartialEq, Eq)]
pub struct Bit {
    /// 0 is byte 1 b8, 39 is byte 5 b1.
    pub number: u8,
    /// Whose action code holds it.
    pub holder: Holder,
}

/// Whose action code holds a bit, by number. 0 is nobody, where no bit forced the choice.
#[derive(Clone, Copy, Debug, PartialEq, Eq)]
#[repr(u8)]
pub enum Holder {
    /// The card's.
    Card = 1,
    /// The terminal's.
    Terminal = 2,
    /// Both.
    Both = 3,
}

/// A choice as it follows from the store.
struct Analysis {
    choice: Choice,
    stage: Stage,
    bit: Option<Bit>,
}

/// Bits of 95 and of each action code.
const BITS: u8 = 40;

/// Explains the session in `bytes`.
pub fn explain(bytes: &[u8]) -> Result<Explanation, Refusal> {
    let (phase, store) = session::look(bytes).ok_or(Refusal::Record)?;
    let explanation = match phase {
        Phase::Fresh | Phase::Options | Phase::Record { .. } | Phase::Checksum { .. } => {
            Some(Explanation::NoChoice)
        }
        Phase::Cryptogram { choice, .. } => explain_choice(store, choice),
        Phase::Ended { reason: 0, .. } if session::without_emv_mode(store) => {
            Some(Explanation::NoChoice)
        }
        Phase::Ended { outcome, reason: 0 } => explain_outcome(store, outcome),
        Phase::Ended { reason, .. } => Some(Explanation::Ended(reason)),
    };
    explanation.ok_or(Refusal::Record)
}

/// The explanation as a word (docs/HOST.md).
pub fn word(explanation: Result<Explanation, Refusal>) -> u32 {
    match explanation {
        Err(refusal) => 0x0002_0000 + refusal as u32,
        Ok(Explanation::Ended(reason)) => 0x0003_0000 + u32::from(reason),
        Ok(Explanation::NoChoice) => 0x0004_0000,
        Ok(Explanation::LowerCryptogram) => 0x0005_0000,
        Ok(Explanation::Decided(stage, bit)) => {
            let (holder, number) = bit.map_or((0, 255), |bit| (bit.holder as u32, bit.number));
            0x0006_0000 + stage as u32 * 4096 + holder * 256 + u32::from(number)
        }
    }
}

/// Explains a choice that the session holds; none if its store gives another one.
fn explain_choice(store: &Store, held: Choice) -> Option<Explanation> {
    let Analysis { choice, stage, bit } = analyse(store)?;
    (choice == held).then_some(Explanation::Decided(stage, bit))
}

/// Explains an outcome with reason 0; none if the choice and 9F27 do not give it.
fn explain_outcome(store: &Store, outcome: u8) -> Option<Explanation> {
    let Analysis { choice, stage, bit } = analyse(store)?;
    let &[information] = store::get_fixed(store, Object::CryptogramInformation)?;
    let given = session::decision(information, choice)?;
    if given as u8 != outcome {
        None
    } else if rank_given(given) < rank_asked(choice) {
        Some(Explanation::LowerCryptogram)
    } else {
        Some(Explanation::Decided(stage, bit))
    }
}

/// The rank of the cryptogram that a choice requests: AAC, then ARQC, then TC.
fn rank_asked(choice: Choice) -> u8 {
    match choice {
        Choice::Decline => 0,
        Choice::Online => 1,
        Choice::Offline => 2,
    }
}

/// The rank of the cryptogram that an outcome came with.
fn rank_given(outcome: Outcome) -> u8 {
    match outcome {
        Outcome::Approved => 2,
        Outcome::OnlineRequest => 1,
        Outcome::Declined | Outcome::Ended | Outcome::SelectNext => 0,
    }
}

/// Works the choice out again, stage by stage; none if something that a stage consulted needs is absent.
fn analyse(store: &Store) -> Option<Analysis> {
    let result = bits_of(store, Object::VerificationResults)?;
    let found = |choice, stage, bit| Some(Analysis { choice, stage, bit });

    let denial_card = bits_of(store, Object::IssuerActionDenial).unwrap_or(0);
    let denial_terminal = bits_of(store, Object::TerminalActionDenial)?;
    if let Some(bit) = lowest(result, denial_card, denial_terminal) {
        return found(Choice::Decline, Stage::Denial, Some(bit));
    }
    let all = (1 << BITS) - 1;
    let &[terminal_type] = store::get_fixed(store, Object::TerminalType)?;
    match terminal_type % 16 {
        1 | 4 => found(Choice::Online, Stage::OnlineOnlyType, None),
        3 | 6 => {
            let card = bits_of(store, Object::IssuerActionDefault).unwrap_or(all);
            let terminal = bits_of(store, Object::TerminalActionDefault)?;
            let bit = lowest(result, card, terminal);
            let choice = bit.map_or(Choice::Offline, |_| Choice::Decline);
            found(choice, Stage::Default, bit)
        }
        2 | 5 => {
            let card = bits_of(store, Object::IssuerActionOnline).unwrap_or(all);
            let terminal = bits_of(store, Object::TerminalActionOnline)?;
            let bit = lowest(result, card, terminal);
            let choice = bit.map_or(Choice::Offline, |_| Choice::Online);
            found(choice, Stage::Online, bit)
        }
        _ => None,
    }
}

/// The five bytes of an object as one number of 40 bits, byte 1 b8 highest; none if it is absent.
fn bits_of(store: &Store, object: Object) -> Option<u64> {
    let bytes: &[u8; 5] = store::get_fixed(store, object)?;
    Some(
        bytes
            .iter()
            .fold(0, |bits, &byte| bits << 8 | u64::from(byte)),
    )
}

/// The lowest-numbered bit that is set in the TVR and held by a code of the pair.
fn lowest(result: u64, card: u64, terminal: u64) -> Option<Bit> {
    (0..BITS).find_map(|number| {
        let has = |bits: u64| bits >> (BITS - 1 - number) & 1 == 1;
        let holder = match (has(card), has(terminal)) {
            (true, true) => Holder::Both,
            (true, false) => Holder::Card,
            (false, true) => Holder::Terminal,
            (false, false) => return None,
        };
        has(result).then_some(Bit { number, holder })
    })
}

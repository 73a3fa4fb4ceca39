//! Cardholder verification: the choice of a CVM, for on-device CVM by the amount and else by the card's list (document
//! 02, Items 5 and 8; Book C-2, 7.5, CVM.1 to CVM.25).
//!
//! The list, 8E, is two amounts X and Y of four bytes each, and then rules of two bytes: a code and a condition. In a
//! code the low six bits name the CVM, b7 indicates that the next rule applies where this one does not succeed, and b8
//! is reserved.

use crate::analysis;
use crate::dictionary::Object;
use crate::store::{self, Store};

/// The CVM that the outcome reports (Book C-2, A.1.117).
#[derive(Clone, Copy, Debug, PartialEq, Eq)]
#[repr(u8)]
pub enum Method {
    /// No CVM.
    NoCvm = 0,
    /// The cardholder signs.
    Signature = 1,
    /// The PIN goes online to the issuer.
    OnlinePin = 2,
    /// The cardholder's own device has verified the holder.
    ConfirmationCodeVerified = 3,
    /// A PIN that the card checks. Book C-2 leaves the number free; nobody has checked anything yet.
    OfflinePin = 4,
}

/// The number of "not applicable": no CVM was chosen.
pub const NOT_APPLICABLE: u8 = 15;

impl Method {
    /// All CVMs.
    pub const ALL: [Method; 5] = [
        Method::NoCvm,
        Method::Signature,
        Method::OnlinePin,
        Method::ConfirmationCodeVerified,
        Method::OfflinePin,
    ];

    /// The CVM of a number, if there is one. "Not applicable" is none.
    pub fn of_number(number: u8) -> Option<Method> {
        Self::ALL.into_iter().find(|&method| method as u8 == number)
    }
}

/// What a selection gives.
#[derive(Clone, Copy, Debug, PartialEq, Eq)]
pub struct Selection {
    /// CVM Results, 9F34: code and condition performed, and the result (0 unknown, 1 failed, 2 successful).
    pub results: [u8; 3],
    /// The bits that are added to 95.
    pub bits: [u8; 5],
    /// The CVM.
    pub method: Method,
}

/// A branch on the way of a selection, for tests that count what they reach.
#[derive(Clone, Copy, Debug, PartialEq, Eq)]
pub enum Branch {
    /// The device verifies its holder, and whether the amount is above the limit for that (CVM.2).
    OnDevice(bool),
    /// The card does not support cardholder verification (CVM.6).
    NotSupported,
    /// There is no list (CVM.8).
    NoList,
    /// A rule's condition, and whether it holds; one that is not understood does not (CVM.10 to CVM.12).
    Condition(u8, bool),
    /// The condition of the last rule does not hold (CVM.14).
    NoRuleApplies,
    /// A rule with this code applies, and the code is not recognised (CVM.16).
    Unrecognised(u8),
    /// A rule with this code applies, is supported and not fail (CVM.18).
    Performed(u8),
    /// A rule with this code applies and does not succeed; the next one is tried (CVM.21).
    Next(u8),
    /// A rule with this code applies, does not succeed, and b7 is clear or no rule left (CVM.22).
    Failed(u8),
}

/// Byte 1 b6 of 95: data of the card is missing.
const DATA_MISSING: [u8; 5] = [0x20, 0, 0, 0, 0];
/// Byte 3 b8, b7 and b3 of 95: not successful, unrecognised CVM, online PIN entered.
const NOT_SUCCESSFUL: u8 = 0x80;
const UNRECOGNISED: u8 = 0x40;
const ONLINE_PIN_ENTERED: u8 = 0x04;

/// No CVM performed, and verification on the device performed, as the first byte of 9F34.
const NONE_PERFORMED: u8 = 0x3F;
const ON_DEVICE_PERFORMED: u8 = 0x01;

/// The third byte of 9F34.
const UNKNOWN: u8 = 0;
const FAILED: u8 = 1;
const SUCCESSFUL: u8 = 2;

/// Whether the card is on a device with on-device CVM, and the reader supports that: 82 byte 1 b2 and DF811B b6.
pub fn on_device(store: &Store) -> bool {
    let first_byte = |object| store::get(store, object).map_or(0, |value| value[0]);
    first_byte(Object::InterchangeProfile) & 0x02 != 0
        && first_byte(Object::KernelConfiguration) & 0x20 != 0
}

/// Selects the CVM. The store is that of a session after its last record.
pub fn select(store: &Store) -> Selection {
    walk(store, &mut |_| ())
}

/// Selects the CVM, and reports each branch on the way.
pub fn walk(store: &Store, told: &mut impl FnMut(Branch)) -> Selection {
    if on_device(store) {
        return by_device(store, told);
    }
    let none = |bits| Selection {
        results: [NONE_PERFORMED, 0, UNKNOWN],
        bits,
        method: Method::NoCvm,
    };
    let profile = store::get(store, Object::InterchangeProfile).map_or(0, |value| value[0]);
    if profile & 0x10 == 0 {
        told(Branch::NotSupported);
        return none([0; 5]);
    }
    match store::get(store, Object::CvmList).filter(|list| !list.is_empty()) {
        Some(list) => by_rules(store, list, told),
        None => {
            told(Branch::NoList);
            none(DATA_MISSING)
        }
    }
}

/// Selects the on-device CVM: it has verified its holder, which counts where the amount is above the limit for that. No
/// list is examined.
fn by_device(store: &Store, told: &mut impl FnMut(Branch)) -> Selection {
    let above =
        store::get(store, Object::AmountAuthorised) > store::get(store, Object::CvmRequiredLimit);
    told(Branch::OnDevice(above));
    let (performed, method) = if above {
        (ON_DEVICE_PERFORMED, Method::ConfirmationCodeVerified)
    } else {
        (NONE_PERFORMED, Method::NoCvm)
    };
    Selection {
        results: [performed, 0, SUCCESSFUL],
        bits: [0; 5],
        method,
    }
}

/// Selects the CVM by the rules of a list.
fn by_rules(store: &Store, list: &[u8], told: &mut impl FnMut(Branch)) -> Selection {
    let selection = |results, third, method| Selection {
        results,
        bits: [0, 0, third, 0, 0],
        method,
    };
    let mut third = 0;
    let mut rules = list[8..].chunks_exact(2).peekable();
    while let Some(&[code, condition]) = rules.next() {
        let holds = condition_holds(store, list, condition, code);
        told(Branch::Condition(condition, holds));
        if !holds {
            continue;
        }
        let name = code & 0x3F;
        if !recognised(name) {
            told(Branch::Unrecognised(code));
            third |= UNRECOGNISED;
        }
        if supported(store, name) && name != 0x00 {
            told(Branch::Performed(code));
            let (result, method, entered) = performed(name);
            return selection([code, condition, result], third | entered, method);
        }
        if code & 0x40 != 0 && rules.peek().is_some() {
            told(Branch::Next(code));
            continue;
        }
        told(Branch::Failed(code));
        let results = if name == 0x00 {
            [code, condition, FAILED]
        } else {
            [NONE_PERFORMED, 0, FAILED]
        };
        return selection(results, third | NOT_SUCCESSFUL, Method::NoCvm);
    }
    told(Branch::NoRuleApplies);
    let results = [NONE_PERFORMED, 0, FAILED];
    selection(results, third | NOT_SUCCESSFUL, Method::NoCvm)
}

/// The result, the CVM and the bit of 95 byte 3 of a code that is performed, by its low six bits.
fn performed(name: u8) -> (u8, Method, u8) {
    match name {
        0x02 => (UNKNOWN, Method::OnlinePin, ONLINE_PIN_ENTERED),
        0x1E => (UNKNOWN, Method::Signature, 0),
        0x1F => (SUCCESSFUL, Method::NoCvm, 0),
        _ => (UNKNOWN, Method::OfflinePin, 0),
    }
}

/// Whether the low six bits of a code name a CVM of EMV's table, or fail.
pub fn recognised(name: u8) -> bool {
    matches!(name, 0x00..=0x05 | 0x1E | 0x1F)
}

/// Whether the terminal's capabilities support the CVM that the low six bits of a code name. Fail is always supported,
/// and a combination where both its parts are.
pub fn supported(store: &Store, name: u8) -> bool {
    const PLAINTEXT_PIN: u8 = 0x80;
    const ONLINE_PIN: u8 = 0x40;
    const SIGNATURE: u8 = 0x20;
    const ENCIPHERED_PIN: u8 = 0x10;
    const NO_CVM: u8 = 0x08;
    let needed = match name {
        0x00 => return true,
        0x01 => PLAINTEXT_PIN,
        0x02 => ONLINE_PIN,
        0x03 => PLAINTEXT_PIN | SIGNATURE,
        0x04 => ENCIPHERED_PIN,
        0x05 => ENCIPHERED_PIN | SIGNATURE,
        0x1E => SIGNATURE,
        0x1F => NO_CVM,
        _ => return false,
    };
    let capabilities = store::get(store, Object::TerminalCapabilities).map_or(0, |value| value[1]);
    capabilities & needed == needed
}

/// Whether the condition of a rule is understood, has its data and holds.
fn condition_holds(store: &Store, list: &[u8], condition: u8, code: u8) -> bool {
    let kind = store::get(store, Object::TransactionType).map_or(0, |value| value[0]);
    let cash = matches!(kind, 0x01 | 0x17);
    let cashback = kind == 0x09;
    match condition {
        0x00 => true,
        0x01 => cash && analysis::at_atm(store),
        0x02 => !cash && !cashback,
        0x03 => supported(store, code & 0x3F),
        0x04 => cash && !analysis::at_atm(store),
        0x05 => cashback,
        0x06..=0x09 => {
            let amount = amount_in_card_currency(store);
            let [x, y] = [0, 4].map(|at| binary(&list[at..at + 4]));
            amount.is_some_and(|amount| match condition {
                0x06 => amount < x,
                0x07 => amount > x,
                0x08 => amount < y,
                _ => amount > y,
            })
        }
        _ => false,
    }
}

/// The amount authorised, where transaction and card name the same currency. Two absent ones are not the same.
fn amount_in_card_currency(store: &Store) -> Option<u64> {
    let transaction = store::get(store, Object::TransactionCurrency)?;
    let card = store::get(store, Object::ApplicationCurrency)?;
    let amount = analysis::amount(store, Object::AmountAuthorised)?;
    (transaction == card).then_some(amount)
}

/// The number that bytes are in binary, the first one highest.
fn binary(bytes: &[u8]) -> u64 {
    bytes
        .iter()
        .fold(0, |sum, &byte| sum << 8 | u64::from(byte))
}

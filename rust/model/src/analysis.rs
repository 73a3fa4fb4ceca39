//! The transaction limit, TVR bits, usage and the choice (document 01, "Result bits and the choice"; document
//! 02, Item 8).

use crate::cvm;
use crate::dictionary::Object;
use crate::store::{self, Store};

/// The choice requested, as P1 of GENERATE AC.
#[derive(Clone, Copy, Debug, PartialEq, Eq)]
pub enum Choice {
    /// 00.
    Decline,
    /// 40.
    Offline,
    /// 80.
    Online,
}

impl Choice {
    /// P1 of GENERATE AC.
    pub fn p1(self) -> u8 {
        match self {
            Choice::Decline => 0x00,
            Choice::Offline => 0x40,
            Choice::Online => 0x80,
        }
    }

    /// The choice of a P1, if it is one of the three.
    pub fn of_p1(p1: u8) -> Option<Choice> {
        match p1 {
            0x00 => Some(Choice::Decline),
            0x40 => Some(Choice::Offline),
            0x80 => Some(Choice::Online),
            _ => None,
        }
    }
}

/// One pair of action codes: the card's, then the terminal's.
type Pair = [[u8; 5]; 2];

/// The number that the digits of an object are, or none if it is absent.
pub fn amount(store: &Store, object: Object) -> Option<u64> {
    let digits = store::get(store, object)?
        .iter()
        .flat_map(|&byte| [byte >> 4, byte & 0x0F]);
    Some(digits.fold(0, |sum, digit| sum * 10 + u64::from(digit)))
}

/// The transaction limit (Book C-2, S3.33 to S3.35): DF8125 for a device with on-device CVM, else DF8124.
pub fn transaction_limit(store: &Store) -> Option<u64> {
    let limit = if cvm::on_device(store) {
        Object::TransactionLimitOnDevice
    } else {
        Object::TransactionLimit
    };
    amount(store, limit)
}

/// The terminal verification results after the last record, without the bits of cardholder verification.
///
/// The store holds the mandatory objects of a start, and 5F24. Amounts are digits, so their bytes compare as numbers.
pub fn result_bits(store: &Store) -> [u8; 5] {
    let value = |object| store::get(store, object);
    let day = |object| value(object).map(in_century);
    let date = day(Object::TransactionDate);
    let mut bits = [0x80, 0, 0, 0, 0];
    let version = value(Object::VersionCard);
    if version.is_some() && version != value(Object::VersionReader) {
        bits[1] |= 0x80;
    }
    if date > day(Object::ExpirationDate) {
        bits[1] |= 0x40;
    }
    let effective = day(Object::EffectiveDate);
    if effective.is_some() && effective > date {
        bits[1] |= 0x20;
    }
    if !usage_allowed(store) {
        bits[1] |= 0x10;
    }
    if value(Object::AmountAuthorised) > value(Object::FloorLimit) {
        bits[3] |= 0x80;
    }
    bits
}

/// A date with its century at the front: years 00 to 49 are 2000 to 2049, 50 to 99 are 1950 to 1999.
fn in_century(date: &[u8]) -> (u8, &[u8]) {
    let before_2000 = matches!(date.first(), Some(0x50..=0xFF));
    (if before_2000 { 19 } else { 20 }, date)
}

/// Whether the terminal is an ATM: terminal type 14, 15 or 16, and cash among its additional capabilities.
pub fn at_atm(store: &Store) -> bool {
    matches!(first_byte(store, Object::TerminalType), Some(0x14..=0x16))
        && first_byte(store, Object::AdditionalCapabilities).is_some_and(|first| first & 0x80 != 0)
}

/// The first byte of an object, if it is present.
fn first_byte(store: &Store, object: Object) -> Option<u8> {
    store::get(store, object).and_then(|value| value.first().copied())
}

/// Whether the usage control, if it is present, allows the transaction.
fn usage_allowed(store: &Store) -> bool {
    let Some(&[control, cashback_control]) = store::get_fixed(store, Object::UsageControl) else {
        return true;
    };
    if control & if at_atm(store) { 0x02 } else { 0x01 } == 0 {
        return false;
    }

    let Some(country) = store::get(store, Object::IssuerCountry) else {
        return true;
    };
    let home = store::get(store, Object::TerminalCountry) == Some(country);
    let needed = match first_byte(store, Object::TransactionType) {
        Some(0x01 | 0x17) => Some(if home { 0x80 } else { 0x40 }),
        Some(0x00 | 0x09) => Some(if home { 0x20 | 0x08 } else { 0x10 | 0x04 }),
        _ => None,
    };
    if needed.is_some_and(|bits| control & bits == 0) {
        return false;
    }

    let cashback = store::get(store, Object::AmountOther)
        .is_some_and(|amount| amount.iter().any(|&digits| digits != 0));
    !cashback || cashback_control & if home { 0x80 } else { 0x40 } != 0
}

/// The choice, from the TVR, the terminal type and the three pairs of action codes.
pub fn choice(store: &Store, bits: &[u8; 5]) -> Choice {
    let card = |object, absent| {
        store::get_fixed(store, object)
            .copied()
            .unwrap_or([absent; 5])
    };
    let terminal = |object| {
        store::get_fixed(store, object)
            .copied()
            .unwrap_or([0x00; 5])
    };
    let denial: Pair = [
        card(Object::IssuerActionDenial, 0x00),
        terminal(Object::TerminalActionDenial),
    ];
    let online: Pair = [
        card(Object::IssuerActionOnline, 0xFF),
        terminal(Object::TerminalActionOnline),
    ];
    let default: Pair = [
        card(Object::IssuerActionDefault, 0xFF),
        terminal(Object::TerminalActionDefault),
    ];
    let terminal_type = store::get(store, Object::TerminalType).map_or(0, |value| value[0]);

    if any_bit(bits, &denial) {
        return Choice::Decline;
    }
    match terminal_type & 0x0F {
        1 | 4 => Choice::Online,
        3 | 6 if any_bit(bits, &default) => Choice::Decline,
        2 | 5 if any_bit(bits, &online) => Choice::Online,
        _ => Choice::Offline,
    }
}

/// Whether a TVR bit is set in either code of a pair.
fn any_bit(bits: &[u8; 5], [card, terminal]: &Pair) -> bool {
    (0..5).any(|i| bits[i] & (card[i] | terminal[i]) != 0)
}

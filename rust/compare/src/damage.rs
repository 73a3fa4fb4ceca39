//! Damage to bytes, damage to session records, and records built from nothing.

use crate::objects;
use crate::rng::Rng;
use crate::track;
use model::dictionary::{Answers, Object, Setter, REQUIRED_AT_START, ROWS};
use model::{afl, analysis, store, HEAD_SIZE, SESSION_SIZE};

/// Flips, cuts, inserts, appends or replaces some bytes.
pub fn bytes(rng: &mut Rng, bytes: &mut Vec<u8>) {
    for _ in 0..rng.pick(&[1, 1, 1, 2, 3]) {
        if bytes.is_empty() {
            bytes.push(rng.byte());
            continue;
        }
        let at = rng.below(bytes.len());
        match rng.below(7) {
            0 | 1 => bytes[at] ^= 1 << rng.below(8),
            2 => bytes.truncate(at),
            3 => bytes.insert(at, rng.byte()),
            4 => {
                let length = rng.within(1..=4);
                bytes.extend(rng.bytes(length));
            }
            5 => {
                bytes.remove(at);
            }
            _ => bytes[at] = rng.pick(&[0x00, 0x80, 0x81, 0x82, 0x83, 0xFF, 0x7F, 0x01]),
        }
    }
}

/// Values of the CVM's byte: the CVMs' numbers, and others near them.
const METHODS: [u8; 10] = [0, 1, 2, 3, 4, 5, 8, 15, 16, 255];

/// The CVM's byte for a phase, mostly one that goes with it.
fn method(rng: &mut Rng, phase: u8) -> u8 {
    if phase == 3 {
        let known = rng.percent(95);
        rng.pick(if known { &METHODS[..5] } else { &METHODS })
    } else if rng.one_in(30) {
        rng.pick(&METHODS)
    } else {
        0
    }
}

/// Where the transaction limit is in a session record.
pub const LIMIT: std::ops::Range<usize> = 6..HEAD_SIZE;

/// The limit that is correct by the store of a session record; 0 where an object has a wrong length.
pub fn right_limit(record: &[u8]) -> u64 {
    let store = record[HEAD_SIZE..].first_chunk().expect("a whole record");
    if store::fits(store) {
        analysis::transaction_limit(store).unwrap_or(0)
    } else {
        0
    }
}

/// Puts the limit in place that goes with the phase and the store.
fn put_right_limit(record: &mut [u8]) {
    let limit = match record[1] {
        2 | 3 | 5 => right_limit(record),
        _ => 0,
    };
    record[LIMIT].copy_from_slice(&limit.to_be_bytes());
}

/// Puts another limit in place: the other one of the store, one near it, or any.
fn put_other_limit(rng: &mut Rng, record: &mut [u8]) {
    let of_place = |object: Object| {
        let digits = &record[place(object) + 1..][..6];
        digits.iter().fold(0, |sum, &byte| {
            sum * 100 + u64::from(byte >> 4) * 10 + u64::from(byte & 0x0F)
        })
    };
    let held = u64::from_be_bytes(record[LIMIT].try_into().expect("eight bytes"));
    let any = rng.bits();
    let bit = 1 << rng.below(64);
    let limit = rng.pick(&[
        of_place(Object::TransactionLimit),
        of_place(Object::TransactionLimitOnDevice),
        held.wrapping_add(1),
        held ^ bit,
        held.swap_bytes(),
        0,
        any,
    ]);
    record[LIMIT].copy_from_slice(&limit.to_be_bytes());
}

/// Offset of an object's place in a session record.
pub fn place(object: Object) -> usize {
    HEAD_SIZE + object.row().place
}

/// Puts a value at its place in a session record.
pub fn put(record: &mut [u8], object: Object, value: &[u8]) {
    let place = place(object);
    let length = value.len().min(usize::from(object.row().most));
    record[place] = length as u8 + 1;
    record[place + 1..][..length].copy_from_slice(&value[..length]);
}

/// The number of records of the AFL that a session record holds.
pub fn records(record: &[u8]) -> Option<u32> {
    let place = place(Object::FileLocator);
    let length = usize::from(record[place]).checked_sub(1)?;
    afl::records(record.get(place + 1..place + 1 + length)?)
}

/// Fills the bytes that are free: the places of absent objects and those after values.
fn fill_free(rng: &mut Rng, record: &mut [u8]) {
    for row in &ROWS {
        let used = usize::from(record[HEAD_SIZE + row.place]).max(1);
        let end = 1 + usize::from(row.most);
        if used < end {
            rng.fill(&mut record[HEAD_SIZE + row.place..][used..end]);
        }
    }
}

/// Damages a session record, or changes it within its ranges. The slice holds a whole record.
pub fn record(rng: &mut Rng, record: &mut [u8]) {
    if record[1] == 5 && rng.one_in(3) {
        break_checksum(rng, record);
        return;
    }
    let object = rng.pick(&Object::ALL);
    let at = place(object);
    let most = object.row().most;
    match rng.below(25) {
        0 => {
            for _ in 0..rng.within(1..=3) {
                record[rng.below(SESSION_SIZE)] ^= 1 << rng.below(8);
            }
        }
        1 => {
            let at = rng.below(HEAD_SIZE);
            record[at] = if rng.one_in(2) {
                rng.byte()
            } else {
                rng.below(7) as u8
            };
        }
        2 => record[4] = record[4].wrapping_add(rng.pick(&[1, 2, 127, 128, 255])),
        3 => record[2] = rng.pick(&[0, 1, 2, 3, 4, 5, 0x40, 0x80, 0xC0, 128, 129, 255]),
        4 => {
            let some = rng.byte();
            record[at] = rng.pick(&[
                0,
                1,
                object.row().least,
                object.row().least + 1,
                most + 1,
                most.wrapping_add(2),
                some,
                255,
            ]);
        }
        5 => {
            // A wrong nibble.
            let byte = at + 1 + rng.below(usize::from(most));
            record[byte] = rng.pick(&[0xA0, 0x0A, 0xFF, 0xF1, 0x9B]);
        }
        6 | 7 => fill_free(rng, record),
        8 | 9 => {
            let value = objects::good_value(rng, object);
            put(record, object, &value);
        }
        10 => {
            let value = objects::odd_value(rng, object);
            put(record, object, &value);
        }
        11 => record[at] = 0,
        12 => {
            let at = place(Object::VerificationResults);
            record[at + 1 + rng.below(5)] ^= 1 << rng.below(8);
        }
        13 => {
            let at = place(Object::FileLocator);
            let used = usize::from(record[at]).max(2) - 1;
            record[at + 1 + rng.below(used.min(248))] ^= 1 << rng.below(8);
        }
        14 => {
            // One of the objects that decide the ranges absent, empty or there.
            let object = rng.pick(&[
                Object::InterchangeProfile,
                Object::FileLocator,
                Object::VerificationResults,
                Object::ExpirationDate,
                Object::Pan,
                Object::Cdol1,
                Object::IssuerApplicationData,
                Object::Cryptogram,
                Object::CryptogramInformation,
                Object::TransactionCounter,
                Object::TerminalType,
                Object::CvmResults,
                Object::TerminalCapabilities,
                Object::CvmRequiredLimit,
                Object::KernelConfiguration,
                Object::TransactionLimit,
                Object::TransactionLimitOnDevice,
                Object::Cvc3Track2,
                Object::UnpredictableNumberNumeric,
                Object::Track2Data,
                Object::Pcvc3Track2,
                Object::PunatcTrack2,
                Object::NatcTrack2,
            ]);
            if rng.one_in(2) {
                record[place(object)] = rng.below(2) as u8;
            } else {
                let value = objects::good_value(rng, object);
                put(record, object, &value);
            }
        }
        15 => {
            record[place(Object::TerminalType) + 1] =
                rng.pick(&[0x10, 0x17, 0x27, 0x31, 0x33, 0x37, 0x00]);
        }
        16 => record[5] = rng.pick(&METHODS),
        17 | 18 => put_other_limit(rng, record),
        19 => {
            // Another limit by the store: on-device CVM or none, or another value.
            let object = rng.pick(&[
                Object::InterchangeProfile,
                Object::KernelConfiguration,
                Object::TransactionLimit,
                Object::TransactionLimitOnDevice,
            ]);
            let value = objects::good_value(rng, object);
            put(record, object, &value);
            if rng.one_in(3) {
                put_right_limit(record);
            }
        }
        20 | 21 => {
            // The other mode, or stripe mode on or off.
            let bit = if rng.one_in(2) {
                place(Object::InterchangeProfile) + 2
            } else {
                place(Object::KernelConfiguration) + 1
            };
            record[bit] ^= 0x80;
        }
        22 => {
            // What the digits need, with place for them or not.
            let values = track::values(rng, |_| None);
            for (object, value) in track::NEEDED.into_iter().zip(values) {
                put(record, object, &value);
            }
        }
        _ => other_phase(rng, record),
    }
}

/// Breaks one of the ranges of a record on the checksum.
fn break_checksum(rng: &mut Rng, record: &mut [u8]) {
    match rng.below(10) {
        0 => record[place(Object::InterchangeProfile) + 2] |= 0x80,
        1 => record[place(Object::KernelConfiguration) + 1] |= 0x80,
        2 => record[place(Object::VerificationResults) + 1 + rng.below(5)] ^= 1 << rng.below(8),
        3 | 4 => record[place(rng.pick(&track::NEEDED))] = 0,
        5 => record[place(Object::Track2Data)] = 1,
        6 => record[4] = record[4].wrapping_add(rng.pick(&[1, 255])),
        7 => record[place(Object::FileLocator) + 1] ^= 1 << rng.below(3),
        8 => {
            let object = rng.pick(&[Object::Cvc3Track2, Object::TransactionCounter]);
            let value = objects::good_value(rng, object);
            put(record, object, &value);
        }
        _ => record[place(Object::UnpredictableNumberNumeric)] = 0,
    }
}

/// Gives a record another phase, mostly with the numbers that go with it.
fn other_phase(rng: &mut Rng, record: &mut [u8]) {
    let records = records(record).unwrap_or(1);
    let phase = rng.below(6) as u8;
    let (detail, reason, count) = match phase {
        0 => (0, 0, 0),
        1 => (0, 0, 1),
        2 => {
            let inside = rng.within(1..=records as usize) as u32;
            let k = rng.pick(&[inside, inside, inside, 0, records, records + 1]);
            (k as u8, 0, k as u8 + 1)
        }
        3 => (rng.pick(&[0x00, 0x40, 0x80]), 0, records as u8 + 2),
        5 => (0, 0, records as u8 + 2),
        _ => {
            let outcome = rng.below(5) as u8;
            let reason = match outcome {
                0..=2 => 0,
                4 => 6,
                _ => rng.within(1..=11) as u8,
            };
            let reason = if rng.one_in(4) {
                rng.below(14) as u8
            } else {
                reason
            };
            (outcome, reason, rng.pick(&[0, 1, 3, 129, 130, 131]))
        }
    };
    record[1..5].copy_from_slice(&[phase, detail, reason, count]);
    record[5] = method(rng, phase);
    if rng.one_in(6) {
        record[4] = rng.byte();
    }
    if rng.percent(90) {
        put_right_limit(record);
    }
}

/// Outcome, reason and count of an ended session.
fn ended_head(rng: &mut Rng) -> (u8, u8, u8) {
    let count = rng.pick(&[0, 1, 2, 3, 5, 130]);
    match rng.below(22) as u8 {
        reason @ 1..=11 => (if reason == 6 { 4 } else { 3 }, reason, count),
        _ => (rng.below(3) as u8, 0, count),
    }
}

/// A session record of any phase built from nothing, mostly within its ranges.
pub fn built_record(rng: &mut Rng) -> Vec<u8> {
    let phase = rng.below(6);
    record_of_phase(rng, phase)
}

/// A session record of this phase built from nothing, mostly within its ranges.
pub fn record_of_phase(rng: &mut Rng, phase: usize) -> Vec<u8> {
    let mut bytes = vec![0; SESSION_SIZE];
    model::open(&mut bytes);
    if phase == 0 {
        return bytes;
    }
    let running = phase != 4;
    let others = rng.pick(&[2, 3, 8]);
    for object in Object::ALL {
        let row = object.row();
        let wanted = match object {
            _ if REQUIRED_AT_START.contains(&object) => running || rng.one_in(2),
            Object::VerificationResults => running || rng.one_in(2),
            Object::CvmResults => rng.one_in(3),
            Object::InterchangeProfile | Object::FileLocator => phase >= 2,
            _ if row.is_of_card() && row.answers != Answers::All => !running && rng.one_in(2),
            _ if row.setter == Setter::Session => rng.one_in(others),
            _ => rng.one_in(if objects::is_used(object) { 2 } else { others }),
        };
        if wanted {
            let value = objects::good_value(rng, object);
            put(&mut bytes, object, &value);
        }
    }
    if matches!(phase, 1 | 2 | 5) {
        put(&mut bytes, Object::VerificationResults, &[0; 5]);
    }
    put_mode(&mut bytes, phase);
    if phase == 3 {
        for object in [
            Object::ExpirationDate,
            Object::Pan,
            Object::Cdol1,
            Object::CvmResults,
        ] {
            let value = objects::good_value(rng, object);
            put(&mut bytes, object, &value);
        }
    }
    if phase == 5 {
        let values = track::values(rng, |_| None);
        for (object, value) in track::NEEDED.into_iter().zip(values) {
            put(&mut bytes, object, &value);
        }
    }
    if rng.one_in(2) {
        fill_free(rng, &mut bytes);
    }
    let records = records(&bytes).unwrap_or(1);
    let (detail, reason, count) = match phase {
        1 => (0, 0, 1),
        2 => {
            let k = rng.within(1..=records as usize) as u8;
            (k, 0, k + 1)
        }
        3 => (rng.pick(&[0x00, 0x40, 0x80]), 0, records as u8 + 2),
        5 => (0, 0, records as u8 + 2),
        _ => ended_head(rng),
    };
    bytes[1..5].copy_from_slice(&[phase as u8, detail, reason, count]);
    bytes[5] = method(rng, phase as u8);
    put_right_limit(&mut bytes);
    if rng.one_in(30) {
        put_other_limit(rng, &mut bytes);
    }
    bytes
}

/// Gives a record the mode that goes with its phase: on GENERATE AC EMV mode, on the checksum stripe mode, on a record
/// one that is not off.
fn put_mode(record: &mut [u8], phase: usize) {
    let profile = place(Object::InterchangeProfile) + 2;
    let configuration = place(Object::KernelConfiguration) + 1;
    match phase {
        2 if record[configuration] & 0x80 != 0 => record[profile] |= 0x80,
        3 => record[profile] |= 0x80,
        5 => {
            record[profile] &= 0x7F;
            record[configuration] &= 0x7F;
        }
        _ => {}
    }
}

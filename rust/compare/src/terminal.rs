//! Start bytes, good and bad.

use crate::damage;
use crate::objects::{self, TEMPLATES, UNKNOWN};
use crate::rng::Rng;
use model::dictionary::{Object, Row, REQUIRED_AT_START};

/// Start bytes; with `faults` they mostly break a rule, some of them two.
pub fn start(rng: &mut Rng, faults: bool) -> Vec<u8> {
    let list = good_objects(rng);
    encoded(rng, list, faults)
}

/// Start bytes of an amount; with `faults` they mostly break a rule, and may bring another amount.
pub fn start_of(rng: &mut Rng, amount: u64, faults: bool) -> Vec<u8> {
    let mut list = good_objects(rng);
    for (tag, value) in &mut list {
        if *tag == Object::AmountAuthorised.row().tag {
            *value = objects::amount(amount);
        }
    }
    encoded(rng, list, faults)
}

/// The bytes of some objects, with faults or without.
fn encoded(rng: &mut Rng, mut list: Vec<(u32, Vec<u8>)>, faults: bool) -> Vec<u8> {
    let faults = if faults {
        1 + usize::from(rng.one_in(3))
    } else {
        0
    };
    let mut later = Vec::new();
    for _ in 0..faults {
        let fault = rng.below(15);
        if !fault_in_objects(rng, &mut list, fault) {
            later.push(fault);
        }
    }
    let mut encoded: Vec<Vec<u8>> = list
        .iter()
        .map(|(tag, value)| objects::object(rng, *tag, value))
        .collect();
    if later.contains(&8) && rng.one_in(2) {
        let at = rng.within(0..=encoded.len());
        encoded.insert(at, objects::broken(rng).to_vec());
    }
    let mut bytes = if later.contains(&14) {
        objects::padded(rng, &encoded)
    } else {
        encoded.concat()
    };
    for fault in later {
        fault_in_bytes(rng, &mut bytes, fault);
    }
    bytes
}

/// The objects of a good start, in any order, unknown ones among them.
fn good_objects(rng: &mut Rng) -> Vec<(u32, Vec<u8>)> {
    let mut list = Vec::new();
    let mut total = 0;
    let others = rng.pick(&[0, 8, 30]);
    for object in objects::which(Row::is_of_start) {
        let often = match object {
            Object::TransactionCurrency => 75,
            Object::AdditionalCapabilities => 60,
            Object::AmountOther | Object::Pdol => 35,
            _ => others,
        };
        let wanted = REQUIRED_AT_START.contains(&object) || rng.percent(often);
        if !wanted {
            continue;
        }
        let is_limit = matches!(
            object,
            Object::TransactionLimit | Object::TransactionLimitOnDevice
        );
        let value = if is_limit && rng.percent(75) {
            vec![0x99; 6]
        } else {
            objects::good_value(rng, object)
        };
        // Mostly within 1,024 bytes.
        total += value.len() + 5;
        if total < 900 || rng.one_in(20) || REQUIRED_AT_START.contains(&object) {
            list.push((object.row().tag, value));
        }
    }
    if rng.one_in(3) {
        for _ in 0..rng.within(1..=3) {
            let length = if rng.one_in(6) {
                rng.below(300)
            } else {
                rng.below(12)
            };
            list.push((rng.pick(&UNKNOWN), rng.bytes(length)));
        }
    }
    for i in (1..list.len()).rev() {
        list.swap(i, rng.below(i + 1));
    }
    list
}

/// Puts a fault in the list of objects; false if the fault is one of the encoded bytes.
fn fault_in_objects(rng: &mut Rng, list: &mut Vec<(u32, Vec<u8>)>, fault: usize) -> bool {
    match fault {
        0 | 1 => {
            // Without some objects.
            for _ in 0..rng.within(1..=2) {
                if !list.is_empty() {
                    list.remove(rng.below(list.len()));
                }
            }
        }
        2 => {
            // A tag twice.
            let (tag, mut value) = list[rng.below(list.len())].clone();
            if let (Some(object), true) = (Object::of_tag(tag), rng.one_in(2)) {
                value = objects::good_value(rng, object);
            }
            let at = rng.within(0..=list.len());
            list.insert(at, (tag, value));
        }
        3 | 4 => {
            // A wrong length or digit.
            let at = rng.below(list.len());
            if let Some(object) = Object::of_tag(list[at].0) {
                list[at].1 = objects::odd_value(rng, object);
            }
        }
        5 => {
            // A tag that a start may not set.
            let object = rng.pick(&Object::ALL);
            let value = if rng.one_in(3) {
                objects::odd_value(rng, object)
            } else {
                objects::good_value(rng, object)
            };
            let at = rng.within(0..=list.len());
            list.insert(at, (object.row().tag, value));
        }
        6 => {
            // A terminal type that is not listed.
            let other = rng.digits(1)[0];
            let kind = rng.pick(&[
                0x10, 0x17, 0x20, 0x27, 0x31, 0x33, 0x37, 0x00, 0x44, 0x1A, other,
            ]);
            for (tag, value) in list {
                if *tag == Object::TerminalType.row().tag {
                    *value = vec![kind];
                }
            }
        }
        7 => {
            // A template.
            let tag = if rng.one_in(2) {
                rng.pick(&TEMPLATES)
            } else {
                rng.pick(&[0x70, 0x77])
            };
            let at = rng.within(0..=list.len());
            list.insert(
                at,
                (
                    tag,
                    rng.pick(&[&[][..], &[0x9C, 0x01, 0x00], &[0x00]]).to_vec(),
                ),
            );
        }
        _ => return false,
    }
    true
}

/// Puts a fault in the encoded bytes.
fn fault_in_bytes(rng: &mut Rng, bytes: &mut Vec<u8>, fault: usize) {
    match fault {
        8 if rng.one_in(3) => {
            let tag = rng.pick(&UNKNOWN);
            objects::put_refused_length(rng, bytes, tag);
        }
        8 => bytes.extend(objects::broken(rng)),
        9 | 10 => {
            // Near 1,024 bytes in all.
            let length = rng.pick(&[1022, 1023, 1024, 1025, 1026, 1500]);
            if let Some(room) = (length - 4usize).checked_sub(bytes.len()) {
                bytes.extend([0x51, 0x82, (room >> 8) as u8, room as u8]);
                bytes.resize(length, 0x41);
            }
        }
        11 => {
            *bytes = match rng.below(3) {
                0 => Vec::new(),
                _ => {
                    let length = rng.below(40);
                    rng.bytes(length)
                }
            }
        }
        // Padding is put between the objects.
        14 => {}
        _ => damage::bytes(rng, bytes),
    }
}

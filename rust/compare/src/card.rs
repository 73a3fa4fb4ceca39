//! Answers of a card, good and bad, for the phase that a session is in.

use crate::damage;
use crate::objects::{self, TEMPLATES, UNKNOWN};
use crate::rng::Rng;
use crate::track;
use model::afl;
use model::dictionary::{Object, Templates};
use model::store::{self, Store};

/// The objects that the last record must have brought.
const NEEDED: [Object; 3] = [Object::ExpirationDate, Object::Pan, Object::Cdol1];

/// Templates may nest so deep inside the outer one.
const INNER_LEVELS: usize = 3;

/// An answer to a session with these bytes; with `faults` it mostly breaks a rule.
pub fn answer(rng: &mut Rng, session: &[u8], faults: bool) -> Vec<u8> {
    let phase = match session.get(1) {
        Some(&phase @ (1..=3 | 5)) => phase,
        _ => rng.pick(&[1, 2, 3, 5]),
    };
    let detail = session.get(2).copied().unwrap_or(0);
    let empty = [0; model::STORE_SIZE];
    let store: &Store = session
        .get(model::HEAD_SIZE..)
        .and_then(<[u8]>::first_chunk)
        .unwrap_or(&empty);
    let fault = faults.then(|| rng.below(22));
    let in_objects = fault.filter(|&fault| fault < 10);
    let mut body = match phase {
        1 => options(rng, store, in_objects),
        2 => record(rng, store, u32::from(detail), in_objects),
        5 => checksum(rng, store, in_objects),
        _ => cryptogram(rng, store, detail, in_objects),
    };
    let mut status = [0x90, 0x00];
    match fault {
        Some(10..=13) => damage::bytes(rng, &mut body),
        Some(14) => {
            status = rng.pick(&[
                [0x69, 0x85],
                [0x6A, 0x83],
                [0x90, 0x01],
                [0x00, 0x90],
                [0x62, 0x83],
                [0x90, 0x80],
                [0x80, 0x00],
            ]);
        }
        Some(15) => {
            // Any length.
            let length = rng.within(0..=300);
            body.resize(length, 0x00);
        }
        Some(16) => {
            let length = rng.below(12);
            body = rng.bytes(length);
        }
        Some(17) => {
            // Near the longest answer.
            let length = rng.pick(&[254, 255, 256, 257, 258]);
            body = long_record(rng, length);
        }
        Some(18) if rng.one_in(2) => body.extend(objects::broken(rng)),
        Some(18) => {
            body.clear();
            let tag = rng.pick(&[0x70, 0x77, 0x80]);
            objects::put_refused_length(rng, &mut body, tag);
        }
        Some(19) => {
            // Another outer tag.
            if let Some(first) = body.first_mut() {
                *first = rng.pick(&[0x70, 0x77, 0x80, 0x81, 0x61, 0xA5, 0x57, 0xF7]);
            }
        }
        Some(20) => body = padded_outside(rng, body),
        _ => {}
    }
    body.extend(status);
    if fault == Some(21) {
        match rng.below(4) {
            0 => body.truncate(rng.within(0..=3)),
            1 => {
                body.pop();
            }
            _ => damage::bytes(rng, &mut body),
        }
    }
    body
}

/// A body with 00 before or after its one object, or nothing but that.
fn padded_outside(rng: &mut Rng, body: Vec<u8>) -> Vec<u8> {
    let run = vec![0x00; rng.within(1..=3)];
    match rng.below(4) {
        0 => [run, body].concat(),
        1 => [body, run].concat(),
        2 => [run.clone(), body, run].concat(),
        _ => run,
    }
}

/// A record of this length: template 70 with one unknown object.
fn long_record(rng: &mut Rng, length: usize) -> Vec<u8> {
    let inner = length - 4;
    let mut body = vec![0x70, 0x82, (inner >> 8) as u8, inner as u8];
    body.extend([rng.pick(&[0x51, 0xC1]), 0x81, (inner - 3) as u8]);
    body.resize(length, rng.byte());
    body
}

/// The answer to GET PROCESSING OPTIONS.
fn options(rng: &mut Rng, store: &Store, fault: Option<usize>) -> Vec<u8> {
    let profile = objects::good_value(rng, Object::InterchangeProfile);
    let mut locator = objects::good_value(rng, Object::FileLocator);
    if fault.is_none() && rng.one_in(2) || fault == Some(0) {
        if fault == Some(0) {
            if rng.one_in(3) {
                // What would be padding in a template.
                locator.push(0x00);
            } else {
                let length = rng.pick(&[0, 1, 2, 3, 5, 7, 244, 248, 250, 252]);
                locator.resize(length, 0x08);
            }
        }
        let value = [profile, locator].concat();
        return objects::object(rng, 0x80, &value);
    }
    let mut list = vec![
        objects::object(rng, 0x82, &profile),
        objects::object(rng, 0x94, &locator),
    ];
    if locator.len() < 200 {
        more_objects(rng, store, Templates::T77, &mut list);
        noise(rng, store, &mut list);
    }
    shuffle(rng, &mut list);
    if rng.one_in(20) {
        // In a template 77 of its own.
        let inner = list.remove(0);
        let wrapped = objects::template(rng, 0x77, &[inner]);
        list.push(wrapped);
    }
    if fault == Some(1) {
        list.remove(rng.below(list.len()));
    } else if let Some(fault) = fault {
        fault_in_objects(rng, store, &mut list, 0x77, fault);
    }
    objects::template(rng, 0x77, &list)
}

/// The answer to READ RECORD for the k-th record.
fn record(rng: &mut Rng, store: &Store, k: u32, fault: Option<usize>) -> Vec<u8> {
    let locator = in_store(store, Object::FileLocator).unwrap_or_default();
    let read = |k| afl::record(locator, k).is_some_and(|record| record.is_read());
    if !read(k) && rng.one_in(2) {
        let length = rng.pick(&[0, 1, 5, 60, 256]);
        return rng.bytes(length);
    }
    let last = (k + 1..=128).take(40).all(|later| !read(later));
    let mut list = Vec::new();
    let mut total = 0;
    let mut add = |rng: &mut Rng, object: Object, value: &[u8]| {
        let encoded = objects::object(rng, object.row().tag, value);
        if total + encoded.len() <= 253 {
            total += encoded.len();
            list.push(encoded);
        }
    };
    let stripe = in_store(store, Object::InterchangeProfile)
        .is_some_and(|profile| profile.get(1).is_some_and(|second| second & 0x80 == 0));
    let needed: &[Object] = if stripe { &track::NEEDED } else { &NEEDED };
    let stripe_values = track::values(rng, |object| in_store(store, object));
    for (i, &object) in needed.iter().enumerate() {
        let wanted = if last { rng.percent(97) } else { rng.one_in(3) };
        if wanted && !store::has_value(store, object) {
            if rng.one_in(12) && object.row().least == 0 {
                add(rng, object, &[]);
                if stripe && rng.one_in(4) {
                    continue;
                }
            }
            let value = if stripe {
                stripe_values[i].clone()
            } else {
                objects::good_value(rng, object)
            };
            add(rng, object, &value);
        }
    }
    let rate = rng.pick(&[2, 3, 6, 12]);
    let unused = rng.pick(&[0, 0, 12, 30]);
    for object in objects::in_template(Templates::T70) {
        let code = matches!(
            object,
            Object::IssuerActionDefault | Object::IssuerActionOnline
        );
        let wanted = match object {
            Object::CvmList | Object::ApplicationCurrency => {
                rng.percent(if last { 75 } else { 30 })
            }
            Object::Udol if stripe => rng.percent(if last { 50 } else { 20 }),
            Object::Track2 | Object::PanSequenceNumber => rng.one_in(rate),
            _ if !objects::is_used(object) => rng.one_in(unused),
            _ => rng.one_in(if code { 2 } else { rate }),
        };
        if wanted && !needed.contains(&object) && !store::has_value(store, object) {
            let may_be_empty = matches!(object, Object::Track2 | Object::Udol);
            if may_be_empty && rng.one_in(3) {
                add(rng, object, &[]);
            }
            if !may_be_empty || rng.percent(80) {
                let value = objects::good_value(rng, object);
                add(rng, object, &value);
            }
        }
    }
    if total < 180 {
        noise(rng, store, &mut list);
    }
    if rng.one_in(2) {
        shuffle(rng, &mut list);
    }
    if rng.one_in(25) && !list.is_empty() {
        // In a template 70 of its own.
        let inner = list.remove(0);
        let wrapped = objects::template(rng, 0x70, &[inner]);
        list.push(wrapped);
    }
    if let Some(fault) = fault {
        fault_in_objects(rng, store, &mut list, 0x70, fault);
    }
    objects::template(rng, 0x70, &list)
}

/// The answer to GENERATE AC.
fn cryptogram(rng: &mut Rng, store: &Store, asked: u8, fault: Option<usize>) -> Vec<u8> {
    let mut information = objects::good_value(rng, Object::CryptogramInformation);
    if rng.percent(60) {
        let fitting: &[u8] = match asked {
            0x00 => &[0x00],
            0x40 => &[0x00, 0x40, 0x40, 0x80],
            _ => &[0x00, 0x80, 0x80],
        };
        information = vec![rng.pick(fitting)];
    }
    let counter = rng.bytes(2);
    let cryptogram = rng.bytes(8);
    let some = rng.within(0..=32);
    let length = rng.pick(&[0, 0, 1, 31, 32, some]);
    let data = rng.bytes(length);
    if fault.is_none() && rng.one_in(2) || fault == Some(0) {
        let mut value = [information, counter, cryptogram, data].concat();
        if fault == Some(0) {
            let length = rng.pick(&[0, 1, 9, 10, 11, 42, 43, 44, 45, 60]);
            value.resize(length, 0x40);
        }
        return objects::object(rng, 0x80, &value);
    }
    let mut list = vec![
        objects::object(rng, 0x9F27, &information),
        objects::object(rng, 0x9F36, &counter),
        objects::object(rng, 0x9F26, &cryptogram),
    ];
    more_objects(rng, store, Templates::T77, &mut list);
    noise(rng, store, &mut list);
    if rng.one_in(8) {
        list.extend(late_code(rng, store));
    }
    shuffle(rng, &mut list);
    if rng.one_in(2) {
        if rng.one_in(6) {
            let empty = objects::object(rng, 0x9F10, &[]);
            list.push(empty);
        }
        let data = objects::object(rng, 0x9F10, &data);
        list.push(data);
    }
    if fault == Some(1) {
        list.remove(rng.below(list.len()));
    } else if let Some(fault) = fault {
        fault_in_objects(rng, store, &mut list, 0x77, fault);
    }
    objects::template(rng, 0x77, &list)
}

/// The answer to COMPUTE CRYPTOGRAPHIC CHECKSUM.
fn checksum(rng: &mut Rng, store: &Store, fault: Option<usize>) -> Vec<u8> {
    let counter = objects::good_value(rng, Object::TransactionCounter);
    let code = objects::good_value(rng, Object::Cvc3Track2);
    if fault == Some(0) {
        let mut value = [counter, code].concat();
        let length = rng.pick(&[2, 4, 4, 6, 11, 43]);
        value.resize(length, 0x40);
        return objects::object(rng, 0x80, &value);
    }
    let mut list = Vec::new();
    if rng.percent(88) {
        list.push(objects::object(rng, 0x9F36, &counter));
    }
    if rng.percent(85) {
        list.push(objects::object(rng, 0x9F61, &code));
    }
    more_objects(rng, store, Templates::T77, &mut list);
    noise(rng, store, &mut list);
    if rng.one_in(12) {
        // An object of the card in a template 70, which is not allowed if the session has it.
        let object = rng.pick(&[
            Object::Track2Data,
            Object::Pcvc3Track2,
            Object::PunatcTrack2,
            Object::NatcTrack2,
            Object::Udol,
            Object::Pan,
        ]);
        let mut value = objects::good_value(rng, object);
        value.truncate(60);
        let inner = objects::object(rng, object.row().tag, &value);
        list.push(objects::template(rng, 0x70, &[inner]));
    }
    shuffle(rng, &mut list);
    if rng.one_in(20) && !list.is_empty() {
        // In a template 77 of its own.
        let inner = list.remove(0);
        let wrapped = objects::template(rng, 0x77, &[inner]);
        list.push(wrapped);
    }
    if fault == Some(1) && !list.is_empty() {
        list.remove(rng.below(list.len()));
    } else if let Some(fault) = fault {
        fault_in_objects(rng, store, &mut list, 0x77, fault);
    }
    objects::template(rng, 0x77, &list)
}

/// An action code that the store does not hold, in a template 70, which may be in the answer to GENERATE AC too.
fn late_code(rng: &mut Rng, store: &Store) -> Option<Vec<u8>> {
    let code = rng.pick(&[
        Object::IssuerActionDefault,
        Object::IssuerActionDenial,
        Object::IssuerActionOnline,
    ]);
    if store::has_value(store, code) {
        return None;
    }
    let value = objects::good_value(rng, code);
    let inner = objects::object(rng, code.row().tag, &value);
    Some(objects::template(rng, 0x70, &[inner]))
}

/// The value of an object in a store whose length bytes may be wrong.
fn in_store(store: &Store, object: Object) -> Option<&[u8]> {
    let place = object.row().place;
    let length = usize::from(store[place]).checked_sub(1)?;
    store.get(place + 1..place + 1 + length)
}

fn shuffle(rng: &mut Rng, list: &mut [Vec<u8>]) {
    for i in (1..list.len()).rev() {
        list.swap(i, rng.below(i + 1));
    }
}

/// Adds objects that may be in a template, that no step examines and that the store does not hold.
fn more_objects(rng: &mut Rng, store: &Store, template: Templates, list: &mut Vec<Vec<u8>>) {
    if !rng.one_in(4) {
        return;
    }
    let mut left = objects::unused_in(template);
    left.retain(|&object| !store::has_value(store, object));
    for _ in 0..rng.pick(&[1, 1, 2, 4]) {
        if left.is_empty() {
            return;
        }
        let object = left.swap_remove(rng.below(left.len()));
        let value = objects::good_value(rng, object);
        if value.len() < 40 {
            list.push(objects::object(rng, object.row().tag, &value));
        }
    }
}

/// Adds objects that are skipped or allowed: unknown tags, private terminal tags, nested templates.
fn noise(rng: &mut Rng, store: &Store, list: &mut Vec<Vec<u8>>) {
    if !rng.one_in(3) {
        return;
    }
    for _ in 0..rng.pick(&[1, 1, 2, 3, 8]) {
        let added = match rng.below(4) {
            0 => nested(rng, store, INNER_LEVELS),
            1 => private(rng),
            _ => unknown(rng),
        };
        let at = rng.within(0..=list.len());
        list.insert(at, added);
    }
}

/// An object of unknown tag.
fn unknown(rng: &mut Rng) -> Vec<u8> {
    let length = if rng.one_in(12) {
        rng.below(60)
    } else {
        rng.below(6)
    };
    let value = if rng.one_in(5) {
        vec![0x00; length]
    } else {
        rng.bytes(length)
    };
    let tag = rng.pick(&UNKNOWN);
    objects::object(rng, tag, &value)
}

/// A private tag of the start or the session, of any length. One that is not known is skipped as well.
fn private(rng: &mut Rng) -> Vec<u8> {
    let length = rng.below(8);
    let value = rng.bytes(length);
    let known = objects::which(|row| !row.is_of_card() && objects::is_private(row.tag));
    let tag = if rng.one_in(10) {
        rng.pick(&[0xDF8107, 0xDF8112, 0xDF8308])
    } else {
        rng.pick(&known).row().tag
    };
    objects::object(rng, tag, &value)
}

/// A template with objects in it, nesting at most `levels` deep, itself counted.
fn nested(rng: &mut Rng, store: &Store, levels: usize) -> Vec<u8> {
    let tag = if rng.one_in(3) {
        rng.pick(&[0x70, 0x77])
    } else {
        rng.pick(&TEMPLATES)
    };
    let mut list = Vec::new();
    if levels > 1 && rng.percent(60) {
        list.push(nested(rng, store, levels - 1));
    }
    if rng.one_in(2) {
        list.push(unknown(rng));
    }
    if rng.one_in(4) {
        list.push(private(rng));
    }
    let allowed = objects::unused_in(Templates::of_tag(tag));
    if !allowed.is_empty() && rng.one_in(3) {
        let object = rng.pick(&allowed);
        let value = objects::good_value(rng, object);
        if !store::has_value(store, object) && value.len() < 24 {
            list.push(objects::object(rng, object.row().tag, &value));
        }
    }
    objects::template(rng, tag, &list)
}

/// Puts a fault among the objects of an answer in the template `outer`.
fn fault_in_objects(
    rng: &mut Rng,
    store: &Store,
    list: &mut Vec<Vec<u8>>,
    outer: u32,
    fault: usize,
) {
    let added = match fault {
        0 | 1 => {
            // A known object of any kind, with a value that fits.
            let object = rng.pick(&Object::ALL);
            let value = objects::good_value(rng, object);
            objects::object(rng, object.row().tag, &value)
        }
        2 | 3 => {
            // A wrong length or digit in an object that the card may set.
            let object = rng.pick(&objects::in_template(Templates::of_tag(outer)));
            let value = objects::odd_value(rng, object);
            objects::object(rng, object.row().tag, &value)
        }
        4 => {
            // An object again.
            match list.len() {
                0 => objects::object(rng, 0x95, &[0; 5]),
                n => list[rng.below(n)].clone(),
            }
        }
        5 => {
            // An object of the card in another template.
            let object = rng.pick(&Object::ALL);
            let value = objects::good_value(rng, object);
            let inner = objects::object(rng, object.row().tag, &value);
            let other = rng.pick(&TEMPLATES);
            let tag = rng.pick(&[0x70, 0x77, other]);
            objects::object(rng, tag, &inner)
        }
        6 => {
            // Four or five levels in all, with something in the innermost.
            let mut inner = match rng.below(3) {
                0 => Vec::new(),
                1 => unknown(rng),
                _ => private(rng),
            };
            for _ in 0..rng.within(3..=4) {
                let tag = rng.pick(&TEMPLATES);
                inner = objects::template(rng, tag, &[inner]);
            }
            inner
        }
        7 => {
            // A broken object inside, alone or in a template.
            let mut inner = Vec::new();
            if rng.one_in(3) {
                let other = rng.pick(&UNKNOWN);
                let tag = rng.pick(&[0x57, 0x9F10, 0xDF8120, 0xE1, other]);
                objects::put_refused_length(rng, &mut inner, tag);
            } else {
                inner.extend(objects::broken(rng));
            }
            if rng.one_in(2) {
                let tag = rng.pick(&TEMPLATES);
                objects::object(rng, tag, &inner)
            } else {
                inner
            }
        }
        8 => {
            // A byte that is no padding in the place of one that is.
            let other = rng.pick(&[0xFF, 0xFF, 0xFF, 0x01, 0x80]);
            rng.pick(&[&[other][..], &[other, 0x00], &[0x00, other]])
                .to_vec()
        }
        _ => nested(rng, store, 5),
    };
    let at = if rng.one_in(2) {
        list.len()
    } else {
        rng.within(0..=list.len())
    };
    list.insert(at, added);
}

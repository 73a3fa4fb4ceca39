//! Values, encoded objects and DOLs.

use crate::rng::Rng;
use crate::track;
use model::dictionary::{Answers, Form, Object, Row, Templates, ROWS};

/// Primitive tags that the dictionary does not know, private ones among them. Some are entries of annex A that
/// have no row.
pub const UNKNOWN: [u32; 23] = [
    0x51, 0x4F, 0x81, 0x83, 0x8D, 0x92, 0x9B, 0x01, 0x5F20, 0x5F50, 0x5F60, 0x9F00, 0x9F48, 0x9F4B,
    0x9F4E, 0xC1, 0xDF01, 0xDF8107, 0xDF8112, 0xDF8131, 0xDF8220, 0x1F05, 0x9F8102,
];

/// Objects of the card that a step of the session examines.
const USED: [Object; 24] = [
    Object::Pan,
    Object::InterchangeProfile,
    Object::Cdol1,
    Object::CvmList,
    Object::FileLocator,
    Object::ExpirationDate,
    Object::EffectiveDate,
    Object::IssuerCountry,
    Object::UsageControl,
    Object::VersionCard,
    Object::IssuerActionDefault,
    Object::IssuerActionDenial,
    Object::IssuerActionOnline,
    Object::IssuerApplicationData,
    Object::Cryptogram,
    Object::CryptogramInformation,
    Object::TransactionCounter,
    Object::ApplicationCurrency,
    Object::Cvc3Track2,
    Object::Pcvc3Track2,
    Object::PunatcTrack2,
    Object::NatcTrack2,
    Object::Udol,
    Object::Track2Data,
];

/// Templates other than 70 and 77.
pub const TEMPLATES: [u32; 8] = [0xE1, 0xA5, 0x61, 0x6F, 0xBF0C, 0x7F21, 0xFF8101, 0x3F01];

/// Bytes that are no object, or not a whole one.
const BROKEN: [&[u8]; 16] = [
    &[0x00],
    &[0x00, 0x00],
    &[0x9F],
    &[0x9F, 0x80],
    &[0x9F, 0x80, 0x00],
    &[0xDF, 0x81],
    &[0xDF, 0x81, 0x80, 0x00],
    &[0xDF, 0x81, 0xA0, 0x01, 0x00],
    &[0xDF, 0x80, 0x20, 0x00],
    &[0x50],
    &[0x50, 0x80],
    &[0x50, 0x81],
    &[0x50, 0x82, 0x00],
    &[0x50, 0x83, 0x00, 0x00, 0x00],
    &[0x50, 0x01],
    &[0x50, 0xFF],
];

/// Bytes that are no object, or not a whole one.
pub fn broken(rng: &mut Rng) -> &'static [u8] {
    rng.pick(&BROKEN)
}

/// Appends a tag.
pub fn put_tag(out: &mut Vec<u8>, tag: u32) {
    let bytes = tag.to_be_bytes();
    let skip = (tag.leading_zeros() / 8).min(3) as usize;
    out.extend(&bytes[skip..]);
}

/// Appends an object, its length mostly in the shortest form.
pub fn put_object(rng: &mut Rng, out: &mut Vec<u8>, tag: u32, value: &[u8]) {
    put_tag(out, tag);
    let least = match value.len() {
        0..=0x7F => 0,
        0x80..=0xFF => 1,
        _ => 2,
    };
    let form = if rng.one_in(8) {
        rng.within(least..=2)
    } else {
        least
    };
    let length = value.len() as u16;
    match form {
        0 => out.push(length as u8),
        1 => out.extend([0x81, length as u8]),
        _ => out.extend([0x82, (length >> 8) as u8, length as u8]),
    }
    out.extend(value);
}

/// Appends an object whose length has a form that is refused, with the bytes it seems to ask for.
pub fn put_refused_length(rng: &mut Rng, out: &mut Vec<u8>, tag: u32) {
    put_tag(out, tag);
    let length = rng.below(6);
    match rng.below(5) {
        0 => {
            // 80 as a plain length.
            out.push(0x80);
            out.extend(rng.bytes(128));
        }
        1 => {
            // The indefinite form.
            out.push(0x80);
            out.extend([0x50, 0x00, 0x00, 0x00]);
        }
        2 => {
            out.extend([0x83, 0x00, 0x00, length as u8]);
            out.extend(rng.bytes(length));
        }
        3 => {
            out.extend([0x84, 0x00, 0x00, 0x00, length as u8]);
            out.extend(rng.bytes(length));
        }
        _ => {
            let first = rng.pick(&[0x83, 0x85, 0xFF]);
            out.extend([first, length as u8]);
            out.extend(rng.bytes(length));
        }
    }
}

/// An encoded object.
pub fn object(rng: &mut Rng, tag: u32, value: &[u8]) -> Vec<u8> {
    let mut out = Vec::with_capacity(value.len() + 6);
    put_object(rng, &mut out, tag, value);
    out
}

/// Objects concatenated, with runs of 00 before, between and after some of them, as far as 250 bytes have room.
pub fn padded(rng: &mut Rng, list: &[Vec<u8>]) -> Vec<u8> {
    let mut room = 250usize.saturating_sub(list.iter().map(Vec::len).sum());
    let mut run = |rng: &mut Rng| {
        let some = rng.within(4..=60);
        let length = rng.pick(&[0, 0, 0, 0, 1, 1, 1, 2, 3, some]).min(room);
        room -= length;
        vec![0x00; length]
    };
    let mut out = run(rng);
    for object in list {
        out.extend(object);
        out.extend(run(rng));
    }
    out
}

/// The contents of a template with these objects, padded in one of three.
pub fn contents(rng: &mut Rng, list: &[Vec<u8>]) -> Vec<u8> {
    if rng.one_in(3) {
        padded(rng, list)
    } else {
        list.concat()
    }
}

/// A template with these objects.
pub fn template(rng: &mut Rng, tag: u32, list: &[Vec<u8>]) -> Vec<u8> {
    let contents = contents(rng, list);
    object(rng, tag, &contents)
}

/// Amounts near each other, and over 32 bits with the same low half.
const AMOUNTS: [u64; 10] = [
    0,
    1,
    1233,
    1234,
    1235,
    123_400,
    0xFFFF_FFFF,
    0x1_0000_0000,
    0x1_0000_04D2,
    999_999_999_999,
];

/// A list for cardholder verification: two amounts and rules, mostly few, and in part with an odd byte after.
fn cvm_list(rng: &mut Rng) -> Vec<u8> {
    const NAMES: [u8; 16] = [
        0x00, 0x01, 0x02, 0x03, 0x04, 0x05, 0x1E, 0x1F, 0x06, 0x1D, 0x20, 0x3F, 0x02, 0x1E, 0x1F,
        0x00,
    ];
    let mut list = Vec::new();
    for _ in 0..2 {
        let limit = match rng.below(4) {
            0 => rng.bits() as u32,
            1 => 0,
            _ => rng.pick(&AMOUNTS) as u32,
        };
        list.extend(limit.to_be_bytes());
    }
    let rules = match rng.below(40) {
        0 => 121,
        1 => rng.within(8..=120),
        _ => rng.within(1..=6),
    };
    let sorts = rng.below(3);
    for i in 0..rules {
        let name = rng.pick(&NAMES);
        let go_on = i + 1 < rules && rng.percent(70) || rng.one_in(4);
        let reserved = rng.one_in(12);
        let any = rng.byte();
        let code = name | u8::from(go_on) << 6 | u8::from(reserved) << 7;
        let condition = rng.below(10) as u8;
        list.extend(match sorts {
            // Any rules; rules whose codes are not met or fail, up to the last ones; rules of the table.
            0 if rng.one_in(4) => [any, rng.byte()],
            1 if i + 2 < rules => [rng.pick(&[0x40, 0x46, code | 0x40]), condition],
            _ => [
                code,
                if rng.one_in(10) {
                    rng.byte()
                } else {
                    condition
                },
            ],
        });
    }
    if list.len() < 250 && rng.one_in(5) {
        list.push(rng.byte());
    }
    list
}

/// Digits of an amount.
pub fn amount(mut number: u64) -> Vec<u8> {
    let mut digits = vec![0; 6];
    for byte in digits.iter_mut().rev() {
        *byte = (number % 10 + number / 10 % 10 * 16) as u8;
        number /= 100;
    }
    digits
}

/// An action code: mostly zeros, ones, or one of the bits that can be set in 95.
fn action_code(rng: &mut Rng) -> Vec<u8> {
    let bit = rng.pick(&[
        [0x80, 0, 0, 0, 0],
        [0, 0x80, 0, 0, 0],
        [0, 0x40, 0, 0, 0],
        [0, 0x20, 0, 0, 0],
        [0, 0x10, 0, 0, 0],
        [0, 0, 0, 0x80, 0],
        [0x20, 0, 0, 0, 0],
        [0, 0, 0x80, 0, 0],
        [0, 0, 0x40, 0, 0],
        [0, 0, 0x04, 0, 0],
    ]);
    match rng.below(10) {
        0..=4 => vec![0; 5],
        5 | 6 => bit.to_vec(),
        7 => vec![0x5F, 0x0F, 0x3B, 0x7F, 0xFF],
        8 => {
            let mut code = rng.bytes(5);
            code[0] &= 0x7F;
            code[2] &= 0x7F;
            code
        }
        _ => bit.iter().map(|byte| !byte).collect(),
    }
}

/// A value that fits its row, from few values where two objects are compared.
pub fn good_value(rng: &mut Rng, object: Object) -> Vec<u8> {
    const DATES: [[u8; 3]; 9] = [
        [0x25, 0x06, 0x14],
        [0x25, 0x06, 0x15],
        [0x25, 0x06, 0x16],
        [0x99, 0x12, 0x31],
        [0x00, 0x01, 0x01],
        [0x49, 0x12, 0x31],
        [0x50, 0x01, 0x01],
        [0x50, 0x01, 0x02],
        [0x25, 0x10, 0x01],
    ];
    let row = object.row();
    let special = rng.percent(85);
    match object {
        Object::TransactionDate | Object::ExpirationDate | Object::EffectiveDate if special => {
            rng.pick(&DATES).to_vec()
        }
        Object::TransactionType if special => {
            vec![rng.pick(&[0x00, 0x00, 0x01, 0x09, 0x17, 0x20])]
        }
        Object::AmountAuthorised
        | Object::FloorLimit
        | Object::TransactionLimit
        | Object::TransactionLimitOnDevice
        | Object::CvmRequiredLimit
            if special =>
        {
            amount(rng.pick(&AMOUNTS))
        }
        Object::AmountOther if special => amount(rng.pick(&[0, 0, 1, 100_000_000_000])),
        Object::IssuerCountry | Object::TerminalCountry if special => {
            rng.pick(&[[0x00, 0x56], [0x08, 0x40]]).to_vec()
        }
        Object::TransactionCurrency | Object::ApplicationCurrency if special => rng
            .pick(&[[0x09, 0x78], [0x09, 0x78], [0x08, 0x40]])
            .to_vec(),
        Object::CvmList => cvm_list(rng),
        Object::TerminalCapabilities if special => {
            let bit = 1u8 << rng.within(3..=7);
            vec![0xE0, rng.pick(&[0xF8, 0xF8, bit, !bit, 0x00]), 0xC8]
        }
        Object::VersionCard | Object::VersionReader if special => rng
            .pick(&[[0x00, 0x02], [0x00, 0x02], [0x01, 0x02]])
            .to_vec(),
        Object::TerminalType => vec![rng.pick(&[
            0x11, 0x12, 0x13, 0x14, 0x15, 0x16, 0x21, 0x22, 0x23, 0x24, 0x25, 0x26, 0x34, 0x35,
            0x36,
        ])],
        Object::AdditionalCapabilities => {
            let mut value = rng.bytes(5);
            value[0] = rng.pick(&[0x80, 0x7F, 0xFF, 0x00]);
            value
        }
        Object::UsageControl if special => {
            let bit = 1u8 << rng.below(8);
            let first = rng.pick(&[0xFF, 0xFF, 0x01, 0x02, bit | 0x01, bit | 0x02, !bit]);
            vec![first, rng.pick(&[0xC0, 0x80, 0x40, 0x00, 0xFF])]
        }
        Object::IssuerActionDefault
        | Object::IssuerActionDenial
        | Object::IssuerActionOnline
        | Object::TerminalActionDefault
        | Object::TerminalActionDenial
        | Object::TerminalActionOnline => action_code(rng),
        Object::KernelConfiguration if special => {
            vec![rng.pick(&[0x20, 0x20, 0x7F, 0x5F, 0x00, 0xA0, 0xDF])]
        }
        Object::InterchangeProfile => {
            let mut first = rng.byte();
            // Mostly with cardholder verification, and not on the device.
            if rng.percent(60) {
                first |= 0x10;
            }
            if rng.percent(40) {
                first &= !0x02;
            }
            vec![
                first,
                if rng.one_in(6) {
                    rng.byte() & 0x7F
                } else {
                    rng.byte() | 0x80
                },
            ]
        }
        Object::FileLocator => locator(rng),
        Object::Cdol1 | Object::Udol => dol(rng, 250, 255),
        Object::Pdol => dol(rng, 240, 252),
        Object::Pan => {
            let length = if rng.one_in(12) {
                rng.within(0..=10)
            } else {
                rng.within(1..=10)
            };
            pan(rng, length)
        }
        Object::CryptogramInformation => {
            vec![
                rng.pick(&[0x00, 0x40, 0x80, 0xC0])
                    | if rng.one_in(3) { rng.byte() & 0x3F } else { 0 },
            ]
        }
        Object::Track2Data => track::track(rng),
        Object::Pcvc3Track2 | Object::PunatcTrack2 => track::mask(rng, 13),
        Object::NatcTrack2 if special => vec![rng.below(9) as u8],
        Object::Cvc3Track2 | Object::TransactionCounter if special => {
            let number = rng.pick(&[0u16, 7, 9, 10, 42, 100, 999, 9999, 10_000, 0x1F35, 0xFFFF]);
            number.to_be_bytes().to_vec()
        }
        _ => {
            let (least, most) = (usize::from(row.least), usize::from(row.most));
            let length = match rng.below(8) {
                _ if most - least <= 32 => rng.within(least..=most),
                0 => most,
                1 => rng.within(least..=most),
                _ => rng.within(least..=least + 12),
            };
            match row.form {
                Form::Numeric => rng.digits(length),
                Form::CompressedNumeric => pan(rng, length),
                Form::Binary => rng.bytes(length),
            }
        }
    }
}

/// Digits, then Fs.
fn pan(rng: &mut Rng, length: usize) -> Vec<u8> {
    let mut value = rng.digits(length);
    let digits = if rng.one_in(2) {
        2 * length
    } else {
        rng.within(0..=2 * length)
    };
    for nibble in digits..2 * length {
        value[nibble / 2] |= if nibble % 2 == 0 { 0xF0 } else { 0x0F };
    }
    value
}

/// A value that often does not fit its row: a wrong length or a wrong digit.
pub fn odd_value(rng: &mut Rng, object: Object) -> Vec<u8> {
    let row = object.row();
    let (least, most) = (usize::from(row.least), usize::from(row.most));
    let mut value = good_value(rng, object);
    match rng.below(6) {
        0 => value.truncate(least.saturating_sub(1)),
        1 => value.resize(most + 1, 0x11),
        2 => value.clear(),
        3 => value.resize(rng.within(0..=most + 3), 0x11),
        _ if value.is_empty() => value.push(0xA0),
        _ => {
            let at = rng.below(value.len());
            value[at] = rng.pick(&[0xA0, 0x0A, 0xF9, 0x9F, 0xFF, 0xB1, 0x1C]);
        }
    }
    value
}

/// A tag for an entry of a DOL, with a length near its value's.
fn entry(rng: &mut Rng) -> (u32, usize) {
    let (tag, natural) = match rng.below(10) {
        0 => (rng.pick(&UNKNOWN), rng.below(8)),
        1 => (rng.pick(&TEMPLATES), rng.below(8)),
        2 => (rng.pick(&[0x95, 0x9F02, 0x5A, 0x70, 0x77]), 6),
        _ => {
            let row = &ROWS[rng.below(ROWS.len())];
            (row.tag, usize::from(row.most).min(12))
        }
    };
    let length = match rng.below(8) {
        0 => natural + 1,
        1 => natural.saturating_sub(1),
        2 => rng.below(16),
        3 => 0,
        _ => natural,
    };
    (tag, length)
}

/// A DOL of at most `room` bytes; its filled length is mostly at most `limit`.
pub fn dol(rng: &mut Rng, room: usize, limit: usize) -> Vec<u8> {
    let mut list = Vec::new();
    let mut total = 0;
    let entries = match rng.below(20) {
        0 => 80,
        1 | 2 => rng.within(6..=30),
        _ => rng.within(1..=5),
    };
    let target = if rng.one_in(5) {
        rng.pick(&[
            0,
            1,
            126,
            127,
            128,
            129,
            240,
            limit - 1,
            limit,
            limit,
            limit,
            limit + 1,
            256,
            400,
            700,
        ])
    } else {
        limit
    };
    for _ in 0..entries {
        let (tag, mut length) = entry(rng);
        if total + length > target {
            length = target - total;
        }
        if list.len() + 4 > room {
            break;
        }
        put_tag(&mut list, tag);
        list.push(length as u8);
        total += length;
    }
    if target != limit || rng.one_in(30) {
        // Fill up to the target with long entries.
        while total < target && list.len() + 4 <= room {
            let length = (target - total).min(255);
            put_tag(&mut list, entry(rng).0);
            list.push(length as u8);
            total += length;
        }
    }
    if rng.one_in(40) {
        match rng.below(4) {
            0 => list.truncate(rng.within(0..=list.len())),
            1 => {
                let bytes = broken(rng);
                list.extend(bytes);
            }
            2 => {
                // What would be padding in a template.
                let at = rng.pick(&[0, list.len()]);
                list.insert(at, 0x00);
            }
            _ => {
                let at = rng.within(0..=list.len());
                list.insert(at, rng.pick(&[0x00, 0x9F, 0x80, 0x1F]));
            }
        }
    }
    list.truncate(room);
    list
}

/// An AFL; about one in ten breaks a rule.
pub fn locator(rng: &mut Rng) -> Vec<u8> {
    let (entries, most, total) = match rng.below(100) {
        0 => (62, 2, 128),
        1 => (rng.within(1..=6), 128, 128),
        2 => (1, 128, rng.pick(&[127, 128, 129, 255])),
        3 => (rng.within(30..=62), 4, 140),
        4..=13 => (rng.within(4..=9), 2, 128),
        _ => (rng.within(1..=3), 3, 128),
    };
    let mut locator = Vec::new();
    let mut left = total;
    for i in 0..entries {
        let records = if most == 128 && i + 1 == entries {
            left
        } else {
            rng.within(1..=most).min(left)
        };
        if records == 0 {
            break;
        }
        left -= records;
        let file = if rng.percent(85) {
            rng.within(1..=10)
        } else {
            rng.within(10..=30)
        };
        let first = if rng.percent(70) {
            1
        } else {
            rng.within(1..=256 - records)
        };
        let last = first + records - 1;
        let some = rng.within(0..=records);
        let authenticated = rng.pick(&[0, 0, 0, 1, records, some]);
        locator.extend([
            (file << 3) as u8,
            first as u8,
            last as u8,
            authenticated as u8,
        ]);
    }
    if rng.one_in(12) {
        let at = 4 * rng.below(locator.len() / 4);
        match rng.below(9) {
            0 => locator[at] |= 1 << rng.below(3),
            1 => locator[at] = 0x00,
            2 => locator[at] = 0xF8,
            3 => locator[at + 1] = 0x00,
            4 => locator[at + 2] = locator[at + 1].wrapping_sub(1),
            5 => locator[at + 3] = (locator[at + 2].wrapping_sub(locator[at + 1])).wrapping_add(2),
            6 => {
                let length = rng.within(1..=3);
                locator.extend(rng.bytes(length));
            }
            7 => locator[at + 2] = 0xFF,
            _ => {
                let at = rng.below(locator.len());
                locator[at] = rng.byte();
            }
        }
        locator.truncate(248);
    }
    locator
}

/// Whether a step of the session examines an object of the card.
pub fn is_used(object: Object) -> bool {
    USED.contains(&object)
}

/// Objects of the dictionary whose rows pass a test.
pub fn which(test: impl Fn(&Row) -> bool) -> Vec<Object> {
    let mut all = Object::ALL.to_vec();
    all.retain(|object| test(object.row()));
    all
}

/// Objects that the card may set in a template.
pub fn in_template(template: Templates) -> Vec<Object> {
    which(|row| row.templates.meets(template))
}

/// Objects that the card may set in a template of any answer, and that no step of the session examines.
pub fn unused_in(template: Templates) -> Vec<Object> {
    let mut all = which(|row| row.templates.meets(template) && row.answers == Answers::All);
    all.retain(|&object| !is_used(object));
    all
}

/// Whether a tag is of private class.
pub fn is_private(tag: u32) -> bool {
    let mut bytes = Vec::new();
    put_tag(&mut bytes, tag);
    bytes[0] >= 0xC0
}

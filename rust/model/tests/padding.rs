//! Padding between objects (document 02, Item 6): bytes of 00 within a template, and nowhere else.

mod common;

use common::{decided, ended, ended_later, hex, is_command, outcome, refused, start_with, Host};
use common::{NOT_APPLICABLE, START};
use model::dictionary::Object;
use model::find::{find, Found, Value};
use model::reading::AnswerTo;
use model::store::{self, Store};
use model::{tlv, STORE_SIZE};

const EMPTY: Store = [0; STORE_SIZE];

/// Reads a body into an empty store: reason, count, store.
fn read_to(to: AnswerTo, body: &str) -> (u8, u32, Store) {
    let mut store = EMPTY;
    let mut answer = hex(body);
    answer.extend([0x90, 0x00]);
    let (reason, count) = model::read_answer(&mut store, to, 1, &answer);
    (reason, count, store)
}

fn read(body: &str) -> (u8, u32, Store) {
    read_to(AnswerTo::Record, body)
}

/// The empty store with these objects put in.
fn with(objects: &[(Object, &str)]) -> Store {
    let mut store = EMPTY;
    for &(object, value) in objects {
        store::put(&mut store, object, &hex(value));
    }
    store
}

const VERSION: (Object, &str) = (Object::VersionCard, "0002");
const EFFECTIVE: (Object, &str) = (Object::EffectiveDate, "240101");

#[test]
fn before_between_and_behind() {
    assert_eq!(read("70 01 00"), (0, 1, EMPTY));
    let stored = with(&[VERSION]);
    assert_eq!(read("70 07 0000 9F08020002"), (0, 2, stored));
    assert_eq!(read("70 09 00 9F08020002 000000"), (0, 2, stored));
    assert_eq!(
        read("70 0D 00 9F08020002 00 5F2503240101"),
        (0, 3, with(&[VERSION, EFFECTIVE]))
    );
    // As much as fits.
    let zeros = "00".repeat(253);
    assert_eq!(read(&format!("70 81FD {zeros}")), (0, 1, EMPTY));
}

#[test]
fn at_every_level() {
    let stored = with(&[VERSION]);
    assert_eq!(
        read("70 0B E1020000 00 9F08020002 00"),
        (0, 3, stored),
        "an unknown template of nothing but padding"
    );
    assert_eq!(read("70 09 00 E106 00 E103 E101 00"), (0, 4, EMPTY));
    for body in [
        "70 0E 00 700A 00 7007 00 9F08020002 00 00",
        "70 0E 00 700B 00 7008 00 9F08020002 0000",
        "70 0D E100 7009 E101 00 9F08020002 00",
    ] {
        let objects = if body.contains("E1") { 5 } else { 4 };
        assert_eq!(read(body), (0, objects, stored), "{body}");
    }
    assert_eq!(read("70 0A E108 E106 E104 E102 0000"), (2, 0, EMPTY));
    assert_eq!(read("70 0B 00 E108 E106 E104 E102 0000"), (2, 0, EMPTY));
}

#[test]
fn nowhere_else() {
    for body in [
        "00 7000",
        "70 00 00",
        "70 05 9F08020002 00",
        "70 06 9F00 08020002",
        "70 02 FF00",
        "70 80 00 00",
        "00",
        "00 00 00",
        "70 01 FF",
        "70 06 FF 9F08020002",
        "70 06 9F08020002 FF",
    ] {
        assert_eq!(read(body), (2, 0, EMPTY), "{body}");
    }
    // Between tag and length, and in a value: a length of 0, and bytes of the value.
    assert_eq!(read("70 06 9F08 00 020002"), (2, 0, EMPTY));
    assert_eq!(
        read("70 05 9F08020000"),
        (0, 2, with(&[(Object::VersionCard, "0000")]))
    );
    assert_eq!(read("70 06 51 04 00000000"), (0, 2, EMPTY));
    // An outer tag that is wrong, over contents of padding, and one object that is not allowed.
    assert_eq!(read("61 02 0000"), (2, 1, EMPTY));
    assert_eq!(read("77 07 00 9F08020002 00"), (2, 2, EMPTY));
    assert_eq!(read("70 04 00 950100"), (3, 2, EMPTY));
    assert_eq!(read("50 02 0000"), (2, 1, EMPTY));
}

#[test]
fn processing_options() {
    let read = |body| read_to(AnswerTo::Options, body);
    let stored = with(&[
        (Object::InterchangeProfile, "0080"),
        (Object::FileLocator, "08010100"),
    ]);
    let padded = "77 0F 00 82020080 0000 940408010100 0000";
    assert_eq!(read(padded), (0, 3, stored));
    assert_eq!(read("80 06 0080 08010100"), (0, 1, stored));
    assert_eq!(read("80 07 0080 08010100 00"), (2, 1, EMPTY));
    assert_eq!(read("80 07 00 0080 08010100"), (2, 1, EMPTY));
    let mut host = Host::started(&[]);
    let word = host.answer_hex(&format!("{padded} 9000"));
    assert_eq!(host.command(word), hex("00B2010C00"));
    for body in ["00 80 06 0080 08010100", "80 06 0080 08010100 00", "00"] {
        let mut host = Host::started(&[]);
        assert_eq!(host.answer_hex(&format!("{body} 9000")), ended(2), "{body}");
    }
}

#[test]
fn records() {
    for body in [
        "70 01 00",
        "70 07 0000 9F08020002",
        "70 0B E1020000 00 9F08020002 00",
    ] {
        let mut host = Host::reading(&[], "08010200");
        let word = host.answer_hex(&format!("{body} 9000"));
        assert_eq!(host.command(word), hex("00B2020C00"), "{body}");
    }
    let mut host = Host::reading(&[], "08010200");
    assert_eq!(host.answer_hex("70 05 9F08020002 00 9000"), ended(2));
    assert_eq!(host.get(Object::VersionCard), None);
}

/// The content of a record after which offline is requested.
const OFFLINE: &str = "5F24 03 491231 00 5A 02 1234 00 8C 02 9505 0000 9F0F 05 0000000000";

#[test]
fn cryptogram() {
    let body = "77 18 00 9F270140 00 9F36020001 00 9F26080102030405060708 00";
    let stored = with(&[
        (Object::CryptogramInformation, "40"),
        (Object::TransactionCounter, "0001"),
        (Object::Cryptogram, "0102030405060708"),
    ]);
    assert_eq!(read_to(AnswerTo::Cryptogram, body), (0, 4, stored));
    let mut host = Host::generating(&[], OFFLINE);
    assert_eq!(host.answer_hex(&format!("{body} 9000")), decided(0));
    // The body of an 80 is a value: a byte after the cryptogram is issuer data.
    let mut host = Host::generating(&[], OFFLINE);
    let answer = "80 0C 40 0001 0102030405060708 00 9000";
    assert_eq!(host.answer_hex(answer), decided(0));
    assert_eq!(host.get(Object::IssuerApplicationData), Some(&[0][..]));
    let mut host = Host::generating(&[], OFFLINE);
    let answer = "80 0B 40 0001 0102030405060708 00 9000";
    assert_eq!(host.answer_hex(answer), ended_later(2));
}

#[test]
fn not_in_start_bytes() {
    let good = start_with(&[]);
    let first = hex(START[0]).len();
    assert!(is_command(Host::open().start(&good)));
    for at in [0, first, good.len()] {
        for zeros in 1..=3 {
            let mut bytes = good.clone();
            bytes.splice(at..at, vec![0x00; zeros]);
            assert_eq!(Host::open().start(&bytes), refused(20), "at {at}");
        }
    }
    assert_eq!(Host::open().start(&[0x00]), refused(20));
}

#[test]
fn not_in_data_lists() {
    for list in ["9F38 04 9F020600", "9F38 04 009F0206", "9F38 01 00"] {
        let word = Host::open().start(&start_with(&[list]));
        assert_eq!(word, ended(7), "{list}");
    }
    for list in ["8C 03 950500", "8C 03 009505", "8C 01 00"] {
        let mut host = Host::reading(&[], "08010100");
        let word = host.record(&format!("5F24 03 491231 5A 02 1234 {list}"));
        assert_eq!(word, ended_later(7), "{list}");
    }
}

/// Padding before the object that is missing after the last record does not bring it.
#[test]
fn padding_brings_nothing() {
    let mut host = Host::reading(&[], "08010100");
    assert_eq!(host.record("00"), outcome(NOT_APPLICABLE, 3, 4));
}

/// Drawn contents of a template are read alike with and without runs of 00 around their objects.
#[test]
fn padding_changes_nothing_else() {
    let mut draw = common::Draw(0x9E37_79B9);
    for _ in 0..2000 {
        let (plain, padded) = drawn_contents(&mut draw, 3);
        assert_eq!(read_contents(&plain), read_contents(&padded));
        let count = |contents: &[u8]| tlv::count_objects(contents, 3);
        assert_eq!(count(&plain), count(&padded));
        for tag in [0x50, 0x9F08, 0x5F25, 0x95, 0x57] {
            assert_eq!(found_value(&plain, tag), found_value(&padded, tag));
        }
    }
}

/// Reads contents in a template 70.
fn read_contents(contents: &[u8]) -> (u8, u32, Store) {
    let mut store = EMPTY;
    let mut answer = vec![0x70, 0x81, contents.len() as u8];
    answer.extend(contents);
    answer.extend([0x90, 0x00]);
    let (reason, count) = model::read_answer(&mut store, AnswerTo::Record, 1, &answer);
    (reason, count, store)
}

/// The value that is found for a tag in contents that are well-formed.
fn found_value(contents: &[u8], tag: u32) -> Option<&[u8]> {
    match find(contents, tag) {
        Found::Object(Value { place, length }) => Some(&contents[place..][..length]),
        found => {
            assert_eq!(found, Found::Absent);
            None
        }
    }
}

/// A few objects twice: as they are, and with runs of 00 around them.
fn drawn_contents(draw: &mut common::Draw, levels: usize) -> (Vec<u8>, Vec<u8>) {
    let (mut plain, mut padded) = (Vec::new(), Vec::new());
    for _ in 0..draw.below(4) {
        padded.resize(padded.len() + draw.below(3), 0x00);
        if levels > 0 && draw.below(3) == 0 {
            let tag = draw.pick(&[0xE1, 0x70, 0xA5]);
            let (inner, inner_padded) = drawn_contents(draw, levels - 1);
            for (out, inner) in [(&mut plain, inner), (&mut padded, inner_padded)] {
                out.extend([tag, 0x81, inner.len() as u8]);
                out.extend(inner);
            }
        } else {
            let object =
                hex(draw.pick(&["9F08020102", "5F2503241111", "5000", "950101", "570107"]));
            plain.extend(&object);
            padded.extend(&object);
        }
    }
    padded.resize(padded.len() + draw.below(3), 0x00);
    (plain, padded)
}

#[test]
fn found_behind_padding() {
    let at = |place, length| Found::Object(Value { place, length });
    let answer = hex("6F 0D 00 84 02 4142 0000 A5 03 50 00 00");
    assert_eq!(answer.len(), 14);
    assert_eq!(find(&answer, 0x84), Found::Malformed);
    let answer = hex("6F 0C 00 84 02 4142 0000 A5 03 50 00 00");
    assert_eq!(find(&answer, 0x6F), at(2, 12));
    assert_eq!(find(&answer, 0x84), at(5, 2));
    assert_eq!(find(&answer, 0xA5), at(11, 3));
    assert_eq!(find(&answer, 0x50), at(13, 0));
    assert_eq!(find(&answer, 0x4F), Found::Absent);
    // The bytes themselves are read as the contents of a template.
    assert_eq!(find(&hex("00 50 01 41 00 50 00 00"), 0x50), at(3, 1));
    assert_eq!(find(&hex("00 00"), 0x50), Found::Absent);
    assert_eq!(find(&hex("00 00"), 0x00), Found::Absent);
    assert_eq!(find(&hex("50 01 41 FF"), 0x50), Found::Malformed);
    assert_eq!(find(&[], 0x50), Found::Absent);
    // Four levels and no fifth.
    assert_eq!(
        find(&hex("00 E1 08 00 E1 05 E1 03 E1 01 00"), 0xE1),
        at(3, 8)
    );
    let five = hex("E1 0A E1 08 E1 06 E1 04 E1 02 00 00");
    assert_eq!(find(&five, 0xE1), Found::Malformed);
    // 65,535 bytes are searched, and no more.
    let mut long = vec![0x00; 65_535];
    assert_eq!(find(&long, 0x50), Found::Absent);
    long[65_533] = 0x50;
    assert_eq!(find(&long, 0x50), at(65_535, 0));
    long.push(0x00);
    assert_eq!(find(&long, 0x50), Found::Malformed);
    assert_eq!(model::find(&long, 0x50), u64::MAX - 1);
    assert_eq!(model::find(&[0x50, 0x00], 0x51), u64::MAX);
    assert_eq!(model::find(&[0x00, 0x50, 0x01, 0x07], 0x50), 3 << 32 | 1);
}

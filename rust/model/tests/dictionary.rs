//! The whole data dictionary (document 02, Item 11; Book C-2, annex A). `table` compares the rows with the library's.

mod common;

use common::{decided, ended, hex, is_command, outcome, refused, start_with, Host};
use model::dictionary::{Answers, Form, Object, Row, Templates, REQUIRED_AT_START, ROWS};
use model::reading::AnswerTo;
use model::store::{self, Store};
use model::{tlv, STORE_SIZE};

const EMPTY: Store = [0; STORE_SIZE];

const ANSWERS: [AnswerTo; 4] = [
    AnswerTo::Options,
    AnswerTo::Record,
    AnswerTo::Cryptogram,
    AnswerTo::Checksum,
];

/// The templates that rows name, and one that none does.
const TEMPLATES: [(&str, Templates); 6] = [
    ("70", Templates::T70),
    ("77", Templates::T77),
    ("A5", Templates::TA5),
    ("BF0C", Templates::TBF0C),
    ("6F", Templates::T6F),
    ("E1", Templates::NONE),
];

fn object(tag: u32) -> Object {
    Object::of_tag(tag).expect("a known tag")
}

/// The empty store with these objects, each a tag, a blank and the value.
fn with(objects: &[&str]) -> Store {
    let mut store = EMPTY;
    common::change(&mut store, objects);
    store
}

/// Reads a body into an empty store: reason, count, store.
fn read(to: AnswerTo, body: &[u8]) -> (u8, u32, Store) {
    let mut store = EMPTY;
    let answer = [body, &[0x90, 0x00]].concat();
    let (reason, count) = model::read_answer(&mut store, to, 1, &answer);
    (reason, count, store)
}

/// A record's body gives this.
fn record(body: &str, reason: u8, count: u32, stored: &[&str]) {
    let expected = (reason, count, with(stored));
    assert!(read(AnswerTo::Record, &hex(body)) == expected, "{body}");
}

/// The body of an answer to GPO gives this.
fn options(body: &str, reason: u8, count: u32, stored: &[&str]) {
    let expected = (reason, count, with(stored));
    assert!(read(AnswerTo::Options, &hex(body)) == expected, "{body}");
}

/// A tag, a length and a value, as bytes.
fn encoded(tag: &[u8], value: &[u8]) -> Vec<u8> {
    let length = value.len() as u8;
    let length: &[u8] = if length < 0x80 {
        &[length]
    } else {
        &[0x81, length]
    };
    [tag, length, value].concat()
}

fn tag_bytes(row: &Row) -> Vec<u8> {
    let bytes = row.tag.to_be_bytes();
    bytes.into_iter().skip_while(|&byte| byte == 0).collect()
}

/// A value of a row's least length, or of one byte if that is 0 and there is room.
fn value(row: &Row) -> Vec<u8> {
    vec![0x11; usize::from(row.least.max(1))]
}

#[test]
fn the_whole_table() {
    assert!(ROWS.windows(2).all(|pair| pair[0].tag < pair[1].tag));
    for row in &ROWS {
        let bytes = tag_bytes(row);
        let (tag, rest) = tlv::split_tag(&bytes).expect("a tag");
        assert!(tag.number == row.tag && rest.is_empty(), "{:X}", row.tag);
        assert!(!tag.is_template(), "{:X}", row.tag);
        assert!(row.least <= row.most, "{:X}", row.tag);
        // Templates and answers are the card's.
        assert_eq!(row.is_of_card(), row.answers != Answers::None);
        assert!(row.is_of_card() || row.templates == Templates::NONE);
    }
}

/// The rows that were present before keep when their objects may come.
#[test]
fn answers_of_some_rows() {
    for row in &ROWS {
        let answers = match row.tag {
            0x9F10 | 0x9F26 | 0x9F27 => Answers::Cryptogram,
            0x9F61 => Answers::Checksum,
            0x9F36 => Answers::Either,
            _ if row.is_of_card() => Answers::All,
            _ => Answers::None,
        };
        assert_eq!(row.answers, answers, "{:X}", row.tag);
    }
}

/// Each row directly in each template, which is the outer one or is in it, in each answer.
#[test]
fn every_row_in_every_template() {
    for row in &ROWS {
        let object = object(row.tag);
        let inner = encoded(&tag_bytes(row), &value(row));
        for to in ANSWERS {
            let outer = if to == AnswerTo::Record { 0x70 } else { 0x77 };
            for (tag, template) in TEMPLATES {
                let inside = encoded(&hex(tag), &inner);
                let [outer_alone, outer_around] =
                    [&inner, &inside].map(|content| encoded(&[outer], content));
                let (body, count) = if hex(tag) == [outer] {
                    (outer_alone, 2)
                } else {
                    (outer_around, 3)
                };
                let private = tag_bytes(row)[0] >= 0xC0;
                let comes = match row.answers {
                    Answers::All => true,
                    Answers::Cryptogram => to == AnswerTo::Cryptogram,
                    Answers::Checksum => to == AnswerTo::Checksum,
                    Answers::Either => matches!(to, AnswerTo::Cryptogram | AnswerTo::Checksum),
                    Answers::None => false,
                };
                let mut store = EMPTY;
                let reason = if !row.is_of_card() {
                    if private {
                        0
                    } else {
                        3
                    }
                } else if comes && row.templates.meets(template) {
                    store::put(&mut store, object, &value(row));
                    0
                } else {
                    3
                };
                let expected = (reason, count, store);
                assert!(
                    read(to, &body) == expected,
                    "{:X} in {tag}, {to:?}",
                    row.tag
                );
            }
        }
    }
}

/// Only the template directly around an object counts.
#[test]
fn the_template_directly_around() {
    record("70 04 50024142", 3, 2, &[]);
    record("70 06 A504 50024142", 0, 3, &["50 4142"]);
    record("70 08 A506 E104 50024142", 3, 4, &[]);
    record("70 08 E106 A504 50024142", 0, 4, &["50 4142"]);
    record("70 0A A508 A506 A504 50024142", 0, 5, &["50 4142"]);
    record("70 09 6F07 8405 A000000004", 0, 3, &["84 A000000004"]);
    record("70 0B 6F09 A507 8405 A000000004", 3, 4, &[]);
    record("70 0B A509 6F07 8405 A000000004", 0, 4, &["84 A000000004"]);
    // Of two templates, each, and no other.
    let third = "9F6E05 0840000102";
    let stored = ["9F6E 0840000102"];
    record(&format!("70 08 {third}"), 0, 2, &stored);
    record(&format!("70 0B BF0C08 {third}"), 0, 3, &stored);
    record(&format!("70 0D A50B BF0C08 {third}"), 0, 4, &stored);
    record(&format!("70 0A A508 {third}"), 3, 3, &[]);
    record(&format!("70 0D BF0C0A A508 {third}"), 3, 4, &[]);
    options(&format!("77 08 {third}"), 3, 2, &[]);
    options(&format!("77 0A 7008 {third}"), 0, 3, &stored);
    record("70 07 9F6E04 08400001", 3, 2, &[]);
    let longest = "11".repeat(32);
    let stored = format!("9F6E {longest}");
    record(&format!("70 23 9F6E20 {longest}"), 0, 2, &[&stored]);
    record(&format!("70 24 9F6E21 {longest} 11"), 3, 2, &[]);
    for (body, stored) in [
        ("8F01 05", "8F 05"),
        ("5F3002 0201", "5F30 0201"),
        ("9F4401 02", "9F44 02"),
        ("9F3203 010001", "9F32 010001"),
    ] {
        let length = hex(body).len();
        record(&format!("70 {length:02X} {body}"), 0, 2, &[stored]);
        options(&format!("77 {length:02X} {body}"), 0, 2, &[stored]);
        record(
            &format!("70 {:02X} 77{length:02X} {body}", length + 2),
            0,
            3,
            &[stored],
        );
        record(
            &format!("70 {:02X} A5{length:02X} {body}", length + 2),
            3,
            3,
            &[],
        );
    }
    // Rows that stay: 70 alone, though annex A has 77 too.
    options("77 05 9F08020002", 3, 2, &[]);
    options("77 05 9F42020978", 3, 2, &[]);
    record("70 07 7705 9F08020002", 3, 3, &[]);
    record("70 07 A505 9F08020002", 3, 3, &[]);
}

/// Rows of the card without a template are never allowed, of private class neither.
#[test]
fn of_the_card_without_template() {
    record("70 04 8002 0000", 3, 2, &[]);
    options("77 04 8002 0000", 3, 2, &[]);
    record("70 08 DF830204 01020304", 3, 2, &[]);
    record("70 0C DF810108 0102030405060708", 3, 2, &[]);
    record("70 05 9F7002 0102", 3, 2, &[]);
    record("70 09 9F5006 000000000000", 3, 2, &[]);
    record("70 03 9F4C00", 3, 2, &[]);
    let rows = || {
        ROWS.iter()
            .filter(|row| row.is_of_card() && row.templates == Templates::NONE)
    };
    let tags: Vec<u32> = rows().map(|row| row.tag).collect();
    let envelopes = 0x9F70..=0x9F79;
    let expected: Vec<u32> = [0x80, 0x9F4C, 0x9F50]
        .into_iter()
        .chain(envelopes)
        .chain([0xDF8101, 0xDF8102, 0xDF8302, 0xDF8303, 0xDF8304, 0xDF8305])
        .collect();
    assert_eq!(tags, expected);
}

/// Private rows of start or session are skipped from a card, whatever their length; others are not allowed.
#[test]
fn of_start_or_session_from_a_card() {
    record("70 05 DF81170100", 0, 2, &[]);
    record("70 07 DF8117 03 000000", 0, 2, &[]);
    record("70 0B DF6008 0000000000000000", 0, 2, &[]);
    record("70 0B DF6108 0000000000000000", 0, 2, &[]);
    record("70 05 9F1502 1234", 3, 2, &[]);
    record("70 04 9F5301 52", 3, 2, &[]);
    record("70 06 9F2103 123456", 3, 2, &[]);
    record("70 0B 9F1C08 3132333435363738", 3, 2, &[]);
    record("70 07 DF8129 03 000000", 0, 2, &[]);
}

/// Entries of annex A that are no rows are unknown.
#[test]
fn left_out() {
    for body in [
        "9202 AABB",
        "9F4B02 AABB",
        "9F4802 AABB",
        "9F4E02 AABB",
        "DF811202 9F02",
        "DF8106 00",
        "DF8107 00",
        "DF810D 00",
        "DF8111 00",
        "DF8113 00",
        "DF8131 00",
    ] {
        let length = hex(body).len();
        record(&format!("70 {length:02X} {body}"), 0, 2, &[]);
        options(&format!("77 {length:02X} {body}"), 0, 2, &[]);
        let mut host = Host::open();
        let bytes = [start_with(&[]), hex(body), hex(body)].concat();
        assert!(is_command(host.start(&bytes)), "{body}");
    }
}

#[test]
fn lengths_and_digits() {
    record("70 05 9F4702 0003", 0, 2, &["9F47 0003"]);
    record("70 04 9F4701 03", 0, 2, &["9F47 03"]);
    record("70 06 9F4703 010001", 0, 2, &["9F47 010001"]);
    record("70 03 9F4700", 3, 2, &[]);
    record("70 07 9F4704 00010001", 3, 2, &[]);
    record("70 05 9F2002 123F", 0, 2, &["9F20 123F"]);
    record("70 05 9F2002 12F3", 3, 2, &[]);
    record("70 05 5F3002 020A", 3, 2, &[]);
    record("70 0A BF0C07 9F5D03 010203 00", 0, 3, &["9F5D 010203"]);
    record("70 09 BF0C06 9F5D03 010203", 0, 3, &["9F5D 010203"]);
    record(
        "70 0E BF0C0B 9F5E08 0000000000000001",
        0,
        3,
        &["9F5E 0000000000000001"],
    );
    record("70 0E BF0C0B 9F5E08 000000000000000A", 3, 3, &[]);
    record("70 0D BF0C0A 9F5E07 00000000000001", 3, 3, &[]);
    // As many bytes as an answer can have.
    let most = "5A".repeat(248);
    let stored = format!("90 {most}");
    record(&format!("70 81FB 9081F8 {most}"), 0, 2, &[&stored]);
    record(&format!("70 81FC 9081F9 {most} 5A"), 3, 2, &[]);
}

/// New objects of the card may come in any answer that is read, and stay as those of any other row do.
#[test]
fn over_a_session() {
    record("70 06 DF4B03000100", 3, 2, &[]);
    let mut host = Host::started(&[]);
    // DF4B is stored, and what else is needed is missing.
    assert_eq!(host.answer_hex("77 06 DF4B03000100 9000"), ended(4));
    assert_eq!(
        host.get(Object::PosCardholderInteraction),
        Some(&[0, 1, 0][..])
    );
    let mut host = Host::started(&[]);
    let word = host.answer_hex("77 13 82020080 940408010200 9F6002FFFF 8F0105 00 9000");
    assert!(is_command(word));
    assert_eq!(host.get(Object::Cvc3Track1), Some(&[0xFF, 0xFF][..]));
    assert_eq!(host.get(Object::CaKeyIndexCard), Some(&[0x05][..]));
    // 8F again, and then another.
    let mut again = Host::open();
    again.session.clone_from(&host.session);
    assert_eq!(again.record("8F0105"), ended(3));
    assert_eq!(again.record("8F0105"), refused(21));
    assert!(is_command(host.record("9F4401 02")));
    assert!(is_command(
        host.record("5F2403491231 5A021234 8C07 9505 8F02 9F4402")
    ));
    // The list fills from both, the number on the left.
    assert_eq!(host.buffer[5..14], hex("8000000000 0500 0002"));
    // Of another length: nothing is stored.
    let answer = "77 17 9F270180 9F36020007 9F26081122334455667788 9F7F00 9000";
    assert_eq!(host.answer_hex(answer), outcome(0, 3, 3));
    assert_eq!(host.get(Object::TransactionCounter), None);
}

#[test]
fn start_objects() {
    for (bad, number) in [
        ("9F15 02 1234", 23),
        ("9F01 06 000000000001", 23),
        ("50 02 4142", 23),
        ("80 02 0000", 23),
        ("8F 01 05", 23),
        ("9F6E 05 0840000102", 23),
        ("9F60 02 0000", 23),
        ("DF8117 01 00", 23),
        ("DF8302 04 00000000", 23),
        ("9F53 00", 23),
        ("9F53 02 5252", 23),
        ("9F21 03 12345A", 23),
        ("9F21 02 1234", 23),
        ("9F7C 13 00000000000000000000000000000000000000", 23),
    ] {
        let mut host = Host::open();
        assert_eq!(host.start(&start_with(&[bad])), refused(number), "{bad}");
    }
    for good in [
        "9F53 01 52",
        "DF8112 00",
        "9F70 00",
        "9F79 03 010203",
        "9F21 03 123456",
        "5F36 01 02",
        "5F57 01 00",
        "9F5C 08 0000000000000000",
        "9F7C 14 0000000000000000000000000000000000000000",
        "DF60 08 0000000000000000",
        "DF62 01 00",
        "DF63 00",
        "DF8104 06 000000000000",
        "DF8110 01 00",
    ] {
        let bytes = start_with(&[good]);
        assert!(is_command(Host::open().start(&bytes)), "{good}");
        let twice = [bytes, hex(good)].concat();
        let word = Host::open().start(&twice);
        if good.starts_with("DF8112") {
            assert!(is_command(word), "{good}");
        } else {
            assert_eq!(word, refused(23), "{good}");
        }
    }
    let envelope = format!("9F74 81C0 {}", "AB".repeat(192));
    assert!(is_command(Host::open().start(&start_with(&[&envelope]))));
    let longer = format!("9F74 81C1 {}", "AB".repeat(193));
    assert_eq!(Host::open().start(&start_with(&[&longer])), refused(23));
}

/// Every row as a start object of its least length: those of the start are taken, all others are refused.
#[test]
fn every_row_at_start() {
    for row in &ROWS {
        let object = object(row.tag);
        let value = match object {
            Object::TerminalType => vec![0x22],
            // Its list would request nothing that is known.
            Object::Pdol => vec![],
            _ => value(row),
        };
        let text: String = [hex("51 00"), encoded(&tag_bytes(row), &value)]
            .concat()
            .iter()
            .map(|byte| format!("{byte:02X}"))
            .collect();
        let mut bytes = start_with(&[]);
        if REQUIRED_AT_START.contains(&object) {
            bytes = common::start_without(&format!("{:X}", row.tag));
        }
        bytes.extend(hex(&text));
        let mut host = Host::open();
        let word = host.start(&bytes);
        if row.is_of_start() {
            assert!(is_command(word), "{:X}: {word:X}", row.tag);
            assert_eq!(host.get(object), Some(&value[..]));
        } else {
            assert_eq!(word, refused(23), "{:X}", row.tag);
        }
    }
}

/// Lists fill from new rows that are present, and with zeros for those that no call sets.
#[test]
fn filling() {
    let data = |changes: &[&str], length: usize| {
        let mut host = Host::open();
        let word = host.start(&start_with(changes));
        assert_eq!(word as usize, 8 + length);
        host.buffer[7..7 + length].to_vec()
    };
    let list = "9F38 06 9F2102 9F2105";
    assert_eq!(data(&["9F21 03 123456", list], 7), hex("3456 0000123456"));
    assert_eq!(
        data(&["9F70 02 0102", "9F38 03 9F7004"], 4),
        hex("01020000")
    );
    assert_eq!(
        data(&["9F53 01 52", "9F38 06 9F5301 9F5303"], 4),
        hex("52 520000")
    );
    assert_eq!(data(&["9F38 06 9F1502 9F2103"], 5), vec![0; 5]);
    assert_eq!(data(&["9F38 08 DF811701 8002 9202"], 5), vec![0; 5]);
    assert_eq!(
        data(&["DF8104 06 000000001234", "9F38 04 DF810402"], 2),
        hex("1234")
    );
}

/// A record from the host may hold any row that fits, those of the session too, and lists fill from them.
#[test]
fn lent_records() {
    let waiting = || Host::reading(&[], "08010100");
    for row in &ROWS {
        let kept = matches!(
            row.tag,
            // What a range of a waiting session says more of.
            0x9F10
                | 0x9F26
                | 0x9F27
                | 0x9F36
                | 0x9F61
                | 0x82
                | 0x94
                | 0x95
                | 0x9F35
                | 0xDF811B
                | 0xDF8124
        );
        if kept {
            continue;
        }
        let mut host = waiting();
        store::put(host.store_mut(), object(row.tag), &value(row));
        assert_eq!(host.link_failed(), ended(9), "{:X}", row.tag);
        // Of another length.
        for length in [row.least.checked_sub(1), Some(row.most + 1)] {
            let Some(length) = length else { continue };
            let mut host = waiting();
            host.store_mut()[row.place] = length + 1;
            assert_eq!(host.link_failed(), refused(25), "{:X}", row.tag);
        }
        if row.form != Form::Binary && row.most > 0 {
            let mut host = waiting();
            let mut wrong = value(row);
            wrong[0] = 0x1A;
            store::put(host.store_mut(), object(row.tag), &wrong);
            assert_eq!(host.link_failed(), refused(25), "{:X}", row.tag);
        }
    }
    // 9F15 and DF812B are the session's: no call sets them.
    let mut host = waiting();
    common::change(
        host.store_mut(),
        &["9F15 5411", "DF812B 123F", "9F1C 3132333435363738"],
    );
    let word = host.record("5F2403491231 5A021234 8C0A 9F1503 DF812B04 9F1C02");
    assert!(is_command(word));
    assert_eq!(host.buffer[5..14], hex("005411 123FFFFF 3132"));
    assert_eq!(
        host.answer_hex("77 14 9F270180 9F36020007 9F26081122334455667788 9000"),
        decided(1)
    );
    // A fresh one holds nothing.
    for row in &ROWS {
        let mut host = Host::open();
        host.store_mut()[row.place] = row.least + 1;
        assert_eq!(host.start(&start_with(&[])), refused(25), "{:X}", row.tag);
    }
}

/// The outer 80 of an answer is read as before.
#[test]
fn primitive_bodies() {
    options("80 06 0080 08010100", 0, 1, &["82 0080", "94 08010100"]);
    options("80 05 0080 080101", 2, 1, &[]);
    record("80 06 0080 08010100", 2, 1, &[]);
    record("50 02 4142", 2, 1, &[]);
}

/// The card's side takes the new rows of template 70.
#[test]
fn the_cards_side() {
    use model::personalise::{personalise, Refusal, LOCATOR_ROOM, RECORDS_ROOM};
    for row in &ROWS {
        let list = encoded(&tag_bytes(row), &value(row));
        let (mut records, mut locator) = (vec![0; RECORDS_ROOM], vec![0; LOCATOR_ROOM]);
        let answer = personalise(
            &list,
            &hex("08010100"),
            &hex("0101"),
            &mut records,
            &mut locator,
        );
        if row.templates.meets(Templates::T70) {
            let written = answer.expect("a good layout").records;
            let (reason, count, store) = read(AnswerTo::Record, &records[..written]);
            assert_eq!((reason, count), (0, 2), "{:X}", row.tag);
            assert_eq!(store::get(&store, object(row.tag)), Some(&value(row)[..]));
        } else {
            assert_eq!(answer, Err(Refusal::List), "{:X}", row.tag);
        }
    }
}

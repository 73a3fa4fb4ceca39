//! Writing the card's side: worked examples, rule by rule.

mod common;

use common::hex;
use model::personalise::{personalise, word, Answer, Refusal, Written};
use Refusal::{Entry, List, LocatorBuffer, Record, RecordsBuffer};

/// The answer and what was written, with buffers of the least lengths and a few bytes more. Tests what stays.
fn written(objects: &str, entries: &str, placements: &str) -> Result<(String, usize), Refusal> {
    let mut records = vec![0x5C; 32_768 + 5];
    let mut locator = vec![0xA3; 248 + 3];
    let entries = hex(entries);
    let answer = personalise(
        &hex(objects),
        &entries,
        &hex(placements),
        &mut records,
        &mut locator,
    );
    let (front, entries) = match answer {
        Ok(written) => (written.records, &entries[..]),
        Err(_) => (0, &[][..]),
    };
    assert!(records[front..].iter().all(|&byte| byte == 0x5C));
    let (locator, behind) = locator.split_at(entries.len());
    assert_eq!(locator, entries);
    assert!(behind.iter().all(|&byte| byte == 0xA3));
    answer.map(|written| {
        assert_eq!(written.locator, entries.len());
        let text = records[..front].iter().map(|byte| format!("{byte:02X}"));
        (text.collect(), written.locator)
    })
}

/// The records of a layout that is accepted, as text.
fn records(objects: &str, entries: &str, placements: &str) -> String {
    written(objects, entries, placements).expect("accepted").0
}

/// The refusal of a layout that is not.
fn refused(objects: &str, entries: &str, placements: &str) -> Refusal {
    written(objects, entries, placements).expect_err("refused")
}

/// The number of bytes in records and AFL.
fn lengths(objects: &str, entries: &str, placements: &str) -> (usize, usize) {
    let (records, locator) = written(objects, entries, placements).expect("accepted");
    (records.len() / 2, locator)
}

/// Text without blanks.
fn joined(text: &str) -> String {
    text.split_whitespace().collect()
}

/// An object 8C of so many bytes, its length as given.
fn cdol(length: &str, bytes: usize) -> String {
    format!("8C {length} {}", "11".repeat(bytes))
}

/// So many entries of one record each, all apart.
fn single_records(count: usize) -> String {
    let entry = |i: usize| format!("{:02X}{:02X}{:02X}00 ", i % 10 * 8 + 8, i + 1, i + 1);
    (0..count).map(entry).collect()
}

const VERSION: &str = "9F08020002";

#[test]
fn one_record() {
    let objects = "9F08020002 5F2403491231";
    let expected = "700B9F080200025F2403491231".to_owned();
    let answer = written(objects, "08010100", "0101 0102");
    assert_eq!(answer, Ok((expected.clone(), 4)));
    // In the list's order, not the placements'.
    assert_eq!(records(objects, "08010100", "0102 0101"), expected);
}

#[test]
fn locator_order() {
    let objects = "5702AABB 5A011F 8C039F3704";
    let answer = written(objects, "10010100 08050500", "0203 0102 0201");
    let expected = joined("70035A011F 70095702AABB8C039F3704");
    assert_eq!(answer, Ok((expected, 8)));
}

#[test]
fn no_objects() {
    let answer = written("", "08010200", "");
    assert_eq!(answer, Ok((joined("7000 7000"), 4)));
}

#[test]
fn shortest_lengths() {
    for objects in ["578102AABB", "57820002AABB", "5702AABB"] {
        assert_eq!(records(objects, "08010100", "0101"), "70045702AABB");
    }
    for (form, bytes, start, whole) in [
        ("7D", 125, "707F8C7D", 129),
        ("817D", 125, "707F8C7D", 129),
        ("7E", 126, "7081808C7E", 131),
        ("7F", 127, "7081818C7F", 132),
        ("8180", 128, "7081838C8180", 134),
        ("820080", 128, "7081838C8180", 134),
        ("81FA", 250, "7081FD8C81FA", 256),
        ("8200FA", 250, "7081FD8C81FA", 256),
    ] {
        let record = records(&cdol(form, bytes), "08010100", "0101");
        assert_eq!((&record[..start.len()], record.len()), (start, 2 * whole));
        assert!(record[start.len()..].chars().all(|digit| digit == '1'));
    }
}

#[test]
fn content_of_253_bytes() {
    let longest = cdol("81FA", 250);
    assert_eq!(lengths(&longest, "08010100", "0101"), (256, 4));
    let objects = format!("{longest} 5F340101");
    assert_eq!(refused(&objects, "08010200", "0101 0102"), Record(1));
    assert_eq!(lengths(&objects, "08010200", "0201 0102"), (262, 4));
    for (length, bytes, answer) in [("81F6", 246, Ok((256, 4))), ("81F7", 247, Err(Record(1)))] {
        let objects = format!("5F340101 {}", cdol(length, bytes));
        let answered = written(&objects, "08010100", "0101 0102");
        let lengths = answered.map(|(records, locator)| (records.len() / 2, locator));
        assert_eq!(lengths, answer);
    }
    // The tag and lengths of the list do not count, only what is written.
    let objects = format!("5F3482000101 {}", cdol("8200F6", 246));
    assert_eq!(lengths(&objects, "08010100", "0101 0102"), (256, 4));
}

#[test]
fn doubled_and_left_out() {
    let both = "0101 0202";
    for objects in ["5700 5701AA", "5701AA 5700", "5700 5700", "5701AA 5701AA"] {
        assert_eq!(refused(objects, "08010200", both), List, "{objects}");
    }
    let objects = "9F08020002 5F2403491231";
    assert_eq!(refused(objects, "08010101", "0101"), List);
    assert_eq!(refused(objects, "08010100", "0101"), List);
    assert_eq!(refused(objects, "08010100", "0102"), List);
    assert_eq!(refused(objects, "08010100", ""), List);
    assert_eq!(refused(VERSION, "08010200", "0101 0201"), List);
    assert_eq!(refused(VERSION, "08010200", "0101 0101"), List);
    // Placed 257 times: a count in a byte would be 1.
    assert_eq!(refused(VERSION, "08010200", &"0101".repeat(257)), List);
    // Whatever the entries are.
    assert_eq!(refused(objects, "", "0101"), List);
    assert_eq!(refused(objects, "FF", "0101"), List);
}

#[test]
fn objects_that_are_bad() {
    for objects in [
        "95050000000000", // the session's
        "82020080",       // of 77
        "940408010100",   // of 77
        "9F2608 0000000000000000",
        "7000", // a template
        "E100",
        "420141",               // unknown
        "C10100",               // unknown, private
        "DF812306000000000000", // the terminal's, private
        "9F0206000000000000",   // the terminal's
        "9F0802000200",         // a byte after
        "00",
        "9F080200", // truncated
        "9F08",
        "9F",
        "57 80", // lengths that are refused
        "57 83000000",
        "5F24 0249 12", // lengths that do not fit
        "5F24 04 49123100",
        "57 14 0000000000000000000000000000000000000000",
        "5F24 03 49123A", // digits that do not fit
        "5A 02 1F1F",
        "5A 01 F1",
        "5A 01 AF",
    ] {
        assert_eq!(refused(objects, "08010100", "0101"), List, "{objects}");
    }
    for (objects, record) in [
        ("5700", "70025700"),
        ("5A00", "70025A00"),
        ("8C00", "70028C00"),
        ("5A01FF", "70035A01FF"),
        ("5A021FFF", "70045A021FFF"),
    ] {
        assert_eq!(records(objects, "08010100", "0101"), record);
    }
    assert_eq!(refused(&cdol("81FB", 251), "08010100", "0101"), List);
}

#[test]
fn all_objects() {
    let objects =
        "57 13 12345678901234567890123456789012345678 5A 0A 1234567890123456789F 5F24 03 491231
        5F25 03 200101 5F28 02 0056 5F34 01 01 8C 00 9F07 02 FFC0 9F08 02 0002 9F0D 05 0000000000
        9F0E 05 0000000000 9F0F 05 0000000000";
    let placements: String = (1..=12).map(|object| format!("01{object:02X}")).collect();
    let expected = format!("705A{}", joined(objects));
    assert_eq!(records(objects, "08010100", &placements), expected);
}

#[test]
fn entries_by_themselves() {
    for entry in [
        "09010100", "0A010100", "0C010100", // low bits
        "00010100", "58010100", "F0010100", "F8010100", // files 0, 11, 30, 31
        "08000100", "08000000", // first record 0
        "08020100", "08FF0100", // last below first
        "08010101", "080101FF", // byte 4
        "08018100", "0801FF00", // 129 records and more
        "08", "0801", "080101", // truncated
    ] {
        assert_eq!(refused(VERSION, entry, "0101"), Entry(1), "{entry}");
        let behind = format!("18010100 {entry}");
        assert_eq!(refused(VERSION, &behind, "0101"), Entry(2), "{behind}");
        if entry.len() == 8 {
            let before = format!("18010100 {entry} 00000000 20");
            assert_eq!(refused(VERSION, &before, "0101"), Entry(2), "{before}");
        }
    }
    assert_eq!(refused(VERSION, "", "0101"), Entry(1));
    assert_eq!(refused("", "", ""), Entry(1));
    for entry in ["08010100", "50010100", "08FFFF00", "08808000", "50010300"] {
        assert!(written(VERSION, entry, "0101").is_ok(), "{entry}");
    }
}

#[test]
fn records_named_twice() {
    assert_eq!(refused(VERSION, "08010300 08030400", "0101"), Entry(2));
    assert_eq!(lengths(VERSION, "08010300 10030400", "0101"), (15, 8));
    assert_eq!(lengths(VERSION, "08010300 08040500", "0101"), (15, 8));
    assert_eq!(lengths(VERSION, "08040500 08010300", "0101"), (15, 8));
    for (first, second) in [
        ("08010300", "08010300"), // the same
        ("08030400", "08010300"), // from below
        ("08010500", "08020300"), // inside
        ("08020300", "08010500"), // around
        ("08FFFF00", "08FFFF00"),
    ] {
        let entries = format!("{first} {second}");
        assert_eq!(refused(VERSION, &entries, "0101"), Entry(2), "{entries}");
        let apart = format!("{first} 10010900 08202000 {second}");
        assert_eq!(refused(VERSION, &apart, "0101"), Entry(4), "{apart}");
        let other = format!("{first} 18{}", &second[2..]);
        assert!(written(VERSION, &other, "0101").is_ok(), "{other}");
    }
}

#[test]
fn entries_and_records_in_all() {
    assert_eq!(refused(VERSION, &single_records(63), "0101"), Entry(63));
    assert_eq!(refused(VERSION, &single_records(64), "0101"), Entry(63));
    assert_eq!(lengths(VERSION, &single_records(62), "0101"), (129, 248));
    let cut = format!("{} 08", single_records(62));
    assert_eq!(refused(VERSION, &cut, "0101"), Entry(63));
    assert_eq!(lengths(VERSION, "08018000", "0101"), (261, 4));
    assert_eq!(refused(VERSION, "08018000 10010100", "0101"), Entry(2));
    assert_eq!(refused(VERSION, "08018000 10018000", "0101"), Entry(2));
    assert_eq!(lengths(VERSION, "08014000 10014000", "0101"), (261, 8));
    let many = "08014000 10014000 18010100";
    assert_eq!(refused(VERSION, many, "0101"), Entry(3));
    assert_eq!(lengths(VERSION, "08018000", "8001"), (261, 4));
    assert_eq!(refused(VERSION, "08018000", "8101"), Record(129));
}

#[test]
fn buffers() {
    let twice = hex("5700 5700");
    for (records, locator, answer) in [
        (32_767, 247, Err(RecordsBuffer)),
        (0, 0, Err(RecordsBuffer)),
        (32_767, 248, Err(RecordsBuffer)),
        (32_768, 247, Err(LocatorBuffer)),
        (32_768, 0, Err(LocatorBuffer)),
        (32_768, 248, Err(List)),
        (40_000, 300, Err(List)),
    ] {
        let (mut records, mut locator) = (vec![7; records], vec![7; locator]);
        let got = personalise(&twice, &[], &[], &mut records, &mut locator);
        assert_eq!(got, answer);
        let kept = records.iter().chain(&locator);
        assert!(kept.copied().all(|byte| byte == 7));
    }
    let (mut records, mut locator) = (vec![7; 32_768], vec![7; 248]);
    let got = personalise(&[], &hex("08010100"), &[], &mut records, &mut locator);
    assert_eq!(got.map(|written| written.records), Ok(2));
}

#[test]
fn bad_records() {
    let objects = "9F08020002 5F340101";
    let entries = "08010200";
    assert_eq!(refused(objects, entries, "0101 0202 0109"), Record(1));
    assert_eq!(refused(objects, entries, "0101 0302"), Record(3));
    for (placements, number) in [
        ("0001 0202", 0),
        ("0001 0302", 0),
        ("FF01 0202", 255),
        ("FF01 0302", 3),
        ("0301 FF02", 3),
        ("0101 0202 0203", 2),
        ("0101 0202 0200", 2),
        ("0101 0202 02FF 0103", 1),
        ("0101 0202 0309", 3),
        ("0101 0202 0000", 0),
        // A byte past the end is 0: no object.
        ("0101 0202 02", 2),
        ("0101 0202 00", 0),
        ("0101 0202 09", 9),
    ] {
        assert_eq!(refused(objects, entries, placements), Record(number));
    }
    assert_eq!(refused("", "08010100", "0101"), Record(1));
    // The list is examined before: its second object is not placed by half a placement.
    assert_eq!(refused(objects, entries, "0101 02"), List);
    // A record of a good number that is too long, and one of a smaller or greater number that is not present.
    let objects = format!("{} 5F340101 5F28020056", cdol("81FA", 250));
    assert_eq!(refused(&objects, entries, "0201 0202 0303"), Record(2));
    assert_eq!(refused(&objects, entries, "0201 0202 0003"), Record(0));
    assert_eq!(refused(&objects, entries, "0201 0202 0103 0104"), Record(1));
}

#[test]
fn order_of_refusals() {
    let objects = "9F08020002 5F340101";
    // List before entry, entry before record.
    assert_eq!(refused(objects, "08010101", "0901"), List);
    assert_eq!(refused(objects, "08010101", "0901 0902"), Entry(1));
    assert_eq!(refused(objects, "08010100", "0901 0902"), Record(9));
}

#[test]
fn words() {
    let written: Answer = Ok(Written {
        records: 0x8000,
        locator: 248,
    });
    for (answer, expected) in [
        (written, 0x0000_00F8_0000_8000),
        (Err(RecordsBuffer), 0x0001_0000_0000_0000),
        (Err(LocatorBuffer), 0x0002_0000_0000_0000),
        (Err(List), 0x0003_0000_0000_0000),
        (Err(Entry(63)), 0x0004_0000_0000_003F),
        (Err(Record(0)), 0x0005_0000_0000_0000),
        (Err(Record(255)), 0x0005_0000_0000_00FF),
    ] {
        assert_eq!(word(answer), expected);
    }
}

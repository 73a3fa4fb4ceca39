//! Listed answers, read by the model, by both readers of the library and by the plain reader (document 02, Item 10).

use compare::reading::{by_model, Read, NOT_READ, READERS};
use model::dictionary::Object;
use model::store::{self, Store};
use model::STORE_SIZE;

const OPTIONS: u32 = 0;
const RECORD: u32 = 1;
const CRYPTOGRAM: u32 = 2;
const CHECKSUM: u32 = 3;

/// Bytes of a hexadecimal text.
fn hex(text: &str) -> Vec<u8> {
    let digits: String = text.split_whitespace().collect();
    assert!(digits.len().is_multiple_of(2), "{text}");
    (0..digits.len() / 2)
        .map(|i| u8::from_str_radix(&digits[2 * i..2 * i + 2], 16).expect("two digits"))
        .collect()
}

/// A store with these objects, each a tag, a blank and the value; the free bytes are not zero.
fn store_of(objects: &[&str]) -> Store {
    let mut store = [0x5C; STORE_SIZE];
    for object in Object::ALL {
        store[object.row().place] = 0;
    }
    put_all(&mut store, objects);
    store
}

fn put_all(store: &mut Store, objects: &[&str]) {
    for text in objects {
        let (tag, value) = text.split_once(' ').unwrap_or((text, ""));
        let tag = u32::from_str_radix(tag, 16).expect("a tag");
        let object = Object::of_tag(tag).expect("a known tag");
        store::put(store, object, &hex(value));
    }
}

/// The model and all readers.
fn readers() -> impl Iterator<Item = (&'static str, Read)> {
    std::iter::once(("model", by_model as Read)).chain(READERS)
}

/// Reads an answer into a store with these objects: the reason, the count, and what is stored then.
fn reads(
    awaited: u32,
    file: u8,
    before: &[&str],
    card: &[u8],
    reason: u32,
    count: u32,
    stored: &[&str],
) {
    let store = store_of(before);
    let mut expected = store;
    put_all(&mut expected, stored);
    for (name, read) in readers() {
        let mut store = store;
        let word = read(&mut store, awaited, file, card);
        assert_eq!(word, reason << 16 | count, "{name}: {card:02X?}");
        assert!(store == expected, "{name}: store after {card:02X?}");
    }
}

/// Reads a body with a good status into an empty store.
fn body(awaited: u32, body: &str, reason: u32, count: u32, stored: &[&str]) {
    let card = [hex(body), vec![0x90, 0x00]].concat();
    reads(awaited, 1, &[], &card, reason, count, stored);
}

fn record(text: &str, reason: u32, count: u32, stored: &[&str]) {
    body(RECORD, text, reason, count, stored);
}

const VERSION: &str = "9F08 0002";

#[test]
fn templates_that_end() {
    record("70 07 E100 9F08020002", 0, 3, &[VERSION]);
    record("70 0C E104E102E100 E104E102E100", 0, 7, &[]);
    record("70 07 E102 9F08020002", 2, 0, &[]);
    record("70 0B E104 E102 4200 9F08020002", 0, 5, &[VERSION]);
    record("70 09 E107 7005 9F08020002", 0, 4, &[VERSION]);
    record("70 07 E105 9F08020002", 3, 3, &[]);
    record("70 09 9F08020002 E102 5701", 2, 0, &[]);
    record("70 0B 7009 7007 7005 9F08020002", 0, 5, &[VERSION]);
    record("70 0D 700B 7009 7007 7005 9F08020002", 2, 0, &[]);
    record("70 07 5700 5701AA 5700", 3, 4, &[]);
    let both = ["5F28 0056", "82 0080"];
    body(OPTIONS, "77 0B 7005 5F28020056 82020080", 0, 4, &both);
    record("70 06 E104 00 E100 00", 0, 3, &[]);
}

/// Up to three templates end at one place, and the tag around counts again for what is after.
#[test]
fn templates_that_end_together() {
    record("70 0B E104 E102 E100 9F08020002", 0, 5, &[VERSION]);
    record("70 09 E102 E100 9F08020002", 0, 4, &[VERSION]);
    record("70 06 7700 82021980", 3, 3, &[]);
    record("70 08 7702 7700 82021980", 3, 4, &[]);
    record("70 0A 7704 7702 7700 82021980", 3, 5, &[]);
    // Back in the second of three levels, and in the third of four.
    record("70 08 7706 E100 82021980", 0, 4, &["82 1980"]);
    record("70 0A 7708 E102 E100 82021980", 0, 5, &["82 1980"]);
    record("70 0B E109 7002 7000 9F08020002", 3, 5, &[]);
    record("70 0A E108 7706 E100 82021980", 0, 5, &["82 1980"]);
    record("70 0A 7708 E106 7700 82021980", 3, 5, &[]);
    // Back one level, then one more.
    let stored = ["82 1980", VERSION];
    record(
        "70 11 E10A 7706 E100 82021980 4200 9F08020002",
        0,
        7,
        &stored,
    );
    // Objects before, inside and after.
    let stored = ["5F34 01", VERSION, "5F28 0056"];
    record(
        "70 13 5F340101 E100 7005 9F08020002 5F28020056 00",
        0,
        6,
        &stored,
    );
    // The last ones end with the outer one.
    record("70 0B 9F08020002 E104 E102 E100", 0, 5, &[VERSION]);
    record("70 0A 9F08020002 E103 E101 00", 0, 4, &[VERSION]);
    // Down and up again, as often as there is room.
    record(
        &format!("70 81 FC {}", "E104E102E100".repeat(42)),
        0,
        127,
        &[],
    );
    let many = "E100".repeat(126);
    record(&format!("70 81 FC {many}"), 0, 127, &[]);
    record(&format!("70 81 FD {many} 00"), 0, 127, &[]);
    record(&format!("70 81 FD {many} E1"), 2, 0, &[]);
}

#[test]
fn ends_of_templates() {
    // An object of the inner template ends after it, though within the outer one.
    record("70 0A E103 9F0802 0002 4200 00", 2, 0, &[]);
    record("70 06 E102 5703 AABB", 2, 0, &[]);
    record("70 06 E103 5703 AABB", 2, 0, &[]);
    record("70 07 E102 5705 AABBCC", 2, 0, &[]);
    // A tag or a length of which a byte is after it.
    record("70 05 E101 9F 4200", 2, 0, &[]);
    record("70 06 E102 DF81 2000", 2, 0, &[]);
    record("70 06 E102 4281 0000", 2, 0, &[]);
    record("70 07 E103 428200 0000", 2, 0, &[]);
    // A template that ends after the one around it.
    record("70 08 E102 E104 E102 E100", 2, 0, &[]);
    record("70 06 E104 E103 E100", 2, 0, &[]);
    record("70 02 E101", 2, 0, &[]);
    record("70 03 E10142", 2, 0, &[]);
}

#[test]
fn levels() {
    record("70 06 E1 04 E1 02 E1 00", 0, 4, &[]);
    record("70 08 E1 06 E1 04 E1 02 E1 00", 2, 0, &[]);
    record("70 08 E1 06 E1 04 E1 02 42 00", 0, 5, &[]);
    // A fifth level after a malformed object, after one that is not allowed, and after a return to the third.
    record("70 0B 9501 00 E106 E104 E102 E100", 2, 0, &[]);
    record("70 0C E10A E108 E100 E104 E102 E100", 2, 0, &[]);
    record("70 0A E108 E106 E100 E102 4200", 0, 6, &[]);
    record("70 0A E108 E106 E100 E102 E100", 2, 0, &[]);
    // The outer tag is wrong: the depth counts first, then the tag, then the objects.
    record("61 08 E106 E104 E102 E100", 2, 0, &[]);
    record("61 06 E104 E102 E100", 2, 4, &[]);
    record("61 03 950100", 2, 2, &[]);
    record("77 05 9F08020002", 2, 2, &[]);
    body(OPTIONS, "70 04 82020080", 2, 2, &[]);
    body(CRYPTOGRAM, "70 04 82020080", 2, 2, &[]);
    body(CHECKSUM, "70 04 82020080", 2, 2, &[]);
}

/// After an object that is not allowed all is still read and counted, and nothing is stored.
#[test]
fn objects_not_allowed() {
    record("70 08 950100 9F08020002", 3, 3, &[]);
    record("70 0A 9F08020002 950100 4200", 3, 4, &[]);
    record("70 0A 9F08020002 E103 950100", 3, 4, &[]);
    record("70 0C 9F08020002 E103 950100 E1 00", 3, 5, &[]);
    record("70 09 950100 E104 E102 E100", 3, 5, &[]);
    record("70 09 950100 E104 E102 E1 01", 2, 0, &[]);
    record("70 04 950100 42", 2, 0, &[]);
    // A private object of the terminal, a session's object, a start's object.
    record("70 05 DF81230100", 0, 2, &[]);
    record("70 07 9505 0000000000", 3, 2, &[]);
    record("70 05 9A03 250615", 3, 2, &[]);
    // Lengths and digits.
    record("70 04 9F08 01 00", 3, 2, &[]);
    record("70 06 9F08 03 000200", 3, 2, &[]);
    record("70 06 5F24 03 49123A", 3, 2, &[]);
    record("70 04 5A02 12F3", 3, 2, &[]);
    record("70 04 5A02 123F", 0, 2, &["5A 123F"]);
    // Again: with a value not, empty yes.
    record("70 0A 9F08020002 9F08020002", 3, 3, &[]);
    record("70 07 5700 5700 5701AA", 0, 4, &["57 AA"]);
    record("70 05 5701AA 5700", 3, 3, &[]);
}

/// Objects that the store holds before the answer.
#[test]
fn objects_there_before() {
    let card = hex("70 0A 9F08020002 9F0702FFC0 9000");
    let stored = [VERSION, "9F07 FFC0"];
    reads(RECORD, 1, &[], &card, 0, 3, &stored);
    reads(RECORD, 1, &["9F07 0000"], &card, 3, 3, &[]);
    let card = hex("70 05 5703 112233 9000");
    reads(RECORD, 1, &["57"], &card, 0, 2, &["57 112233"]);
    reads(RECORD, 1, &["57 44"], &card, 3, 2, &[]);
    let card = hex("80 06 0080 08010100 9000");
    reads(OPTIONS, 1, &["82 0080"], &card, 3, 1, &[]);
    reads(OPTIONS, 1, &["94 08010100"], &card, 3, 1, &[]);
    let card = hex("80 0B 80 0001 0102030405060708 9000");
    let stored = ["9F27 80", "9F36 0001", "9F26 0102030405060708"];
    reads(CRYPTOGRAM, 1, &["9F10 AA"], &card, 0, 1, &stored);
    let card = hex("80 0C 80 0001 0102030405060708 BB 9000");
    reads(CRYPTOGRAM, 1, &["9F10 AA"], &card, 3, 1, &[]);
    reads(CRYPTOGRAM, 1, &["9F36 0001"], &card, 3, 1, &[]);
    let stored = ["9F27 80", "9F36 0001", "9F26 0102030405060708", "9F10 BB"];
    reads(CRYPTOGRAM, 1, &["9F10"], &card, 0, 1, &stored);
}

/// Each answer takes its own objects.
#[test]
fn awaited_answers() {
    let options = ["82 0080", "94 08010100"];
    body(OPTIONS, "77 0A 82020080 940408010100", 0, 3, &options);
    body(OPTIONS, "77 0C E10A 82020080 940408010100", 3, 4, &[]);
    body(OPTIONS, "77 0C 770A 82020080 940408010100", 0, 4, &options);
    body(OPTIONS, "77 05 9F36020001", 3, 2, &[]);
    body(OPTIONS, "77 05 9F61020001", 3, 2, &[]);
    body(OPTIONS, "77 05 9F08020002", 3, 2, &[]);
    body(OPTIONS, "77 07 7005 9F08020002", 0, 3, &[VERSION]);
    let cryptogram = ["9F27 80", "9F36 0001", "9F26 0102030405060708"];
    let text = "77 14 9F270180 9F36020001 9F26080102030405060708";
    body(CRYPTOGRAM, text, 0, 4, &cryptogram);
    body(CHECKSUM, text, 3, 4, &[]);
    body(OPTIONS, text, 3, 4, &[]);
    record(text, 2, 4, &[]);
    body(CRYPTOGRAM, "77 05 9F61020001", 3, 2, &[]);
    body(CRYPTOGRAM, "77 04 9F1001AA", 0, 2, &["9F10 AA"]);
    body(CHECKSUM, "77 04 9F1001AA", 3, 2, &[]);
    let checksum = ["9F61 0001", "9F36 0002"];
    body(CHECKSUM, "77 0A 9F61020001 9F36020002", 0, 3, &checksum);
    body(
        CHECKSUM,
        "77 0C 770A 9F61020001 9F36020002",
        0,
        4,
        &checksum,
    );
    body(CHECKSUM, "77 0C 700A 9F61020001 9F36020002", 3, 4, &[]);
    record("70 05 9F61020001", 3, 2, &[]);
    record("70 04 82021980", 3, 2, &[]);
}

#[test]
fn primitive_bodies() {
    let options = ["82 0080", "94 08010100"];
    body(OPTIONS, "80 06 0080 08010100", 0, 1, &options);
    for text in [
        "80 00",
        "80 01 00",
        "80 02 0080",
        "80 05 0080 080101",
        "80 07 0080 08010100 00",
        "80 08 0080 08010100 0801",
    ] {
        for awaited in [OPTIONS, RECORD, CRYPTOGRAM, CHECKSUM] {
            body(awaited, text, 2, 1, &[]);
        }
    }
    let locator = "08010100".repeat(62);
    let stored = ["82 0080", &format!("94 {locator}")];
    body(OPTIONS, &format!("80 81 FA 0080 {locator}"), 0, 1, &stored);
    body(
        OPTIONS,
        &format!("80 81 FD 0080 {locator} 080101"),
        2,
        1,
        &[],
    );
    let text = "80 0B 80 0001 0102030405060708";
    let stored = ["9F27 80", "9F36 0001", "9F26 0102030405060708"];
    body(CRYPTOGRAM, text, 0, 1, &stored);
    body(OPTIONS, text, 2, 1, &[]);
    record(text, 2, 1, &[]);
    body(CHECKSUM, text, 2, 1, &[]);
    let data = "5A".repeat(32);
    let text = format!("80 2B 80 0001 0102030405060708 {data}");
    let data = format!("9F10 {data}");
    let all = [stored[0], stored[1], stored[2], &data];
    body(CRYPTOGRAM, &text, 0, 1, &all);
    let text = format!("80 2C 80 0001 0102030405060708 {}", "5A".repeat(33));
    body(CRYPTOGRAM, &text, 2, 1, &[]);
    body(CRYPTOGRAM, "80 0A 80 0001 01020304050607", 2, 1, &[]);
    // Another primitive object.
    for awaited in [OPTIONS, RECORD, CRYPTOGRAM, CHECKSUM] {
        body(awaited, "81 06 0080 08010100", 2, 1, &[]);
        body(awaited, "9F08 02 0002", 2, 1, &[]);
    }
}

#[test]
fn files_and_status() {
    let stored = [VERSION];
    let card = hex("70 05 9F08020002 9000");
    for file in [0, 1, 9, 10] {
        reads(RECORD, file, &[], &card, 0, 2, &stored);
    }
    for file in [11, 12, 30, 31, 255] {
        reads(RECORD, file, &[], &card, 0, 0, &[]);
        reads(RECORD, file, &[], &hex("9000"), 0, 0, &[]);
        reads(RECORD, file, &[], &hex("FFFFFF 9000"), 0, 0, &[]);
        reads(RECORD, file, &[], &hex("70 05 9F08020002 6A83"), 1, 0, &[]);
        reads(RECORD, file, &[], &hex("90"), 2, 0, &[]);
        reads(RECORD, file, &[], &[0x90; 259], 2, 0, &[]);
        // The file counts for a record alone.
        let options = hex("80 06 0080 08010100 9000");
        reads(
            OPTIONS,
            file,
            &[],
            &options,
            0,
            1,
            &["82 0080", "94 08010100"],
        );
    }
    for awaited in [OPTIONS, RECORD, CRYPTOGRAM, CHECKSUM] {
        for status in ["6985", "9001", "0090", "9080", "0000", "6283", "8000"] {
            let card = hex(&format!("70 05 9F08020002 {status}"));
            reads(awaited, 1, &[], &card, 1, 0, &[]);
            reads(awaited, 1, &[], &hex(status), 1, 0, &[]);
        }
        // The length before the status, the status before the encoding.
        reads(awaited, 1, &[], &[], 2, 0, &[]);
        reads(awaited, 1, &[], &hex("90"), 2, 0, &[]);
        reads(awaited, 1, &[], &[0x6A; 259], 2, 0, &[]);
        reads(awaited, 1, &[], &[0x6A; 258], 1, 0, &[]);
        reads(awaited, 1, &[], &hex("9000"), 2, 0, &[]);
        reads(awaited, 1, &[], &hex("00 9000"), 2, 0, &[]);
    }
}

#[test]
fn lengths() {
    for text in [
        "70 05 9F08020002",
        "70 81 05 9F08020002",
        "70 82 0005 9F08020002",
    ] {
        record(text, 0, 2, &[VERSION]);
    }
    record("70 06 9F0881020002", 0, 2, &[VERSION]);
    record("70 07 9F088200020002", 0, 2, &[VERSION]);
    for text in [
        "70",
        "70 80",
        "70 81",
        "70 82",
        "70 82 00",
        "70 83 000000",
        "70 84 00000000",
        "70 FF",
        "70 04 9F08020002",
        "70 06 9F08020002",
        "70 05 9F08800002",
        "70 05 9F08830002",
        "70 80 0000",
        "70 80 00",
        "70 03 428000",
        "70 81 80 9F08020002",
        "70 82 FFFF 9F08020002",
        "70 05 9F08020002 00",
        "00 70 05 9F08020002",
        "70 05 9F80020002",
        "70 06 DF8180020002",
        "70 05 9F08020002 70 00",
        "1F80 00",
        "9F",
        "DF81",
    ] {
        record(text, 2, 0, &[]);
    }
    // The longest answer: 256 bytes of body.
    let zeros = "00".repeat(253);
    record(&format!("70 81 FD {zeros}"), 0, 1, &[]);
    let zeros = "00".repeat(252);
    record(&format!("70 82 00FC {zeros}"), 0, 1, &[]);
    let track = "AA".repeat(19);
    record(
        &format!("70 15 57 13 {track}"),
        0,
        2,
        &[&format!("57 {track}")],
    );
    record(&format!("70 16 57 14 {track} AA"), 3, 2, &[]);
}

#[test]
fn padding() {
    record("70 01 00", 0, 1, &[]);
    record("70 09 00 9F08020002 000000", 0, 2, &[VERSION]);
    record("70 0B E1020000 00 9F08020002 00", 0, 3, &[VERSION]);
    record(
        "70 0E 00 700A 00 7007 00 9F08020002 00 00",
        0,
        4,
        &[VERSION],
    );
    record("70 0E 00 700B 00 7008 00 9F08020002 0000", 0, 4, &[VERSION]);
    record("70 0D E103 00E100 00 00 9F08020002 00", 0, 4, &[VERSION]);
    record("70 0D E104 00E10000 00 9F08020002 00", 0, 4, &[VERSION]);
    record("70 0A E108 E106 E104 E102 0000", 2, 0, &[]);
    record("70 08 E106 E104 E102 0000", 0, 4, &[]);
    record("70 06 FF 9F08020002", 2, 0, &[]);
    record("70 06 9F08020002 FF", 2, 0, &[]);
    record("70 04 00 950100", 3, 2, &[]);
    record("77 07 00 9F08020002 00", 2, 2, &[]);
}

/// Rows of the whole dictionary (document 02, Item 11).
#[test]
fn whole_dictionary() {
    // The template directly around, one of up to five.
    record("70 04 50024142", 3, 2, &[]);
    record("70 06 A504 50024142", 0, 3, &["50 4142"]);
    record("70 08 A506 E104 50024142", 3, 4, &[]);
    record("70 09 6F07 8405A000000004", 0, 3, &["84 A000000004"]);
    record("70 08 9F6E050840000102", 0, 2, &["9F6E 0840000102"]);
    record("70 0B BF0C08 9F6E050840000102", 0, 3, &["9F6E 0840000102"]);
    record("70 0A A508 9F6E050840000102", 3, 3, &[]);
    body(OPTIONS, "77 08 9F6E050840000102", 3, 2, &[]);
    record("70 07 9F6E0408400001", 3, 2, &[]);
    body(OPTIONS, "77 06 DF4B03000100", 0, 2, &["DF4B 000100"]);
    record("70 06 DF4B03000100", 3, 2, &[]);
    body(OPTIONS, "77 03 8F0105", 0, 2, &["8F 05"]);
    record("70 03 8F0105", 0, 2, &["8F 05"]);
    let again = hex("70 03 8F0105 9000");
    reads(RECORD, 1, &["8F 05"], &again, 3, 2, &[]);
    for awaited in [OPTIONS, CRYPTOGRAM, CHECKSUM] {
        body(awaited, "77 05 9F6002FFFF", 0, 2, &["9F60 FFFF"]);
        body(awaited, "77 05 9F08020002", 3, 2, &[]);
        body(awaited, "77 05 9F42020978", 3, 2, &[]);
    }
    // Of the card without a template; of start or session, private and not; without a row.
    record("70 04 80020000", 3, 2, &[]);
    record("70 08 DF83020401020304", 3, 2, &[]);
    record("70 05 9F70020102", 3, 2, &[]);
    record("70 05 DF81170100", 0, 2, &[]);
    record("70 0B DF6008 0000000000000000", 0, 2, &[]);
    record("70 05 9F15021234", 3, 2, &[]);
    record("70 04 9F530152", 3, 2, &[]);
    record("70 0E 9202AABB 9F4B01AA DF811202 9F02", 0, 4, &[]);
    // Lengths and digits.
    record("70 05 9F47020003", 0, 2, &["9F47 0003"]);
    record("70 03 9F4700", 3, 2, &[]);
    record("70 07 9F470400010001", 3, 2, &[]);
    record("70 05 9F2002123F", 0, 2, &["9F20 123F"]);
    record("70 05 9F200212F3", 3, 2, &[]);
}

#[test]
fn not_read() {
    let card = hex("70 05 9F08020002 9000");
    for (name, read) in readers() {
        for (size, awaited) in [
            (STORE_SIZE - 1, RECORD),
            (STORE_SIZE + 1, RECORD),
            (0, RECORD),
            (STORE_SIZE, 4),
            (STORE_SIZE, u32::MAX),
        ] {
            let mut store = vec![0; size];
            assert_eq!(read(&mut store, awaited, 1, &card), NOT_READ, "{name}");
            assert_eq!(store, vec![0; size], "{name}");
        }
    }
}

//! Whole sessions, every refusal, every reason and the ranges of the record.

mod common;

use common::{
    decided, ended, ended_later, hex, is_command, outcome, refused, start_with, start_without,
    Host, NOT_APPLICABLE,
};
use model::dictionary::{Object, REQUIRED_AT_START, ROWS};
use model::{HEAD_SIZE, NO_COUNT, SESSION_SIZE};

/// Content of a record that allows the purchase.
const GOOD: &str = "5F24 03 491231 5A 08 1234567890123456 8C 02 9505";
/// The same with an online code of zeros, so that a terminal of type 22 requests offline.
const OFFLINE: &str = "5F24 03 491231 5A 08 1234567890123456 8C 02 9505 9F0F 05 0000000000";

fn cryptogram(information: &str) -> Vec<u8> {
    hex(&format!("80 0B {information} 0001 1122334455667788 9000"))
}

#[test]
fn purchase_of_three_records() {
    let mut host = Host::open();
    assert_eq!(host.count(), 0);
    let word = host.start(&start_with(&["9F38 05 9F0206 9A03"]));
    assert_eq!(
        host.command(word),
        hex("80A80000 0B 83 09 000000001234 250615 00")
    );
    assert_eq!(host.count(), 1);
    let word = host.answer_hex("77 0E 82 02 1980 94 08 08010201 58050500 9000");
    assert_eq!(host.command(word), hex("00B2010C00"));
    let word = host.record("5A 02 123F 5F24 03 260101 9F08 02 0002");
    assert_eq!(host.command(word), hex("00B2020C00"));
    let word = host.record("8C 08 9F0206 9F3704 9505 9F0F 05 0000000000");
    assert_eq!(host.command(word), hex("00B2055C00"));
    assert_eq!(host.count(), 4);
    // File 11: only the status is read.
    let word = host.answer_hex("01 02 03 9000");
    assert_eq!(
        host.command(word),
        hex("80AE4000 0F 000000001234 11223344 A000000000 00")
    );
    assert_eq!(host.count(), 5);
    let word = host.answer_hex("77 14 9F27 01 40 9F36 02 0007 9F26 08 1122334455667788 9000");
    assert_eq!(word, decided(0));
    assert_eq!(host.head(), [5, 4, 0, 0, 5, 0]);
    assert_eq!(host.get(Object::TransactionCounter), Some(&[0, 7][..]));
    assert_eq!(host.stop(), refused(21));
}

#[test]
fn types_against_the_choice_asked() {
    let at = |changes: &[&str], record: &str, information: &str| {
        Host::generating(changes, record).answer(&cryptogram(information))
    };
    assert_eq!(at(&[], OFFLINE, "00"), decided(2));
    assert_eq!(at(&[], OFFLINE, "7F"), decided(0));
    assert_eq!(at(&[], OFFLINE, "80"), decided(1));
    assert_eq!(at(&[], OFFLINE, "C0"), ended_later(8));
    assert_eq!(at(&[], GOOD, "3F"), decided(2));
    assert_eq!(at(&[], GOOD, "40"), ended_later(8));
    assert_eq!(at(&[], GOOD, "80"), decided(1));
    assert_eq!(at(&["9F35 01 23"], GOOD, "00"), decided(2));
    assert_eq!(at(&["9F35 01 23"], GOOD, "40"), ended_later(8));
    assert_eq!(at(&["9F35 01 23"], GOOD, "80"), ended_later(8));
}

#[test]
fn cryptogram_bodies() {
    for (length, good) in [(10, false), (11, true), (12, true), (43, true), (44, false)] {
        let mut host = Host::generating(&[], GOOD);
        let mut answer = vec![0x80, length];
        answer.extend((0..length).map(|i| 0x80 + i));
        answer.extend([0x90, 0x00]);
        assert_eq!(
            host.answer(&answer),
            if good { decided(1) } else { ended_later(2) }
        );
        let data = host.get(Object::IssuerApplicationData).map(<[u8]>::len);
        assert_eq!(
            data,
            (good && length > 11).then(|| usize::from(length) - 11)
        );
    }
    let mut host = Host::generating(&[], GOOD);
    assert_eq!(
        host.answer_hex("77 09 9F27 01 80 9F36 02 0001 9000"),
        ended_later(4)
    );
    assert!(host.get(Object::CryptogramInformation).is_some());
    let mut host = Host::generating(&[], GOOD);
    assert_eq!(host.answer_hex("77 04 82 02 1980 9000"), ended_later(3));
    let mut host = Host::generating(&[], GOOD);
    assert_eq!(host.answer_hex("70 00 9000"), ended_later(2));
}

#[test]
fn refusals_in_order() {
    for length in [0, 1, 259, 260] {
        let mut host = Host::open();
        host.buffer.truncate(length);
        host.session[0] = 7;
        assert_eq!(host.start(&[]), refused(22));
        assert_eq!(host.answer(&[]), refused(22));
        assert_eq!(host.link_failed(), refused(22));
        assert_eq!(host.stop(), refused(22));
    }
    let mut host = Host::open();
    host.buffer.truncate(261);
    assert_eq!(host.answer(&[]), refused(21));
    assert_eq!(host.link_failed(), refused(21));
    assert_eq!(host.stop(), refused(21));
    assert_eq!(host.start(&[0x00]), refused(20));
    host.session.truncate(SESSION_SIZE - 1);
    assert_eq!(host.start(&[0x00]), refused(25));
    assert_eq!(host.count(), NO_COUNT);
    assert_eq!(model::open(&mut [0; SESSION_SIZE - 1]), refused(25));
    let mut host = Host::started(&[]);
    assert_eq!(host.start(&[0x00]), refused(21));
}

#[test]
fn start_bytes() {
    let start = |bytes: &[u8]| Host::open().start(bytes);
    assert_eq!(start(&[]), refused(24));
    for tag in ["9A", "9C", "9F02", "9F09", "9F1A", "9F33", "9F35", "9F37"] {
        assert_eq!(start(&start_without(tag)), refused(24), "{tag}");
    }
    for tag in ["9F6A", "DF811B", "DF8120", "DF8121", "DF8122"] {
        assert_eq!(start(&start_without(tag)), refused(24), "{tag}");
    }
    for tag in ["DF8123", "DF8124", "DF8125", "DF8126"] {
        assert_eq!(start(&start_without(tag)), refused(24), "{tag}");
    }
    for bad in [
        "9A 03 2506A5",
        "9A 02 2506",
        "9F35 01 17",
        "9F35 01 31",
        "9F35 01 2A",
        "95 05 0000000000",
        "5A 01 12",
        "9F10 00",
        "9F03 05 0000000000",
        "8E 0A 0000000000000000 1F00",
        "9F42 02 0056",
        "9F34 03 1F0002",
        "9F33 02 E0F8",
        "DF8126 06 00000000250A",
        "DF8126 05 0000000025",
        "DF8125 06 00000020000A",
        "DF8125 05 0000002000",
        "DF811B 00",
        "DF811B 02 2000",
        "9F6A 04 0000345A",
        "9F6A 03 003456",
        "9F6A 05 0000003456",
        "9F61 02 1F35",
        "9F65 02 000E",
        "9F66 02 0FF0",
        "9F67 01 04",
        "9F69 00",
        "9F6B 00",
    ] {
        assert_eq!(start(&start_with(&[bad])), refused(23), "{bad}");
        // A malformed object anywhere comes first.
        let mut bytes = start_with(&[bad]);
        bytes.extend([0x50, 0x01]);
        assert_eq!(start(&bytes), refused(20), "{bad}");
    }
    let doubled = [start_with(&[]), hex("9F38 00 9F38 00")].concat();
    assert_eq!(start(&doubled), refused(23));
    let doubled_unknown = [start_with(&[]), hex("51 01 41 51 01 41 DF01 00")].concat();
    assert!(is_command(start(&doubled_unknown)));
    for broken in [
        "00",
        "70 00",
        "9F",
        "9F80 00",
        "DF8180 00",
        "DF818001 00",
        "50 80",
        "50 83 000001 41",
    ] {
        assert_eq!(
            start(&[start_with(&[]), hex(broken)].concat()),
            refused(20),
            "{broken}"
        );
    }
    // 1,024 bytes are allowed, one more is not.
    let mut long = start_with(&[]);
    let rest = 1024 - long.len() - 4;
    long.extend([0x51, 0x82, (rest >> 8) as u8, rest as u8]);
    long.resize(1024, 0x41);
    assert!(is_command(start(&long)));
    long.push(0x41);
    assert_eq!(start(&long), refused(20));
}

#[test]
fn options_list() {
    let start = |list: &str| {
        let mut host = Host::open();
        let list_object = format!("9F38 81{:02X} {list}", hex(list).len());
        let word = host.start(&start_with(&[&list_object]));
        (word, host)
    };
    let (word, host) = start("50 7F");
    assert_eq!(
        (word, &host.buffer[..7]),
        (7 + 127 + 1, &hex("80A80000 81 837F")[..])
    );
    let (word, host) = start("50 80");
    assert_eq!(
        (word, &host.buffer[..8]),
        (8 + 128 + 1, &hex("80A80000 83 838180")[..])
    );
    let (word, host) = start("50 FC");
    assert_eq!(
        (word, &host.buffer[..8]),
        (261, &hex("80A80000 FF 8381FC")[..])
    );
    for bad in [
        "50 FD",
        "50 FC 95 01",
        "50",
        "00 01",
        "9F80 01",
        "DF8181 01",
    ] {
        let (word, host) = start(bad);
        assert_eq!(word, ended(7), "{bad}");
        assert_eq!(host.count(), 0);
        assert_eq!(host.head(), [5, 4, 3, 7, 0, 0]);
        assert_eq!(host.get(Object::VerificationResults), Some(&[0; 5][..]));
        assert!(host.get(Object::AmountAuthorised).is_some());
    }
    let (word, host) = start("70 02 95 06 5A 01 9C 02");
    assert_eq!(
        host.command(word),
        hex("80A80000 0D 830B 0000 000000000000 00 0000 00")
    );
    let (word, host) = start("9F38 02");
    assert_eq!(host.command(word), hex("80A80000 04 8302 9F38 00"));
}

#[test]
fn options_answers() {
    let answer = |text: &str| {
        let mut host = Host::started(&["DF811B 01 80"]);
        let word = host.answer_hex(text);
        (word, host)
    };
    for (text, reason) in [
        ("", 2),
        ("90", 2),
        ("9000", 2),
        ("6985", 1),
        ("80 06 0080 08010100 9001", 1),
        ("80 06 0080 08010100 00 9000", 2),
        ("80 05 0080 080101 9000", 2),
        ("80 07 0080 0801010000 9000", 2),
        ("70 00 9000", 2),
        ("83 06 0080 08010100 9000", 2),
        ("77 04 82 02 0080 9000", 4),
        ("77 06 94 04 08010100 9000", 4),
        ("77 00 9000", 4),
        ("77 0A 82 02 0000 94 04 08010100 9000", 11),
        ("80 06 FF7F 09010100 9000", 11),
        ("80 06 0080 09010100 9000", 5),
        ("77 0B 82 02 0080 94 05 0801010000 9000", 5),
        ("77 0D 82 02 0080 94 04 08010100 9F27 00 9000", 3),
        ("77 0E 82 02 0080 94 04 08010100 9F27 01 00 9000", 3),
        ("77 0E 82 02 0080 94 04 08010100 9F27 02 00 9000", 2),
        ("77 0E 82 02 0080 94 04 08010100 82 02 0080 9000", 3),
        ("77 0D 82 02 0080 94 04 08010100 5A 01 12 9000", 3),
    ] {
        let (word, host) = answer(text);
        assert_eq!(word, ended(reason), "{text}");
        let stored = matches!(reason, 4 | 5 | 11) && !text.starts_with("77 00");
        let held = host.get(Object::InterchangeProfile).is_some()
            || host.get(Object::FileLocator).is_some();
        assert_eq!(held, stored, "{text}");
        assert_eq!(host.count(), 1);
    }
    // An inner template 70 is the template directly around its objects.
    let (word, host) = answer("77 0F 82 02 0080 70 03 5A 01 12 94 04 08010100 9000");
    assert_eq!(word, 5);
    assert_eq!(host.get(Object::Pan), Some(&[0x12][..]));
}

#[test]
fn locators() {
    let locator = |text: &str| {
        let mut host = Host::started(&[]);
        let bytes = hex(text);
        let mut answer = vec![
            0x77,
            bytes.len() as u8 + 6,
            0x82,
            2,
            0,
            0x80,
            0x94,
            bytes.len() as u8,
        ];
        answer.extend(bytes);
        answer.extend([0x90, 0x00]);
        host.answer(&answer)
    };
    for good in [
        "08010101",
        "F0FFFF01",
        "08018080",
        "08014040 08014000",
        "50010100 58010100",
    ] {
        assert_eq!(locator(good), 5, "{good}");
    }
    for bad in [
        "00010100",
        "F8010100",
        "0C010100",
        "08000100",
        "08020100",
        "08010102",
        "08018100",
        "08014000 08014100",
        "0801010008",
        "08010100 08000000",
    ] {
        assert_eq!(locator(bad), ended(5), "{bad}");
    }
}

#[test]
fn longest_session() {
    let mut host = Host::reading(&[], "08018000");
    for k in 2..=128u32 {
        let word = host.record(if k == 2 { GOOD } else { "" });
        assert_eq!(host.command(word), [0x00, 0xB2, k as u8, 0x0C, 0x00]);
        assert_eq!(host.count(), 1 + k);
    }
    assert_eq!(host.record(""), 11);
    assert_eq!(host.count(), 130);
    assert_eq!(host.link_failed(), ended_later(9));
    assert_eq!(host.count(), 130);
    assert_eq!(host.answer(&[]), refused(21));
}

#[test]
fn record_answers() {
    let answer = |text: &str| {
        let mut host = Host::reading(&[], "08010100");
        let before = *host.store();
        let word = host.answer_hex(text);
        (word, *host.store() == before)
    };
    assert_eq!(answer("70 00 9000"), (ended(4), true));
    assert_eq!(answer("70 00 6283"), (ended(1), true));
    assert_eq!(answer("77 00 9000"), (ended(2), true));
    assert_eq!(answer("80 00 9000"), (ended(2), true));
    assert_eq!(answer("70 05 9F08 02 0002 9000"), (ended(4), false));
    // Stored whole or not at all.
    assert_eq!(answer("70 08 9F08 02 0002 95 01 00 9000"), (ended(3), true));
    // A malformed object after a not allowed one decides.
    assert_eq!(answer("70 05 95 01 00 57 01 9000"), (ended(2), true));
    // Empty, then a value; a value, then again.
    assert_eq!(answer("70 06 57 00 57 02 1234 9000"), (ended(4), false));
    assert_eq!(answer("70 05 57 01 12 57 00 9000"), (ended(3), true));
    for (pan, good) in [
        ("1234", true),
        ("123F", true),
        ("FFFF", true),
        ("12F3", false),
        ("A2", false),
    ] {
        let bytes = hex(pan).len();
        let text = format!("70 {:02X} 5A {bytes:02X} {pan} 9000", bytes + 2);
        assert_eq!(answer(&text).0, ended(if good { 4 } else { 3 }), "{pan}");
    }
    let mut host = Host::reading(&[], "58010100");
    assert_eq!(host.answer(&[0x90, 0x00]), ended(4));
    let mut host = Host::reading(&[], "58010100");
    assert_eq!(host.answer(&[0x90, 0x00, 0x00]), ended(1));
    let mut host = Host::reading(&[], "58010100");
    assert_eq!(
        host.answer(&[[0x01; 257].as_slice(), &[0x90, 0x00]].concat()),
        ended(2)
    );
    let mut host = Host::reading(&[], "58010100");
    assert_eq!(
        host.answer(&[[0x01; 256].as_slice(), &[0x90, 0x00]].concat()),
        ended(4)
    );
}

#[test]
fn after_the_last_record() {
    let mut host = Host::reading(&["DF8124 06 000000001233"], "08010100");
    assert_eq!(host.record(""), outcome(NOT_APPLICABLE, 4, 6));
    assert_eq!(host.head(), [5, 4, 4, 6, 2, 0]);
    let mut host = Host::reading(&["DF8124 06 000000001234"], "08010100");
    assert_eq!(host.record(GOOD), 11);
    for missing in [
        "5A 01 12 8C 02 9505",
        "5F24 03 491231 8C 02 9505",
        "5F24 03 491231 5A 01 12",
        "5F24 03 491231 5A 00 8C 02 9505",
        "5F24 03 491231 5A 01 12 8C 00",
    ] {
        let mut host = Host::reading(&[], "08010100");
        assert_eq!(host.record(missing), ended(4), "{missing}");
        assert_eq!(host.get(Object::VerificationResults), Some(&[0; 5][..]));
    }
    for list in ["9500", "9F", "00 01", "95", "95 80 95 80"] {
        let mut host = Host::reading(&[], "08010100");
        let length = hex(list).len();
        let word = host.record(&format!("5F24 03 491231 5A 01 12 8C {length:02X} {list}"));
        assert_eq!(word, ended_later(7), "{list}");
        assert_eq!(
            host.get(Object::VerificationResults),
            Some(&[0x80, 0, 0, 0, 0][..])
        );
        assert_eq!(host.count(), 2);
    }
    let host = Host::generating(&[], "5F24 03 491231 5A 01 12 8C 04 9580 5A7F");
    assert_eq!(host.buffer[..5], hex("80AE8000FF"));
    assert_eq!(host.buffer[5 + 128..5 + 131], hex("12FFFF"));
    assert_eq!(host.buffer[260], 0);
}

/// Transaction date, expiration date, effective date if there is one, and whether the card is expired and not
/// yet effective.
const DATES: [(&str, &str, &str, bool, bool); 12] = [
    ("251116", "301231", "990101", false, false),
    ("251116", "301231", "490101", false, true),
    ("251116", "491231", "", false, false),
    ("251116", "500101", "", true, false),
    ("251116", "991231", "500101", true, false),
    ("000101", "991231", "", true, false),
    ("991231", "000101", "000101", false, true),
    ("251116", "251116", "251116", false, false),
    ("251116", "251115", "251117", true, true),
    ("500101", "491231", "491231", false, true),
    ("490101", "490101", "500101", false, false),
    ("251399", "251400", "", false, false),
];

#[test]
fn dates_across_the_century() {
    for (today, expiry, effective, expired, early) in DATES {
        let mut record = format!("5A 01 12 8C 02 9505 5F24 03 {expiry}");
        if !effective.is_empty() {
            record += &format!(" 5F25 03 {effective}");
        }
        let host = Host::generating(&[&format!("9A 03 {today}")], &record);
        let byte = u8::from(expired) << 6 | u8::from(early) << 5;
        let bits = host.get(Object::VerificationResults).map(<[u8]>::to_vec);
        assert_eq!(
            bits,
            Some(vec![0x80, byte, 0, 0, 0]),
            "{today} {expiry} {effective}"
        );
    }
}

#[test]
fn result_bits() {
    let bits = |changes: &[&str], record: &str| {
        let host = Host::generating(changes, &format!("5A 01 12 8C 02 9505 {record}"));
        host.get(Object::VerificationResults).map(<[u8]>::to_vec)
    };
    let dates = |record: &str| bits(&[], record);
    assert_eq!(dates("5F24 03 250615"), Some(hex("8000000000")));
    assert_eq!(dates("5F24 03 250614"), Some(hex("8040000000")));
    assert_eq!(
        dates("5F24 03 491231 5F25 03 250615"),
        Some(hex("8000000000"))
    );
    assert_eq!(
        dates("5F24 03 491231 5F25 03 250616"),
        Some(hex("8020000000"))
    );
    assert_eq!(
        dates("5F24 03 491231 9F08 02 0002"),
        Some(hex("8000000000"))
    );
    assert_eq!(
        dates("5F24 03 491231 9F08 02 0003"),
        Some(hex("8080000000"))
    );
    let floor = |limit: &str| bits(&[&format!("DF8123 06 {limit}")], "5F24 03 491231");
    assert_eq!(floor("000000001234"), Some(hex("8000000000")));
    assert_eq!(floor("000000001233"), Some(hex("8000008000")));

    let usage = |changes: &[&str], record: &str| {
        bits(changes, &format!("5F24 03 491231 {record}")).is_some_and(|bits| bits[1] == 0)
    };
    assert!(usage(&[], "9F07 02 0100"));
    assert!(!usage(&[], "9F07 02 FE00"));
    let atm = ["9F35 01 14", "9F40 05 8000000000"];
    assert!(usage(&atm, "9F07 02 0200"));
    assert!(!usage(&atm, "9F07 02 FD00"));
    assert!(!usage(
        &["9F35 01 14", "9F40 05 7F00000000"],
        "9F07 02 0200"
    ));
    assert!(!usage(&["9F35 01 14"], "9F07 02 0200"));
    for (kind, country, needed) in [
        ("01", "0056", [0x80, 0x80]),
        ("17", "0840", [0x40, 0x40]),
        ("00", "0056", [0x20, 0x08]),
        ("09", "0840", [0x10, 0x04]),
    ] {
        let kind = format!("9C 01 {kind}");
        for bit in [0x80u8, 0x40, 0x20, 0x10, 0x08, 0x04] {
            let record = format!("9F07 02 {:02X}00 5F28 02 {country}", bit | 1);
            assert_eq!(
                usage(&[&kind], &record),
                needed.contains(&bit),
                "{kind} {record}"
            );
        }
    }
    assert!(usage(&["9C 01 20"], "9F07 02 0100 5F28 02 0056"));
    let cashback = ["9C 01 20", "9F03 06 000000000001"];
    assert!(usage(&cashback, "9F07 02 0180 5F28 02 0056"));
    assert!(!usage(&cashback, "9F07 02 017F 5F28 02 0056"));
    assert!(usage(&cashback, "9F07 02 0140 5F28 02 0840"));
    assert!(!usage(&cashback, "9F07 02 01BF 5F28 02 0840"));
    assert!(usage(&cashback, "9F07 02 0100"));
    assert!(usage(
        &["9C 01 20", "9F03 06 000000000000"],
        "9F07 02 0100 5F28 02 0056"
    ));
}

#[test]
fn choices() {
    let p1 = |changes: &[&str], record: &str| {
        Host::generating(changes, &format!("{GOOD} {record}")).buffer[2]
    };
    assert_eq!(p1(&[], "9F0E 05 8000000000"), 0x00);
    assert_eq!(p1(&["DF8121 05 8000000000", "9F35 01 21"], ""), 0x00);
    assert_eq!(p1(&["9F35 01 21"], "9F0F 05 0000000000"), 0x80);
    assert_eq!(p1(&["9F35 01 34"], "9F0F 05 0000000000"), 0x80);
    assert_eq!(p1(&["9F35 01 36"], "9F0D 05 7FFFFFFFFF"), 0x40);
    assert_eq!(
        p1(
            &["9F35 01 36", "DF8120 05 8000000000"],
            "9F0D 05 7FFFFFFFFF"
        ),
        0x00
    );
    assert_eq!(
        p1(
            &["9F35 01 25", "DF8122 05 8000000000"],
            "9F0F 05 7FFFFFFFFF"
        ),
        0x80
    );
    assert_eq!(p1(&["9F35 01 25"], "9F0F 05 7FFFFFFFFF"), 0x40);
}

#[test]
fn link_and_stop() {
    for (host, count) in [
        (Host::started(&[]), 1),
        (Host::reading(&[], "08010100"), 2),
        (Host::generating(&[], GOOD), 3),
    ] {
        let store = *host.store();
        for reason in [9, 10] {
            let mut host = Host {
                session: host.session.clone(),
                buffer: host.buffer.clone(),
            };
            let word = if reason == 9 {
                host.link_failed()
            } else {
                host.stop()
            };
            let expected = if count == 3 { ended_later } else { ended };
            assert_eq!(word, expected(reason));
            assert_eq!(host.head(), [5, 4, 3, reason as u8, count, 0]);
            assert_eq!(*host.store(), store);
            assert_eq!(host.start(&start_with(&[])), refused(21));
        }
    }
}

/// Gives whether the session is within its ranges, by a call that is refused with 21 or 25 or that gives an outcome.
fn in_range(session: &[u8]) -> bool {
    let mut session = session.to_vec();
    model::stop(&mut session, &mut [0; 261]) != refused(25)
}

#[test]
fn ranges() {
    let fresh = Host::open().session;
    let started = Host::started(&[]).session;
    let reading = Host::reading(&[], "08010200").session;
    let generating = Host::generating(&[], GOOD).session;
    let mut ended = Host::started(&[]);
    ended.stop();
    let ended = ended.session;
    for session in [&fresh, &started, &reading, &generating, &ended] {
        assert!(in_range(session));
    }
    let with = |session: &[u8], changes: &[(usize, u8)]| {
        let mut session = session.to_vec();
        for &(at, value) in changes {
            session[at] = value;
        }
        session
    };
    let place = |object: Object| HEAD_SIZE + object.row().place;

    // The head.
    for session in [&fresh, &started, &reading, &generating, &ended] {
        for version in [0, 1, 2, 3, 4, 6, 255] {
            assert!(!in_range(&with(session, &[(0, version)])));
            assert_eq!(model::count(&with(session, &[(0, version)])), NO_COUNT);
        }
        assert!(!in_range(&with(session, &[(1, 5)])));
        assert!(!in_range(&with(session, &[(1, 6)])));
        assert_eq!(model::count(&with(session, &[(1, 6)])), NO_COUNT);
        assert_eq!(model::count(&with(session, &[(4, 200)])), 200);
        assert!(!in_range(&with(session, &[(4, 200)])));
    }
    for session in [&fresh, &started, &reading, &generating] {
        assert_eq!(model::count(&with(session, &[(3, 1)])), NO_COUNT);
    }
    for at in HEAD_SIZE..SESSION_SIZE {
        assert!(!in_range(&with(&fresh, &[(at, 1)])));
    }
    assert!(in_range(&with(&reading, &[(2, 2), (4, 3)])));
    assert!(!in_range(&with(&reading, &[(2, 0), (4, 1)])));
    assert!(!in_range(&with(&reading, &[(2, 3), (4, 4)])));
    for p1 in 0..=255 {
        let good = [0x00, 0x40, 0x80].contains(&p1);
        assert_eq!(in_range(&with(&generating, &[(2, p1)])), good);
    }
    for method in 0..=255 {
        let good = [0, 1, 2, 3, 4].contains(&method);
        assert_eq!(in_range(&with(&generating, &[(5, method)])), good);
        for session in [&fresh, &started, &reading, &ended] {
            assert_eq!(in_range(&with(session, &[(5, method)])), method == 0);
        }
        for session in [&fresh, &started, &reading, &generating, &ended] {
            let known = good && (method == 0 || session[1] == 3);
            let count = model::count(&with(session, &[(5, method)]));
            assert_eq!(count == NO_COUNT, !known);
        }
    }
    for outcome in 0..=255u8 {
        for reason in 0..=255u8 {
            let good = match reason {
                0 => outcome <= 2,
                6 => outcome == 4,
                _ => reason <= 11 && outcome == 3,
            };
            assert_eq!(in_range(&with(&ended, &[(2, outcome), (3, reason)])), good);
        }
    }
    assert!(in_range(&with(&ended, &[(4, 130)])));
    assert!(!in_range(&with(&ended, &[(4, 131)])));

    // Every length byte of every place, in an ended session.
    for row in &ROWS {
        let mut session = ended.clone();
        session[HEAD_SIZE + row.place + 1..][..usize::from(row.most)].fill(0);
        for n in 0..=255u8 {
            session[HEAD_SIZE + row.place] = n;
            let good = n == 0 || (row.least..=row.most).contains(&(n - 1));
            assert_eq!(in_range(&session), good, "{:X} {n}", row.tag);
        }
    }

    // What a running session holds.
    for session in [&started, &reading, &generating] {
        for object in REQUIRED_AT_START {
            assert!(!in_range(&with(session, &[(place(object), 0)])));
        }
        assert!(!in_range(&with(
            session,
            &[(place(Object::VerificationResults), 0)]
        )));
        assert!(!in_range(&with(
            session,
            &[(place(Object::TerminalType) + 1, 0x17)]
        )));
        assert!(!in_range(&with(
            session,
            &[(place(Object::IssuerApplicationData), 1)]
        )));
        assert!(!in_range(&with(session, &[(place(Object::Cryptogram), 9)])));
        assert!(!in_range(&with(
            session,
            &[(place(Object::CryptogramInformation), 2)]
        )));
        assert!(!in_range(&with(
            session,
            &[(place(Object::TransactionCounter), 3)]
        )));
        assert!(in_range(&with(session, &[(place(Object::Track2), 1)])));
        let results = with(session, &[(place(Object::VerificationResults) + 5, 1)]);
        assert_eq!(in_range(&results), session[1] == 3);
        let profile = [
            (place(Object::InterchangeProfile), 3),
            (place(Object::InterchangeProfile) + 2, 0x80),
        ];
        assert_eq!(in_range(&with(session, &profile)), session[1] != 1);
    }
    for session in [&reading, &generating] {
        let no_emv_mode = [
            (place(Object::InterchangeProfile) + 2, 0x7F),
            (place(Object::KernelConfiguration) + 1, 0x80),
        ];
        assert!(!in_range(&with(session, &no_emv_mode)));
        assert!(in_range(&with(session, &no_emv_mode[1..])));
        assert_eq!(in_range(&with(session, &no_emv_mode[..1])), session[1] == 2);
        assert!(!in_range(&with(
            session,
            &[(place(Object::FileLocator) + 1, 0x09)]
        )));
        assert!(!in_range(&with(
            session,
            &[(place(Object::FileLocator), 6)]
        )));
        assert!(!in_range(&with(
            session,
            &[(place(Object::FileLocator), 0)]
        )));
    }
    for object in [Object::ExpirationDate, Object::Pan, Object::Cdol1] {
        assert!(!in_range(&with(&generating, &[(place(object), 0)])));
    }
    // 9F34 is needed on GENERATE AC alone, and may be present before; it need not be the CVM's.
    assert!(!in_range(&with(
        &generating,
        &[(place(Object::CvmResults), 0)]
    )));
    for session in [&started, &reading, &generating, &ended] {
        assert!(in_range(&with(session, &[(place(Object::CvmResults), 4)])));
        assert!(!in_range(&with(session, &[(place(Object::CvmResults), 3)])));
    }
    assert!(in_range(&with(
        &generating,
        &[(5, 2), (place(Object::CvmResults) + 1, 0x1E)]
    )));
    assert!(!in_range(&with(&generating, &[(place(Object::Pan), 1)])));
    assert!(!in_range(&with(&generating, &[(place(Object::Cdol1), 1)])));
    assert!(!in_range(&with(
        &generating,
        &[(place(Object::Pan) + 1, 0xB0)]
    )));
}

#[test]
fn bytes_behind_a_value_stay() {
    let mut host = Host::reading(&[], "08010200");
    let place = HEAD_SIZE + Object::Track2.row().place;
    host.session[place + 1..place + 20].fill(0xEE);
    assert_eq!(host.record("57 00"), 5);
    assert_eq!(host.session[place], 1);
    assert_eq!(host.record(&format!("57 02 1234 {GOOD}")), 11);
    assert_eq!(host.session[place..place + 4], [3, 0x12, 0x34, 0xEE]);
}

//! Cardholder verification: the choice of the CVM, its place among the steps, and the CVM in every end.

mod common;

use common::{
    change, hex, outcome, start_with, Host, NOT_APPLICABLE, NO_CVM, OFFLINE_PIN, ONLINE_PIN,
    SIGNATURE,
};
use model::cvm::{select, Selection};
use model::dictionary::Object;
use model::store::Store;
use model::{HEAD_SIZE, STORE_SIZE};

/// The objects of a plain store, each as one text.
const PLAIN: [&str; 8] = [
    "82 1080",
    "9C 00",
    "9F02 000000001234",
    "9F33 E068C8",
    "9F35 22",
    "5F2A 0056",
    "9F42 0056",
    "DF8126 000000001000",
];

/// Eight zero bytes: X and Y of a list without amounts.
const Z: &str = "0000000000000000";

/// The plain store with some objects put in place of others, added or taken away.
fn changed(changes: &[&str]) -> Store {
    let mut store = [0; STORE_SIZE];
    change(&mut store, &PLAIN);
    change(&mut store, changes);
    store
}

/// 9F34, the bytes 1 and 3 of the bits added to 95, and the CVM's number.
fn selected(changes: &[&str]) -> (String, u8, u8, u32) {
    let Selection {
        results,
        bits,
        method,
    } = select(&changed(changes));
    assert_eq!((bits[1], bits[3], bits[4]), (0, 0, 0));
    let results = results.map(|byte| format!("{byte:02X}")).concat();
    (results, bits[0], bits[2], method as u32)
}

/// Selects by a list of these rules after amounts of zero.
fn by_rules(rules: &str, changes: &[&str]) -> (String, u8, u8, u32) {
    let list = format!("8E {Z}{rules}");
    selected(&[&[list.as_str()], changes].concat())
}

fn gives(results: &str, third: u8, method: u32) -> (String, u8, u8, u32) {
    (results.into(), 0, third, method)
}

#[test]
fn examples() {
    assert_eq!(
        by_rules("4200", &["82 EF80"]),
        gives("3F0000", 0x00, NO_CVM)
    );
    assert_eq!(selected(&[]), ("3F0000".into(), 0x20, 0x00, NO_CVM));
    // A list that is missing is not missed where the card does not support verification.
    assert_eq!(selected(&["82 EF80"]), gives("3F0000", 0x00, NO_CVM));
    let rules = "42035E031F03";
    assert_eq!(by_rules(rules, &[]), gives("420300", 0x04, ONLINE_PIN));
    assert_eq!(
        by_rules(rules, &["9F33 E028C8"]),
        gives("5E0300", 0x00, SIGNATURE)
    );
    assert_eq!(
        by_rules(rules, &["9F33 F800F8"]),
        gives("3F0001", 0x80, NO_CVM)
    );
    assert_eq!(
        selected(&["8E 000004D2000004D21E061E071E081E090000"]),
        gives("000001", 0x80, NO_CVM)
    );
    assert_eq!(
        selected(&["8E 000004D1000004D342065E08"]),
        gives("5E0800", 0x00, SIGNATURE)
    );
    assert_eq!(
        selected(&["8E FFFFFFFF000000005E065E091F00", "5F2A", "9F42"]),
        gives("1F0002", 0x00, NO_CVM)
    );
    assert_eq!(by_rules("46001F00", &[]), gives("1F0002", 0x40, NO_CVM));
    assert_eq!(by_rules("40001F00", &[]), gives("1F0002", 0x00, NO_CVM));
    assert_eq!(
        by_rules("5E001F", &["9F33 E048C8"]),
        gives("3F0001", 0x80, NO_CVM)
    );
    assert_eq!(
        by_rules("1E041F024201", &["9C 01", "9F35 14", "9F40 8000000000"]),
        gives("420100", 0x04, ONLINE_PIN)
    );
    assert_eq!(
        by_rules("5E021F014205", &["9C 09"]),
        gives("420500", 0x04, ONLINE_PIN)
    );
    assert_eq!(by_rules("060A06809F00", &[]), gives("9F0002", 0x00, NO_CVM));
    assert_eq!(
        by_rules("44031F00", &["9F33 E0F8C8"]),
        gives("440300", 0x00, OFFLINE_PIN)
    );
}

/// What each code gives alone where all that it needs is supported.
#[test]
fn codes() {
    for code in 0..=255u8 {
        let rule = format!("{code:02X}00");
        let said = by_rules(&rule, &["9F33 00F800"]);
        let performed = |result: &str| format!("{code:02X}00{result}");
        let expected = match code & 0x3F {
            0x00 => gives(&performed("01"), 0x80, NO_CVM),
            0x01 | 0x03..=0x05 => gives(&performed("00"), 0x00, OFFLINE_PIN),
            0x02 => gives(&performed("00"), 0x04, ONLINE_PIN),
            0x1E => gives(&performed("00"), 0x00, SIGNATURE),
            0x1F => gives(&performed("02"), 0x00, NO_CVM),
            _ => gives("3F0001", 0xC0, NO_CVM),
        };
        assert_eq!(said, expected, "{code:02X}");
    }
}

/// Which bits of byte 2 of 9F33 a code needs: all of them, and no others.
#[test]
fn capabilities() {
    for (name, needed) in [
        (0x01, 0x80u8),
        (0x02, 0x40),
        (0x03, 0xA0),
        (0x04, 0x10),
        (0x05, 0x30),
        (0x1E, 0x20),
        (0x1F, 0x08),
    ] {
        for capabilities in 0..=255u8 {
            let capabilities_object = format!("9F33 00{capabilities:02X}00");
            let supported = capabilities & needed == needed;
            for condition in [0x00, 0x03] {
                let rule = format!("{name:02X}{condition:02X}");
                let (results, first, third, _) = by_rules(&rule, &[&capabilities_object]);
                assert_eq!(results.starts_with(&rule), supported, "{capabilities:02X}");
                let entered = if name == 0x02 { 0x04 } else { 0x00 };
                let third_due = if supported { entered } else { 0x80 };
                assert_eq!((first, third), (0, third_due));
            }
        }
    }
    // Fail is always supported, also to its condition; byte 1 and byte 3 of 9F33 count for nothing.
    assert_eq!(
        by_rules("00031F00", &["9F33 FF00FF"]),
        gives("000301", 0x80, NO_CVM)
    );
    // An unrecognised code is not supported, so its condition does not hold and the bit is not set.
    assert_eq!(
        by_rules("46031F00", &["9F33 FFFFFF"]),
        gives("1F0002", 0x00, NO_CVM)
    );
}

/// Which condition holds in which transaction.
#[test]
fn conditions() {
    let atm = ["9F35 14", "9F40 8000000000"];
    let shop = ["9F35 22", "9F40 8000000000"];
    let not_for_cash = ["9F35 15", "9F40 7FFFFFFFFF"];
    let silent = ["9F35 16", "9F40"];
    for (kind, terminal, holding) in [
        ("9C 00", &atm, &[0x00, 0x02, 0x03][..]),
        ("9C 01", &atm, &[0x00, 0x01, 0x03]),
        ("9C 17", &atm, &[0x00, 0x01, 0x03]),
        ("9C 09", &atm, &[0x00, 0x03, 0x05]),
        ("9C 20", &atm, &[0x00, 0x02, 0x03]),
        ("9C 00", &shop, &[0x00, 0x02, 0x03]),
        ("9C 01", &shop, &[0x00, 0x03, 0x04]),
        ("9C 17", &shop, &[0x00, 0x03, 0x04]),
        ("9C 09", &shop, &[0x00, 0x03, 0x05]),
        ("9C 01", &not_for_cash, &[0x00, 0x03, 0x04]),
        ("9C 17", &silent, &[0x00, 0x03, 0x04]),
    ] {
        for condition in (0x00..=0x05).chain(0x0A..=0xFF) {
            let rule = format!("1E{condition:02X}");
            // The amount other decides nothing.
            let changes = [kind, terminal[0], terminal[1], "9F03 000000000001"];
            let expected = if holding.contains(&condition) {
                gives(&format!("{rule}00"), 0x00, SIGNATURE)
            } else {
                gives("3F0001", 0x80, NO_CVM)
            };
            assert_eq!(by_rules(&rule, &changes), expected, "{kind} {rule}");
        }
    }
}

#[test]
fn amounts() {
    // Amount, X or Y as hexadecimal, and whether the amount is under and over it.
    for (amount, limit, under, over) in [
        ("000000001234", "000004D2", false, false),
        ("000000001234", "000004D3", true, false),
        ("000000001234", "000004D1", false, true),
        ("000000001234", "00001234", true, false),
        ("000000000000", "00000000", false, false),
        ("000000000000", "00000001", true, false),
        ("004294967295", "FFFFFFFF", false, false),
        ("004294967296", "FFFFFFFF", false, true),
        ("004294967296", "00000001", false, true),
        ("004294967294", "FFFFFFFF", true, false),
        ("999999999999", "FFFFFFFF", false, true),
        ("002147483648", "80000000", false, false),
        ("002147483647", "80000000", true, false),
    ] {
        let amount = format!("9F02 {amount}");
        for (condition, list, holds) in [
            (0x06, format!("{limit}00000000"), under),
            (0x07, format!("{limit}00000000"), over),
            (0x08, format!("00000000{limit}"), under),
            (0x09, format!("00000000{limit}"), over),
        ] {
            let rule = format!("1E{condition:02X}");
            let list = format!("8E {list}{rule}");
            let said = |changes: &[&str]| selected(&[&[amount.as_str(), &list], changes].concat());
            let none = gives("3F0001", 0x80, NO_CVM);
            let expected = if holds {
                gives(&format!("{rule}00"), 0x00, SIGNATURE)
            } else {
                none.clone()
            };
            assert_eq!(said(&[]), expected, "{amount} {list}");
            // The amount required for verification decides nothing.
            assert_eq!(said(&["DF8126 999999999999"]), expected);
            // Only in the card's currency, which must be named on both sides.
            assert_eq!(said(&["9F42 0840"]), none);
            assert_eq!(said(&["5F2A 0840"]), none);
            assert_eq!(said(&["9F42"]), none);
            assert_eq!(said(&["5F2A"]), none);
            assert_eq!(said(&["5F2A", "9F42"]), none);
        }
    }
}

#[test]
fn ways_through_a_list() {
    // The last rule does not succeed: b7 set or clear, fail or not.
    assert_eq!(by_rules("4000", &[]), gives("400001", 0x80, NO_CVM));
    assert_eq!(by_rules("C000", &[]), gives("C00001", 0x80, NO_CVM));
    assert_eq!(by_rules("8000", &[]), gives("800001", 0x80, NO_CVM));
    assert_eq!(by_rules("4400", &[]), gives("3F0001", 0x80, NO_CVM));
    assert_eq!(by_rules("0400", &[]), gives("3F0001", 0x80, NO_CVM));
    assert_eq!(by_rules("4600", &[]), gives("3F0001", 0xC0, NO_CVM));
    assert_eq!(by_rules("0600", &[]), gives("3F0001", 0xC0, NO_CVM));
    // With b7 clear the rules after do not matter.
    assert_eq!(by_rules("00001F00", &[]), gives("000001", 0x80, NO_CVM));
    assert_eq!(by_rules("04001F00", &[]), gives("3F0001", 0x80, NO_CVM));
    assert_eq!(by_rules("06001F00", &[]), gives("3F0001", 0xC0, NO_CVM));
    // A rule whose condition does not hold is passed by without b7, and leaves no bit.
    assert_eq!(by_rules("00051F00", &[]), gives("1F0002", 0x00, NO_CVM));
    assert_eq!(by_rules("06051F00", &[]), gives("1F0002", 0x00, NO_CVM));
    assert_eq!(by_rules("02051F05", &[]), gives("3F0001", 0x80, NO_CVM));
    // The bit of an unrecognised code stays, whatever follows.
    assert_eq!(by_rules("46004200", &[]), gives("420000", 0x44, ONLINE_PIN));
    assert_eq!(by_rules("46005E00", &[]), gives("5E0000", 0x40, SIGNATURE));
    assert_eq!(by_rules("46000000", &[]), gives("000001", 0xC0, NO_CVM));
    assert_eq!(by_rules("46001F05", &[]), gives("3F0001", 0xC0, NO_CVM));
    assert_eq!(by_rules("7F005F00", &[]), gives("5F0002", 0x40, NO_CVM));
    // Rules after one that succeeds do not matter.
    assert_eq!(
        by_rules("1E0046000000", &[]),
        gives("1E0000", 0x00, SIGNATURE)
    );
    // One more byte changes nothing.
    for last in 0..=255u8 {
        for rules in ["4400", "46001F00", "1E05", "5E00", "4000"] {
            let odd = format!("{rules}{last:02X}");
            assert_eq!(by_rules(&odd, &[]), by_rules(rules, &[]), "{odd}");
        }
    }
    // The longest list: 121 rules, of which the last one counts.
    let long = format!("{}1F00", "4400".repeat(120));
    assert_eq!(by_rules(&long, &[]), gives("1F0002", 0x00, NO_CVM));
}

/// The content of a record with the list of these rules and CDOL1.
fn record(rules: &str, cdol1: &str) -> String {
    let list = if rules.is_empty() {
        String::new()
    } else {
        format!("8E {:02X} {Z}{rules}", 8 + hex(rules).len())
    };
    let length = hex(cdol1).len();
    format!("5F24 03 491231 5A 02 1234 8C {length:02X} {cdol1} {list}")
}

/// A session in which the card supports verification, before its one record.
fn before_record(changes: &[&str]) -> Host {
    Host::reading_card(changes, "1080", "08010100")
}

fn generating(changes: &[&str], record: &str) -> Host {
    let mut host = before_record(changes);
    let word = host.record(record);
    assert!(common::is_command(word), "{word:X}");
    host
}

#[test]
fn after_the_restrictions_and_before_the_choice() {
    // 95 has the bits of both: an expired card, amount above the floor limit, online PIN.
    let content = record("4200", "9F3403 9505").replace("491231", "250614");
    let host = generating(&["DF8123 06 000000001000"], &content);
    assert_eq!(host.buffer[..14], hex("80AE8000 08 420000 8040048000 00"));
    assert_eq!(host.get(Object::CvmResults), Some(&hex("420000")[..]));
    assert_eq!(host.head(), [5, 3, 0x80, 0, 3, 2]);
    // The choice sees the bits of the CVM: each alone in a denial code, and in an online code.
    for (rules, bits) in [
        ("", "2000000000"),
        ("1E05", "0000800000"),
        ("46001F00", "0000400000"),
        ("4200", "0000040000"),
    ] {
        let content = format!("{} 9F0F 05 0000000000", record(rules, "9505"));
        let asked = |changes: &[&str]| generating(changes, &content).buffer[2];
        assert_eq!(asked(&[]), 0x40);
        assert_eq!(asked(&[&format!("DF8121 05 {bits}")]), 0x00, "{rules}");
        assert_eq!(asked(&[&format!("DF8122 05 {bits}")]), 0x80, "{rules}");
        let asked_else = asked(&["DF8121 05 5FFF3BFFFF", "DF8122 05 5FFF3BFFFF"]);
        assert_eq!(asked_else, 0x40, "{rules}");
    }
}

#[test]
fn before_the_method() {
    // Reason 6 comes first, then 4: no CVM, no 9F34, and 95 stays zero.
    let mut host = before_record(&["DF8124 06 000000001233"]);
    assert_eq!(
        host.record(&record("4200", "9505")),
        outcome(NOT_APPLICABLE, 4, 6)
    );
    assert_eq!(host.get(Object::CvmResults), None);
    assert_eq!(host.get(Object::VerificationResults), Some(&[0; 5][..]));
    let mut host = before_record(&[]);
    let content = record("4200", "9505").replace("5A 02 1234", "");
    assert_eq!(host.record(&content), outcome(NOT_APPLICABLE, 3, 4));
    assert_eq!(host.get(Object::CvmResults), None);
    assert_eq!(host.get(Object::VerificationResults), Some(&[0; 5][..]));
}

#[test]
fn broken_list_keeps_the_method() {
    for (rules, results, bits, method) in [
        ("4200", "420000", "8000040000", ONLINE_PIN),
        ("1E00", "1E0000", "8000000000", SIGNATURE),
        ("4600", "3F0001", "8000C00000", NO_CVM),
        ("0400", "040000", "8000000000", OFFLINE_PIN),
        ("", "3F0000", "A000000000", NO_CVM),
    ] {
        let mut host = before_record(&[]);
        let word = host.record(&record(rules, "95"));
        assert_eq!(word, outcome(method, 3, 7), "{rules}");
        assert_eq!(host.get(Object::CvmResults), Some(&hex(results)[..]));
        assert_eq!(host.get(Object::VerificationResults), Some(&hex(bits)[..]));
        assert_eq!(host.head(), [5, 4, 3, 7, 2, 0]);
    }
}

/// A 9F34 that is present before, as no start leaves one, is written over.
#[test]
fn earlier_results_are_written_over() {
    let mut host = before_record(&[]);
    let place = HEAD_SIZE + Object::CvmResults.row().place;
    host.session[place..place + 4].copy_from_slice(&[4, 0xAA, 0xBB, 0xCC]);
    assert_eq!(host.record(&record("1E00", "9F3403")), 9);
    assert_eq!(host.buffer[..9], hex("80AE8000 03 1E0000 00"));
    assert_eq!(host.get(Object::CvmResults), Some(&hex("1E0000")[..]));
}

#[test]
fn method_in_every_end() {
    let good = hex("80 0B 80 0001 1122334455667788 9000");
    for (rules, number) in [
        ("1F00", NO_CVM),
        ("1E00", SIGNATURE),
        ("4200", ONLINE_PIN),
        ("0100", OFFLINE_PIN),
    ] {
        let session = || generating(&[], &record(rules, "9505"));
        assert_eq!(session().head(), [5, 3, 0x80, 0, 3, number as u8]);
        // Decisions and reasons on GENERATE AC.
        let mut host = session();
        assert_eq!(host.answer(&good), outcome(number, 1, 0));
        assert_eq!(host.head(), [5, 4, 1, 0, 3, 0]);
        for (answer, kind, reason) in [
            ("80 0B 00 0001 1122334455667788 9000", 2, 0),
            ("6985", 3, 1),
            ("77 00 00 9000", 3, 2),
            ("77 04 82 02 0080 9000", 3, 3),
            ("77 00 9000", 3, 4),
            ("80 0B 40 0001 1122334455667788 9000", 3, 8),
        ] {
            assert_eq!(session().answer_hex(answer), outcome(number, kind, reason));
        }
        assert_eq!(session().link_failed(), outcome(number, 3, 9));
        assert_eq!(session().stop(), outcome(number, 3, 10));
        let offline = format!("{} 9F0F 05 0000000000", record(rules, "9505"));
        let mut host = generating(&[], &offline);
        assert_eq!(
            host.answer_hex("80 0B 40 0001 1122334455667788 9000"),
            outcome(number, 0, 0)
        );
    }
    // Not applicable before: at the start, on GPO and on a record.
    let mut host = Host::open();
    let broken = start_with(&["9F38 01 95"]);
    assert_eq!(host.start(&broken), outcome(NOT_APPLICABLE, 3, 7));
    assert_eq!(host.get(Object::CvmResults), None);
    for (answer, reason) in [
        ("6985", 1),
        ("80 00 9000", 2),
        ("77 03 5A 01 12 9000", 3),
        ("77 00 9000", 4),
        ("80 06 1080 09010100 9000", 5),
        ("80 06 1000 08010100 9000", 11),
    ] {
        let mut host = Host::started(&["DF811B 01 80"]);
        assert_eq!(host.answer_hex(answer), outcome(NOT_APPLICABLE, 3, reason));
    }
    for (answer, reason) in [("6985", 1), ("77 00 9000", 2), ("70 03 95 01 00 9000", 3)] {
        let mut host = before_record(&[]);
        assert_eq!(host.answer_hex(answer), outcome(NOT_APPLICABLE, 3, reason));
    }
    for early in [|| Host::started(&[]), || before_record(&[])] {
        assert_eq!(early().link_failed(), outcome(NOT_APPLICABLE, 3, 9));
        assert_eq!(early().stop(), outcome(NOT_APPLICABLE, 3, 10));
    }
}

/// The CVM reported is the one that the record holds, and not read off 9F34.
#[test]
fn held_method_is_told() {
    let mut host = generating(&[], &record("1E00", "9505"));
    host.session[5] = 4;
    assert_eq!(host.link_failed(), outcome(OFFLINE_PIN, 3, 9));
}

#[test]
fn objects_from_the_card() {
    // 8E under 10 bytes, 9F42 with a letter, 9F34 and 9F33 are reason 3; DF8126 is skipped. A list of 250 bytes
    // fills an answer.
    for (object, reason) in [
        (format!("8E 09 {Z}1F"), 3),
        ("8E 00".to_string(), 3),
        (format!("8E 0A {Z}1F00"), 4),
        (format!("8E 0B {Z}1F00 00"), 4),
        ("9F42 02 005A".to_string(), 3),
        ("9F42 01 56".to_string(), 3),
        ("9F42 02 0056".to_string(), 4),
        ("9F34 03 1F0002".to_string(), 3),
        ("DF8126 01 FF".to_string(), 4),
        (format!("8E 81FA {}", "00".repeat(250)), 4),
        ("9F33 03 E0F8C8".to_string(), 3),
    ] {
        let mut host = before_record(&[]);
        let word = host.record(&object);
        assert_eq!(word, outcome(NOT_APPLICABLE, 3, reason), "{object}");
    }
    // 8E in 77 is not allowed.
    let mut host = Host::started(&[]);
    let answer = format!("77 16 82 02 1080 94 04 08010100 8E 0A {Z}1F00 9000");
    assert_eq!(host.answer_hex(&answer), outcome(NOT_APPLICABLE, 3, 3));
    let host = generating(&[], &record("1F00", "DF812606"));
    assert_eq!(host.buffer[..12], hex("80AE8000 06 000000002500 00"));
}

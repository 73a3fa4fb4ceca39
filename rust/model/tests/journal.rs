//! The journal checker: worked examples, rule by rule.

mod common;

use common::{hex, start_with};
use model::journal::{check, record_size, write, Call, Verdict};
use Verdict::{Accepted, Cut, Unlike};

/// Start objects, those that later requests ask for included.
const TERMINAL: &str = "9A03251116 9C0100 9F0206000000001234 9F09020002 9F1A020056 9F350122
    9F370401020304 DF8120050000000000 DF8121050000000000 DF8122050000000000
    DF812306000000005000 DF812406000000010000 9F3303E0F8C8 DF812606000000002500
    DF812506000000020000 DF811B0100 9F6A0400000012";

/// The bytes of a text, with zeros after up to a size.
fn padded(size: usize, text: &str) -> Vec<u8> {
    let mut bytes = hex(text);
    assert!(bytes.len() <= size);
    bytes.resize(size, 0);
    bytes
}

fn start(text: &str) -> Vec<u8> {
    padded(1027, text)
}

fn answer(text: &str) -> Vec<u8> {
    padded(261, text)
}

fn command(text: &str) -> Vec<u8> {
    padded(264, text)
}

fn good_start() -> Vec<u8> {
    start(&format!("01 007B {TERMINAL}"))
}

/// The records of a whole purchase, approved offline.
fn purchase() -> Vec<Vec<u8>> {
    vec![
        good_start(),
        command("05 0008 80A8000002830000"),
        answer("02 000A 8006008008010100 9000"),
        command("05 0005 00B2010C00"),
        answer("02 0020 701C 5F2403301231 5A084761739001010010 8C029505 9F0F050000000000 9000"),
        command("05 000B 80AE400005800000000000"),
        answer("02 000F 800B4000010102030405060708 9000"),
        hex("06 00 00"),
    ]
}

/// The verdict on the first records of the purchase, so many, and those given.
fn after(records: usize, behind: &[Vec<u8>]) -> Verdict {
    check(&[&purchase()[..records], behind].concat().concat())
}

#[test]
fn right_journals() {
    assert_eq!(hex(TERMINAL).len(), 123);
    assert_eq!(check(&[]), Accepted(0));
    for records in 0..=8 {
        assert_eq!(after(records, &[]), Accepted(records));
    }
    assert_eq!(after(2, &[hex("04"), hex("06030A")]), Accepted(4));
    assert_eq!(after(2, &[hex("03"), hex("060309")]), Accepted(4));
    let broken_list = start(&format!("01 007F {TERMINAL} 9F38019F"));
    assert_eq!(after(0, &[broken_list, hex("060307")]), Accepted(2));
    for (text, outcome) in [
        ("02 FFFF", "060302"),
        ("02 0000", "060302"),
        ("02 0001 90", "060302"),
        ("02 0002 6A83", "060301"),
        ("02 0102", "060301"),
    ] {
        assert_eq!(after(2, &[answer(text)]), Accepted(3), "{text}");
        assert_eq!(after(2, &[answer(text), hex(outcome)]), Accepted(4));
        assert_eq!(after(2, &[answer(text), hex("060300")]), Unlike(4));
    }
}

#[test]
fn wrong_replies() {
    assert_eq!(after(7, &[hex("06 01 00")]), Unlike(8));
    let mut online = purchase();
    online[5] = command("05 000B 80AE800005800000000000");
    assert_eq!(check(&online.concat()), Unlike(6));
    let mut byte_behind = purchase()[1].clone();
    byte_behind[263] = 1;
    assert_eq!(after(1, std::slice::from_ref(&byte_behind)), Unlike(2));
    assert_eq!(after(1, &[byte_behind, hex("02 00")]), Unlike(2));
    assert_eq!(after(2, &[hex("04"), hex("060309")]), Unlike(4));
    // A call where a reply is expected.
    assert_eq!(after(1, &[good_start()]), Unlike(2));
    assert_eq!(after(1, &[answer("02 0002 9000")]), Unlike(2));
    assert_eq!(after(1, &[hex("03")]), Unlike(2));
    assert_eq!(after(1, &[hex("06 03 02")]), Unlike(2));
    assert_eq!(after(7, &[command("05 0005 00B2010C00")]), Unlike(8));
    // FF FF stands for long answers only.
    assert_eq!(after(1, &[command("05 FFFF")]), Unlike(2));
}

#[test]
fn wrong_calls() {
    for text in ["01 0000", "01 0401", "01 FFFF", "01 0001 00"] {
        assert_eq!(after(0, &[start(text)]), Unlike(1), "{text}");
    }
    assert_eq!(after(0, &[answer("02 0002 9000")]), Unlike(1));
    for kind in ["03", "04", "06 00 00", "06 03 02"] {
        assert_eq!(after(0, &[hex(kind)]), Unlike(1), "{kind}");
    }
    assert_eq!(after(0, &[purchase()[1].clone()]), Unlike(1));
    assert_eq!(after(2, &[good_start()]), Unlike(3));
    assert_eq!(after(2, &[purchase()[1].clone()]), Unlike(3));
    assert_eq!(after(2, &[hex("060302")]), Unlike(3));
    // Lengths, and bytes after them.
    let mut not_zero = answer("02 FFFF");
    not_zero[260] = 1;
    assert_eq!(after(2, &[not_zero, hex("060302")]), Unlike(3));
    for text in ["02 0103", "02 FFFE", "02 0001 9001", "02 0000 01"] {
        assert_eq!(after(2, &[answer(text)]), Unlike(3), "{text}");
    }
    let short = start(&format!("01 0076 {TERMINAL}"));
    assert_eq!(after(0, &[short]), Unlike(1));
    // After the outcome.
    for record in [good_start(), answer("02 0002 9000"), hex("03"), hex("04")] {
        assert_eq!(after(8, &[record]), Unlike(9));
    }
    assert_eq!(after(8, &[hex("00")]), Unlike(9));
    assert_eq!(after(8, &[hex("06 00 00")]), Unlike(9));
}

#[test]
fn full_bodies() {
    let unknown = "51 82 0381"; // 4 bytes, and 897 after them
    let full = |length: &str| start(&format!("01 {length} {TERMINAL} {unknown}"));
    let reply = purchase()[1].clone();
    assert_eq!(after(0, &[full("0400"), reply.clone()]), Accepted(2));
    for length in ["03FF", "0401", "1400", "FFFF"] {
        let records = [full(length), reply.clone()];
        assert_eq!(after(0, &records), Unlike(1), "{length}");
    }
    let full = |length: &str| answer(&format!("02 {length} {}", "6A".repeat(258)));
    assert_eq!(after(2, &[full("0102"), hex("060301")]), Accepted(4));
    for length in ["0101", "0103", "FFFF"] {
        assert_eq!(after(2, &[full(length)]), Unlike(3), "{length}");
    }
}

#[test]
fn cut_records_and_unknown_kinds() {
    assert_eq!(check(&hex("05 FFFF")), Cut(1));
    assert_eq!(check(&hex("07")), Unlike(1));
    assert_eq!(after(2, &[hex("0603")]), Cut(3));
    assert_eq!(after(1, &[hex("02")]), Cut(2));
    assert_eq!(after(8, &[hex("01")]), Cut(9));
    for records in 0..=8 {
        for kind in 0..=255 {
            let expected = match kind {
                1 | 2 | 5 | 6 => Cut(records + 1),
                3 | 4 if records == 2 || records == 4 || records == 6 => Accepted(records + 1),
                _ => Unlike(records + 1),
            };
            assert_eq!(after(records, &[vec![kind]]), expected);
        }
    }
}

#[test]
fn longest_journal() {
    // 130 commands and the outcome, each after its call.
    let start = start_with(&[]);
    let record = hex("70 00 9000");
    let last = hex("70 14 5F2403491231 5A081234567890123456 8C029505 9000");
    let locator = hex("80 06 0080 08018000 9000");
    let cryptogram = hex("80 0B 80 0001 0102030405060708 9000");
    let mut calls = vec![Call::Start(&start), Call::Answer(&locator)];
    calls.extend([Call::Answer(&record); 127]);
    calls.extend([&last, &cryptogram].map(|card| Call::Answer(card)));
    let journal = write(&calls);
    assert_eq!(check(&journal), Accepted(262));
    assert!(journal.ends_with(&hex("06 01 00")));
    for kind in 1..=6 {
        let mut record = vec![0; record_size(kind).expect("a kind")];
        record[0] = kind;
        let longer = [&journal[..], &record].concat();
        assert_eq!(check(&longer), Unlike(263));
    }
    // Calls after the end are refused, so nothing more is written.
    calls.extend([Call::Stop, Call::LinkFailed, Call::Start(&start)]);
    assert_eq!(write(&calls), journal);
}

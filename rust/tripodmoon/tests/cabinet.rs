//! The wrapper of the vending cabinet over the linked library.
#![cfg(feature = "cabinet")]

use tripodmoon::cabinet::{calls, find, lookup, Cabinet, Found};
use tripodmoon::cabinet::{AMOUNTS_SIZE, MOST_CAP, STATE_SIZE};
use tripodmoon::{refusal_text, Method, Object, Outcome, Reply, COMMAND_SIZE, SESSION_SIZE};

/// The objects that a start must bring, but the amount.
const TERMINAL: [u8; 118] = [
    0x9A, 0x03, 0x25, 0x06, 0x15, 0x9C, 0x01, 0x00, //
    0x9F, 0x09, 0x02, 0x00, 0x02, 0x9F, 0x1A, 0x02, 0x00, 0x56, //
    0x9F, 0x35, 0x01, 0x22, 0x9F, 0x37, 0x04, 0x5A, 0x3C, 0x96, 0xE1, //
    0xDF, 0x81, 0x20, 0x05, 0, 0, 0, 0, 0, 0xDF, 0x81, 0x21, 0x05, 0, 0, 0, 0, 0, //
    0xDF, 0x81, 0x22, 0x05, 0, 0, 0, 0, 0, //
    0xDF, 0x81, 0x23, 0x06, 0x99, 0x99, 0x99, 0x99, 0x99, 0x99, //
    0xDF, 0x81, 0x24, 0x06, 0x99, 0x99, 0x99, 0x99, 0x99, 0x99, //
    0x9F, 0x33, 0x03, 0, 0, 0, //
    0xDF, 0x81, 0x25, 0x06, 0x99, 0x99, 0x99, 0x99, 0x99, 0x99, //
    0xDF, 0x81, 0x26, 0x06, 0x99, 0x99, 0x99, 0x99, 0x99, 0x99, //
    0xDF, 0x81, 0x1B, 0x01, 0x00, 0x9F, 0x6A, 0x04, 0, 0, 0, 0, //
    0x58, 0x02, 0x41, 0x42,
];

/// The card's answers up to the cryptogram.
const OPTIONS: [u8; 10] = [0x80, 0x06, 0x00, 0x80, 0x08, 0x01, 0x01, 0x00, 0x90, 0x00];
const RECORD: [u8; 49] = [
    0x70, 0x2D, 0x5F, 0x24, 0x03, 0x49, 0x12, 0x31, //
    0x5A, 0x08, 0x47, 0x61, 0x73, 0x90, 0x01, 0x01, 0x00, 0x10, 0x8C, 0x03, 0x9F, 0x37,
    0x04, //
    0x9F, 0x0D, 0x05, 0, 0, 0, 0, 0, 0x9F, 0x0E, 0x05, 0, 0, 0, 0, 0, //
    0x9F, 0x0F, 0x05, 0, 0, 0, 0, 0, 0x90, 0x00,
];

/// The start bytes of an amount under 10,000.
fn terminal(amount: u16) -> Vec<u8> {
    let digits = |n: u16| (n / 10 * 16 + n % 10) as u8;
    let mut bytes = TERMINAL.to_vec();
    bytes.extend([0x9F, 0x02, 0x06, 0, 0, 0, 0]);
    bytes.extend([digits(amount / 100), digits(amount % 100)]);
    bytes
}

fn cryptogram(kind: u8) -> [u8; 15] {
    [
        0x80, 0x0B, kind, 0x00, 0x01, 1, 2, 3, 4, 5, 6, 7, 8, 0x90, 0x00,
    ]
}

/// A session of an amount whose card answers with this type of cryptogram: its outcome.
fn sale(cabinet: &mut Cabinet, amount: u16, kind: u8) -> Outcome {
    let mut buffer = [0; COMMAND_SIZE];
    let reply = cabinet.start(&terminal(amount), &mut buffer);
    assert!(matches!(reply, Reply::Command([0x80, 0xA8, ..])));
    let reply = cabinet.answer(&OPTIONS, &mut buffer);
    assert_eq!(reply, Reply::Command(&[0x00, 0xB2, 0x01, 0x0C, 0x00]));
    let reply = cabinet.answer(&RECORD, &mut buffer);
    assert!(matches!(reply, Reply::Command([0x80, 0xAE, 0x40, ..])));
    match cabinet.answer(&cryptogram(kind), &mut buffer) {
        Reply::Outcome {
            outcome,
            reason: 0,
            method: Method::NoCvm,
        } => outcome,
        reply => panic!("{reply:?}"),
    }
}

#[test]
fn sizes() {
    assert_eq!(calls::size(), STATE_SIZE);
    assert_eq!(STATE_SIZE, SESSION_SIZE + AMOUNTS_SIZE);
}

#[test]
fn caps() {
    assert_eq!(Cabinet::open(MOST_CAP + 1), None);
    let mut cabinet = Cabinet::open(MOST_CAP).expect("the greatest cap");
    assert_eq!(cabinet.left(), Some(MOST_CAP));
    assert!(!cabinet.reopen(u64::MAX));
    assert_eq!(cabinet.left(), Some(MOST_CAP));
    assert!(cabinet.reopen(0));
    assert_eq!(cabinet.left(), Some(0));
    let mut short = [1; STATE_SIZE - 1];
    assert_eq!(calls::open(&mut short, u64::MAX), 0x0002_0000 + 25);
    assert_eq!(calls::left(&short), calls::NO_LEFT);
    assert_eq!(short, [1; STATE_SIZE - 1]);
    assert_eq!(refusal_text(30), "less left of the cap than the amount");
    assert_eq!(refusal_text(31), "cap over 999,999,999,999");
}

#[test]
fn spent_and_given_back() {
    let mut cabinet = Cabinet::open(1000).expect("a cap");
    let mut buffer = [7; COMMAND_SIZE];
    assert_eq!(sale(&mut cabinet, 300, 0x40), Outcome::Approved);
    assert_eq!(cabinet.left(), Some(700));
    assert_eq!(sale(&mut cabinet, 600, 0x80), Outcome::OnlineRequest);
    assert_eq!(cabinet.left(), Some(700));
    let mut value = [0; 8];
    assert_eq!(
        cabinet.session().object(0x9F26, &mut value),
        Object::Value(&[1, 2, 3, 4, 5, 6, 7, 8])
    );
    let ended = cabinet.clone();
    assert_eq!(
        cabinet.start(&terminal(701), &mut buffer),
        Reply::Refused(30)
    );
    assert_eq!(buffer, [7; COMMAND_SIZE]);
    assert_eq!(cabinet, ended);
    assert_eq!(cabinet.link_failed(&mut buffer), Reply::Refused(21));
    cabinet.start(&terminal(700), &mut buffer);
    assert_eq!(cabinet.left(), Some(0));
    let mut other = Cabinet::from_bytes(*cabinet.as_bytes());
    let gave_up = |reason| Reply::Outcome {
        outcome: Outcome::Ended,
        reason,
        method: Method::NotApplicable,
    };
    assert_eq!(cabinet.link_failed(&mut buffer), gave_up(9));
    assert_eq!(other.stop(&mut buffer), gave_up(10));
    assert_eq!([cabinet.left(), other.left()], [Some(700); 2]);
}

#[test]
fn changed_bytes() {
    let mut cabinet = Cabinet::open(1000).expect("a cap");
    let mut buffer = [7; COMMAND_SIZE];
    cabinet.start(&terminal(1), &mut buffer);
    let mut bytes = *cabinet.as_bytes();
    bytes[STATE_SIZE - 1] = 0;
    let mut changed = Cabinet::from_bytes(bytes);
    assert_eq!(changed.stop(&mut buffer), Reply::Refused(25));
    assert_eq!(changed.left(), None);
    assert_eq!(*changed.as_bytes(), bytes);
    assert_eq!(
        changed.stop(&mut buffer[..COMMAND_SIZE - 1]),
        Reply::Refused(22)
    );
}

#[test]
fn looked_up_in_place() {
    let site = [0x9A, 0x03, 0x25, 0x06, 0x15, 0x9C, 0x01, 0x00];
    let defaults = [0x9C, 0x01, 0x20, 0x9F, 0x1A, 0x02, 0x00, 0x56];
    let found = |site: &'static [u8], tag| lookup(site, &[0x9C, 0x01, 0x20], tag);
    assert_eq!(lookup(&site, &defaults, 0x9C), Some(&[0x00][..]));
    let part = lookup(&site, &defaults, 0x9F1A).expect("few bytes");
    assert_eq!(part.as_ptr(), defaults[6..].as_ptr());
    assert_eq!(part, [0x00, 0x56]);
    assert_eq!(lookup(&site, &defaults, 0x9F35), Some(&[][..]));
    assert_eq!(calls::find(&site, &defaults, 0x9F35), 8 << 32);
    assert_eq!(found(&[0x9C, 0x00], 0x9C), Some(&[][..]));
    assert_eq!(
        found(&[0x70, 0x00, 0x9C, 0x01, 0x01], 0x9C),
        Some(&[0x20][..])
    );
    assert_eq!(found(&[], 0x9C), Some(&[0x20][..]));
    assert_eq!(lookup(&[], &[], 0x9C), Some(&[][..]));
}

#[test]
fn source_of_the_value() {
    let site = [0x9C, 0x01, 0x00, 0x9A, 0x00];
    let defaults = [
        0x9C, 0x01, 0x20, 0x9F, 0x1A, 0x01, 0x56, 0x9A, 0x00, 0x50, 0x00,
    ];
    // A value of each list, empty ones at their ends, and a tag in neither.
    for (tag, word, found) in [
        (0x9C, 0x0000_0002_0001_0001, Found::Site(&site[2..3])),
        (0x9A, 0x0000_0005_0001_0000, Found::Site(&site[5..])),
        (
            0x9F1A,
            0x0000_000B_0002_0001,
            Found::Defaults(&defaults[6..7]),
        ),
        (
            0x50,
            0x0000_0010_0002_0000,
            Found::Defaults(&defaults[11..]),
        ),
        (0x9F35, 0x0000_0005_0000_0000, Found::Nowhere),
    ] {
        assert_eq!(calls::find(&site, &defaults, tag), word, "{tag:X}");
        assert_eq!(find(&site, &defaults, tag), Some(found), "{tag:X}");
        let part = lookup(&site, &defaults, tag).expect("few bytes");
        let home = match found {
            Found::Site(value) | Found::Defaults(value) => value.as_ptr(),
            Found::Nowhere => defaults.as_ptr(),
        };
        assert_eq!(part.as_ptr(), home, "{tag:X}");
    }
    // The longest value fills the bits of the length and no others.
    let mut long = vec![0x9F, 0x38, 0x82, 0xFF, 0xFF];
    long.resize(5 + 65_535, 0x5A);
    assert_eq!(find(&long, &site, 0x9F38), Some(Found::Site(&long[5..])));
    assert_eq!(
        find(&site, &long, 0x9F38),
        Some(Found::Defaults(&long[5..]))
    );
}

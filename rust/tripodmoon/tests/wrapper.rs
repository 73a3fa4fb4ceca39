//! The wrapper's types over the linked library.

use tripodmoon::{
    calls, find, version, Explanation, Found, Holder, Method, Object, Outcome, Reply, Session,
    Stage, Version, COMMAND_SIZE, MOST_VALUE, SESSION_SIZE,
};

/// The objects that a start must bring.
const TERMINAL: [u8; 130] = [
    0x9A, 0x03, 0x25, 0x06, 0x15, 0x9C, 0x01, 0x00, //
    0x9F, 0x02, 0x06, 0x00, 0x00, 0x00, 0x00, 0x12, 0x34, //
    0x9F, 0x09, 0x02, 0x00, 0x02, 0x9F, 0x1A, 0x02, 0x00, 0x56, //
    0x9F, 0x35, 0x01, 0x22, 0x9F, 0x37, 0x04, 0x11, 0x22, 0x33, 0x44, //
    0xDF, 0x81, 0x20, 0x05, 0, 0, 0, 0, 0, 0xDF, 0x81, 0x21, 0x05, 0, 0, 0, 0, 0, //
    0xDF, 0x81, 0x22, 0x05, 0, 0, 0, 0, 0, //
    0xDF, 0x81, 0x23, 0x06, 0, 0, 0, 0, 0x99, 0x99, //
    0xDF, 0x81, 0x24, 0x06, 0, 0, 0, 0x99, 0x99, 0x99, //
    0x9F, 0x33, 0x03, 0xE0, 0xF8, 0xC8, 0xDF, 0x81, 0x26, 0x06, 0, 0, 0, 0, 0x25, 0, //
    0xDF, 0x81, 0x25, 0x06, 0, 0, 0x01, 0, 0, 0, 0xDF, 0x81, 0x1B, 0x01, 0x20, //
    0x9F, 0x6A, 0x04, 0x00, 0x00, 0x34, 0x56, //
    0x51, 0x01, 0x41, 0x9F, 0x53, 0x01, 0x52,
];

const OPTIONS: [u8; 8] = [0x80, 0xA8, 0x00, 0x00, 0x02, 0x83, 0x00, 0x00];

#[test]
fn size() {
    assert_eq!(calls::session_size(), SESSION_SIZE);
}

#[test]
fn refusals() {
    let mut session = Session::new();
    let fresh = *session.as_bytes();
    for length in [0, 1, 259, 260] {
        assert_eq!(
            session.start(&TERMINAL, &mut vec![7; length]),
            Reply::Refused(22)
        );
    }
    let mut buffer = [7; COMMAND_SIZE];
    assert_eq!(session.start(&[0], &mut buffer), Reply::Refused(20));
    assert_eq!(session.answer(&[], &mut buffer), Reply::Refused(21));
    assert_eq!(session.link_failed(&mut buffer), Reply::Refused(21));
    assert_eq!(session.stop(&mut buffer), Reply::Refused(21));
    assert_eq!(
        session.start(&[0x95, 0x00], &mut buffer),
        Reply::Refused(23)
    );
    assert_eq!(session.start(&[], &mut buffer), Reply::Refused(24));
    assert_eq!(*session.as_bytes(), fresh);
    assert_eq!(buffer, [7; COMMAND_SIZE]);
    let mut session = Session::from_bytes([0; SESSION_SIZE]);
    assert_eq!(session.start(&TERMINAL, &mut buffer), Reply::Refused(25));
    assert_eq!(session.count(), None);
}

#[test]
fn kept_across_power_loss() {
    let mut session = Session::new();
    let mut buffer = [7; 300];
    assert_eq!(
        session.start(&TERMINAL, &mut buffer),
        Reply::Command(&OPTIONS)
    );
    assert_eq!(buffer[8..], [7; 292]);
    assert_eq!(session.count(), Some(1));
    let mut session = Session::from_bytes(*session.as_bytes());
    let answer = [0x80, 0x06, 0x00, 0x80, 0x08, 0x01, 0x01, 0x00, 0x90, 0x00];
    assert_eq!(
        session.answer(&answer, &mut buffer),
        Reply::Command(&[0x00, 0xB2, 0x01, 0x0C, 0x00])
    );
    let mut other = session.clone();
    assert_eq!(
        session.link_failed(&mut buffer),
        Reply::Outcome {
            outcome: Outcome::Ended,
            reason: 9,
            method: Method::NotApplicable,
        }
    );
    assert_eq!(
        other.stop(&mut buffer),
        Reply::Outcome {
            outcome: Outcome::Ended,
            reason: 10,
            method: Method::NotApplicable,
        }
    );
    assert_eq!(session.count(), Some(2));
}

#[test]
fn short_session_bytes() {
    let mut buffer = [7; COMMAND_SIZE];
    let mut short = [1; SESSION_SIZE - 1];
    assert_eq!(calls::open(&mut short), 0x0002_0000 + 25);
    assert_eq!(
        calls::start(&mut short, &TERMINAL, &mut buffer),
        0x0002_0000 + 25
    );
    assert_eq!(calls::count(&short), calls::NO_COUNT);
    assert_eq!(calls::count(&[]), calls::NO_COUNT);
    assert_eq!(short, [1; SESSION_SIZE - 1]);
}

/// The object has exactly these bytes: a byte less is too few, and bytes after the value stay.
fn holds(session: &Session, tag: u32, bytes: &[u8]) {
    let mut value = [7; MOST_VALUE];
    assert_eq!(session.object(tag, &mut value), Object::Value(bytes));
    assert!(value[bytes.len()..].iter().all(|byte| *byte == 7));
    if !bytes.is_empty() {
        let mut short = vec![7; bytes.len() - 1];
        assert_eq!(session.object(tag, &mut short), Object::Needed(bytes.len()));
        assert!(short.iter().all(|byte| *byte == 7));
    }
}

#[test]
fn objects_sent_online() {
    let mut session = Session::new();
    let mut buffer = [0; COMMAND_SIZE];
    let mut value = [7; MOST_VALUE];
    assert_eq!(session.object(0x9F02, &mut value), Object::Absent);
    assert_eq!(session.object(0x51, &mut []), Object::Unknown);
    assert_eq!(session.object(0x50, &mut []), Object::Absent);
    session.start(&TERMINAL, &mut buffer);
    for answer in [
        &[0x80, 0x06, 0x00, 0x80, 0x08, 0x01, 0x01, 0x00, 0x90, 0x00][..],
        &[
            0x70, 0x14, 0x5F, 0x24, 0x03, 0x30, 0x12, 0x31, 0x5A, 0x08, 0x47, 0x61, 0x73, 0x90,
            0x01, 0x01, 0x00, 0x10, 0x8C, 0x02, 0x95, 0x05, 0x90, 0x00,
        ],
        &[
            0x77, 0x17, 0x9F, 0x27, 0x01, 0x80, 0x9F, 0x36, 0x02, 0x00, 0x01, 0x9F, 0x26, 0x08, 1,
            2, 3, 4, 5, 6, 7, 8, 0x9F, 0x10, 0x00, 0x90, 0x00,
        ],
    ] {
        session.answer(answer, &mut buffer);
    }
    assert_eq!(session.count(), Some(3));
    holds(&session, 0x9F26, &[1, 2, 3, 4, 5, 6, 7, 8]);
    holds(&session, 0x9F36, &[0x00, 0x01]);
    holds(&session, 0x9F10, &[]);
    holds(
        &session,
        0x5A,
        &[0x47, 0x61, 0x73, 0x90, 0x01, 0x01, 0x00, 0x10],
    );
    holds(&session, 0x95, &[0x80, 0x00, 0x00, 0x00, 0x00]);
    holds(&session, 0x9F02, &[0x00, 0x00, 0x00, 0x00, 0x12, 0x34]);
    assert_eq!(session.object(0x57, &mut value), Object::Absent);
    holds(&session, 0x9F53, &[0x52]);
    assert_eq!(session.object(0x51, &mut value), Object::Unknown);
    assert_eq!(session.object(0x80, &mut value), Object::Absent);
    assert_eq!(value, [7; MOST_VALUE]);

    session.wipe();
    assert_eq!(*session.as_bytes(), [0; SESSION_SIZE]);
    assert_eq!(session.object(0x9F26, &mut value), Object::Refused(25));
    assert_eq!(session.object(0x51, &mut []), Object::Refused(25));
    assert_eq!(session.count(), None);
    assert_eq!(calls::wipe(&mut []), 0);
}

/// A session on GENERATE AC, of a card with the list of this one rule.
fn on_cryptogram(code: u8) -> Session {
    let mut session = Session::new();
    let mut buffer = [0; COMMAND_SIZE];
    session.start(&TERMINAL, &mut buffer);
    let options = [0x80, 0x06, 0x10, 0x80, 0x08, 0x01, 0x01, 0x00, 0x90, 0x00];
    session.answer(&options, &mut buffer);
    let record = [
        0x70, 0x1A, 0x5F, 0x24, 0x03, 0x30, 0x12, 0x31, 0x5A, 0x02, 0x12, 0x34, 0x8C, 0x02, 0x95,
        0x05, 0x8E, 0x0A, 0, 0, 0, 0, 0, 0, 0, 0, code, 0x00, 0x90, 0x00,
    ];
    assert!(matches!(
        session.answer(&record, &mut buffer),
        Reply::Command([0x80, 0xAE, ..])
    ));
    session
}

#[test]
fn methods() {
    let mut buffer = [0; COMMAND_SIZE];
    for (code, method, text) in [
        (0x1F, Method::NoCvm, "no CVM"),
        (0x1E, Method::Signature, "signature"),
        (0x02, Method::OnlinePin, "online PIN"),
        (0x04, Method::OfflinePin, "offline PIN"),
    ] {
        let mut session = on_cryptogram(code);
        let result = if code == 0x1F { 0x02 } else { 0x00 };
        holds(&session, 0x9F34, &[code, 0x00, result]);
        let stopped = Reply::Outcome {
            outcome: Outcome::Ended,
            reason: 10,
            method,
        };
        assert_eq!(session.clone().stop(&mut buffer), stopped);
        let cryptogram = [
            0x80, 0x0B, 0x80, 0x00, 0x01, 1, 2, 3, 4, 5, 6, 7, 8, 0x90, 0x00,
        ];
        let online = Reply::Outcome {
            outcome: Outcome::OnlineRequest,
            reason: 0,
            method,
        };
        assert_eq!(session.answer(&cryptogram, &mut buffer), online);
        assert_eq!(method.to_string(), text);
    }
    assert_eq!(Method::NotApplicable.to_string(), "not applicable");
}

#[test]
fn phones() {
    let mut buffer = [0; COMMAND_SIZE];
    // The amount is above the limit for verification, and then it is not.
    for (amount, results, method) in [
        (0x26, [0x01, 0x00, 0x02], Method::ConfirmationCodeVerified),
        (0x25, [0x3F, 0x00, 0x02], Method::NoCvm),
    ] {
        let mut session = Session::new();
        let mut terminal = TERMINAL;
        terminal[15..17].copy_from_slice(&[amount, 0x00]);
        session.start(&terminal, &mut buffer);
        let options = [0x80, 0x06, 0x02, 0x80, 0x08, 0x01, 0x01, 0x00, 0x90, 0x00];
        session.answer(&options, &mut buffer);
        // 1,000,000 in binary.
        assert_eq!(session.as_bytes()[6..14], [0, 0, 0, 0, 0, 0x0F, 0x42, 0x40]);
        let record = [
            0x70, 0x0E, 0x5F, 0x24, 0x03, 0x30, 0x12, 0x31, 0x5A, 0x02, 0x12, 0x34, 0x8C, 0x02,
            0x95, 0x05, 0x90, 0x00,
        ];
        session.answer(&record, &mut buffer);
        holds(&session, 0x9F34, &results);
        let stopped = Reply::Outcome {
            outcome: Outcome::Ended,
            reason: 10,
            method,
        };
        assert_eq!(session.stop(&mut buffer), stopped);
        assert_eq!(session.as_bytes()[6..14], [0; 8]);
    }
    let method = Method::ConfirmationCodeVerified;
    assert_eq!(method.to_string(), "confirmation code verified");
}

#[test]
fn old_magnetic_stripe_card() {
    let mut session = Session::new();
    let mut buffer = [0; COMMAND_SIZE];
    session.start(&TERMINAL, &mut buffer);
    let options = [0x80, 0x06, 0x00, 0x00, 0x08, 0x01, 0x01, 0x00, 0x90, 0x00];
    session.answer(&options, &mut buffer);
    let record = [
        0x70, 0x24, 0x9F, 0x6B, 0x13, 0x54, 0x13, 0x12, 0x34, 0x56, 0x78, 0x48, 0x00, 0xD2, 0x51,
        0x21, 0x01, 0, 0, 0, 0, 0, 0, 0x0F, 0x9F, 0x65, 0x02, 0x00, 0x0E, 0x9F, 0x66, 0x02, 0x0F,
        0xF0, 0x9F, 0x67, 0x01, 0x04, 0x90, 0x00,
    ];
    let command = [0x80, 0x2A, 0x8E, 0x80, 0x04, 0x00, 0x00, 0x34, 0x56, 0x00];
    assert_eq!(
        session.answer(&record, &mut buffer),
        Reply::Command(&command)
    );
    assert_eq!(session.explain(), Explanation::NoChoice);
    let answer = [
        0x77, 0x0A, 0x9F, 0x36, 0x02, 0x00, 0x2A, 0x9F, 0x61, 0x02, 0x1F, 0x35, 0x90, 0x00,
    ];
    let online = Reply::Outcome {
        outcome: Outcome::OnlineRequest,
        reason: 0,
        method: Method::NotApplicable,
    };
    assert_eq!(session.answer(&answer, &mut buffer), online);
    assert_eq!(session.explain(), Explanation::NoChoice);
    let track = [
        0x54, 0x13, 0x12, 0x34, 0x56, 0x78, 0x48, 0x00, 0xD2, 0x51, 0x21, 0x01, 0x00, 0x04, 0x23,
        0x45, 0x69, 0x89, 0x4F,
    ];
    holds(&session, 0x9F6B, &track);
}

#[test]
fn found_in_card_bytes() {
    let answer = [
        0x6F, 0x0B, 0x84, 0x02, 0x41, 0x42, 0xA5, 0x05, 0x50, 0x00, 0x50, 0x01, 0x43,
    ];
    assert_eq!(find(&answer, 0x84), Found::Value(&[0x41, 0x42]));
    assert_eq!(find(&answer, 0x50), Found::Value(&[])); // the first of two
    assert_eq!(find(&answer, 0xA5), Found::Value(&answer[8..]));
    assert_eq!(find(&answer, 0x4F), Found::Absent);
    assert_eq!(find(&[], 0x4F), Found::Absent);
    assert_eq!(find(&answer[..12], 0x84), Found::Malformed);
    let five = [0xE1, 0x08, 0xE1, 0x06, 0xE1, 0x04, 0xE1, 0x02, 0xE1, 0x00];
    assert_eq!(find(&five[2..], 0xE2), Found::Absent);
    assert_eq!(find(&five, 0xE1), Found::Malformed);
    assert_eq!(find(&[0x50; 65_536], 0x50), Found::Malformed);
    let padded = [0x6F, 0x07, 0x00, 0x84, 0x01, 0x41, 0x00, 0x50, 0x00];
    assert_eq!(find(&padded, 0x84), Found::Value(&[0x41]));
    assert_eq!(find(&padded, 0x50), Found::Value(&[]));
    assert_eq!(find(&[0x6F, 0x01, 0xFF], 0x6F), Found::Malformed);
}

#[test]
fn version_of_the_layout() {
    let version = version();
    assert_eq!(version.layout, Session::new().as_bytes()[0]);
    let expected = Version {
        major: 0,
        minor: 1,
        patch: 0,
        layout: 5,
    };
    assert_eq!(version, expected);
}

/// A session on GENERATE AC at a terminal of this type with these denial and online codes, of a card with more objects
/// after expiry date, PAN and CDOL1.
fn on_choice(kind: u8, denial: u8, online: u8, more: &[u8]) -> Session {
    let mut terminal = TERMINAL;
    for (tag, value) in [
        (&[0x9F, 0x35, 0x01][..], kind),
        (&[0xDF, 0x81, 0x21, 0x05], denial),
        (&[0xDF, 0x81, 0x22, 0x05], online),
    ] {
        let at = terminal.windows(tag.len()).position(|part| part == tag);
        terminal[at.unwrap() + tag.len()] = value;
    }
    let mut session = Session::new();
    let mut buffer = [0; COMMAND_SIZE];
    session.start(&terminal, &mut buffer);
    let options = [0x80, 0x06, 0x00, 0x80, 0x08, 0x01, 0x01, 0x00, 0x90, 0x00];
    session.answer(&options, &mut buffer);
    let mut record = vec![0x70, 0x0E + more.len() as u8];
    record.extend([0x5F, 0x24, 0x03, 0x30, 0x12, 0x31, 0x5A, 0x02, 0x12, 0x34]);
    record.extend([0x8C, 0x02, 0x95, 0x05]);
    record.extend(more);
    record.extend([0x90, 0x00]);
    assert!(matches!(
        session.answer(&record, &mut buffer),
        Reply::Command([0x80, 0xAE, ..])
    ));
    session
}

#[test]
fn explanations() {
    let online_code = [0x9F, 0x0F, 0x05, 0, 0, 0, 0, 0];
    let denial_code = [0x9F, 0x0E, 0x05, 0x80, 0, 0, 0, 0];
    let forced = |stage, holder| Explanation::Forced {
        stage,
        bit: 0,
        holder,
    };
    for (kind, denial, online, more, explanation) in [
        (0x22, 0, 0, &[][..], forced(Stage::Online, Holder::Card)),
        (0x22, 0, 0x80, &[], forced(Stage::Online, Holder::Both)),
        (
            0x22,
            0,
            0x80,
            &online_code,
            forced(Stage::Online, Holder::Terminal),
        ),
        (
            0x22,
            0,
            0,
            &online_code,
            Explanation::Unforced(Stage::Online),
        ),
        (0x21, 0, 0, &[], Explanation::Unforced(Stage::OnlineOnly)),
        (0x23, 0, 0, &[], forced(Stage::Default, Holder::Card)),
        (
            0x21,
            0,
            0,
            &denial_code,
            forced(Stage::Denial, Holder::Card),
        ),
        (
            0x22,
            0x80,
            0,
            &denial_code,
            forced(Stage::Denial, Holder::Both),
        ),
    ] {
        let session = on_choice(kind, denial, online, more);
        assert_eq!(session.explain(), explanation);
    }

    let mut buffer = [0; COMMAND_SIZE];
    let mut session = on_choice(0x22, 0, 0, &online_code);
    let cryptogram = [
        0x80, 0x0B, 0x80, 0x00, 0x01, 1, 2, 3, 4, 5, 6, 7, 8, 0x90, 0x00,
    ];
    session.answer(&cryptogram, &mut buffer);
    assert_eq!(session.explain(), Explanation::LowerCryptogram);
    let mut session = on_choice(0x22, 0, 0, &[]);
    session.stop(&mut buffer);
    assert_eq!(session.explain(), Explanation::Reason(10));
    session.wipe();
    assert_eq!(session.explain(), Explanation::Refused(25));
    assert_eq!(calls::explain(&[]), 0x0002_0000 + 25);
}

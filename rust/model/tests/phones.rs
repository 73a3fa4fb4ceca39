//! On-device CVM and its own limit (document 02, Item 8): the transaction limit, and the CVM on the device.

mod common;

use common::{change, hex, is_command, outcome, refused, Host};
use common::{CONFIRMATION_CODE, NOT_APPLICABLE, NO_CVM, ONLINE_PIN, SIGNATURE};
use model::cvm::select;
use model::dictionary::Object;
use model::store::Store;
use model::{HEAD_SIZE, NO_COUNT, STORE_SIZE};

/// The objects of a plain store at a reader that supports verification on the device.
const PLAIN: [&str; 9] = [
    "82 1080",
    "9C 00",
    "9F02 000000001234",
    "9F33 E068C8",
    "9F35 22",
    "5F2A 0056",
    "9F42 0056",
    "DF8126 000000001000",
    "DF811B 20",
];

/// A list of one rule after amounts of zero.
const ONLINE_PIN_LIST: &str = "8E 00000000000000004200";
const SIGNATURE_LIST: &str = "8E 00000000000000005E00";

/// 9F34, the bytes 1 and 3 of the bits added to 95, and the CVM's number.
fn selected(changes: &[&str]) -> (String, u8, u8, u32) {
    let mut store: Store = [0; STORE_SIZE];
    change(&mut store, &PLAIN);
    change(&mut store, changes);
    let selection = select(&store);
    let results = selection.results.map(|byte| format!("{byte:02X}")).concat();
    let [first, second, third, fourth, fifth] = selection.bits;
    assert_eq!((second, fourth, fifth), (0, 0, 0));
    (results, first, third, selection.method as u32)
}

fn gives(results: &str, third: u8, method: u32) -> (String, u8, u8, u32) {
    (results.into(), 0, third, method)
}

#[test]
fn methods() {
    let none = gives("3F0002", 0, NO_CVM);
    let verified = gives("010002", 0, CONFIRMATION_CODE);
    let at = |limit: &str, changes: &[&str]| {
        let limit = format!("DF8126 {limit}");
        selected(&[&[limit.as_str()], changes].concat())
    };
    let with_list = ["82 1280", ONLINE_PIN_LIST];
    assert_eq!(at("000000001234", &with_list), none);
    assert_eq!(at("000000001233", &with_list), verified);
    assert_eq!(at("000000000000", &["82 0280"]), verified);
    assert_eq!(at("999999999999", &["82 1280"]), none);
    assert_eq!(at("000000001235", &with_list), none);
    let other_bits = ["82 1280", "DF811B DF", ONLINE_PIN_LIST];
    assert_eq!(selected(&other_bits), gives("420000", 0x04, ONLINE_PIN));
    let other_bits = ["82 FD80", "DF811B FF", SIGNATURE_LIST];
    assert_eq!(selected(&other_bits), gives("5E0000", 0x00, SIGNATURE));
}

/// One of the two bits alone is no on-device CVM; all other bits count for nothing.
#[test]
fn both_bits() {
    for profile in 0..=255u8 {
        for configuration in [0x00, 0x20, 0xDF, 0xFF, 0xA0, 0x30] {
            let changes = [
                format!("82 {profile:02X}80"),
                format!("DF811B {configuration:02X}"),
            ];
            let changes = [&changes[0], &changes[1], "DF8126 000000001233"];
            let phone = profile & 0x02 != 0 && configuration & 0x20 != 0;
            for list in [&[][..], &[ONLINE_PIN_LIST], &[SIGNATURE_LIST]] {
                let (results, first, third, method) = selected(&[&changes, list].concat());
                let verified = (results.as_str(), method) == ("010002", CONFIRMATION_CODE);
                assert_eq!(verified, phone, "{profile:02X} {configuration:02X}");
                assert!(!phone || (first, third) == (0, 0));
            }
        }
    }
}

/// A session past GPO of this AIP, with one record to come.
fn reading(profile: &str, changes: &[&str]) -> Host {
    Host::reading_card(changes, profile, "08010100")
}

/// Content of a record that allows the purchase; its CDOL1 requests 9F34 and 95.
const RECORD: &str = "5F24 03 491231 5A 02 1234 8C 05 9F3403 9505";

/// What the answer to the last record gives.
fn after_record(profile: &str, changes: &[&str]) -> u32 {
    reading(profile, changes).record(RECORD)
}

const NINES: &str = "999999999999";

#[test]
fn the_limit_decides() {
    let at = |profile: &str, configuration: &str, limit: &str, device: &str| {
        let changes = [
            format!("DF811B 01 {configuration}"),
            format!("DF8124 06 {limit}"),
            format!("DF8125 06 {device}"),
        ];
        after_record(profile, &[&changes[0], &changes[1], &changes[2]])
    };
    let above = outcome(NOT_APPLICABLE, 4, 6);
    assert_eq!(at("1280", "20", NINES, "000000001233"), above);
    assert!(is_command(at("1280", "20", "000000001233", "000000001234")));
    assert_eq!(at("1080", "20", "000000001233", NINES), above);
    assert!(is_command(at("1280", "DF", "000000001234", "000000000000")));
    assert_eq!(at("1280", "DF", "000000001233", NINES), above);
    assert_eq!(at("FD80", "FF", "000000001233", NINES), above);
}

/// Start objects that make the two limits differ.
const LIMITS: [&str; 3] = [
    "DF811B 01 20",
    "DF8124 06 000000100000",
    "DF8125 06 999999999999",
];

#[test]
fn the_record_holds_the_limit() {
    for (profile, limit) in [("1280", 999_999_999_999), ("1080", 100_000)] {
        let mut host = Host::started(&LIMITS);
        assert_eq!((host.head()[1], host.limit()), (1, 0));
        let answer = format!("80 0A {profile} 08010100 08020200 9000");
        assert_eq!(host.answer_hex(&answer), 5);
        assert_eq!(host.head(), [5, 2, 1, 0, 2, 0]);
        assert_eq!(host.limit(), limit);
        assert_eq!(host.record(RECORD), 5);
        assert_eq!((host.head()[2], host.limit()), (2, limit));
        let word = host.record("9F0F 05 0000000000");
        assert!(is_command(word));
        assert_eq!((host.head()[1], host.limit()), (3, limit));
        let mut stopped = Host {
            session: host.session.clone(),
            buffer: host.buffer.clone(),
        };
        assert!(!is_command(stopped.stop()));
        assert_eq!((stopped.head()[1], stopped.limit()), (4, 0));
        assert!(!is_command(
            host.answer_hex("80 0B 40 0001 1122334455667788 9000")
        ));
        assert_eq!((host.head()[1], host.limit()), (4, 0));
    }
    let host = reading("1280", &LIMITS);
    assert_eq!(host.session[6..HEAD_SIZE], hex("000000E8D4A50FFF"));
    // A fresh session, and one that ends at GPO.
    assert_eq!(Host::open().limit(), 0);
    let mut host = Host::started(&LIMITS);
    assert_eq!(
        host.answer_hex("80 06 1280 09010100 9000"),
        outcome(NOT_APPLICABLE, 3, 5)
    );
    assert_eq!((host.head()[1], host.limit()), (4, 0));
}

fn in_range(host: &Host) -> bool {
    let mut session = host.session.clone();
    model::stop(&mut session, &mut [0; 261]) != refused(25)
}

/// The sessions of every phase, with on-device CVM where there is a card.
fn phases() -> [Host; 5] {
    let generating = || {
        let mut host = reading("1280", &LIMITS);
        assert!(is_command(host.record(RECORD)));
        host
    };
    let mut ended = generating();
    assert!(!is_command(ended.stop()));
    [
        Host::open(),
        Host::started(&LIMITS),
        reading("1280", &LIMITS),
        generating(),
        ended,
    ]
}

#[test]
fn another_limit() {
    for (phase, mut host) in phases().into_iter().enumerate() {
        assert_eq!(usize::from(host.head()[1]), phase);
        assert!(in_range(&host));
        let right = host.limit();
        let count = host.count();
        for limit in [0, 1, 100_000, 999_999_999_998, 1_000_000_000_000, u64::MAX] {
            host.session[6..HEAD_SIZE].copy_from_slice(&limit.to_be_bytes());
            let holds = matches!(phase, 2 | 3);
            assert_eq!(in_range(&host), limit == right, "{phase}: {limit}");
            let known = holds || limit == 0;
            assert_eq!(host.count(), if known { count } else { NO_COUNT });
            if limit != right {
                assert_eq!(host.answer_hex("70 00 9000"), refused(25));
                assert_eq!(model::explain(&host.session), refused(25));
            }
        }
        for bit in 0..64 {
            host.session[6..HEAD_SIZE].copy_from_slice(&(right ^ 1 << bit).to_be_bytes());
            assert!(!in_range(&host));
        }
    }
}

/// The limit is correct by the store as it is, and two limits that are the same are one.
#[test]
fn another_store() {
    for phase in [2, 3] {
        for (changes, good) in [
            (&["82 1080"][..], false),
            (&["DF811B DF"], false),
            (&["82 1080", "DF811B 00"], false),
            (&["82 0280"], true),
            (&["82 FF80"], true),
            (&["DF811B 3F"], true),
            (&["DF8124 000000000000"], true),
            (&["DF8125 999999999998"], false),
            (&["82 1080", "DF8124 999999999999"], true),
            (&["DF811B 00", "DF8124 999999999999"], true),
            (&["DF811B 00", "DF8125 000000000000"], false),
        ] {
            let [_, _, mut on_record, mut on_cryptogram, _] = phases();
            let host = if phase == 2 {
                &mut on_record
            } else {
                &mut on_cryptogram
            };
            change(host.store_mut(), changes);
            assert_eq!(in_range(host), good, "{phase}: {changes:?}");
        }
    }
}

#[test]
fn what_the_session_says() {
    // Above the limit for verification, and not: 9F34 and 95 in the command, and the CVM in every end.
    for (required, results, method) in [
        ("000000001233", "010002", CONFIRMATION_CODE),
        ("000000001234", "3F0002", NO_CVM),
    ] {
        let required = format!("DF8126 06 {required}");
        let generating = || {
            let mut host = reading("1280", &["DF811B 01 20", &required]);
            assert_eq!(host.record(RECORD), 14);
            host
        };
        let host = generating();
        let command = format!("80AE8000 08 {results} 8000000000 00");
        assert_eq!(host.buffer[..14], hex(&command));
        assert_eq!(host.get(Object::CvmResults), Some(&hex(results)[..]));
        assert_eq!(host.head(), [5, 3, 0x80, 0, 3, method as u8]);
        for (answer, kind, reason) in [
            ("80 0B 80 0001 1122334455667788 9000", 1, 0),
            ("80 0B 00 0001 1122334455667788 9000", 2, 0),
            ("6985", 3, 1),
            ("77 00 00 9000", 3, 2),
            ("77 04 82 02 0080 9000", 3, 3),
            ("77 00 9000", 3, 4),
            ("80 0B 40 0001 1122334455667788 9000", 3, 8),
        ] {
            let word = generating().answer_hex(answer);
            assert_eq!(word, outcome(method, kind, reason));
        }
        assert_eq!(generating().link_failed(), outcome(method, 3, 9));
        assert_eq!(generating().stop(), outcome(method, 3, 10));
        // A broken CDOL1 comes after the choice of the CVM.
        let mut host = reading("1280", &["DF811B 01 20", &required]);
        let word = host.record("5F24 03 491231 5A 02 1234 8C 01 95");
        assert_eq!(word, outcome(method, 3, 7));
        assert_eq!(host.get(Object::CvmResults), Some(&hex(results)[..]));
    }
}

/// The on-device CVM is held, and reported as held.
#[test]
fn held_method() {
    let mut host = Host::generating(&[], "5F24 03 491231 5A 02 1234 8C 02 9505");
    host.session[5] = 3;
    assert_eq!(host.link_failed(), outcome(CONFIRMATION_CODE, 3, 9));
}

#[test]
fn objects_from_the_card() {
    // Skipped whatever they are, as private objects of the terminal.
    for object in [
        "DF8125 06 000000000000",
        "DF811B 01 00",
        "DF811B 00",
        "DF8125 02 FFFF",
    ] {
        let mut host = reading("1280", &LIMITS);
        assert!(is_command(host.record(&format!("{object} {RECORD}"))));
        let limit = host.get(Object::TransactionLimitOnDevice);
        assert_eq!(limit, Some(&hex(NINES)[..]));
        assert_eq!(host.get(Object::KernelConfiguration), Some(&[0x20][..]));
    }
    // A DOL fills from them.
    let record = RECORD.replace("8C 05 9F3403 9505", "8C 08 DF811B01 DF812506");
    let mut host = reading("1280", &LIMITS);
    assert!(is_command(host.record(&record)));
    assert_eq!(host.buffer[4..13], hex("07 20 999999999999 00"));
}

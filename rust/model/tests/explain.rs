//! Why a choice was made (document 02, Item 7).

mod common;

use common::{change, decided, hex, is_command, outcome, refused, Draw, Host};
use common::{NOT_APPLICABLE, NO_CVM};
use model::analysis::{self, Choice};
use model::dictionary::Object;
use model::explain::{Bit, Explanation, Holder, Stage};
use model::store;
use model::{explain, HEAD_SIZE, STORE_SIZE};

/// Start objects, those that later requests ask for included.
const TERMINAL: &str = "9A03251116 9C0100 9F0206000000001234 9F09020002 9F1A020056 9F350122
    9F370401020304 DF8120050000000000 DF8121050000000000 DF8122050000000000
    DF812306000000005000 DF812406000000010000 9F3303E0F8C8 DF812606000000002500
    DF812506000000020000 DF811B0100 9F6A0400000012";

const DECLINE: u8 = 0x00;
const OFFLINE: u8 = 0x40;
const ONLINE: u8 = 0x80;

const APPROVED: u8 = 0;
const ONLINE_REQUEST: u8 = 1;
const DECLINED: u8 = 2;

/// The words.
const REFUSED: u32 = 0x0002_0000 + 25;
const NO_CHOICE: u32 = 0x0004_0000;
const LOWER: u32 = 0x0005_0000;

fn by_reason(reason: u32) -> u32 {
    0x0003_0000 + reason
}

/// A stage with the bit that forced the choice.
fn forced(stage: Stage, number: u8, holder: Holder) -> u32 {
    explain::word(Ok(Explanation::Decided(
        stage,
        Some(Bit { number, holder }),
    )))
}

/// A stage that decided without a bit.
fn unforced(stage: Stage) -> u32 {
    explain::word(Ok(Explanation::Decided(stage, None)))
}

/// A session that waits on a record.
fn on_record() -> Host {
    let mut host = Host::open();
    assert!(is_command(host.start(&hex(TERMINAL))));
    assert_eq!(host.answer_hex("80 06 0080 08010200 9000"), 5);
    host
}

/// A session that waits on GENERATE AC: 95 is 80 00 00 00 00, and online is requested.
fn on_cryptogram() -> Host {
    let mut host = on_record();
    assert_eq!(host.record("5F24 03 301231 5A 08 4761739001010010"), 5);
    assert!(is_command(host.record("8C 02 9505")));
    assert_eq!(
        host.get(Object::VerificationResults),
        Some(&hex("8000000000")[..])
    );
    assert_eq!(host.get(Object::CvmResults), Some(&hex("3F0000")[..]));
    assert_eq!(host.session[1..6], [3, ONLINE, 0, 4, 0]);
    host
}

/// What is said of a session on GENERATE AC with this choice and these changes.
fn waiting(choice: u8, changes: &[&str]) -> u32 {
    let mut host = on_cryptogram();
    host.session[2] = choice;
    change(host.store_mut(), changes);
    said(&host)
}

/// What is said of a session that ended with reason 0, this outcome, 9F36 and 9F26 and these changes.
fn ended(outcome: u8, changes: &[&str]) -> u32 {
    let mut host = on_cryptogram();
    end(&mut host, outcome, 0);
    change(host.store_mut(), &["9F36 0001", "9F26 0102030405060708"]);
    change(host.store_mut(), changes);
    said(&host)
}

/// Makes a record one of an ended session.
fn end(host: &mut Host, outcome: u8, reason: u8) {
    host.session[1..4].copy_from_slice(&[4, outcome, reason]);
    host.session[5..HEAD_SIZE].fill(0);
}

/// The word for a session, whatever bytes are after its record.
fn said(host: &Host) -> u32 {
    let word = model::explain(&host.session);
    let mut longer = host.session.clone();
    longer.extend([0x55; 7]);
    assert_eq!(model::explain(&longer), word);
    word
}

#[test]
fn words() {
    assert_eq!(forced(Stage::Online, 0, Holder::Card), 0x0006_3100);
    assert_eq!(forced(Stage::Denial, 9, Holder::Terminal), 0x0006_0209);
    assert_eq!(forced(Stage::Default, 39, Holder::Both), 0x0006_2327);
    assert_eq!(unforced(Stage::OnlineOnlyType), 0x0006_10FF);
    assert_eq!(unforced(Stage::Online), 0x0006_30FF);
}

#[test]
fn stages_of_a_waiting_session() {
    let online_card = forced(Stage::Online, 0, Holder::Card);
    assert_eq!(waiting(ONLINE, &[]), online_card);
    assert_eq!(
        waiting(OFFLINE, &["9F0F 0000000000"]),
        unforced(Stage::Online)
    );
    assert_eq!(waiting(OFFLINE, &[]), REFUSED);
    assert_eq!(
        waiting(
            ONLINE,
            &["95 8040000000", "9F0F 0000000000", "DF8122 0040000000"]
        ),
        forced(Stage::Online, 9, Holder::Terminal)
    );
    let denial = ["9F0E 0000008000", "DF8121 0040008000"];
    assert_eq!(
        waiting(DECLINE, &[&["95 8040008000"], &denial[..]].concat()),
        forced(Stage::Denial, 9, Holder::Terminal)
    );
    assert_eq!(
        waiting(DECLINE, &[&["95 8000008000"], &denial[..]].concat()),
        forced(Stage::Denial, 24, Holder::Both)
    );
    assert_eq!(
        waiting(ONLINE, &["9F35 21"]),
        unforced(Stage::OnlineOnlyType)
    );
    assert_eq!(
        waiting(DECLINE, &["9F35 23"]),
        forced(Stage::Default, 0, Holder::Card)
    );
    let codes = ["9F0D 0000000001", "DF8120 0000000001"];
    assert_eq!(
        waiting(
            DECLINE,
            &[&["9F35 26", "95 8000000001"], &codes[..]].concat()
        ),
        forced(Stage::Default, 39, Holder::Both)
    );
    assert_eq!(
        waiting(OFFLINE, &["9F35 36", "9F0D 7FFFFFFFFF"]),
        unforced(Stage::Default)
    );
}

/// A denial bit is found whatever the type; the codes of stages that are not consulted say nothing.
#[test]
fn stages_in_order() {
    for kind in ["11", "21", "22", "23", "24", "25", "26", "34", "36"] {
        let kind = format!("9F35 {kind}");
        let changes = ["DF8121 8000000000", "DF8120 FFFFFFFFFF", &kind];
        assert_eq!(
            waiting(DECLINE, &changes),
            forced(Stage::Denial, 0, Holder::Terminal)
        );
    }
    // A lower bit of another stage's codes is not named.
    let changes = ["95 8000000001", "9F0F 0000000001", "9F0D 8000000000"];
    assert_eq!(
        waiting(ONLINE, &changes),
        forced(Stage::Online, 39, Holder::Card)
    );
    let changes = ["95 0000000002", "9F0F 0000000001", "9F0D FFFFFFFFFF"];
    assert_eq!(waiting(OFFLINE, &changes), unforced(Stage::Online));
    // 95 may be zero.
    assert_eq!(
        waiting(OFFLINE, &["95 0000000000"]),
        unforced(Stage::Online)
    );
}

/// Each bit, with each holder, in each stage that has codes.
#[test]
fn every_bit() {
    for number in 0..40u8 {
        let bit = 1u64 << (39 - number);
        // Bits after the first one, held as well.
        let behind = bit - 1;
        for (stage, kind, card, terminal, choice) in [
            (Stage::Denial, "22", "9F0E", "DF8121", DECLINE),
            (Stage::Default, "23", "9F0D", "DF8120", DECLINE),
            (Stage::Online, "25", "9F0F", "DF8122", ONLINE),
        ] {
            for (holder, of_card, of_terminal) in [
                (Holder::Card, bit | behind, behind),
                (Holder::Terminal, behind, bit),
                (Holder::Both, bit, bit),
            ] {
                let changes = [
                    format!("9F35 {kind}"),
                    format!("95 {:010X}", bit | behind),
                    format!("{card} {of_card:010X}"),
                    format!("{terminal} {of_terminal:010X}"),
                ];
                let changes: Vec<&str> = changes.iter().map(String::as_str).collect();
                assert_eq!(waiting(choice, &changes), forced(stage, number, holder));
            }
        }
    }
}

/// A running session that holds another choice than its store gives.
#[test]
fn another_choice() {
    for (choice, changes, right) in [
        (ONLINE, &[][..], forced(Stage::Online, 0, Holder::Card)),
        (OFFLINE, &["9F0F 0000000000"], unforced(Stage::Online)),
        (
            DECLINE,
            &["DF8121 8000000000"],
            forced(Stage::Denial, 0, Holder::Terminal),
        ),
    ] {
        for held in [DECLINE, OFFLINE, ONLINE] {
            let expected = if held == choice { right } else { REFUSED };
            assert_eq!(waiting(held, changes), expected, "{held:02X}");
        }
    }
}

#[test]
fn outcomes() {
    let online_card = forced(Stage::Online, 0, Holder::Card);
    assert_eq!(ended(ONLINE_REQUEST, &["9F27 80"]), online_card);
    assert_eq!(ended(DECLINED, &["9F27 00"]), LOWER);
    let zero = "9F0F 0000000000";
    assert_eq!(ended(ONLINE_REQUEST, &[zero, "9F27 80"]), LOWER);
    assert_eq!(ended(DECLINED, &[zero, "9F27 3F"]), LOWER);
    assert_eq!(ended(APPROVED, &[zero, "9F27 40"]), unforced(Stage::Online));
    assert_eq!(ended(APPROVED, &[zero, "9F27 7F"]), unforced(Stage::Online));
    assert_eq!(ended(APPROVED, &["9F27 40"]), REFUSED);
    assert_eq!(ended(DECLINED, &["9F27 80"]), REFUSED);
    for absent in ["9F27", "DF8122", "95"] {
        assert_eq!(ended(ONLINE_REQUEST, &["9F27 80", absent]), REFUSED);
    }
    // A declined choice that the card declined.
    let denied = ["DF8121 8000000000", "9F27 00"];
    let by_terminal = forced(Stage::Denial, 0, Holder::Terminal);
    assert_eq!(ended(DECLINED, &denied), by_terminal);
    for outcome in [APPROVED, ONLINE_REQUEST] {
        assert_eq!(ended(outcome, &denied), REFUSED);
    }
    assert_eq!(
        ended(ONLINE_REQUEST, &["9F35 21", "9F27 80"]),
        unforced(Stage::OnlineOnlyType)
    );
    assert_eq!(ended(DECLINED, &["9F35 21", "9F27 00"]), LOWER);
    // C0 gives no outcome on any choice.
    for outcome in [APPROVED, ONLINE_REQUEST, DECLINED] {
        for changes in [
            &["9F27 C0"][..],
            &[zero, "9F27 C0"],
            &["9F35 23", "9F27 C0"],
        ] {
            assert_eq!(ended(outcome, changes), REFUSED);
        }
    }
}

/// Only what a consulted stage needs must be present.
#[test]
fn what_may_be_absent() {
    let denied = |absent: &str| ended(DECLINED, &["DF8121 8000000000", "9F27 00", absent]);
    let by_terminal = forced(Stage::Denial, 0, Holder::Terminal);
    for absent in ["9F35", "DF8120", "DF8122", "9F26", "9F36", "9F34", "82"] {
        assert_eq!(denied(absent), by_terminal, "{absent}");
    }
    for absent in ["95", "DF8121", "9F27"] {
        assert_eq!(denied(absent), REFUSED, "{absent}");
    }
    // By the terminal type: online only, default, online.
    for (kind, outcome, information, needed, right) in [
        ("21", 1, "80", "", unforced(Stage::OnlineOnlyType)),
        (
            "23",
            2,
            "00",
            "DF8120",
            forced(Stage::Default, 0, Holder::Card),
        ),
        (
            "22",
            1,
            "80",
            "DF8122",
            forced(Stage::Online, 0, Holder::Card),
        ),
    ] {
        for absent in ["DF8120", "DF8121", "DF8122", "9F35", "95"] {
            let kind = format!("9F35 {kind}");
            let information = format!("9F27 {information}");
            let expected = match absent {
                "DF8121" | "9F35" | "95" => REFUSED,
                _ if absent == needed => REFUSED,
                _ => right,
            };
            assert_eq!(ended(outcome, &[&kind, &information, absent]), expected);
        }
    }
    // Types that end otherwise, and types outside the list that do not.
    for digit in 0..10 {
        let kind = format!("9F35 4{digit}");
        let (outcome, information, right) = match digit {
            1 | 4 => (1, "9F27 80", unforced(Stage::OnlineOnlyType)),
            2 | 5 => (1, "9F27 80", forced(Stage::Online, 0, Holder::Card)),
            3 | 6 => (2, "9F27 00", forced(Stage::Default, 0, Holder::Card)),
            _ => (2, "9F27 00", REFUSED),
        };
        assert_eq!(ended(outcome, &[&kind, information]), right, "{kind}");
    }
    // The type is not asked where a denial bit decides.
    assert_eq!(denied("9F35 40"), by_terminal);
}

#[test]
fn sessions_without_a_choice() {
    let mut host = Host::open();
    assert_eq!(said(&host), NO_CHOICE);
    assert!(is_command(host.start(&hex(TERMINAL))));
    assert_eq!(said(&host), NO_CHOICE);
    let mut host = on_record();
    assert_eq!(said(&host), NO_CHOICE);
    assert_eq!(host.link_failed(), outcome(NOT_APPLICABLE, 3, 9));
    assert_eq!(said(&host), by_reason(9));
    // Above the limit, and a type of cryptogram that was not requested.
    let mut host = Host::reading(&["DF8124 06 000000001233"], "08010100");
    assert_eq!(host.record(""), outcome(NOT_APPLICABLE, 4, 6));
    assert_eq!(said(&host), by_reason(6));
    host.session[2] = 3;
    assert_eq!(said(&host), REFUSED);
    let mut host = on_cryptogram();
    let word = host.answer_hex("80 0B 40 0001 1122334455667788 9000");
    assert_eq!(word, outcome(NO_CVM, 3, 8));
    assert_eq!(said(&host), by_reason(8));
    // The reason is given whatever else is missing.
    for (reason, kind) in (1..=11).map(|reason| (reason, if reason == 6 { 4 } else { 3 })) {
        let mut host = on_cryptogram();
        end(&mut host, kind, reason);
        change(host.store_mut(), &["95", "DF8121", "9F35"]);
        assert_eq!(said(&host), by_reason(reason.into()));
    }
}

#[test]
fn bytes_that_hold_no_record_in_its_ranges() {
    for length in [0, 1, HEAD_SIZE, HEAD_SIZE + STORE_SIZE - 1] {
        assert_eq!(model::explain(&on_cryptogram().session[..length]), REFUSED);
    }
    assert_eq!(model::explain(&[0; 2000]), REFUSED);
    // The ranges of each phase come first.
    for changes in [
        &["9F34"][..],
        &["9F35"],
        &["DF8120"],
        &["9F27 80"],
        &["5A"],
        &["82 0000"],
    ] {
        assert_eq!(waiting(ONLINE, changes), REFUSED, "{changes:?}");
    }
    let mut host = on_cryptogram();
    host.session[4] += 1;
    assert_eq!(said(&host), REFUSED);
    let mut host = on_record();
    change(host.store_mut(), &["95 8000000000"]);
    assert_eq!(said(&host), REFUSED);
    let mut host = on_cryptogram();
    host.session[2] = 0xC0;
    assert_eq!(said(&host), REFUSED);
}

/// An action code that comes with the answer to GENERATE AC is read as the final store has it.
#[test]
fn codes_behind_the_choice() {
    let mut host = Host::open();
    assert!(is_command(host.start(&hex(TERMINAL))));
    assert_eq!(host.answer_hex("8006008008010100 9000"), 5);
    let record = "701C 5F2403301231 5A084761739001010010 8C029505 9F0F050000000000 9000";
    assert!(is_command(host.answer_hex(record)));
    assert_eq!(said(&host), unforced(Stage::Online));
    let cryptogram = "9F270140 9F36020001 9F26080102030405060708";
    let answer = format!("771E {cryptogram} 7008 9F0E058000000000 9000");
    assert_eq!(host.answer_hex(&answer), decided(0));
    assert_eq!(said(&host), REFUSED);
}

/// An action code of no bits, all bits or one.
fn drawn_code(draw: &mut Draw) -> String {
    let bit: u64 = 1 << draw.below(40);
    let bits = draw.pick(&[0, 0, (1 << 40) - 1, bit, bit]);
    format!("{bits:010X}")
}

/// The choice that is recomputed is the session's own, on drawn stores that lack nothing.
#[test]
fn the_same_choice() {
    let mut draw = Draw(0x2545_F491);
    let mut choices = [0; 3];
    for _ in 0..5000 {
        let mut host = on_cryptogram();
        let store = host.store_mut();
        for tag in ["95", "DF8120", "DF8121", "DF8122"] {
            change(store, &[&format!("{tag} {}", drawn_code(&mut draw))]);
        }
        for tag in ["9F0D", "9F0E", "9F0F"] {
            if draw.below(2) == 0 {
                change(store, &[&format!("{tag} {}", drawn_code(&mut draw))]);
            }
        }
        let kind = draw.pick(&[
            "9F35 11", "9F35 22", "9F35 23", "9F35 34", "9F35 35", "9F35 36",
        ]);
        change(store, &[kind]);
        let bits = store::get_fixed(store, Object::VerificationResults).expect("95 is there");
        let choice = analysis::choice(store, bits);
        choices[choice as usize] += 1;
        for held in [Choice::Decline, Choice::Offline, Choice::Online] {
            host.session[2] = held.p1();
            assert_eq!(said(&host) == refused(25), held != choice);
        }
    }
    assert!(choices.iter().all(|&count| count > 500), "{choices:?}");
}

//! Every row of document 01's bench table.

mod common;

use common::{hex, Host};
use model::dictionary::Object;
use model::dol;
use model::reading::AnswerTo;
use model::store::{self, Store};
use model::STORE_SIZE;

/// Reads a record's body into an empty store: reason, count, store.
fn read(body: &str) -> (u8, u32, Store) {
    let mut store = [0; STORE_SIZE];
    let mut answer = hex(body);
    answer.extend([0x90, 0x00]);
    let (reason, count) = model::read_answer(&mut store, AnswerTo::Record, 1, &answer);
    (reason, count, store)
}

const EMPTY: Store = [0; STORE_SIZE];

#[test]
fn empty_record() {
    assert_eq!(read("70 00"), (0, 1, EMPTY));
}

#[test]
fn version_stored() {
    let mut stored = EMPTY;
    store::put(&mut stored, Object::VersionCard, &[0x00, 0x02]);
    assert_eq!(read("70 05 9F 08 02 00 02"), (0, 2, stored));
}

#[test]
fn objects_not_allowed() {
    assert_eq!(read("70 03 95 01 00"), (3, 2, EMPTY));
    assert_eq!(read("70 07 A5 05 9F 08 02 00 02"), (3, 3, EMPTY));
    assert_eq!(read("70 04 82 02 19 80"), (3, 2, EMPTY));
}

#[test]
fn private_terminal_tag_skipped() {
    assert_eq!(read("70 05 DF 81 23 01 00"), (0, 2, EMPTY));
}

#[test]
fn indefinite_length_malformed() {
    assert_eq!(read("70 80 00 00"), (2, 0, EMPTY));
}

#[test]
fn levels() {
    assert_eq!(read("70 06 E1 04 E1 02 E1 00"), (0, 4, EMPTY));
    assert_eq!(read("70 08 E1 06 E1 04 E1 02 E1 00"), (2, 0, EMPTY));
}

#[test]
fn options_without_list() {
    let mut host = Host::open();
    let word = host.start(&common::start_with(&[]));
    assert_eq!(host.command(word), hex("80 A8 00 00 02 83 00 00"));
    let word = host.answer_hex("80 06 00 80 08 01 01 00 90 00");
    assert_eq!(host.command(word), hex("00 B2 01 0C 00"));
}

#[test]
fn filling() {
    let mut stored = EMPTY;
    store::put(&mut stored, Object::AmountAuthorised, &hex("000000001234"));
    store::put(&mut stored, Object::VerificationResults, &hex("8000008000"));
    let fill = |list: &str| {
        let list = hex(list);
        let mut out = vec![0xEE; dol::filled_length(&list).expect("a good list")];
        dol::fill(&stored, &list, &mut out);
        out
    };
    assert_eq!(fill("9F02 02"), hex("1234"));
    assert_eq!(fill("9F02 07"), hex("00 000000001234"));
    assert_eq!(fill("95 03"), hex("800000"));
    assert_eq!(fill("95 06"), hex("8000008000 00"));
}

/// The record of the rows on the choice; 95 becomes 80 00 00 00 00.
const RECORD: &str = "5F24 03 491231 5A 02 1234 8C 02 9505";

#[test]
fn choice_by_codes_and_type() {
    let host = Host::generating(&[], RECORD);
    assert_eq!(host.buffer[..11], hex("80 AE 80 00 05 80 00 00 00 00 00"));
    assert_eq!(
        host.get(Object::VerificationResults),
        Some(&hex("8000000000")[..])
    );

    let host = Host::generating(&[], &format!("{RECORD} 9F0F 05 0000000000"));
    assert_eq!(host.buffer[..5], hex("80 AE 40 00 05"));

    let host = Host::generating(&["9F35 01 23"], RECORD);
    assert_eq!(host.buffer[..5], hex("80 AE 00 00 05"));
}

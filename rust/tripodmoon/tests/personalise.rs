//! The wrapper of the card's side over the linked library.
#![cfg(feature = "personalise")]

use tripodmoon::personalise::{personalise, word, Refusal, LOCATOR_ROOM, RECORDS_ROOM};

const OBJECTS: [u8; 11] = [
    0x9F, 0x08, 0x02, 0x00, 0x02, // version
    0x5F, 0x24, 0x03, 0x49, 0x12, 0x31, // expiration date
];

const ENTRIES: [u8; 4] = [0x08, 0x01, 0x01, 0x00];

#[test]
fn written() {
    let mut records = vec![0xAA; RECORDS_ROOM + 3];
    let mut locator = vec![0xBB; LOCATOR_ROOM + 3];
    let placements = [1, 2, 1, 1];
    let written =
        personalise(&OBJECTS, &ENTRIES, &placements, &mut records, &mut locator).expect("accepted");
    assert_eq!(written.records[..2], [0x70, 0x0B]);
    assert_eq!(written.records[2..], OBJECTS);
    assert_eq!(written.locator, ENTRIES);
    assert!(records[13..].iter().all(|&byte| byte == 0xAA));
    assert!(locator[4..].iter().all(|&byte| byte == 0xBB));
    let word = word(&OBJECTS, &ENTRIES, &placements, &mut records, &mut locator);
    assert_eq!(word, 0x0000_0004_0000_000D);
}

#[test]
fn refused() {
    for (objects, entries, placements, rooms, refusal) in [
        (
            &OBJECTS[..],
            &ENTRIES[..],
            &[1, 1, 1, 2][..],
            (RECORDS_ROOM - 1, LOCATOR_ROOM - 1),
            Refusal::RecordsBuffer,
        ),
        (
            &OBJECTS,
            &ENTRIES,
            &[1, 1, 1, 2],
            (RECORDS_ROOM, LOCATOR_ROOM - 1),
            Refusal::LocatorBuffer,
        ),
        (
            &OBJECTS,
            &ENTRIES,
            &[1, 1],
            (RECORDS_ROOM, LOCATOR_ROOM),
            Refusal::List,
        ),
        (
            &OBJECTS,
            &ENTRIES[..3],
            &[1, 1, 1, 2],
            (RECORDS_ROOM, LOCATOR_ROOM),
            Refusal::Entry(1),
        ),
        (
            &OBJECTS,
            &ENTRIES,
            &[1, 1, 9, 2],
            (RECORDS_ROOM, LOCATOR_ROOM),
            Refusal::Record(9),
        ),
        (
            &[],
            &[],
            &[],
            (RECORDS_ROOM, LOCATOR_ROOM),
            Refusal::Entry(1),
        ),
    ] {
        let (mut records, mut locator) = (vec![7; rooms.0], vec![7; rooms.1]);
        let answer = personalise(objects, entries, placements, &mut records, &mut locator);
        assert_eq!(answer, Err(refusal));
        assert_eq!((records, locator), (vec![7; rooms.0], vec![7; rooms.1]));
    }
}

#[test]
fn words() {
    assert_eq!(
        Refusal::RecordsBuffer.to_string(),
        "records buffer shorter than 32,768 bytes"
    );
    assert_eq!(
        Refusal::Record(0).to_string(),
        "record 0: must be one of the locator's, hold objects of the list only, with at most 253 bytes of content"
    );
}

//! Old magnetic stripe cards (document 02, Item 9): the digits in the track, the mode, the checksum command
//! and its answer.

mod common;

use common::NOT_APPLICABLE;
use common::{change, decided, ended, hex, is_command, outcome, refused, start_with, Draw, Host};
use model::dictionary::{Object, REQUIRED_AT_START};
use model::journal::{check, write, Call, Verdict};
use model::mag_stripe::{places_in, Unsound};
use model::reading::AnswerTo;
use model::{HEAD_SIZE, NO_COUNT};

/// A track of thirteen discretionary digits and an F.
const TRACK: &str = "5413123456784800D25121010000000000000F";

/// The first nibbles of that track, up to the digits.
const FRONT: &str = "5413123456784800D2512101";

fn text(bytes: &[u8]) -> String {
    bytes.iter().map(|byte| format!("{byte:02X}")).collect()
}

fn number(text: &str) -> u16 {
    u16::from_str_radix(text, 16).expect("a hexadecimal number")
}

/// The track after the digits went in. The values are 9F65, 9F66, 9F67, 9F61, 9F6A and 9F36.
fn filled(track: &str, values: &str) -> Result<String, Unsound> {
    let values: Vec<&str> = values.split(' ').collect();
    let [code_places, other_places, digits, code, unpredictable, counter] = values[..] else {
        panic!("six values");
    };
    let digits = number(digits) as u8;
    let places = places_in(
        &hex(track),
        number(code_places),
        number(other_places),
        digits,
    )?;
    let unpredictable: [u8; 4] = hex(unpredictable).try_into().expect("four bytes");
    let (code, counter) = (number(code), number(counter));
    Ok(text(&places.filled_with(code, &unpredictable, counter)))
}

/// Whether a track has place for the digits: the values are 9F65, 9F66 and 9F67.
fn sound(track: &str, values: &str) -> Result<(), Unsound> {
    filled(track, &format!("{values} 0000 00000000 0000")).map(|_| ())
}

#[test]
fn digits() {
    for (track, values, expected) in [
        (
            TRACK,
            "000E 0FF0 04 1F35 00003456 002A",
            "5413123456784800D25121010004234569894F",
        ),
        (
            TRACK,
            "00FF 00FF 03 FFFF 98765432 FFFF",
            "5413123456784800D25121010000053565435F",
        ),
        (
            TRACK,
            "0FFF 0000 00 FFFF 00000000 0001",
            "5413123456784800D25121010000000065530F",
        ),
        (
            TRACK,
            "0000 1FFE 06 0000 98765432 FFFF",
            "5413123456784800D25121010655357654326F",
        ),
        (
            TRACK,
            "1E00 01FE 00 0007 98765432 FFFF",
            "5413123456784800D25121010007987654328F",
        ),
        (
            "541FD2512101987654F123",
            "0008 0006 01 0009 00000007 0003",
            "541FD2512101989371F123",
        ),
        (
            "5413123456784800D251210100000000000000",
            "0000 3FFE 05 0000 98765432 FFFF",
            "5413123456784800D251210165535987654328",
        ),
    ] {
        assert_eq!(filled(track, values).as_deref(), Ok(expected), "{values}");
    }
}

#[test]
fn places_of_the_masks() {
    for (track, values, cause) in [
        (TRACK, "0000 1FF0 00", Unsound::ManyPlaces),
        (TRACK, "0000 0FF0 09", Unsound::FewPlaces),
        (TRACK, "000E 2FF0 05", Unsound::NumberPlace),
        (TRACK, "2000 0000 00", Unsound::CodePlace),
        (
            "5413123456784800D251F10112345678901234",
            "0002 0004 00",
            Unsound::NoDigits,
        ),
    ] {
        assert_eq!(sound(track, values), Err(cause), "{values}");
    }
    // As many digits of the counter as places, and none of the number; eight of the number; 255 of the counter.
    assert_eq!(sound(TRACK, "0000 0FF0 08"), Ok(()));
    assert_eq!(sound(TRACK, "0000 0FF0 00"), Ok(()));
    assert_eq!(sound(TRACK, "0000 1FF0 01"), Ok(()));
    assert_eq!(sound(TRACK, "0000 1FFF FF"), Err(Unsound::FewPlaces));
    assert_eq!(sound(TRACK, "0000 0000 00"), Ok(()));
    assert_eq!(sound(TRACK, "0000 0000 01"), Err(Unsound::FewPlaces));
    // Every place to the thirteenth is one, and none after it.
    for place in 1..=16 {
        let mask = format!("{:04X}", 1 << (place - 1));
        let good = place <= 13;
        assert_eq!(sound(TRACK, &format!("{mask} 0000 00")).is_ok(), good);
        assert_eq!(sound(TRACK, &format!("0000 {mask} 01")).is_ok(), good);
    }
}

#[test]
fn where_the_digits_stand() {
    for (track, digits) in [
        // No D; a D with nothing, six, seven and eight nibbles after it.
        ("5413251210100F", 0),
        ("541D", 0),
        ("541D251210", 0),
        ("5D2512101F", 0),
        ("54D2512101", 0),
        ("5D25121010", 1),
        // An F before the D, among the seven, and immediately after them.
        ("5F1D25121010", 1),
        ("F1D251210123", 2),
        ("54D25F210123", 0),
        ("54DF5121012345", 0),
        ("54D251210F2345", 0),
        ("54D2512101F345", 0),
        ("54D25121013F45", 1),
        // The first of two Fs, and no F.
        ("54D251210134F6F8", 2),
        ("54D251210134FF", 2),
        ("54D2512101345678", 6),
        // The first of two Ds, among the seven and among the digits; digits that are none.
        ("54D2D121013456", 4),
        ("54D2512101D4D6", 4),
        ("54D2512101ABCDEF", 5),
        ("D2512101345F", 3),
        // More digits than a mask has places.
        ("D2512101000000000000000000000000000000", 30),
    ] {
        for places in 0..=16 {
            let mask = format!("{:04X}", (1u32 << places) - 1);
            let good = digits > 0 && places <= digits;
            assert_eq!(
                sound(track, &format!("{mask} 0000 00")).is_ok(),
                good,
                "{track} {mask}"
            );
        }
        assert_eq!(sound(track, "0000 0000 00").is_ok(), digits > 0, "{track}");
    }
    assert_eq!(sound("", "0000 0000 00"), Err(Unsound::NoSeparator));
    assert_eq!(sound("5413FF", "0000 0000 00"), Err(Unsound::NoSeparator));
}

/// Places that no mask has keep their nibbles, letters and what is after the first F too.
#[test]
fn what_stays() {
    let track = "541FD2D12101ABCDEFD123";
    assert_eq!(
        filled(track, "0000 0000 00 FFFF 99999999 FFFF").as_deref(),
        Ok("541FD2D12101ABCD0FD123")
    );
    assert_eq!(
        filled(track, "0008 0000 00 FFFF 99999999 FFFF").as_deref(),
        Ok("541FD2D12101A5CD0FD123")
    );
    assert_eq!(
        filled(track, "0000 0010 00 FFFF 99999999 FFFF").as_deref(),
        Ok("541FD2D121019BCD1FD123")
    );
}

/// Later digits win where masks overlap, and the last digit is always the number's count.
#[test]
fn masks_that_overlap() {
    for (values, digits) in [
        // The code alone, the number over it, the counter over it, and both.
        ("1F00 0000 00 3039 11111111 270F", "1234500000000"),
        ("1F00 0F00 00 3039 66667777 270F", "1777700000004"),
        ("1F00 0F00 04 3039 66667777 270F", "1999900000000"),
        ("1F00 0F00 02 3039 66667777 270F", "1997700000002"),
        // The last place is of the code, of the number, of the counter.
        ("0001 0000 00 0007 66667777 270F", "0000000000000"),
        ("0000 0001 00 0007 66667777 270F", "0000000000001"),
        ("0000 0001 01 0007 66667777 270F", "0000000000000"),
        // The last place counts among the places though its digit is written over.
        ("0007 0000 00 007B 00000000 0000", "0000000000120"),
        ("0000 0007 00 0000 00000123 0000", "0000000000123"),
        ("0000 0007 01 0000 00000012 0009", "0000000000912"),
        ("0000 0007 03 0000 00000012 007B", "0000000000120"),
    ] {
        let expected = format!("{FRONT}{digits}F");
        assert_eq!(filled(TRACK, values), Ok(expected), "{values}");
    }
}

/// The digits of a number, the lowest first, with zeros after them.
fn lowest_first(number: &str) -> impl Iterator<Item = u8> + '_ {
    let digits = number.bytes().rev().map(|digit| digit - b'0');
    digits.chain(std::iter::repeat(0))
}

/// S14.26 and S14.27 sentence by sentence: each digit goes in where the lowest bit is that is left of its mask.
fn by_the_book(
    track: &[u8],
    masks: [u16; 2],
    counted: u8,
    code: u16,
    number: &[u8; 4],
    counter: u16,
) -> Option<Vec<u8>> {
    let mut track: Vec<char> = text(track).chars().collect();
    let separator = track.iter().position(|&c| c == 'D')?;
    let end = (separator..track.len())
        .find(|&at| track[at] == 'F')
        .unwrap_or(track.len());
    let count = end.checked_sub(separator + 8).filter(|&count| count > 0)?;
    let needed = masks.map(|mask| 16 - mask.leading_zeros() as usize);
    let unpredictable = masks[1].count_ones() as i32 - i32::from(counted);
    if needed.iter().any(|&needed| needed > count) || !(0..=8).contains(&unpredictable) {
        return None;
    }
    let put = |track: &mut Vec<char>, mask: &mut u16, digit: u8| {
        let place = mask.trailing_zeros() as usize;
        *mask &= *mask - 1;
        track[end - 1 - place] = char::from(b'0' + digit);
    };
    let [mut of_code, mut of_others] = masks;
    for digit in lowest_first(&code.to_string()).take(of_code.count_ones() as usize) {
        put(&mut track, &mut of_code, digit);
    }
    for digit in lowest_first(&text(number)).take(unpredictable as usize) {
        put(&mut track, &mut of_others, digit);
    }
    for digit in lowest_first(&counter.to_string()).take(usize::from(counted)) {
        put(&mut track, &mut of_others, digit);
    }
    assert_eq!(of_others, 0);
    track[end - 1] = char::from(b'0' + unpredictable as u8);
    Some(hex(&track.iter().collect::<String>()))
}

/// The digits by their places are those of the book's sentences. Twice is once, and what has no place stays.
#[test]
fn drawn_tracks() {
    let mut draw = Draw(0x9F6B_9F65);
    let (mut good, mut bad) = (0, 0);
    for _ in 0..40_000 {
        let length = draw.below(20);
        let mut track: Vec<u8> = (0..length).map(|_| draw.below(256) as u8).collect();
        if draw.below(4) > 0 && length > 0 {
            for byte in &mut track {
                *byte = (draw.below(10) * 16 + draw.below(10)) as u8;
            }
            track[draw.below(length.div_ceil(2))] |= draw.pick(&[0xD0, 0x0D]);
            if draw.below(3) == 0 {
                track[draw.below(length)] |= draw.pick(&[0xF0, 0x0F]);
            }
        }
        let cut = draw.below(17) >> draw.below(2);
        let mut mask = || (draw.below(0x1_0000) as u32 & ((1 << cut) - 1)) as u16;
        let masks = [mask(), mask()];
        let (ones, any) = (masks[1].count_ones() as u8, draw.below(256) as u8);
        let counted = draw.pick(&[0, ones, ones / 2, any % 10, any]);
        let [code, counter] = [(); 2].map(|()| draw.below(0x1_0000) as u16);
        let unpredictable = [(); 4].map(|()| (draw.below(10) * 16 + draw.below(10)) as u8);
        let expected = by_the_book(&track, masks, counted, code, &unpredictable, counter);
        let places = places_in(&track, masks[0], masks[1], counted);
        let found = places
            .map(|places| places.filled_with(code, &unpredictable, counter))
            .ok();
        assert_eq!(found, expected, "{}", text(&track));
        let Some(once) = found else {
            bad += 1;
            continue;
        };
        good += 1;
        let places = places_in(&once, masks[0], masks[1], counted).expect("a sound track");
        assert_eq!(places.filled_with(code, &unpredictable, counter), once);
        assert_eq!(once.len(), track.len());
        let (before, after) = (text(&track), text(&once));
        let changed: Vec<usize> = (0..before.len())
            .filter(|&at| before.as_bytes()[at] != after.as_bytes()[at])
            .collect();
        let separator = before.find('D').expect("a sound track");
        let end = before[separator..]
            .find('F')
            .map_or(before.len(), |at| separator + at);
        for at in changed {
            let place = end - at;
            assert!(at >= separator + 8 && at < end);
            assert!(place == 1 || (masks[0] | masks[1]) >> (place - 1) & 1 == 1);
        }
    }
    assert!(good > 4000 && bad > 4000, "{good} {bad}");
}

/// The start of the sessions below.
const LIMITS: [&str; 4] = [
    "DF8123 06 000000010000",
    "DF8124 06 000000050000",
    "DF8125 06 000000090000",
    "DF8126 06 000000005000",
];

/// Objects of a record with the values of the first row of digits.
const DATA: [&str; 4] = [
    "9F6B 13 5413123456784800D25121010000000000000F",
    "9F65 02 000E",
    "9F66 02 0FF0",
    "9F67 01 04",
];

/// The same, with a place past the digits.
const UNSOUND: [&str; 4] = [DATA[0], DATA[1], "9F66 02 2FF0", "9F67 01 05"];

/// The command that the default list gives.
const COMMAND: &str = "802A8E80 04 00003456 00";

const ONLINE: u32 = 1;
const DECLINED: u32 = 2;

/// An outcome of stripe mode: no CVM was chosen.
fn decision(kind: u32) -> u32 {
    outcome(NOT_APPLICABLE, kind, 0)
}

fn started(changes: &[&str]) -> Host {
    Host::started(&[&LIMITS, changes].concat())
}

/// A session on its one record.
fn reading(changes: &[&str], profile: &str) -> Host {
    let mut host = started(changes);
    let word = host.answer_hex(&format!("80 06 {profile} 08010100 9000"));
    assert_eq!(host.command(word), hex("00B2010C00"));
    host
}

/// What the last record gives.
fn after_record(changes: &[&str], profile: &str, record: &str) -> (u32, Host) {
    let mut host = reading(changes, profile);
    let word = host.record(record);
    (word, host)
}

/// A session on the checksum.
fn waiting(data: &[&str; 4]) -> Host {
    let (word, host) = after_record(&[], "0000", &data.concat());
    assert_eq!(host.command(word), hex(COMMAND));
    host
}

/// What an answer to the checksum gives.
fn answered(data: &[&str; 4], answer: &str) -> (u32, Host) {
    let mut host = waiting(data);
    let word = host.answer_hex(&format!("{answer} 9000"));
    (word, host)
}

const BOTH: &str = "77 0A 9F36 02 002A 9F61 02 1F35";

#[test]
fn the_whole_session() {
    let host = waiting(&DATA);
    assert_eq!(host.head(), [5, 5, 0, 0, 3, 0]);
    assert_eq!((host.limit(), host.count()), (50_000, 3));
    assert_eq!(host.get(Object::VerificationResults), Some(&[0; 5][..]));
    assert_eq!(host.get(Object::CvmResults), None);
    let (word, host) = answered(&DATA, BOTH);
    assert_eq!(word, decision(ONLINE));
    assert_eq!(host.head(), [5, 4, 1, 0, 3, 0]);
    let track = host.get(Object::Track2Data).map(text);
    assert_eq!(
        track.as_deref(),
        Some("5413123456784800D25121010004234569894F")
    );
    assert_eq!(host.get(Object::Cvc3Track2), Some(&[0x1F, 0x35][..]));
    assert_eq!(
        host.get(Object::TransactionCounter),
        Some(&[0x00, 0x2A][..])
    );
    assert_eq!(host.get(Object::VerificationResults), Some(&[0; 5][..]));
    assert_eq!((host.get(Object::CvmResults), host.count()), (None, 3));
}

/// Any order, padding, templates and unknown objects; the whole record but track, counter and code stays.
#[test]
fn other_answers_with_both() {
    for answer in [
        "77 0A 9F61 02 1F35 9F36 02 002A",
        "77 0D 00 9F36 02 002A 00 9F61 02 1F35 00",
        "77 14 5F60 02 FFFF DF01 00 E1 00 9F36 02 002A 9F61 02 1F35",
        "77 0C 77 05 9F36 02 002A 9F61 02 1F35",
        "77 0F 70 03 5A 01 12 9F36 02 002A 9F61 02 1F35",
        "77 10 DF811B 02 FFFF 9F36 02 002A 9F61 02 1F35",
        "77 0F 70 03 9F69 00 9F36 02 002A 9F61 02 1F35",
    ] {
        let before = waiting(&DATA);
        let (word, host) = answered(&DATA, answer);
        assert_eq!(word, decision(ONLINE), "{answer}");
        let mut store = *before.store();
        let mut list = vec![
            "9F61 1F35",
            "9F36 002A",
            "9F6B 5413123456784800D25121010004234569894F",
        ];
        if answer.contains("5A 01 12") {
            list.push("5A 12");
        }
        change(&mut store, &list);
        if answer.contains("9F69 00") {
            store[Object::Udol.row().place] = 1;
        }
        assert!(*host.store() == store, "{answer}");
    }
}

#[test]
fn reasons_of_the_answer() {
    for data in [&DATA, &UNSOUND] {
        for (answer, reason) in [
            ("", 2),
            ("90", 2),
            ("9000", 2),
            ("6985", 1),
            ("77 0A 9F36 02 002A 9F61 02 1F35 6985", 1),
            ("80 04 002A 1F35 9000", 2),
            ("80 0B 80 0001 1122334455667788 9000", 2),
            ("70 0A 9F36 02 002A 9F61 02 1F35 9000", 2),
            ("77 0A 9F36 02 002A 9F61 02 1F35 00 9000", 2),
            ("77 0B 9F36 02 002A 9F61 02 1F35 9F 9000", 2),
            ("77 0E 9F36 02 002A 9F61 02 1F35 9F27 01 80 9000", 3),
            ("77 0D 9F36 02 002A 9F61 02 1F35 9F10 00 9000", 3),
            (
                "77 15 9F36 02 002A 9F61 02 1F35 9F26 08 0102030405060708 9000",
                3,
            ),
            ("77 0F 9F36 02 002A 9F61 02 1F35 9F36 02 002A 9000", 3),
            ("77 0B 9F36 03 00002A 9F61 02 1F35 9000", 3),
            ("77 09 9F36 02 002A 9F61 01 1F 9000", 3),
            ("77 0C 9F36 02 002A 70 05 9F61 02 1F35 9000", 3),
            ("77 0D 9F36 02 002A 70 06 9F65 02 1F35 00 9000", 3),
            ("77 0D 9F36 02 002A 70 06 9F6B 03 1D35FF 9000", 3),
            ("77 10 9F36 02 002A 9F61 02 1F35 9F67 01 04 95 00 9000", 3),
            // A malformed object after one that is not allowed.
            ("77 05 9F27 01 80 9F 9000", 2),
        ] {
            let before = waiting(data);
            let mut host = waiting(data);
            assert_eq!(host.answer_hex(answer), ended(reason), "{answer}");
            assert!(host.store() == before.store(), "{answer}");
            assert_eq!(host.head(), [5, 4, 3, reason as u8, 3, 0]);
        }
    }
    let mut long = vec![0x00; 257];
    long.extend([0x90, 0x00]);
    assert_eq!(waiting(&DATA).answer(&long), ended(2));
}

/// Without the counter reason 4, without the code declined; what came is stored and the track stays.
#[test]
fn counter_and_code() {
    for (answer, word, stored) in [
        ("77 05 9F36 02 002A", decision(DECLINED), &["9F36 002A"][..]),
        ("77 05 9F61 02 1F35", ended(4), &["9F61 1F35"]),
        ("77 00", ended(4), &[]),
        ("77 02 00 00", ended(4), &[]),
        (
            "77 08 9F36 02 002A 51 01 41",
            decision(DECLINED),
            &["9F36 002A"],
        ),
    ] {
        let (given, host) = answered(&DATA, answer);
        assert_eq!(given, word, "{answer}");
        let mut store = *waiting(&DATA).store();
        change(&mut store, stored);
        assert!(*host.store() == store, "{answer}");
        let (given, host) = answered(&UNSOUND, answer);
        assert_eq!(given, ended(3), "{answer}");
        assert!(host.store() == waiting(&UNSOUND).store(), "{answer}");
    }
    let (given, host) = answered(&UNSOUND, BOTH);
    assert_eq!(given, ended(3));
    assert!(host.store() == waiting(&UNSOUND).store());
}

/// Every way in which a track is not sound gives reason 3 when the answer is read, and not before.
#[test]
fn unsound_tracks() {
    for data in [
        UNSOUND,
        [DATA[0], "9F65 02 2000", DATA[2], DATA[3]],
        [DATA[0], DATA[1], DATA[2], "9F67 01 09"],
        [DATA[0], DATA[1], DATA[2], "9F67 01 FF"],
        [DATA[0], DATA[1], "9F66 02 1FF0", "9F67 01 00"],
        ["9F6B 01 D1", DATA[1], DATA[2], DATA[3]],
        ["9F6B 04 54131234", DATA[1], DATA[2], DATA[3]],
        [
            "9F6B 0C 54D25F210123456789012345",
            DATA[1],
            DATA[2],
            DATA[3],
        ],
    ] {
        let before = waiting(&data);
        let (word, host) = answered(&data, BOTH);
        assert_eq!(word, ended(3), "{data:?}");
        assert!(host.store() == before.store());
        assert_eq!(answered(&data, "80 04 002A 1F35").0, ended(2));
        assert_eq!(waiting(&data).answer_hex("6985"), ended(1));
        assert_eq!(waiting(&data).link_failed(), ended(9));
        assert_eq!(waiting(&data).stop(), ended(10));
    }
}

#[test]
fn object_counts() {
    let read = |to: AnswerTo, body: &str| {
        let mut store = *waiting(&DATA).store();
        let (reason, count) = model::read_answer(&mut store, to, 1, &hex(&format!("{body} 9000")));
        (reason, count)
    };
    assert_eq!(read(AnswerTo::Checksum, BOTH), (0, 3));
    assert_eq!(read(AnswerTo::Checksum, "77 00"), (0, 1));
    assert_eq!(read(AnswerTo::Checksum, "80 04 002A 1F35"), (2, 1));
    assert_eq!(
        read(AnswerTo::Checksum, "80 0B 80 0001 1122334455667788"),
        (2, 1)
    );
    assert_eq!(
        read(AnswerTo::Checksum, "70 0A 9F36 02 002A 9F61 02 1F35"),
        (2, 3)
    );
    assert_eq!(
        read(
            AnswerTo::Checksum,
            "77 0E 9F36 02 002A 9F61 02 1F35 9F27 01 80"
        ),
        (3, 4)
    );
    assert_eq!(read(AnswerTo::Checksum, "77 01 9F"), (2, 0));
    // The code comes with no other answer, the counter with that to GENERATE AC too.
    for (to, counter) in [(AnswerTo::Options, 3), (AnswerTo::Cryptogram, 0)] {
        assert_eq!(read(to, "77 05 9F61 02 1F35"), (3, 2));
        assert_eq!(read(to, "77 05 9F36 02 002A"), (counter, 2));
    }
    for tag in ["9F61", "9F36"] {
        assert_eq!(
            read(AnswerTo::Record, &format!("70 05 {tag} 02 002A")),
            (3, 2)
        );
        assert_eq!(
            read(AnswerTo::Record, &format!("70 07 77 05 {tag} 02 002A")),
            (3, 3)
        );
    }
}

#[test]
fn the_code_too_early() {
    let mut host = started(&[]);
    let answer = "77 0F 82 02 0000 94 04 08010100 9F61 02 1F35 9000";
    assert_eq!(host.answer_hex(answer), ended(3));
    assert_eq!(host.get(Object::InterchangeProfile), None);
    let (word, host) = after_record(&[], "0000", &format!("{} 9F61 02 1F35", DATA.concat()));
    assert_eq!(word, ended(3));
    assert_eq!(host.get(Object::Track2Data), None);
}

#[test]
fn the_mode() {
    let options = |configuration: &str, answer: &str| {
        let mut host = started(&[&format!("DF811B 01 {configuration}")]);
        let word = host.answer_hex(&format!("{answer} 9000"));
        (word, host)
    };
    for configuration in ["80", "FF", "A0", "C0"] {
        for answer in [
            "80 06 0000 08010100",
            "80 06 FF7F 09010100",
            "80 06 0000 00010100",
        ] {
            let (word, host) = options(configuration, answer);
            assert_eq!(word, ended(11), "{configuration} {answer}");
            assert!(host.get(Object::FileLocator).is_some());
        }
        assert_eq!(options(configuration, "77 04 82 02 0000").0, ended(4));
        assert_eq!(options(configuration, "80 06 0080 08010100").0, 5);
    }
    for configuration in ["00", "7F", "20", "40", "01"] {
        assert_eq!(options(configuration, "80 06 0000 08010100").0, 5);
        assert_eq!(options(configuration, "80 06 0000 09010100").0, ended(5));
        assert_eq!(options(configuration, "77 06 94 04 08010100").0, ended(4));
    }
    // EMV mode whatever DF811B says, and stripe mode by b8 of byte 2 alone.
    let both = format!("{} 5F24 03 491231 5A 02 1234 8C 02 9505", DATA.concat());
    for configuration in ["00", "40", "80", "FF"] {
        let changes = [format!("DF811B 01 {configuration}")];
        for profile in ["0080", "FD80", "10FF"] {
            let (word, host) = after_record(&[&changes[0]], profile, &both);
            assert_eq!(
                host.command(word)[..4],
                hex("80AE8000")[..],
                "{configuration} {profile}"
            );
            assert_eq!(host.head()[1], 3);
            assert!(host.get(Object::CvmResults).is_some());
        }
    }
    for profile in ["0000", "007F", "FD7F", "1000"] {
        let (word, host) = after_record(&["DF811B 01 7F"], profile, &both);
        assert_eq!(host.command(word), hex(COMMAND), "{profile}");
        assert_eq!(host.head()[1], 5);
    }
}

/// What is requested after the last record, in this order: the amount, the four objects, the list.
#[test]
fn after_the_last_record() {
    let all = DATA.concat();
    let (word, _) = after_record(&["9F02 06 000000050001"], "0000", "");
    assert_eq!(word, outcome(NOT_APPLICABLE, 4, 6));
    let (word, _) = after_record(
        &["9F02 06 000000050001"],
        "0000",
        &format!("{all} 9F69 01 9F"),
    );
    assert_eq!(word, outcome(NOT_APPLICABLE, 4, 6));
    let (word, _) = after_record(&["9F02 06 000000050000"], "0000", "");
    assert_eq!(word, ended(4));
    for missing in 0..4 {
        let mut data = DATA.to_vec();
        data.remove(missing);
        let (word, host) = after_record(&[], "0000", &data.concat());
        assert_eq!(word, ended(4), "{missing}");
        assert_eq!(host.count(), 2);
        data.push("9F69 02 9F6A");
        assert_eq!(after_record(&[], "0000", &data.concat()).0, ended(4));
        // What GENERATE AC needs does not count.
        data.push("5F24 03 491231 5A 02 1234 8C 02 9505");
        assert_eq!(after_record(&[], "0000", &data.concat()).0, ended(4));
    }
    let empty = all.replace(DATA[0], "9F6B 00");
    assert_eq!(after_record(&[], "0000", &empty).0, ended(4));
    // An empty track may be followed by another.
    assert_eq!(after_record(&[], "0000", &format!("9F6B 00 {all}")).0, 10);
    // 5F24, 5A and 8C count in EMV mode alone, and the four objects in stripe mode alone.
    assert_eq!(after_record(&[], "0080", &all).0, ended(4));
    let emv = "5F24 03 491231 5A 02 1234 8C 02 9505";
    assert_eq!(after_record(&[], "0080", emv).0, 11);
    // The limit of on-device CVM.
    for (configuration, word) in [("20", 10), ("00", outcome(NOT_APPLICABLE, 4, 6))] {
        let configuration = format!("DF811B 01 {configuration}");
        let changes = ["9F02 06 000000080000", &configuration];
        let (given, host) = after_record(&changes, "0200", &all);
        assert_eq!(given, word);
        if is_command(word) {
            assert_eq!(host.limit(), 90_000);
        }
    }
}

#[test]
fn the_list_for_the_command() {
    let with_list = |list: &str| {
        let list = hex(list);
        let object = format!("9F69 {:02X} {}", list.len(), text(&list));
        after_record(&[], "0000", &format!("{} {object}", DATA.concat()))
    };
    for (list, command) in [
        ("9F6A029505", "802A8E80 07 3456 0000000000 00"),
        ("9F6A069F0202", "802A8E80 08 000000003456 1234 00"),
        ("", COMMAND),
        ("9F6A04", COMMAND),
        ("9F6B02 9F6501 9F6703", "802A8E80 06 5413 00 040000 00"),
        (
            "9F6102 9F3602 5003 E101",
            "802A8E80 08 0000 0000 000000 00 00",
        ),
        ("9F6903", "802A8E80 03 9F6903 00"),
    ] {
        let (word, host) = with_list(list);
        assert_eq!(host.command(word), hex(command), "{list}");
    }
    let (word, host) = with_list("9F6AFF");
    assert_eq!(word, 261);
    assert_eq!(host.buffer[4], 255);
    for bad in [
        "9F6A00",
        "9F6A",
        "9F6AFF9F6A01",
        "9F6A0400",
        "009F6A04",
        "9500 9F6A00",
    ] {
        let (word, host) = with_list(bad);
        assert_eq!(word, ended(7), "{bad}");
        assert_eq!(host.head(), [5, 4, 3, 7, 2, 0]);
        assert_eq!(host.get(Object::VerificationResults), Some(&[0; 5][..]));
        assert_eq!(host.get(Object::CvmResults), None);
    }
}

/// All records of the AFL are read, and the count is two more than their number.
#[test]
fn longest_session() {
    let mut host = started(&[]);
    assert_eq!(host.answer_hex("80 06 0000 08018000 9000"), 5);
    assert_eq!(host.record(&DATA.concat()), 5);
    for k in 3..=128 {
        let word = host.record("");
        assert_eq!(host.command(word), [0x00, 0xB2, k, 0x0C, 0x00]);
    }
    assert_eq!(host.record(""), 10);
    assert_eq!((host.count(), host.head()[1]), (130, 5));
    assert_eq!(host.answer_hex(&format!("{BOTH} 9000")), decision(ONLINE));
    assert_eq!(host.count(), 130);
}

/// The objects come in EMV sessions too.
#[test]
fn objects_in_emv_mode() {
    let record = format!(
        "{} 9F69 00 5F24 03 491231 5A 02 1234 8C 06 9F6A04 9F6703",
        DATA.concat()
    );
    let (word, mut host) = after_record(&[], "0080", &record);
    assert_eq!(host.command(word), hex("80AE8000 07 00003456 040000 00"));
    let track = host.get(Object::Track2Data).map(<[u8]>::to_vec);
    assert_eq!(track, Some(hex(TRACK)));
    let mut early = after_record(&[], "0080", &record).1;
    assert_eq!(
        early.answer_hex("77 05 9F61 02 1F35 9000"),
        outcome(common::NO_CVM, 3, 3)
    );
    assert_eq!(
        host.answer_hex("80 0B 80 0001 1122334455667788 9000"),
        decided(1)
    );
    assert_eq!(host.get(Object::Track2Data).map(<[u8]>::to_vec), track);
}

fn in_range(session: &[u8]) -> bool {
    let mut session = session.to_vec();
    model::stop(&mut session, &mut [0; 261]) != refused(25)
}

fn place(object: Object) -> usize {
    HEAD_SIZE + object.row().place
}

#[test]
fn ranges_on_the_checksum() {
    let good = waiting(&DATA);
    assert!(in_range(&good.session));
    let with = |changes: &[(usize, u8)]| {
        let mut session = good.session.clone();
        for &(at, value) in changes {
            session[at] = value;
        }
        session
    };
    // The head: version, details, count, CVM and limit.
    for at in 0..HEAD_SIZE {
        for value in 0..=255 {
            let session = with(&[(at, value)]);
            let same = session == good.session;
            assert_eq!(in_range(&session), same, "{at} {value}");
            let known = same || matches!(at, 4 | 6..);
            if at != 1 {
                assert_eq!(model::count(&session) == NO_COUNT, !known, "{at} {value}");
            }
        }
    }
    // The store: what must be present, what must not, and what may.
    let absent = |object: Object| with(&[(place(object), 0)]);
    for object in Object::ALL {
        let needed = REQUIRED_AT_START.contains(&object)
            || matches!(
                object,
                Object::VerificationResults
                    | Object::InterchangeProfile
                    | Object::FileLocator
                    | Object::Track2Data
                    | Object::Pcvc3Track2
                    | Object::PunatcTrack2
                    | Object::NatcTrack2
            );
        assert_eq!(in_range(&absent(object)), !needed, "{object:?}");
    }
    assert!(!in_range(&with(&[(place(Object::Track2Data), 1)])));
    for (changes, kept) in [
        (&["9F36 0000"][..], false),
        (&["9F61 0000"], false),
        (&["9F10 00"], false),
        (&["9F26 0000000000000000"], false),
        (&["9F27 00"], false),
        (&["95 0000000001"], false),
        (&["95 8000000000"], false),
        (&["82 0080"], false),
        (&["82 FD7F"], true),
        (&["82 0200"], true),
        (&["DF811B 80"], false),
        (&["DF811B 7F"], true),
        (&["82 0200", "DF811B 20"], false),
        (&["82 0200", "DF811B 20", "DF8125 000000050000"], true),
        (&["DF8124 000000050001"], false),
        (&["DF8125 000000050001"], true),
        (&["94 08010200"], false),
        (&["94 09010100"], false),
        (&["94 10020200"], true),
        (&["9F34 3F0000"], true),
        (&["9F6B D1"], true),
        (&["9F65 FFFF", "9F66 FFFF", "9F67 FF"], true),
        (&["9F69 9F"], true),
        (&["9F6A 99999999"], true),
        (&["9F35 17"], false),
        (&["5A 12", "8C 9505", "5F24 491231"], true),
    ] {
        let mut host = waiting(&DATA);
        change(host.store_mut(), changes);
        assert_eq!(in_range(&host.session), kept, "{changes:?}");
        let word = host.answer_hex(&format!("{BOTH} 9000"));
        assert_eq!(word == refused(25), !kept, "{changes:?}");
    }
    // A digit of 9F6A, and the count with another number of records.
    assert!(!in_range(&with(&[(
        place(Object::UnpredictableNumberNumeric) + 1,
        0x0A
    )])));
    let mut host = waiting(&DATA);
    change(host.store_mut(), &["94 08010200"]);
    host.session[4] = 4;
    assert!(in_range(&host.session));
}

/// The code is absent in every running phase, and 9F6A is needed; on a record the mode is EMV or stripe
/// mode is not off.
#[test]
fn ranges_of_the_other_phases() {
    let emv = "5F24 03 491231 5A 02 1234 8C 02 9505";
    let generating = after_record(&[], "0080", emv).1;
    for (phase, host) in [
        (1, started(&[])),
        (2, reading(&[], "0080")),
        (2, reading(&[], "0000")),
        (3, generating),
    ] {
        assert_eq!(host.head()[1], phase);
        assert!(in_range(&host.session));
        let with = |changes: &[&str]| {
            let mut host = Host {
                session: host.session.clone(),
                buffer: Vec::new(),
            };
            change(host.store_mut(), changes);
            in_range(&host.session)
        };
        assert!(!with(&["9F61 1F35"]));
        assert!(!with(&["9F6A"]));
        assert!(with(&[
            "9F69 9F",
            "9F6B D1",
            "9F65 FFFF",
            "9F66 FFFF",
            "9F67 FF"
        ]));
        assert_eq!(with(&["82 0000"]), phase == 2);
        assert_eq!(with(&["82 0080"]), phase != 1);
        assert!(!with(&["82 0000", "DF811B 80"]));
        assert_eq!(with(&["82 0000", "DF811B 7F"]), phase == 2);
        assert_eq!(with(&["82 0080", "DF811B 80"]), phase != 1);
    }
    // An ended session may hold them.
    let mut host = waiting(&DATA);
    assert_eq!(host.stop(), ended(10));
    change(host.store_mut(), &["9F61 1F35", "9F36 002A", "9F6A"]);
    assert!(in_range(&host.session));
}

const NO_CHOICE: u32 = 0x0004_0000;

#[test]
fn explanations() {
    assert_eq!(model::explain(&reading(&[], "0000").session), NO_CHOICE);
    assert_eq!(model::explain(&waiting(&DATA).session), NO_CHOICE);
    assert_eq!(model::explain(&waiting(&UNSOUND).session), NO_CHOICE);
    for (answer, why) in [
        (BOTH, NO_CHOICE),
        ("77 05 9F36 02 002A", NO_CHOICE),
        ("77 00", 0x0003_0004),
        ("80 04 002A 1F35", 0x0003_0002),
        ("77 04 9F27 01 80", 0x0003_0003),
    ] {
        assert_eq!(
            model::explain(&answered(&DATA, answer).1.session),
            why,
            "{answer}"
        );
    }
    let mut host = started(&["DF811B 01 80"]);
    assert_eq!(host.answer_hex("80 06 0000 08010100 9000"), ended(11));
    assert_eq!(model::explain(&host.session), 0x0003_000B);
    // Of an ended record 82 alone is examined, whatever the outcome and the rest.
    for outcome in 0..=2 {
        for changes in [
            &["82 007F"][..],
            &["82 0000", "DF811B 80"],
            &["82 0000", "95 8000000000", "9F27 40", "9F0F 0000000000"],
            &["82 0000", "95", "9F35", "DF8121", "9F6B", "9F36", "9F61"],
        ] {
            let (_, mut host) = answered(&DATA, BOTH);
            host.session[2] = outcome;
            change(host.store_mut(), changes);
            assert_eq!(model::explain(&host.session), NO_CHOICE, "{changes:?}");
        }
        for (changes, why) in [
            (&["82"][..], refused(25)),
            (&["82 0080"], refused(25)),
            // Without 82, or with EMV mode: the choice by the TVR, and 9F27.
            (&["82", "95 8000000000", "9F27 80"], 0x0006_3100),
            (&["82 0080", "95 8000000000", "9F27 80"], 0x0006_3100),
            (&["82 0080", "95 0000000000", "9F27 40"], 0x0006_30FF),
        ] {
            let (_, mut host) = answered(&DATA, BOTH);
            host.session[2] = outcome;
            change(host.store_mut(), changes);
            let given = match changes.last() {
                Some(&"9F27 80") => 1,
                Some(&"9F27 40") => 0,
                _ => outcome,
            };
            let expected = if outcome == given { why } else { refused(25) };
            assert_eq!(model::explain(&host.session), expected, "{changes:?}");
        }
    }
}

#[test]
fn journals() {
    let start = start_with(&LIMITS);
    let options = hex("80 06 0000 08010100 9000");
    let mut record = vec![0x70, hex(&DATA.concat()).len() as u8];
    record.extend(hex(&DATA.concat()));
    record.extend([0x90, 0x00]);
    let last = |answer: &str| {
        let answer = hex(&format!("{answer} 9000"));
        let calls = [
            Call::Start(&start),
            Call::Answer(&options),
            Call::Answer(&record),
            Call::Answer(&answer),
        ];
        write(&calls)
    };
    for (answer, end) in [
        (BOTH, [6, 1, 0]),
        ("77 05 9F36 02 002A", [6, 2, 0]),
        ("77 00", [6, 3, 4]),
        ("80 04 002A 1F35", [6, 3, 2]),
        ("77 04 9F27 01 80", [6, 3, 3]),
    ] {
        let journal = last(answer);
        assert_eq!(check(&journal), Verdict::Accepted(8), "{answer}");
        assert!(journal.ends_with(&end), "{answer}");
        for other in [
            [6, 0, 0],
            [6, 1, 0],
            [6, 2, 0],
            [6, 3, 3],
            [6, 3, 4],
            [6, 3, 11],
        ] {
            let mut journal = journal.clone();
            let at = journal.len() - 3;
            journal[at..].copy_from_slice(&other);
            let expected = if other == end {
                Verdict::Accepted(8)
            } else {
                Verdict::Unlike(8)
            };
            assert_eq!(check(&journal), expected, "{answer} {other:?}");
        }
    }
    // The last command is record 6: other parameters, GENERATE AC, or a number with another digit.
    let journal = last(BOTH);
    let at = 1027 + 264 + 261 + 264 + 261;
    assert_eq!(journal[at..at + 13], hex("05 000A 802A8E80 04 00003456 00"));
    for (place, value) in [
        (4, 0xAE),
        (5, 0x00),
        (6, 0x00),
        (7, 0x05),
        (11, 0x57),
        (2, 0x0B),
    ] {
        let mut journal = journal.clone();
        journal[at + place] = value;
        assert_eq!(check(&journal), Verdict::Unlike(6));
    }
}

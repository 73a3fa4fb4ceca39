//! The journal checker on drawn calls: what the writer writes, whole, unfinished, truncated and damaged.

mod common;

use common::{hex, is_refusal, start_with, start_without, Draw, Host};
use model::journal::{check, record_size, write, Call, Verdict};
use Verdict::{Accepted, Cut, Unlike};

/// The most records of an accepted journal: start, 130 answers, and as many replies.
const MOST_RECORDS: usize = 262;

/// A call with bytes of its own.
#[derive(Clone)]
enum Drawn {
    Start(Vec<u8>),
    Answer(Vec<u8>),
    LinkFailed,
    Stop,
}

impl Drawn {
    fn call(&self) -> Call<'_> {
        match self {
            Drawn::Start(bytes) => Call::Start(bytes),
            Drawn::Answer(bytes) => Call::Answer(bytes),
            Drawn::LinkFailed => Call::LinkFailed,
            Drawn::Stop => Call::Stop,
        }
    }
}

fn journal_of(calls: &[Drawn]) -> Vec<u8> {
    write(&calls.iter().map(Drawn::call).collect::<Vec<_>>())
}

/// A card's answer, mostly one of those that a purchase goes on with.
fn draw_answer(draw: &mut Draw) -> Vec<u8> {
    let bytes = hex(draw.pick(&[
        "77 0A 82 02 1980 94 04 08010200 9000",
        "80 0A 0080 08010100 58010300 9000",
        "70 14 5F2403491231 5A081234567890123456 8C029505 9000",
        "70 00 9000",
        "80 0B 40 0001 0102030405060708 9000",
        "80 0B 80 0001 0102030405060708 9000",
        "6A83",
    ]));
    match draw.below(20) {
        0 => vec![0; draw.below(600)],
        1 => bytes[..draw.below(bytes.len())].to_vec(),
        _ => bytes,
    }
}

/// Calls, some of them refused, that mostly begin with a start and end a session.
fn draw_calls(draw: &mut Draw) -> Vec<Drawn> {
    let mut calls = vec![Drawn::Start(match draw.below(8) {
        0 => start_without("9F37"),
        1 => start_with(&["9F38 02 9F02"]),
        2 => vec![0x50; draw.below(2000)],
        _ => start_with(&["9F35 01 23", "9F38 03 9F0206"]),
    })];
    for answer in [
        "80 0A 0080 08010200 58010100 9000",
        "70 14 5F2403491231 5A081234567890123456 8C029505 9000",
        "70 00 9000",
        "12 34 9000",
    ] {
        calls.push(Drawn::Answer(hex(answer)));
    }
    calls.truncate(1 + draw.below(5));
    for _ in 0..draw.below(8) {
        let call = match draw.below(12) {
            0 => Drawn::LinkFailed,
            1 => Drawn::Stop,
            2 => Drawn::Start(start_with(&[])),
            _ => Drawn::Answer(draw_answer(draw)),
        };
        let at = draw.below(3) * calls.len() / 2;
        calls.insert(at, call);
    }
    calls
}

/// How many of the calls are not refused.
fn not_refused(calls: &[Drawn]) -> usize {
    let mut host = Host::open();
    let words = calls.iter().map(|call| match call {
        Drawn::Start(bytes) => host.start(bytes),
        Drawn::Answer(bytes) => host.answer(bytes),
        Drawn::LinkFailed => host.link_failed(),
        Drawn::Stop => host.stop(),
    });
    words.filter(|&word| !is_refusal(word)).count()
}

/// The whole records at the front of some bytes.
fn records(mut bytes: &[u8]) -> Vec<&[u8]> {
    let mut records = Vec::new();
    while let Some(size) = bytes.first().and_then(|&kind| record_size(kind)) {
        let Some((record, rest)) = bytes.split_at_checked(size) else {
            break;
        };
        records.push(record);
        bytes = rest;
    }
    records
}

/// The verdict by what the writer writes: records are conforming if they are the first of the journal of
/// their own calls.
fn by_writing(bytes: &[u8]) -> Verdict {
    let records = records(bytes);
    let right = |&count: &usize| {
        let calls = records[..count]
            .iter()
            .step_by(2)
            .map(|&record| call(record));
        write(&calls.collect::<Vec<_>>()).starts_with(&records[..count].concat())
    };
    let good = (0..=records.len()).rev().find(right).unwrap_or(0);
    match bytes.get(records.concat().len()) {
        _ if good < records.len() => Unlike(good + 1),
        None => Accepted(good),
        Some(1..=6) => Cut(good + 1),
        Some(_) => Unlike(good + 1),
    }
}

/// The call of a record; any call for a record of another kind, or with wrong bytes after its length.
fn call(record: &[u8]) -> Call<'_> {
    match *record {
        [1, high, low, ref body @ ..] => Call::Start(front(high, low, body)),
        [2, 0xFF, 0xFF, ..] => Call::Answer(&[0; 300]),
        [2, high, low, ref body @ ..] => Call::Answer(front(high, low, body)),
        [3, ..] => Call::LinkFailed,
        _ => Call::Stop,
    }
}

/// The bytes that a length counts, or all if it counts more.
fn front(high: u8, low: u8, body: &[u8]) -> &[u8] {
    &body[..body.len().min(usize::from(high) * 256 + usize::from(low))]
}

/// The verdict on bytes, once it is tested against what the writer writes.
fn verdict(bytes: &[u8]) -> Verdict {
    let verdict = check(bytes);
    assert_eq!(verdict, by_writing(bytes));
    assert!(!matches!(verdict, Accepted(records) if records > MOST_RECORDS));
    verdict
}

/// Journals of drawn calls.
fn journals(seed: u64, count: usize) -> impl Iterator<Item = Vec<u8>> {
    let mut draw = Draw(seed);
    (0..count).map(move |_| journal_of(&draw_calls(&mut draw)))
}

#[test]
fn written_journals_are_accepted() {
    let mut draw = Draw(0x1234_5678_9ABC_DEF1);
    let mut lengths = [0; 20];
    for _ in 0..3000 {
        let calls = draw_calls(&mut draw);
        let journal = journal_of(&calls);
        let records = records(&journal);
        assert_eq!(records.len(), 2 * not_refused(&calls));
        assert_eq!(records.concat(), journal);
        for whole in 0..=records.len() {
            assert_eq!(verdict(&records[..whole].concat()), Accepted(whole));
        }
        lengths[records.len()] += 1;
    }
    assert!(
        [0, 2, 4, 6, 8, 10, 12].iter().all(|&n| lengths[n] > 50),
        "{lengths:?}"
    );
}

#[test]
fn pieces_of_a_record_are_cut() {
    for journal in journals(0xA5A5_0001, 40) {
        let mut from = 0;
        for (before, record) in records(&journal).iter().enumerate() {
            for length in 1..record.len() {
                assert_eq!(check(&journal[..from + length]), Cut(before + 1));
            }
            from += record.len();
        }
    }
}

#[test]
fn a_changed_byte() {
    let mut draw = Draw(0xBADC_0FFE);
    let mut accepted = 0;
    for mut journal in journals(0xA5A5_0002, 2000) {
        let lengths: Vec<usize> = records(&journal)
            .iter()
            .map(|record| record.len())
            .collect();
        if lengths.is_empty() {
            continue;
        }
        let record = draw.below(lengths.len());
        let from: usize = lengths[..record].iter().sum();
        // Often one of the first bytes: kind, length, objects.
        let bound = draw.pick(&[1, 3, 40, lengths[record]]).min(lengths[record]);
        let place = draw.below(bound);
        journal[from + place] ^= draw.pick(&[1, 2, 3, 4, 7, 0x80, 0xFF]);
        match verdict(&journal) {
            Unlike(number) if number == record + 1 => {}
            Cut(number) if number == record + 1 => assert_eq!(place, 0),
            // The changed record is still a valid call.
            Unlike(number) | Cut(number) => {
                assert!(record.is_multiple_of(2) && number > record + 1)
            }
            Accepted(_) => {
                assert_eq!(record % 2, 0);
                accepted += 1;
            }
        }
    }
    assert!(accepted > 50, "{accepted}");
}

#[test]
fn records_moved_and_bytes_added() {
    let mut draw = Draw(0x0DD_BA11);
    let mut seen = [0; 3];
    for journal in journals(0xA5A5_0003, 3000) {
        let mut records: Vec<Vec<u8>> = records(&journal).iter().map(|r| r.to_vec()).collect();
        if records.is_empty() {
            continue;
        }
        let (one, other) = (draw.below(records.len()), draw.below(records.len()));
        match draw.below(7) {
            0 => drop(records.remove(one)),
            1 => records.insert(other, records[one].clone()),
            2 => records.swap(one, other),
            3 => records[one].insert(0, draw.below(8) as u8),
            4 => drop(records[one].pop()),
            5 => records.push(vec![
                draw.below(8) as u8;
                draw.pick(&[1, 3, 261, 264, 1027])
            ]),
            _ => records[one].fill(draw.below(8) as u8),
        }
        match verdict(&records.concat()) {
            Accepted(_) => seen[0] += 1,
            Unlike(_) => seen[1] += 1,
            Cut(_) => seen[2] += 1,
        }
    }
    assert!(seen.iter().all(|&count| count > 50), "{seen:?}");
}

#[test]
fn any_bytes() {
    let mut draw = Draw(0x5EED);
    for _ in 0..20_000 {
        let length = draw.below(8);
        let bytes: Vec<u8> = (0..length).map(|_| draw.below(8) as u8).collect();
        verdict(&bytes);
    }
}

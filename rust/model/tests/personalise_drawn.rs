//! Writing the card's side on drawn layouts, good and damaged: what is accepted, what is written, and that the
//! model's reader takes it back.

mod common;

use common::{hex, Draw};
use model::afl::{self, Record};
use model::dictionary::Object;
use model::personalise::{personalise, Answer, Refusal};
use model::reading::{self, AnswerTo};
use model::store::{self, Store};
use model::{read_answer, tlv, STORE_SIZE};
use Refusal::{Entry, List, LocatorBuffer, RecordsBuffer};

const EMPTY: Store = [0; STORE_SIZE];

/// Puts a byte in, takes one out, or changes one.
fn damage(draw: &mut Draw, bytes: &mut Vec<u8>) {
    let at = draw.below(bytes.len() + 1);
    let byte = draw.pick(&[0, 1, 2, 3, 4, 8, 0x10, 0x57, 0x81, 0x82, 0xFF]);
    match draw.below(3) {
        0 => bytes.insert(at, byte),
        1 if at < bytes.len() => drop(bytes.remove(at)),
        _ if at < bytes.len() => bytes[at] ^= byte,
        _ => bytes.push(byte),
    }
}

/// A list of objects, entries and placements.
#[derive(Clone)]
struct Input {
    objects: Vec<u8>,
    entries: Vec<u8>,
    placements: Vec<u8>,
}

/// A layout that is mostly accepted: few objects, entries of one to four records, each object somewhere.
fn draw_input(draw: &mut Draw) -> Input {
    let mut left = vec![
        "57 02 AABB",
        "57 81 00",
        "5A 08 1234567890123456",
        "5F24 03 491231",
        "5F25 03 200101",
        "5F28 82 0002 0056",
        "5F34 01 01",
        "9F07 02 FFC0",
        "9F08 02 0002",
        "9F0D 05 0000000000",
    ];
    let mut objects = vec![];
    let mut count = draw.below(6);
    for _ in 0..count {
        let at = draw.below(left.len());
        let object = left.remove(at);
        objects.extend(hex(object));
        if object.starts_with("57") {
            left.retain(|other| !other.starts_with("57"));
        }
    }
    if draw.below(3) == 0 {
        let length = draw.pick(&[0, 5, 125, 126, 127, 128, 225, 240, 250]);
        objects.extend([0x8C, 0x81, length]);
        objects.extend(vec![0x11; usize::from(length)]);
        count += 1;
    }
    let mut entries = vec![];
    let mut records = 0;
    let mut next = 1;
    for file in 1..=draw.below(4) + 1 {
        let length = draw.below(4) + 1;
        entries.extend([8 * file, next, next + length - 1, 0].map(|number| number as u8));
        records += length;
        next = draw.pick(&[1, next, next + length]);
    }
    let mut placements = vec![];
    for object in 1..=count {
        let at = 2 * draw.below(placements.len() / 2 + 1);
        let record = draw.below(records) + 1;
        placements.splice(at..at, [record as u8, object as u8]);
    }
    Input {
        objects,
        entries,
        placements,
    }
}

/// The objects of a list, tag and value; none if the bytes are no run of whole objects.
fn objects_of(mut bytes: &[u8]) -> Option<Vec<(u32, &[u8])>> {
    let mut objects = vec![];
    while !bytes.is_empty() {
        let (tag, value, rest) = tlv::split_object(bytes)?;
        objects.push((tag.number, value));
        bytes = rest;
    }
    Some(objects)
}

/// An object with its shortest length.
fn shortest(tag: u32, value: &[u8]) -> Vec<u8> {
    let tag = tag.to_be_bytes();
    let tag = &tag[tag.iter().take_while(|&&byte| byte == 0).count()..];
    let [high, low] = (value.len() as u16).to_be_bytes();
    let length = [0x82, high, low];
    let length = match value.len() {
        0..=0x7F => &length[2..],
        0x80..=0xFF => &[0x81, low],
        _ => &length,
    };
    [tag, length, value].concat()
}

/// Whether the card may set an object in template 70: a record with it alone, of any length, is read, and the store
/// holds it then.
fn card_may_set(tag: u32, value: &[u8]) -> bool {
    let record = shortest(0x70, &shortest(tag, value));
    let mut store = EMPTY;
    let object = Object::of_tag(tag);
    let (result, _) = reading::read(&mut store, AnswerTo::Record, &record);
    result.is_ok() && object.is_some_and(|object| store::has(&store, object))
}

/// Whether some entries are an AFL of document 01 that also satisfies the rules of the card's side.
fn good_entries(entries: &[u8]) -> bool {
    let records: Option<Vec<Record>> = afl::records(entries)
        .and_then(|count| (1..=count).map(|k| afl::record(entries, k)).collect());
    records.is_some_and(|records| {
        let mut numbers: Vec<_> = records.iter().map(|r| (r.file, r.number)).collect();
        numbers.sort_unstable();
        numbers.dedup();
        numbers.len() == records.len()
            && records.iter().all(|record| record.is_read())
            && entries.iter().skip(3).step_by(4).all(|&byte| byte == 0)
            && entries.len() <= 248
    })
}

/// The records by the rules: each rule examined by itself, those of document 01 by the model's reader.
fn by_the_rules(input: &Input) -> Result<Vec<Vec<u8>>, Refusal> {
    let objects = objects_of(&input.objects).ok_or(List)?;
    let placements: Vec<(usize, usize)> = [&input.placements[..], &[0]]
        .concat()
        .chunks_exact(2)
        .map(|pair| (usize::from(pair[0]), usize::from(pair[1])))
        .collect();
    for (i, &(tag, value)) in objects.iter().enumerate() {
        let twice = objects[..i].iter().any(|&(before, _)| before == tag);
        let placed = placements.iter().filter(|&&(_, object)| object == i + 1);
        if twice || placed.count() != 1 || !card_may_set(tag, value) {
            return Err(List);
        }
    }
    let entries = &input.entries;
    let front = |number: usize| &entries[..entries.len().min(4 * number)];
    let last = entries.len().div_ceil(4).max(1);
    if let Some(number) = (1..=last).find(|&number| !good_entries(front(number))) {
        return Err(Entry(number));
    }
    let count = afl::records(entries).expect("good entries") as usize;
    let mut bad = vec![];
    let mut contents = vec![vec![]; count + 1];
    for &(record, object) in &placements {
        if record == 0 || record > count || object == 0 || object > objects.len() {
            bad.push(record);
        }
    }
    for (number, &(tag, value)) in (1..).zip(&objects) {
        let placed = placements.iter().find(|&&(_, object)| object == number);
        if let Some(content) = placed.and_then(|&(record, _)| contents.get_mut(record)) {
            content.extend(shortest(tag, value));
        }
    }
    bad.extend((1..=count).filter(|&number| contents[number].len() > 253));
    match bad.iter().min() {
        Some(&number) => Err(Refusal::Record(number)),
        None => Ok(contents[1..].iter().map(|c| shortest(0x70, c)).collect()),
    }
}

/// The answer on an input, once it and both buffers are tested against the rules, and what is written is read back.
fn answer(input: &Input) -> Answer {
    let mut records = vec![0x5C; 32_768];
    let mut locator = vec![0xA3; 248];
    let (mut all_records, mut all_locator) = (records.clone(), locator.clone());
    let answer = personalise(
        &input.objects,
        &input.entries,
        &input.placements,
        &mut records,
        &mut locator,
    );
    match (answer, by_the_rules(input)) {
        (Ok(written), Ok(expected)) => {
            let bytes = expected.concat();
            all_records[..bytes.len()].copy_from_slice(&bytes);
            all_locator[..input.entries.len()].copy_from_slice(&input.entries);
            assert_eq!(written.records, bytes.len());
            assert_eq!(written.locator, input.entries.len());
            read_back(input, &records[..written.records]);
        }
        (answer, expected) => assert_eq!(answer.err(), expected.err()),
    }
    assert_eq!(records, all_records);
    assert_eq!(locator, all_locator);
    answer
}

/// Reads the written records in AFL order from an empty store: it holds the list at the end, and nothing else.
fn read_back(input: &Input, mut records: &[u8]) {
    let count = afl::records(&input.entries).expect("document 01 takes the locator");
    let mut store = EMPTY;
    for k in 1..=count {
        let (_, _, behind) = tlv::split_object(records).expect("a record for each that is named");
        let (record, rest) = records.split_at(records.len() - behind.len());
        let file = afl::record(&input.entries, k).expect("a record").file;
        let with_status = [record, &[0x90, 0x00]].concat();
        let (reason, _) = read_answer(&mut store, AnswerTo::Record, file, &with_status);
        assert_eq!(reason, 0);
        records = rest;
    }
    assert!(records.is_empty());
    let mut listed = EMPTY;
    for (tag, value) in objects_of(&input.objects).expect("a list") {
        store::put(&mut listed, Object::of_tag(tag).expect("known"), value);
    }
    assert_eq!(store, listed);
}

/// Counts of the answers: written, list, entry, record.
#[derive(Debug, Default)]
struct Seen([usize; 4]);

impl Seen {
    fn count(&mut self, answer: Answer) {
        self.0[match answer {
            Ok(_) => 0,
            Err(List) => 1,
            Err(Entry(_)) => 2,
            Err(Refusal::Record(_)) => 3,
            Err(RecordsBuffer | LocatorBuffer) => panic!("the buffers have their lengths"),
        }] += 1;
    }
}

#[test]
fn drawn_layouts() {
    let mut draw = Draw(0x1234_5678_9ABC_DEF1);
    let mut seen = Seen::default();
    for _ in 0..3000 {
        seen.count(answer(&draw_input(&mut draw)));
    }
    let [written, list, entry, record] = seen.0;
    assert_eq!((list, entry), (0, 0));
    // Some put too much into one record.
    assert!(written > 2000 && record > 20, "{seen:?}");
}

#[test]
fn damaged_layouts() {
    let mut draw = Draw(0xBADC_0FFE);
    let mut seen = Seen::default();
    for _ in 0..10_000 {
        let mut input = draw_input(&mut draw);
        for _ in 0..draw.pick(&[1, 1, 1, 2, 5]) {
            match draw.below(3) {
                0 => damage(&mut draw, &mut input.objects),
                1 => damage(&mut draw, &mut input.entries),
                _ => damage(&mut draw, &mut input.placements),
            }
        }
        seen.count(answer(&input));
    }
    assert!(seen.0.iter().all(|&count| count > 500), "{seen:?}");
}

#[test]
fn short_buffers() {
    let mut draw = Draw(0x0DD_BA11);
    for _ in 0..500 {
        let input = draw_input(&mut draw);
        for (room, expected) in [
            ((draw.below(32_768), draw.below(300)), RecordsBuffer),
            ((32_768 + draw.below(9), draw.below(248)), LocatorBuffer),
        ] {
            let (mut records, mut locator) = (vec![1; room.0], vec![2; room.1]);
            let answer = personalise(
                &input.objects,
                &input.entries,
                &input.placements,
                &mut records,
                &mut locator,
            );
            assert_eq!(answer, Err(expected));
            assert_eq!((records, locator), (vec![1; room.0], vec![2; room.1]));
        }
    }
}

#[test]
fn every_entry() {
    // Each value of the first three bytes that is near an edge, after an entry of file 1 with records 3 to 5.
    let mut good = 0;
    for lead in 0..=255 {
        for (first, last) in (0..=7).flat_map(|first| (0..=7).map(move |last| (first, last))) {
            let input = Input {
                objects: hex("9F08020002"),
                entries: [hex("08030500"), vec![lead, first, last, 0]].concat(),
                placements: hex("0101"),
            };
            good += usize::from(answer(&input).is_ok());
        }
    }
    // Ten files, 28 ranges from 1 to 7; those of file 1 that miss 3 to 5 are 1-1, 1-2, 2-2, 6-6, 6-7, 7-7.
    assert_eq!(good, 9 * 28 + 6);
}

#[test]
fn every_tag() {
    // Every known object with every length up to one over its greatest, and whether digits may be letters.
    let mut good = 0;
    for object in Object::ALL {
        let row = object.row();
        for length in 0..=usize::from(row.most) + 1 {
            for byte in [0x00, 0x0A, 0xFF] {
                let input = Input {
                    objects: shortest(row.tag, &vec![byte; length]),
                    entries: hex("08010100"),
                    placements: hex("0101"),
                };
                good += usize::from(answer(&input).is_ok());
            }
        }
    }
    // 56, 57, 8C, 8E, 8F and 90 of any bytes; then 9F07 to 9F0F, 9F1F, 9F24, 9F32, 9F46 and 9F47; then 9F4A, 9F51, 9F5B
    // and 9F69, of which 250 bytes are good, and no record has room for them; then 9F62 to 9F67, 9F6B and 9F6E.
    let of_any_bytes =
        (77 + 20 + 251 + 241 + 1 + 249) + (5 + 55 + 1 + 3 + 249 + 3) + 4 * 250 + (6 + 20 + 28);
    // 5A and 9F20 of 0 or F, and empty three times; the dates, 5F28, 5F30, 5F34, 9F42 and 9F44 of 0.
    let of_digits = (2 * 10 + 3) + (2 * 16 + 3) + 7;
    assert_eq!(good, 3 * of_any_bytes + of_digits);
}

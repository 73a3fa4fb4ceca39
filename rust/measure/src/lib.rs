//! What the benchmarks share: the card's answers that are timed, and the summary of times.

#![forbid(unsafe_code)]

/// Calls timed together as one sample, so that reading the clock weighs little.
pub const BATCH: usize = 16;

/// Bytes of a hexadecimal text.
pub fn hex(text: &str) -> Vec<u8> {
    let digits: String = text.split_whitespace().collect();
    (0..digits.len() / 2)
        .map(|i| u8::from_str_radix(&digits[2 * i..2 * i + 2], 16).expect("two digits"))
        .collect()
}

/// An answer of template 70 with this content.
pub fn record(content: &[u8]) -> Vec<u8> {
    let mut answer = vec![0x70];
    if content.len() > 127 {
        answer.push(0x81);
    }
    answer.push(content.len() as u8);
    answer.extend(content);
    answer.extend([0x90, 0x00]);
    answer
}

/// A tag that no dictionary of document 01, 02 or Book C-2's annex A has: 5F60 to 5F73 for 0 to 19.
fn unknown_tag(i: u8) -> [u8; 2] {
    [0x5F, 0x60 + i]
}

/// The objects of a full record: twelve of template 70, then twelve unknown ones with so many bytes each, the first one
/// with one more.
fn full_record(unknown: u8) -> Vec<Vec<u8>> {
    let mut objects: Vec<Vec<u8>> = [
        "57 13 4761739001010010D49122010000001F000000",
        "5A 0A 4761739001010010FFFF",
        "5F24 03 491231",
        "5F25 03 200101",
        "5F28 02 0056",
        "5F34 01 01",
        "9F07 02 FFC0",
        "9F08 02 0002",
        "9F0D 05 0000000000",
        "9F0E 05 0000000000",
        "9F0F 05 0000000000",
        "8C 24 9F0206 9F0306 9F1A02 9505 5F2A02 9A03 9C01 9F3704 9F3501 9F4502 9F4C08 9F3403 9F2103",
    ]
    .map(hex)
    .into();
    for i in 0..12 {
        let length = if i == 0 { unknown + 1 } else { unknown };
        let mut object = unknown_tag(i).to_vec();
        object.push(length);
        object.extend((0..length).map(|n| n * 17));
        objects.push(object);
    }
    objects
}

/// An answer to a record, with its name and the count that its reading gives.
pub struct Record {
    /// What it is, with its size.
    pub name: String,
    /// The answer, status included.
    pub answer: Vec<u8>,
}

/// A record that is accepted, of so many objects.
fn accepted(what: &str, answer: Vec<u8>, objects: u32) -> Record {
    let mut store = [0; model::STORE_SIZE];
    let read = model::read_answer(&mut store, model::reading::AnswerTo::Record, 1, &answer);
    assert_eq!(read, (0, objects), "{what}");
    let bytes = answer.len() - 2;
    let name = format!("{what}, {bytes} bytes, {objects} objects");
    Record { name, answer }
}

/// Two objects.
pub fn short_record() -> Record {
    let content = hex("9F08 02 0002 5F24 03 491231");
    accepted("short record", record(&content), 3)
}

/// As many bytes as a record usually has at most.
pub fn long_record() -> Record {
    accepted("full record", record(&full_record(7).concat()), 25)
}

/// A 00 after each object; the unknown ones are shorter, so that the record is as long as the full one.
pub fn padded_record() -> Record {
    let mut objects = full_record(5);
    objects.iter_mut().for_each(|object| object.push(0x00));
    accepted("padded record", record(&objects.concat()), 25)
}

/// Twenty objects of unknown tags.
pub fn unknown_tags() -> Record {
    let mut content = Vec::new();
    for i in 0..20 {
        content.extend(unknown_tag(i));
        content.extend([0x04, i, i, i, i]);
    }
    accepted("record of 20 unknown tags", record(&content), 21)
}

/// The full record, its last object truncated by one byte.
pub fn broken_record() -> Record {
    let mut content = full_record(7).concat();
    content.pop();
    let answer = record(&content);
    let name = format!(
        "broken record, {} bytes, cut in its last object",
        answer.len() - 2
    );
    Record { name, answer }
}

/// An object in the innermost of four templates.
pub fn four_levels() -> Record {
    let content = hex("70 09 70 07 70 05 9F08 02 0002");
    accepted("four levels", record(&content), 5)
}

/// As many templates as there is room for, all of them empty.
pub fn many_templates() -> Record {
    let content = [0xE1, 0x00].repeat(126);
    accepted("126 empty templates", record(&content), 127)
}

/// The start: all that it must bring, and a list of three objects.
pub fn terminal() -> Vec<u8> {
    hex(
        "9A 03 250615  9C 01 00  9F02 06 000000001234  9F09 02 0002  9F1A 02 0056  9F35 01 22
         9F37 04 5A3C96E1  DF8120 05 0000000000  DF8121 05 0000000000  DF8122 05 0000000000
         DF8123 06 000000010000  DF8124 06 000000100000  DF8125 06 000000200000  DF8126 06 000000002500
         DF811B 01 00  9F6A 04 00003456  9F33 03 E0F8C8
         9F38 08 9F0206 9A03 9F3704",
    )
}

/// The answers of a purchase: GPO, three records, cryptogram.
pub fn purchase() -> Vec<Vec<u8>> {
    vec![
        hex("77 0A 82 02 1980 94 04 08010300 9000"),
        record(&hex("57 10 4761739001010010D49122010000001F 5F34 01 01 9F08 02 0002")),
        record(&hex("5A 08 4761739001010010 5F24 03 491231 5F25 03 200101 5F28 02 0056 9F07 02 FFC0")),
        record(&hex(
            "8C 0F 9F0206 9F3704 9505 9A03 9C01 9F1A02 9F0D 05 0000000000 9F0E 05 0000000000 9F0F 05 0000000000",
        )),
        hex("77 14 9F27 01 40 9F36 02 0007 9F26 08 1122334455667788 9000"),
    ]
}

/// The bytes of a session before its start, and of one that waits on the first of a purchase's three records.
pub fn sessions() -> [[u8; model::SESSION_SIZE]; 2] {
    let mut fresh = [0; model::SESSION_SIZE];
    assert_eq!(model::open(&mut fresh), 0);
    let mut waiting = fresh;
    let mut buffer = [0; model::COMMAND_SIZE];
    assert!(model::start(&mut waiting, &terminal(), &mut buffer) < 0x10000);
    assert_eq!(model::answer(&mut waiting, &purchase()[0], &mut buffer), 5);
    [fresh, waiting]
}

/// Median and 10th percentile.
pub fn summary(mut samples: Vec<f64>) -> (f64, f64) {
    samples.sort_by(f64::total_cmp);
    (samples[samples.len() / 2], samples[samples.len() / 10])
}

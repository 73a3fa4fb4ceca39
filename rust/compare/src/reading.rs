//! Single readings: one answer read by the model, by both readers of the library and by the plain reader, with its
//! reason, its object count and the whole store.
//!
//! The count is compared with the tree's as well, which is counted apart from any reading.

use crate::objects::{self, TEMPLATES, UNKNOWN};
use crate::padding::InReadings;
use crate::rng::Rng;
use crate::step::Hex;
use crate::{card, damage, never};
use model::dictionary::{Answers, Form, Object, Row, Templates, ROWS};
use model::reading::{self, AnswerTo};
use model::{tlv, HEAD_SIZE, STORE_SIZE};
use std::fmt::Write as _;

/// The answers by the library's numbers.
const ANSWERS: [AnswerTo; 4] = [
    AnswerTo::Options,
    AnswerTo::Record,
    AnswerTo::Cryptogram,
    AnswerTo::Checksum,
];

/// The phases in which they are awaited.
const PHASES: [u8; 4] = [1, 2, 3, 5];

/// One reading: a store, the answer's number, a record's file and the card's bytes. The word has the reason in bits 16
/// to 23 and the object count below, or is `NOT_READ`.
pub type Read = fn(&mut [u8], u32, u8, &[u8]) -> u32;

/// The readers that are compared with the model.
#[cfg(feature = "library")]
pub const READERS: [(&str, Read); 3] = [
    ("library", test_reading::read),
    ("library, no recursion", test_reading::read_flat),
    ("plain", plain_reader::read),
];

/// Without the library the plain reader alone.
#[cfg(not(feature = "library"))]
pub const READERS: [(&str, Read); 1] = [("plain", plain_reader::read)];

/// The word where nothing is read.
pub const NOT_READ: u32 = 0xFFFF_FFFF;

/// One reading by the model.
pub fn by_model(store: &mut [u8], awaited: u32, file: u8, card: &[u8]) -> u32 {
    let (Ok(store), Some(&to)) = (store.try_into(), ANSWERS.get(awaited as usize)) else {
        return NOT_READ;
    };
    let (reason, count) = model::read_answer(store, to, file, card);
    u32::from(reason) << 16 | count
}

/// What some readings reached.
#[derive(Clone, Debug, Default, PartialEq, Eq)]
pub struct Reached {
    /// Readings made.
    pub readings: u64,
    /// By answer (options, record, cryptogram, checksum) and reason, 0 to 3.
    pub reasons: [[u64; 4]; 4],
    /// Accepted under tag 80, by answer.
    pub format_1: [u64; 4],
    /// Reason 2 under tag 80, counted as one object, by answer.
    pub format_1_refused: [u64; 4],
    /// A template of another tag than the answer's, counted as its whole tree of more than one object, by answer.
    pub other_template: [u64; 4],
    /// A primitive object of another tag than 80, by answer.
    pub other_primitive: [u64; 4],
    /// Accepted or not allowed trees by their depth, 1 to 4.
    pub depths: [u64; 4],
    /// Trees of five levels, which are malformed.
    pub five_levels: u64,
    /// Objects of the card directly after so many templates that end together, 1 to 3: in their own
    /// template, in another.
    pub behind_ends: [[u64; 2]; 3],
    /// Trees with so many inner templates, 1 to 3, that end together with the outer one.
    pub at_end: [u64; 3],
    /// Records above file 10 with a good status.
    pub unread: u64,
    /// Answers under 2 bytes, and over 258.
    pub lengths: [u64; 2],
    /// The greatest count.
    pub greatest: u32,
    /// Where padding stood.
    pub padding: InReadings,
    /// What answers of one known object reached.
    pub rows: Rows,
}

impl Reached {
    /// What should be reached and never was.
    pub fn missing(&self) -> Vec<String> {
        let mut missing = Vec::new();
        let mut need = |counts: &[u64], what: &str| missing.extend(never(counts, what));
        for (answer, reasons) in ["options", "record", "cryptogram", "checksum"]
            .iter()
            .zip(&self.reasons)
        {
            need(reasons, &format!("{answer} with reason"));
        }
        let [options, _, cryptogram, _] = self.format_1;
        need(&[options, cryptogram], "accepted under 80");
        need(&self.format_1_refused, "refused under 80");
        need(&self.other_template, "another template");
        need(&self.other_primitive, "another primitive object");
        need(&self.depths, "depth 1 +");
        need(&[self.five_levels], "five levels");
        need(
            self.behind_ends.as_flattened(),
            "an object behind ended templates",
        );
        need(&self.at_end, "templates that end with the outer one, 1 +");
        need(&[self.unread], "a file above 10");
        need(&self.lengths, "length out of range");
        need(&[u64::from(self.greatest >= 120)], "a count of 120");
        for (what, counts) in self.padding.counts() {
            need(counts, what);
        }
        missing.extend(self.rows.missing());
        missing
    }

    /// Counts one reading.
    fn count(&mut self, reading: &Reading, reason: u8, count: u32) {
        let answer = reading.awaited as usize;
        self.readings += 1;
        self.reasons[answer][usize::from(reason)] += 1;
        self.greatest = self.greatest.max(count);
        let length = reading.card.len();
        self.lengths[0] += u64::from(length < 2);
        self.lengths[1] += u64::from(length > 258);
        let Ok(body) = reading::body(&reading.card) else {
            return;
        };
        if reading.is_unread() {
            self.unread += 1;
            return;
        }
        self.padding.count(answer, &reading.card, reason, count);
        let Some((tag, value, [])) = tlv::split_object(body) else {
            return;
        };
        if tag.is_template() && matches!((reason, count), (0 | 3, 1..)) {
            self.count_ends(tag.number, value);
            self.rows.count(reading, tag.number, value, reason);
        }
        let wanted = if answer == 1 { 0x70 } else { 0x77 };
        match (tag.is_template(), tag.number) {
            (false, 0x80) if reason == 0 => self.format_1[answer] += 1,
            (false, 0x80) => self.format_1_refused[answer] += u64::from((reason, count) == (2, 1)),
            (false, _) => self.other_primitive[answer] += u64::from(count == 1),
            (true, number) if number != wanted => {
                self.other_template[answer] += u64::from(count > 1);
            }
            (true, _) => match depth(body) {
                Some(levels @ 1..=4) => self.depths[levels as usize - 1] += u64::from(count > 0),
                Some(5) => self.five_levels += 1,
                _ => {}
            },
        }
    }
}

impl Reached {
    /// Counts the templates that end together in a tree.
    fn count_ends(&mut self, outer: u32, contents: &[u8]) {
        let mut ended = 0;
        tell_objects(outer, contents, &mut ended, &mut |ended, around, tag| {
            let row = Object::of_tag(tag).map(Object::row);
            if let (Some(row), 1..=3) = (row.filter(|row| row.is_of_card()), ended) {
                let elsewhere = !row.templates.meets(Templates::of_tag(around));
                self.behind_ends[ended - 1][usize::from(elsewhere)] += 1;
            }
        });
        if let 1..=3 = ended {
            self.at_end[ended - 1] += 1;
        }
    }
}

/// Reports each primitive object of a tree, with the template around it and how many templates have ended since the
/// object before it.
fn tell_objects(
    around: u32,
    contents: &[u8],
    ended: &mut usize,
    told: &mut impl FnMut(usize, u32, u32),
) {
    let mut rest = tlv::skip_padding(contents);
    while let Some((tag, value, behind)) = tlv::split_object(rest) {
        if tag.is_template() {
            *ended = 0;
            tell_objects(tag.number, value, ended, told);
            *ended += 1;
        } else {
            told(*ended, around, tag.number);
            *ended = 0;
        }
        rest = tlv::skip_padding(behind);
    }
}

/// The templates that rows name, and one that none does.
const AROUND: [u32; 6] = [0x70, 0x77, 0xA5, 0xBF0C, 0x6F, 0xE1];

/// What answers of one known object reached, by row. The object's place in the store is empty but for `there`.
#[derive(Clone, Debug, PartialEq, Eq)]
pub struct Rows {
    /// Objects that fit and may come in the answer, by the template directly around: one of `AROUND`.
    pub fitting: [[u64; 6]; ROWS.len()],
    /// Objects in one of their templates, of a length that does not fit.
    pub length: [u64; ROWS.len()],
    /// Objects in one of their templates, of a length that fits and nibbles that do not.
    pub digits: [u64; ROWS.len()],
    /// Objects that fit, in one of their templates, of which the store held a value.
    pub there: [u64; ROWS.len()],
    /// Objects that fit, in one of their templates, in an answer in which they may not come.
    pub other_answer: [u64; ROWS.len()],
}

impl Default for Rows {
    fn default() -> Rows {
        let none = [0; ROWS.len()];
        Rows {
            fitting: [[0; 6]; ROWS.len()],
            length: none,
            digits: none,
            there: none,
            other_answer: none,
        }
    }
}

impl Rows {
    /// What should be reached and never was.
    fn missing(&self) -> Vec<String> {
        let mut missing = Vec::new();
        let mut need = |count: u64, what: String| {
            if count == 0 {
                missing.push(what);
            }
        };
        for (i, row) in ROWS.iter().enumerate() {
            let tag = row.tag;
            for (around, &count) in AROUND.iter().zip(&self.fitting[i]) {
                need(count, format!("{tag:X} in {around:X}"));
            }
            if row.templates == Templates::NONE {
                continue;
            }
            // An answer has no room for 250 bytes and more.
            if row.least > 0 || row.most < 249 {
                need(self.length[i], format!("{tag:X} of another length"));
            }
            need(self.there[i], format!("{tag:X} again"));
            if row.form != Form::Binary {
                need(self.digits[i], format!("{tag:X} with a wrong digit"));
            }
            if row.answers != Answers::All {
                need(self.other_answer[i], format!("{tag:X} in another answer"));
            }
        }
        missing
    }

    /// Counts an answer if it has one primitive object, and that is known.
    fn count(&mut self, reading: &Reading, outer: u32, contents: &[u8], reason: u8) {
        let mut around = outer;
        let mut contents = contents;
        let (object, value) = loop {
            match tlv::split_object(contents) {
                Some((tag, value, [])) if tag.is_template() => {
                    (around, contents) = (tag.number, value);
                }
                Some((tag, value, [])) => match Object::of_tag(tag.number) {
                    Some(object) => break (object, value),
                    None => return,
                },
                _ => return,
            }
        };
        let row = object.row();
        let i = object as usize;
        let there = reading.store[row.place] > 1;
        let in_place = row.templates.meets(Templates::of_tag(around));
        let comes = comes(row, reading.awaited);
        let good_length = (usize::from(row.least)..=usize::from(row.most)).contains(&value.len());
        match (there, good_length, row.fits(value)) {
            (false, true, true) if comes || !row.is_of_card() => {
                if let Some(at) = AROUND.iter().position(|&tag| tag == around) {
                    self.fitting[i][at] += 1;
                }
            }
            (false, true, true) => self.other_answer[i] += u64::from(in_place),
            (false, false, _) => self.length[i] += u64::from(in_place && comes && reason == 3),
            (false, true, false) => self.digits[i] += u64::from(in_place && comes && reason == 3),
            (true, _, fits) => self.there[i] += u64::from(in_place && comes && fits && reason == 3),
        }
    }
}

/// Whether an object of the card may come in an answer.
fn comes(row: &Row, awaited: u32) -> bool {
    match row.answers {
        Answers::All => true,
        Answers::Cryptogram => awaited == 2,
        Answers::Checksum => awaited == 3,
        Answers::Either => awaited >= 2,
        Answers::None => false,
    }
}

/// The depth of a tree's templates, up to 8; none for bytes that are no tree.
fn depth(body: &[u8]) -> Option<u32> {
    (0..=8).find(|&levels| tlv::count_objects(body, levels).is_some())
}

/// One reading: a store, the answer's number, a record's file, and the card's bytes.
struct Reading {
    store: Vec<u8>,
    awaited: u32,
    file: u8,
    card: Vec<u8>,
}

impl Reading {
    /// Draws a reading, mostly of the answer that is awaited.
    fn draw(rng: &mut Rng) -> Reading {
        let mut awaited = rng.below(4) as u32;
        let mut session = damage::built_record(rng);
        session[1] = if rng.one_in(5) {
            rng.pick(&PHASES)
        } else {
            PHASES[awaited as usize]
        };
        session[2] = 1;
        if rng.one_in(3) {
            session[HEAD_SIZE..].fill(0);
        }
        let mut card = match rng.below(9) {
            7 | 8 => {
                let object = rng.pick(&Object::ALL);
                if rng.one_in(5) {
                    let value = objects::good_value(rng, object);
                    damage::put(&mut session, object, &value);
                }
                if rng.one_in(2) {
                    // An answer in which it may come, if there is one.
                    let answers: Vec<u32> = (0..4).filter(|&n| comes(object.row(), n)).collect();
                    if !answers.is_empty() {
                        awaited = rng.pick(&answers);
                    }
                }
                let tree = one_object(rng, awaited, object);
                answer_of(rng, tree)
            }
            6 => {
                let tree = ends_together(rng);
                answer_of(rng, tree)
            }
            0 => {
                let tree = any_tree(rng);
                answer_of(rng, tree)
            }
            1 => {
                let tree = many_objects(rng);
                answer_of(rng, tree)
            }
            _ => {
                let faults = rng.one_in(2);
                card::answer(rng, &session, faults)
            }
        };
        if rng.one_in(12) {
            damage::bytes(rng, &mut card);
        }
        let mut store = session.split_off(HEAD_SIZE);
        if rng.one_in(20) {
            rng.fill(&mut store);
        }
        let file = match rng.below(8) {
            0 => rng.within(9..=12) as u8,
            1 => rng.byte(),
            _ => rng.within(1..=10) as u8,
        };
        Reading {
            store,
            awaited,
            file,
            card,
        }
    }

    /// Whether only the status counts.
    fn is_unread(&self) -> bool {
        self.awaited == 1 && self.file > 10
    }

    /// The object count by the tree: none are counted of a bad answer, of bytes that are no tree, or of a
    /// file above 10.
    fn tree_count(&self) -> u32 {
        let Ok(body) = reading::body(&self.card) else {
            return 0;
        };
        match tlv::split_object(body) {
            Some((_, _, [])) if !self.is_unread() => {
                tlv::count_objects(body, reading::LEVELS).unwrap_or(0)
            }
            _ => 0,
        }
    }

    /// Reads with the model and with each reader; an error says what differs.
    fn compare(&self, reached: &mut Reached) -> Result<(), String> {
        let mut store = self.store.clone();
        let word = by_model(&mut store, self.awaited, self.file, &self.card);
        let (reason, count) = ((word >> 16) as u8, word & 0xFFFF);
        reached.count(self, reason, count);
        let tree = self.tree_count();
        if count != tree {
            return Err(format!("model: {count} objects; the tree has {tree}"));
        }
        for (name, read) in READERS {
            let mut store_other = self.store.clone();
            let word_other = read(&mut store_other, self.awaited, self.file, &self.card);
            if word_other != word {
                return Err(format!("model {word:08X}, {name} {word_other:08X}"));
            }
            if let Some(at) = store.iter().zip(&store_other).position(|(a, b)| a != b) {
                return Err(format!("{name}: store at {at}"));
            }
        }
        Ok(())
    }

    /// Reads nothing: a store of another size, or a number that is no answer. All bytes stay.
    fn compare_unread(&self, rng: &mut Rng) -> Result<(), String> {
        let mut store = self.store.clone();
        let awaited = if rng.one_in(2) {
            store.resize(
                rng.pick(&[0, 1, STORE_SIZE - 1, STORE_SIZE + 1, 2000]),
                0x55,
            );
            self.awaited
        } else {
            rng.bits() as u32 | 4
        };
        let before = store.clone();
        for (name, read) in READERS {
            let word = read(&mut store, awaited, self.file, &self.card);
            if word != NOT_READ || store != before {
                return Err(format!(
                    "{name}: store of {} bytes, answer {awaited}: {word:08X}",
                    store.len()
                ));
            }
        }
        Ok(())
    }
}

/// A body with its status, mostly good.
fn answer_of(rng: &mut Rng, mut body: Vec<u8>) -> Vec<u8> {
    body.extend(if rng.one_in(20) {
        [0x6A, 0x83]
    } else {
        [0x90, 0x00]
    });
    body
}

/// An outer template of up to five levels, with objects before and after each inner one.
pub(crate) fn any_tree(rng: &mut Rng) -> Vec<u8> {
    let levels = rng.within(1..=5);
    let mut list = some_objects(rng);
    for _ in 1..levels {
        let tag = rng.pick(&TEMPLATES);
        let inner = objects::template(rng, tag, &list);
        let (mut before, mut behind) = (Vec::new(), Vec::new());
        if inner.len() < 180 {
            if rng.one_in(2) {
                before = some_objects(rng);
            }
            behind = some_objects(rng);
        }
        list = [before, vec![inner], behind].concat();
    }
    let outer = rng.pick(&[0x70, 0x77]);
    let other = rng.pick(&TEMPLATES);
    let tag = if rng.percent(80) { outer } else { other };
    objects::template(rng, tag, &list)
}

/// A known object alone in the outer template of an answer, or in one more.
fn one_object(rng: &mut Rng, awaited: u32, object: Object) -> Vec<u8> {
    let outer = if awaited == 1 { 0x70 } else { 0x77 };
    let value = if rng.one_in(3) {
        objects::odd_value(rng, object)
    } else {
        objects::good_value(rng, object)
    };
    let inner = objects::object(rng, object.row().tag, &value);
    let mut around = AROUND.to_vec();
    if object.row().templates != Templates::NONE && rng.one_in(2) {
        // One of its own.
        around.retain(|&tag| object.row().templates.meets(Templates::of_tag(tag)));
    }
    let tag = rng.pick(&around);
    if tag == outer {
        return objects::object(rng, outer, &inner);
    }
    let inside = objects::object(rng, tag, &inner);
    objects::object(rng, outer, &inside)
}

/// Runs of templates that end together, an object of the card after each; some have one in the innermost.
fn ends_together(rng: &mut Rng) -> Vec<u8> {
    let outer = rng.pick(&[0x70, 0x77]);
    let mut list = Vec::new();
    for _ in 0..rng.within(1..=4) {
        let mut inner = if rng.one_in(2) {
            card_object(rng)
        } else {
            Vec::new()
        };
        for _ in 0..rng.within(1..=3) {
            let other = rng.pick(&TEMPLATES);
            let tag = rng.pick(&[0x70, 0x77, other]);
            let before = if rng.one_in(4) {
                card_object(rng)
            } else {
                Vec::new()
            };
            inner = objects::object(rng, tag, &[before, inner].concat());
        }
        list.push(inner);
        if rng.percent(80) {
            list.push(card_object(rng));
        }
    }
    objects::template(rng, outer, &list)
}

/// A short object that the card may set in some answer.
fn card_object(rng: &mut Rng) -> Vec<u8> {
    let object = rng.pick(&[
        Object::Track2,
        Object::IssuerCountry,
        Object::PanSequenceNumber,
        Object::VersionCard,
        Object::UsageControl,
        Object::InterchangeProfile,
        Object::InterchangeProfile,
        Object::TransactionCounter,
        Object::IssuerApplicationData,
        Object::Cvc3Track2,
        Object::Label,
        Object::PriorityIndicator,
        Object::LogEntry,
        Object::DfName,
        Object::CaKeyIndexCard,
        Object::ThirdPartyData,
    ]);
    let mut value = objects::good_value(rng, object);
    if object.row().least == 0 {
        value.truncate(rng.below(4));
    }
    objects::object(rng, object.row().tag, &value)
}

/// A few objects: unknown ones, private ones of the terminal, known ones that may stand or not.
fn some_objects(rng: &mut Rng) -> Vec<Vec<u8>> {
    let mut list = Vec::new();
    for _ in 0..rng.below(3) {
        let (tag, value) = match rng.below(4) {
            0 => {
                let object = rng.pick(&Object::ALL);
                (object.row().tag, objects::good_value(rng, object))
            }
            1 => (0xDF8115 + rng.below(16) as u32, vec![0; rng.below(7)]),
            _ => (rng.pick(&UNKNOWN), vec![0; rng.below(4)]),
        };
        if value.len() < 24 {
            list.push(objects::object(rng, tag, &value));
        }
    }
    list
}

/// A template with as many empty objects as it has room for, or fewer.
fn many_objects(rng: &mut Rng) -> Vec<u8> {
    let empty: [&[u8]; 3] = [&[0x51, 0x00], &[0xC1, 0x00], &[0xE1, 0x00]];
    let mut content: Vec<u8> = Vec::new();
    for _ in 0..rng.pick(&[1, 60, 125, 126, 126, 127]) {
        content.extend(rng.pick(&empty));
    }
    let tag = rng.pick(&[0x70, 0x77]);
    let mut body = vec![tag, 0x81, content.len() as u8];
    body.extend(content);
    body
}

/// Makes this many readings with the model and each reader, from a seed on; an error has the first that differs.
pub fn run_many(readings: u64, seed: u64) -> Result<Reached, String> {
    let mut reached = Reached::default();
    for seed in seed..seed + readings {
        let mut rng = Rng::new(seed);
        let reading = Reading::draw(&mut rng);
        let unread = if seed % 16 == 0 {
            reading.compare_unread(&mut rng)
        } else {
            Ok(())
        };
        unread
            .and_then(|()| reading.compare(&mut reached))
            .map_err(|what| describe(seed, &reading, &what))?;
    }
    Ok(reached)
}

/// A reading that differs, as text.
fn describe(seed: u64, reading: &Reading, what: &str) -> String {
    let mut out = String::new();
    let _ = writeln!(out, "seed {seed}: {what}");
    let _ = writeln!(out, "answer {} of file {}", reading.awaited, reading.file);
    let _ = writeln!(out, "card  {}", Hex(&reading.card));
    let _ = writeln!(out, "store {}", Hex(&reading.store));
    out
}

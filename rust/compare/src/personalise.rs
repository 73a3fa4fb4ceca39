//! Layouts of the card's side, drawn and written by the model and by the library: the answer's word and both
//! whole buffers.
//!
//! How a layout was drawn determines which refusal is expected, or that it is written; the model's answer is compared
//! with that too.

use crate::layout::{Damage, Drawn, Kind, Layout, DAMAGES};
use crate::rng::Rng;
use crate::step::Hex;
use model::dictionary::{Object, Templates, ROWS};
use model::{personalise, tlv};
use std::fmt::Write as _;

/// The side that is compared with the model: the library's word.
#[cfg(feature = "personalise")]
use tripodmoon::personalise::word as other;

/// Without the library the model is compared with itself.
#[cfg(not(feature = "personalise"))]
use model_word as other;

/// The model's word.
fn model_word(
    objects: &[u8],
    entries: &[u8],
    placements: &[u8],
    records: &mut [u8],
    locator: &mut [u8],
) -> u64 {
    let answer = personalise::personalise(objects, entries, placements, records, locator);
    personalise::word(answer)
}

/// What a call leaves: its word and the two buffers.
#[derive(Clone, Debug, PartialEq, Eq)]
pub struct Left {
    /// The answer.
    pub word: u64,
    /// The buffer for the records.
    pub records: Vec<u8>,
    /// The buffer for the AFL.
    pub locator: Vec<u8>,
}

impl Left {
    /// The kind of the answer.
    pub fn kind(&self) -> Option<Kind> {
        Kind::ALL.get((self.word >> 48) as usize).copied()
    }

    /// The records that were written, each without its template: none after a refusal.
    fn contents(&self) -> Vec<&[u8]> {
        let mut contents = Vec::new();
        if self.kind() == Some(Kind::Written) {
            let mut rest = &self.records[..self.word as u32 as usize];
            while let Some((_, content, behind)) = tlv::split_object(rest) {
                contents.push(content);
                rest = behind;
            }
        }
        contents
    }
}

/// The call over slices.
type Call = fn(&[u8], &[u8], &[u8], &mut [u8], &mut [u8]) -> u64;

/// Makes a call with what the layout provides.
fn make(call: Call, layout: &Layout) -> Left {
    let mut records = vec![layout.fill; layout.records_room];
    let mut locator = vec![layout.fill; layout.locator_room];
    let word = call(
        &layout.objects,
        &layout.entries,
        &layout.placements,
        &mut records,
        &mut locator,
    );
    Left {
        word,
        records,
        locator,
    }
}

/// What the model leaves.
pub fn expected(layout: &Layout) -> Left {
    make(model_word, layout)
}

/// What some layouts reached.
#[derive(Clone, Debug, PartialEq, Eq)]
pub struct Reached {
    /// Layouts made.
    pub layouts: u64,
    /// Answers by their kind: written, records buffer, AFL buffer, list, entry, record.
    pub kinds: [u64; Kind::ALL.len()],
    /// Refusals of layouts with one damage, by the damage.
    pub damages: [u64; DAMAGES],
    /// Refusals of layouts with several damages, by kind.
    pub several: [u64; Kind::ALL.len()],
    /// Limits that were reached.
    pub edges: Vec<(&'static str, u64)>,
    /// Objects that were written, by row.
    pub rows: [u64; ROWS.len()],
}

impl Reached {
    fn new() -> Reached {
        Reached {
            layouts: 0,
            kinds: [0; Kind::ALL.len()],
            damages: [0; DAMAGES],
            several: [0; Kind::ALL.len()],
            edges: Vec::new(),
            rows: [0; ROWS.len()],
        }
    }

    /// The counts by name. The last kind never comes first of several.
    fn counts(&self) -> Vec<(String, u64)> {
        let kinds = Kind::ALL.iter().zip(&self.kinds);
        let damages = Damage::ALL.iter().zip(&self.damages);
        let several = Kind::ALL[1..5].iter().zip(&self.several[1..5]);
        let edges = self.edges.iter();
        let rows = ROWS.iter().zip(&self.rows);
        let of_70 = rows.filter(|(row, _)| row.templates.meets(Templates::T70));
        kinds
            .map(|(kind, &count)| (format!("{kind:?}"), count))
            .chain(damages.map(|(damage, &count)| (format!("{damage:?} alone"), count)))
            .chain(several.map(|(kind, &count)| (format!("{kind:?} first of several"), count)))
            .chain(edges.map(|&(edge, count)| (edge.to_owned(), count)))
            .chain(of_70.map(|(row, &count)| (format!("{:X} written", row.tag), count)))
            .collect()
    }

    /// What should be reached and never was.
    pub fn missing(&self) -> Vec<String> {
        let missing = self.counts().into_iter().filter(|&(_, count)| count == 0);
        missing.map(|(name, _)| name).collect()
    }

    /// How often each answer, damage and limit occurred, a line each.
    pub fn report(&self) -> String {
        let mut out = format!("{:9} layouts\n", self.layouts);
        for (name, count) in self.counts() {
            let _ = writeln!(out, "{count:9} {name}");
        }
        out
    }

    /// Counts one layout and its answer.
    fn count(&mut self, drawn: &Drawn, kind: Kind, left: &Left) {
        self.layouts += 1;
        self.kinds[kind as usize] += 1;
        match drawn.damages[..] {
            [] => {}
            [damage] => self.damages[damage as usize] += 1,
            _ => self.several[kind as usize] += 1,
        }
        for mut content in left.contents() {
            while let Some((tag, _, rest)) = tlv::split_object(content) {
                if let Some(object) = Object::of_tag(tag.number) {
                    self.rows[object as usize] += 1;
                }
                content = rest;
            }
        }
        let edges = edges(&drawn.layout, kind, left);
        if self.edges.is_empty() {
            self.edges.extend(edges.map(|(edge, _)| (edge, 0)));
        }
        for ((_, count), (_, reached)) in self.edges.iter_mut().zip(edges) {
            *count += u64::from(reached);
        }
    }
}

/// The limits that an answer may reach, and whether it did.
fn edges(layout: &Layout, kind: Kind, left: &Left) -> [(&'static str, bool); 22] {
    let contents = left.contents();
    let some_content = |length| contents.iter().any(|content| content.len() == length);
    let entries: Vec<&[u8]> = layout.entries.chunks(4).collect();
    let some_pair = |test: fn(&[u8], &[u8]) -> bool| {
        let mut pairs = entries
            .iter()
            .flat_map(|a| entries.iter().map(move |b| (a, b)));
        kind == Kind::Written && pairs.any(|(a, b)| test(a, b))
    };
    let written = |test: bool| kind == Kind::Written && test;
    let refused = |kind_due: Kind, test: bool| kind == kind_due && test;
    let objects: usize = contents.iter().map(|content| count(content)).sum();
    let empty_value = |content: &&[u8]| {
        [[0x57, 0], [0x5A, 0], [0x8C, 0]]
            .iter()
            .any(|object| content.starts_with(object))
    };
    let bytes: usize = contents.iter().map(|content| content.len()).sum();
    let number = left.word as u32;
    [
        ("62 entries", written(entries.len() == 62)),
        ("128 records", contents.len() == 128),
        ("content of 253 bytes", some_content(253)),
        ("content of 127 bytes", some_content(127)),
        ("content of 128 bytes", some_content(128)),
        (
            "an empty record beside another",
            some_content(0) && objects > 0,
        ),
        ("no objects", written(objects == 0)),
        ("12 objects", objects >= 12),
        ("an empty value", contents.iter().any(empty_value)),
        (
            "lengths that become shorter",
            written(bytes < layout.objects.len()),
        ),
        (
            "objects of one record in another order than placed",
            written(moved(&layout.placements)),
        ),
        (
            "the same numbers in two files",
            some_pair(|a, b| a[0] != b[0] && a[1..] == b[1..]),
        ),
        (
            "records of one file next to each other",
            some_pair(|a, b| a[0] == b[0] && a[2].checked_add(1) == Some(b[1])),
        ),
        ("file 10", some_pair(|a, _| a[0] == 0x50)),
        ("record 255", some_pair(|a, _| a[2] == 255)),
        (
            "buffer of 32,768 bytes",
            written(layout.records_room == 32_768),
        ),
        (
            "buffer of 32,767 bytes",
            refused(Kind::RecordsBuffer, layout.records_room == 32_767),
        ),
        ("buffer of 248 bytes", written(layout.locator_room == 248)),
        (
            "buffer of 247 bytes",
            refused(Kind::LocatorBuffer, layout.locator_room == 247),
        ),
        ("entry 63 refused", refused(Kind::Entry, number == 63)),
        ("record 0 refused", refused(Kind::Record, number == 0)),
        ("record 129 refused", refused(Kind::Record, number == 129)),
    ]
}

/// How many objects some bytes have.
fn count(mut bytes: &[u8]) -> usize {
    let mut count = 0;
    while let Some((_, _, rest)) = tlv::split_object(bytes) {
        count += 1;
        bytes = rest;
    }
    count
}

/// Whether two objects of one record are placed in another order than the list's.
fn moved(placements: &[u8]) -> bool {
    let pairs: Vec<&[u8]> = placements.chunks_exact(2).collect();
    pairs
        .iter()
        .enumerate()
        .any(|(i, a)| pairs[i..].iter().any(|b| a[0] == b[0] && a[1] > b[1]))
}

/// Makes the call on both sides; an error says what differs.
fn compare(drawn: &Drawn, reached: &mut Reached) -> Result<(), String> {
    let left = expected(&drawn.layout);
    let left_other = make(other, &drawn.layout);
    let Some(kind) = left
        .kind()
        .filter(|&kind| drawn.due.is_none_or(|due| due == kind))
    else {
        return Err(format!(
            "model: {:016X}, but {:?} is due",
            left.word, drawn.due
        ));
    };
    reached.count(drawn, kind, &left);
    if left.word != left_other.word {
        return Err(format!(
            "model: {:016X}; other: {:016X}",
            left.word, left_other.word
        ));
    }
    let differs = |a: &[u8], b: &[u8]| a.iter().zip(b).position(|(a, b)| a != b);
    let buffers = [
        ("records", differs(&left.records, &left_other.records)),
        ("locator", differs(&left.locator, &left_other.locator)),
    ];
    match buffers {
        [(name, Some(at)), _] | [_, (name, Some(at))] => Err(format!("{name} at {at}")),
        _ => Ok(()),
    }
}

/// Makes the call on this many layouts on both sides, from a seed on; an error has the first that differs.
pub fn run_many(layouts: u64, seed: u64) -> Result<Reached, String> {
    let mut reached = Reached::new();
    for seed in seed..seed + layouts {
        let drawn = Drawn::draw(&mut Rng::new(seed));
        compare(&drawn, &mut reached).map_err(|what| describe(seed, &drawn, &what))?;
    }
    Ok(reached)
}

/// A layout that differs, as text.
fn describe(seed: u64, drawn: &Drawn, what: &str) -> String {
    let layout = &drawn.layout;
    let mut out = String::new();
    let _ = writeln!(out, "seed {seed}: {what}");
    let _ = writeln!(out, "damages {:?}", drawn.damages);
    let _ = writeln!(
        out,
        "buffers of {} and {} bytes",
        layout.records_room, layout.locator_room
    );
    let _ = writeln!(out, "objects {}", Hex(&layout.objects));
    let _ = writeln!(out, "entries {}", Hex(&layout.entries));
    let _ = writeln!(out, "placements {}", Hex(&layout.placements));
    out
}

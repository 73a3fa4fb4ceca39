//! Writing the card's side: a list of objects as record templates and an AFL (document 02, Item 4).
//!
//! The layout states which object goes into which record, and is not trusted. Its `entries` are the AFL as proposed.
//! Its `placements` have two bytes each: the number of a record, in AFL order, and of an object, in the list's order,
//! both counted from 1. A layout is accepted as a whole, or refused and nothing is written.

use alloc::vec;
use alloc::vec::Vec;

use crate::dictionary::{Object, Templates};
use crate::tlv;

/// The least length of the buffer for the records: 128 of them, each 70 81 FD and 253 bytes.
pub const RECORDS_ROOM: usize = 32_768;

/// The least length of the buffer for the AFL: 62 entries of 4 bytes.
pub const LOCATOR_ROOM: usize = 248;

/// The most entries of an AFL.
const MOST_ENTRIES: usize = 62;

/// The most records that an AFL names in all.
const MOST_RECORDS: usize = 128;

/// The most bytes inside the template of a record.
const MOST_CONTENT: usize = 253;

/// The last file whose records are templates 70.
const LAST_FILE: u8 = 10;

/// The lengths of what is at the front of the two buffers.
#[derive(Clone, Copy, Debug, PartialEq, Eq)]
pub struct Written {
    /// Bytes of all records.
    pub records: usize,
    /// Bytes of the AFL.
    pub locator: usize,
}

/// Why nothing was written: the first of these that applies, in this order. Entries and records count from 1.
#[derive(Clone, Copy, Debug, PartialEq, Eq)]
pub enum Refusal {
    /// The buffer for the records is too short.
    RecordsBuffer,
    /// The buffer for the AFL is too short.
    LocatorBuffer,
    /// An object is bad, comes twice, or is not placed exactly once.
    List,
    /// The first entry that is bad after those before it; 1 if there is none.
    Entry(usize),
    /// The least number of a bad record; it may be a number that no record has, 0 too.
    Record(usize),
}

/// What was written, or why nothing was.
pub type Answer = Result<Written, Refusal>;

/// The answer as a word: the kind in bits 48 to 55, the AFL's length in bits 32 to 47, and below it the records' length
/// or the number of the entry or record (docs/HOST.md).
pub fn word(answer: Answer) -> u64 {
    let (kind, locator, low) = match answer {
        Ok(written) => (0, written.locator, written.records),
        Err(Refusal::RecordsBuffer) => (1, 0, 0),
        Err(Refusal::LocatorBuffer) => (2, 0, 0),
        Err(Refusal::List) => (3, 0, 0),
        Err(Refusal::Entry(number)) => (4, 0, number),
        Err(Refusal::Record(number)) => (5, 0, number),
    };
    kind << 48 | (locator as u64) << 32 | low as u64
}

/// Writes the records and the AFL to the front of the two buffers. Bytes after stay, and all do after a refusal.
pub fn personalise(
    objects: &[u8],
    entries: &[u8],
    placements: &[u8],
    records: &mut [u8],
    locator: &mut [u8],
) -> Answer {
    if records.len() < RECORDS_ROOM {
        return Err(Refusal::RecordsBuffer);
    }
    if locator.len() < LOCATOR_ROOM {
        return Err(Refusal::LocatorBuffer);
    }
    let layout = Layout::read(placements);
    let list = read_list(objects)
        .filter(|list| layout.places_each_once(list.len()))
        .ok_or(Refusal::List)?;
    let count = count_records(entries).map_err(Refusal::Entry)?;
    if let Some(number) = layout.first_bad_record(&list, count) {
        return Err(Refusal::Record(number));
    }
    let written: Vec<u8> = (1..=count)
        .flat_map(|number| encode(&[0x70], &layout.content(&list, number)))
        .collect();
    records[..written.len()].copy_from_slice(&written);
    locator[..entries.len()].copy_from_slice(entries);
    Ok(Written {
        records: written.len(),
        locator: entries.len(),
    })
}

/// A tag and a value of at most 253 bytes, with the shortest length between them.
fn encode(tag: &[u8], value: &[u8]) -> Vec<u8> {
    let length = value.len() as u8;
    let mut object = tag.to_vec();
    if length < 0x80 {
        object.push(length);
    } else {
        object.extend([0x81, length]);
    }
    object.extend(value);
    object
}

/// The objects of a list, each as it is written; none if one is malformed, not the card's in template 70, does not
/// fit its row or has the tag of one before it.
fn read_list(mut bytes: &[u8]) -> Option<Vec<Vec<u8>>> {
    let mut tags = vec![];
    let mut list = vec![];
    while !bytes.is_empty() {
        let (tag, value, rest) = tlv::split_object(bytes)?;
        if tag.is_template() || tags.contains(&tag.number) {
            return None;
        }
        let row = Object::of_tag(tag.number)?.row();
        if !row.templates.meets(Templates::T70) || !row.fits(value) {
            return None;
        }
        let (_, behind_tag) = tlv::split_tag(bytes)?;
        let tag_bytes = &bytes[..bytes.len() - behind_tag.len()];
        list.push(encode(tag_bytes, value));
        tags.push(tag.number);
        bytes = rest;
    }
    Some(list)
}

/// How many records the entries name in all, or else the number of the first bad entry.
fn count_records(entries: &[u8]) -> Result<usize, usize> {
    let mut named = vec![];
    for (entry, number) in entries.chunks(4).zip(1..) {
        let records = entry_records(entry).ok_or(number)?;
        if number > MOST_ENTRIES || records.iter().any(|record| named.contains(record)) {
            return Err(number);
        }
        named.extend(records);
        if named.len() > MOST_RECORDS {
            return Err(number);
        }
    }
    if named.is_empty() {
        return Err(1);
    }
    Ok(named.len())
}

/// The records of one entry, each by its file and number; none if the entry breaks a rule by itself.
fn entry_records(entry: &[u8]) -> Option<Vec<(u8, u8)>> {
    let &[lead, first, last, 0] = entry else {
        return None;
    };
    let file = lead >> 3;
    let good = lead & 0x07 == 0 && (1..=LAST_FILE).contains(&file) && first != 0 && first <= last;
    good.then(|| (first..=last).map(|number| (file, number)).collect())
}

/// One placement: the object of a number goes into the record of a number.
struct Placement {
    record: usize,
    object: usize,
}

/// Which object goes into which record.
struct Layout {
    placements: Vec<Placement>,
}

impl Layout {
    /// The placements of some bytes. Where the last one has lost its second byte, that reads as 0.
    fn read(bytes: &[u8]) -> Layout {
        let placement = |pair: &[u8]| Placement {
            record: usize::from(pair[0]),
            object: pair.get(1).map_or(0, |&object| usize::from(object)),
        };
        Layout {
            placements: bytes.chunks(2).map(placement).collect(),
        }
    }

    /// Whether each of so many objects is placed exactly once.
    fn places_each_once(&self, objects: usize) -> bool {
        (1..=objects).all(|number| {
            let placed = self.placements.iter().filter(|at| at.object == number);
            placed.count() == 1
        })
    }

    /// The objects of a list that go into a record, in the list's order, concatenated.
    fn content(&self, list: &[Vec<u8>], record: usize) -> Vec<u8> {
        let goes_there = |number| {
            let mut placements = self.placements.iter();
            placements.any(|at| at.record == record && at.object == number)
        };
        let placed = list.iter().zip(1..).filter(|&(_, n)| goes_there(n));
        placed.flat_map(|(object, _)| object).copied().collect()
    }

    /// The least number that is bad of a record, if one is.
    ///
    /// It is bad if it is placed into and the AFL's records, so many, do not have it, if it is to hold an object that
    /// the list does not have, or if its content is too long.
    fn first_bad_record(&self, list: &[Vec<u8>], records: usize) -> Option<usize> {
        let misplaced = |number| {
            let mut here = self.placements.iter().filter(|at| at.record == number);
            here.any(|at| {
                !(1..=records).contains(&number) || !(1..=list.len()).contains(&at.object)
            })
        };
        (0..=usize::from(u8::MAX))
            .find(|&number| misplaced(number) || self.content(list, number).len() > MOST_CONTENT)
    }
}

//! Writing the card's side: a list of objects as the records and the AFL of a card, by a layout that is not trusted.
//! Feature `personalise`; the library is `libpersonalise.a`, an archive of its own.
//!
//! ```
//! use tripodmoon::personalise::{personalise, Refusal, LOCATOR_ROOM, RECORDS_ROOM};
//!
//! let mut records = [0; RECORDS_ROOM];
//! let mut locator = [0; LOCATOR_ROOM];
//! // Object 1 of the list, 9F08, goes into record 1 of the locator, which is record 1 of file 1.
//! let objects = [0x9F, 0x08, 0x02, 0x00, 0x02];
//! let entries = [0x08, 0x01, 0x01, 0x00];
//! let written = personalise(&objects, &entries, &[1, 1], &mut records, &mut locator).unwrap();
//! assert_eq!(written.records, [0x70, 0x05, 0x9F, 0x08, 0x02, 0x00, 0x02]);
//! assert_eq!(written.locator, entries);
//! // Record 2 is not one of the locator's.
//! let refused = personalise(&objects, &entries, &[2, 1], &mut records, &mut locator);
//! assert_eq!(refused, Err(Refusal::Record(2)));
//! ```

#![allow(unsafe_code)]

use core::error::Error;
use core::fmt;

/// The least length of the buffer for the records.
pub const RECORDS_ROOM: usize = 32_768;

/// The least length of the buffer for the AFL.
pub const LOCATOR_ROOM: usize = 248;

extern "C" {
    fn emv_personalise(
        objects: *const u8,
        objects_len: usize,
        entries: *const u8,
        entries_len: usize,
        placements: *const u8,
        placements_len: usize,
        records: *mut u8,
        records_len: usize,
        locator: *mut u8,
        locator_len: usize,
    ) -> u64;
}

/// The call over slices, with its result word as it is (docs/HOST.md).
pub fn word(
    objects: &[u8],
    entries: &[u8],
    placements: &[u8],
    records: &mut [u8],
    locator: &mut [u8],
) -> u64 {
    // SAFETY: each pointer and length are those of one slice; those borrowed for writing overlap nothing.
    unsafe {
        emv_personalise(
            objects.as_ptr(),
            objects.len(),
            entries.as_ptr(),
            entries.len(),
            placements.as_ptr(),
            placements.len(),
            records.as_mut_ptr(),
            records.len(),
            locator.as_mut_ptr(),
            locator.len(),
        )
    }
}

/// What was written. `'b` is the lifetime of the two borrowed buffers; it is at the front of them.
#[derive(Clone, Copy, Debug, PartialEq, Eq)]
pub struct Written<'b> {
    /// The records in AFL order, concatenated, each a template 70.
    pub records: &'b [u8],
    /// The AFL, for 94.
    pub locator: &'b [u8],
}

/// Why nothing was written: the first of these that applies. Both buffers are as before.
#[derive(Clone, Copy, Debug, PartialEq, Eq)]
pub enum Refusal {
    /// The buffer for the records is under [`RECORDS_ROOM`].
    RecordsBuffer,
    /// The buffer for the AFL is under [`LOCATOR_ROOM`].
    LocatorBuffer,
    /// An object of the list is bad, comes twice, or is not placed exactly once.
    List,
    /// The entry of this number is the first that is bad after those before it; 1 if there is none.
    Entry(u32),
    /// The record of this number is the first bad one; a number that no record has, 0 too, if an object is
    /// placed there.
    Record(u32),
}

impl fmt::Display for Refusal {
    /// The words are those of the program `bin/personalise`.
    fn fmt(&self, f: &mut fmt::Formatter<'_>) -> fmt::Result {
        match self {
            Refusal::RecordsBuffer => f.write_str("records buffer shorter than 32,768 bytes"),
            Refusal::LocatorBuffer => f.write_str("locator buffer shorter than 248 bytes"),
            Refusal::List => f.write_str(
                "list: every object must be whole, of a tag for template 70, of a length and digits that fit, \
                 there once and placed once",
            ),
            Refusal::Entry(number) => write!(
                f,
                "entry {number}: must be there, whole and among the first 62, byte 1 eight times a file 1 to 10, \
                 first record not 0, last not below it, byte 4 zero, no record named before, at most 128 in all"
            ),
            Refusal::Record(number) => write!(
                f,
                "record {number}: must be one of the locator's, hold objects of the list only, with at most 253 bytes of content"
            ),
        }
    }
}

impl Error for Refusal {}

/// Writes a list of objects as records and AFL, if its layout keeps every rule.
///
/// `entries` is the AFL as proposed. `placements` has two bytes for each object: the number of its record, in AFL
/// order, and its own in the list, both counted from 1.
///
/// # Panics
///
/// If the linked library gives a word that docs/HOST.md does not have.
pub fn personalise<'b>(
    objects: &[u8],
    entries: &[u8],
    placements: &[u8],
    records: &'b mut [u8],
    locator: &'b mut [u8],
) -> Result<Written<'b>, Refusal> {
    let word = word(objects, entries, placements, records, locator);
    let number = word as u32;
    match word >> 48 {
        0 => Ok(Written {
            records: &records[..number as usize],
            locator: &locator[..(word >> 32) as usize],
        }),
        1 => Err(Refusal::RecordsBuffer),
        2 => Err(Refusal::LocatorBuffer),
        3 => Err(Refusal::List),
        4 => Err(Refusal::Entry(number)),
        5 => Err(Refusal::Record(number)),
        _ => panic!("libpersonalise.a gave an unknown result word"),
    }
}

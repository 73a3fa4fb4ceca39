//! The first object of a tag in a card's bytes, as in the answer to SELECT (docs/HOST.md, `emv_find`).

use alloc::vec::Vec;

use crate::reading::LEVELS;
use crate::tlv;

/// The most bytes that are searched.
const MOST_BYTES: usize = 65_535;

/// What a search finds.
#[derive(Clone, Copy, Debug, PartialEq, Eq)]
pub enum Found {
    /// The first object of the tag.
    Object(Value),
    /// No object has the tag.
    Absent,
    /// The bytes are malformed or too many.
    Malformed,
}

/// The value of an object by its place in the bytes, counted from 0.
#[derive(Clone, Copy, Debug, PartialEq, Eq)]
pub struct Value {
    /// Where it starts.
    pub place: usize,
    /// Its length.
    pub length: usize,
}

/// The first object of a tag in bytes that are read as the contents of a template. A template comes before
/// what it holds.
pub fn find(bytes: &[u8], tag: u32) -> Found {
    let mut objects = Vec::new();
    if bytes.len() > MOST_BYTES || list_objects(bytes, 0, LEVELS, &mut objects).is_none() {
        return Found::Malformed;
    }
    let mut of_tag = objects.iter().filter(|(number, _)| *number == tag);
    of_tag
        .next()
        .map_or(Found::Absent, |&(_, value)| Found::Object(value))
}

/// The answer as a word: place and length in 32 bits each, or one of the two greatest numbers (docs/HOST.md).
pub fn word(found: Found) -> u64 {
    match found {
        Found::Object(Value { place, length }) => (place as u64) << 32 | length as u64,
        Found::Absent => u64::MAX,
        Found::Malformed => u64::MAX - 1,
    }
}

/// Lists the objects of a template's contents, which start at `from` of all bytes, by tag and value; none if they
/// are malformed.
///
/// `levels` is how many templates may nest inside.
fn list_objects(
    contents: &[u8],
    from: usize,
    levels: u32,
    list: &mut Vec<(u32, Value)>,
) -> Option<()> {
    let end = from + contents.len();
    let mut rest = tlv::skip_padding(contents);
    while !rest.is_empty() {
        let (tag, value, behind) = tlv::split_object(rest)?;
        let place = end - behind.len() - value.len();
        let length = value.len();
        list.push((tag.number, Value { place, length }));
        if tag.is_template() {
            list_objects(value, place, levels.checked_sub(1)?, list)?;
        }
        rest = tlv::skip_padding(behind);
    }
    Some(())
}

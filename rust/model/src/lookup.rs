//! A start object out of a site's bytes, else out of the maker's defaults (document 02, Item 14).
//!
//! Both are whole primitive objects concatenated, without padding. Bytes from a broken object or a template on hold
//! nothing, and the first object of a tag counts.

use core::ops::Range;

use crate::tlv;

/// The word where the bytes are too many to be told apart by 32 bits.
pub const TOO_MANY: u64 = u64::MAX;

/// The value of a tag, in place: the site's if the site has one, though it be empty, else that of the defaults. A tag
/// in neither gives an empty part of the defaults.
pub fn lookup<'a>(site: &'a [u8], defaults: &'a [u8], tag: u32) -> &'a [u8] {
    match (place(site, tag), place(defaults, tag)) {
        (Some(place), _) => &site[place],
        (None, Some(place)) => &defaults[place],
        (None, None) => &defaults[..0],
    }
}

/// Which list has a tag: the number that a word has for it.
#[derive(Clone, Copy, Debug, PartialEq, Eq)]
pub enum Source {
    /// Neither list.
    Nowhere = 0,
    /// The site's list.
    Site = 1,
    /// The defaults, and not the site's list.
    Defaults = 2,
}

/// Which list a value comes out of: the site's if the tag is there, though its value be empty, else the defaults.
pub fn source(site: &[u8], defaults: &[u8], tag: u32) -> Source {
    match (place(site, tag), place(defaults, tag)) {
        (Some(_), _) => Source::Site,
        (None, Some(_)) => Source::Defaults,
        (None, None) => Source::Nowhere,
    }
}

/// Where that value lies, as a word: its start, counted over the site's bytes and then the defaults', in bits 32 to
/// 63, its source in bits 16 and 17, and its length in bits 0 to 15. A tag in neither has length 0 at the front of
/// the defaults.
pub fn find(site: &[u8], defaults: &[u8], tag: u32) -> u64 {
    if too_many(site.len(), defaults.len()) {
        return TOO_MANY;
    }
    let in_defaults = |place: Range<usize>| site.len() + place.start..site.len() + place.end;
    let place = place(site, tag)
        .or_else(|| place(defaults, tag).map(in_defaults))
        .unwrap_or(site.len()..site.len());
    let source = source(site, defaults, tag) as u64;
    (place.start as u64) << 32 | source << 16 | place.len() as u64
}

/// Whether so many bytes of a site and of defaults are not examined: 2 to the 32 or more together.
pub fn too_many(site: usize, defaults: usize) -> bool {
    site as u128 + defaults as u128 >= 1 << 32
}

/// Where the value of the first object of a tag lies in some bytes, if it is present.
fn place(bytes: &[u8], tag: u32) -> Option<Range<usize>> {
    let mut rest = bytes;
    while let Some((found, value, behind)) = tlv::split_object(rest) {
        if found.is_template() {
            return None;
        }
        if found.number == tag {
            let end = bytes.len() - behind.len();
            return Some(end - value.len()..end);
        }
        rest = behind;
    }
    None
}

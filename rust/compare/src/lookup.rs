//! The lookup of a start object in a site's list and the maker's defaults, by the model and by the library.

use crate::objects::{self, TEMPLATES, UNKNOWN};
use crate::rng::Rng;
use crate::step::Hex;
use crate::{damage, never};
use model::dictionary::{Object, REQUIRED_AT_START, ROWS};
use model::lookup::{self, lookup, Source};
use model::tlv;

/// The side that is compared with the model: the library's word of one lookup, and what the wrapper makes of it.
#[cfg(feature = "cabinet")]
mod other {
    use model::lookup::Source;
    use tripodmoon::cabinet::{self, Found};

    pub use tripodmoon::cabinet::calls::find;

    /// The source and the part that the wrapper gives, if it gives any.
    pub fn part<'a>(site: &'a [u8], defaults: &'a [u8], tag: u32) -> Option<(Source, &'a [u8])> {
        let (source, value) = match cabinet::find(site, defaults, tag)? {
            Found::Site(value) => (Source::Site, Some(value)),
            Found::Defaults(value) => (Source::Defaults, Some(value)),
            Found::Nowhere => (Source::Nowhere, None),
        };
        let part = cabinet::lookup(site, defaults, tag)?;
        let agrees = value.map_or(true, |value| super::is_same(value, part));
        agrees.then_some((source, part))
    }
}

/// Without the library the model is compared with itself.
#[cfg(not(feature = "cabinet"))]
mod other {
    use model::lookup::{self, Source};

    pub use model::lookup::find;

    pub fn part<'a>(site: &'a [u8], defaults: &'a [u8], tag: u32) -> Option<(Source, &'a [u8])> {
        let source = lookup::source(site, defaults, tag);
        Some((source, lookup::lookup(site, defaults, tag)))
    }
}

/// What some lookups reached.
#[derive(Clone, Debug, Default, PartialEq, Eq)]
pub struct Reached {
    /// Lookups made.
    pub lookups: u64,
    /// Found in the site, in the defaults, in neither.
    pub places: [u64; 3],
    /// Found in the site with a value in the defaults that is not empty: not empty in the site, empty there.
    pub preferred: [u64; 2],
    /// Found with another of the tag after: in the site, in the defaults.
    pub first_of_several: [u64; 2],
    /// Not found in a list that has the tag after a template, after padding, after other broken bytes.
    pub behind: [u64; 3],
    /// Not found in a list whose last object has the tag and is truncated.
    pub cut: u64,
    /// Known tags found, and unknown ones.
    pub tags: [u64; 2],
    /// Tags of templates, which are never found though they are present.
    pub templates: u64,
    /// Values found of 0, 1 to 127, 128 to 255 and more bytes.
    pub lengths: [u64; 4],
    /// Empty values at the very end of the site, and of the defaults; tags in neither where the site ends with an
    /// empty value.
    pub empty_at_end: [u64; 3],
    /// No site, no defaults, neither.
    pub no_bytes: [u64; 3],
    /// Starts above 65,535.
    pub far: u64,
}

impl Reached {
    /// What should be reached and never was.
    pub fn missing(&self) -> Vec<String> {
        let mut missing = Vec::new();
        let mut need = |counts: &[u64], what: &str| missing.extend(never(counts, what));
        need(&self.places, "place");
        need(&self.preferred, "preferred");
        need(&self.first_of_several, "first of several");
        need(&self.behind, "behind the end of the walk");
        need(&[self.cut], "cut");
        need(&self.tags, "tag");
        need(&[self.templates], "template");
        need(&self.lengths, "length");
        need(&self.empty_at_end, "empty at the end");
        need(&self.no_bytes, "no bytes");
        need(&[self.far], "far");
        missing
    }

    /// Counts a lookup.
    fn count(&mut self, drawn: &Drawn) {
        self.lookups += 1;
        let Drawn {
            site,
            defaults,
            tag,
        } = drawn;
        let (in_site, in_defaults) = (Walk::of(site, *tag), Walk::of(defaults, *tag));
        let walks = [&in_site, &in_defaults];
        let found = walks.iter().position(|walk| walk.found.is_some());
        self.places[found.unwrap_or(2)] += 1;
        if let (Some(length), Some(1..)) = (in_site.found, in_defaults.found) {
            self.preferred[usize::from(length == 0)] += 1;
        }
        if let Some(list) = found {
            let length = walks[list].found.unwrap_or(0);
            self.first_of_several[list] += u64::from(walks[list].again);
            self.tags[usize::from(Object::of_tag(*tag).is_none())] += 1;
            self.lengths[match length {
                0 => 0,
                1..=127 => 1,
                128..=255 => 2,
                _ => 3,
            }] += 1;
        }
        for walk in walks.into_iter().filter(|walk| walk.found.is_none()) {
            if let (Some(end), true) = (walk.end, walk.again) {
                self.behind[end as usize] += 1;
            }
            self.cut += u64::from(walk.cut);
            self.templates += u64::from(walk.is_template);
        }
        self.no_bytes[0] += u64::from(site.is_empty());
        self.no_bytes[1] += u64::from(defaults.is_empty());
        self.no_bytes[2] += u64::from(site.is_empty() && defaults.is_empty());
        let start = (lookup::find(site, defaults, *tag) >> 32) as usize;
        let at_end = match found {
            Some(0) => start == site.len(),
            Some(_) => start == site.len() + defaults.len(),
            None => ends_empty(site),
        };
        self.empty_at_end[found.unwrap_or(2)] += u64::from(at_end);
        self.far += u64::from(start > 65_535);
    }
}

/// What ends a walk before the end of the bytes.
#[derive(Clone, Copy)]
enum End {
    Template,
    Padding,
    Broken,
}

/// One list seen with a tag.
#[derive(Default)]
struct Walk {
    /// The length of the value that is found.
    found: Option<usize>,
    /// What ended the walk.
    end: Option<End>,
    /// Whether another whole object of the tag stands anywhere after what was found or after the end.
    again: bool,
    /// Whether the walk ended at an object of the tag that is truncated.
    cut: bool,
    /// Whether the walk ended at a template of the tag.
    is_template: bool,
}

impl Walk {
    fn of(list: &[u8], tag: u32) -> Walk {
        let mut walk = Walk::default();
        let mut rest = list;
        while !rest.is_empty() {
            let Some((found, value, behind)) = tlv::split_object(rest) else {
                walk.cut = tlv::split_tag(rest).is_some_and(|(cut, _)| cut.number == tag);
                walk.end = Some(match rest[0] {
                    0 => End::Padding,
                    _ => End::Broken,
                });
                walk.again = (1..rest.len()).any(|at| is_object(&rest[at..], tag));
                break;
            };
            rest = behind;
            if found.is_template() {
                walk.is_template = found.number == tag;
                walk.end = Some(End::Template);
                walk.again = is_object(behind, tag);
                break;
            }
            if found.number == tag {
                walk.found = Some(value.len());
                walk.again = is_object(behind, tag);
                break;
            }
        }
        walk
    }
}

/// Whether a list of whole primitive objects ends with an empty value.
fn ends_empty(list: &[u8]) -> bool {
    let mut rest = list;
    while let Some((found, value, behind)) = tlv::split_object(rest) {
        if found.is_template() {
            return false;
        }
        if behind.is_empty() {
            return value.is_empty();
        }
        rest = behind;
    }
    false
}

/// Whether two parts are one: the same bytes in the same place.
fn is_same(part: &[u8], other: &[u8]) -> bool {
    part.as_ptr() == other.as_ptr() && part.len() == other.len()
}

/// Whether some bytes begin with a whole object of a tag.
fn is_object(bytes: &[u8], tag: u32) -> bool {
    tlv::split_object(bytes).is_some_and(|(found, _, _)| found.number == tag)
}

/// One lookup: the two lists and a tag.
struct Drawn {
    site: Vec<u8>,
    defaults: Vec<u8>,
    tag: u32,
}

impl Drawn {
    /// Draws a lookup of few tags, so that both lists often have one.
    fn draw(rng: &mut Rng) -> Drawn {
        let tags = [
            rng.pick(&REQUIRED_AT_START).row().tag,
            rng.pick(&UNKNOWN),
            ROWS[rng.below(ROWS.len())].tag,
            rng.pick(&[0x9C, 0x9F1A, 0xDF8123]),
        ];
        let [site, defaults] = [(); 2].map(|()| list(rng, &tags));
        let tag = match rng.below(12) {
            0 => rng.pick(&[0x00, 0x70, 0x77, 0x9F, 0x9C00, 0xFFFF_FFFF]),
            1 => rng.pick(&TEMPLATES),
            _ => rng.pick(&tags),
        };
        Drawn {
            site,
            defaults,
            tag,
        }
    }

    /// Looks the tag up on both sides; an error says what differs, or that the word or the other side names
    /// another part.
    fn compare(&self) -> Result<(), String> {
        let (site, defaults) = (&self.site[..], &self.defaults[..]);
        let word = lookup::find(site, defaults, self.tag);
        let word_other = other::find(site, defaults, self.tag);
        if word != word_other {
            return Err(format!("model {word:016X}, other {word_other:016X}"));
        }
        let (start, length) = ((word >> 32) as usize, word as u16 as usize);
        let (source, list, at) = match word >> 16 & 0xFFFF {
            0 => (Source::Nowhere, defaults, start.checked_sub(site.len())),
            1 => (Source::Site, site, Some(start)),
            2 => (Source::Defaults, defaults, start.checked_sub(site.len())),
            _ => return Err(format!("{word:016X} has no source")),
        };
        let part = lookup(site, defaults, self.tag);
        let named = at.and_then(|at| list.get(at..at + length));
        if !named.is_some_and(|named| is_same(named, part)) {
            return Err(format!("{word:016X} is not where the value stands"));
        }
        let of_other = other::part(site, defaults, self.tag);
        if !of_other.is_some_and(|(from, other)| from == source && is_same(other, part)) {
            return Err(format!("{word:016X}: the other side has {of_other:?}"));
        }
        Ok(())
    }
}

/// A list of objects of some tags; in part with a template, padding or broken bytes in it, damaged, or long.
fn list(rng: &mut Rng, tags: &[u32]) -> Vec<u8> {
    let count = rng.pick(&[0, 1, 2, 3, 5, 8]);
    let mut list: Vec<Vec<u8>> = (0..count).map(|_| any_object(rng, tags)).collect();
    if rng.one_in(4) {
        let stop = match rng.below(3) {
            0 => {
                let tag = rng.pick(&TEMPLATES);
                let contents = rng.pick(&[&[][..], &[0x9C, 0x01, 0x00]]);
                objects::object(rng, tag, contents)
            }
            1 => vec![0x00; rng.within(1..=3)],
            _ => objects::broken(rng).to_vec(),
        };
        let at = rng.within(0..=list.len());
        list.insert(at, stop);
    }
    let mut bytes = list.concat();
    match rng.below(16) {
        0 => damage::bytes(rng, &mut bytes),
        1 => bytes.truncate(bytes.len().saturating_sub(1)),
        _ => {}
    }
    bytes
}

/// An object of one of the tags: mostly a short value, one of many empty, one of many long.
fn any_object(rng: &mut Rng, tags: &[u32]) -> Vec<u8> {
    let tag = rng.pick(tags);
    let length = match rng.below(1000) {
        0 => rng.pick(&[65_535, 65_534]),
        1..=9 => rng.within(256..=2000),
        10..=39 => rng.pick(&[127, 128, 255, 256]),
        40..=239 => 0,
        _ => rng.within(1..=12),
    };
    let value = rng.bytes(length);
    objects::object(rng, tag, &value)
}

/// Makes this many lookups on both sides, from a seed on; an error has the first that differs.
pub fn run_many(lookups: u64, seed: u64) -> Result<Reached, String> {
    let mut reached = Reached::default();
    for seed in seed..seed + lookups {
        let drawn = Drawn::draw(&mut Rng::new(seed));
        reached.count(&drawn);
        drawn.compare().map_err(|what| {
            let (site, defaults) = (Hex(&drawn.site), Hex(&drawn.defaults));
            let tag = drawn.tag;
            format!("seed {seed}: {what}\ntag {tag:X}\nsite {site}\ndefaults {defaults}")
        })?;
    }
    Ok(reached)
}

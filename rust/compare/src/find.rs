//! The search for a tag in a card's bytes, by the model and by the library.

use crate::objects::{self, TEMPLATES, UNKNOWN};
use crate::rng::Rng;
use crate::step::Hex;
use crate::{card, damage, never, reading};
use model::dictionary::ROWS;
use model::find::Found;
use model::tlv;

/// The side that is compared with the model: the library's word of one search.
#[cfg(feature = "library")]
use tripodmoon::calls::find as other;

/// Without the library the model is compared with itself.
#[cfg(not(feature = "library"))]
use model::find as other;

/// What some searches reached.
#[derive(Clone, Debug, Default, PartialEq, Eq)]
pub struct Reached {
    /// Searches made.
    pub searches: u64,
    /// Bytes that are malformed, and bytes that are too many.
    pub malformed: [u64; 2],
    /// Well-formed bytes without the tag: no bytes, nothing but 00, others.
    pub absent: [u64; 3],
    /// Objects found by how many templates are around them, 0 to 4.
    pub around: [u64; 5],
    /// Primitive objects found, and templates.
    pub kinds: [u64; 2],
    /// Objects found after padding.
    pub behind_padding: u64,
    /// Objects found with another of their tag after or inside.
    pub first_of_several: u64,
    /// Empty values found, and values that start above 65,000.
    pub values: [u64; 2],
}

impl Reached {
    /// What should be reached and never was.
    pub fn missing(&self) -> Vec<String> {
        let mut missing = Vec::new();
        let mut need = |counts: &[u64], what: &str| missing.extend(never(counts, what));
        need(&self.malformed, "malformed");
        need(&self.absent, "absent");
        need(&self.around, "templates around");
        need(&self.kinds, "kind");
        need(&[self.behind_padding], "behind padding");
        need(&[self.first_of_several], "first of several");
        need(&self.values, "empty or far value");
        missing
    }

    /// Counts a search.
    fn count(&mut self, search: &Search) {
        self.searches += 1;
        let bytes = &search.bytes;
        match model::find::find(bytes, search.tag) {
            Found::Malformed => self.malformed[usize::from(bytes.len() > 65_535)] += 1,
            Found::Absent if bytes.is_empty() => self.absent[0] += 1,
            Found::Absent if tlv::skip_padding(bytes).is_empty() => self.absent[1] += 1,
            Found::Absent => self.absent[2] += 1,
            Found::Object(value) => {
                self.values[0] += u64::from(value.length == 0);
                self.values[1] += u64::from(value.place > 65_000);
                self.count_found(search);
            }
        }
    }

    /// Counts where the object found is.
    fn count_found(&mut self, search: &Search) {
        let mut objects = search.objects();
        objects.retain(|object| object.tag == search.tag);
        let found = &objects[0];
        self.around[found.around] += 1;
        self.kinds[usize::from(found.is_template)] += 1;
        self.behind_padding += u64::from(found.behind_padding);
        self.first_of_several += u64::from(objects.len() > 1);
    }
}

/// An object of the bytes that are searched.
struct Object {
    tag: u32,
    is_template: bool,
    /// How many templates are around it.
    around: usize,
    /// Whether padding stands anywhere before it.
    behind_padding: bool,
}

/// Lists the objects of contents, a template before what it holds, up to the first bytes that are none.
fn list_objects(contents: &[u8], around: usize, mut behind_padding: bool, list: &mut Vec<Object>) {
    let mut rest = contents;
    loop {
        let next = tlv::skip_padding(rest);
        behind_padding |= next.len() < rest.len();
        let Some((tag, value, behind)) = tlv::split_object(next) else {
            return;
        };
        list.push(Object {
            tag: tag.number,
            is_template: tag.is_template(),
            around,
            behind_padding,
        });
        if tag.is_template() {
            list_objects(value, around + 1, behind_padding, list);
        }
        rest = behind;
    }
}

/// One search: some bytes and a tag.
struct Search {
    bytes: Vec<u8>,
    tag: u32,
}

impl Search {
    /// Draws a search, mostly for a tag that is present.
    fn draw(rng: &mut Rng) -> Search {
        let mut search = Search {
            bytes: bytes(rng),
            tag: 0,
        };
        let there = search.objects();
        search.tag = match rng.below(8) {
            0 => rng.pick(&UNKNOWN),
            1 => rng.pick(&TEMPLATES),
            2 => ROWS[rng.below(ROWS.len())].tag,
            3 => rng.pick(&[0x00, 0x70, 0x77, 0xFFFF_FFFF, 0x0000_009F]),
            _ if there.is_empty() => rng.byte().into(),
            _ => there[rng.below(there.len())].tag,
        };
        search
    }

    /// The objects of the bytes.
    fn objects(&self) -> Vec<Object> {
        let mut list = Vec::new();
        list_objects(&self.bytes, 0, false, &mut list);
        list
    }

    /// Searches on both sides; an error says what differs.
    fn compare(&self) -> Result<(), String> {
        let word = model::find(&self.bytes, self.tag);
        let word_other = other(&self.bytes, self.tag);
        if word != word_other {
            return Err(format!("model {word:016X}, other {word_other:016X}"));
        }
        Ok(())
    }
}

/// Bytes of a card: an answer's body, trees concatenated, many bytes; some of them damaged.
fn bytes(rng: &mut Rng) -> Vec<u8> {
    let mut bytes = match rng.below(200) {
        0 => many_bytes(rng),
        1 => vec![0x00; rng.below(4)],
        2..=60 => {
            let session = damage::built_record(rng);
            let faults = rng.one_in(2);
            let mut answer = card::answer(rng, &session, faults);
            answer.truncate(answer.len().saturating_sub(2));
            answer
        }
        _ => {
            let trees: Vec<Vec<u8>> = (0..rng.below(4)).map(|_| reading::any_tree(rng)).collect();
            objects::contents(rng, &trees)
        }
    };
    if rng.one_in(8) {
        damage::bytes(rng, &mut bytes);
    }
    bytes
}

/// About as many bytes as are searched, with an object at the front and one at the end.
fn many_bytes(rng: &mut Rng) -> Vec<u8> {
    let last = reading::any_tree(rng);
    let total = rng.pick(&[65_534, 65_535, 65_535, 65_536, 65_537]);
    let room = total - last.len();
    let mut bytes = if rng.one_in(2) {
        vec![0x00; room]
    } else {
        let length = (room - 4) as u16;
        let mut object = vec![0x50, 0x82];
        object.extend(length.to_be_bytes());
        object.extend(rng.bytes(usize::from(length)));
        object
    };
    bytes.extend(last);
    bytes
}

/// Makes this many searches on both sides, from a seed on; an error has the first that differs.
pub fn run_many(searches: u64, seed: u64) -> Result<Reached, String> {
    let mut reached = Reached::default();
    for seed in seed..seed + searches {
        let search = Search::draw(&mut Rng::new(seed));
        reached.count(&search);
        search.compare().map_err(|what| {
            let bytes = Hex(&search.bytes);
            format!("seed {seed}: {what}\ntag {:X}\nbytes {bytes}", search.tag)
        })?;
    }
    Ok(reached)
}

//! Padding in what is drawn (document 02, Item 6): where runs of 00 are, and what would be read if more were skipped.

use model::dictionary::Object;
use model::reading::{self, LEVELS};
use model::store::{self, Store};
use model::{dol, tlv};

/// Where padding is in a template: before its first object, between two, after the last, and without any.
#[derive(Clone, Copy)]
enum Place {
    Before,
    Between,
    Behind,
    Alone,
}

/// What single readings reached.
#[derive(Clone, Debug, Default, PartialEq, Eq)]
pub struct InReadings {
    /// Well-formed answers by the level of a padded template, 1 to 4, and by the padding's place: before, between,
    /// after, alone.
    pub places: [[u64; 4]; 4],
    /// Padded answers that were accepted, by answer.
    pub accepted: [u64; 4],
    /// Padded answers with reason 3.
    pub not_allowed: u64,
    /// Padded answers of another outer tag.
    pub other_template: u64,
    /// Answers that nest too deep, with padding alone in the fifth template.
    pub too_deep: u64,
    /// Answers that are malformed because of 00 before the outer object, after it, both, and for want of one.
    pub outside: [u64; 4],
    /// Answers that are malformed, and would not be if FF were padding.
    pub other_byte: u64,
    /// Answers under 80 that are refused, and would not be without the last byte, a 00.
    pub in_format_1: u64,
    /// Primitive objects whose values are nothing but 00, in answers that were accepted.
    pub zero_values: u64,
}

impl InReadings {
    /// The counts, with what each is of.
    pub fn counts(&self) -> [(&'static str, &[u64]); 9] {
        [
            ("padding by level and place", self.places.as_flattened()),
            ("padding accepted, answer", &self.accepted),
            ("padding with reason 3", from(&self.not_allowed)),
            ("padding under another tag", from(&self.other_template)),
            ("padding in a fifth level", from(&self.too_deep)),
            ("padding outside", &self.outside),
            ("FF as padding", from(&self.other_byte)),
            ("padding in a body of 80", from(&self.in_format_1)),
            ("value of zeros", from(&self.zero_values)),
        ]
    }

    /// Counts one reading of a card's bytes, which gave this reason and count.
    pub fn count(&mut self, answer: usize, card: &[u8], reason: u8, count: u32) {
        let Ok(body) = reading::body(card) else {
            return;
        };
        let Some((tag, value, [])) = tlv::split_object(body) else {
            self.count_outside(body);
            return;
        };
        if !tag.is_template() {
            let shorter = value.strip_suffix(&[0x00]).map_or(0, <[u8]>::len);
            let whole = [
                shorter >= 6 && shorter % 4 == 2,
                false,
                shorter == 43,
                false,
            ];
            let refused = tag.number == 0x80 && reason == 2;
            self.in_format_1 += u64::from(refused && whole[answer]);
        } else if count > 0 {
            self.count_well_formed(answer, value, reason);
        } else if is_tree(value, LEVELS, &[0x00]) {
            self.count_deep(value);
        } else if is_tree(value, LEVELS - 1, &[0x00, 0xFF]) {
            self.other_byte += 1;
        }
    }

    /// Counts an answer that is not one object, and is one without the 00 around it.
    fn count_outside(&mut self, body: &[u8]) {
        let behind_front = tlv::skip_padding(body);
        let behind = body.iter().rev().take_while(|&&byte| byte == 0x00).count();
        let is_object = |bytes: &[u8]| matches!(tlv::split_object(bytes), Some((_, _, [])));
        let without_end = &body[..body.len() - behind];
        if is_object(behind_front) {
            self.outside[0] += 1;
        } else if (without_end.len()..body.len()).any(|end| is_object(&body[..end])) {
            self.outside[1] += 1;
        } else if (without_end.len()..body.len())
            .any(|end| is_object(tlv::skip_padding(&body[..end])))
        {
            self.outside[2] += 1;
        } else if !body.is_empty() && behind_front.is_empty() {
            self.outside[3] += 1;
        }
    }

    /// Counts the padding of a well-formed answer by the contents of its outer template.
    fn count_well_formed(&mut self, answer: usize, contents: &[u8], reason: u8) {
        let mut padded = false;
        tell_padding(contents, 1, &mut |level, place| {
            padded = true;
            self.places[level - 1][place as usize] += 1;
        });
        if padded {
            match reason {
                0 => self.accepted[answer] += 1,
                2 => self.other_template += 1,
                _ => self.not_allowed += 1,
            }
        }
        self.zero_values += u64::from(reason == 0 && has_zero_value(contents));
    }

    /// Counts an answer with a fifth level of templates.
    fn count_deep(&mut self, contents: &[u8]) {
        tell_padding(contents, 1, &mut |level, place| {
            self.too_deep += u64::from(level == 5 && matches!(place, Place::Alone));
        });
    }
}

/// One count as a list.
fn from(count: &u64) -> &[u64] {
    std::slice::from_ref(count)
}

/// Whether contents are a tree of at most so many levels of templates where these bytes are skipped before a tag.
fn is_tree(contents: &[u8], levels: u32, passed_over: &[u8]) -> bool {
    let mut rest = contents;
    loop {
        while let Some((byte, behind)) = rest.split_first() {
            if !passed_over.contains(byte) {
                break;
            }
            rest = behind;
        }
        if rest.is_empty() {
            return true;
        }
        let Some((tag, value, behind)) = tlv::split_object(rest) else {
            return false;
        };
        if tag.is_template() && (levels == 0 || !is_tree(value, levels - 1, passed_over)) {
            return false;
        }
        rest = behind;
    }
}

/// Reports each run of 00 in the contents of a template of this level, and in the templates inside.
fn tell_padding(contents: &[u8], level: usize, told: &mut impl FnMut(usize, Place)) {
    let (mut rest, mut objects) = (contents, 0);
    loop {
        let next = tlv::skip_padding(rest);
        if next.len() < rest.len() {
            let place = match (objects, next.is_empty()) {
                (0, true) => Place::Alone,
                (0, false) => Place::Before,
                (_, true) => Place::Behind,
                (_, false) => Place::Between,
            };
            told(level, place);
        }
        let Some((tag, value, behind)) = tlv::split_object(next) else {
            return;
        };
        if tag.is_template() {
            tell_padding(value, level + 1, told);
        }
        objects += 1;
        rest = behind;
    }
}

/// Whether a primitive object of a template has a value of nothing but 00.
fn has_zero_value(contents: &[u8]) -> bool {
    let mut rest = tlv::skip_padding(contents);
    while let Some((tag, value, behind)) = tlv::split_object(rest) {
        if !tag.is_template() && !value.is_empty() && value.iter().all(|&byte| byte == 0x00) {
            return true;
        }
        rest = tlv::skip_padding(behind);
    }
    false
}

/// Whether an answer is one template with padding somewhere inside.
pub fn is_padded(card: &[u8]) -> bool {
    let Ok(body) = reading::body(card) else {
        return false;
    };
    let Some((tag, value, [])) = tlv::split_object(body) else {
        return false;
    };
    let mut padded = false;
    if tag.is_template() {
        tell_padding(value, 1, &mut |_, _| padded = true);
    }
    padded
}

/// Whether start bytes are broken, and would not be if 00 were skipped.
pub fn breaks_start(terminal: &[u8]) -> bool {
    is_tree(terminal, 0, &[0x00]) && !is_tree(terminal, 0, &[])
}

/// Whether a DOL of the store is broken, and would not be if 00 were skipped.
pub fn breaks_list(store: &Store, object: Object) -> bool {
    let Some(list) = store::get(store, object) else {
        return false;
    };
    let mut rest = tlv::skip_padding(list);
    while let Some((_, [_, behind @ ..])) = tlv::split_tag(rest) {
        rest = tlv::skip_padding(behind);
    }
    rest.is_empty() && dol::filled_length(list).is_none()
}

//! A plain reader of a card's answer, written to measure the library's two readers against (document 02, Item 10).
//!
//! It goes through the body once and keeps the open templates in an array. The objects to be stored are listed on the
//! way and stored at the end, so that an answer is stored whole or not at all without a copy of the store. The known
//! tags and their places are the model's; all else is written apart from it, so that the comparison of the readers has
//! one implementation more.

#![no_std]
#![forbid(unsafe_code)]

use model::dictionary::{Answers, Object, Templates, COUNT, ROWS};
use model::store::Store;

/// The greatest depth of templates; the outer one is the first.
const LEVELS: usize = 4;

/// The most objects in the outer template of an answer: of two bytes each, in at most 253.
const MOST_OBJECTS: usize = 126;

/// What [`read`] gives where the store has another size or the number is no answer.
pub const NOT_READ: u32 = 0xFFFF_FFFF;

/// The reasons by their numbers.
const STATUS: u32 = 1;
const MALFORMED: u32 = 2;
const NOT_ALLOWED: u32 = 3;

/// The command that an answer belongs to.
#[derive(Clone, Copy, PartialEq, Eq)]
enum AnswerTo {
    Options,
    Record,
    Cryptogram,
    Checksum,
}

/// Reads an answer, status bytes included, to GPO (0), a record of this file (1), the cryptogram (2) or the
/// checksum (3).
///
/// Gives the reason in bits 16 to 23 and the object count below, or [`NOT_READ`].
pub fn read(store: &mut [u8], awaited: u32, file: u8, card: &[u8]) -> u32 {
    let Ok(store) = <&mut Store>::try_from(store) else {
        return NOT_READ;
    };
    let to = match awaited {
        0 => AnswerTo::Options,
        1 => AnswerTo::Record,
        2 => AnswerTo::Cryptogram,
        3 => AnswerTo::Checksum,
        _ => return NOT_READ,
    };
    let Some((body, status)) = card.split_last_chunk() else {
        return word(MALFORMED, 0);
    };
    if card.len() > 258 {
        return word(MALFORMED, 0);
    }
    if *status != [0x90, 0x00] {
        return word(STATUS, 0);
    }
    if to == AnswerTo::Record && file > 10 {
        return word(0, 0);
    }
    read_body(store, to, body)
}

fn word(reason: u32, count: u32) -> u32 {
    reason << 16 | count
}

/// Reads an answer without its status bytes.
fn read_body(store: &mut Store, to: AnswerTo, body: &[u8]) -> u32 {
    let Some((tag, value, [])) = split_object(body) else {
        return word(MALFORMED, 0);
    };
    if !tag.is_template() {
        let reason = match tag.number {
            0x80 => read_values(store, to, value),
            _ => MALFORMED,
        };
        return word(reason, 1);
    }
    let mut walk = Walk {
        store,
        to,
        body,
        count: 1,
        allowed: true,
        filled: [false; COUNT],
        listed: [Listed::default(); MOST_OBJECTS],
        length: 0,
    };
    if walk.objects(tag.number, value).is_none() {
        return word(MALFORMED, 0);
    }
    let count = walk.count;
    let wanted = if to == AnswerTo::Record { 0x70 } else { 0x77 };
    if tag.number != wanted {
        return word(MALFORMED, count);
    }
    if !walk.allowed {
        return word(NOT_ALLOWED, count);
    }
    for object in &walk.listed[..walk.length] {
        let value = &body[usize::from(object.start)..][..usize::from(object.length)];
        put(store, usize::from(object.row), value);
    }
    word(0, count)
}

/// Reads a body of tag 80, whose values are concatenated; gives the reason.
fn read_values(store: &mut Store, to: AnswerTo, body: &[u8]) -> u32 {
    match *body {
        [a, b, ref locator @ ..] if to == AnswerTo::Options => {
            if !(4..=248).contains(&locator.len()) || locator.len() % 4 != 0 {
                return MALFORMED;
            }
            let profile = [a, b];
            let values = [
                (Object::InterchangeProfile, &profile[..]),
                (Object::FileLocator, locator),
            ];
            put_all(store, &values)
        }
        [information, a, b, ref rest @ ..] if to == AnswerTo::Cryptogram => {
            if !(8..=40).contains(&rest.len()) {
                return MALFORMED;
            }
            let (cryptogram, data) = rest.split_at(8);
            let values = [
                (Object::CryptogramInformation, &[information][..]),
                (Object::TransactionCounter, &[a, b]),
                (Object::Cryptogram, cryptogram),
                (Object::IssuerApplicationData, data),
            ];
            put_all(store, &values[..if data.is_empty() { 3 } else { 4 }])
        }
        _ => MALFORMED,
    }
}

/// Stores values that fit their rows, or none where one is present and not empty; gives the reason.
fn put_all(store: &mut Store, values: &[(Object, &[u8])]) -> u32 {
    if values
        .iter()
        .any(|&(object, _)| store[object.row().place] > 1)
    {
        return NOT_ALLOWED;
    }
    for &(object, value) in values {
        put(store, object as usize, value);
    }
    0
}

/// Stores a value that fits its row.
fn put(store: &mut Store, row: usize, value: &[u8]) {
    let place = &mut store[ROWS[row].place..];
    place[0] = value.len() as u8 + 1;
    place[1..][..value.len()].copy_from_slice(value);
}

/// A tag: its bytes as a number, and the first of them.
#[derive(Clone, Copy)]
struct Tag {
    number: u32,
    first: u8,
}

impl Tag {
    fn is_template(self) -> bool {
        self.first & 0x20 != 0
    }

    fn is_private(self) -> bool {
        self.first >= 0xC0
    }
}

/// Splits an object off the front: its tag, its value and the bytes after; none if there is no whole one.
#[inline]
fn split_object(bytes: &[u8]) -> Option<(Tag, &[u8], &[u8])> {
    let (&first, mut rest) = bytes.split_first()?;
    let mut number = u32::from(first);
    if first & 0x1F == 0x1F {
        let (&second, behind) = rest.split_first()?;
        (number, rest) = (number << 8 | u32::from(second), behind);
        if second >= 0x80 {
            let (&third, behind) = rest.split_first()?;
            (number, rest) = (number << 8 | u32::from(third), behind);
            if second == 0x80 || third >= 0x80 {
                return None;
            }
        }
    } else if first == 0x00 {
        return None;
    }
    let (length, rest) = match *rest {
        [length @ 0..=0x7F, ref rest @ ..] => (usize::from(length), rest),
        [0x81, length, ref rest @ ..] => (usize::from(length), rest),
        [0x82, high, low, ref rest @ ..] => (usize::from(high) << 8 | usize::from(low), rest),
        _ => return None,
    };
    let (value, behind) = rest.split_at_checked(length)?;
    Some((Tag { number, first }, value, behind))
}

/// An object to be stored: the row of its tag, and where its value lies in the body.
#[derive(Clone, Copy, Default)]
struct Listed {
    row: u8,
    length: u8,
    start: u16,
}

/// The walk over an answer's objects.
struct Walk<'a> {
    store: &'a Store,
    to: AnswerTo,
    body: &'a [u8],
    count: u32,
    allowed: bool,
    /// The rows of which the answer has brought a value that is not empty.
    filled: [bool; COUNT],
    /// The objects to be stored, in order, and how many.
    listed: [Listed; MOST_OBJECTS],
    length: usize,
}

impl Walk<'_> {
    /// Goes through the objects of the outer template; none if the bytes are malformed.
    ///
    /// After an object that is not allowed no more are taken, but all are counted.
    #[inline(never)]
    fn objects(&mut self, outer: u32, contents: &[u8]) -> Option<()> {
        // The templates around the innermost open one, and what is left of each.
        let mut open = [(Templates::NONE, &[][..]); LEVELS - 1];
        let mut depth = 0;
        let (mut around, mut rest) = (Templates::of_tag(outer), contents);
        loop {
            while let Some((&first, behind)) = rest.split_first() {
                if first == 0x00 {
                    rest = behind;
                    continue;
                }
                let (tag, value, behind) = split_object(rest)?;
                self.count += 1;
                if tag.is_template() {
                    *open.get_mut(depth)? = (around, behind);
                    depth += 1;
                    (around, rest) = (Templates::of_tag(tag.number), value);
                } else {
                    if self.allowed {
                        self.allowed = self.take(around, tag, value);
                    }
                    rest = behind;
                }
            }
            if depth == 0 {
                return Some(());
            }
            depth -= 1;
            (around, rest) = open[depth];
        }
    }

    /// Skips or lists one primitive object; false if it is not allowed.
    fn take(&mut self, around: Templates, tag: Tag, value: &[u8]) -> bool {
        let Some(object) = Object::of_tag(tag.number) else {
            return true;
        };
        let row = object.row();
        if !row.is_of_card() {
            return tag.is_private();
        }
        let comes = match row.answers {
            Answers::All => true,
            Answers::Cryptogram => self.to == AnswerTo::Cryptogram,
            Answers::Checksum => self.to == AnswerTo::Checksum,
            Answers::Either => matches!(self.to, AnswerTo::Cryptogram | AnswerTo::Checksum),
            Answers::None => false,
        };
        let index = object as usize;
        let filled = self.store[row.place] > 1 || self.filled[index];
        if !comes || !row.templates.meets(around) || filled || !row.fits(value) {
            return false;
        }
        self.filled[index] = !value.is_empty();
        self.listed[self.length] = Listed {
            row: index as u8,
            length: value.len() as u8,
            start: (value.as_ptr() as usize - self.body.as_ptr() as usize) as u16,
        };
        self.length += 1;
        true
    }
}

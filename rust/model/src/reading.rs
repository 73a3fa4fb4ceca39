//! Reading a card's answer into a store, whole or not at all (document 01, "Reading an answer"; document 02, Items
//! 6, 9 and 11).

use crate::dictionary::{Answers, Object, Row, Templates};
use crate::reason::Reason;
use crate::store::{self, Store};
use crate::tlv::{self, Tag};

/// The greatest depth of templates; the outer one is the first.
pub const LEVELS: u32 = 4;

/// The command that an answer belongs to.
#[derive(Clone, Copy, Debug, PartialEq, Eq)]
pub enum AnswerTo {
    /// GET PROCESSING OPTIONS.
    Options,
    /// READ RECORD of a file whose objects are taken (1 to 10).
    Record,
    /// GENERATE AC.
    Cryptogram,
    /// COMPUTE CRYPTOGRAPHIC CHECKSUM.
    Checksum,
}

/// What a reading gives: nothing or the reason it ended with, and the number of objects in the answer's tree.
pub type Reading = (Result<(), Reason>, u32);

/// The answer without its status bytes. The length is tested first, then the status.
pub fn body(answer: &[u8]) -> Result<&[u8], Reason> {
    if !(2..=258).contains(&answer.len()) {
        return Err(Reason::Malformed);
    }
    answer.strip_suffix(&[0x90, 0x00]).ok_or(Reason::Status)
}

/// Reads the body of an answer into the store. After a reason the store is as before.
///
/// The count is 0 for a malformed body, else the number of objects of the tree, templates included.
pub fn read(store: &mut Store, answer_to: AnswerTo, body: &[u8]) -> Reading {
    let Some((tag, value, [])) = tlv::split_object(body) else {
        return (Err(Reason::Malformed), 0);
    };
    if tag.is_template() {
        read_template(store, answer_to, tag, value)
    } else if tag.number == 0x80 {
        (read_format_1(store, answer_to, value), 1)
    } else {
        (Err(Reason::Malformed), 1)
    }
}

/// Reads an answer that is one template.
fn read_template(store: &mut Store, answer_to: AnswerTo, outer: Tag, contents: &[u8]) -> Reading {
    let mut walk = Walk {
        store: *store,
        answer_to,
        allowed: true,
        count: 1,
    };
    let around = Templates::of_tag(outer.number);
    if walk.contents(around, contents, LEVELS - 1).is_none() {
        return (Err(Reason::Malformed), 0);
    }
    let wanted = match answer_to {
        AnswerTo::Options | AnswerTo::Cryptogram | AnswerTo::Checksum => 0x77,
        AnswerTo::Record => 0x70,
    };
    if outer.number != wanted {
        return (Err(Reason::Malformed), walk.count);
    }
    if !walk.allowed {
        return (Err(Reason::NotAllowed), walk.count);
    }
    *store = walk.store;
    (Ok(()), walk.count)
}

/// Reads an answer of tag 80: the values are concatenated. They are taken as objects of a template 77 are.
fn read_format_1(store: &mut Store, answer_to: AnswerTo, value: &[u8]) -> Result<(), Reason> {
    match answer_to {
        AnswerTo::Options => {
            if !(6..=250).contains(&value.len()) || value.len() % 4 != 2 {
                return Err(Reason::Malformed);
            }
            let (profile, locator) = value.split_at(2);
            put_all(
                store,
                &[
                    (Object::InterchangeProfile, profile),
                    (Object::FileLocator, locator),
                ],
            )
        }
        AnswerTo::Cryptogram => {
            if !(11..=43).contains(&value.len()) {
                return Err(Reason::Malformed);
            }
            let objects = [
                (Object::CryptogramInformation, &value[..1]),
                (Object::TransactionCounter, &value[1..3]),
                (Object::Cryptogram, &value[3..11]),
                (Object::IssuerApplicationData, &value[11..]),
            ];
            let brought = if value.len() > 11 { 4 } else { 3 };
            put_all(store, &objects[..brought])
        }
        AnswerTo::Record | AnswerTo::Checksum => Err(Reason::Malformed),
    }
}

/// Stores objects that fit their rows, unless one of them has a value already.
fn put_all(store: &mut Store, objects: &[(Object, &[u8])]) -> Result<(), Reason> {
    if objects
        .iter()
        .any(|&(object, _)| store::has_value(store, object))
    {
        return Err(Reason::NotAllowed);
    }
    for &(object, value) in objects {
        store::put(store, object, value);
    }
    Ok(())
}

/// The walk over the objects of a template, with a working copy of the store.
struct Walk {
    store: Store,
    answer_to: AnswerTo,
    allowed: bool,
    count: u32,
}

impl Walk {
    /// Takes the objects of a template in order, past the padding around them; none if the bytes are malformed.
    ///
    /// `levels` is how many more templates may nest inside this one.
    /// A not allowed object does not stop the walk: a malformed one after it decides.
    fn contents(&mut self, around: Templates, bytes: &[u8], levels: u32) -> Option<()> {
        let mut bytes = tlv::skip_padding(bytes);
        while !bytes.is_empty() {
            let (tag, value, rest) = tlv::split_object(bytes)?;
            self.count += 1;
            if tag.is_template() {
                let inside = Templates::of_tag(tag.number);
                self.contents(inside, value, levels.checked_sub(1)?)?;
            } else if self.allowed {
                self.allowed = self.primitive(around, tag, value);
            }
            bytes = tlv::skip_padding(rest);
        }
        Some(())
    }

    /// Skips or stores one primitive object; false if it is not allowed.
    fn primitive(&mut self, around: Templates, tag: Tag, value: &[u8]) -> bool {
        let Some(object) = Object::of_tag(tag.number) else {
            return true;
        };
        let row = object.row();
        if !row.is_of_card() {
            return tag.is_private();
        }
        let allowed = self.comes_here(row)
            && row.templates.meets(around)
            && row.fits(value)
            && !store::has_value(&self.store, object);
        if allowed {
            store::put(&mut self.store, object, value);
        }
        allowed
    }

    /// Whether an object of the card may come in this answer.
    fn comes_here(&self, row: &Row) -> bool {
        match row.answers {
            Answers::All => true,
            Answers::Cryptogram => self.answer_to == AnswerTo::Cryptogram,
            Answers::Checksum => self.answer_to == AnswerTo::Checksum,
            Answers::Either => {
                matches!(self.answer_to, AnswerTo::Cryptogram | AnswerTo::Checksum)
            }
            Answers::None => false,
        }
    }
}

//! Filling a DOL (document 01, "Filling"; Book 3, 1.4).

use crate::dictionary::{Form, Object};
use crate::store::{self, Store};
use crate::tlv::{self, Tag};

/// Splits one entry off the front: a tag and a length of one byte.
fn split_entry(list: &[u8]) -> Option<(Tag, usize, &[u8])> {
    let (tag, rest) = tlv::split_tag(list)?;
    let (&length, rest) = rest.split_first()?;
    Some((tag, usize::from(length), rest))
}

/// The length that a list requests in all, or none if the list is broken.
pub fn filled_length(mut list: &[u8]) -> Option<usize> {
    let mut total = 0;
    while !list.is_empty() {
        let (_, length, rest) = split_entry(list)?;
        total += length;
        list = rest;
    }
    Some(total)
}

/// Fills a list that is not broken into `out`, which has the filled length.
pub fn fill(store: &Store, mut list: &[u8], mut out: &mut [u8]) {
    while let Some((tag, length, rest)) = split_entry(list) {
        let (field, behind) = out.split_at_mut(length);
        match Object::of_tag(tag.number) {
            Some(object) => match store::get(store, object) {
                Some(value) => fill_field(object.row().form, value, field),
                None => field.fill(0x00),
            },
            None => field.fill(0x00),
        }
        out = behind;
        list = rest;
    }
}

/// Brings a value to the length of its field.
///
/// A number keeps its last digits and is padded at the front. All else keeps its first bytes and is padded after: with
/// FF for cn, with 00 for b.
pub fn fill_field(form: Form, value: &[u8], field: &mut [u8]) {
    let kept = value.len().min(field.len());
    if form == Form::Numeric {
        let (padding, digits) = field.split_at_mut(field.len() - kept);
        padding.fill(0x00);
        digits.copy_from_slice(&value[value.len() - kept..]);
    } else {
        let (front, padding) = field.split_at_mut(kept);
        front.copy_from_slice(&value[..kept]);
        padding.fill(if form == Form::CompressedNumeric {
            0xFF
        } else {
            0x00
        });
    }
}

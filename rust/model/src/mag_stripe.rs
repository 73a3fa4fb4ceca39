//! Old magnetic stripe cards: the digits that go into track 2 (document 02, Item 9; Book C-2, S14.25 to S14.27).
//!
//! A track, 9F6B, is nibbles. The discretionary digits are after the first D and seven more nibbles, up to the first F
//! after that D. They are counted from the right: place i, from 1, is bit i of a mask.

use alloc::vec::Vec;
use core::ops::Range;

use crate::dictionary::Object;
use crate::store::{self, Store};

/// The list for the command where the card has none, or an empty one: 9F6A, four bytes.
pub const DEFAULT_UDOL: [u8; 3] = [0x9F, 0x6A, 0x04];

/// Why the digits cannot go into a track.
#[derive(Clone, Copy, Debug, PartialEq, Eq)]
pub enum Unsound {
    /// No nibble is D.
    NoSeparator,
    /// No digit is after the first D and seven more nibbles, or an F among these seven.
    NoDigits,
    /// A place of the code, 9F65, is past the digits.
    CodePlace,
    /// A place of number and counter, 9F66, is past the digits.
    NumberPlace,
    /// 9F66 has fewer places than 9F67 says that the counter has digits.
    FewPlaces,
    /// 9F66 has places for more than the eight digits of the number.
    ManyPlaces,
}

/// Where the digits go in a sound track.
#[derive(Clone, Debug, PartialEq, Eq)]
pub struct Places {
    /// The nibbles of the track, high first.
    nibbles: Vec<u8>,
    /// The discretionary digits.
    digits: Range<usize>,
    /// 9F65.
    code: u16,
    /// 9F66: the lowest are of the number, the others of the counter.
    number_and_counter: u16,
    /// How many digits of the number go in, nUN.
    number: u32,
}

/// The places by the four objects of a store, all of them there.
pub fn places(store: &Store) -> Result<Places, Unsound> {
    let mask =
        |object| store::get_fixed(store, object).map_or(0, |&bytes| u16::from_be_bytes(bytes));
    let track = store::get(store, Object::Track2Data).unwrap_or_default();
    let counter = store::get(store, Object::NatcTrack2).map_or(0, |value| value[0]);
    places_in(
        track,
        mask(Object::Pcvc3Track2),
        mask(Object::PunatcTrack2),
        counter,
    )
}

/// The places in a track, by the masks for the code and for number and counter, and the number of the counter's digits.
pub fn places_in(
    track: &[u8],
    code: u16,
    number_and_counter: u16,
    counter: u8,
) -> Result<Places, Unsound> {
    let nibbles: Vec<u8> = track
        .iter()
        .flat_map(|&byte| [byte >> 4, byte & 0x0F])
        .collect();
    let digits = discretionary(&nibbles)?;
    let past = |mask: u16| (1..=16).any(|place| is_set(mask, place) && place > digits.len());
    if past(code) {
        return Err(Unsound::CodePlace);
    }
    if past(number_and_counter) {
        return Err(Unsound::NumberPlace);
    }
    match number_and_counter
        .count_ones()
        .checked_sub(u32::from(counter))
    {
        None => Err(Unsound::FewPlaces),
        Some(9..) => Err(Unsound::ManyPlaces),
        Some(number) => Ok(Places {
            nibbles,
            digits,
            code,
            number_and_counter,
            number,
        }),
    }
}

/// Where the discretionary digits are.
fn discretionary(nibbles: &[u8]) -> Result<Range<usize>, Unsound> {
    let behind = |from: usize, nibble| {
        let at = nibbles[from..].iter().position(|&found| found == nibble);
        at.map(|at| from + at)
    };
    let separator = behind(0, 0xD).ok_or(Unsound::NoSeparator)?;
    let end = behind(separator, 0xF).unwrap_or(nibbles.len());
    let digits = separator + 8..end;
    if digits.is_empty() {
        return Err(Unsound::NoDigits);
    }
    Ok(digits)
}

impl Places {
    /// How many digits of the number go in, nUN.
    pub fn number(&self) -> u32 {
        self.number
    }

    /// How many discretionary digits there are.
    pub fn digits(&self) -> usize {
        self.digits.len()
    }

    /// The track with the digits of the code, of the store's number, 9F6A, and of the counter in their places.
    pub fn filled(&self, store: &Store, code: u16, counter: u16) -> Vec<u8> {
        let number = store::get_fixed(store, Object::UnpredictableNumberNumeric);
        self.filled_with(code, number.unwrap_or(&[0; 4]), counter)
    }

    /// The track with these digits in their places.
    pub fn filled_with(&self, code: u16, number: &[u8; 4], counter: u16) -> Vec<u8> {
        let mut nibbles = self.nibbles.clone();
        for place in 1..=self.digits.len() {
            if let Some(digit) = self.digit(place, code, number, counter) {
                nibbles[self.digits.end - place] = digit;
            }
        }
        nibbles
            .chunks(2)
            .map(|pair| pair[0] << 4 | pair[1])
            .collect()
    }

    /// The digit that is put in a place, counted from the right, if one is.
    ///
    /// The last digit is nUN. Elsewhere number and counter, whose places are not the same, go before the code.
    fn digit(&self, place: usize, code: u16, number: &[u8; 4], counter: u16) -> Option<u8> {
        if place == 1 {
            return Some(self.number as u8);
        }
        if is_set(self.number_and_counter, place) {
            let below = set_below(self.number_and_counter, place);
            return Some(match below.checked_sub(self.number) {
                None => u32::from_be_bytes(*number) >> (4 * below) & 0x0F,
                Some(digit) => decimal_digit(counter, digit),
            } as u8);
        }
        is_set(self.code, place).then(|| decimal_digit(code, set_below(self.code, place)) as u8)
    }
}

/// Whether a mask has a place, counted from 1 at its lowest bit.
fn is_set(mask: u16, place: usize) -> bool {
    (1..=16).contains(&place) && mask >> (place - 1) & 1 == 1
}

/// How many places of a mask are lower than this one.
fn set_below(mask: u16, place: usize) -> u32 {
    (1..place).filter(|&lower| is_set(mask, lower)).count() as u32
}

/// A digit of a number in decimal, 0 for the lowest; zeros are at the front.
fn decimal_digit(number: u16, digit: u32) -> u32 {
    (u64::from(number) / 10u64.pow(digit) % 10) as u32
}

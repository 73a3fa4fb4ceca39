//! What the sessions reached of the dictionary's rows (document 02, Item 11).

use crate::limit::within_ranges;
use model::dictionary::{terminal_type_listed, Answers, Form, Object, Row, Templates};
use model::dictionary::{REQUIRED_AT_START, ROWS};
use model::store::{self, Store};
use model::{tlv, HEAD_SIZE, SESSION_SIZE};

/// A count for each row.
type Counts = [u64; ROWS.len()];

/// Counts, with what they are of and which rows can reach it.
type Named<'a> = (&'static str, fn(&Row) -> bool, &'a mut Counts);

/// How often each case was reached, by row.
#[derive(Clone, Debug, PartialEq, Eq)]
pub struct Reached {
    /// Objects held at the end of sessions that calls alone made.
    by_calls: Counts,
    /// Starts refused for one object alone: one that no start may set.
    not_of_start: Counts,
    /// Starts refused for one object alone: a second one.
    twice: Counts,
    /// Starts refused for one object alone: of another length.
    length: Counts,
    /// Starts refused for one object alone: of a length that fits and nibbles that do not.
    digits: Counts,
    /// Lists filled with the bytes of an object that is present.
    filled: Counts,
    /// Lists filled with zeros for a known object that is not present.
    absent: Counts,
    /// Records refused for an object alone that does not fit its row.
    refused: Counts,
}

impl Default for Reached {
    fn default() -> Reached {
        let none = [0; ROWS.len()];
        Reached {
            by_calls: none,
            not_of_start: none,
            twice: none,
            length: none,
            digits: none,
            filled: none,
            absent: none,
            refused: none,
        }
    }
}

impl Reached {
    /// All counts.
    fn counts(&mut self) -> [Named<'_>; 8] {
        [
            ("brought by calls", may_be_brought, &mut self.by_calls),
            (
                "not of a start",
                |row| !row.is_of_start(),
                &mut self.not_of_start,
            ),
            ("twice at start", Row::is_of_start, &mut self.twice),
            (
                "of another length at start",
                Row::is_of_start,
                &mut self.length,
            ),
            (
                "with a wrong digit at start",
                |row| row.is_of_start() && row.form != Form::Binary,
                &mut self.digits,
            ),
            // The last answer's objects are not there before it.
            (
                "filled from",
                |row| !row.is_of_card() || row.answers == Answers::All,
                &mut self.filled,
            ),
            // What each session on a list holds.
            (
                "filled without",
                |row| !is_always_held(row),
                &mut self.absent,
            ),
            ("out of its row", |_| true, &mut self.refused),
        ]
    }

    /// Adds the counts of other sessions.
    pub fn add(&mut self, other: &Reached) {
        let mut other = other.clone();
        for ((_, _, to), (_, _, from)) in self.counts().into_iter().zip(other.counts()) {
            to.iter_mut().zip(from).for_each(|(to, from)| *to += *from);
        }
    }

    /// What was never reached.
    pub fn missing(&self) -> Vec<String> {
        let mut missing = Vec::new();
        for (what, test, counts) in self.clone().counts() {
            for (row, &count) in ROWS.iter().zip(&*counts) {
                if count == 0 && test(row) {
                    missing.push(format!("{:X} {what}", row.tag));
                }
            }
        }
        missing
    }

    /// The least and the greatest of each count, as text.
    pub fn report(&self) -> String {
        let mut out = String::new();
        for (what, test, counts) in self.clone().counts() {
            let rows = ROWS.iter().zip(&*counts);
            let mut counts: Vec<u64> = rows.filter(|(row, _)| test(row)).map(|(_, &n)| n).collect();
            counts.sort_unstable();
            let ends = [counts.first(), counts.last()].map(|end| end.copied().unwrap_or(0));
            out += &format!(
                "rows {what}: {} of {} to {}\n",
                counts.len(),
                ends[0],
                ends[1]
            );
        }
        out
    }

    /// Counts the store of a session that calls alone made, at its end.
    pub fn count_end(&mut self, store: &Store) {
        for (row, count) in ROWS.iter().zip(&mut self.by_calls) {
            *count += u64::from(store[row.place] != 0);
        }
    }

    /// Counts a start that was refused with 23, if one object alone is why.
    pub fn count_start(&mut self, terminal: &[u8]) {
        let mut seen = Vec::new();
        let mut bad = Vec::new();
        let mut rest = terminal;
        while let Some((tag, value, behind)) = tlv::split_object(rest) {
            if let Some(object) = Object::of_tag(tag.number) {
                match fault(object, value) {
                    Some(fault) => bad.push((fault, object)),
                    None if seen.contains(&object) => bad.push((Fault::Twice, object)),
                    None => seen.push(object),
                }
            }
            rest = behind;
        }
        let &[(fault, object)] = &bad[..] else {
            return;
        };
        let counts = match fault {
            Fault::NotOfStart => &mut self.not_of_start,
            Fault::Twice => &mut self.twice,
            Fault::Length => &mut self.length,
            Fault::Digits => &mut self.digits,
            Fault::TerminalType => return,
        };
        counts[object as usize] += 1;
    }

    /// Counts the entries of a list that was filled from a store.
    pub fn count_list(&mut self, mut list: &[u8], store: &Store) {
        while let Some((tag, [length, rest @ ..])) = tlv::split_tag(list) {
            list = rest;
            if let (Some(object), 1..) = (Object::of_tag(tag.number), *length) {
                let counts = match store::get(store, object) {
                    None => &mut self.absent,
                    Some([]) => continue,
                    Some(_) => &mut self.filled,
                };
                counts[object as usize] += 1;
            }
        }
    }

    /// Counts a record that was refused with 25, if it is within its ranges without one object.
    pub fn count_refused(&mut self, record: &[u8]) {
        let Some(record) = record.get(..SESSION_SIZE) else {
            return;
        };
        let mut bad = ROWS.iter().enumerate().filter(|(_, row)| {
            let place = &record[HEAD_SIZE + row.place..];
            let length = usize::from(place[0]);
            length > 0 && !place.get(1..length).is_some_and(|value| row.fits(value))
        });
        if let (Some((i, row)), None) = (bad.next(), bad.next()) {
            let mut without = record.to_vec();
            let value = vec![0x11; usize::from(row.least.max(1))];
            without[HEAD_SIZE + row.place] = value.len() as u8 + 1;
            without[HEAD_SIZE + row.place + 1..][..value.len()].copy_from_slice(&value);
            let mut absent = record.to_vec();
            absent[HEAD_SIZE + row.place] = 0;
            let alone = within_ranges(&mut without) || within_ranges(&mut absent);
            self.refused[i] += u64::from(alone);
        }
    }
}

/// Why a start object is refused.
#[derive(Clone, Copy)]
enum Fault {
    NotOfStart,
    Twice,
    Length,
    Digits,
    TerminalType,
}

/// Why a start object is refused by itself, if it is.
fn fault(object: Object, value: &[u8]) -> Option<Fault> {
    let row = object.row();
    let lengths = usize::from(row.least)..=usize::from(row.most);
    if !row.is_of_start() {
        Some(Fault::NotOfStart)
    } else if !lengths.contains(&value.len()) {
        Some(Fault::Length)
    } else if !row.fits(value) {
        Some(Fault::Digits)
    } else if object == Object::TerminalType && !terminal_type_listed(value[0]) {
        Some(Fault::TerminalType)
    } else {
        None
    }
}

/// Whether a call may set an object: the start, the card in some template, or the session's own steps.
fn may_be_brought(row: &Row) -> bool {
    row.is_of_start() || row.templates != Templates::NONE || matches!(row.tag, 0x95 | 0x9F34)
}

/// Whether each running session holds an object.
fn is_always_held(row: &Row) -> bool {
    let mut held = REQUIRED_AT_START.iter();
    row.tag == 0x95 || held.any(|object| object.row().tag == row.tag)
}

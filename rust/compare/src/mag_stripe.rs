//! What the sessions reached of stripe mode (document 02, Item 9): the mode, the command, its answer and the digits.

use crate::damage::{place, put, records};
use crate::limit::within_ranges;
use crate::track::NEEDED;
use model::dictionary::Object;
use model::mag_stripe::{self, Unsound};
use model::reading::AnswerTo;
use model::store::{self, Store};
use model::{afl, dol, read_answer, SESSION_SIZE};

/// How often each case was reached.
#[derive(Clone, Debug, Default, PartialEq, Eq)]
pub struct Reached {
    /// Accepted answers to GPO: EMV mode with stripe mode on, and off; stripe mode.
    modes: [u64; 3],
    /// Reason 11 with an AFL that satisfies the rules, and with one that does not.
    off: [u64; 2],
    /// Commands by a default list where the card has none, and an empty one; by a list of the card.
    lists: [u64; 3],
    /// Lists that are broken, fill to nothing, and to more than 255 bytes.
    bad_lists: [u64; 3],
    /// Reason 4 for want of the track, of each mask and of the counter's digits alone; for an empty track alone.
    wanting: [u64; 5],
    /// Reason 6 with an object missing; reason 4 with a bad list; a command without 5F24, 5A or 8C.
    order: [u64; 3],
    /// Answers to sound tracks: reasons 1 to 4, declined, online request.
    answers: [u64; 6],
    /// Answers to tracks that are not sound: reasons 1 to 3.
    unsound_answers: [u64; 3],
    /// Answers to tracks that are not sound, which else would have reason 4, be declined, be an online request.
    kept_from: [u64; 3],
    /// Why tracks were not sound when the answer was read, by the places in `CAUSES`.
    causes: [u64; 6],
    /// Answers of tag 80 with reason 2.
    under_80: u64,
    /// Digits of the number that went in, 0 to 8.
    numbers: [u64; 9],
    /// Digits of the code that went in: none, fewer than it has, as many, more.
    code: [u64; 4],
    /// Digits of the counter that went in: none, fewer than it has, as many, more.
    counter: [u64; 4],
    /// Places of the code that the number has too, and the counter.
    overlaps: [u64; 2],
    /// The last place is of the code, the number, the counter, none of them.
    last: [u64; 4],
    /// Filled tracks: up to an F, up to the end, with an F before the D, with a second F after it, with a second D
    /// among the seven nibbles, with one among the digits, with a digit that is none of ten, with more digits than a
    /// mask has places.
    tracks: [u64; 8],
    /// Records on the checksum that were refused for one cause alone, by the places in `REPAIRS`.
    refused: [u64; REPAIRS.len()],
    /// Records refused for the code alone, on GPO, a record and GENERATE AC; then for want of 9F6A alone.
    refused_early: [u64; 6],
    /// Records refused for the mode alone, on a record and on GENERATE AC.
    refused_mode: [u64; 2],
}

const CAUSES: [Unsound; 6] = [
    Unsound::NoSeparator,
    Unsound::NoDigits,
    Unsound::CodePlace,
    Unsound::NumberPlace,
    Unsound::FewPlaces,
    Unsound::ManyPlaces,
];

/// Changes of a record on the checksum, each of which makes one of its ranges hold.
const REPAIRS: [fn(&mut [u8]); 12] = [
    |record| record[place(Object::InterchangeProfile) + 2] &= 0x7F,
    |record| record[place(Object::KernelConfiguration) + 1] &= 0x7F,
    |record| put(record, Object::VerificationResults, &[0; 5]),
    |record| put(record, Object::Track2Data, &[0xD1]),
    |record| put(record, Object::Pcvc3Track2, &[0; 2]),
    |record| put(record, Object::PunatcTrack2, &[0; 2]),
    |record| put(record, Object::NatcTrack2, &[0]),
    |record| record[4] = records(record).map_or(0, |records| records as u8 + 2),
    |record| {
        let last = record[4].wrapping_sub(2);
        put(record, Object::FileLocator, &[0x08, 0x01, last, 0x00]);
    },
    |record| record[place(Object::Cvc3Track2)] = 0,
    |record| record[place(Object::TransactionCounter)] = 0,
    put_number,
];

fn put_number(record: &mut [u8]) {
    put(record, Object::UnpredictableNumberNumeric, &[0; 4]);
}

/// Whether 82 is present with b8 of byte 2 clear.
pub fn without_emv_mode(store: &Store) -> bool {
    store::get(store, Object::InterchangeProfile).is_some_and(|profile| profile[1] & 0x80 == 0)
}

impl Reached {
    /// The counts, with what each is of.
    fn counts(&mut self) -> [(&'static str, &mut [u64]); 20] {
        [
            ("mode", &mut self.modes),
            ("stripe mode off, locator", &mut self.off),
            ("list for the checksum", &mut self.lists),
            ("bad list for the checksum", &mut self.bad_lists),
            ("wanting for the checksum", &mut self.wanting),
            ("order before the checksum", &mut self.order),
            ("answer to a sound track", &mut self.answers),
            ("answer to an unsound track", &mut self.unsound_answers),
            ("unsound track, else", &mut self.kept_from),
            ("unsound track, cause", &mut self.causes),
            (
                "checksum under 80",
                std::slice::from_mut(&mut self.under_80),
            ),
            ("digits of the number", &mut self.numbers),
            ("digits of the code", &mut self.code),
            ("digits of the counter", &mut self.counter),
            ("places of two", &mut self.overlaps),
            ("the last place", &mut self.last),
            ("filled track", &mut self.tracks),
            ("checksum refused for one cause", &mut self.refused),
            ("refused for 9F61, 9F6A", &mut self.refused_early),
            ("refused for the mode", &mut self.refused_mode),
        ]
    }

    /// Adds the counts of other sessions.
    pub fn add(&mut self, other: &Reached) {
        let mut other = other.clone();
        for ((_, to), (_, from)) in self.counts().into_iter().zip(other.counts()) {
            to.iter_mut().zip(from).for_each(|(to, from)| *to += *from);
        }
    }

    /// What was never reached.
    pub fn missing(&self) -> Vec<String> {
        let mut reached = self.clone();
        let counts = reached.counts().into_iter();
        counts
            .flat_map(|(what, counts)| crate::never(counts, what).collect::<Vec<_>>())
            .collect()
    }

    /// The counts as text.
    pub fn report(&self) -> String {
        let mut reached = self.clone();
        let counts = reached.counts().into_iter();
        counts
            .map(|(what, counts)| format!("{what}: {counts:?}\n"))
            .collect()
    }

    /// Counts the mode by the store after an answer to GPO that gave a command or this reason.
    pub fn count_mode(&mut self, store: &Store, reason: Option<u8>) {
        let off = store::get(store, Object::KernelConfiguration)
            .is_some_and(|configuration| configuration[0] & 0x80 != 0);
        match reason {
            None if without_emv_mode(store) => self.modes[2] += 1,
            None => self.modes[usize::from(off)] += 1,
            Some(11) => {
                let locator = store::get(store, Object::FileLocator).unwrap_or_default();
                self.off[usize::from(afl::records(locator).is_none())] += 1;
            }
            Some(_) => {}
        }
    }

    /// Counts the step after the last record of a card without EMV mode: a command, or reason 4, 6 or 7.
    pub fn count_last_record(&mut self, store: &Store, reason: Option<u8>) {
        let list = store::get(store, Object::Udol);
        let length = list
            .filter(|list| !list.is_empty())
            .map_or(Some(4), dol::filled_length);
        let lacks: Vec<usize> = (0..4)
            .filter(|&i| !store::has_value(store, NEEDED[i]))
            .collect();
        match reason {
            None => {
                self.lists[list.map_or(0, |list| 1 + usize::from(!list.is_empty()))] += 1;
                let emv = [Object::ExpirationDate, Object::Pan, Object::Cdol1];
                let whole = emv.iter().all(|&object| store::has_value(store, object));
                self.order[2] += u64::from(!whole);
            }
            Some(6) => self.order[0] += u64::from(!lacks.is_empty()),
            Some(4) => {
                if let [missing] = lacks[..] {
                    let empty = store::has(store, NEEDED[missing]);
                    self.wanting[if empty { 4 } else { missing }] += 1;
                }
                let good = length.is_some_and(|length| (1..=255).contains(&length));
                self.order[1] += u64::from(!good);
            }
            _ => match length {
                None => self.bad_lists[0] += 1,
                Some(0) => self.bad_lists[1] += 1,
                Some(_) => self.bad_lists[2] += 1,
            },
        }
    }

    /// Counts an answer to the checksum by the store before it; `outcome` and `reason` are what it gave.
    pub fn count_answer(&mut self, before: &Store, card: &[u8], outcome: u8, reason: u8) {
        let mut after = *before;
        let (read, _) = read_answer(&mut after, AnswerTo::Checksum, 0, card);
        self.under_80 += u64::from(reason == 2 && card.first() == Some(&0x80));
        match mag_stripe::places(before) {
            Ok(places) => {
                let which = match (reason, outcome) {
                    (0, 1) => 5,
                    (0, _) => 4,
                    (reason, _) => usize::from(reason) - 1,
                };
                self.answers[which] += 1;
                if which == 5 {
                    self.count_digits(&after, places.number(), places.digits());
                }
            }
            Err(cause) => {
                self.unsound_answers[usize::from(reason) - 1] += 1;
                if read == 0 {
                    let at = CAUSES.iter().position(|&known| known == cause);
                    self.causes[at.expect("a known cause")] += 1;
                    let counter = store::has(&after, Object::TransactionCounter);
                    let code = store::has(&after, Object::Cvc3Track2);
                    self.kept_from[usize::from(counter) + usize::from(counter && code)] += 1;
                }
            }
        }
    }

    /// Counts the digits that went into a track, by the store as the answer left it but for the track.
    fn count_digits(&mut self, store: &Store, number: u32, digits: usize) {
        let value = |object| {
            let bytes = store::get(store, object).unwrap_or_default();
            bytes
                .iter()
                .fold(0u32, |sum, &byte| sum << 8 | u32::from(byte))
        };
        let code_places = value(Object::Pcvc3Track2);
        let other_places = value(Object::PunatcTrack2);
        let counted = value(Object::NatcTrack2);
        self.numbers[number as usize] += 1;
        let few = |wanted: u32, number: u32| match (wanted, number.to_string().len() as u32) {
            (0, _) => 0,
            (wanted, has) => (2 + wanted.cmp(&has) as i32) as usize,
        };
        self.code[few(code_places.count_ones(), value(Object::Cvc3Track2))] += 1;
        self.counter[few(counted, value(Object::TransactionCounter))] += 1;
        let (mut of_number, mut of_counter) = (0u32, 0u32);
        for place in (0..16).filter(|place| other_places >> place & 1 == 1) {
            let below = (other_places & ((1u32 << place) - 1)).count_ones();
            if below < number {
                of_number |= 1 << place;
            } else {
                of_counter |= 1 << place;
            }
        }
        self.overlaps[0] += u64::from(code_places & of_number != 0);
        self.overlaps[1] += u64::from(code_places & of_counter != 0);
        let parts = [code_places, of_number, of_counter];
        for (part, count) in parts.iter().zip(&mut self.last) {
            *count += u64::from(part & 1 == 1);
        }
        self.last[3] += u64::from((code_places | other_places) & 1 == 0);
        self.count_track(store, digits);
    }

    /// Counts where the digits of a sound track stood.
    fn count_track(&mut self, store: &Store, digits: usize) {
        let track = store::get(store, Object::Track2Data).unwrap_or_default();
        let nibbles: Vec<u8> = track
            .iter()
            .flat_map(|&byte| [byte >> 4, byte & 0x0F])
            .collect();
        let separator = nibbles.iter().position(|&nibble| nibble == 0xD);
        let separator = separator.expect("a sound track");
        let (front, end) = (separator + 8, separator + 8 + digits);
        let has = |nibbles: &[u8], nibble| nibbles.contains(&nibble);
        let behind = nibbles[end..].iter().filter(|&&nibble| nibble == 0xF);
        let letter = |&nibble: &u8| matches!(nibble, 0xA | 0xB | 0xC | 0xE);
        for (count, reached) in self.tracks.iter_mut().zip([
            end < nibbles.len(),
            end == nibbles.len(),
            has(&nibbles[..separator], 0xF),
            behind.count() > 1,
            has(&nibbles[separator + 1..front], 0xD),
            has(&nibbles[front..end], 0xD),
            nibbles[front..end].iter().any(letter),
            digits > 16,
        ]) {
            *count += u64::from(reached);
        }
    }

    /// Counts a record that was refused with 25, if one change would have kept it in its ranges.
    pub fn count_refused(&mut self, session: &[u8]) {
        if session.len() < SESSION_SIZE {
            return;
        }
        let repaired = |repair: fn(&mut [u8])| {
            let mut record = session[..SESSION_SIZE].to_vec();
            repair(&mut record);
            record != session[..SESSION_SIZE] && within_ranges(&mut record)
        };
        match usize::from(session[1]) {
            5 => {
                for (repair, count) in REPAIRS.iter().zip(&mut self.refused) {
                    *count += u64::from(repaired(*repair));
                }
            }
            phase @ 1..=3 => {
                let code = repaired(|record| record[place(Object::Cvc3Track2)] = 0);
                self.refused_early[phase - 1] += u64::from(code);
                self.refused_early[phase + 2] += u64::from(repaired(put_number));
                if phase > 1 {
                    let mode =
                        repaired(|record| record[place(Object::InterchangeProfile) + 2] |= 0x80);
                    self.refused_mode[phase - 2] += u64::from(mode);
                }
            }
            _ => {}
        }
    }
}

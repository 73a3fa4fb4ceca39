//! Explanations of drawn records, by the model and by the library.
//!
//! The records wait on GENERATE AC or have ended with reason 0, mostly with the choice and the outcome that their
//! stores give; objects are taken away and choice, outcome, codes and type changed.

use crate::damage::{self, place, put};
use crate::limit::within_ranges;
use crate::rng::Rng;
use crate::step::Hex;
use model::analysis::{self, Choice};
use model::dictionary::Object;
use model::store::{self, Store};
use model::HEAD_SIZE;
use std::fmt::Write as _;

/// The side that is compared with the model: the library's word for a record.
#[cfg(feature = "library")]
use tripodmoon::calls::explain as other;

/// Without the library the model is compared with itself.
#[cfg(not(feature = "library"))]
use model::explain as other;

/// The kinds of a word.
const KIND_REFUSED: u32 = 2;
const KIND_REASON: u32 = 3;
const KIND_NO_CHOICE: u32 = 4;
const KIND_LOWER: u32 = 5;

/// The number of a bit where none forced the choice.
const NO_BIT: usize = 255;

/// The pairs of action codes by the numbers of their stages; the online-only type has none.
const PAIRS: [[Object; 2]; 4] = [
    [Object::IssuerActionDenial, Object::TerminalActionDenial],
    [Object::TerminalType, Object::TerminalType],
    [Object::IssuerActionDefault, Object::TerminalActionDefault],
    [Object::IssuerActionOnline, Object::TerminalActionOnline],
];

/// What an explanation may need.
const NEEDED: [Object; 6] = [
    Object::VerificationResults,
    Object::TerminalActionDenial,
    Object::TerminalType,
    Object::TerminalActionDefault,
    Object::TerminalActionOnline,
    Object::CryptogramInformation,
];

/// What some explanations reached.
#[derive(Clone, Debug, Default, PartialEq, Eq)]
pub struct Reached {
    /// Records explained or refused.
    records: u64,
    /// Records out of their ranges.
    out_of_ranges: u64,
    /// Reasons 0 to 11.
    reasons: [u64; 12],
    /// Sessions without a choice: fresh, waiting on GPO, on a record; ended and waiting on the checksum in stripe mode.
    no_choice: [u64; 5],
    /// Sessions that ended in stripe mode, which in EMV mode would be explained, and would be refused.
    stripe: [u64; 2],
    /// Sessions that ended with reason 0 and hold no 82: explained, and refused.
    no_profile: [u64; 2],
    /// Lower cryptograms: AAC on online, AAC on offline, ARQC on offline.
    lower: [u64; 3],
    /// Decided, waiting and ended, by stage and holder; holder 0 is nobody.
    decided: [[[u64; 4]; 4]; 2],
    /// Bits by stage, byte by byte.
    bits: [[[u64; 8]; 5]; 4],
    /// Default and online bits held by a card code that is absent.
    absent_code: [u64; 2],
    /// Bits named while a lower one is set and held in the codes of another stage, or in none.
    lower_bit: [u64; 2],
    /// Records within their ranges, to be explained, that lack one of `NEEDED`: refused, and explained all the same.
    lacking: [[u64; 6]; 2],
    /// Refused with all of `NEEDED` there: another choice, another outcome, a type that ends otherwise.
    unlike: [u64; 3],
    /// Explained with a type that is not listed.
    unlisted_type: u64,
}

impl Reached {
    /// The counts that should not be 0, with what each is of.
    fn counts(&self) -> Vec<(String, u64)> {
        let mut all = vec![("out of ranges".to_string(), self.out_of_ranges)];
        let mut list = |what: &str, counts: &[u64]| {
            let named = counts.iter().enumerate();
            all.extend(named.map(|(i, &count)| (format!("{what} {i}"), count)));
        };
        list("reason 1 +", &self.reasons[1..]);
        list("no choice", &self.no_choice);
        list("stripe mode, else", &self.stripe);
        list("without 82", &self.no_profile);
        list("lower cryptogram", &self.lower);
        for (ended, stages) in ["waiting", "ended"].iter().zip(&self.decided) {
            let [denial, online_only, default, online] = stages;
            list(&format!("{ended}, denial, holder 1 +"), &denial[1..]);
            list(&format!("{ended}, online-only type"), &online_only[..1]);
            list(&format!("{ended}, default, holder"), default);
            list(&format!("{ended}, online, holder"), online);
        }
        for stage in [0, 2, 3] {
            list(
                &format!("stage {stage}, bit"),
                self.bits[stage].as_flattened(),
            );
        }
        list("absent card code", &self.absent_code);
        list("lower bit elsewhere", &self.lower_bit);
        list("refused for want of object", &self.lacking[0]);
        // Without 95, DF8121 or 9F27 no record is explained that has ended, and a waiting one has no 9F27.
        let [_, _, terminal_type, default, online, _] = self.lacking[1];
        list(
            "explained without object 2 +",
            &[terminal_type, default, online],
        );
        list("unlike", &self.unlike);
        list("type not listed", &[self.unlisted_type]);
        all
    }

    /// What should be reached and never was.
    pub fn missing(&self) -> Vec<String> {
        let counts = self.counts().into_iter();
        counts
            .filter(|(_, count)| *count == 0)
            .map(|(what, _)| what)
            .collect()
    }

    /// The counts as text.
    pub fn report(&self) -> String {
        let mut out = format!("{:>9} records\n", self.records);
        for (what, count) in self.counts() {
            let _ = writeln!(out, "{count:>9} {what}");
        }
        out
    }

    /// Counts the word for a record.
    fn count(&mut self, record: &[u8], word: u32) {
        self.records += 1;
        if !within_ranges(&mut record.to_vec()) {
            self.out_of_ranges += 1;
            return;
        }
        let (phase, store) = (record[1], store_of(record));
        match word >> 16 {
            KIND_REASON => self.reasons[(word & 0xFF) as usize] += 1,
            KIND_NO_CHOICE => {
                let which = phase - u8::from(phase > 2);
                self.no_choice[usize::from(which)] += 1;
                if phase == 4 {
                    let mut emv = record.to_vec();
                    emv[place(Object::InterchangeProfile) + 2] |= 0x80;
                    let refused = model::explain(&emv) >> 16 == KIND_REFUSED;
                    self.stripe[usize::from(refused)] += 1;
                }
            }
            kind => {
                if phase == 4 && !store::has(store, Object::InterchangeProfile) {
                    self.no_profile[usize::from(kind == KIND_REFUSED)] += 1;
                }
                self.count_lacking(record, kind == KIND_REFUSED);
                match kind {
                    KIND_REFUSED => {}
                    KIND_LOWER => self.lower[lower_kind(store)] += 1,
                    _ => self.count_decided(phase, store, word),
                }
            }
        }
    }

    /// Counts what a record to be explained lacks, or how it differs from what its store gives.
    fn count_lacking(&mut self, record: &[u8], refused: bool) {
        let store = store_of(record);
        let ended = record[1] == 4;
        let mut whole = true;
        for (i, &object) in NEEDED.iter().enumerate() {
            let of_ended = object == Object::CryptogramInformation;
            if !store::has(store, object) && (ended || !of_ended) {
                self.lacking[usize::from(!refused)][i] += 1;
                whole = false;
            }
        }
        let kind = store::get(store, Object::TerminalType).map_or(0, |value| value[0]);
        if !refused {
            let listed = model::dictionary::terminal_type_listed(kind);
            self.unlisted_type += u64::from(!listed && kind != 0);
        } else if whole {
            let cause = match kind & 0x0F {
                1..=6 if ended => 1,
                1..=6 => 0,
                _ => 2,
            };
            self.unlike[cause] += 1;
        }
    }

    /// Counts a stage with its bit and holder.
    fn count_decided(&mut self, phase: u8, store: &Store, word: u32) {
        let word = word as usize;
        let (stage, holder, bit) = (word >> 12 & 0xF, word >> 8 & 0xF, word & 0xFF);
        self.decided[usize::from(phase == 4)][stage][holder] += 1;
        if bit == NO_BIT {
            return;
        }
        self.bits[stage][bit / 8][bit % 8] += 1;
        let [card, _] = PAIRS[stage];
        if stage >= 2 && !store::has(store, card) {
            self.absent_code[stage - 2] += 1;
        }
        for lower in (0..bit).filter(|&lower| has_bit(store, Object::VerificationResults, lower)) {
            let holds = |object| has_bit(store, object, lower);
            let elsewhere = [0, 2, 3]
                .iter()
                .any(|&other| other != stage && PAIRS[other].into_iter().any(holds));
            self.lower_bit[usize::from(!elsewhere)] += 1;
        }
    }
}

/// The store of a whole record.
fn store_of(record: &[u8]) -> &Store {
    record[HEAD_SIZE..].first_chunk().expect("a whole record")
}

/// Whether an object of five bytes is present and has a bit, 0 for byte 1 b8.
fn has_bit(store: &Store, object: Object, bit: usize) -> bool {
    store::get(store, object).is_some_and(|value| value[bit / 8] & 0x80 >> (bit % 8) != 0)
}

/// The choice that a store gives, absent codes of the terminal read as zeros.
fn choice_of(store: &Store) -> Choice {
    let bits = store::get_fixed(store, Object::VerificationResults);
    analysis::choice(store, bits.unwrap_or(&[0; 5]))
}

/// The kind of a lower cryptogram: AAC on online, AAC on offline, ARQC on offline.
fn lower_kind(store: &Store) -> usize {
    let information = store::get(store, Object::CryptogramInformation).map_or(0, |value| value[0]);
    match (choice_of(store), information >> 6) {
        (Choice::Online, _) => 0,
        (_, 0) => 1,
        _ => 2,
    }
}

/// Draws a record: one to be explained, or any other, and some damage.
fn record(rng: &mut Rng) -> Vec<u8> {
    let mut record = if rng.one_in(6) {
        damage::built_record(rng)
    } else {
        record_to_explain(rng)
    };
    if rng.one_in(8) {
        damage::record(rng, &mut record);
    }
    if rng.one_in(40) {
        let length = rng.below(record.len());
        record.truncate(length);
    }
    record
}

/// A record that waits on GENERATE AC or has ended with reason 0.
fn record_to_explain(rng: &mut Rng) -> Vec<u8> {
    let ended = rng.one_in(2);
    let mut record = damage::record_of_phase(rng, if ended { 4 } else { 3 });
    put_codes(rng, &mut record, ended);
    if ended {
        // Mostly in EMV mode, some without 82.
        let profile = place(Object::InterchangeProfile);
        match rng.below(12) {
            0 => record[profile] = 0,
            1 => record[profile + 2] &= 0x7F,
            _ => record[profile + 2] |= 0x80,
        }
    }
    if rng.one_in(4) {
        let object = rng.pick(&NEEDED);
        record[place(object)] = 0;
    }
    let choice = choice_of(store_of(&record));
    let right = rng.percent(85);
    if ended {
        put_outcome(rng, &mut record, choice, right);
    } else if right {
        record[2] = choice.p1();
    }
    record
}

/// Puts TVR bits, terminal type and action codes in place; those of the card may be absent.
fn put_codes(rng: &mut Rng, record: &mut [u8], ended: bool) {
    let result = bits(rng);
    put(record, Object::VerificationResults, &result);
    for [card, terminal] in [PAIRS[0], PAIRS[2], PAIRS[3]] {
        let code = bits(rng);
        put(record, terminal, &code);
        let code = if rng.one_in(4) { code } else { bits(rng) };
        put(record, card, &code);
        if rng.one_in(3) {
            record[place(card)] = 0;
        }
    }
    if ended {
        let some = rng.digits(1)[0];
        let kind = rng.pick(&[0x11, 0x22, 0x22, 0x23, 0x23, 0x35, 0x36, 0x41, 0x47, some]);
        put(record, Object::TerminalType, &[kind]);
    }
}

/// Five bytes: none, one bit, one bit and others after it, or any.
fn bits(rng: &mut Rng) -> [u8; 5] {
    let bit = 1u64 << rng.below(40);
    let behind = rng.bits() & (bit - 1);
    let any = rng.bits();
    let bits = rng.pick(&[0, 0, bit, bit, bit | behind, bit | behind, any]);
    let [_, _, _, bytes @ ..] = bits.to_be_bytes();
    bytes
}

/// Puts 9F27 and the outcome in place: those of a cryptogram that the choice allows, or any.
fn put_outcome(rng: &mut Rng, record: &mut [u8], choice: Choice, right: bool) {
    let low = rng.byte() & 0x3F;
    let (kind, outcome) = match choice {
        _ if !right => (rng.pick(&[0x00, 0x40, 0x80, 0xC0]), rng.below(3) as u8),
        Choice::Decline => (0x00, 2),
        Choice::Online => rng.pick(&[(0x00, 2), (0x80, 1), (0x80, 1)]),
        Choice::Offline => rng.pick(&[(0x00, 2), (0x80, 1), (0x40, 0), (0x40, 0)]),
    };
    if record[place(Object::CryptogramInformation)] != 0 || rng.percent(90) {
        put(record, Object::CryptogramInformation, &[kind | low]);
    }
    record[2..4].copy_from_slice(&[outcome, 0]);
}

/// Explains this many records on both sides, from a seed on; an error has the first that differs.
pub fn run_many(records: u64, seed: u64) -> Result<Reached, String> {
    let mut reached = Reached::default();
    for seed in seed..seed + records {
        let record = record(&mut Rng::new(seed));
        let word = model::explain(&record);
        let word_other = other(&record);
        reached.count(&record, word);
        if word != word_other {
            let record = Hex(&record);
            return Err(format!(
                "seed {seed}: model {word:08X}, other {word_other:08X}\nrecord {record}"
            ));
        }
    }
    Ok(reached)
}

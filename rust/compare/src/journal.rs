//! Journals: the model's verdict against the library's, and the conforming record in place of a mismatching one.
//!
//! A journal is written from calls that are drawn as a session goes on, then left whole, ended early, truncated or
//! damaged. The library is fed it in parts of drawn sizes.

use crate::rng::Rng;
use crate::step::Hex;
use crate::{card, damage, never, terminal};
use model::journal::{self, Call, Verdict};
use model::SESSION_SIZE;

/// The side that is compared with the model: the library's word of a journal, and the conforming record.
#[cfg(feature = "library")]
use test_journal::{judge, wanted};

/// Without the library the model is compared with itself.
#[cfg(not(feature = "library"))]
fn judge(bytes: &[u8], _first: usize, _part: usize) -> u32 {
    word(journal::check(bytes))
}

#[cfg(not(feature = "library"))]
fn wanted(bytes: &[u8], out: &mut [u8]) -> usize {
    let record = journal::right_record(bytes).unwrap_or_default();
    out[..record.len()].copy_from_slice(&record);
    record.len()
}

/// Room for every reply's record.
const REPLY_ROOM: usize = 264;

/// A verdict as the library's word.
fn word(verdict: Verdict) -> u32 {
    match verdict {
        Verdict::Accepted(n) => n as u32,
        Verdict::Unlike(n) => 1 << 16 | n as u32,
        Verdict::Cut(n) => 2 << 16 | n as u32,
    }
}

/// What is done to a written journal.
#[derive(Clone, Copy, Debug, PartialEq, Eq)]
enum Change {
    /// Nothing.
    Whole,
    /// Its first records, so many.
    Unfinished,
    /// Its first bytes, so many.
    Cut,
    /// One bit is another.
    Bit,
    /// A kind is another.
    Kind,
    /// A length is another.
    Length,
    /// A byte after those that a length counts is not zero.
    Behind,
    /// An outcome or its reason is another.
    Outcome,
    /// A record is left out.
    LeftOut,
    /// A record appears twice.
    Twice,
    /// Two neighbours change places.
    Exchanged,
    /// A call is put in.
    Call,
    /// The record of an answer that is too long for one is put in, or another with such a length.
    LongAnswer,
    /// A record of any kind and any body is put in.
    Any,
    /// Bytes are damaged, left out and put in.
    Bytes,
    /// Nothing of the journal is left.
    Random,
}

const CHANGES: [Change; 16] = [
    Change::Whole,
    Change::Unfinished,
    Change::Cut,
    Change::Bit,
    Change::Kind,
    Change::Length,
    Change::Behind,
    Change::Outcome,
    Change::LeftOut,
    Change::Twice,
    Change::Exchanged,
    Change::Call,
    Change::LongAnswer,
    Change::Any,
    Change::Bytes,
    Change::Random,
];

/// What some journals reached.
#[derive(Clone, Debug, Default, PartialEq, Eq)]
pub struct Reached {
    /// Journals judged.
    pub journals: u64,
    /// Accepted, mismatch and truncated, by what was done.
    pub changes: [[u64; 3]; 16],
    /// The mismatching record's kind, 0 for any that no record has, where a call was expected and where a reply was.
    pub unlike: [[u64; 7]; 2],
    /// The truncated record's kind, where a call was expected and where a reply was.
    pub cut: [[u64; 7]; 2],
    /// Accepted after a call and after a reply.
    pub accepted: [u64; 2],
    /// The conforming record was a command, and an outcome.
    pub right: [u64; 2],
    /// Accepted up to the checksum's command or its answer, and with an end; the conforming record was the
    /// checksum's command.
    pub checksum: [u64; 3],
    /// A truncated record is after a mismatching one.
    pub cut_behind: u64,
    /// Journals in one part, in single bytes, in parts that end inside records.
    pub parts: [u64; 3],
    /// The most records of an accepted journal.
    pub most: usize,
}

impl Reached {
    /// What should be reached and never was.
    pub fn missing(&self) -> Vec<String> {
        let mut missing = Vec::new();
        let mut need = |counts: &[u64], what: &str| missing.extend(never(counts, what));
        for (change, verdicts) in CHANGES.iter().zip(&self.changes) {
            let [accepted, unlike, cut] = *verdicts;
            match change {
                Change::Whole | Change::Unfinished => need(&[accepted], &format!("{change:?}")),
                Change::Cut => need(&[accepted, cut], "Cut"),
                Change::Random => need(&[unlike, cut], "Random"),
                Change::Outcome | Change::Behind | Change::Exchanged => {
                    need(&[unlike], &format!("{change:?}"))
                }
                Change::Length | Change::LeftOut | Change::Twice => {
                    need(&[unlike], &format!("{change:?}"))
                }
                Change::Call => need(&[accepted, unlike], "Call"),
                _ => need(&[accepted, unlike, cut], &format!("{change:?}")),
            }
        }
        let [call, reply] = self.unlike;
        need(&call, "unlike where a call was due, kind");
        need(&reply, "unlike where a reply was due, kind");
        for (due, cut) in ["call", "reply"].iter().zip(&self.cut) {
            need(
                &[cut[1], cut[2], cut[5], cut[6]],
                &format!("cut where a {due} was due"),
            );
        }
        need(&self.accepted, "accepted");
        need(&self.right, "the right record");
        need(&self.checksum, "the checksum");
        need(&[self.cut_behind], "a cut record behind an unlike one");
        need(&self.parts, "parts");
        need(&[u64::from(self.most == 262)], "262 records");
        missing
    }

    /// Counts one journal.
    fn count(&mut self, drawn: &Journal, verdict: Verdict, right: Option<&[u8]>) {
        self.journals += 1;
        let bytes = &drawn.bytes[..];
        let (which, number) = match verdict {
            Verdict::Accepted(n) => (0, n),
            Verdict::Unlike(n) => (1, n),
            Verdict::Cut(n) => (2, n),
        };
        self.changes[drawn.change as usize][which] += 1;
        let single = drawn.part == 1 && drawn.first <= 1;
        let inside = drawn.part > 1 || (drawn.first > 0 && drawn.first < bytes.len());
        for (count, reached) in
            self.parts
                .iter_mut()
                .zip([drawn.first >= bytes.len(), single, inside])
        {
            *count += u64::from(reached);
        }
        if which == 0 {
            self.accepted[number % 2] += 1;
            self.most = self.most.max(number);
            let (records, _) = split(bytes);
            if let Some(at) = records.iter().position(|record| is_checksum(record)) {
                self.checksum[usize::from(number > at + 2)] += 1;
            }
            return;
        }
        let (rest, behind) = split(bytes);
        let record = rest.get(number - 1).copied().unwrap_or(behind);
        let kind = match record.first() {
            Some(&kind @ 1..=6) => usize::from(kind),
            _ => 0,
        };
        let due = (number + 1) % 2;
        if which == 2 {
            self.cut[due][kind] += 1;
            return;
        }
        self.unlike[due][kind] += 1;
        let followed = number <= rest.len() && matches!(behind.first(), Some(1..=6));
        self.cut_behind += u64::from(followed);
        if let Some(record) = right {
            self.right[usize::from(record[0] == 6)] += 1;
            self.checksum[2] += u64::from(is_checksum(record));
        }
    }
}

/// Whether a whole record is of the checksum's command.
fn is_checksum(record: &[u8]) -> bool {
    record[0] == 5 && record[3..5] == [0x80, 0x2A]
}

/// The whole records at the front of some bytes, and what follows them.
fn split(mut bytes: &[u8]) -> (Vec<&[u8]>, &[u8]) {
    let mut records = Vec::new();
    while let Some(size) = bytes.first().and_then(|&kind| journal::record_size(kind)) {
        let Some((record, rest)) = bytes.split_at_checked(size) else {
            break;
        };
        records.push(record);
        bytes = rest;
    }
    (records, bytes)
}

/// A call with bytes of its own.
enum Drawn {
    Start(Vec<u8>),
    Answer(Vec<u8>),
    LinkFailed,
    Stop,
}

impl Drawn {
    fn call(&self) -> Call<'_> {
        match self {
            Drawn::Start(bytes) => Call::Start(bytes),
            Drawn::Answer(bytes) => Call::Answer(bytes),
            Drawn::LinkFailed => Call::LinkFailed,
            Drawn::Stop => Call::Stop,
        }
    }

    /// Makes the call on the model's session.
    fn make(&self, session: &mut [u8]) {
        let mut command = [0; 261];
        match self {
            Drawn::Start(terminal) => model::start(session, terminal, &mut command),
            Drawn::Answer(card) => model::answer(session, card, &mut command),
            Drawn::LinkFailed => model::link_failed(session, &mut command),
            Drawn::Stop => model::stop(session, &mut command),
        };
    }
}

/// A call for a session as it is, good or not, or one that is refused.
fn draw_call(rng: &mut Rng, session: &[u8], faults: bool) -> Drawn {
    match rng.below(40) {
        0 => Drawn::LinkFailed,
        1 => Drawn::Stop,
        2 => Drawn::Start(terminal::start(rng, false)),
        3 => Drawn::Answer(card::answer(rng, session, true)),
        _ if session[1] == 0 => Drawn::Start(terminal::start(rng, faults)),
        _ => Drawn::Answer(card::answer(rng, session, faults)),
    }
}

/// The calls of a session, mostly to its end, with some that are refused.
fn draw_calls(rng: &mut Rng) -> Vec<Drawn> {
    let mut session = vec![0; SESSION_SIZE];
    model::open(&mut session);
    let faults = rng.one_in(5);
    let mut calls = Vec::new();
    let mut behind = rng.below(3);
    for _ in 0..200 {
        if session[1] == 4 {
            if behind == 0 {
                break;
            }
            behind -= 1;
        }
        let call = draw_call(rng, &session, faults);
        call.make(&mut session);
        calls.push(call);
        if session[1] == 0 && rng.one_in(4) {
            break;
        }
    }
    calls
}

/// The calls of the longest session: 128 records.
fn longest_calls(rng: &mut Rng) -> Vec<Drawn> {
    let record = |text: &[u8]| Drawn::Answer([text, &[0x90, 0x00]].concat());
    let mut calls = vec![
        Drawn::Start(terminal::start(rng, false)),
        record(&[0x80, 0x06, 0x00, 0x80, 0x08, 0x01, 0x80, 0x00]),
    ];
    calls.extend((0..127).map(|_| record(&[0x70, 0x00])));
    calls.push(record(&[
        0x70, 0x14, 0x5F, 0x24, 0x03, 0x30, 0x12, 0x31, 0x5A, 0x08, 0x47, 0x61, 0x73, 0x90, 0x01,
        0x01, 0x00, 0x10, 0x8C, 0x02, 0x95, 0x05,
    ]));
    calls.push(record(&[
        0x80, 0x0B, 0x80, 0x00, 0x01, 0x01, 0x02, 0x03, 0x04, 0x05, 0x06, 0x07, 0x08,
    ]));
    calls
}

/// A journal, what was done to it, and the parts in which it is fed.
struct Journal {
    change: Change,
    bytes: Vec<u8>,
    first: usize,
    part: usize,
}

impl Journal {
    fn draw(rng: &mut Rng) -> Journal {
        let calls = if rng.one_in(300) {
            longest_calls(rng)
        } else {
            draw_calls(rng)
        };
        let calls: Vec<Call> = calls.iter().map(Drawn::call).collect();
        let mut bytes = journal::write(&calls);
        let change = rng.pick(&CHANGES);
        let records: Vec<Vec<u8>> = split(&bytes)
            .0
            .iter()
            .map(|record| record.to_vec())
            .collect();
        bytes = changed(rng, change, bytes, records);
        if change != Change::Whole && change != Change::Unfinished && rng.one_in(6) {
            // And truncated as well.
            bytes.truncate(rng.within(0..=bytes.len()));
        }
        let first = match rng.below(4) {
            0 => 0,
            1 => bytes.len(),
            _ => rng.within(0..=bytes.len()),
        };
        let part = match rng.below(4) {
            0 => 0,
            1 => 1,
            2 => rng.within(1..=300),
            _ => rng.within(1..=3000),
        };
        Journal {
            change,
            bytes,
            first,
            part,
        }
    }

    /// Judges on both sides; an error says what differs.
    fn compare(&self, reached: &mut Reached) -> Result<(), String> {
        let verdict = journal::check(&self.bytes);
        let right = journal::right_record(&self.bytes);
        reached.count(self, verdict, right.as_deref());
        for (first, part) in [(self.first, self.part), (self.bytes.len(), 0)] {
            let other = judge(&self.bytes, first, part);
            if other != word(verdict) {
                return Err(format!(
                    "model: {verdict:?}; other: {other:08X}, first {first}, parts {part}"
                ));
            }
        }
        let mut out = [0xA5; REPLY_ROOM];
        let size = wanted(&self.bytes, &mut out);
        let expected = right.unwrap_or_default();
        if size != expected.len()
            || out[..size] != expected[..]
            || out[size..].iter().any(|&b| b != 0xA5)
        {
            return Err(format!(
                "model: {}; other: {size}, {}",
                Hex(&expected),
                Hex(&out)
            ));
        }
        Ok(())
    }
}

/// Does one thing to a journal.
fn changed(
    rng: &mut Rng,
    change: Change,
    mut bytes: Vec<u8>,
    mut records: Vec<Vec<u8>>,
) -> Vec<u8> {
    let number = records.len();
    let at = rng.below(number.max(1));
    match change {
        Change::Whole => return bytes,
        Change::Unfinished => records.truncate(rng.within(0..=number)),
        Change::Cut => {
            // An outcome, which is short, is truncated more often.
            let least = if rng.one_in(4) {
                bytes.len().saturating_sub(3)
            } else {
                0
            };
            bytes.truncate(rng.within(least..=bytes.len()));
            return bytes;
        }
        Change::Bit => {
            // Half of the records are mostly zeros, so their fronts are drawn more often.
            if let Some(record) = records.get_mut(at) {
                let end = if rng.one_in(2) {
                    record.len().min(12)
                } else {
                    record.len()
                };
                record[rng.below(end)] ^= 1 << rng.below(8);
            }
        }
        Change::Kind => {
            if let Some(record) = records.get_mut(at) {
                record[0] = if rng.one_in(4) {
                    rng.byte()
                } else {
                    rng.within(0..=7) as u8
                };
            }
        }
        Change::Length => change_length(rng, &mut records, at),
        Change::Behind => change_behind(rng, &mut records, at),
        Change::Outcome => {
            if let Some(record) = records.last_mut().filter(|record| record[0] == 6) {
                record[rng.within(1..=2)] = if rng.one_in(4) {
                    rng.byte()
                } else {
                    rng.within(0..=12) as u8
                };
            }
        }
        Change::LeftOut if number > 0 => {
            records.remove(at);
        }
        Change::Twice if number > 0 => {
            let record = records[at].clone();
            records.insert(at, record);
        }
        Change::Exchanged if number > 1 => records.swap(at.min(number - 2), at.min(number - 2) + 1),
        Change::LeftOut | Change::Twice | Change::Exchanged => {}
        Change::Call => put_call(rng, &mut records),
        Change::LongAnswer => put_long(rng, &mut records, at),
        Change::Any => {
            let kind = rng.within(1..=6) as u8;
            let mut record = vec![0; journal::record_size(kind).unwrap_or_default()];
            if rng.one_in(2) {
                rng.fill(&mut record);
            }
            record[0] = kind;
            let at = rng.within(0..=number);
            records.insert(at, record);
        }
        Change::Bytes => {
            damage::bytes(rng, &mut bytes);
            return bytes;
        }
        Change::Random => {
            let length = rng.pick(&[1, 2, 3, 4, 260, 261, 264, 1027, 1300]);
            let mut bytes = rng.bytes(length);
            bytes[0] = rng.within(0..=7) as u8;
            return bytes;
        }
    }
    records.concat()
}

/// Length FF FF, mostly in an answer's record with a zero body and where a call is expected; the journal ends after it.
fn put_long(rng: &mut Rng, records: &mut Vec<Vec<u8>>, at: usize) {
    let kind = rng.pick(&[2, 2, 2, 2, 1, 5]);
    let mut record = vec![0; journal::record_size(kind).unwrap_or_default()];
    record[..3].copy_from_slice(&[kind, 0xFF, 0xFF]);
    if rng.one_in(4) {
        let place = rng.within(1..=record.len() - 1);
        record[place] ^= 1 << rng.below(8);
    }
    records.truncate(match kind {
        5 => at / 2 * 2 + 1,
        _ if rng.one_in(2) => at / 2 * 2,
        _ => at,
    });
    records.push(record);
    if rng.one_in(2) {
        records.push(vec![6, 3, 2]);
    }
}

/// Another length in a record that has one.
fn change_length(rng: &mut Rng, records: &mut [Vec<u8>], at: usize) {
    let Some(record) = records.get_mut(at).filter(|record| record.len() > 3) else {
        return;
    };
    let length = usize::from(record[1]) << 8 | usize::from(record[2]);
    let room = record.len() - 3;
    let other = rng.pick(&[
        0,
        1,
        2,
        length.wrapping_sub(1),
        length + 1,
        room,
        room + 1,
        0xFFFF,
        length << 8,
    ]);
    record[1..3].copy_from_slice(&(other as u16).to_be_bytes());
}

/// A byte that is not zero after those that a length counts.
fn change_behind(rng: &mut Rng, records: &mut [Vec<u8>], at: usize) {
    let Some(record) = records.get_mut(at).filter(|record| record.len() > 3) else {
        return;
    };
    let length = usize::from(record[1]) << 8 | usize::from(record[2]);
    let from = 3 + length % 0xFFFF;
    if from < record.len() {
        let last = record.len() - 1;
        let any = rng.within(from..=last);
        let place = rng.pick(&[from, last, any]);
        record[place] = rng.within(1..=255) as u8;
    }
}

/// A call's record anywhere, mostly where a call is expected.
fn put_call(rng: &mut Rng, records: &mut Vec<Vec<u8>>) {
    let start = terminal::start(rng, false);
    let call = match rng.below(4) {
        0 => Call::Start(&start),
        1 => Call::Answer(&[0x90, 0x00]),
        2 => Call::LinkFailed,
        _ => Call::Stop,
    };
    let record = match call {
        Call::Start(bytes) => filled(1, bytes, 1024),
        Call::Answer(bytes) => filled(2, bytes, 258),
        Call::LinkFailed => vec![3],
        Call::Stop => vec![4],
    };
    let mut at = rng.within(0..=records.len());
    if rng.percent(70) {
        at = at / 2 * 2;
    }
    if rng.one_in(2) {
        records.truncate(at);
        records.push(record);
    } else {
        records.insert(at, record);
    }
}

/// A record with a length, its bytes and zeros.
fn filled(kind: u8, bytes: &[u8], room: usize) -> Vec<u8> {
    let bytes = &bytes[..bytes.len().min(room)];
    let mut record = vec![kind, (bytes.len() >> 8) as u8, bytes.len() as u8];
    record.extend(bytes);
    record.resize(3 + room, 0);
    record
}

/// Judges this many journals on both sides, from a seed on; an error has the first that differs.
pub fn run_many(journals: u64, seed: u64) -> Result<Reached, String> {
    let mut reached = Reached::default();
    for seed in seed..seed + journals {
        let mut rng = Rng::new(seed);
        let drawn = Journal::draw(&mut rng);
        drawn.compare(&mut reached).map_err(|what| {
            format!(
                "seed {seed}: {:?}, {what}\n{}\n",
                drawn.change,
                Hex(&drawn.bytes)
            )
        })?;
    }
    Ok(reached)
}

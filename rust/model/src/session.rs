//! The session record, its ranges, and the steps of the four calls.

use crate::afl;
use crate::analysis::{self, Choice};
use crate::cvm::{self, Method};
use crate::dictionary::{self, Object, REQUIRED_AT_START, STORE_SIZE};
use crate::dol;
use crate::mag_stripe;
use crate::reading::{self, AnswerTo};
use crate::reason::{self, Outcome, Reason};
use crate::store::{self, Store};
use crate::tlv;

/// Bytes before the store: version, phase, two bytes of detail, count, CVM, and eight of the transaction limit.
pub const HEAD_SIZE: usize = 14;

/// Bytes of a session record.
pub const SESSION_SIZE: usize = HEAD_SIZE + STORE_SIZE;

/// The longest command.
pub const COMMAND_SIZE: usize = 261;

/// Version of the record's layout.
const VERSION: u8 = 5;

/// A call that is refused changes nothing (document 01, refusals 20 to 25; document 02, Item 14, refusals 30 and 31).
#[derive(Clone, Copy, Debug, PartialEq, Eq)]
#[repr(u8)]
pub enum Refusal {
    /// More than 1,024 start bytes, or bytes other than whole primitive objects.
    StartBytes = 20,
    /// A start once the session has begun, or another call before it has or after its end.
    Order = 21,
    /// Command buffer too short.
    Buffer = 22,
    /// A start object of the dictionary that a start may not set so.
    StartObject = 23,
    /// A mandatory object of a start is missing.
    StartMissing = 24,
    /// The bytes hold no session record within its ranges.
    Record = 25,
    /// Less is left of a cabinet's cap than the amount.
    NotEnough = 30,
    /// A cabinet's cap of more than twelve digits.
    Cap = 31,
}

/// What a call returns when it is not refused.
#[derive(Clone, Copy, Debug, PartialEq, Eq)]
pub enum Reply {
    /// A command of this length is at the front of the buffer.
    Command(usize),
    /// The session has ended: how, why, and the CVM if one was chosen. A decision has reason 0.
    Outcome(Outcome, u8, Option<Method>),
}

/// What a step comes to when no reason is met.
enum Next {
    /// A command of this length.
    Command(usize),
    /// The decision after GENERATE AC or the checksum.
    Decision(Outcome),
}

/// Where a session is.
#[derive(Clone, Copy, Debug, PartialEq, Eq)]
pub(crate) enum Phase {
    Fresh,
    /// Waiting on the answer to GET PROCESSING OPTIONS.
    Options,
    /// Waiting on the answer for the k-th record.
    Record {
        k: u8,
        limit: u64,
    },
    /// Waiting on the answer to GENERATE AC.
    Cryptogram {
        choice: Choice,
        method: Method,
        limit: u64,
    },
    Ended {
        outcome: u8,
        reason: u8,
    },
    /// Waiting on the answer to COMPUTE CRYPTOGRAPHIC CHECKSUM.
    Checksum {
        limit: u64,
    },
}

impl Phase {
    /// Whether the session has begun and not ended.
    pub(crate) fn is_running(self) -> bool {
        !matches!(self, Phase::Fresh | Phase::Ended { .. })
    }
}

/// What the session does after the last record.
#[derive(Clone, Copy, Debug, PartialEq, Eq)]
enum Mode {
    /// 82 byte 2 b8 is set, whatever DF811B says.
    Emv,
    /// That bit is clear, and so is b8 of DF811B.
    Stripe,
}

/// A session record in the caller's bytes: the decoded head, and the store in place.
pub struct Session<'a> {
    head: &'a mut [u8; HEAD_SIZE],
    store: &'a mut Store,
    phase: Phase,
    count: u8,
    /// The CVM that is held or was just chosen.
    method: Option<Method>,
}

/// Decodes the head of a record, or none if the bytes hold no record (docs/HOST.md, record layout).
fn decode(head: &[u8; HEAD_SIZE]) -> Option<(Phase, u8)> {
    let &[version, phase, detail, reason, count, method, ref limit @ ..] = head;
    if version != VERSION {
        return None;
    }
    let limit = u64::from_be_bytes(*limit);
    let phase = match (phase, detail, reason, method, limit) {
        (0, 0, 0, 0, 0) => Phase::Fresh,
        (1, 0, 0, 0, 0) => Phase::Options,
        (2, k, 0, 0, limit) => Phase::Record { k, limit },
        (3, p1, 0, method, limit) => Phase::Cryptogram {
            choice: Choice::of_p1(p1)?,
            method: Method::of_number(method)?,
            limit,
        },
        (4, outcome @ 0..=4, reason, 0, 0) => Phase::Ended { outcome, reason },
        (5, 0, 0, 0, limit) => Phase::Checksum { limit },
        _ => return None,
    };
    Some((phase, count))
}

/// The head of a record.
fn encode(phase: Phase, count: u8) -> [u8; HEAD_SIZE] {
    let (phase, detail, reason, method, limit) = match phase {
        Phase::Fresh => (0, 0, 0, 0, 0),
        Phase::Options => (1, 0, 0, 0, 0),
        Phase::Record { k, limit } => (2, k, 0, 0, limit),
        Phase::Cryptogram {
            choice,
            method,
            limit,
        } => (3, choice.p1(), 0, method as u8, limit),
        Phase::Ended { outcome, reason } => (4, outcome, reason, 0, 0),
        Phase::Checksum { limit } => (5, 0, 0, 0, limit),
    };
    let mut head = [0; HEAD_SIZE];
    head[..6].copy_from_slice(&[VERSION, phase, detail, reason, count, method]);
    head[6..].copy_from_slice(&limit.to_be_bytes());
    head
}

/// Writes a fresh record over the front of `bytes`.
pub fn open(bytes: &mut [u8]) -> Result<(), Refusal> {
    let record: &mut [u8; SESSION_SIZE] = bytes.first_chunk_mut().ok_or(Refusal::Record)?;
    record.fill(0);
    record[0] = VERSION;
    Ok(())
}

/// The count of commands handed out, or none if the bytes hold no record.
pub fn count(bytes: &[u8]) -> Option<u8> {
    let record: &[u8; SESSION_SIZE] = bytes.first_chunk()?;
    decode(record.first_chunk()?).map(|(_, count)| count)
}

/// Phase and store of the record in `bytes`, or none if they hold no record within its ranges.
pub(crate) fn look(bytes: &[u8]) -> Option<(Phase, &Store)> {
    let (head, rest) = bytes.split_first_chunk()?;
    let store = rest.first_chunk()?;
    let (phase, count) = decode(head)?;
    in_range(phase, count, store).then_some((phase, store))
}

/// The ranges of a session record (document 01, "Session ranges"; document 02, Items 5, 8 and 9).
fn in_range(phase: Phase, count: u8, store: &Store) -> bool {
    match phase {
        Phase::Fresh => count == 0 && *store == [0; STORE_SIZE],
        Phase::Ended { outcome, reason } => {
            count <= 130 && reason::go_together(outcome, reason) && store::fits(store)
        }
        Phase::Options => {
            count == 1
                && store::fits(store)
                && running(store)
                && results_zero(store)
                && !store::has(store, Object::InterchangeProfile)
                && !store::has(store, Object::FileLocator)
        }
        Phase::Record { k, limit } => {
            store::fits(store)
                && running(store)
                && results_zero(store)
                && analysis::transaction_limit(store) == Some(limit)
                && mode(store).is_some()
                && records(store).is_some_and(|records| {
                    (1..=records).contains(&u32::from(k)) && u32::from(count) == 1 + u32::from(k)
                })
        }
        Phase::Cryptogram { limit, .. } => {
            store::fits(store)
                && running(store)
                && analysis::transaction_limit(store) == Some(limit)
                && mode(store) == Some(Mode::Emv)
                && records(store).is_some_and(|records| u32::from(count) == 2 + records)
                && holds_all(store, &RECORD_DATA)
                && store::has(store, Object::CvmResults)
        }
        Phase::Checksum { limit } => {
            store::fits(store)
                && running(store)
                && results_zero(store)
                && analysis::transaction_limit(store) == Some(limit)
                && mode(store) == Some(Mode::Stripe)
                && records(store).is_some_and(|records| u32::from(count) == 2 + records)
                && holds_all(store, &STRIPE_DATA)
        }
    }
}

impl<'a> Session<'a> {
    /// The session in `bytes`, once the refusals that all calls share are ruled out.
    ///
    /// The length of the command buffer is tested first, then the record and its ranges.
    pub fn load(bytes: &'a mut [u8], command: &[u8]) -> Result<Session<'a>, Refusal> {
        if command.len() < COMMAND_SIZE {
            return Err(Refusal::Buffer);
        }
        let (head, rest) = bytes.split_first_chunk_mut().ok_or(Refusal::Record)?;
        let store = rest.first_chunk_mut().ok_or(Refusal::Record)?;
        let (phase, count) = decode(head)
            .filter(|&(phase, count)| in_range(phase, count, store))
            .ok_or(Refusal::Record)?;
        let method = match phase {
            Phase::Cryptogram { method, .. } => Some(method),
            _ => None,
        };
        Ok(Session {
            head,
            store,
            phase,
            count,
            method,
        })
    }

    /// Start: takes the terminal's objects and requests GPO.
    pub fn start(mut self, terminal: &[u8], command: &mut [u8]) -> Result<Reply, Refusal> {
        if self.phase != Phase::Fresh {
            return Err(Refusal::Order);
        }
        *self.store = read_start(terminal)?;
        let next = self.ask_options(command);
        Ok(self.finish(next))
    }

    /// Answer: takes the card's answer to the command handed out last.
    pub fn answer(mut self, answer: &[u8], command: &mut [u8]) -> Result<Reply, Refusal> {
        let next = match self.phase {
            Phase::Fresh | Phase::Ended { .. } => return Err(Refusal::Order),
            Phase::Options => self.take_options(answer, command),
            Phase::Record { k, limit } => self.take_record(u32::from(k), limit, answer, command),
            Phase::Cryptogram { choice, .. } => self.take_cryptogram(choice, answer),
            Phase::Checksum { .. } => self.take_checksum(answer),
        };
        Ok(self.finish(next))
    }

    /// Link failed and stop: end a running session with their reason.
    pub fn give_up(self, reason: Reason) -> Result<Reply, Refusal> {
        match self.phase {
            Phase::Fresh | Phase::Ended { .. } => Err(Refusal::Order),
            _ => Ok(self.finish(Err(reason))),
        }
    }

    /// Ends the session on a decision or a reason, and writes the head of the record.
    fn finish(mut self, next: Result<Next, Reason>) -> Reply {
        let reply = match next {
            Ok(Next::Command(length)) => Reply::Command(length),
            Ok(Next::Decision(outcome)) => Reply::Outcome(outcome, 0, self.method),
            Err(reason) => Reply::Outcome(reason.outcome(), reason as u8, self.method),
        };
        if let Reply::Outcome(outcome, reason, _) = reply {
            self.phase = Phase::Ended {
                outcome: outcome as u8,
                reason,
            };
        } else {
            self.count += 1;
        }
        *self.head = encode(self.phase, self.count);
        reply
    }

    /// GET PROCESSING OPTIONS: its data are the values that the PDOL requests, under tag 83.
    fn ask_options(&mut self, command: &mut [u8]) -> Result<Next, Reason> {
        let list = store::get(self.store, Object::Pdol).unwrap_or_default();
        let length = dol::filled_length(list)
            .filter(|&length| length <= 252)
            .ok_or(Reason::DataList)?;
        let front = if length <= 127 { 7 } else { 8 };
        let lc = (front - 5 + length) as u8;
        command[..6].copy_from_slice(&[0x80, 0xA8, 0x00, 0x00, lc, 0x83]);
        if length <= 127 {
            command[6] = length as u8;
        } else {
            command[6..8].copy_from_slice(&[0x81, length as u8]);
        }
        dol::fill(self.store, list, &mut command[front..][..length]);
        command[front + length] = 0x00;
        self.phase = Phase::Options;
        Ok(Next::Command(front + length + 1))
    }

    /// The answer to GET PROCESSING OPTIONS; then the transaction limit, which stays, and the first record.
    fn take_options(&mut self, answer: &[u8], command: &mut [u8]) -> Result<Next, Reason> {
        let body = reading::body(answer)?;
        reading::read(self.store, AnswerTo::Options, body).0?;
        if !store::has(self.store, Object::InterchangeProfile)
            || !store::has(self.store, Object::FileLocator)
        {
            return Err(Reason::Missing);
        }
        mode(self.store).ok_or(Reason::NotEmvMode)?;
        records(self.store).ok_or(Reason::Locator)?;
        let limit = analysis::transaction_limit(self.store).ok_or(Reason::Missing)?;
        self.ask_record(1, limit, command)
    }

    /// READ RECORD for the k-th record: P1 is its number, P2 has its file as a short file identifier.
    fn ask_record(&mut self, k: u32, limit: u64, command: &mut [u8]) -> Result<Next, Reason> {
        let record = self.record(k)?;
        command[..5].copy_from_slice(&[0x00, 0xB2, record.number, record.file << 3 | 0x04, 0x00]);
        let k = k as u8;
        self.phase = Phase::Record { k, limit };
        Ok(Next::Command(5))
    }

    /// The k-th record of the accepted AFL.
    fn record(&self, k: u32) -> Result<afl::Record, Reason> {
        store::get(self.store, Object::FileLocator)
            .and_then(|locator| afl::record(locator, k))
            .ok_or(Reason::Locator)
    }

    /// The answer to READ RECORD; then the next record, or after the last the amount against the limit and the
    /// last command.
    fn take_record(
        &mut self,
        k: u32,
        limit: u64,
        answer: &[u8],
        command: &mut [u8],
    ) -> Result<Next, Reason> {
        let body = reading::body(answer)?;
        if self.record(k)?.is_read() {
            reading::read(self.store, AnswerTo::Record, body).0?;
        }
        let locator = store::get(self.store, Object::FileLocator).unwrap_or_default();
        if afl::record(locator, k + 1).is_some() {
            return self.ask_record(k + 1, limit, command);
        }
        if analysis::amount(self.store, Object::AmountAuthorised) > Some(limit) {
            return Err(Reason::Limit);
        }
        match mode(self.store) {
            Some(Mode::Stripe) => self.ask_checksum(limit, command),
            _ => self.ask_cryptogram(limit, command),
        }
    }

    /// After the last record in EMV mode: missing objects, restrictions, CVM, choice, then GENERATE AC.
    fn ask_cryptogram(&mut self, limit: u64, command: &mut [u8]) -> Result<Next, Reason> {
        if !holds_all(self.store, &RECORD_DATA) {
            return Err(Reason::Missing);
        }
        let selection = cvm::select(self.store);
        let mut bits = analysis::result_bits(self.store);
        for (bits, added) in bits.iter_mut().zip(selection.bits) {
            *bits |= added;
        }
        store::put(self.store, Object::CvmResults, &selection.results);
        store::put(self.store, Object::VerificationResults, &bits);
        self.method = Some(selection.method);
        let choice = analysis::choice(self.store, &bits);

        let list = store::get(self.store, Object::Cdol1).unwrap_or_default();
        let length = put_command(self.store, [0x80, 0xAE, choice.p1(), 0x00], list, command)?;
        self.phase = Phase::Cryptogram {
            choice,
            method: selection.method,
            limit,
        };
        Ok(Next::Command(length))
    }

    /// After the last record in stripe mode: missing objects, then COMPUTE CRYPTOGRAPHIC CHECKSUM. 95 stays zero.
    fn ask_checksum(&mut self, limit: u64, command: &mut [u8]) -> Result<Next, Reason> {
        if !holds_all(self.store, &STRIPE_DATA) {
            return Err(Reason::Missing);
        }
        let list = store::get(self.store, Object::Udol)
            .filter(|list| !list.is_empty())
            .unwrap_or(&mag_stripe::DEFAULT_UDOL);
        let length = put_command(self.store, [0x80, 0x2A, 0x8E, 0x80], list, command)?;
        self.phase = Phase::Checksum { limit };
        Ok(Next::Command(length))
    }

    /// The answer to GENERATE AC; its type against the choice requested gives the outcome.
    fn take_cryptogram(&mut self, asked: Choice, answer: &[u8]) -> Result<Next, Reason> {
        let body = reading::body(answer)?;
        reading::read(self.store, AnswerTo::Cryptogram, body).0?;
        let Some(&[information]) = store::get_fixed(self.store, Object::CryptogramInformation)
        else {
            return Err(Reason::Missing);
        };
        if !store::has(self.store, Object::TransactionCounter)
            || !store::has(self.store, Object::Cryptogram)
        {
            return Err(Reason::Missing);
        }
        let outcome = decision(information, asked).ok_or(Reason::CryptogramType)?;
        Ok(Next::Decision(outcome))
    }

    /// The answer to COMPUTE CRYPTOGRAPHIC CHECKSUM; with counter and code the digits go into the track.
    ///
    /// The track is examined as it stood before, and of an answer to one without place for the digits nothing is kept.
    fn take_checksum(&mut self, answer: &[u8]) -> Result<Next, Reason> {
        let body = reading::body(answer)?;
        let mut store = *self.store;
        reading::read(&mut store, AnswerTo::Checksum, body).0?;
        let places = mag_stripe::places(self.store).map_err(|_| Reason::NotAllowed)?;
        *self.store = store;
        let value = |object| store::get_fixed(&store, object).copied();
        let counter = value(Object::TransactionCounter).ok_or(Reason::Missing)?;
        let Some(code) = value(Object::Cvc3Track2) else {
            return Ok(Next::Decision(Outcome::Declined));
        };
        let track = places.filled(
            &store,
            u16::from_be_bytes(code),
            u16::from_be_bytes(counter),
        );
        store::put(self.store, Object::Track2Data, &track);
        Ok(Next::Decision(Outcome::OnlineRequest))
    }
}

/// Writes a command with the values that a list requests as its data: its length, or the reason that there is none.
fn put_command(
    store: &Store,
    header: [u8; 4],
    list: &[u8],
    command: &mut [u8],
) -> Result<usize, Reason> {
    let length = dol::filled_length(list)
        .filter(|length| (1..=255).contains(length))
        .ok_or(Reason::DataList)?;
    command[..4].copy_from_slice(&header);
    command[4] = length as u8;
    dol::fill(store, list, &mut command[5..][..length]);
    command[5 + length] = 0x00;
    Ok(5 + length + 1)
}

/// The outcome that 9F27, by its top two bits, gives on the choice requested, or none.
pub(crate) fn decision(information: u8, asked: Choice) -> Option<Outcome> {
    match (information >> 6, asked) {
        (0b00, _) => Some(Outcome::Declined),
        (0b10, Choice::Offline | Choice::Online) => Some(Outcome::OnlineRequest),
        (0b01, Choice::Offline) => Some(Outcome::Approved),
        _ => None,
    }
}

/// Reads the start bytes into an empty store, and sets 95 to zero.
fn read_start(terminal: &[u8]) -> Result<Store, Refusal> {
    if terminal.len() > 1024 {
        return Err(Refusal::StartBytes);
    }
    let mut store = [0; STORE_SIZE];
    let mut allowed = true;
    let mut rest = terminal;
    while !rest.is_empty() {
        let (tag, value, behind) = tlv::split_object(rest)
            .filter(|(tag, _, _)| !tag.is_template())
            .ok_or(Refusal::StartBytes)?;
        if let Some(object) = Object::of_tag(tag.number) {
            let row = object.row();
            if row.is_of_start()
                && row.fits(value)
                && !store::has(&store, object)
                && (object != Object::TerminalType || dictionary::terminal_type_listed(value[0]))
            {
                store::put(&mut store, object, value);
            } else {
                allowed = false;
            }
        }
        rest = behind;
    }
    if !allowed {
        return Err(Refusal::StartObject);
    }
    if !REQUIRED_AT_START
        .iter()
        .all(|&object| store::has(&store, object))
    {
        return Err(Refusal::StartMissing);
    }
    store::put(&mut store, Object::VerificationResults, &[0; 5]);
    Ok(store)
}

/// What every running session holds and does not hold.
fn running(store: &Store) -> bool {
    let type_listed = store::get(store, Object::TerminalType)
        .is_some_and(|value| dictionary::terminal_type_listed(value[0]));
    let last_answer_absent = [
        Object::IssuerApplicationData,
        Object::Cryptogram,
        Object::CryptogramInformation,
        Object::TransactionCounter,
        Object::Cvc3Track2,
    ]
    .iter()
    .all(|&object| !store::has(store, object));
    type_listed
        && last_answer_absent
        && store::has(store, Object::VerificationResults)
        && REQUIRED_AT_START
            .iter()
            .all(|&object| store::has(store, object))
}

/// Whether 95 is present and zero.
fn results_zero(store: &Store) -> bool {
    store::get(store, Object::VerificationResults) == Some(&[0; 5])
}

/// Whether 82 is present and says that the card has no EMV mode: byte 2 b8 is clear.
pub(crate) fn without_emv_mode(store: &Store) -> bool {
    store::get_fixed(store, Object::InterchangeProfile)
        .is_some_and(|&[_, profile]| profile & 0x80 == 0)
}

/// The mode of a session that holds 82 and DF811B, or none where DF811B says that stripe mode is off and the card
/// has no other.
fn mode(store: &Store) -> Option<Mode> {
    if !store::has(store, Object::InterchangeProfile) {
        return None;
    }
    if !without_emv_mode(store) {
        return Some(Mode::Emv);
    }
    let &[configuration] = store::get_fixed(store, Object::KernelConfiguration)?;
    (configuration & 0x80 == 0).then_some(Mode::Stripe)
}

/// The number of records of the AFL, if it is present and satisfies the rules.
fn records(store: &Store) -> Option<u32> {
    afl::records(store::get(store, Object::FileLocator)?)
}

/// What the records must have brought for GENERATE AC.
const RECORD_DATA: [Object; 3] = [Object::ExpirationDate, Object::Pan, Object::Cdol1];

/// What the records must have brought for the checksum.
const STRIPE_DATA: [Object; 4] = [
    Object::Track2Data,
    Object::Pcvc3Track2,
    Object::PunatcTrack2,
    Object::NatcTrack2,
];

/// Whether all of these objects are present and not empty.
fn holds_all(store: &Store, objects: &[Object]) -> bool {
    objects
        .iter()
        .all(|&object| store::has_value(store, object))
}

//! Helpers that the tests share.
#![allow(dead_code)]

use model::dictionary::Object;
use model::store::{self, Store};
use model::{HEAD_SIZE, SESSION_SIZE};

/// Bytes of a hexadecimal text; blanks are skipped.
pub fn hex(text: &str) -> Vec<u8> {
    let digits: Vec<u32> = text
        .chars()
        .filter(|c| !c.is_whitespace())
        .map(|c| c.to_digit(16).expect("a hexadecimal digit"))
        .collect();
    assert!(digits.len().is_multiple_of(2));
    digits
        .chunks(2)
        .map(|pair| (pair[0] * 16 + pair[1]) as u8)
        .collect()
}

/// The objects of an ordinary start, each as one text.
pub const START: [&str; 17] = [
    "9A 03 250615",
    "9C 01 00",
    "9F02 06 000000001234",
    "9F09 02 0002",
    "9F1A 02 0056",
    "9F33 03 E0F8C8",
    "9F35 01 22",
    "9F37 04 11223344",
    "9F6A 04 00003456",
    "DF811B 01 00",
    "DF8120 05 0000000000",
    "DF8121 05 0000000000",
    "DF8122 05 0000000000",
    "DF8123 06 000000010000",
    "DF8124 06 000000100000",
    "DF8125 06 000000200000",
    "DF8126 06 000000002500",
];

/// An ordinary start with some objects put in place of those of the same tag, or added.
pub fn start_with(changes: &[&str]) -> Vec<u8> {
    let tag = |object: &str| object.split(' ').next().map(str::to_owned);
    let mut objects: Vec<&str> = START.to_vec();
    for change in changes {
        match objects.iter_mut().find(|object| tag(object) == tag(change)) {
            Some(object) => *object = change,
            None => objects.push(change),
        }
    }
    hex(&objects.concat())
}

/// An ordinary start without one object.
pub fn start_without(tag: &str) -> Vec<u8> {
    let objects: Vec<&str> = START
        .iter()
        .copied()
        .filter(|object| !object.starts_with(tag))
        .collect();
    assert_eq!(objects.len(), START.len() - 1);
    hex(&objects.concat())
}

/// Changes a store: a change is a tag and a value that fits, or a tag alone for an object to take away.
pub fn change(store: &mut Store, changes: &[&str]) {
    for change in changes {
        let (tag, value) = change.split_once(' ').unwrap_or((change, ""));
        let tag = u32::from_str_radix(tag, 16).expect("a tag");
        let object = Object::of_tag(tag).expect("a known tag");
        if value.is_empty() {
            store[object.row().place] = 0;
        } else {
            let value = hex(value);
            assert!(object.row().fits(&value), "{change}");
            store::put(store, object, &value);
        }
    }
}

/// Whether a word is a command's length.
pub fn is_command(word: u32) -> bool {
    word < 0x0001_0000
}

/// Whether a word is a refusal. Bits 16 to 23 give the kind; those above are an outcome's CVM.
pub fn is_refusal(word: u32) -> bool {
    word >> 16 & 0xFF == 2
}

pub fn refused(number: u32) -> u32 {
    0x0002_0000 + number
}

/// The numbers of the CVMs in a word.
pub const NO_CVM: u32 = 0;
pub const SIGNATURE: u32 = 1;
pub const ONLINE_PIN: u32 = 2;
pub const CONFIRMATION_CODE: u32 = 3;
pub const OFFLINE_PIN: u32 = 4;
pub const NOT_APPLICABLE: u32 = 15;

/// An outcome with its reason and CVM.
pub fn outcome(method: u32, outcome: u32, reason: u32) -> u32 {
    (method << 24) + 0x0001_0000 + outcome * 256 + reason
}

/// A decision of a session without a CVM, as those of cards that do not support cardholder verification are.
pub fn decided(decision: u32) -> u32 {
    outcome(NO_CVM, decision, 0)
}

/// An end before the choice of a CVM.
pub fn ended(reason: u32) -> u32 {
    outcome(NOT_APPLICABLE, 3, reason)
}

/// An end after NO CVM was chosen.
pub fn ended_later(reason: u32) -> u32 {
    outcome(NO_CVM, 3, reason)
}

/// A session with its buffer. Every call tests that bytes which must stay do stay.
pub struct Host {
    pub session: Vec<u8>,
    pub buffer: Vec<u8>,
}

impl Host {
    pub fn open() -> Host {
        let mut session = vec![0xAA; SESSION_SIZE + 3];
        assert_eq!(model::open(&mut session), 0);
        assert_eq!(session[SESSION_SIZE..], [0xAA; 3]);
        Host {
            session,
            buffer: vec![0x5C; 264],
        }
    }

    pub fn started(changes: &[&str]) -> Host {
        let mut host = Host::open();
        assert!(is_command(host.start(&start_with(changes))));
        host
    }

    /// A session past GPO, with the AFL given. The card does not support cardholder verification.
    pub fn reading(changes: &[&str], locator: &str) -> Host {
        Host::reading_card(changes, "0080", locator)
    }

    /// A session past GPO, with the AIP and the AFL given.
    pub fn reading_card(changes: &[&str], profile: &str, locator: &str) -> Host {
        let mut host = Host::started(changes);
        let (profile, locator) = (hex(profile), hex(locator));
        let mut answer = vec![0x80, locator.len() as u8 + 2];
        answer.extend(&profile);
        answer.extend(&locator);
        answer.extend([0x90, 0x00]);
        assert!(is_command(host.answer(&answer)));
        host
    }

    /// A session on GENERATE AC; `record` is the content of its one record.
    pub fn generating(changes: &[&str], record: &str) -> Host {
        let mut host = Host::reading(changes, "08010100");
        let word = host.record(record);
        assert!(is_command(word), "{word:x}");
        host
    }

    /// Answers with a record of this content.
    pub fn record(&mut self, content: &str) -> u32 {
        let content = hex(content);
        let mut answer = vec![0x70, 0x81, content.len() as u8];
        answer.extend(content);
        answer.extend([0x90, 0x00]);
        self.answer(&answer)
    }

    fn call(&mut self, call: impl FnOnce(&mut [u8], &mut [u8]) -> u32) -> u32 {
        let (session, buffer) = (self.session.clone(), self.buffer.clone());
        let word = call(&mut self.session, &mut self.buffer);
        let kept_from = if is_command(word) { word as usize } else { 0 };
        assert_eq!(self.buffer[kept_from..], buffer[kept_from..]);
        if is_refusal(word) {
            assert_eq!(self.session, session);
        }
        let behind = SESSION_SIZE.min(session.len());
        assert_eq!(self.session[behind..], session[behind..]);
        word
    }

    pub fn start(&mut self, terminal: &[u8]) -> u32 {
        self.call(|session, buffer| model::start(session, terminal, buffer))
    }

    pub fn answer(&mut self, card: &[u8]) -> u32 {
        self.call(|session, buffer| model::answer(session, card, buffer))
    }

    pub fn answer_hex(&mut self, card: &str) -> u32 {
        self.answer(&hex(card))
    }

    pub fn link_failed(&mut self) -> u32 {
        self.call(model::link_failed)
    }

    pub fn stop(&mut self) -> u32 {
        self.call(model::stop)
    }

    pub fn count(&self) -> u32 {
        model::count(&self.session)
    }

    /// The command of the length given.
    pub fn command(&self, word: u32) -> &[u8] {
        &self.buffer[..word as usize]
    }

    /// The head of the record without the transaction limit: version, phase, two bytes of detail, count, CVM.
    pub fn head(&self) -> [u8; 6] {
        if !matches!(self.session[1], 2 | 3 | 5) {
            assert_eq!(self.session[6..HEAD_SIZE], [0; 8]);
        }
        self.session[..6].try_into().expect("a whole record")
    }

    /// The transaction limit that the record holds.
    pub fn limit(&self) -> u64 {
        let limit = self.session[6..HEAD_SIZE].try_into();
        u64::from_be_bytes(limit.expect("eight bytes"))
    }

    pub fn store(&self) -> &Store {
        self.session[HEAD_SIZE..]
            .first_chunk()
            .expect("a whole store")
    }

    /// The store, to change what no call would.
    pub fn store_mut(&mut self) -> &mut Store {
        self.session[HEAD_SIZE..]
            .first_chunk_mut()
            .expect("a whole store")
    }

    pub fn get(&self, object: Object) -> Option<&[u8]> {
        store::get(self.store(), object)
    }
}

/// Numbers that look random (xorshift).
pub struct Draw(pub u64);

impl Draw {
    pub fn below(&mut self, bound: usize) -> usize {
        self.0 ^= self.0 << 13;
        self.0 ^= self.0 >> 7;
        self.0 ^= self.0 << 17;
        (self.0 >> 11) as usize % bound
    }

    pub fn pick<T: Clone>(&mut self, from: &[T]) -> T {
        from[self.below(from.len())].clone()
    }
}

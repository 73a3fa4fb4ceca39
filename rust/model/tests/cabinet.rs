//! The vending cabinet's calls (document 02, Item 14).

mod common;

use common::{decided, ended, hex, is_command, is_refusal, outcome, refused};
use common::{NOT_APPLICABLE, SIGNATURE};
use model::cabinet::{self, MOST_CAP, NO_LEFT, STATE_SIZE};
use model::dictionary::Object;
use model::{COMMAND_SIZE, HEAD_SIZE, SESSION_SIZE};

/// Bytes provided after the state.
const BEHIND: usize = 3;

/// The start objects of the examples, but the amount.
const TERMINAL: [&str; 17] = [
    "9A03250615",
    "9C0100",
    "",
    "9F09020002",
    "9F1A020056",
    "9F350122",
    "9F37045A3C96E1",
    "DF8120050000000000",
    "DF8121050000000000",
    "DF8122050000000000",
    "DF812306999999999999",
    "DF812406999999999999",
    "9F3303000000",
    "DF812506999999999999",
    "DF812606999999999999",
    "DF811B0100",
    "9F6A0400000000",
];

/// The card's answers of the examples: GPO, the record, the cryptogram of a type.
const OPTIONS: &str = "8006008008010100 9000";
const RECORD: &str = "702D 5F2403491231 5A084761739001010010 8C039F3704 \
                      9F0D050000000000 9F0E050000000000 9F0F050000000000 9000";
const TC: &str = "800B 40 0001 1122334455667788 9000";
const ARQC: &str = "800B 80 0001 1122334455667788 9000";
const AAC: &str = "800B 00 0001 1122334455667788 9000";

/// The commands of the examples.
const ASK_OPTIONS: &str = "80A8000002830000";
const ASK_RECORD: &str = "00B2010C00";
const ASK_TC: &str = "80AE4000045A3C96E100";

/// The start bytes of an amount.
fn terminal(amount: u64) -> Vec<u8> {
    let objects = TERMINAL.map(|object| match object {
        "" => format!("9F0206{amount:012}"),
        object => object.to_owned(),
    });
    hex(&objects.concat())
}

/// The start bytes of an amount, one object in the place of another, or taken away.
fn terminal_with(amount: u64, old: &str, new: &str) -> Vec<u8> {
    let bytes = terminal(amount);
    let (old, new) = (hex(old), hex(new));
    let at = bytes
        .windows(old.len())
        .position(|part| part == old)
        .expect("the object is there");
    [&bytes[..at], &new, &bytes[at + old.len()..]].concat()
}

/// The start bytes of an amount with a list that is broken.
fn terminal_broken_list(amount: u64) -> Vec<u8> {
    [terminal(amount), hex("9F38019F")].concat()
}

/// A cabinet with its buffer. Every call tests that bytes which must stay do stay, and that `left` reports
/// what is left.
#[derive(Clone)]
struct Cabinet {
    state: Vec<u8>,
    buffer: Vec<u8>,
}

impl Cabinet {
    fn open(cap: u64) -> Cabinet {
        let mut cabinet = Cabinet {
            state: vec![0xAA; STATE_SIZE + BEHIND],
            buffer: vec![0x5C; COMMAND_SIZE + BEHIND],
        };
        assert_eq!(cabinet.open_again(cap), 0);
        assert_eq!(cabinet.amounts(), (cap, 0));
        cabinet
    }

    /// A cabinet with a running session of an amount.
    fn started(cap: u64, amount: u64) -> Cabinet {
        let mut cabinet = Cabinet::open(cap);
        cabinet.starts(amount);
        cabinet
    }

    fn call(&mut self, call: impl FnOnce(&mut [u8], &mut [u8]) -> u32) -> u32 {
        let before = self.clone();
        let word = call(&mut self.state, &mut self.buffer);
        let kept_from = if is_command(word) { word as usize } else { 0 };
        assert_eq!(self.buffer[kept_from..], before.buffer[kept_from..]);
        let behind = if is_refusal(word) {
            0
        } else {
            STATE_SIZE.min(before.state.len())
        };
        assert_eq!(self.state[behind..], before.state[behind..]);
        word
    }

    fn open_again(&mut self, cap: u64) -> u32 {
        self.call(|state, _| cabinet::open(state, cap))
    }

    fn start(&mut self, terminal: &[u8]) -> u32 {
        self.call(|state, buffer| cabinet::start(state, terminal, buffer))
    }

    fn answer(&mut self, card: &str) -> u32 {
        self.call(|state, buffer| cabinet::answer(state, &hex(card), buffer))
    }

    fn link_failed(&mut self) -> u32 {
        self.call(cabinet::link_failed)
    }

    fn stop(&mut self) -> u32 {
        self.call(cabinet::stop)
    }

    /// A start of this amount, which is taken.
    fn starts(&mut self, amount: u64) {
        let (left, _) = self.amounts();
        let word = self.start(&terminal(amount));
        self.commands(word, ASK_OPTIONS);
        assert_eq!(self.amounts(), (left - amount, amount));
    }

    /// A running session as far as the cryptogram.
    fn asks_cryptogram(&mut self) {
        let amounts = self.amounts();
        let word = self.answer(OPTIONS);
        self.commands(word, ASK_RECORD);
        let word = self.answer(RECORD);
        self.commands(word, ASK_TC);
        assert_eq!(self.amounts(), amounts);
    }

    /// The word is this command.
    fn commands(&self, word: u32, command: &str) {
        assert!(is_command(word), "{word:08X}");
        assert_eq!(self.buffer[..word as usize], hex(command));
    }

    /// What is left, and what is set aside.
    fn amounts(&self) -> (u64, u64) {
        let (left, aside) = amounts(&self.state);
        assert_eq!(cabinet::left(&self.state), left);
        (left, aside)
    }

    fn set_left(&mut self, left: u64) {
        self.state[SESSION_SIZE..][..8].copy_from_slice(&left.to_be_bytes());
    }

    fn set_aside(&mut self, aside: u64) {
        self.state[SESSION_SIZE + 8..][..8].copy_from_slice(&aside.to_be_bytes());
    }

    /// Every call but open gives this refusal.
    fn all_refuse(&self, number: u32) {
        let mut cabinet = self.clone();
        assert_eq!(cabinet.start(&terminal(1)), refused(number));
        assert_eq!(cabinet.answer(OPTIONS), refused(number));
        assert_eq!(cabinet.link_failed(), refused(number));
        assert_eq!(cabinet.stop(), refused(number));
        if number == 25 {
            assert_eq!(cabinet::left(&cabinet.state), NO_LEFT);
        }
    }
}

/// The amounts by their places: after the record, 8 bytes each, high byte first.
fn amounts(state: &[u8]) -> (u64, u64) {
    let number = |at: usize| {
        state[at..at + 8]
            .iter()
            .fold(0, |n, &byte| n << 8 | u64::from(byte))
    };
    (number(SESSION_SIZE), number(SESSION_SIZE + 8))
}

/// A fresh session at the front of a state.
fn is_fresh(state: &[u8]) -> bool {
    let mut fresh = [0xAA; SESSION_SIZE];
    assert_eq!(model::open(&mut fresh), 0);
    state[..SESSION_SIZE] == fresh
}

#[test]
fn sizes() {
    assert_eq!(cabinet::size(), STATE_SIZE);
    assert_eq!(cabinet::size(), model::session_size() + 16);
}

/// The rows of the table, in its order.
#[test]
fn spends_the_cap() {
    let mut cabinet = Cabinet::open(1000);
    assert!(is_fresh(&cabinet.state));
    assert_eq!(cabinet.start(&terminal(1001)), refused(30));
    cabinet.starts(1000);
    assert_eq!(cabinet.amounts(), (0, 1000));
    cabinet.asks_cryptogram();
    assert_eq!(cabinet.answer(TC), decided(0));
    assert_eq!(cabinet.amounts(), (0, 0));
    assert_eq!(cabinet.start(&terminal(1)), refused(30));
    cabinet.starts(0);
    assert_eq!(cabinet.amounts(), (0, 0));
}

#[test]
fn gives_back_an_online_request() {
    let mut cabinet = Cabinet::started(1000, 400);
    cabinet.asks_cryptogram();
    assert_eq!(cabinet.amounts(), (600, 400));
    assert_eq!(cabinet.answer(ARQC), decided(1));
    assert_eq!(cabinet.amounts(), (1000, 0));
}

#[test]
fn gives_back_after_a_failed_link() {
    let mut cabinet = Cabinet::started(1000, 400);
    assert_eq!(cabinet.link_failed(), ended(9));
    assert_eq!(cabinet.amounts(), (1000, 0));
    assert_eq!(cabinet.stop(), refused(21));
}

#[test]
fn other_refusals_come_before_30() {
    let mut cabinet = Cabinet::open(1000);
    let without_date = terminal_with(1001, "9A03250615", "");
    assert_eq!(cabinet.start(&without_date), refused(24));
    let whole = terminal(1001);
    assert_eq!(cabinet.start(&whole[..whole.len() - 1]), refused(20));
    let type_17 = terminal_with(1001, "9F350122", "9F350117");
    assert_eq!(cabinet.start(&type_17), refused(23));
    cabinet.buffer.truncate(260);
    assert_eq!(cabinet.start(&whole), refused(22));
}

#[test]
fn reason_7_comes_after_30() {
    let mut cabinet = Cabinet::open(1000);
    assert_eq!(cabinet.start(&terminal_broken_list(1001)), refused(30));
    assert!(is_fresh(&cabinet.state));
    assert_eq!(cabinet.start(&terminal_broken_list(1000)), ended(7));
    assert_eq!(cabinet.amounts(), (1000, 0));
}

#[test]
fn a_running_session_is_not_started() {
    let mut cabinet = Cabinet::started(1000, 1000);
    assert_eq!(cabinet.start(&terminal(1001)), refused(21));
    assert_eq!(cabinet.start(&[]), refused(21));
}

#[test]
fn a_refused_start_keeps_the_ended_session() {
    let mut cabinet = Cabinet::started(1000, 400);
    assert_eq!(cabinet.stop(), ended(10));
    let stopped = cabinet.state.clone();
    assert_eq!(cabinet.start(&terminal(1001)), refused(30));
    assert_eq!(cabinet.start(&[0x00]), refused(20));
    assert_eq!(cabinet.start(&[0x95, 0x00]), refused(23));
    assert_eq!(cabinet.start(&[]), refused(24));
    assert_eq!(cabinet.state, stopped);
}

#[test]
fn caps() {
    let mut cabinet = Cabinet::open(1000);
    assert_eq!(cabinet.open_again(1_000_000_000_000), refused(31));
    assert_eq!(cabinet.open_again(u64::MAX), refused(31));
    cabinet.state.truncate(STATE_SIZE - 1);
    assert_eq!(cabinet.open_again(1_000_000_000_000), refused(25));
    assert_eq!(cabinet.open_again(1), refused(25));
}

#[test]
fn opened_while_a_session_runs() {
    let mut cabinet = Cabinet::open(MOST_CAP);
    cabinet.starts(MOST_CAP);
    assert_eq!(cabinet.amounts(), (0, MOST_CAP));
    assert_eq!(cabinet.open_again(5), 0);
    assert_eq!(cabinet.amounts(), (5, 0));
    assert!(is_fresh(&cabinet.state));
}

#[test]
fn changed_amounts_of_a_running_session() {
    let cabinet = Cabinet::started(1000, 1);
    let mut changed = cabinet.clone();
    changed.set_aside(0);
    changed.all_refuse(25);
    for left in [MOST_CAP, MOST_CAP + 1, u64::MAX] {
        let mut changed = cabinet.clone();
        changed.set_left(left);
        changed.all_refuse(25);
    }
    let mut changed = cabinet.clone();
    changed.set_left(MOST_CAP - 1);
    let word = changed.answer(OPTIONS);
    changed.commands(word, ASK_RECORD);
    assert_eq!(changed.amounts(), (MOST_CAP - 1, 1));
}

#[test]
fn set_aside_where_none_runs() {
    let mut cabinet = Cabinet::open(1000);
    cabinet.set_aside(1);
    cabinet.all_refuse(25);
    cabinet.buffer.truncate(260);
    assert_eq!(cabinet.start(&terminal(1)), refused(22));
    assert_eq!(cabinet.stop(), refused(22));
    // After an end too.
    let mut cabinet = Cabinet::started(1000, 1);
    assert_eq!(cabinet.stop(), ended(10));
    cabinet.set_aside(1);
    cabinet.all_refuse(25);
}

#[test]
fn approved_with_signature() {
    let mut cabinet = Cabinet::open(1000);
    let word = cabinet.start(&terminal_with(400, "9F3303000000", "9F3303002000"));
    cabinet.commands(word, ASK_OPTIONS);
    let word = cabinet.answer("8006108008010100 9000");
    cabinet.commands(word, ASK_RECORD);
    let list = "8E0A 0000000000000000 5E00";
    let record = RECORD.replacen("702D", &format!("7039 {list}"), 1);
    let word = cabinet.answer(&record);
    cabinet.commands(word, ASK_TC);
    assert_eq!(cabinet.answer(TC), outcome(SIGNATURE, 0, 0));
    assert_eq!(cabinet.amounts(), (600, 0));
}

/// Beside the table: every other end gives back, and what is left after several sessions.
#[test]
fn other_ends() {
    for (answers, word) in [
        (&[OPTIONS, RECORD, AAC][..], decided(2)),
        (&["6985"], ended(1)),
        (&["70800000 9000"], ended(2)),
        (&[OPTIONS, "7003950100 9000"], ended(3)),
        (&[OPTIONS, "7000 9000"], ended(4)),
        (&["8006008008000100 9000"], ended(5)),
        (
            &[OPTIONS, RECORD, "800B C0 0001 1122334455667788 9000"],
            outcome(0, 3, 8),
        ),
    ] {
        let mut cabinet = Cabinet::started(1000, 400);
        let last = answers.iter().map(|card| cabinet.answer(card)).last();
        assert_eq!(last, Some(word), "{answers:?}");
        assert_eq!(cabinet.amounts(), (1000, 0), "{answers:?}");
        cabinet.starts(1000);
    }
    // Select next: the amount is above the transaction limit.
    let mut cabinet = Cabinet::open(1000);
    cabinet.start(&terminal_with(
        400,
        "DF812406999999999999",
        "DF812406000000000399",
    ));
    cabinet.answer(OPTIONS);
    assert_eq!(cabinet.answer(RECORD), outcome(NOT_APPLICABLE, 4, 6));
    assert_eq!(cabinet.amounts(), (1000, 0));
    // Mag-stripe mode off.
    let mut cabinet = Cabinet::open(1000);
    cabinet.start(&terminal_with(400, "DF811B0100", "DF811B0180"));
    assert_eq!(cabinet.answer("8006000008010100 9000"), ended(11));
    assert_eq!(cabinet.amounts(), (1000, 0));
}

#[test]
fn a_day() {
    let mut cabinet = Cabinet::open(1000);
    for (amount, card, left) in [
        (300, TC, 700),
        (200, ARQC, 700),
        (500, TC, 200),
        (200, AAC, 200),
        (200, TC, 0),
    ] {
        cabinet.starts(amount);
        cabinet.asks_cryptogram();
        cabinet.answer(card);
        assert_eq!(cabinet.amounts(), (left, 0));
    }
}

/// A start after an end leaves the same bytes as one on a fresh session.
#[test]
fn afresh() {
    let mut cabinet = Cabinet::started(1000, 400);
    cabinet.asks_cryptogram();
    cabinet.answer(ARQC);
    cabinet.starts(123);
    let fresh = Cabinet::started(1000, 123);
    assert_eq!(cabinet.state, fresh.state);
}

/// In all but left, set aside, 30, 31 and a start after an end the answer is the kernel's.
#[test]
fn as_the_kernel() {
    let mut cabinet = Cabinet::open(MOST_CAP);
    let mut session = vec![0; SESSION_SIZE];
    let mut buffer = cabinet.buffer.clone();
    assert_eq!(model::open(&mut session), 0);
    for step in 0..8 {
        let word = match step {
            0 => model::stop(&mut session, &mut buffer),
            1 | 2 => model::start(&mut session, &terminal(77), &mut buffer),
            3 => model::answer(&mut session, &hex(OPTIONS), &mut buffer),
            4 => model::answer(&mut session, &hex(RECORD), &mut buffer),
            5 | 6 => model::answer(&mut session, &hex(TC), &mut buffer),
            _ => model::link_failed(&mut session, &mut buffer),
        };
        let other = match step {
            0 => cabinet.stop(),
            1 | 2 => cabinet.start(&terminal(77)),
            3 => cabinet.answer(OPTIONS),
            4 => cabinet.answer(RECORD),
            5 | 6 => cabinet.answer(TC),
            _ => cabinet.link_failed(),
        };
        assert_eq!(word, other, "step {step}");
        assert_eq!(session, cabinet.state[..SESSION_SIZE], "step {step}");
        assert_eq!(buffer, cabinet.buffer, "step {step}");
    }
}

#[test]
fn bytes_that_hold_no_state() {
    let whole = Cabinet::open(1000);
    for length in [
        0,
        1,
        HEAD_SIZE,
        SESSION_SIZE,
        SESSION_SIZE + 8,
        STATE_SIZE - 1,
    ] {
        let mut cabinet = whole.clone();
        cabinet.state.truncate(length);
        cabinet.all_refuse(25);
        cabinet.buffer.truncate(COMMAND_SIZE - 1);
        cabinet.all_refuse(22);
    }
    // No version, a fresh session with a count, a value that does not fit.
    for at in [0, 4, HEAD_SIZE] {
        let mut cabinet = whole.clone();
        cabinet.state[at] ^= 1;
        cabinet.all_refuse(25);
    }
    // Another amount in 9F02 than is set aside.
    let mut cabinet = Cabinet::started(1000, 12);
    let at = HEAD_SIZE + Object::AmountAuthorised.row().place + 6;
    assert_eq!(cabinet.state[at], 0x12);
    cabinet.state[at] = 0x0C;
    cabinet.all_refuse(25);
    cabinet.state[at] = 0x13;
    cabinet.all_refuse(25);
    cabinet.set_aside(13);
    assert_eq!(cabinet.stop(), ended(10));
    assert_eq!(cabinet.amounts(), (1001, 0));
    // Too much left where none runs.
    let mut cabinet = whole.clone();
    cabinet.set_left(MOST_CAP + 1);
    cabinet.all_refuse(25);
    assert_eq!(cabinet.open_again(MOST_CAP), 0);
}

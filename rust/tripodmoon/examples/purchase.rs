//! A whole purchase with a simulated card. It links libhost.a alone. In the folder rust/:
//!
//!     cargo run --offline -p tripodmoon --example purchase        a card of three records: approved
//!     cargo run --offline -p tripodmoon --example purchase one    a card of one record: an online request
//!
//! Prints each command, each answer and the outcome. After the first record the session's bytes are
//! kept and taken up again, as after a loss of power.

use std::env;
use std::error::Error;
use tripodmoon::{reason_text, refusal_text, Reply, Session, COMMAND_SIZE};

/// A card of one file: each answer is an outer tag and what is in it.
struct Card {
    options: (u8, &'static str),
    records: &'static [(u8, &'static str)],
    cryptogram: (u8, &'static str),
}

const CARD_OF_ONE: Card = Card {
    options: (0x80, "0080 08010100"),
    records: &[(
        0x70,
        "5F24 03 491231  5A 08 4761739001010010  8C 08 9F0206 9F3704 9505",
    )],
    cryptogram: (0x80, "80 0001 1122334455667788"),
};

const CARD_OF_THREE: Card = Card {
    options: (0x77, "82 02 1980  94 04 08010300"),
    records: &[
        // The list for cardholder verification: a signature over 50.00, else none.
        (
            0x70,
            "57 10 4761739001010010D49122010000001F  8E 0C 00001388 00000000 5E07 1F00  9F42 02 0978",
        ),
        (0x70, "5F24 03 491231  5A 08 4761739001010010  9F07 02 FFC0"),
        (0x70, "8C 08 9F0206 9F3704 9505  9F0F 05 0000000000"),
    ],
    cryptogram: (0x77, "9F27 01 40  9F36 02 0007  9F26 08 1122334455667788"),
};

/// The terminal's objects.
const TERMINAL: &str = "
    9A 03 250615   9C 01 00   9F02 06 000000001234   9F09 02 0002   9F1A 02 0056   9F35 01 22
    9F37 04 5A3C96E1   9F6A 04 00003456   DF8120 05 0000000000   DF8121 05 0000000000   DF8122 05 0000000000
    DF8123 06 000000010000   DF8124 06 000000100000   DF8125 06 000000200000   DF8126 06 000000002500
    DF811B 01 00   9F33 03 E0F8C8   5F2A 02 0978   9F38 05 9F0206 9A03";

impl Card {
    /// The card's answer to a command, status bytes included.
    fn answer(&self, command: &[u8]) -> Vec<u8> {
        let answer = match *command {
            [0x80, 0xA8, ..] => Some(self.options),
            [0x00, 0xB2, record @ 1..=0xFF, 0x0C, 0x00] => {
                self.records.get(usize::from(record) - 1).copied()
            }
            [0x80, 0xAE, ..] => Some(self.cryptogram),
            _ => None,
        };
        let Some((tag, content)) = answer else {
            return vec![0x6A, 0x83];
        };
        let content = hex(content);
        let mut bytes = vec![tag, content.len() as u8];
        bytes.extend(content);
        bytes.extend([0x90, 0x00]);
        bytes
    }
}

/// Bytes of a hexadecimal text.
fn hex(text: &str) -> Vec<u8> {
    let digits: String = text.split_whitespace().collect();
    (0..digits.len() / 2)
        .map(|i| u8::from_str_radix(&digits[2 * i..2 * i + 2], 16).expect("two digits"))
        .collect()
}

/// Hexadecimal text of bytes.
fn text(bytes: &[u8]) -> String {
    let bytes: Vec<String> = bytes.iter().map(|byte| format!("{byte:02X}")).collect();
    bytes.join(" ")
}

fn main() -> Result<(), Box<dyn Error>> {
    let card = match env::args().nth(1).as_deref() {
        Some("one") => CARD_OF_ONE,
        _ => CARD_OF_THREE,
    };
    let mut session = Session::new();
    let mut buffer = [0; COMMAND_SIZE];
    let mut answer: Option<Vec<u8>> = None;
    loop {
        let reply = match &answer {
            None => session.start(&hex(TERMINAL), &mut buffer),
            Some(answer) => session.answer(answer, &mut buffer),
        };
        match reply {
            Reply::Command(command) => {
                println!("command  {}", text(command));
                let bytes = card.answer(command);
                println!("answer   {}", text(&bytes));
                answer = Some(bytes);
            }
            Reply::Outcome {
                outcome,
                reason,
                method,
            } => {
                println!(
                    "outcome  {outcome}, reason {reason} ({}), method {method}",
                    reason_text(reason)
                );
                println!("commands handed out: {}", session.count().unwrap_or(0));
                return Ok(());
            }
            Reply::Refused(number) => {
                return Err(format!("refused with {number}: {}", refusal_text(number)).into());
            }
        }
        if session.count() == Some(2) {
            let kept = *session.as_bytes();
            session = Session::from_bytes(kept);
        }
    }
}

//! The files of examples/: the numbers and bytes that `replay` writes for each are what the model gives.

mod common;

use common::hex;
use model::dictionary::Object;
use model::store::{self, Store};
use model::{COMMAND_SIZE, HEAD_SIZE, SESSION_SIZE};
use std::fs;
use std::path::{Path, PathBuf};

/// The files of calls.
fn files() -> Vec<PathBuf> {
    let folder = Path::new(env!("CARGO_MANIFEST_DIR")).join("../../examples");
    let mut files: Vec<PathBuf> = fs::read_dir(folder)
        .expect("the folder of examples")
        .map(|file| file.expect("a file").path())
        .filter(|path| path.extension().is_some_and(|found| found == "txt"))
        .collect();
    files.sort();
    files
}

/// Bytes as text, with a blank between two.
fn blanks(bytes: &[u8]) -> String {
    let bytes: Vec<String> = bytes.iter().map(|byte| format!("{byte:02X}")).collect();
    bytes.join(" ")
}

/// A session and its buffer, as `replay` has them.
struct Played {
    session: Vec<u8>,
    buffer: Vec<u8>,
    lines: Vec<String>,
}

impl Played {
    fn open(&mut self) {
        self.session = vec![0; SESSION_SIZE];
        self.buffer = vec![0; COMMAND_SIZE];
        assert_eq!(model::open(&mut self.session), 0);
    }

    /// A line for a call: what it gave, in numbers, and the count.
    fn call(&mut self, word: u32) {
        let [method, kind, high, low] = word.to_be_bytes();
        let gave = match kind {
            0 => format!("command {}", blanks(&self.buffer[..word as usize])),
            1 => format!("outcome {high} reason {low} method {method}"),
            _ => format!("refused {low}"),
        };
        let count = model::count(&self.session);
        self.lines.push(format!("{gave} count {count}"));
    }

    /// The objects held, at the end of a session.
    fn held(&mut self) {
        let store: &Store = self.session[HEAD_SIZE..].first_chunk().expect("a store");
        for object in Object::ALL {
            if let Some(value) = store::get(store, object) {
                let line = format!("{:X}: {}", object.row().tag, blanks(value));
                self.lines.push(line);
            }
        }
    }
}

/// What the model gives for a file of calls.
fn played(text: &str) -> Vec<String> {
    let mut played = Played {
        session: Vec::new(),
        buffer: Vec::new(),
        lines: Vec::new(),
    };
    played.open();
    for line in text.lines() {
        let line = line.split('#').next().unwrap_or_default().trim();
        let (word, rest) = line.split_once(' ').unwrap_or((line, ""));
        let (session, buffer) = (&mut played.session, &mut played.buffer);
        let gave = match word {
            "" => continue,
            "start" => model::start(session, &hex(rest), buffer),
            "answer" => model::answer(session, &hex(rest), buffer),
            "link-failed" => model::link_failed(session, buffer),
            "stop" => model::stop(session, buffer),
            "buffer" => {
                *buffer = vec![0; rest.parse().expect("a number")];
                continue;
            }
            "session" => {
                played.held();
                played.open();
                continue;
            }
            _ => panic!("unknown word {word}"),
        };
        played.call(gave);
    }
    played.held();
    played.lines
}

/// The numbers and bytes of the lines that `replay` wrote; what it adds in words and below a line is left out.
fn written(text: &str) -> Vec<String> {
    let lines = text.lines().filter(|line| !line.starts_with(' '));
    lines.filter_map(line_in_numbers).collect()
}

/// One line of `replay` without its words.
fn line_in_numbers(line: &str) -> Option<String> {
    let number = |word: &str| {
        let (_, behind) = line.split_once(&format!("{word} "))?;
        behind.split([' ', ',']).next()
    };
    let Some(count) = number(", count") else {
        // An object, or a line of words alone.
        let (tag, rest) = line.split_once(' ')?;
        Object::of_tag(u32::from_str_radix(tag, 16).ok()?)?;
        let value = rest.rsplit(": ").next()?;
        let value = if value == "empty" { "" } else { value };
        return Some(format!("{tag}: {value}"));
    };
    let gave = if line.contains(": command ") {
        let bytes = line.rsplit(": ").next()?.split(',').next()?;
        format!("command {bytes}")
    } else if line.contains(": outcome ") {
        let [outcome, reason, method] = [": outcome", ", reason", ", method"].map(number);
        format!("outcome {} reason {} method {}", outcome?, reason?, method?)
    } else {
        format!("refused {}", number(": refused")?)
    };
    Some(format!("{gave} count {count}"))
}

#[test]
fn the_model_gives_what_is_written() {
    let mut files_tested = 0;
    for calls in files() {
        let Ok(output) = fs::read_to_string(calls.with_extension("out")) else {
            panic!("{} has no expected output", calls.display());
        };
        let text = fs::read_to_string(&calls).expect("a file of calls");
        assert_eq!(played(&text), written(&output), "{}", calls.display());
        files_tested += 1;
    }
    assert!(files_tested > 20);
}

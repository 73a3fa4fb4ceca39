//! The files of examples/personalise: what the program writes for each is what the model gives.

mod common;

use common::hex;
use model::personalise::{personalise, Refusal};
use model::tlv;
use std::fs;
use std::path::{Path, PathBuf};

/// The files of a kind, by their endings.
fn files(ending: &str) -> Vec<PathBuf> {
    let folder = Path::new(env!("CARGO_MANIFEST_DIR")).join("../../examples/personalise");
    let mut files: Vec<PathBuf> = fs::read_dir(folder)
        .expect("the folder of examples")
        .map(|file| file.expect("a file").path())
        .filter(|path| path.extension().is_some_and(|found| found == ending))
        .collect();
    files.sort();
    files
}

/// The bytes after a word of a file. `#` starts a comment.
fn bytes(text: &str, word: &str) -> Vec<u8> {
    let lines = text.lines().filter_map(|line| line.split('#').next());
    let mut found = lines.filter_map(|line| line.trim().strip_prefix(word));
    let bytes = hex(found.next().expect("a line for each word"));
    assert_eq!(found.next(), None);
    bytes
}

/// Bytes as text, a blank before each.
fn blanks(bytes: &[u8]) -> String {
    bytes.iter().map(|byte| format!(" {byte:02X}")).collect()
}

/// What the program writes.
fn output(text: &str) -> String {
    let [objects, entries, placements] =
        ["objects", "entries", "placements"].map(|word| bytes(text, word));
    let (mut records, mut locator) = (vec![0; 32_768], vec![0; 248]);
    let refusal = match personalise(&objects, &entries, &placements, &mut records, &mut locator) {
        Ok(written) => {
            let mut lines = format!("locator{}\n", blanks(&locator[..written.locator]));
            let mut rest = &records[..written.records];
            for number in 1.. {
                let Some((_, _, behind)) = tlv::split_object(rest) else {
                    break;
                };
                let (record, behind) = rest.split_at(rest.len() - behind.len());
                lines += &format!("record {number}:{}\n", blanks(record));
                rest = behind;
            }
            return lines;
        }
        Err(refusal) => refusal,
    };
    let words = match refusal {
        Refusal::RecordsBuffer => "records buffer shorter than 32,768 bytes".to_owned(),
        Refusal::LocatorBuffer => "locator buffer shorter than 248 bytes".to_owned(),
        Refusal::List => "list: every object must be whole, of a tag for template 70, of a length and digits that fit, \
                          there once and placed once"
            .to_owned(),
        Refusal::Entry(number) => format!(
            "entry {number}: must be there, whole and among the first 62, byte 1 eight times a file 1 to 10, \
             first record not 0, last not below it, byte 4 zero, no record named before, at most 128 in all"
        ),
        Refusal::Record(number) => format!(
            "record {number}: must be one of the locator's, hold objects of the list only, with at most 253 bytes of content"
        ),
    };
    format!("refused: {words}\n")
}

#[test]
fn examples() {
    let inputs = files("txt");
    assert!(inputs.len() >= 6);
    for input in &inputs {
        let text = fs::read_to_string(input).expect("a text file");
        let expected = input.with_extension("out");
        let expected = fs::read_to_string(&expected).unwrap_or_default();
        assert_eq!(output(&text), expected, "{}", input.display());
    }
    // No output without its input.
    assert_eq!(files("out").len(), inputs.len());
}

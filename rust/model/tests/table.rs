//! The two tables of rows agree: the model's, written from Book C-2's annex A and documents 01 and 02, and
//! `dictionary.tsv`, from which the library's is written.

use model::dictionary::{Answers, Form, Object, Row, Setter, Templates, REQUIRED_AT_START, ROWS};
use model::SESSION_SIZE;

const TABLE: &str = include_str!("../../../dictionary.tsv");
const HEADER: &str = include_str!("../../../include/tripodmoon.h");

/// What a row of `dictionary.tsv` says, as the model has it; with whether a start must bring the object.
type Said = (u32, u8, u8, Form, Setter, Templates, Answers, bool);

fn form(text: &str) -> Form {
    match text {
        "n" => Form::Numeric,
        "cn" => Form::CompressedNumeric,
        "b" => Form::Binary,
        _ => panic!("form {text}"),
    }
}

fn setter(text: &str) -> Setter {
    match text {
        "start" => Setter::Start,
        "card" => Setter::Card,
        "start, card" => Setter::StartOrCard,
        "session" => Setter::Session,
        _ => panic!("setters {text}"),
    }
}

fn templates(text: &str) -> Templates {
    let number = |tag| u32::from_str_radix(tag, 16).expect("a tag");
    let tags = text.split(", ").filter(|&tag| tag != "-");
    tags.fold(Templates::NONE, |all, tag| {
        all.and(Templates::of_tag(number(tag)))
    })
}

fn answers(text: &str) -> Answers {
    match text {
        "any" => Answers::All,
        "GENERATE AC" => Answers::Cryptogram,
        "checksum" => Answers::Checksum,
        "GENERATE AC, checksum" => Answers::Either,
        "-" => Answers::None,
        _ => panic!("answers {text}"),
    }
}

fn said(line: &str) -> Said {
    let columns: Vec<&str> = line.split('\t').collect();
    let length = |text: &str| text.parse().expect("a length");
    (
        u32::from_str_radix(columns[0], 16).expect("a tag"),
        length(columns[2]),
        length(columns[3]),
        form(columns[4]),
        setter(columns[5]),
        templates(columns[6]),
        answers(columns[7]),
        columns[8] == "yes",
    )
}

fn own(row: &Row) -> Said {
    let object = Object::of_tag(row.tag).expect("a known tag");
    let required = REQUIRED_AT_START.contains(&object);
    (
        row.tag,
        row.least,
        row.most,
        row.form,
        row.setter,
        row.templates,
        row.answers,
        required,
    )
}

#[test]
fn every_row_agrees() {
    let table: Vec<Said> = TABLE.lines().skip(1).map(said).collect();
    for (row, said) in ROWS.iter().zip(&table) {
        assert_eq!(own(row), *said, "{:X}", row.tag);
    }
    assert_eq!(ROWS.len(), table.len());
    let required = table.iter().filter(|said| said.7).count();
    assert_eq!(REQUIRED_AT_START.len(), required);
}

#[test]
fn the_size_is_the_headers() {
    let line = format!("#define EMV_SESSION_SIZE {SESSION_SIZE}u");
    assert!(HEADER.lines().any(|said| said == line), "{line}");
}

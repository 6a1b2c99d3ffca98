//! Histories as text, one record a line. docs/FILES.md states the form.

use super::record::{Operation, Record, RECORD};
use std::str::FromStr;

/// The bytes of a text, or what is wrong with which line.
pub fn assemble(text: &str) -> Result<Vec<u8>, String> {
    let mut bytes = Vec::new();
    for (k, line) in text.lines().enumerate() {
        let line = line.split('#').next().unwrap_or_default();
        let words: Vec<&str> = line.split_whitespace().collect();
        if words.is_empty() {
            continue;
        }
        if !bytes.len().is_multiple_of(RECORD) {
            return Err(format!("line {}: behind a record that is cut off", k + 1));
        }
        match record(&words) {
            Some(record) => bytes.extend(record),
            None => return Err(format!("line {}: no record: {}", k + 1, line.trim())),
        }
    }
    Ok(bytes)
}

/// The bytes of one line.
fn record(words: &[&str]) -> Option<Vec<u8>> {
    let operation = match words {
        ["allocate", size, "into", d] => Operation::Allocate {
            size: number(size)?,
            d: number(d)?,
        },
        ["copy", s, "to", d] => Operation::Copy {
            s: number(s)?,
            d: number(d)?,
        },
        ["write", s, "into", "cell", c, "of", d] => Operation::Write {
            s: number(s)?,
            c: number(c)?,
            d: number(d)?,
        },
        ["read", "cell", c, "of", s, "into", d] => Operation::Read {
            c: number(c)?,
            s: number(s)?,
            d: number(d)?,
        },
        ["clear", d] => Operation::Clear { d: number(d)? },
        ["collect"] => Operation::Collect,
        ["allocate", "data", size, "into", d] => Operation::AllocateData {
            size: number(size)?,
            d: number(d)?,
        },
        ["write", "number", v, "into", "cell", c, "of", d] => Operation::WriteNumber {
            number: number(v)?,
            c: number(c)?,
            d: number(d)?,
        },
        ["bytes", bytes @ ..] if (1..=RECORD).contains(&bytes.len()) => {
            return bytes.iter().map(|byte| number(byte)).collect();
        }
        _ => return None,
    };
    Some(operation.record().bytes().to_vec())
}

fn number<T: FromStr>(word: &str) -> Option<T> {
    word.parse().ok()
}

/// The text of a history, one record a line.
pub fn words(history: &[u8]) -> String {
    let lines = history.chunks(RECORD).map(|bytes| line(bytes) + "\n");
    lines.collect()
}

/// A record in words; what is no operation, or cut off, in bytes.
fn line(bytes: &[u8]) -> String {
    let record = <[u8; RECORD]>::try_from(bytes).map(Record::from_bytes);
    match record.ok().and_then(Record::operation) {
        Some(Operation::Allocate { size, d }) => format!("allocate {size} into {d}"),
        Some(Operation::Copy { s, d }) => format!("copy {s} to {d}"),
        Some(Operation::Write { s, c, d }) => format!("write {s} into cell {c} of {d}"),
        Some(Operation::Read { c, s, d }) => format!("read cell {c} of {s} into {d}"),
        Some(Operation::Clear { d }) => format!("clear {d}"),
        Some(Operation::Collect) => "collect".to_string(),
        Some(Operation::AllocateData { size, d }) => format!("allocate data {size} into {d}"),
        Some(Operation::WriteNumber { number, c, d }) => {
            format!("write number {number} into cell {c} of {d}")
        }
        None => format!("bytes {}", crate::texts::expect::numbers(bytes)),
    }
}

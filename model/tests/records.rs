//! Records of a history: bytes to fields, the operations, 9, and the text form.

mod common;
use common::say;
use model::history::record::short::{
    allocate, clear, copy, data, read, write, write_number, COLLECT,
};
use model::history::record::RECORD;
use model::history::text::{assemble, words};
use model::history::{report, Operation, Record};
use model::lists::random::Random;
use model::rules::heap::MAX_NUMBER;
use std::collections::BTreeSet;
use std::fs;
use std::path::PathBuf;

#[test]
fn bytes_to_fields() {
    let record = Record::from_bytes([1, 2, 3, 4, 5, 6, 7, 8, 9, 10, 11, 12]);
    let fields = (record.operation, record.d, record.s, record.unused);
    assert_eq!(fields, (1, 2, 3, 4));
    // "low byte first"
    let low_first = |bytes: [u32; 4]| {
        let [b0, b1, b2, b3] = bytes;
        b0 + 256 * (b1 + 256 * (b2 + 256 * b3))
    };
    let due = (low_first([5, 6, 7, 8]), low_first([9, 10, 11, 12]));
    assert_eq!((record.c, record.size), due);
    let mut random = Random::new(1);
    for _ in 0..10_000 {
        let bytes = [0; RECORD].map(|_| random.word() as u8);
        assert_eq!(Record::from_bytes(bytes).bytes(), bytes);
    }
}

/// The bytes of each operation, written out.
const WRITTEN: [(Operation, [u8; RECORD]); 8] = [
    (
        Operation::Allocate { size: 258, d: 9 },
        [1, 9, 0, 0, 0, 0, 0, 0, 2, 1, 0, 0],
    ),
    (
        Operation::Copy { s: 7, d: 9 },
        [2, 9, 7, 0, 0, 0, 0, 0, 0, 0, 0, 0],
    ),
    (
        Operation::Write { s: 7, c: 772, d: 9 },
        [3, 9, 7, 0, 4, 3, 0, 0, 0, 0, 0, 0],
    ),
    (
        Operation::Read {
            c: 262_143,
            s: 7,
            d: 9,
        },
        [4, 9, 7, 0, 255, 255, 3, 0, 0, 0, 0, 0],
    ),
    (
        Operation::Clear { d: 9 },
        [5, 9, 0, 0, 0, 0, 0, 0, 0, 0, 0, 0],
    ),
    (Operation::Collect, [6, 0, 0, 0, 0, 0, 0, 0, 0, 0, 0, 0]),
    (
        Operation::AllocateData { size: 65_536, d: 9 },
        [7, 9, 0, 0, 0, 0, 0, 0, 0, 0, 1, 0],
    ),
    (
        Operation::WriteNumber {
            number: 4_278_190_082,
            c: 772,
            d: 9,
        },
        [8, 9, 0, 0, 4, 3, 0, 0, 2, 0, 0, 255],
    ),
];

#[test]
fn operations() {
    for (operation, bytes) in WRITTEN {
        assert_eq!(operation.record().bytes(), bytes);
        let record = Record::from_bytes(bytes);
        assert_eq!(record.operation(), Some(operation));
    }
}

/// Every record with one byte or two changed: an operation exactly where the operation is known and every field that its
/// sentence doesn't name is 0.
#[test]
fn unnamed_fields_are_zero() {
    // The bytes that each operation names, by its number: d, s, c and size.
    let named: [&[usize]; 9] = [
        &[],
        &[1, 8, 9, 10, 11],
        &[1, 2],
        &[1, 2, 4, 5, 6, 7],
        &[1, 2, 4, 5, 6, 7],
        &[1],
        &[],
        &[1, 8, 9, 10, 11],
        &[1, 4, 5, 6, 7, 8, 9, 10, 11],
    ];
    let mut good = 0;
    let mut tried = 0;
    for operation in 0..=255 {
        for first in 1..RECORD {
            for second in 1..RECORD {
                for value in [1, 64, 255] {
                    let mut bytes = [0; RECORD];
                    bytes[0] = operation;
                    bytes[first] = value;
                    bytes[second] = value;
                    let names = named.get(operation as usize).filter(|_| operation != 0);
                    let due = names.is_some_and(|names| {
                        (1..RECORD).all(|place| bytes[place] == 0 || names.contains(&place))
                    });
                    let record = Record::from_bytes(bytes);
                    assert_eq!(record.operation().is_some(), due, "{bytes:?}");
                    good += usize::from(due);
                    tried += 1;
                }
            }
        }
    }
    assert!(good > 0);
    say(&format!("{tried} records, {good} of them operations"));
}

#[test]
fn texts() {
    let text =
        "  # three\nallocate 2 into 0\n\ncopy 0 to 1 # and so on\nwrite 1 into cell 7 of 0\n\
                read cell 7 of 0 into 2\nclear 1\ncollect\nallocate data 2 into 3\nwrite number 4294967295 into cell 7 of 3\n\
                bytes 9 1 2 3 4 5 6 7 8 9 10 255\nbytes 1 0 0\n";
    let operations = [
        allocate(2, 0),
        copy(0, 1),
        write(1, 7, 0),
        read(7, 0, 2),
        clear(1),
        COLLECT,
        data(2, 3),
        write_number(MAX_NUMBER, 7, 3),
    ];
    let mut due = model::history::record::bytes(&operations);
    due.extend([9, 1, 2, 3, 4, 5, 6, 7, 8, 9, 10, 255, 1, 0, 0]);
    assert_eq!(assemble(text).unwrap(), due);
    let lines = "allocate 2 into 0\ncopy 0 to 1\nwrite 1 into cell 7 of 0\nread cell 7 of 0 into 2\nclear 1\n\
                 collect\nallocate data 2 into 3\nwrite number 4294967295 into cell 7 of 3\n\
                 bytes 9 1 2 3 4 5 6 7 8 9 10 255\nbytes 1 0 0\n";
    assert_eq!(words(&due), lines);
    for (wrong, line) in [
        ("allocate 4294967296 into 0", 1),
        ("read cell 4294967296 of 0 into 1", 1),
        ("collect\nclear 256", 2),
        ("\nallocate -1 into 0", 2),
        ("allocate 1 to 0", 1),
        ("collect now", 1),
        ("bytes", 1),
        ("bytes 1 2 3 4 5 6 7 8 9 10 11 12 13", 1),
        ("bytes 256", 1),
        ("bytes 1 2\ncollect", 2),
        ("finalize 1", 1),
        ("allocate data 4294967296 into 0", 1),
        ("write number 4294967296 into cell 0 of 0", 1),
        ("write number 1 in cell 0 of 0", 1),
    ] {
        let message = assemble(wrong).unwrap_err();
        assert!(message.starts_with(&format!("line {line}: ")), "{message}");
    }
}

/// The text of any bytes is assembled to these bytes.
#[test]
fn texts_are_read_back() {
    let mut random = Random::new(2);
    for _ in 0..3000 {
        let length = random.below(60);
        let mut bytes: Vec<u8> = (0..length).map(|_| random.word() as u8).collect();
        for record in bytes.chunks_mut(RECORD) {
            // Most of them operations.
            if random.percent(70) {
                record[0] = random.below(10) as u8;
                record[1..].fill_with(|| {
                    if random.percent(60) {
                        0
                    } else {
                        random.word() as u8
                    }
                });
            }
        }
        assert_eq!(assemble(&words(&bytes)).unwrap(), bytes);
    }
}

/// Each small history of the examples prints the line that stands beside it.
#[test]
fn examples() {
    let folder = PathBuf::from(env!("CARGO_MANIFEST_DIR")).join("../examples/histories");
    let readme = fs::read_to_string(folder.join("README.md")).unwrap();
    let mut listed = BTreeSet::new();
    for row in readme.lines().filter(|row| row.starts_with("| `")) {
        let parts: Vec<&str> = row.split('`').collect();
        let (name, line) = (parts[1], parts[parts.len() - 2]);
        let text = fs::read_to_string(folder.join(name)).unwrap();
        assert!(text.starts_with("# "), "{name} says what it is");
        let history = assemble(&text).unwrap();
        assert_eq!(report(&history), format!("{line}\n"), "{name}");
        listed.insert(name.to_string());
    }
    let files = fs::read_dir(&folder).unwrap();
    let names = files.map(|file| file.unwrap().file_name().into_string().unwrap());
    let texts: BTreeSet<String> = names.filter(|name| name.ends_with(".txt")).collect();
    assert_eq!(listed, texts);
    say(&format!("{} histories of examples/histories", listed.len()));
}

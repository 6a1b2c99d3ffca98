//! Histories about one record: what is cut off, unknown, unnamed, out of range, and which number comes first.

use super::Shelf;
use crate::history::record::short::{allocate, clear, copy, read, write, COLLECT};
use crate::history::record::{bytes, Operation, Record, RECORD};
use crate::rules::heap::MAX_NUMBER;

pub fn histories(shelf: &mut Shelf) {
    shelf.add("prints-0-0-0-0-0-0-empty", Vec::new());
    let three = [allocate(2, 0), allocate(1, 1), allocate(3, 2)];
    shelf.operations("prints-3-6-3-0-6-0-document-02", &three);
    cut_off(shelf);
    unknown_operations(shelf);
    unnamed_fields(shelf);
    first_number(shelf);
    roots(shelf);
    sizes(shelf);
    cells(shelf);
    stops(shelf);
}

/// Objects of 2 blocks in roots 0 and 1, with a reference from 0 to 1 in cell 3. Roots 2 and up are empty.
const BEFORE: [Operation; 3] = [
    Operation::Allocate { size: 2, d: 0 },
    Operation::Allocate { size: 2, d: 1 },
    Operation::Write { s: 1, c: 3, d: 0 },
];

/// A record behind `BEFORE`.
fn then(record: Record) -> Vec<u8> {
    [bytes(&BEFORE), record.bytes().to_vec()].concat()
}

/// "10 for a file ending inside a record": before 9, and at any length.
fn cut_off(shelf: &mut Shelf) {
    for whole in [0, 1, 3] {
        for tail in 1..RECORD {
            let mut unknown = [255; RECORD];
            unknown[0] = 9;
            let file = [&bytes(&BEFORE[..whole]), &unknown[..tail]].concat();
            shelf.add(format!("gives-10-unknown-{whole}-and-{tail}"), file);
        }
    }
    for tail in 1..RECORD {
        let good = allocate(2, 3).record().bytes();
        let file = [&bytes(&BEFORE), &good[..tail]].concat();
        shelf.add(format!("gives-10-good-3-and-{tail}"), file);
    }
    // A tail of zeros is no end of the file either.
    shelf.add("gives-10-zeros", vec![0; 5]);
}

/// "9 for an unknown operation"
fn unknown_operations(shelf: &mut Shelf) {
    for operation in [0, 9, 10, 11, 128, 129, 254, 255] {
        let record = Record {
            operation,
            ..Record::default()
        };
        let name = format!("gives-9-operation-{operation}");
        shelf.add(name, then(record));
    }
    // With the fields of an operation that is known.
    for operation in [0, 9, 255] {
        let record = Record {
            operation,
            ..allocate(2, 3).record()
        };
        let name = format!("gives-9-allocate-as-{operation}");
        shelf.add(name, then(record));
    }
}

/// "a nonzero unused field": of every operation, every byte that its sentence doesn't name.
fn unnamed_fields(shelf: &mut Shelf) {
    // d is byte 1, s byte 2, c bytes 4 to 7, the size bytes 8 to 11.
    let operations: [(&str, Operation, &[usize]); 6] = [
        ("allocate", allocate(2, 3), &[2, 3, 4, 5, 6, 7]),
        ("copy", copy(0, 3), &[3, 4, 5, 6, 7, 8, 9, 10, 11]),
        ("write", write(1, 0, 0), &[3, 8, 9, 10, 11]),
        ("read", read(3, 0, 3), &[3, 8, 9, 10, 11]),
        ("clear", clear(1), &[2, 3, 4, 5, 6, 7, 8, 9, 10, 11]),
        ("collect", COLLECT, &[1, 2, 3, 4, 5, 6, 7, 8, 9, 10, 11]),
    ];
    for (name, operation, unnamed) in operations {
        shelf.add(format!("good-{name}"), then(operation.record()));
        for (place, value) in unnamed.iter().flat_map(|place| [(place, 1), (place, 128)]) {
            let mut bytes = operation.record().bytes();
            bytes[*place] = value;
            let name = format!("gives-9-{name}-byte-{place}-is-{value}");
            shelf.add(name, then(Record::from_bytes(bytes)));
        }
    }
}

/// Two numbers apply: the first in order is given.
fn first_number(shelf: &mut Shelf) {
    let with_byte_3 = |operation: Operation| Record {
        unused: 1,
        ..operation.record()
    };
    for (name, operation) in [
        ("3-in-1", allocate(0, 3)),
        ("4-in-1", allocate(2, 64)),
        ("5-in-1", allocate(4096, 3)),
        ("4-in-2", copy(64, 0)),
        ("4-in-3", write(0, 0, 64)),
        ("6-in-3", write(0, 0, 2)),
        ("7-in-3", write(0, 8, 1)),
        ("4-in-4", read(0, 64, 0)),
        ("6-in-4", read(0, 2, 0)),
        ("7-in-4", read(8, 1, 0)),
        ("4-in-5", clear(64)),
    ] {
        let file = then(with_byte_3(operation));
        shelf.add(format!("gives-9-with-{name}"), file);
        let number = &name[..1];
        let file = then(operation.record());
        shelf.add(format!("gives-{number}-alone-{name}"), file);
    }
    let unknown_and_root = Record {
        operation: 9,
        ..copy(64, 255).record()
    };
    shelf.add("gives-9-unknown-with-4", then(unknown_and_root));
    for (name, operation) in [
        ("3-with-4-size-0", allocate(0, 64)),
        ("3-with-4-size-4097", allocate(4097, 255)),
        ("4-with-5", allocate(4096, 64)),
        ("4-with-6-s-of-3", write(64, 0, 2)),
        ("4-with-7-s-of-3", write(64, 8, 1)),
        ("4-with-6-and-7-of-3", write(255, MAX_NUMBER, 2)),
        ("4-with-6-d-of-4", read(0, 2, 64)),
        ("4-with-7-d-of-4", read(8, 1, 64)),
        ("4-with-6-and-7-of-4", read(MAX_NUMBER, 2, 255)),
        ("6-with-7-of-3", write(0, MAX_NUMBER, 2)),
        ("6-with-7-of-4", read(MAX_NUMBER, 2, 0)),
    ] {
        shelf.add(format!("gives-{name}"), then(operation.record()));
    }
    // The object that is needed is the one in d of 3 and in s of 4: the other root may be empty.
    shelf.operations("empty-s-of-3", &[&BEFORE[..], &[write(2, 3, 0)]].concat());
    shelf.operations("empty-d-of-4", &[&BEFORE[..], &[read(3, 0, 2)]].concat());
}

/// An operation with this root in one of its places.
type WithRoot = fn(u8) -> Operation;

/// Roots 63, 64 and 255, in every place of every operation.
fn roots(shelf: &mut Shelf) {
    let places: [(&str, WithRoot); 8] = [
        ("d-of-1", |root| allocate(2, root)),
        ("s-of-2", |root| copy(root, 0)),
        ("d-of-2", |root| copy(0, root)),
        ("s-of-3", |root| write(root, 0, 0)),
        ("d-of-3", |root| write(0, 0, root)),
        ("s-of-4", |root| read(0, root, 0)),
        ("d-of-4", |root| read(0, 0, root)),
        ("d-of-5", clear),
    ];
    for (name, operation) in places {
        let before = [&BEFORE[..], &[allocate(1, 63)]].concat();
        for root in [63, 64, 255] {
            let operations = [&before[..], &[operation(root)]].concat();
            let begin = if root < 64 { "root" } else { "gives-4-root" };
            shelf.operations(format!("{begin}-{root}-as-{name}"), &operations);
        }
    }
}

/// "3 if n is 0 or above N", and which byte is the low one.
fn sizes(shelf: &mut Shelf) {
    for size in [1, 2, 3, 255, 256, 257, 258, 2047, 2048, 2049, 4095, 4096] {
        let name = format!("prints-1-{size}-{size}-0-{size}-0-size");
        shelf.operations(name, &[allocate(size, 0)]);
    }
    // Many of these would be right by fewer of their bytes, or the other way round.
    for size in [
        0,
        4097,
        8192,
        65_535,
        65_536,
        65_537,
        65_792,
        16_777_216,
        16_777_217,
        1 << 31,
        MAX_NUMBER,
    ] {
        let name = format!("gives-3-size-{size}");
        shelf.operations(name, &[allocate(1, 0), allocate(size, 1)]);
    }
}

/// "7 if j is not below 4 × size", for objects of 2 and of 65 blocks, and which byte is the low one.
fn cells(shelf: &mut Shelf) {
    for (size, cells) in [
        (
            2,
            [0, 1, 7, 8, 255, 256, 65_535, 65_536, 1 << 24, MAX_NUMBER],
        ),
        (
            65,
            [1, 255, 256, 258, 259, 260, 513, 65_537, 65_792, 1 << 31],
        ),
    ] {
        for c in cells {
            let begin = if c < 4 * size { "cell" } else { "gives-7-cell" };
            let wrote = [allocate(size, 0), allocate(1, 1), write(1, c, 0)];
            shelf.operations(format!("{begin}-{c}-of-{size}-written"), &wrote);
            let read = [allocate(size, 0), allocate(1, 1), read(c, 0, 1)];
            shelf.operations(format!("{begin}-{c}-of-{size}-read"), &read);
        }
    }
    // What was written is what is read: the object of 7 blocks outlives its root in a cell, and then that cell's owner.
    let kept = [
        allocate(65, 0),
        allocate(7, 1),
        write(1, 258, 0),
        copy(2, 1),
        read(258, 0, 3),
        clear(0),
        read(27, 3, 4),
        allocate(4000, 5),
    ];
    shelf.operations("gives-5-what-was-written-is-read", &kept);
}

/// A run stops at the first record that is refused, whatever comes behind it.
fn stops(shelf: &mut Shelf) {
    let refused = clear(64).record();
    let behind: [(&str, Vec<u8>); 4] = [
        ("good", bytes(&BEFORE)),
        ("unknown", vec![9; RECORD]),
        ("cut-off", vec![9; 3]),
        ("many", bytes(&[COLLECT; 100])),
    ];
    for (name, behind) in behind {
        let file = [then(refused), behind].concat();
        shelf.add(format!("stops-before-{name}"), file);
    }
}

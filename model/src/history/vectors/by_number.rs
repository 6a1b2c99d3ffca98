//! Histories about data (U6): operations 7 and 8, and 12 in 3, 4 and 8.

use super::Shelf;
use crate::history::record::short::{
    allocate, clear, copy, data, read, write, write_number, COLLECT,
};
use crate::history::record::{bytes, Operation, Record};
use crate::history::run::BLOCKS;
use crate::rules::heap::{Ref, MAX_NUMBER};

const EVERYTHING: Operation = Operation::Allocate {
    size: BLOCKS as Ref,
    d: 63,
};

/// An ordinary object of 2 blocks at 0 in root 0, data of 2 blocks at 2 in root 1. Roots 2 and up are empty.
const BEFORE: [Operation; 2] = [
    Operation::Allocate { size: 2, d: 0 },
    Operation::AllocateData { size: 2, d: 1 },
];

fn then(operations: &[Operation]) -> Vec<Operation> {
    [&BEFORE[..], operations].concat()
}

pub fn histories(shelf: &mut Shelf) {
    accepted(shelf);
    unnamed_fields(shelf);
    first_number(shelf);
    numbers(shelf);
    forced_collections(shelf);
    letting_go(shelf);
}

/// "allocate data into d as 1 does": it counts as an allocation in every figure. 8 counts in nothing.
fn accepted(shelf: &mut Shelf) {
    let three = [data(2, 0), data(1, 1), data(3, 2)];
    shelf.operations("prints-3-6-3-0-6-0-data", &three);
    let mixed = [allocate(2, 0), data(7, 1), allocate(3, 2), data(1, 2)];
    shelf.operations("prints-4-13-7-0-12-0-both-kinds", &mixed);
    let written = then(&[write_number(MAX_NUMBER, 7, 1), write_number(0, 0, 1)]);
    shelf.operations("prints-2-4-2-0-4-0-numbers-written", &written);
    for size in [1, 256, 257, 2049, 4096] {
        let name = format!("prints-1-{size}-{size}-0-{size}-0-data");
        shelf.operations(name, &[data(size, 0)]);
    }
    for size in [0, 4097, 65_535, 65_537, MAX_NUMBER] {
        shelf.operations(format!("gives-3-data-of-{size}"), &then(&[data(size, 2)]));
    }
    // Becoming stuck: the seventh reference.
    let mut stick = vec![data(1, 0)];
    stick.extend((1..9).map(|d| copy(0, d)));
    shelf.operations("prints-1-1-1-0-1-1-stuck-data", &stick);
}

/// "9 for ... a nonzero unused field": 7 names d and the size, 8 names d, c and the size.
fn unnamed_fields(shelf: &mut Shelf) {
    let operations: [(&str, Operation, &[usize]); 2] = [
        ("data", data(2, 3), &[2, 3, 4, 5, 6, 7]),
        ("number", write_number(258, 7, 1), &[2, 3]),
    ];
    for (name, operation, unnamed) in operations {
        shelf.operations(format!("good-{name}"), &then(&[operation]));
        for (place, value) in unnamed.iter().flat_map(|place| [(place, 1), (place, 128)]) {
            let mut record = operation.record().bytes();
            record[*place] = value;
            let file = [bytes(&BEFORE), record.to_vec()].concat();
            shelf.add(format!("gives-9-{name}-byte-{place}-is-{value}"), file);
        }
    }
    // A record of zeros behind the operation: a size of 0 in 7, an empty root in 8.
    for (name, operation) in [("3-zeros-as-7", 7), ("6-zeros-as-8", 8)] {
        let record = Record {
            operation,
            ..Record::default()
        };
        shelf.add(format!("gives-{name}"), record.bytes().to_vec());
    }
}

/// "9 ..., before all others of that record", then 3, 4, 5 in 7 and 4, 6, 7, 12 in 3, 4 and 8.
fn first_number(shelf: &mut Shelf) {
    for (name, operation) in [
        ("3-of-7", data(0, 2)),
        ("3-with-4-of-7", data(0, 64)),
        ("3-with-4-of-7-too-large", data(4097, 255)),
        ("4-of-7", data(1, 64)),
        ("4-with-5-of-7", data(4096, 64)),
        ("5-of-7", data(4096, 2)),
        ("4-of-8", write_number(1, 0, 64)),
        ("4-with-7-of-8", write_number(1, MAX_NUMBER, 255)),
        ("6-of-8", write_number(1, 0, 2)),
        ("6-with-7-of-8", write_number(1, MAX_NUMBER, 2)),
        ("7-of-8", write_number(1, 8, 1)),
        ("7-with-12-of-8", write_number(1, 8, 0)),
        ("7-with-12-of-8-far", write_number(1, MAX_NUMBER, 0)),
        ("12-of-8", write_number(1, 7, 0)),
        ("12-of-8-with-0", write_number(0, 0, 0)),
        ("12-of-3", write(0, 7, 1)),
        ("12-of-3-itself", write(1, 0, 1)),
        ("12-of-3-with-empty", write(2, 0, 1)),
        ("7-with-12-of-3", write(0, 8, 1)),
        ("4-with-12-of-3", write(64, 0, 1)),
        ("12-of-4", read(7, 1, 0)),
        ("12-of-4-into-itself", read(0, 1, 1)),
        ("7-with-12-of-4", read(8, 1, 0)),
        ("4-with-12-of-4", read(0, 1, 64)),
    ] {
        shelf.operations(format!("gives-{name}"), &then(&[operation]));
        let record = Record {
            unused: 1,
            ..operation.record()
        };
        let file = [bytes(&BEFORE), record.bytes().to_vec()].concat();
        shelf.add(format!("gives-9-with-{name}"), file);
    }
    // Roots 63 and up, in both.
    for root in [63, 64, 255] {
        let begin = if root < 64 { "root" } else { "gives-4-root" };
        let operations = then(&[data(1, 63), data(2, root)]);
        shelf.operations(format!("{begin}-{root}-as-d-of-7"), &operations);
        let operations = then(&[data(1, 63), write_number(9, 3, root)]);
        shelf.operations(format!("{begin}-{root}-as-d-of-8"), &operations);
    }
}

/// "write the size field's number into cell c of the data in d": any number, never 3 or 9; and which byte is the low one.
fn numbers(shelf: &mut Shelf) {
    for number in [
        0, 1, 255, 256, 4096, 4097, 65_535, 65_536, 16_777_216, MAX_NUMBER,
    ] {
        let name = format!("prints-2-4-2-0-4-0-number-{number}");
        shelf.operations(name, &then(&[write_number(number, 5, 1)]));
    }
    for (size, cells) in [
        (2, [0, 7, 8, 256, 65_536]),
        (65, [255, 256, 259, 260, 16_777_216]),
    ] {
        for c in cells {
            let begin = if c < 4 * size {
                "number"
            } else {
                "gives-7-number"
            };
            let wrote = [data(size, 0), write_number(9, c, 0)];
            shelf.operations(format!("{begin}-in-cell-{c}-of-{size}"), &wrote);
        }
    }
}

/// "When allocation gives 5 the run collects and tries once more": allocation of data too.
fn forced_collections(shelf: &mut Shelf) {
    // Garbage of 2,048 blocks, an object that names itself; and data that is held.
    let garbage = [allocate(2048, 0), write(0, 0, 0), clear(0), data(2048, 1)];
    let helps = [&garbage[..], &[data(2048, 2)]].concat();
    shelf.operations("prints-3-6144-2048-1-4096-0-forced-by-data", &helps);
    let no_help = [&helps[..], &[data(1, 3)]].concat();
    shelf.operations("gives-5-forced-by-data-is-no-help", &no_help);
    let not_for_3 = [&garbage[..], &[data(4097, 2)]].concat();
    shelf.operations("gives-3-no-collection-for-data", &not_for_3);
    let not_for_4 = [&garbage[..], &[data(2048, 64)]].concat();
    shelf.operations("gives-4-no-collection-for-data", &not_for_4);
    // What a forced collection leaves of data: its numbers, and that it is data.
    let stays = [&helps[..], &[write_number(1, 0, 1), write(2, 0, 1)]].concat();
    shelf.operations("gives-12-data-after-a-forced-collection", &stays);
    // Over the data that stands in the root: what that frees is not used.
    let same_root = [data(4096, 0), data(4096, 0)];
    shelf.operations("gives-5-data-over-data", &same_root);
}

/// Data is held by roots and cells as objects are, and its numbers hold nothing.
fn letting_go(shelf: &mut Shelf) {
    let cleared = [data(5, 0), clear(0), EVERYTHING];
    shelf.operations("prints-2-4101-4096-0-4096-0-data-cleared", &cleared);
    let in_a_cell = then(&[write(1, 3, 0), clear(1)]);
    let held = [&in_a_cell[..], &[EVERYTHING]].concat();
    shelf.operations("gives-5-data-held-by-a-cell", &held);
    let let_go = [&in_a_cell[..], &[clear(0), EVERYTHING]].concat();
    shelf.operations("prints-3-4100-4096-0-4096-0-data-in-a-cell", &let_go);
    let read_out = [&in_a_cell[..], &[read(3, 0, 2), clear(0), EVERYTHING]].concat();
    shelf.operations("gives-5-data-read-out-of-a-cell", &read_out);
    // The number 1 looks like a reference to the object at 0: it keeps it neither from being let go nor from a collection.
    let named = then(&[write_number(1, 0, 1), clear(0), clear(1), EVERYTHING]);
    shelf.operations("prints-3-4100-4096-0-4096-0-named-by-a-number", &named);
    let one_left = then(&[
        write_number(1, 0, 1),
        clear(0),
        data(2, 2),
        clear(1),
        clear(2),
    ]);
    let one_left = [&one_left[..], &[EVERYTHING]].concat();
    shelf.operations("prints-4-4102-4096-0-4096-0-born-again-as-data", &one_left);
    let cycle = then(&[write(0, 0, 0), write_number(1, 0, 1), clear(0), COLLECT]);
    let cycle = [&cycle[..], &[clear(1), EVERYTHING]].concat();
    shelf.operations(
        "prints-3-4100-4096-1-4096-0-cycle-named-by-a-number",
        &cycle,
    );
    // Freed data lets nothing go: the object at 0 is still there, once.
    let twice = then(&[write_number(1, 0, 1), clear(1), EVERYTHING]);
    shelf.operations("gives-5-number-lets-nothing-go", &twice);
    // Numbers over numbers.
    let over = then(&[
        write_number(1, 0, 1),
        write_number(3, 0, 1),
        write_number(0, 0, 1),
    ]);
    let over = [&over[..], &[clear(0), clear(1), EVERYTHING]].concat();
    shelf.operations("prints-3-4100-4096-0-4096-0-numbers-over-numbers", &over);
    // An ordinary object where data was, and the other way round.
    let then_ordinary = then(&[clear(1), allocate(2, 1), write(0, 0, 1), read(0, 1, 2)]);
    shelf.operations("prints-3-6-2-0-4-0-ordinary-where-data-was", &then_ordinary);
    let then_data = then(&[clear(0), data(2, 0), write_number(7, 0, 0), write(1, 0, 0)]);
    shelf.operations("gives-12-data-where-an-object-was", &then_data);
    // By a collection.
    let collected = then(&[write(1, 0, 0), write(0, 1, 0), clear(1), clear(0), COLLECT]);
    let collected = [&collected[..], &[allocate(4, 1), write(1, 8, 1)]].concat();
    shelf.operations("prints-3-8-4-1-4-0-ordinary-after-a-collection", &collected);
}

//! What several test files use.
#![allow(dead_code)]

use huwekapo::lent::{self, Reply, Shared, Unique};
use huwekapo::{Allocated, Buffers, Heap, Record, Ref, SoFar, Stored};

/// The bytes of a record.
pub type Bytes = [u8; Record::LENGTH];

pub fn allocate(size: u32, d: u8) -> Bytes {
    Record::Allocate { size, d }.bytes()
}

pub fn copy(s: u8, d: u8) -> Bytes {
    Record::Copy { s, d }.bytes()
}

pub fn write(s: u8, c: u32, d: u8) -> Bytes {
    Record::Write { s, c, d }.bytes()
}

pub fn read(c: u32, s: u8, d: u8) -> Bytes {
    Record::Read { c, s, d }.bytes()
}

pub fn clear(d: u8) -> Bytes {
    Record::Clear { d }.bytes()
}

pub fn collect() -> Bytes {
    Record::Collect.bytes()
}

pub fn block(made: Allocated) -> usize {
    made.block
}

pub fn freed(done: Stored) -> usize {
    done.freed
}

/// All ten buffers, the waiting list too.
pub fn lists(buffers: &Buffers) -> impl PartialEq + std::fmt::Debug {
    (buffers.clone(), buffers.waiting.clone())
}

/// The buffers, lent to be written.
pub fn lend(blocks: usize, width: usize, buffers: &mut Buffers) -> Unique<'_> {
    Unique {
        blocks,
        width,
        a: &mut buffers.a,
        b: &mut buffers.b,
        counts: &mut buffers.counts,
        cells: &mut buffers.cells,
        roots: &mut buffers.roots,
        waiting: &mut buffers.waiting,
        sections: &mut buffers.sections,
        data: &mut buffers.data,
        marks: &mut buffers.marks,
        list: &mut buffers.list,
    }
}

/// The same, to be read.
pub fn show(blocks: usize, width: usize, buffers: &Buffers) -> Shared<'_> {
    Shared {
        blocks,
        width,
        a: &buffers.a,
        b: &buffers.b,
        counts: &buffers.counts,
        cells: &buffers.cells,
        roots: &buffers.roots,
        waiting: &buffers.waiting,
        sections: &buffers.sections,
        data: &buffers.data,
        marks: &buffers.marks,
        list: &buffers.list,
    }
}

/// The calls that format the heap, and so look at no content, and all others.
pub const FORMATTING: [&str; 2] = ["format", "replay"];
pub const OTHERS: [&str; 17] = [
    "check",
    "allocate",
    "store_root",
    "store_cell",
    "return_roots",
    "collect",
    "look",
    "free_blocks",
    "allocate_data",
    "write_number",
    "read_number",
    "open_collection",
    "step_collection",
    "reason",
    "shape",
    "make_calls",
    "run_records",
];

/// Whether a call is refused 14, as a collection is open or not.
pub fn is_out_of_turn(name: &str, open: bool) -> bool {
    match name {
        "collect" | "open_collection" => open,
        "step_collection" => !open,
        _ => false,
    }
}

/// Makes a call whose own numbers are right, on the heap of `lent_to_calls`.
pub fn call(name: &str, blocks: usize, buffers: &mut Buffers) -> Reply {
    match name {
        "check" => lent::check(show(blocks, 2, buffers)),
        "look" => lent::look(show(blocks, 2, buffers), 0),
        "read_number" => lent::read_number(show(blocks, 2, buffers), 1, 3),
        "free_blocks" => lent::free_blocks(show(blocks, 2, buffers)),
        "reason" => {
            let mut output = [99; 16];
            let reply = lent::reason(show(blocks, 2, buffers), 0, &mut output);
            assert!(reply.number == 0 || output == [99; 16]);
            reply
        }
        "shape" => {
            let mut output = [99; 23];
            let reply = lent::shape(show(blocks, 2, buffers), &mut output);
            assert!(reply.number == 0 || output == [99; 23]);
            reply
        }
        _ => writing_call(name, lend(blocks, 2, buffers)),
    }
}

fn writing_call(name: &str, heap: Unique) -> Reply {
    match name {
        "format" => lent::format(heap),
        "replay" => lent::replay(heap, &[], &mut []),
        "allocate" => lent::allocate(heap, 1, 1),
        "store_root" => lent::store_root(heap, 1, 1),
        "store_cell" => lent::store_cell(heap, 0, 0, 1),
        "return_roots" => lent::return_roots(heap, 1),
        "collect" => lent::collect(heap),
        "allocate_data" => lent::allocate_data(heap, 1, 1),
        "write_number" => lent::write_number(heap, 1, 3, Ref::MAX),
        "open_collection" => lent::open_collection(heap),
        "step_collection" => lent::step_collection(heap, 1),
        "make_calls" => {
            // The object at block 0, and the number of free blocks.
            let mut replies = [7; 7];
            let reply = lent::make_calls(heap, &[6, 0, 9, 9, 7, 9, 9, 9], &mut replies);
            let accepted = replies[0] == 0 && replies[1..3] == [1, 1] && replies[6] == 7;
            assert!(if reply.number == 0 {
                accepted
            } else {
                replies == [7; 7]
            });
            reply
        }
        "run_records" => {
            let ran = lent::run_records(heap, SoFar::default(), &collect());
            assert!(ran.reply.number == 0 || ran.run == SoFar::default());
            ran.reply
        }
        _ => panic!("{name} is no call"),
    }
}

/// A heap of width 2 and 4 roots. The object of one block at block 0 is in root 0, and cell 3 of it names that at block 2; data
/// of one block at block 1 is in root 2. A collection is open or not. The waiting list holds anything.
pub fn lent_to_calls(blocks: usize, open: bool) -> Buffers {
    let mut heap = Heap::new(blocks, 2, 4).expect("a good shape");
    assert_eq!(heap.allocate(1, 0).map(block), Ok(0));
    assert_eq!(heap.allocate_data(1, 2).map(block), Ok(1));
    assert_eq!(heap.allocate(1, 1).map(block), Ok(2));
    assert_eq!(heap.store_cell(0, 3, 3).map(freed), Ok(0));
    assert_eq!(heap.store_root(1, 0).map(freed), Ok(0));
    if open {
        assert_eq!(heap.open_collection(), Ok(()));
    }
    let mut buffers = heap.into_buffers();
    buffers.waiting.fill(99);
    buffers
}

/// What a call that is refused replies. Nothing is written.
pub fn refused(name: &str, blocks: usize, buffers: &Buffers) -> Reply {
    let mut now = buffers.clone();
    let reply = call(name, blocks, &mut now);
    assert_eq!(lists(&now), lists(buffers), "{name}");
    reply
}

pub fn refusal(number: usize) -> Reply {
    Reply {
        number,
        value: 0,
        second: 0,
    }
}

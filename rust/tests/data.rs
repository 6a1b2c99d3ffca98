//! Data: objects whose cells hold any number. 8 blocks, width 2 and 4 roots unless said.

mod common;
use common::{allocate, block, freed, read, write, Bytes};
use huwekapo::{Damage, Heap, Look, Record, Ref, Refusal, Run};

fn fresh() -> Heap {
    Heap::new(8, 2, 4).expect("a good shape")
}

/// Data of 2 blocks at block 0 in root 0, an object of 1 block at block 2 in root 1.
fn pixels() -> Heap {
    let mut heap = fresh();
    assert_eq!(heap.allocate_data(2, 0).map(block), Ok(0));
    assert_eq!(heap.allocate(1, 1).map(block), Ok(2));
    assert_eq!(heap.data(), [1]);
    heap
}

/// The same with anything in the waiting list.
fn with_rubbish(heap: Heap) -> Heap {
    let mut buffers = heap.into_buffers();
    buffers.waiting.fill(99);
    Heap::from_buffers(8, 2, buffers)
}

/// "write and read one of its cells": one cell changes, and nothing else, the waiting list neither.
#[test]
fn numbers_are_written_and_read() {
    for v in [0, 1, 3, 4, 9, 255, 65_535, 65_536, Ref::MAX] {
        for j in 0..8 {
            let mut heap = with_rubbish(pixels());
            assert_eq!(heap.write_number(0, j, v), Ok(()));
            assert_eq!(heap.read_number(0, j), Ok(v));
            assert_eq!(heap.check(), Ok(()));
            let mut due = pixels().into_buffers();
            due.cells[j] = v;
            assert_eq!(heap.buffers(), &due);
            assert_eq!(heap.buffers().waiting, [99; 8]);
        }
    }
}

/// "12, a reference store or read on data, or a number on an ordinary object, placed after 7". A refusal writes nothing.
#[test]
fn twelve_after_seven_and_before_eight() {
    let mut heap = with_rubbish(pixels());
    for (at, j, refusal) in [
        (2, 0, Refusal::WrongKind),
        (2, 4, Refusal::BadCell),
        (0, 8, Refusal::BadCell),
        (1, 0, Refusal::NoObject),
        (8, 0, Refusal::NoObject),
    ] {
        assert_eq!(heap.write_number(at, j, 1), Err(refusal));
        assert_eq!(heap.read_number(at, j), Err(refusal));
    }
    for v in [0, 1, 3, 9, usize::MAX] {
        assert_eq!(heap.store_cell(0, 7, v), Err(Refusal::WrongKind));
        assert_eq!(heap.store_cell(0, 8, v), Err(Refusal::BadCell));
    }
    assert_eq!(heap.store_cell(2, 0, 9), Err(Refusal::BadReference));
    assert_eq!(heap, pixels());
    assert_eq!(heap.buffers().waiting, [99; 8]);
}

/// The refusals of an allocation, and its fact: at width 1 every object is born stuck.
#[test]
fn data_is_allocated_as_objects_are() {
    let mut heap = pixels();
    assert_eq!(heap.allocate_data(0, 4), Err(Refusal::BadSize));
    assert_eq!(heap.allocate_data(9, 4), Err(Refusal::BadSize));
    assert_eq!(heap.allocate_data(8, 4), Err(Refusal::BadRoot));
    assert_eq!(heap.allocate_data(8, 3), Err(Refusal::NoChunk));
    assert_eq!(heap, pixels());
    assert!(!fresh().allocate_data(1, 0).unwrap().became_stuck);
    let mut narrow = Heap::new(8, 1, 4).unwrap();
    assert!(narrow.allocate_data(1, 0).unwrap().became_stuck);
}

/// Numbers that look like references: 3 names the object at block 2, 1 the data itself. Nothing counts or follows them.
#[test]
fn numbers_are_never_followed() {
    let mut heap = pixels();
    for j in 0..4 {
        assert_eq!(heap.write_number(0, j, 3), Ok(()));
        assert_eq!(heap.write_number(0, 4 + j, 1), Ok(()));
    }
    assert_eq!(heap.look(2), Ok(Look { size: 1, count: 1 }));
    assert_eq!(heap.collect(), Ok(0));
    assert_eq!(heap.look(0), Ok(Look { size: 2, count: 1 }));
    // The number does not hold the object, nor does freeing the data let go of what its numbers look like.
    assert_eq!(heap.store_root(1, 0).map(freed), Ok(1));
    assert_eq!(heap.check(), Ok(()));
    assert_eq!(heap.allocate(1, 1).map(block), Ok(2));
    assert_eq!(heap.store_root(0, 0).map(freed), Ok(2));
    assert_eq!(heap.look(2), Ok(Look { size: 1, count: 1 }));
}

/// "with its D bit, are cleared when it is freed": by a store, a return and a collection.
#[test]
fn freed_data_leaves_nothing() {
    let frees: [fn(&mut Heap) -> Result<usize, Refusal>; 3] = [
        |heap| heap.store_root(0, 0).map(freed),
        |heap| heap.return_roots(1),
        |heap| {
            // Three references make it stuck, and only a collection frees it.
            for r in [2, 3] {
                assert_eq!(heap.store_root(r, 1).map(freed), Ok(0));
            }
            assert_eq!(heap.return_roots(13), Ok(0));
            heap.collect()
        },
    ];
    for free in frees {
        let mut heap = pixels();
        for j in 0..8 {
            assert_eq!(heap.write_number(0, j, Ref::MAX), Ok(()));
        }
        assert_eq!(free(&mut heap), Ok(2));
        assert_eq!(heap.data(), [0]);
        assert_eq!(heap.buffers().cells, [0; 32]);
        // What is made there next is an ordinary object.
        assert_eq!(heap.allocate(2, 0).map(block), Ok(0));
        assert_eq!(heap.read_number(0, 0), Err(Refusal::WrongKind));
    }
}

/// "damage kind 7 is a D bit where no object starts": a free block, or the second of an object. Kind 5 comes first.
#[test]
fn a_stray_bit_is_damage() {
    for stray in [1, 3, 7] {
        let mut buffers = pixels().into_buffers();
        buffers.data[0] |= 1 << stray;
        let heap = Heap::from_buffers(8, 2, buffers.clone());
        assert_eq!(heap.check(), Err(Refusal::Damaged(Damage::StrayData)));
        buffers.counts[0] ^= 1;
        let heap = Heap::from_buffers(8, 2, buffers);
        assert_eq!(heap.check(), Err(Refusal::Damaged(Damage::WrongCount)));
    }
}

/// Another length of the D-map is 1.
#[test]
fn another_length_is_refused() {
    for bytes in [0, 2] {
        let mut buffers = pixels().into_buffers();
        buffers.data.resize(bytes, 0);
        let mut heap = Heap::from_buffers(8, 2, buffers);
        assert_eq!(heap.check(), Err(Refusal::Misshapen));
        assert_eq!(heap.format(), Err(Refusal::Misshapen));
        assert_eq!(heap.read_number(0, 0), Err(Refusal::Misshapen));
    }
}

/// Operations 7 and 8. The figures count data as they count objects; a number counts in nothing.
#[test]
fn records() {
    let allocate_data = |size, d| Record::AllocateData { size, d }.bytes();
    let write_number = |number, c, d| Record::WriteNumber { number, c, d }.bytes();
    let with = |mut record: Bytes, at: usize| {
        record[at] = 1;
        record
    };
    let start = [
        allocate_data(2, 0),
        write_number(Ref::MAX, 7, 0),
        allocate(1, 1),
    ];
    for (last, line) in [
        (write_number(0, 0, 0), "2 3 2 0 3 0"),
        (write_number(1, 8, 0), "refused 7 at record 3"),
        (write_number(1, 0, 1), "refused 12 at record 3"),
        (write_number(1, 4, 1), "refused 7 at record 3"),
        (write_number(1, 0, 2), "refused 6 at record 3"),
        (write_number(1, 0, 4), "refused 4 at record 3"),
        (write(1, 0, 0), "refused 12 at record 3"),
        (write(0, 0, 1), "2 3 2 0 3 0"),
        (read(0, 0, 2), "refused 12 at record 3"),
        (read(8, 0, 2), "refused 7 at record 3"),
        (allocate_data(0, 4), "refused 3 at record 3"),
        (allocate_data(1, 4), "refused 4 at record 3"),
        (allocate_data(8, 0), "refused 5 at record 3"),
        (with(write_number(0, 0, 0), 2), "refused 9 at record 3"),
        (with(write_number(0, 0, 0), 3), "refused 9 at record 3"),
        (with(allocate_data(1, 0), 2), "refused 9 at record 3"),
        (with(allocate_data(1, 0), 4), "refused 9 at record 3"),
        (with(allocate_data(1, 0), 7), "refused 9 at record 3"),
        (with(allocate_data(1, 0), 11), "refused 3 at record 3"),
    ] {
        let mut run = Run::new(fresh());
        let history = [start[0], start[1], start[2], last];
        let so_far = run.read(history.as_flattened()).expect("sound");
        assert_eq!(so_far.to_string(), line, "{last:?}");
        assert_eq!(run.heap().read_number(0, 7), Ok(Ref::MAX));
        // 7 forces a collection as 1 does.
        assert_eq!(so_far.tally.collections, u64::from(so_far.number == 5));
    }
}

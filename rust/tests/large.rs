//! Heaps of more than 8,192 blocks (request U12): the largest numbers of blocks, references and data.

mod common;
use common::{allocate, block, copy, freed, write};
use huwekapo::{Heap, Look, Record, Ref, Refusal, Run, SoFar, Stepped, MAX_BLOCKS};

const SIZES: [usize; 3] = [16_384, 32_768, MAX_BLOCKS];

fn fresh(blocks: usize) -> Heap {
    Heap::new(blocks, 3, 4).expect("a good shape")
}

/// Objects of one block until the heap is full, each naming the one before it in its cell 0, the last in root 0. Made by one list.
fn chain(blocks: usize) -> Heap {
    let mut calls = Vec::new();
    for at in 0..blocks as u64 {
        calls.extend([2, 1, 1, 0, 4, at, 0, at, 3, 0, 1 + at, 0]);
    }
    calls.extend([3, 1, 0, 0]);
    let mut replies = vec![0; 3 * (3 * blocks + 1)];
    let mut heap = fresh(blocks);
    assert_eq!(heap.replay(&calls, &mut replies), Ok(3 * blocks + 1));
    assert!(replies.chunks(3).all(|reply| reply[0] == 0));
    heap
}

/// The last block's reference, which at the largest size is one that 16 bits would cut to 0, is stored and read back; one further
/// is refused 8.
#[test]
fn the_last_block() {
    for blocks in SIZES {
        let mut heap = fresh(blocks);
        assert_eq!(heap.allocate(blocks / 2, 0).map(block), Ok(0));
        for (part, r) in [(4, 1), (8, 2)] {
            heap.allocate(blocks / part, r).expect("room");
        }
        // Of the rest all but one block.
        let mut size = blocks / 16;
        while size > 0 {
            heap.allocate(size, 3).expect("room");
            heap.store_cell(0, size, heap.roots()[3] as usize)
                .expect("an object");
            size /= 2;
        }
        let last = heap.allocate(1, 3).map(block).expect("room");
        assert_eq!((last, heap.free_blocks()), (blocks - 1, Ok(0)));
        assert_eq!(heap.roots()[3] as usize, blocks);
        let cells = 2 * blocks;
        assert_eq!(heap.store_cell(0, cells - 1, blocks).map(freed), Ok(0));
        assert_eq!(heap.buffers().cells[cells - 1] as usize, blocks);
        assert_eq!(heap.look(last), Ok(Look { size: 1, count: 2 }));
        assert_eq!(heap.store_cell(0, cells, 0), Err(Refusal::BadCell));
        for v in [blocks + 1, blocks + 65_536, (1 << 32) + blocks] {
            assert_eq!(heap.store_root(1, v), Err(Refusal::BadReference));
            assert_eq!(heap.store_cell(0, 0, v), Err(Refusal::BadReference));
        }
        let sentence = format!("root 3 block {last}\n");
        assert_eq!(heap.reason(last), Ok(sentence));
        assert_eq!(heap.store_root(3, 0).map(freed), Ok(0));
        let sentence = format!("root 0 cell {} block {last}\n", cells - 1);
        assert_eq!(heap.reason(last), Ok(sentence));
        assert_eq!(heap.collect(), Ok(0));
        assert_eq!(heap.store_cell(0, cells - 1, 0).map(freed), Ok(1));
        assert_eq!(heap.allocate(2, 3), Err(Refusal::NoChunk));
    }
}

/// Any number of 32 bits in data.
#[test]
fn numbers() {
    for blocks in SIZES {
        let mut heap = fresh(blocks);
        assert_eq!(heap.allocate_data(blocks, 0).map(block), Ok(0));
        for (j, v) in [(0, 65_536), (4 * blocks - 1, Ref::MAX), (7, 65_535)] {
            assert_eq!(heap.write_number(0, j, v), Ok(()));
            assert_eq!(heap.read_number(0, j), Ok(v));
        }
        assert_eq!(heap.check(), Ok(()));
        assert_eq!(heap.write_number(0, 4 * blocks, 0), Err(Refusal::BadCell));
        assert_eq!(heap.store_root(0, 0).map(freed), Ok(blocks));
        assert!(heap.buffers().cells.iter().all(|cell| *cell == 0));
    }
}

/// "65,536 objects, each naming the next": let go of, returned, collected at once and in steps, told of and written down. Rust gives a
/// test's thread 2 MiB of stack.
#[test]
fn long_chains() {
    for blocks in SIZES {
        let full = chain(blocks);
        assert_eq!(full.free_blocks(), Ok(0));
        assert_eq!(full.roots()[0] as usize, blocks);
        let sentence = format!("root 0{} block 0\n", " cell 0".repeat(blocks - 1));
        assert_eq!(full.reason(0), Ok(sentence));
        assert_eq!(full.shape().map(|shape| shape.len()), Ok(5 + 6 * blocks));

        let mut heap = full.clone();
        assert_eq!(heap.collect(), Ok(0));
        assert_eq!(heap, full);
        assert_eq!(heap.store_root(0, 0).map(freed), Ok(blocks));
        assert_eq!(heap, fresh(blocks));

        let mut heap = full.clone();
        assert_eq!(heap.return_roots(1), Ok(blocks));
        assert_eq!(heap, fresh(blocks));

        let mut heap = full.clone();
        assert_eq!(heap.open_collection(), Ok(()));
        let steps = Stepped {
            steps: blocks,
            freed: 0,
        };
        assert_eq!(heap.step_collection(usize::MAX), Ok(steps));
        assert_eq!(heap, full);

        // Closed to a cycle, of which no root names any.
        let mut heap = full;
        assert_eq!(heap.store_cell(0, 0, blocks).map(freed), Ok(0));
        assert_eq!(heap.store_root(0, 0).map(freed), Ok(0));
        assert_eq!(heap.reason(0).as_deref(), Ok("no root reaches block 0\n"));
        assert_eq!(heap.collect(), Ok(blocks));
        assert_eq!(heap, fresh(blocks));
    }
}

/// Sizes and cells of more than 16 bits in records; one too large is refused 3 and 7, and not cut off.
#[test]
fn records() {
    let half = MAX_BLOCKS as u32 / 2;
    let start = [allocate(2 * half, 0), copy(0, 1), write(0, 8 * half - 1, 1)];
    for (last, line) in [
        (copy(1, 2), "1 65536 65536 0 65536 0"),
        (write(1, 8 * half, 0), "refused 7 at record 3"),
        (allocate(2 * half + 1, 2), "refused 3 at record 3"),
        (allocate(1, 2), "refused 5 at record 3"),
    ] {
        let mut run = Run::new(fresh(MAX_BLOCKS));
        let history = [start[0], start[1], start[2], last];
        let so_far = run.read(history.as_flattened()).expect("sound");
        assert_eq!(so_far.to_string(), line);
        assert_eq!(run.heap().buffers().cells[4 * MAX_BLOCKS - 1], 1);
    }
}

/// A record there and back, and every byte that is none of its fields.
#[test]
fn the_form_of_a_record() {
    let (c, size) = (0x0403_0201, 0x0807_0605);
    let of = |bytes: [u8; 4], c: u32, size: u32| -> Vec<u8> {
        [bytes, c.to_le_bytes(), size.to_le_bytes()].concat()
    };
    for (record, bytes) in [
        (Record::Allocate { size, d: 9 }, of([1, 9, 0, 0], 0, size)),
        (Record::Copy { s: 8, d: 9 }, of([2, 9, 8, 0], 0, 0)),
        (Record::Write { s: 8, c, d: 9 }, of([3, 9, 8, 0], c, 0)),
        (Record::Read { c, s: 8, d: 9 }, of([4, 9, 8, 0], c, 0)),
        (Record::Clear { d: 9 }, of([5, 9, 0, 0], 0, 0)),
        (Record::Collect, of([6, 0, 0, 0], 0, 0)),
        (
            Record::AllocateData { size, d: 9 },
            of([7, 9, 0, 0], 0, size),
        ),
        (
            Record::WriteNumber {
                number: size,
                c,
                d: 9,
            },
            of([8, 9, 0, 0], c, size),
        ),
    ] {
        assert_eq!(record.bytes()[..], bytes);
        assert_eq!(Record::of(record.bytes()), Some(record));
        for at in (0..Record::LENGTH).filter(|at| bytes[*at] == 0) {
            let mut other = record.bytes();
            other[at] = 1;
            let mut heap = fresh(8);
            let run = heap.run_records(SoFar::default(), &other).expect("sound");
            assert_eq!(Record::of(other).is_none(), run.number == 9, "{other:?}");
        }
        assert_eq!(Record::history([record]), bytes);
    }
    for operation in (0..=0).chain(9..=255) {
        let mut other = Record::Collect.bytes();
        other[0] = operation;
        assert_eq!(Record::of(other), None);
    }
}

//! The lists of the large file on heaps of 8,192 blocks and more (U12). What such a heap prints is cut short, but for one: the fuzz
//! compares all of them.

use crate::lists::generate::Desk;
use crate::lists::output_vectors::right_length;
use crate::lists::request_vectors::on_new_heap;
use crate::rules::calls::short::{
    allocate, cell, chosen, data, look, read_number, root, step, write_number, OPEN,
};
use crate::rules::calls::Call;
use crate::rules::heap::{MAX_BLOCKS, MAX_NUMBER};

const FORMAT: Call = Call::Format;
const CHECK: Call = Call::Check;
const COLLECT: Call = Call::Collect;
const FREE_BLOCKS: Call = Call::FreeBlocks;

/// The numbers of some buffers.
const A: u64 = 0;
const B: u64 = 1;
const COUNTS: u64 = 2;
const CELLS: u64 = 3;
const ROOTS: u64 = 4;
const SECTIONS: u64 = 6;
const DATA: u64 = 7;
const MARKS: u64 = 8;
const LIST: u64 = 9;

/// "16,384 to 65,536 blocks are now accepted".
const NEW_SIZES: [usize; 3] = [MAX_BLOCKS / 4, MAX_BLOCKS / 2, MAX_BLOCKS];

pub fn large(desk: &mut Desk) {
    for (blocks, width) in NEW_SIZES.into_iter().zip([4, 1, 3]) {
        last_block(desk, blocks, width);
        if blocks != NEW_SIZES[0] {
            desk.lend_little();
        }
        far_damage(desk, blocks, width);
        wide_numbers(desk, blocks, width);
    }
    chain_of_8192(desk);
    longest_chain(desk);
}

fn calls(desk: &mut Desk, calls: &[Call]) {
    for call in calls {
        desk.call(*call);
    }
}

/// The last block is named by the number of blocks: at 65,536 by a number of 17 bits. One more names nothing, whatever is left of it in
/// fewer bits.
fn last_block(desk: &mut Desk, blocks: usize, width: u64) {
    let (last, name) = (blocks - 1, blocks);
    on_new_heap(desk, [blocks as u64, width, 64], &[FORMAT, FREE_BLOCKS]);
    calls(desk, &[allocate(blocks, 0), cell(0, 4 * blocks - 1, 1)]);
    calls(
        desk,
        &[cell(0, 4 * blocks, 1), allocate(blocks + 1, 1), FORMAT],
    );
    desk.halves();
    // In the last root, in the first cell of the heap and in the last one.
    calls(desk, &[root(63, name), cell(0, 0, name), look(last)]);
    calls(desk, &[cell(last, 3, name), cell(last, 0, 1), CHECK]);
    let most = MAX_NUMBER as usize;
    for v in [
        name + 1,
        2 * name,
        (1 << 16) + 1,
        most,
        most + 1 + name,
        name,
    ] {
        calls(desk, &[root(1, v), cell(last, 1, v)]);
    }
    calls(desk, &[look(last), look(blocks), allocate(1, 1), COLLECT]);
    desk.reason(last, 100);
    desk.reason(blocks, 100);
    // Only the first block of the heap is led to, and by it the last one.
    calls(
        desk,
        &[
            chosen(u64::MAX),
            root(5, 1),
            COLLECT,
            look(last),
            FREE_BLOCKS,
        ],
    );
    desk.reason(last, 100);
    calls(desk, &[OPEN, step(1), CHECK, step(blocks), FREE_BLOCKS]);
    // All but the two of them is free again: the largest chunk, and one in the last section.
    calls(
        desk,
        &[allocate(blocks / 2 - 1, 2), allocate(blocks / 4, 3)],
    );
    calls(
        desk,
        &[allocate(256, 4), allocate(1, 6), CHECK, FREE_BLOCKS],
    );
}

/// One number in the last place of each buffer, by which the heap is damaged, or the list of sections untrue, or a mark wrong; mended.
fn far_damage(desk: &mut Desk, blocks: usize, width: u64) {
    on_new_heap(desk, [blocks as u64, width, 2], &[FORMAT]);
    let last = |buffer: u64, desk: &Desk| desk.bench.length(buffer) - 1;
    for (buffer, value) in [
        // 2; 1; 5; 4; 4; 11; 7; 13; 13; 13.
        (A, 128),
        (B, 127),
        (COUNTS, 128),
        (CELLS, 1),
        (ROOTS, blocks as u64),
        (SECTIONS, 255),
        (SECTIONS, (1 << 16) + 256),
        (DATA, 128),
        (MARKS, 128),
        (LIST, 2),
        (LIST, (1 << 16) + 1),
    ] {
        let place = last(buffer, desk);
        let right = desk.bench.number_at(buffer, place);
        desk.load(buffer, place, value);
        calls(desk, &[CHECK, FREE_BLOCKS]);
        desk.load(buffer, place, right);
        calls(desk, &[CHECK]);
    }
    // An object of two blocks, the last one of the lower half and the first of the upper: 3.
    let middle = blocks / 16;
    let bytes = [(A, middle - 1, 128), (A, middle, 1), (B, middle, 254)];
    for (buffer, place, value) in bytes {
        desk.load(buffer, place, value);
    }
    calls(desk, &[CHECK]);
    desk.lend_little();
}

/// "data words ... and U6's number": written, read, kept by a collection; told from a reference by its kind alone.
fn wide_numbers(desk: &mut Desk, blocks: usize, width: u64) {
    let half = blocks / 2;
    on_new_heap(
        desk,
        [blocks as u64, width, 4],
        &[FORMAT, allocate(half, 0)],
    );
    calls(desk, &[data(half, 1), write_number(half, 0, MAX_NUMBER)]);
    let last = 4 * half - 1;
    for v in [65_535, 65_536, 65_537, 1 << 31, MAX_NUMBER, blocks as u32] {
        calls(
            desk,
            &[write_number(half, last, v), read_number(half, last)],
        );
    }
    calls(
        desk,
        &[read_number(half, last + 1), read_number(half, 0), CHECK],
    );
    calls(desk, &[COLLECT, read_number(half, 0), read_number(half, 1)]);
    calls(
        desk,
        &[cell(0, 0, half + 1), root(1, 0), read_number(half, last)],
    );
    calls(desk, &[root(0, 0), FREE_BLOCKS, COLLECT, FREE_BLOCKS]);
    desk.lend_little();
}

/// A chain by loads: each block is an object of its own and names the one before it, in the cell of its number mod 4; the last one is
/// in root 1. Counts are 1, of two bits.
pub fn chain_by_loads(desk: &mut Desk, blocks: usize) {
    on_new_heap(desk, [blocks as u64, 2, 2], &[FORMAT]);
    for byte in 0..blocks / 8 {
        desk.load(A, byte, 255);
        desk.load(B, byte, 0);
        desk.load(COUNTS, byte, 255);
    }
    for block in 1..blocks {
        desk.load(CELLS, 4 * block + block % 4, block as u64);
    }
    desk.load(ROOTS, 1, blocks as u64);
    for k in 0..desk.bench.length(SECTIONS) {
        desk.load(SECTIONS, k, 0);
    }
}

/// Its sentence and its shape, each one too short and right; then its end names itself, so that it is garbage, which a collection frees.
fn chain_of_8192(desk: &mut Desk) {
    let blocks = 8192;
    chain_by_loads(desk, blocks);
    let right = right_length(desk, Some(0));
    for length in [right - 1, right] {
        desk.reason(0, length);
    }
    let right = right_length(desk, None);
    desk.shape(100);
    desk.shape(right);
    let end = blocks - 1;
    calls(desk, &[cell(end, 0, blocks), root(1, 0), FREE_BLOCKS]);
    desk.reason(0, 40);
    desk.shape(3);
    calls(desk, &[COLLECT, FREE_BLOCKS]);
    desk.lend_little();
}

/// "65,536 objects, each naming the next": its longest sentence and its shape, a full collection and one in steps that free nothing,
/// and all of it let go by one store.
fn longest_chain(desk: &mut Desk) {
    let blocks = MAX_BLOCKS;
    chain_by_loads(desk, blocks);
    calls(desk, &[CHECK, COLLECT, FREE_BLOCKS]);
    for a in [blocks - 1, blocks - 2] {
        desk.reason(a, 60);
    }
    let right = right_length(desk, Some(0));
    desk.reason(0, 60);
    desk.reason(0, right);
    desk.shape(60);
    let right = right_length(desk, None);
    desk.shape(right);
    calls(desk, &[OPEN, step(40_000), CHECK, step(blocks), CHECK]);
    calls(desk, &[root(1, 0), FREE_BLOCKS, CHECK, allocate(blocks, 0)]);
    calls(desk, &[root(0, 0), CHECK]);
    desk.lend_little();
}

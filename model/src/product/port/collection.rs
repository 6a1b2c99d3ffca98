//! The full collection: a byte for each block counts while marking, the count maps are written once from these, and the sweep looks at
//! eight blocks at a time.

use super::blocks::{
    any_of_four, clear_extent, first_byte, naming_cells, object_size, set_bit, some_byte,
};
use super::references::capacity;
use super::sections::mark_unknown;
use super::words::eight_bytes;
use super::Lent;
use crate::rules::heap::{Ref, MAX_BLOCKS};

/// Counts up the object that v names, if any; where its count was 0 it goes onto the stack. The stack's new height.
fn visit(blocks: usize, most: u8, at: &mut [u8], waiting: &mut [Ref], v: Ref, top: usize) -> usize {
    if v == 0 {
        return top;
    }
    if blocks < v as usize {
        return top;
    }
    let block = v as usize - 1;
    let count = at[block];
    if count == 0 {
        at[block] = 1;
        waiting[top] = v - 1;
        return top + 1;
    }
    if count < most {
        at[block] = count + 1;
    }
    top
}

/// Visits what the cells of n blocks name, but passes over a block whose four cells are 0.
fn visit_blocks(
    blocks: usize,
    most: u8,
    at: &mut [u8],
    cells: &[Ref],
    waiting: &mut [Ref],
    i: usize,
    n: usize,
    mut top: usize,
) -> usize {
    for k in i..i + n {
        if any_of_four(cells, 4 * k) != 0 {
            for j in 4 * k..4 * k + 4 {
                top = visit(blocks, most, at, waiting, cells[j], top);
            }
        }
    }
    top
}

/// A 1 in each of eight bytes.
const EIGHTS: u64 = 0x0101_0101_0101_0101;

/// Bit p of each of the eight bytes of x, as the bits of a byte: that of byte s moves down by 7 s places.
fn gather(x: u64, p: usize) -> u8 {
    let ones = (x >> p) & EIGHTS;
    let twos = ones | (ones >> 7);
    let fours = twos | (twos >> 14);
    let eight = fours | (fours >> 28);
    (eight % 256) as u8
}

/// The count maps of the counts in `at`, eight blocks at a time.
fn write_counts(bytes: usize, width: usize, counts: &mut [u8], at: &[u8]) {
    for p in 0..width {
        for k in 0..bytes {
            counts[p * bytes + k] = gather(eight_bytes(at, 8 * k), p);
        }
    }
}

/// Marking, with the counts in `at`.
fn mark_in(blocks: usize, width: usize, m: &mut Lent, at: &mut [u8]) {
    let most = capacity(width);
    let mut top = 0;
    for r in 0..m.roots.len() {
        top = visit(blocks, most, at, m.waiting, m.roots[r], top);
    }
    while 0 < top {
        top -= 1;
        let i = m.waiting[top] as usize;
        m.waiting[top] = 0;
        let n = naming_cells(m.data, i, object_size(blocks, m.b, i)) / 4;
        top = visit_blocks(blocks, most, at, m.cells, m.waiting, i, n, top);
    }
    write_counts(blocks / 8, width, m.counts, at);
}

/// The places of the short and of the middle array.
const SMALL_ROOM: usize = MAX_BLOCKS / 64;
const MIDDLE_ROOM: usize = MAX_BLOCKS / 8;

/// In the shortest of three arrays that has a place for each block, since it is cleared in every call.
fn mark(blocks: usize, width: usize, m: &mut Lent) {
    if blocks <= SMALL_ROOM {
        mark_in(blocks, width, m, &mut [0; SMALL_ROOM]);
    } else if blocks <= MIDDLE_ROOM {
        mark_in(blocks, width, m, &mut [0; MIDDLE_ROOM]);
    } else {
        mark_in(blocks, width, m, &mut [0; MAX_BLOCKS]);
    }
}

/// Frees the object that starts at block i. The number of blocks freed.
fn sweep_one(blocks: usize, m: &mut Lent, i: usize) -> usize {
    let n = object_size(blocks, m.b, i);
    clear_extent(m.a, m.b, i, n);
    mark_unknown(blocks, m.sections, i, n);
    for j in 4 * i..4 * i + 4 * n {
        m.cells[j] = 0;
    }
    set_bit(m.data, i, 0);
    n
}

/// The lowest block from block i on at which an object of count 0 starts, or the number of blocks where none does.
fn next_unmarked(blocks: usize, width: usize, m: &Lent, i: usize) -> usize {
    let mut at = i;
    while at < blocks {
        let k = at / 8;
        let unmarked = first_byte(m.a, m.b, k) & !some_byte(m.counts, blocks / 8, width, k);
        let rest = unmarked >> (at % 8);
        if rest != 0 {
            return at + rest.trailing_zeros() as usize;
        }
        at += 8 - at % 8;
    }
    blocks
}

/// Frees each object of count 0. The number of blocks freed.
fn sweep(blocks: usize, width: usize, m: &mut Lent) -> usize {
    let mut freed = 0;
    let mut i = next_unmarked(blocks, width, m, 0);
    while i < blocks {
        freed += sweep_one(blocks, m, i);
        i = next_unmarked(blocks, width, m, i + 1);
    }
    freed
}

/// The full collection, on an undamaged heap with a cleared waiting list. The number of blocks freed.
pub fn collect(blocks: usize, width: usize, m: &mut Lent) -> usize {
    mark(blocks, width, m);
    sweep(blocks, width, m)
}

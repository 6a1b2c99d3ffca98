//! The check and the collection as they were before they went by bytes, kept to be compared with: kinds 1 to 5 and 7 block by block, a
//! tally of whole numbers, a size and a run of bits bit by bit; counts written in the maps while marking, and a sweep of every block.

use super::blocks::{
    chunk_size, get_bit, get_count, is_first, is_in_data, is_reference, naming_cells, set_bit,
    set_count,
};
use super::damage::{check_with, is_free_or_past};
use super::references::capacity;
use super::sections::{mark_unknown, renew};
use super::{Answer, Lent};
use crate::rules::heap::Ref;

fn fill_bits(map: &mut [u8], from: usize, count: usize, v: u8) {
    for i in 0..count {
        set_bit(map, from + i, v);
    }
}

fn clear_extent(a: &mut [u8], b: &mut [u8], i: usize, n: usize) {
    fill_bits(a, i, n, 0);
    set_bit(b, i + n - 1, 1);
}

fn object_size(blocks: usize, b: &[u8], i: usize) -> usize {
    let mut at = i;
    while at < blocks {
        if get_bit(b, at) == 0 {
            return at + 1 - i;
        }
        at += 1;
    }
    blocks - i
}

fn has_data(data: &[u8]) -> bool {
    for byte in data {
        if *byte != 0 {
            return true;
        }
    }
    false
}

fn has_end_on_free(blocks: usize, a: &[u8], b: &[u8]) -> bool {
    for i in 0..blocks {
        if get_bit(a, i) == 0 && get_bit(b, i) == 0 {
            return true;
        }
    }
    false
}

fn has_open_end(blocks: usize, a: &[u8], b: &[u8]) -> bool {
    for i in 0..blocks {
        if get_bit(a, i) != 0 && get_bit(b, i) != 0 && is_free_or_past(blocks, a, i + 1) {
            return true;
        }
    }
    false
}

fn has_unaligned(blocks: usize, a: &[u8], b: &[u8]) -> bool {
    for i in 0..blocks {
        if is_first(blocks, a, b, i) && i % chunk_size(object_size(blocks, b, i)) != 0 {
            return true;
        }
    }
    false
}

/// The n cells from cell `from` on, none of them of data.
fn has_bad_cell_in(blocks: usize, m: &Lent, from: usize, n: usize) -> bool {
    for (k, v) in m.cells[from..from + n].iter().enumerate() {
        if *v != 0
            && (get_bit(m.a, (from + k) / 4) == 0 || !is_reference(blocks, m.a, m.b, *v as usize))
        {
            return true;
        }
    }
    false
}

fn has_bad_root(blocks: usize, a: &[u8], b: &[u8], roots: &[Ref]) -> bool {
    for v in roots {
        if !is_reference(blocks, a, b, *v as usize) {
            return true;
        }
    }
    false
}

fn has_bad_cell(blocks: usize, m: &Lent) -> bool {
    if !has_data(m.data) {
        return has_bad_cell_in(blocks, m, 0, 4 * blocks);
    }
    let mut in_data = false;
    for i in 0..blocks {
        in_data = is_in_data(blocks, m.a, m.b, m.data, i, in_data);
        if !in_data && has_bad_cell_in(blocks, m, 4 * i, 4) {
            return true;
        }
    }
    false
}

fn tally(refs: &[Ref], at: &mut [Ref]) {
    for v in refs {
        if *v != 0 {
            at[*v as usize - 1] += 1;
        }
    }
}

fn tally_cells(blocks: usize, m: &Lent, at: &mut [Ref]) {
    if !has_data(m.data) {
        tally(m.cells, at);
        return;
    }
    let mut in_data = false;
    for i in 0..blocks {
        in_data = is_in_data(blocks, m.a, m.b, m.data, i, in_data);
        if !in_data {
            tally(&m.cells[4 * i..4 * i + 4], at);
        }
    }
}

fn is_bad_count(first: bool, count: u8, capacity: u8, references: Ref) -> bool {
    if !first {
        return count != 0;
    }
    count == 0 || (count < capacity && count as Ref != references)
}

fn has_bad_count(blocks: usize, width: usize, m: &Lent) -> bool {
    let mut at = vec![0; blocks];
    tally(m.roots, &mut at);
    tally_cells(blocks, m, &mut at);
    let capacity = (1u8 << width) - 1;
    for (i, references) in at[..blocks].iter().enumerate() {
        let count = get_count(m.counts, blocks / 8, width, i);
        let first = is_first(blocks, m.a, m.b, i);
        if is_bad_count(first, count, capacity, *references) {
            return true;
        }
    }
    false
}

fn has_stray_data(blocks: usize, a: &[u8], b: &[u8], data: &[u8]) -> bool {
    if !has_data(data) {
        return false;
    }
    for i in 0..blocks {
        if get_bit(data, i) == 1 && !is_first(blocks, a, b, i) {
            return true;
        }
    }
    false
}

fn damage_kind(blocks: usize, width: usize, m: &Lent) -> usize {
    if has_end_on_free(blocks, m.a, m.b) {
        1
    } else if has_open_end(blocks, m.a, m.b) {
        2
    } else if has_unaligned(blocks, m.a, m.b) {
        3
    } else if has_bad_cell(blocks, m) || has_bad_root(blocks, m.a, m.b, m.roots) {
        4
    } else if has_bad_count(blocks, width, m) {
        5
    } else if has_stray_data(blocks, m.a, m.b, m.data) {
        7
    } else {
        0
    }
}

/// The numbers of `check`.
pub fn check_by_blocks(blocks: usize, width: usize, m: &Lent) -> Answer {
    check_with(damage_kind, blocks, width, m)
}

fn visit(
    blocks: usize,
    width: usize,
    counts: &mut [u8],
    waiting: &mut [Ref],
    v: Ref,
    top: usize,
) -> usize {
    if v == 0 {
        return top;
    }
    if blocks < v as usize {
        return top;
    }
    let block = v as usize - 1;
    let count = get_count(counts, blocks / 8, width, block);
    if count == 0 {
        set_count(counts, blocks / 8, width, block, 1);
        waiting[top] = v - 1;
        return top + 1;
    }
    if count < capacity(width) {
        set_count(counts, blocks / 8, width, block, count + 1);
    }
    top
}

fn mark(blocks: usize, width: usize, m: &mut Lent) {
    for byte in m.counts.iter_mut() {
        *byte = 0;
    }
    let mut top = 0;
    for r in 0..m.roots.len() {
        top = visit(blocks, width, m.counts, m.waiting, m.roots[r], top);
    }
    while 0 < top {
        top -= 1;
        let i = m.waiting[top] as usize;
        m.waiting[top] = 0;
        let n = object_size(blocks, m.b, i);
        for j in 4 * i..4 * i + naming_cells(m.data, i, n) {
            top = visit(blocks, width, m.counts, m.waiting, m.cells[j], top);
        }
    }
}

/// Marking, and a sweep of every block. The number of blocks freed.
fn collect(blocks: usize, width: usize, m: &mut Lent) -> usize {
    mark(blocks, width, m);
    let mut freed = 0;
    for i in 0..blocks {
        if is_first(blocks, m.a, m.b, i) && get_count(m.counts, blocks / 8, width, i) == 0 {
            let n = object_size(blocks, m.b, i);
            clear_extent(m.a, m.b, i, n);
            mark_unknown(blocks, m.sections, i, n);
            for j in 4 * i..4 * i + 4 * n {
                m.cells[j] = 0;
            }
            set_bit(m.data, i, 0);
            freed += n;
        }
    }
    freed
}

/// What `full_collection` does.
pub fn collection_by_blocks(blocks: usize, width: usize, m: &mut Lent) -> usize {
    let freed = collect(blocks, width, m);
    if freed != 0 {
        renew(blocks, m.a, m.sections);
    }
    freed
}

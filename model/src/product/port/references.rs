//! Counting, release, the two stores, and placing. What is placed or freed leaves the figures of its sections unknown.

use super::blocks::{
    any_of_four, clear_extent, get_count, mark_extent, naming_cells, object_size, set_bit,
    set_count,
};
use super::sections::mark_unknown;
use super::steps::{forget, is_open, meet, meet_store};
use super::Lent;
use crate::rules::heap::Ref;

pub fn capacity(width: usize) -> u8 {
    (1u8 << width) - 1
}

fn count_up(blocks: usize, width: usize, counts: &mut [u8], v: Ref) -> bool {
    if v == 0 {
        return false;
    }
    let block = v as usize - 1;
    let count = get_count(counts, blocks / 8, width, block);
    let most = capacity(width);
    if count == most {
        return false;
    }
    set_count(counts, blocks / 8, width, block, count + 1);
    count + 1 == most
}

fn count_down(
    blocks: usize,
    width: usize,
    counts: &mut [u8],
    waiting: &mut [Ref],
    v: Ref,
    top: usize,
) -> usize {
    if v == 0 {
        return top;
    }
    if blocks < v as usize {
        return top;
    }
    let block = v as usize - 1;
    let count = get_count(counts, blocks / 8, width, block);
    if count == 0 || count == capacity(width) {
        return top;
    }
    set_count(counts, blocks / 8, width, block, count - 1);
    if count == 1 {
        waiting[top] = v - 1;
        return top + 1;
    }
    top
}

fn let_go(blocks: usize, width: usize, m: &mut Lent, v: Ref) -> usize {
    let top = count_down(blocks, width, m.counts, m.waiting, v, 0);
    free_waiting(blocks, width, m, top)
}

/// One more object that a cell of something freed named. The objects that wait then.
pub fn let_wait(blocks: usize, width: usize, m: &mut Lent, v: Ref, top: usize) -> usize {
    count_down(blocks, width, m.counts, m.waiting, v, top)
}

/// Frees what waits, and what that brings to 0. The number of blocks freed.
pub fn free_waiting(blocks: usize, width: usize, m: &mut Lent, mut top: usize) -> usize {
    let mut freed = 0;
    while 0 < top {
        top -= 1;
        let i = m.waiting[top] as usize;
        m.waiting[top] = 0;
        let n = object_size(blocks, m.b, i);
        clear_extent(m.a, m.b, i, n);
        mark_unknown(blocks, m.sections, i, n);
        top = drop_object(blocks, width, m, i, n, top);
        freed += n;
    }
    freed
}

/// The cells and the D bit of a freed object, its mark and its place. Cells of data named nothing.
fn drop_object(
    blocks: usize,
    width: usize,
    m: &mut Lent,
    i: usize,
    n: usize,
    mut top: usize,
) -> usize {
    let named = naming_cells(m.data, i, n);
    let open = is_open(m);
    set_bit(m.data, i, 0);
    if open {
        forget(m, i);
    }
    for four in (4 * i..4 * i + named).step_by(4) {
        if any_of_four(m.cells, four) == 0 {
            continue;
        }
        for j in four..four + 4 {
            let v = m.cells[j];
            m.cells[j] = 0;
            if open {
                meet(m, v);
            }
            top = count_down(blocks, width, m.counts, m.waiting, v, top);
        }
    }
    for j in 4 * i + named..4 * i + 4 * n {
        m.cells[j] = 0;
    }
    top
}

fn put_root(blocks: usize, width: usize, m: &mut Lent, r: usize, v: Ref) -> usize {
    let old = m.roots[r];
    m.roots[r] = v;
    meet_store(m, 0, old, v);
    let_go(blocks, width, m, old)
}

/// The number of blocks freed, and whether an object became stuck.
pub struct Stored {
    pub freed: usize,
    pub stuck: bool,
}

/// A store of the value present.
const NOTHING: Stored = Stored {
    freed: 0,
    stuck: false,
};

pub fn store_root(blocks: usize, width: usize, m: &mut Lent, r: usize, v: Ref) -> Stored {
    if m.roots[r] == v {
        return NOTHING;
    }
    let stuck = count_up(blocks, width, m.counts, v);
    let freed = put_root(blocks, width, m, r, v);
    Stored { freed, stuck }
}

/// The roots of a set cleared, in ascending order. The number of blocks freed in all.
pub fn return_roots(blocks: usize, width: usize, m: &mut Lent, chosen: u64) -> usize {
    let mut freed = 0;
    for r in 0..m.roots.len() {
        if (chosen >> r) % 2 == 1 {
            freed += store_root(blocks, width, m, r, 0).freed;
        }
    }
    freed
}

/// In cell c of the heap, of the object that `owner` names.
pub fn store_cell(
    blocks: usize,
    width: usize,
    m: &mut Lent,
    owner: Ref,
    c: usize,
    v: Ref,
) -> Stored {
    let old = m.cells[c];
    if old == v {
        return NOTHING;
    }
    let stuck = count_up(blocks, width, m.counts, v);
    m.cells[c] = v;
    meet_store(m, owner, old, v);
    let freed = let_go(blocks, width, m, old);
    Stored { freed, stuck }
}

pub fn place(
    blocks: usize,
    width: usize,
    m: &mut Lent,
    n: usize,
    r: usize,
    i: usize,
    as_data: bool,
) -> Stored {
    mark_extent(m.a, m.b, i, n);
    mark_unknown(blocks, m.sections, i, n);
    set_count(m.counts, blocks / 8, width, i, 1);
    for j in 4 * i..4 * i + 4 * n {
        m.cells[j] = 0;
    }
    set_bit(m.data, i, u8::from(as_data));
    set_bit(m.marks, i, u8::from(is_open(m)));
    let freed = put_root(blocks, width, m, r, (i + 1) as Ref);
    Stored {
        freed,
        stuck: capacity(width) == 1,
    }
}

//! Heaps of objects of one block each whose collection in small steps has a long list or goes up and down the heap, as lists of calls
//! that make them. All objects are reached.

use crate::lists::random::Random;

/// The root of the heap, and those of new objects and of what is kept meanwhile.
const TOP: u64 = 0;
const NEW: u64 = 1;
const KEPT: u64 = 2;

const FORMAT: [u64; 4] = [0; 4];

fn allocate(r: u64) -> [u64; 4] {
    [2, 1, r, 0]
}

fn store_root(r: u64, v: u64) -> [u64; 4] {
    [3, r, v, 0]
}

fn store_cell(a: usize, j: usize, v: u64) -> [u64; 4] {
    [4, a as u64, j as u64, v]
}

/// Each object names the four behind those of the one before it: the list grows to three quarters of the objects.
pub fn wide_tree(blocks: usize) -> Vec<u64> {
    let mut calls = vec![FORMAT, allocate(TOP)];
    for i in 1..blocks {
        calls.extend([
            allocate(NEW),
            store_cell((i - 1) / 4, (i - 1) % 4, 1 + i as u64),
        ]);
    }
    calls.push(store_root(NEW, 0));
    calls.concat()
}

/// Each object is named by a cell of one before it, and the cells that are left name any objects.
pub fn at_random(blocks: usize) -> Vec<u64> {
    let mut random = Random::new(7);
    let mut calls = vec![FORMAT, allocate(TOP)];
    let mut empty: Vec<usize> = (0..4).collect();
    for i in 1..blocks {
        let cell = empty.swap_remove(random.below(empty.len()));
        calls.extend([allocate(NEW), store_cell(cell / 4, cell % 4, 1 + i as u64)]);
        empty.extend(4 * i..4 * i + 4);
    }
    for cell in empty {
        let v = 1 + random.below(blocks) as u64;
        calls.push(store_cell(cell / 4, cell % 4, v));
    }
    calls.push(store_root(NEW, 0));
    calls.concat()
}

/// The lowest object names the highest, this one the second, and so on to the middle: one object is listed at a time.
pub fn zigzag(blocks: usize) -> Vec<u64> {
    let mut calls = vec![FORMAT];
    // Kept by a chain of cells until they name each other.
    for i in 0..blocks {
        calls.extend([
            allocate(NEW),
            store_cell(i, 3, i as u64),
            store_root(KEPT, 1 + i as u64),
        ]);
    }
    let at = |k: usize| match k % 2 {
        0 => k / 2,
        _ => blocks - 1 - k / 2,
    };
    for k in 1..blocks {
        calls.push(store_cell(at(k - 1), 0, 1 + at(k) as u64));
    }
    calls.push(store_root(TOP, 1));
    for i in 0..blocks {
        calls.push(store_cell(i, 3, 0));
    }
    calls.extend([store_root(NEW, 0), store_root(KEPT, 0)]);
    calls.concat()
}

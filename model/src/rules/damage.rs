//! The kinds of damage. "Each is tested over the whole heap before the next; the first found is reported."
//!
//! Document 01's kind 6, "The number of objects differs from the number of 0 bits in the B-map", can't be met by
//! a heap that passes kinds 1 and 2. Document 02, U9: "Then drop the kind; 7 keeps its number." So 6 is no kind.
//!
//! U6: "Collections and damage kinds 4 and 5 read the rest as before; damage kind 7 is a D bit where no object starts."
//!
//! "The waiting list may hold anything on entry."

use crate::rules::chunks::least_power_of_two;
use crate::rules::counting::references;
use crate::rules::heap::{
    bit, capacity, cell_places, count, first_blocks, is_allocated, is_data, is_first_block, named,
    size, Memory, Ref,
};

/// The damage kind, or 0 where there is no damage.
pub fn damage(blocks: usize, width: usize, memory: &Memory) -> usize {
    if kind_1(blocks, memory) {
        1
    } else if kind_2(blocks, memory) {
        2
    } else if kind_3(blocks, memory) {
        3
    } else if kind_4(blocks, memory) {
        4
    } else if kind_5(blocks, width, memory) {
        5
    } else if kind_7(blocks, memory) {
        7
    } else {
        0
    }
}

/// "1. A 0 in the B-map on a free block."
pub fn kind_1(blocks: usize, memory: &Memory) -> bool {
    (0..blocks).any(|i| !is_allocated(memory, i) && bit(&memory.b, i) == 0)
}

/// "2. An allocated block with B bit 1 whose next block is free or past the end."
pub fn kind_2(blocks: usize, memory: &Memory) -> bool {
    (0..blocks).any(|i| {
        is_allocated(memory, i)
            && bit(&memory.b, i) == 1
            && (i + 1 == blocks || !is_allocated(memory, i + 1))
    })
}

/// "3. An object whose first block is not a multiple of the least power of two that is its size or more."
fn kind_3(blocks: usize, memory: &Memory) -> bool {
    let objects = first_blocks(blocks, memory);
    objects
        .iter()
        .any(|first| first % least_power_of_two(size(blocks, memory, *first)) != 0)
}

/// The cells that are read as references: all but those of objects that were made as data. U6: "Its cells hold any ..
/// number, are never followed, counted or checked as references".
fn read_as_references(blocks: usize, memory: &Memory) -> Vec<Ref> {
    let mut of_data = vec![false; 4 * blocks];
    for first in first_blocks(blocks, memory) {
        if is_data(memory, first) {
            of_data[cell_places(blocks, memory, first)].fill(true);
        }
    }
    let cells = memory.cells.iter().zip(of_data);
    cells
        .filter(|(_, of_data)| !of_data)
        .map(|(v, _)| *v)
        .collect()
}

/// "4. A cell of a free block that isn't 0, or a cell or root that is neither 0 nor 1 + a first block."
fn kind_4(blocks: usize, memory: &Memory) -> bool {
    let names_nothing = |v: Ref| v != 0 && named(blocks, memory, v).is_none();
    let cell_of_free_block =
        (0..4 * blocks).any(|c| !is_allocated(memory, c / 4) && memory.cells[c] != 0);
    let cells = read_as_references(blocks, memory);
    cell_of_free_block
        || cells.iter().any(|v| names_nothing(*v))
        || memory.roots.iter().any(|v| names_nothing(*v))
}

/// "5. A count other than 0 where no object starts; an object with count 0; a count below capacity that
/// differs from the number of all cells and roots naming the object."
fn kind_5(blocks: usize, width: usize, memory: &Memory) -> bool {
    let references = references(blocks, &read_as_references(blocks, memory), memory);
    (0..blocks).any(|i| {
        let count = count(blocks, width, memory, i);
        if !is_first_block(blocks, memory, i) {
            return count != 0;
        }
        count == 0 || (count < capacity(width) && count != references[i])
    })
}

/// "damage kind 7 is a D bit where no object starts."
fn kind_7(blocks: usize, memory: &Memory) -> bool {
    (0..blocks).any(|i| bit(&memory.data, i) == 1 && !is_first_block(blocks, memory, i))
}

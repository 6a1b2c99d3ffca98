//! The full collection: what is reached, what is freed, what the counts become.

use crate::rules::counting::erase;
use crate::rules::heap::{capacity, first_blocks, named, reference_places, set_count, Memory, Ref};
use std::collections::BTreeSet;

/// "An object is reached if a root names it or a cell of a reached object does."
pub fn reached(blocks: usize, memory: &Memory) -> BTreeSet<usize> {
    let mut reached = BTreeSet::new();
    let mut to_look_at: Vec<Ref> = memory.roots.clone();
    while let Some(v) = to_look_at.pop() {
        if let Some(first) = named(blocks, memory, v) {
            if reached.insert(first) {
                to_look_at.extend(&memory.cells[reference_places(blocks, memory, first)]);
            }
        }
    }
    reached
}

/// "the number of roots and cells of reached objects that name it", at the first block of each reached object.
pub fn reached_references(blocks: usize, memory: &Memory, reached: &BTreeSet<usize>) -> Vec<usize> {
    let mut numbers = vec![0; blocks];
    let cells = reached
        .iter()
        .flat_map(|owner| &memory.cells[reference_places(blocks, memory, *owner)]);
    for v in memory.roots.iter().chain(cells) {
        if let Some(first) = named(blocks, memory, *v) {
            numbers[first] += 1;
        }
    }
    numbers
}

/// "Objects not reached are freed, without count-downs. Each reached object's count becomes the smaller of
/// the capacity and the number of roots and cells of reached objects that name it."
pub fn sweep_and_recount(blocks: usize, width: usize, memory: &mut Memory) {
    let reached = reached(blocks, memory);
    let numbers = reached_references(blocks, memory, &reached);
    for first in first_blocks(blocks, memory) {
        if !reached.contains(&first) {
            erase(blocks, width, memory, first);
        }
    }
    for first in &reached {
        let number = numbers[*first].min(capacity(width));
        set_count(blocks, width, memory, *first, number);
    }
}

//! What must hold of copies (U14), asked in other ways than they are made.

use crate::rules::answers::refused_first;
use crate::rules::calls::Call;
use crate::rules::chunks::{chunk_is_free, least_power_of_two};
use crate::rules::collection::{reached, reached_references};
use crate::rules::copies::{due_copy, Sizes};
use crate::rules::heap::{capacity, count, first_blocks, set_bit, size, Memory};
use crate::rules::shapes::{can_be_paired, met_in_order, shape};

/// Pairs of heaps of at most so many objects are searched.
const FEW: usize = 6;

/// The claim that is broken by a copy of an undamaged heap with no collection open, if any.
pub fn broken_copy(first: Sizes, memory: &Memory, second: Sizes, into: &Memory) -> Option<String> {
    let (blocks, width) = second;
    let (value, copied) = match due_copy(first, memory, second, into) {
        Ok(made) => made,
        Err(reply) => return broken_refusal(first, memory, second, reply.number),
    };
    if refused_first(blocks, width, &copied, Call::Check).is_some() {
        return Some("a copy that the check refuses".to_string());
    }
    // "Both heaps then have one shape".
    if shape(first.0, memory) != shape(blocks, &copied) {
        return Some("a copy of another shape".to_string());
    }
    let reached = reached(blocks, &copied);
    if reached.len() <= FEW && !can_be_paired((first.0, memory), (blocks, &copied)) {
        return Some("a copy that can't be paired".to_string());
    }
    // "nothing that stood there lives on"
    let objects = first_blocks(blocks, &copied);
    if objects.iter().any(|object| !reached.contains(object)) {
        return Some("an object that no root reaches".to_string());
    }
    let used: usize = objects.iter().map(|i| size(blocks, &copied, *i)).sum();
    if used != value {
        return Some(format!("value {value}, and {used} blocks in use"));
    }
    let numbers = reached_references(blocks, &copied, &reached);
    for object in &objects {
        let due = numbers[*object].min(capacity(width));
        if count(blocks, width, &copied, *object) != due {
            return Some(format!("another count at block {object}"));
        }
    }
    misplaced(blocks, &copied)
}

/// Each object lies in the lowest free chunk of the map of those before it, in U13's order.
fn misplaced(blocks: usize, copied: &Memory) -> Option<String> {
    let mut map = Memory {
        a: vec![0; blocks / 8],
        ..Memory::default()
    };
    for object in met_in_order(blocks, copied) {
        let n = size(blocks, copied, object);
        let s = least_power_of_two(n);
        let lower = (0..object).step_by(s).any(|at| chunk_is_free(&map, at, s));
        if object % s != 0 || lower || !chunk_is_free(&map, object, s) {
            return Some(format!("the object at {object} is not in the lowest chunk"));
        }
        for i in object..object + n {
            set_bit(&mut map.a, i, 1);
        }
    }
    None
}

/// "17, an object finds no chunk at its turn": not where a heap of the same size could be formatted and filled by allocations in that
/// order, which is tried over a plain list of blocks.
fn broken_refusal(
    first: Sizes,
    memory: &Memory,
    (blocks, _): Sizes,
    number: usize,
) -> Option<String> {
    if number != 17 {
        return None;
    }
    let mut used = vec![false; blocks];
    for object in met_in_order(first.0, memory) {
        let n = size(first.0, memory, object);
        let s = n.next_power_of_two();
        let mut starts = (0..blocks).step_by(s).filter(|at| at + s <= blocks);
        let Some(at) = starts.find(|at| used[*at..at + s].iter().all(|used| !used)) else {
            return None;
        };
        used[at..at + n].fill(true);
    }
    Some("17 where every object finds a chunk".to_string())
}

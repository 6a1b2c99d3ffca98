//! A collection in small steps (document 02, U8): its opening, its steps, its close.

use crate::rules::counting::{erase, release_all, Order};
use crate::rules::heap::{first_blocks, named, reference_places, set_bit, Memory};
use crate::rules::marks::{
    clear_map_and_list, is_marked, listed, mark_and_list_named, unmarked_named, write_list,
};
use std::collections::BTreeSet;

/// "Opening marks every object a root names, in a new mark map of N/8 bytes, and puts it on a second list."
pub fn open(blocks: usize, memory: &mut Memory) {
    // "the last place being 1 while a collection is open"
    memory.list[blocks] = 1;
    let roots = memory.roots.clone();
    mark_and_list_named(blocks, memory, &roots);
}

/// "A call may take at most the given number of steps, one for each object taken off the list, data too." The steps taken,
/// "all of them unless the list ran out".
///
/// "When a call with a budget above 0 leaves the list empty" it closes the collection.
pub fn step(
    blocks: usize,
    width: usize,
    memory: &mut Memory,
    budget: usize,
    order: Order,
) -> usize {
    let mut steps = 0;
    let mut listed = listed(blocks, memory);
    while steps < budget && take_step(blocks, memory, &mut listed) {
        steps += 1;
    }
    write_list(blocks, memory, &listed);
    if budget > 0 && listed.is_empty() {
        close(blocks, width, memory, order);
    }
    steps
}

/// "A step takes the lowest." "Steps mark and list what they first meet." Whether there was one to take.
fn take_step(blocks: usize, memory: &mut Memory, listed: &mut BTreeSet<usize>) -> bool {
    let Some(lowest) = listed.pop_first() else {
        return false;
    };
    let cells = &memory.cells[reference_places(blocks, memory, lowest)];
    for first in unmarked_named(blocks, memory, cells) {
        set_bit(&mut memory.marks, first, 1);
        listed.insert(first);
    }
    true
}

/// "it frees all objects then unmarked, marking none of them, and counts down the survivors that these named, once for each
/// cell (one that reaches 0 is freed as in a store), and clears the mark map and the list."
fn close(blocks: usize, width: usize, memory: &mut Memory, order: Order) {
    let mut unmarked = first_blocks(blocks, memory);
    unmarked.retain(|first| !is_marked(memory, *first));
    let mut let_go = Vec::new();
    for first in &unmarked {
        for v in &memory.cells[reference_places(blocks, memory, *first)] {
            // A survivor is one that is marked.
            if named(blocks, memory, *v).is_some_and(|object| is_marked(memory, object)) {
                let_go.push(*v);
            }
        }
    }
    for first in unmarked {
        erase(blocks, width, memory, first);
    }
    release_all(blocks, width, memory, &let_go, order);
    clear_map_and_list(memory);
}

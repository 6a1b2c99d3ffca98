//! Counting up, counting down, and what a count-down to 0 frees.

use crate::rules::heap::{
    capacity, count, named, reference_places, set_bit, set_count, size, Memory, Ref,
};
use crate::rules::marks::{is_open, leave_map_and_list, mark_and_list_named};

/// "the number of all cells and roots naming the object", by its first block, the cells being those that are read as references. Each
/// of them is looked at once.
pub fn references(blocks: usize, cells: &[Ref], memory: &Memory) -> Vec<usize> {
    let mut numbers = vec![0; blocks];
    for v in cells.iter().chain(&memory.roots).filter(|v| **v != 0) {
        if let Some(number) = numbers.get_mut(*v as usize - 1) {
            *number += 1;
        }
    }
    numbers
}

/// "First the object named by v, if v isn't 0, is counted up". "A count at capacity is stuck: up and down
/// don't change it."
///
/// Document 02, U5: "Counting up must say whether this very step brought the count to the capacity".
pub fn count_up(blocks: usize, width: usize, memory: &mut Memory, v: Ref) -> bool {
    if v == 0 {
        return false;
    }
    let first = named(blocks, memory, v).expect("v was tested to name an object");
    let before = count(blocks, width, memory, first);
    if before != capacity(width) {
        set_count(blocks, width, memory, first, before + 1);
    }
    let after = count(blocks, width, memory, first);
    before != after && after == capacity(width)
}

/// Which of the objects that wait to be freed is taken next: a place in the list of their first blocks, which
/// isn't empty, in the order in which they began to wait.
///
/// Document 02, U7: "Implementers differ in the order of taking the objects waiting to be freed. Show that from
/// an undamaged heap each order ends in the same maps, cells, counts and freed blocks."
pub type Order<'a> = &'a mut dyn FnMut(&[usize]) -> usize;

/// The model's own order. Document 01 leaves it open.
pub fn longest_waiting(_waiting: &[usize]) -> usize {
    0
}

/// "then the old object, if any, is counted down." "A count-down to 0 frees the object", "and each object
/// its cells named is counted down likewise, once for each cell."
pub fn release(blocks: usize, width: usize, memory: &mut Memory, old: Ref, order: Order) {
    release_all(blocks, width, memory, &[old], order);
}

/// The same of several references.
///
/// Document 02, U8: "While open, ... clearing a freed object's cells marks and lists the unmarked ones they named".
pub fn release_all(blocks: usize, width: usize, memory: &mut Memory, old: &[Ref], order: Order) {
    let mut waiting = Vec::new();
    for v in old {
        count_down(blocks, width, memory, *v, &mut waiting);
    }
    while !waiting.is_empty() {
        let first = waiting.remove(order(&waiting));
        let cells = memory.cells[reference_places(blocks, memory, first)].to_vec();
        erase(blocks, width, memory, first);
        if is_open(blocks, memory) {
            mark_and_list_named(blocks, memory, &cells);
        }
        for v in cells {
            count_down(blocks, width, memory, v, &mut waiting);
        }
    }
}

/// One count-down. An object whose count it brings to 0 waits to be freed. "A count at capacity is stuck".
fn count_down(blocks: usize, width: usize, memory: &mut Memory, v: Ref, waiting: &mut Vec<usize>) {
    if v == 0 {
        return;
    }
    let first = named(blocks, memory, v).expect("an undamaged heap's cells name objects");
    let now = count(blocks, width, memory, first);
    if now == capacity(width) {
        return;
    }
    set_count(blocks, width, memory, first, now - 1);
    if now - 1 == 0 {
        waiting.push(first);
    }
}

/// Frees one object and counts nothing down: "its A bits go to 0, its last B bit goes to 1 (004 doesn't
/// mention this), its count and cells go to 0". U6: the cells of data, "with its D bit, are cleared when it is freed." U8: "a
/// freed object leaves map and list."
pub fn erase(blocks: usize, width: usize, memory: &mut Memory, first: usize) {
    let size = size(blocks, memory, first);
    for i in first..first + size {
        set_bit(&mut memory.a, i, 0);
    }
    set_bit(&mut memory.b, first + size - 1, 1);
    set_count(blocks, width, memory, first, 0);
    set_bit(&mut memory.data, first, 0);
    leave_map_and_list(blocks, memory, first);
    for place in 4 * first..4 * (first + size) {
        memory.cells[place] = 0;
    }
}

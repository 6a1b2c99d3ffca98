//! The mark map and the second list of a collection in small steps (document 02, U8), and what is wrong with them.

use crate::rules::heap::{
    bit, first_blocks, is_first_block, named, reference_places, set_bit, Memory, Ref,
};
use std::collections::BTreeSet;

/// "the last place being 1 while a collection is open and else 0."
pub fn is_open(blocks: usize, memory: &Memory) -> bool {
    memory.list[blocks] == 1
}

pub fn is_marked(memory: &Memory, first: usize) -> bool {
    bit(&memory.marks, first) == 1
}

/// The first blocks of the objects on the list.
pub fn listed(blocks: usize, memory: &Memory) -> BTreeSet<usize> {
    let places = memory.list[..blocks].iter();
    places
        .filter(|v| **v != 0)
        .map(|v| *v as usize - 1)
        .collect()
}

/// "1 + first blocks, strictly rising, then 0s": the list of these objects. The last place stays.
pub fn write_list(blocks: usize, memory: &mut Memory, objects: &BTreeSet<usize>) {
    memory.list[..blocks].fill(0);
    for (place, first) in memory.list.iter_mut().zip(objects) {
        *place = (1 + first) as Ref;
    }
}

/// Marks and lists an object, if it is unmarked.
pub fn mark_and_list(blocks: usize, memory: &mut Memory, first: usize) {
    if is_marked(memory, first) {
        return;
    }
    set_bit(&mut memory.marks, first, 1);
    let mut objects = listed(blocks, memory);
    objects.insert(first);
    write_list(blocks, memory, &objects);
}

/// The unmarked ones among the objects that these cells or roots name.
pub fn unmarked_named(blocks: usize, memory: &Memory, names: &[Ref]) -> BTreeSet<usize> {
    let objects = names.iter().filter_map(|v| named(blocks, memory, *v));
    objects.filter(|first| !is_marked(memory, *first)).collect()
}

/// Marks and lists the unmarked ones among the objects that these cells or roots name.
pub fn mark_and_list_named(blocks: usize, memory: &mut Memory, names: &[Ref]) {
    for first in unmarked_named(blocks, memory, names) {
        mark_and_list(blocks, memory, first);
    }
}

/// Takes an object off the list. Its mark stays.
pub fn take_off(blocks: usize, memory: &mut Memory, first: usize) {
    let name = (1 + first) as Ref;
    if memory.list[..blocks].contains(&name) {
        let mut objects = listed(blocks, memory);
        objects.remove(&first);
        write_list(blocks, memory, &objects);
    }
}

/// "a freed object leaves map and list." An unmarked one is in neither.
pub fn leave_map_and_list(blocks: usize, memory: &mut Memory, first: usize) {
    if is_marked(memory, first) {
        set_bit(&mut memory.marks, first, 0);
        take_off(blocks, memory, first);
    }
}

/// "and clears the mark map and the list": its last place too, so that none is open.
pub fn clear_map_and_list(memory: &mut Memory) {
    memory.marks.fill(0);
    memory.list.fill(0);
}

/// "Errors: 13, the list isn't of that form or holds an unmarked object, a mark isn't on a first block, some root or marked
/// unlisted object names an unmarked one while a collection is open, or a mark or list place isn't 0 while none is".
pub fn is_wrong(blocks: usize, memory: &Memory) -> bool {
    list_is_not_of_its_form(blocks, memory)
        || list_holds_an_unmarked_object(blocks, memory)
        || mark_is_not_on_a_first_block(blocks, memory)
        || unmarked_is_named_while_open(blocks, memory)
        || something_is_not_zero_while_none_is_open(blocks, memory)
}

/// "1 + first blocks, strictly rising, then 0s, the last place being 1 while a collection is open and else 0."
fn list_is_not_of_its_form(blocks: usize, memory: &Memory) -> bool {
    let places = &memory.list[..blocks];
    let held = places.iter().take_while(|v| **v != 0).count();
    let (objects, rest) = places.split_at(held);
    let names_nothing = |v: &Ref| !is_first_block(blocks, memory, *v as usize - 1);
    objects.iter().any(names_nothing)
        || objects.windows(2).any(|two| two[0] >= two[1])
        || rest.iter().any(|v| *v != 0)
        || memory.list[blocks] > 1
}

/// "or holds an unmarked object". What is held and no block is not of the form.
fn list_holds_an_unmarked_object(blocks: usize, memory: &Memory) -> bool {
    let listed = listed(blocks, memory);
    listed
        .into_iter()
        .any(|first| first >= blocks || !is_marked(memory, first))
}

/// "a mark isn't on a first block"
fn mark_is_not_on_a_first_block(blocks: usize, memory: &Memory) -> bool {
    (0..blocks).any(|i| is_marked(memory, i) && !is_first_block(blocks, memory, i))
}

/// "some root or marked unlisted object names an unmarked one while a collection is open". Data names nothing.
fn unmarked_is_named_while_open(blocks: usize, memory: &Memory) -> bool {
    if !is_open(blocks, memory) {
        return false;
    }
    let names_unmarked = |names: &[Ref]| {
        let mut objects = names.iter().filter_map(|v| named(blocks, memory, *v));
        objects.any(|first| !is_marked(memory, first))
    };
    let listed = listed(blocks, memory);
    let done = first_blocks(blocks, memory)
        .into_iter()
        .filter(|first| is_marked(memory, *first) && !listed.contains(first));
    names_unmarked(&memory.roots)
        || done
            .into_iter()
            .any(|first| names_unmarked(&memory.cells[reference_places(blocks, memory, first)]))
}

/// "or a mark or list place isn't 0 while none is"
fn something_is_not_zero_while_none_is_open(blocks: usize, memory: &Memory) -> bool {
    !is_open(blocks, memory)
        && (memory.marks.iter().any(|byte| *byte != 0) || memory.list.iter().any(|v| *v != 0))
}

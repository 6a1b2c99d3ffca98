//! Document 02, U14: "Copy the reached objects, in U13's order and by document 01's allocation rule, into a second lent heap, formatted by
//! the call, so that nothing that stood there lives on".

use crate::rules::answers::{accepted, format, refused, refused_first, Reply};
use crate::rules::calls::Call;
use crate::rules::chunks::{least_power_of_two, lowest_free_chunk};
use crate::rules::collection::sweep_and_recount;
use crate::rules::heap::{
    cell_places, free_count, is_data, misshapen, named, set_bit, size, Memory, Ref,
};
use crate::rules::marks::is_open;
use crate::rules::sections::leave_list_true;
use crate::rules::shapes::met_in_order;
use std::collections::BTreeMap;

/// One of the two heaps: its blocks and its count width.
pub type Sizes = (usize, usize);

/// What copies a heap into a second one: the model's `copy`, or another.
pub type Copies = fn(Sizes, &Memory, Sizes, &mut Memory) -> Reply;

/// "its N and w may differ, its roots are as many": 1 for either heap, and where the numbers of roots differ. Then the first heap's
/// refusals; "with a collection open it gives 14." "17, an object finds no chunk at its turn, after all others." The first heap "is only
/// read", and of the second nothing is tested but its shape. A refusal changes neither.
pub fn copy(first: Sizes, memory: &Memory, second: Sizes, into: &mut Memory) -> Reply {
    match due_copy(first, memory, second, into) {
        Ok((value, copied)) => {
            *into = copied;
            accepted(value)
        }
        Err(reply) => reply,
    }
}

/// The value and the second heap after the copy, or the refusal.
pub fn due_copy(
    (blocks, width): Sizes,
    memory: &Memory,
    (more_blocks, other_width): Sizes,
    into: &Memory,
) -> Result<(usize, Memory), Reply> {
    let either = misshapen(blocks, width, memory) || misshapen(more_blocks, other_width, into);
    if either || memory.roots.len() != into.roots.len() {
        return Err(refused(1));
    }
    if let Some(reply) = refused_first(blocks, width, memory, Call::Check) {
        return Err(reply);
    }
    if is_open(blocks, memory) {
        return Err(refused(14));
    }
    let copied = copied((blocks, width), memory, (more_blocks, other_width)).ok_or(refused(17))?;
    // "the value is the blocks in use in the second heap."
    Ok((more_blocks - free_count(more_blocks, &copied), copied))
}

/// The second heap; none where "an object finds no chunk at its turn".
fn copied(
    (blocks, _): Sizes,
    memory: &Memory,
    (more_blocks, other_width): Sizes,
) -> Option<Memory> {
    let mut made = Memory::zeros(more_blocks, other_width, memory.roots.len());
    format(more_blocks, &mut made);
    let mut places: BTreeMap<usize, usize> = BTreeMap::new();
    for object in met_in_order(blocks, memory) {
        // "Let s be the least power of two that is n or more. The lowest free chunk of s blocks is taken, and only its first n
        // blocks become allocated".
        let n = size(blocks, memory, object);
        let place = lowest_free_chunk(more_blocks, &made, least_power_of_two(n))?;
        for i in place..place + n {
            set_bit(&mut made.a, i, 1);
        }
        set_bit(&mut made.b, place + n - 1, 0);
        set_bit(&mut made.data, place, u8::from(is_data(memory, object)));
        places.insert(object, place);
    }
    let moved = |v: Ref| named(blocks, memory, v).map_or(0, |object| places[&object] as Ref + 1);
    for (object, place) in &places {
        let from = cell_places(blocks, memory, *object);
        for (k, v) in memory.cells[from].iter().enumerate() {
            made.cells[4 * place + k] = if is_data(memory, *object) {
                *v
            } else {
                moved(*v)
            };
        }
    }
    made.roots = memory.roots.iter().map(|v| moved(*v)).collect();
    // "Counts are those a collection gives at the new width".
    sweep_and_recount(more_blocks, other_width, &mut made);
    leave_list_true(more_blocks, &mut made);
    Some(made)
}

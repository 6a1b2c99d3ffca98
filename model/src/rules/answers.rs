//! The calls, each with its refusals in the document's order.
//!
//! "Each list is in order, and the first number that applies is given. No refusal is given when its
//! condition is false."
//!
//! The numbers 1, 2, 11 and 13 stand first in every list: `refused_first`. The calls are for heaps that these don't apply to.
//! Those that let go of a reference take the order in which objects that wait are freed (counting.rs).

use crate::rules::calls::{is_chosen, Call};
use crate::rules::chunks::{least_power_of_two, lowest_free_chunk};
use crate::rules::collection::sweep_and_recount;
use crate::rules::counting::{count_up, release, Order};
use crate::rules::damage::damage;
use crate::rules::heap::{
    capacity, count, free_count, is_data, is_first_block, misshapen, set_bit, set_count, size,
    Memory, Ref,
};
use crate::rules::marks::{self, clear_map_and_list, is_open, mark_and_list_named};
use crate::rules::sections::{figures, leave_list_true};
use crate::rules::steps;

/// "A reply is a number and a value (two values for the look). Number 0 is acceptance." Since U5 a store and an
/// allocation have two values as well.
#[derive(Clone, Copy, Debug, PartialEq, Eq, Hash)]
pub struct Reply {
    pub number: usize,
    pub value: usize,
    pub second: usize,
}

/// "An accepted call with no value named gives 0".
pub(crate) fn accepted(value: usize) -> Reply {
    Reply {
        number: 0,
        value,
        second: 0,
    }
}

/// Document 02, U5: "Every store and allocation passes the fact on": 1 where this very call brought a count to the
/// capacity.
fn accepted_telling(value: usize, stuck: bool) -> Reply {
    Reply {
        number: 0,
        value,
        second: usize::from(stuck),
    }
}

/// "A refusal carries value 0, or the damage kind for number 2 (any further value of a reply is 0, or no, ...), and
/// changes no buffer."
pub(crate) fn refused(number: usize) -> Reply {
    Reply {
        number,
        value: 0,
        second: 0,
    }
}

/// What stands first in the list of every call. "Format: 1 if N, w, the number of roots or any buffer's length is not as
/// above." "A heap that a call formats isn't tested for more than 1." In all others: "1 as before; 2 if the heap is
/// damaged." Document 02, U4: "11, the list doesn't match the maps, next after 2." U8: 13 "next after 11".
pub fn refused_first(blocks: usize, width: usize, memory: &Memory, call: Call) -> Option<Reply> {
    if misshapen(blocks, width, memory) {
        return Some(refused(1));
    }
    if call == Call::Format {
        return None;
    }
    match damage(blocks, width, memory) {
        0 if memory.sections != figures(blocks, memory) => Some(refused(11)),
        0 if marks::is_wrong(blocks, memory) => Some(refused(13)),
        0 => None,
        kind => Some(Reply {
            number: 2,
            value: kind,
            second: 0,
        }),
    }
}

/// "Format, and each accepted call that allocates, stores a reference or may free an object, later ones
/// included, leave it all 0."
fn leave_waiting_list_zero(memory: &mut Memory) {
    memory.waiting.fill(0);
}

/// "Format. A-map 0, B-map all ones, everything else 0. The value is 0." U4: "format too, leaves the list true."
pub fn format(blocks: usize, memory: &mut Memory) -> Reply {
    memory.a.fill(0);
    memory.b.fill(255);
    memory.counts.fill(0);
    memory.cells.fill(0);
    memory.roots.fill(0);
    memory.data.fill(0);
    clear_map_and_list(memory);
    leave_waiting_list_zero(memory);
    leave_list_true(blocks, memory);
    accepted(0)
}

/// "Check: value 0." "Check and free blocks: 1 as before; 2 if the heap is damaged. Both test the whole heap."
pub fn check() -> Reply {
    accepted(0)
}

/// Document 02, U6: "There are calls to allocate data": what an allocation makes.
#[derive(Clone, Copy, Debug, PartialEq, Eq, Hash)]
pub enum Kind {
    Ordinary,
    Data,
}

/// Document 02, U8: "While open, ... each reference store that changes a value, an allocation's included, marks and lists what is
/// unmarked among its owner, old and new objects".
fn mark_and_list_of_store(blocks: usize, memory: &mut Memory, objects: &[Ref]) {
    if is_open(blocks, memory) {
        mark_and_list_named(blocks, memory, objects);
    }
}

/// "Allocate n blocks into root r." U6: an object of either kind.
///
/// "Allocate: 1, 2; 3 if n is 0 or above N; 4 if r is not below the number of roots; 5 if no chunk of s
/// blocks is free."
pub fn allocate(
    blocks: usize,
    width: usize,
    memory: &mut Memory,
    kind: Kind,
    n: usize,
    r: usize,
    order: Order,
) -> Reply {
    if n == 0 || n > blocks {
        return refused(3);
    }
    if r >= memory.roots.len() {
        return refused(4);
    }
    let s = least_power_of_two(n);
    // "The search happens before the old root reference is let go, so what that frees is not used by this
    // call."
    let Some(first) = lowest_free_chunk(blocks, memory, s) else {
        return refused(5);
    };
    // "only its first n blocks become allocated; the rest stays free for smaller objects."
    for i in first..first + n {
        set_bit(&mut memory.a, i, 1);
    }
    // "The B bit of block n of the object goes to 0, the count becomes 1, the cells are 0." Block n counts
    // from 1: it is the last one (P1 has B = 185).
    set_bit(&mut memory.b, first + n - 1, 0);
    set_count(blocks, width, memory, first, 1);
    memory.cells[4 * first..4 * (first + n)].fill(0);
    // U6: "1 on the first block of an object made as data."
    set_bit(&mut memory.data, first, u8::from(kind == Kind::Data));
    // U8: "While open, objects are born marked". They aren't listed.
    let marked = u8::from(is_open(blocks, memory));
    set_bit(&mut memory.marks, first, marked);
    // "Then the reference is stored in root r as below, except that the new object isn't counted up again."
    let old = memory.roots[r];
    memory.roots[r] = (1 + first) as Ref;
    // U5: "a birth at width 1 included".
    let stuck = count(blocks, width, memory, first) == capacity(width);
    mark_and_list_of_store(blocks, memory, &[old]);
    release(blocks, width, memory, old, order);
    leave_waiting_list_zero(memory);
    // "The value is the first block."
    accepted_telling(first, stuck)
}

/// "8 if v is neither 0 nor 1 + a first block." What is left, as a cell holds it.
fn reference(blocks: usize, memory: &Memory, v: usize) -> Option<Ref> {
    (v == 0 || is_first_block(blocks, memory, v - 1)).then_some(v as Ref)
}

/// "6 if a is not a first block (or not below N); 7 if j is not below 4 × size", and then 12 where the object is of the other
/// kind.
pub fn no_such_cell(
    blocks: usize,
    memory: &Memory,
    kind: Kind,
    a: usize,
    j: usize,
) -> Option<usize> {
    if !is_first_block(blocks, memory, a) {
        return Some(6);
    }
    if j >= 4 * size(blocks, memory, a) {
        return Some(7);
    }
    let is_of_kind = is_data(memory, a) == (kind == Kind::Data);
    (!is_of_kind).then_some(12)
}

/// Document 02, U2: "From now on an accepted store of the value present changes no buffer but the waiting list". So
/// no count comes to the capacity.
fn store_value_present(memory: &mut Memory) -> Reply {
    leave_waiting_list_zero(memory);
    accepted(0)
}

/// "Store v in root r".
///
/// "Store in a root: 1, 2, 4; 8 if v is neither 0 nor 1 + a first block."
pub fn store_root(
    blocks: usize,
    width: usize,
    memory: &mut Memory,
    r: usize,
    v: usize,
    order: Order,
) -> Reply {
    if r >= memory.roots.len() {
        return refused(4);
    }
    let Some(v) = reference(blocks, memory, v) else {
        return refused(8);
    };
    if v == memory.roots[r] {
        return store_value_present(memory);
    }
    let free_before = free_count(blocks, memory);
    // "First the object named by v, if v isn't 0, is counted up; then the cell is written; then the old
    // object, if any, is counted down."
    let stuck = count_up(blocks, width, memory, v);
    let old = memory.roots[r];
    memory.roots[r] = v;
    mark_and_list_of_store(blocks, memory, &[old, v]);
    release(blocks, width, memory, old, order);
    leave_waiting_list_zero(memory);
    // "The value is the number of blocks freed."
    accepted_telling(free_count(blocks, memory) - free_before, stuck)
}

/// "Store v ... in cell j of the object at block a."
///
/// "Store in a cell: 1, 2; 6 if a is not a first block (or not below N); 7 if j is not below 4 × size; 8." U6: "12, a reference
/// store or read on data, or a number on an ordinary object, placed after 7."
pub fn store_cell(
    blocks: usize,
    width: usize,
    memory: &mut Memory,
    a: usize,
    j: usize,
    v: usize,
    order: Order,
) -> Reply {
    if let Some(number) = no_such_cell(blocks, memory, Kind::Ordinary, a, j) {
        return refused(number);
    }
    let Some(v) = reference(blocks, memory, v) else {
        return refused(8);
    };
    if v == memory.cells[4 * a + j] {
        return store_value_present(memory);
    }
    let free_before = free_count(blocks, memory);
    // The same three steps as in a root. "The owner of the written cell may itself be freed this way."
    let stuck = count_up(blocks, width, memory, v);
    let old = memory.cells[4 * a + j];
    memory.cells[4 * a + j] = v;
    let owner = (1 + a) as Ref;
    mark_and_list_of_store(blocks, memory, &[owner, old, v]);
    release(blocks, width, memory, old, order);
    leave_waiting_list_zero(memory);
    // "The value is the number of blocks freed."
    accepted_telling(free_count(blocks, memory) - free_before, stuck)
}

/// Document 02, U6: "There are calls ... to write and read one of its cells." It stores no reference, so nothing but the cell
/// is written: the waiting list keeps its content.
pub fn write_number(blocks: usize, memory: &mut Memory, a: usize, j: usize, v: Ref) -> Reply {
    if let Some(number) = no_such_cell(blocks, memory, Kind::Data, a, j) {
        return refused(number);
    }
    memory.cells[4 * a + j] = v;
    accepted(0)
}

/// The value is the number.
pub fn read_number(blocks: usize, memory: &Memory, a: usize, j: usize) -> Reply {
    match no_such_cell(blocks, memory, Kind::Data, a, j) {
        Some(number) => refused(number),
        None => accepted(memory.cells[4 * a + j] as usize),
    }
}

/// Document 02, U10: "A return lets go of all local variables together. Give one call a set of roots as a 64-bit
/// number, bit r for root r."
///
/// "It is refused with 4 if any bit is at or past the number of roots." Before that, 1, 2, 11 and 13.
pub fn return_roots(
    blocks: usize,
    width: usize,
    memory: &mut Memory,
    chosen: u64,
    order: Order,
) -> Reply {
    let roots = memory.roots.len();
    if (roots..64).any(|r| is_chosen(chosen, r)) {
        return refused(4);
    }
    let free_before = free_count(blocks, memory);
    // "the heap afterwards is that of clearing them singly in whatever order; with one open, in ascending order."
    // Clearing a root is a store of 0 in it.
    for r in (0..roots).filter(|r| is_chosen(chosen, *r)) {
        let old = memory.roots[r];
        memory.roots[r] = 0;
        mark_and_list_of_store(blocks, memory, &[old]);
        release(blocks, width, memory, old, order);
    }
    leave_waiting_list_zero(memory);
    // "Its value is the blocks freed in all."
    accepted(free_count(blocks, memory) - free_before)
}

/// "Collect." "Collect: 1, 2." "The value is the number of blocks freed." U8: "14, ... an opening or full collection with one
/// open, after 13."
pub fn collect(blocks: usize, width: usize, memory: &mut Memory) -> Reply {
    if is_open(blocks, memory) {
        return refused(14);
    }
    let free_before = free_count(blocks, memory);
    sweep_and_recount(blocks, width, memory);
    leave_waiting_list_zero(memory);
    accepted(free_count(blocks, memory) - free_before)
}

/// Document 02, U8: "As in source document 001's snapshot scheme, one is opened and stepped." An opening with one open gives 14.
pub fn open_collection(blocks: usize, memory: &mut Memory) -> Reply {
    if is_open(blocks, memory) {
        return refused(14);
    }
    steps::open(blocks, memory);
    accepted(0)
}

/// "It replies with the steps taken, all of them unless the list ran out, and the blocks freed." "14, a step with none open".
pub fn step_collection(
    blocks: usize,
    width: usize,
    memory: &mut Memory,
    budget: usize,
    order: Order,
) -> Reply {
    if !is_open(blocks, memory) {
        return refused(14);
    }
    let free_before = free_count(blocks, memory);
    let value = steps::step(blocks, width, memory, budget, order);
    leave_waiting_list_zero(memory);
    Reply {
        number: 0,
        value,
        second: free_count(blocks, memory) - free_before,
    }
}

/// "Look at block a: the object's size and its count." "Look: 1, 2, 6."
pub fn look(blocks: usize, width: usize, memory: &Memory, a: usize) -> Reply {
    if !is_first_block(blocks, memory, a) {
        return refused(6);
    }
    Reply {
        number: 0,
        value: size(blocks, memory, a),
        second: count(blocks, width, memory, a),
    }
}

/// "Free blocks: the value is the number of 0 bits in the A-map."
pub fn free_blocks(blocks: usize, memory: &Memory) -> Reply {
    accepted(free_count(blocks, memory))
}

//! The claims of demand 3, checked by brute force on the memory before and after one call.
//!
//! They are written from "The words of demand 3" and apart from answers.rs: nothing here asks what a call
//! should do, only whether what it did keeps the claims. From the model's own files only the reading of
//! bits, counts, first blocks and sizes (heap.rs) is used.

use crate::rules::answers::Reply;
use crate::rules::calls::{is_chosen, Call};
use crate::rules::heap::{
    bit, capacity, count, first_blocks, free_count, is_allocated, is_first_block, size, Memory, Ref,
};
use crate::rules::mark_claims::{wrong_about_marks, wrong_about_open, wrong_marks};
use crate::rules::section_claims::{other_address, untrue_list, wrong_about_list};
use std::collections::BTreeSet;

/// An object: its first block and its size.
pub type Object = (usize, usize);

/// All objects of a memory.
pub fn objects(blocks: usize, memory: &Memory) -> BTreeSet<Object> {
    first_blocks(blocks, memory)
        .into_iter()
        .map(|first| (first, size(blocks, memory, first)))
        .collect()
}

/// The objects that were not made as data: the others' cells "are never followed, counted or checked as references" (document
/// 02, U6).
pub fn ordinary(blocks: usize, memory: &Memory) -> BTreeSet<Object> {
    let mut found = objects(blocks, memory);
    found.retain(|(first, _)| bit(&memory.data, *first) == 0);
    found
}

/// "A reference is a root, or a cell of an object, that isn't 0." All of them, by what they hold. Numbers in data are none.
pub fn all_references(blocks: usize, memory: &Memory) -> Vec<Ref> {
    let mut found: Vec<Ref> = memory.roots.clone();
    for (first, size) in ordinary(blocks, memory) {
        found.extend(&memory.cells[4 * first..4 * (first + size)]);
    }
    found.retain(|v| *v != 0);
    found
}

/// "A root leads to an object, or reaches it, if it names it, or if a cell of an object that it leads to
/// does, over finitely many references."
pub fn led_to(blocks: usize, memory: &Memory) -> BTreeSet<Object> {
    led_to_from(blocks, memory, &memory.roots)
}

/// The same from these names: what they name, and what that leads to. Grown step by step until nothing is added.
pub fn led_to_from(blocks: usize, memory: &Memory, from: &[Ref]) -> BTreeSet<Object> {
    let all = objects(blocks, memory);
    let ordinary = ordinary(blocks, memory);
    let mut led: BTreeSet<Object> = BTreeSet::new();
    loop {
        let mut names: BTreeSet<usize> = from.iter().map(|v| *v as usize).collect();
        for (first, size) in led.intersection(&ordinary) {
            let cells = &memory.cells[4 * first..4 * (first + size)];
            names.extend(cells.iter().map(|v| *v as usize));
        }
        let grown: BTreeSet<Object> = all
            .iter()
            .filter(|(first, _)| names.contains(&(1 + first)))
            .copied()
            .collect();
        if grown == led {
            return led;
        }
        led = grown;
    }
}

/// What must hold of every memory on the way: references name objects, counts are right, extents are
/// disjoint and aligned.
pub fn unsound(blocks: usize, width: usize, memory: &Memory) -> Option<String> {
    let all = objects(blocks, memory);
    let references = all_references(blocks, memory);

    // "Holding 1 + b, it names the object whose first block is b."
    for v in &references {
        if !is_first_block(blocks, memory, *v as usize - 1) {
            return Some(format!("reference {v} names no object"));
        }
    }

    // "An object's number of references counts each such root and each such cell once." "The top of a
    // count's field is the capacity."
    for (first, _) in &all {
        let number = references
            .iter()
            .filter(|v| **v as usize == 1 + first)
            .count();
        let count = count(blocks, width, memory, *first);
        if count != number && count != capacity(width) {
            return Some(format!("block {first}: count {count}, {number} references"));
        }
        if count == 0 {
            return Some(format!("block {first}: an object with count 0"));
        }
    }

    // "An extent is the blocks of one object." "Extents are disjoint if each allocated block lies in exactly
    // one, and no free block in any."
    for block in 0..blocks {
        let lies_in = all
            .iter()
            .filter(|(first, size)| (*first..first + size).contains(&block))
            .count();
        if lies_in != usize::from(is_allocated(memory, block)) {
            return Some(format!("block {block} lies in {lies_in} extents"));
        }
    }

    // "It is aligned if it starts at a multiple of the least power of two that is its size or more."
    for (first, size) in &all {
        let s = (0..).map(|k| 1usize << k).find(|s| s >= size).unwrap();
        if first % s != 0 {
            return Some(format!("object at {first} of {size} is not aligned"));
        }
    }

    // The maps themselves: "0 stands on the last block of each object and 1 everywhere else", and nothing
    // stands where no object does.
    let lasts: BTreeSet<usize> = all.iter().map(|(first, size)| first + size - 1).collect();
    for block in 0..blocks {
        if (bit(&memory.b, block) == 0) != lasts.contains(&block) {
            return Some(format!("B bit of block {block}"));
        }
        if !is_first_block(blocks, memory, block) && count(blocks, width, memory, block) != 0 {
            return Some(format!("a count at block {block}, where no object starts"));
        }
        // "damage kind 7 is a D bit where no object starts."
        if !is_first_block(blocks, memory, block) && bit(&memory.data, block) == 1 {
            return Some(format!("a D bit at block {block}, where no object starts"));
        }
        let cells = &memory.cells[4 * block..4 * block + 4];
        if !is_allocated(memory, block) && cells != [0, 0, 0, 0] {
            return Some(format!("a cell of free block {block} is not 0"));
        }
    }
    None
}

/// "the roots and cells as they stood before the call, with what the call itself stores written in (0
/// everywhere for a call that formats the heap) and nothing let go yet."
pub fn written_in(before: &Memory, call: Call, reply: Reply) -> Memory {
    let mut memory = before.clone();
    match call {
        Call::Format => {
            memory.roots.fill(0);
            memory.cells.fill(0);
        }
        Call::Allocate { r, .. } | Call::AllocateData { r, .. } => {
            memory.roots[r] = (1 + reply.value) as Ref;
        }
        Call::StoreRoot { r, v } => memory.roots[r] = v as Ref,
        Call::StoreCell { a, j, v } => memory.cells[4 * a + j] = v as Ref,
        Call::WriteNumber { a, j, v } => memory.cells[4 * a + j] = v,
        Call::ReturnRoots { chosen } => {
            for (r, root) in memory.roots.iter_mut().enumerate() {
                if is_chosen(chosen, r) {
                    *root = 0;
                }
            }
        }
        Call::Check | Call::Collect | Call::Look { .. } | Call::FreeBlocks => {}
        Call::ReadNumber { .. } | Call::OpenCollection | Call::StepCollection { .. } => {}
    }
    memory
}

/// "A call frees an object that stood before it if no object of that first block and size stands after it."
/// No object is freed while a root still leads to it.
fn early_free(
    blocks: usize,
    before: &Memory,
    call: Call,
    reply: Reply,
    after: &Memory,
) -> Option<String> {
    let still_led_to = led_to(blocks, &written_in(before, call, reply));
    let stand_after = objects(blocks, after);
    let lost = still_led_to.difference(&stand_after).next()?;
    Some(format!("object {lost:?} freed while a root leads to it"))
}

/// "After an accepted full collection the objects are exactly those that a root led to before it, at their
/// first blocks and sizes, and each has the count given under Collect."
fn inexact_collection(
    blocks: usize,
    width: usize,
    before: &Memory,
    after: &Memory,
) -> Option<String> {
    let led = led_to(blocks, before);
    let ordinary = ordinary(blocks, before);
    if objects(blocks, after) != led {
        return Some("the objects after the collection are not those that a root led to".into());
    }
    for (first, _) in &led {
        // "the smaller of the capacity and the number of roots and cells of reached objects that name it"
        let mut names: Vec<Ref> = before.roots.clone();
        for (owner, size) in led.intersection(&ordinary) {
            names.extend(&before.cells[4 * owner..4 * (owner + size)]);
        }
        let number = names.iter().filter(|v| **v as usize == 1 + first).count();
        let due = number.min(capacity(width));
        let got = count(blocks, width, after, *first);
        if got != due {
            return Some(format!("block {first}: count {got} collected, {due} due"));
        }
    }
    None
}

/// "The lowest free chunk of s blocks is taken": no lower multiple of s had s free blocks; and "no chunk" is
/// said of a heap that had none.
fn wrong_chunk(blocks: usize, before: &Memory, n: usize, reply: Reply) -> Option<String> {
    let s = (0..).map(|k| 1usize << k).find(|s| *s >= n)?;
    let free_starts: Vec<usize> = (0..blocks)
        .filter(|start| start % s == 0 && start + s <= blocks)
        .filter(|start| (*start..start + s).all(|i| !is_allocated(before, i)))
        .collect();
    let right = match reply.number {
        0 => free_starts.first() == Some(&reply.value),
        5 => free_starts.is_empty(),
        _ => true,
    };
    (!right).then(|| format!("chunks free at {free_starts:?}, reply {reply:?}"))
}

/// The values of an accepted call. The number of blocks freed is read off the A-map before and after.
fn wrong_value(
    blocks: usize,
    width: usize,
    before: &Memory,
    call: Call,
    reply: Reply,
    after: &Memory,
) -> Option<String> {
    let free_before = free_count(blocks, before);
    let free_after = free_count(blocks, after);
    let second = match (call, own_reference(call, reply)) {
        (Call::Look { a }, _) => count(blocks, width, after, a),
        // U8: "the steps taken ... and the blocks freed"
        (Call::StepCollection { .. }, _) => free_after - free_before,
        (_, Some(v)) => usize::from(became_stuck(blocks, width, before, v as usize - 1, after)),
        (_, None) => 0,
    };
    let right = match call {
        Call::StoreRoot { .. }
        | Call::StoreCell { .. }
        | Call::Collect
        | Call::ReturnRoots { .. } => free_before + reply.value == free_after,
        // The new object stands, and what else changed in the A-map was freed.
        Call::Allocate { n, .. } | Call::AllocateData { n, .. } => {
            objects(blocks, after).contains(&(reply.value, n)) && free_before <= free_after + n
        }
        // "to write and read one of its cells"
        Call::ReadNumber { a, j } => reply.value == before.cells[4 * a + j] as usize,
        Call::Look { a } => objects(blocks, after).contains(&(a, reply.value)),
        Call::FreeBlocks => reply.value == free_after,
        Call::Format | Call::Check | Call::WriteNumber { .. } => reply.value == 0,
        Call::OpenCollection => reply.value == 0,
        // "A call may take at most the given number of steps": which, mark_claims.rs has.
        Call::StepCollection { budget } => reply.value <= budget,
    };
    (!right || reply.second != second).then(|| format!("reply {reply:?} has a wrong value"))
}

/// The reference that an accepted call itself writes, if it writes one.
pub fn own_reference(call: Call, reply: Reply) -> Option<Ref> {
    let v = match call {
        _ if reply.number != 0 => 0,
        Call::StoreRoot { v, .. } | Call::StoreCell { v, .. } => v,
        Call::Allocate { .. } | Call::AllocateData { .. } => 1 + reply.value,
        Call::Format | Call::Check | Call::Collect | Call::Look { .. } | Call::FreeBlocks => 0,
        Call::ReturnRoots { .. } | Call::WriteNumber { .. } | Call::ReadNumber { .. } => 0,
        Call::OpenCollection | Call::StepCollection { .. } => 0,
    };
    (v != 0).then_some(v as Ref)
}

/// Document 02, U5: "this very step brought the count to the capacity, a birth at width 1 included". The object stands
/// at the capacity after the call, and before it was lower or not there: what is stuck is not let go again.
fn became_stuck(
    blocks: usize,
    width: usize,
    before: &Memory,
    first: usize,
    after: &Memory,
) -> bool {
    let is_stuck = |memory| {
        is_first_block(blocks, memory, first)
            && count(blocks, width, memory, first) == capacity(width)
    };
    is_stuck(after) && !is_stuck(before)
}

/// No object comes to the capacity but one that the call's own reference names. Of collections, U5: "no object below
/// the capacity before a collection stands at it afterwards."
fn stuck_untold(
    blocks: usize,
    width: usize,
    before: &Memory,
    call: Call,
    reply: Reply,
    after: &Memory,
) -> Option<String> {
    let own = own_reference(call, reply).map(|v| v as usize - 1);
    let (first, _) = objects(blocks, after).into_iter().find(|(first, _)| {
        Some(*first) != own && became_stuck(blocks, width, before, *first, after)
    })?;
    Some(format!("the object at {first} became stuck by {call:?}"))
}

/// Document 02, U2: "an accepted store of the value present changes no buffer but the waiting list".
fn changed_by_present_value(before: &Memory, call: Call, reply: Reply, after: &Memory) -> bool {
    let is_store = matches!(call, Call::StoreRoot { .. } | Call::StoreCell { .. });
    let present = is_store && written_in(before, call, reply) == *before;
    present && (!after.same_but_for_waiting(before) || (reply.value, reply.second) != (0, 0))
}

/// What an accepted call isn't said to write keeps its content: the other roots, and the cells of the
/// objects that still stand.
fn strange_write(
    blocks: usize,
    before: &Memory,
    call: Call,
    reply: Reply,
    after: &Memory,
) -> Option<String> {
    let due = written_in(before, call, reply);
    if after.roots != due.roots {
        return Some("a root is not what it was or what was stored".into());
    }
    let kept = objects(blocks, before)
        .intersection(&objects(blocks, after))
        .copied()
        .collect::<Vec<Object>>();
    for (first, size) in kept {
        let places = 4 * first..4 * (first + size);
        if after.cells[places.clone()] != due.cells[places] {
            return Some(format!("a cell of object {first} is not what it should be"));
        }
    }
    None
}

/// Document 02, U6: "12, a reference store or read on data, or a number on an ordinary object, placed after 7." It is said of
/// every such call that gets so far, and of no other.
fn wrong_kind(blocks: usize, before: &Memory, call: Call, reply: Reply) -> Option<String> {
    let (a, j, wants_data) = match call {
        Call::StoreCell { a, j, .. } => (a, j, false),
        Call::WriteNumber { a, j, .. } | Call::ReadNumber { a, j } => (a, j, true),
        _ => return (reply.number == 12).then(|| "12 is said of a call on no cell".into()),
    };
    if [1, 2, 11, 13].contains(&reply.number) {
        return None;
    }
    let object = objects(blocks, before)
        .into_iter()
        .find(|(first, size)| *first == a && j < 4 * size);
    let due = object.is_some() && (bit(&before.data, a) == 1) != wants_data;
    (due != (reply.number == 12)).then(|| format!("12 due: {due}, reply {reply:?}"))
}

/// "has 1 on the first block of an object made as data": what stands before and after keeps its kind, a new object has the
/// one that was asked for.
fn other_kind(
    blocks: usize,
    before: &Memory,
    call: Call,
    reply: Reply,
    after: &Memory,
) -> Option<String> {
    let stood = objects(blocks, before);
    let wrong = objects(blocks, after).into_iter().find(|object| {
        let is_data = bit(&after.data, object.0) == 1;
        let is_born = call.allocates().is_some() && object.0 == reply.value;
        let due = match call {
            Call::AllocateData { .. } if is_born => true,
            Call::Allocate { .. } if is_born => false,
            _ => stood.contains(object) && bit(&before.data, object.0) == 1,
        };
        is_data != due
    })?;
    Some(format!("the object at {} has the other kind", wrong.0))
}

/// The first claim that this call broke, if any. The memory before is sound, its list of sections true and its marks right, or the
/// call is refused, or it formats.
pub fn broken_claim(
    blocks: usize,
    width: usize,
    before: &Memory,
    call: Call,
    reply: Reply,
    after: &Memory,
) -> Option<String> {
    if let Some(what) = wrong_about_list(blocks, width, before, call, reply) {
        return Some(what);
    }
    if let Some(what) = wrong_about_marks(blocks, before, call, reply) {
        return Some(what);
    }
    if let Some(what) = wrong_about_open(blocks, before, call, reply) {
        return Some(what);
    }
    // "A refusal carries value 0, or the damage kind for number 2 ..., and changes no buffer."
    if reply.number != 0 {
        if before != after {
            return Some("a refusal changed a buffer".into());
        }
        let kinds: &[usize] = if reply.number == 2 {
            &[1, 2, 3, 4, 5, 7]
        } else {
            &[0]
        };
        if !kinds.contains(&reply.value) || reply.second != 0 {
            return Some("a refusal with a wrong value".into());
        }
        if reply.number > 8 && ![11, 12, 13, 14].contains(&reply.number) {
            return Some("a refusal that no call has".into());
        }
        if let (Some(n), 5) = (call.allocates(), reply.number) {
            return wrong_chunk(blocks, before, n, reply);
        }
        return wrong_kind(blocks, before, call, reply);
    }
    // "The check, the look and the free-block call write nothing."
    if call.only_reads() {
        if before != after {
            return Some("a call that only reads has written".into());
        }
    } else if !call.clears_waiting_list() {
        if after.waiting != before.waiting {
            return Some("the waiting list is not what it was".into());
        }
    } else if after.waiting.iter().any(|v| *v != 0) {
        // "Format, and each accepted call that allocates, stores a reference or may free an object ... leave
        // it all 0."
        return Some("the waiting list is not all 0".into());
    }
    if let Some(what) = unsound(blocks, width, after) {
        return Some(what);
    }
    // Document 02, U4: "every accepted call, format too, leaves the list true."
    if let Some(what) = untrue_list(blocks, after) {
        return Some(what);
    }
    if let Some(what) = other_address(blocks, after) {
        return Some(what);
    }
    // Document 02, U8: what the mark map and the list hold.
    if let Some(what) = wrong_marks(blocks, width, before, call, reply, after) {
        return Some(what);
    }
    if call == Call::Format {
        let empty = free_count(blocks, after) == blocks && after.roots.iter().all(|v| *v == 0);
        return (!empty).then(|| "a formatted heap is not empty".into());
    }
    if changed_by_present_value(before, call, reply, after) {
        return Some("a store of the value present changed something".into());
    }
    if let Some(what) = early_free(blocks, before, call, reply, after) {
        return Some(what);
    }
    if let Some(what) = strange_write(blocks, before, call, reply, after) {
        return Some(what);
    }
    if let Some(what) = wrong_value(blocks, width, before, call, reply, after) {
        return Some(what);
    }
    if let Some(what) = stuck_untold(blocks, width, before, call, reply, after) {
        return Some(what);
    }
    if let Some(what) = wrong_kind(blocks, before, call, reply) {
        return Some(what);
    }
    if let Some(what) = other_kind(blocks, before, call, reply, after) {
        return Some(what);
    }
    if let Some(n) = call.allocates() {
        return wrong_chunk(blocks, before, n, reply);
    }
    if call == Call::Collect {
        return inexact_collection(blocks, width, before, after);
    }
    None
}

//! A list of calls on a heap that is formatted first: the inner calls, with no further test for damage. Each that placed or
//! freed something finds the unknown figures of sections anew.

use super::blocks::{
    chunk_size, count_zeros, get_bit, get_count, is_first, is_reference, lowest_chunk, object_size,
};
use super::collection::collect;
use super::damage::is_shaped;
use super::references::{place, return_roots, store_cell, store_root, Stored};
use super::sections::{find_chunk, renew, section_length};
use super::steps::{is_open, open, take_steps};
use super::{acceptance, refusal, telling, Answer, Lent};
use crate::rules::heap::{Ref, MAX_NUMBER};

pub fn format(blocks: usize, m: &mut Lent) {
    m.a.fill(0);
    m.b.fill(255);
    m.counts.fill(0);
    m.cells.fill(0);
    m.roots.fill(0);
    m.data.fill(0);
    m.marks.fill(0);
    m.list.fill(0);
    m.waiting.fill(0);
    m.sections.fill(section_length(blocks) as Ref);
}

/// A search of a heap of so many blocks, with its A-map and its list of sections, for the lowest free chunk of a size: its
/// first block, or the number of blocks.
pub trait Search: Fn(usize, &[u8], &[Ref], usize) -> usize {}

impl<F: Fn(usize, &[u8], &[Ref], usize) -> usize> Search for F {}

pub fn search(blocks: usize, a: &[u8], sections: &[Ref], size: usize) -> usize {
    find_chunk(blocks, a, sections, size).at
}

/// The search as it was before request U4.
pub fn search_in_one_walk(a: &[u8], blocks: usize, size: usize) -> usize {
    lowest_chunk(a, 0, blocks, size).at
}

/// The answer, and the number of blocks freed.
pub fn allocate(
    find: &impl Search,
    blocks: usize,
    width: usize,
    m: &mut Lent,
    n: usize,
    r: usize,
    as_data: bool,
) -> (Answer, usize) {
    if n == 0 || blocks < n {
        return (refusal(3), 0);
    }
    if m.roots.len() <= r {
        return (refusal(4), 0);
    }
    let at = find(blocks, m.a, m.sections, chunk_size(n));
    if at == blocks {
        return (refusal(5), 0);
    }
    let placed = place(blocks, width, m, n, r, at, as_data);
    renew(blocks, m.a, m.sections);
    (telling(at, placed.stuck), placed.freed)
}

fn stored_answer(blocks: usize, m: &mut Lent, stored: Stored) -> Answer {
    if stored.freed != 0 {
        renew(blocks, m.a, m.sections);
    }
    telling(stored.freed, stored.stuck)
}

pub fn put_in_root(blocks: usize, width: usize, m: &mut Lent, r: usize, v: usize) -> Answer {
    if m.roots.len() <= r {
        return refusal(4);
    }
    if !is_reference(blocks, m.a, m.b, v) {
        return refusal(8);
    }
    let stored = store_root(blocks, width, m, r, v as Ref);
    stored_answer(blocks, m, stored)
}

/// Whether there is a cell j of the object at a block, of data or not: else 6, 7 or 12.
fn test_cell(blocks: usize, m: &Lent, at: usize, j: usize, of_data: bool) -> Option<Answer> {
    if !is_first(blocks, m.a, m.b, at) {
        return Some(refusal(6));
    }
    if 4 * object_size(blocks, m.b, at) <= j {
        return Some(refusal(7));
    }
    if (get_bit(m.data, at) == 1) != of_data {
        return Some(refusal(12));
    }
    None
}

pub fn put_in_cell(
    blocks: usize,
    width: usize,
    m: &mut Lent,
    at: usize,
    j: usize,
    v: usize,
) -> Answer {
    if let Some(answer) = test_cell(blocks, m, at, j, false) {
        return answer;
    }
    if !is_reference(blocks, m.a, m.b, v) {
        return refusal(8);
    }
    let owner = (1 + at) as Ref;
    let stored = store_cell(blocks, width, m, owner, 4 * at + j, v as Ref);
    stored_answer(blocks, m, stored)
}

pub fn write_number(blocks: usize, m: &mut Lent, at: usize, j: usize, v: Ref) -> Answer {
    if let Some(answer) = test_cell(blocks, m, at, j, true) {
        return answer;
    }
    m.cells[4 * at + j] = v;
    acceptance(0)
}

fn read_number(blocks: usize, m: &Lent, at: usize, j: usize) -> Answer {
    if let Some(answer) = test_cell(blocks, m, at, j, true) {
        return answer;
    }
    acceptance(m.cells[4 * at + j] as usize)
}

fn let_go_of(blocks: usize, width: usize, m: &mut Lent, chosen: u64) -> Answer {
    // 64 roots: a shift by 64 is no shift.
    if m.roots.len() < 64 && chosen >> m.roots.len() != 0 {
        return refusal(4);
    }
    let freed = return_roots(blocks, width, m, chosen);
    let stuck = false;
    stored_answer(blocks, m, Stored { freed, stuck })
}

/// A collection, and what it leaves of the list of sections.
pub fn full_collection(blocks: usize, width: usize, m: &mut Lent) -> usize {
    let freed = collect(blocks, width, m);
    if freed != 0 {
        renew(blocks, m.a, m.sections);
    }
    freed
}

fn collect_or_refuse(blocks: usize, width: usize, m: &mut Lent) -> Answer {
    if is_open(m) {
        return refusal(14);
    }
    acceptance(full_collection(blocks, width, m))
}

pub fn open_collection(m: &mut Lent) -> Answer {
    if is_open(m) {
        return refusal(14);
    }
    open(m);
    acceptance(0)
}

pub fn step_collection(blocks: usize, width: usize, m: &mut Lent, budget: usize) -> Answer {
    if !is_open(m) {
        return refusal(14);
    }
    let stepped = take_steps(blocks, width, m, budget);
    if stepped.freed != 0 {
        renew(blocks, m.a, m.sections);
    }
    Answer {
        number: 0,
        value: stepped.steps,
        second: stepped.freed,
    }
}

fn look(blocks: usize, width: usize, m: &Lent, at: usize) -> Answer {
    if !is_first(blocks, m.a, m.b, at) {
        return refusal(6);
    }
    Answer {
        number: 0,
        value: object_size(blocks, m.b, at),
        second: get_count(m.counts, blocks / 8, width, at) as usize,
    }
}

/// One call of four words, on an undamaged heap with a cleared waiting list.
pub fn step(blocks: usize, width: usize, m: &mut Lent, call: &[u64]) -> Answer {
    step_by(&search, blocks, width, m, call)
}

fn step_by(find: &impl Search, blocks: usize, width: usize, m: &mut Lent, call: &[u64]) -> Answer {
    let (x, y) = (call[1] as usize, call[2] as usize);
    match call[0] {
        0 => {
            format(blocks, m);
            acceptance(0)
        }
        2 => allocate(find, blocks, width, m, x, y, false).0,
        3 => put_in_root(blocks, width, m, x, y),
        4 => put_in_cell(blocks, width, m, x, y, call[3] as usize),
        5 => collect_or_refuse(blocks, width, m),
        6 => look(blocks, width, m, x),
        7 => acceptance(count_zeros(m.a)),
        8 => let_go_of(blocks, width, m, call[1]),
        9 => allocate(find, blocks, width, m, x, y, true).0,
        10 => write_number(blocks, m, x, y, call[3] as Ref),
        11 => read_number(blocks, m, x, y),
        12 => open_collection(m),
        13 => step_collection(blocks, width, m, x),
        _ => acceptance(0),
    }
}

/// Whether four words are a call. A number write has a number that a cell can hold.
fn is_call(call: &[u64]) -> bool {
    call[0] < 14 && (call[0] != 10 || call[3] <= MAX_NUMBER.into())
}

/// Formats, then runs calls of four words each and writes replies of three words each.
pub fn replay(
    blocks: usize,
    width: usize,
    m: &mut Lent,
    calls: &[u64],
    replies: &mut [u64],
) -> Answer {
    if !is_shaped(blocks, width, m) {
        return refusal(1);
    }
    replay_by(&search, blocks, width, m, calls, replies)
}

/// The same as it was before request U4, by another search. The list of sections is put aside, so that there are no figures
/// to mark or to find.
pub fn replay_without_list(
    find: impl Fn(&[u8], usize, usize) -> usize,
    blocks: usize,
    width: usize,
    m: &mut Lent,
    calls: &[u64],
    replies: &mut [u64],
) -> Answer {
    if !is_shaped(blocks, width, m) {
        return refusal(1);
    }
    let aside = std::mem::take(&mut m.sections);
    let find = |blocks: usize, a: &[u8], _: &[Ref], size: usize| find(a, blocks, size);
    let answer = replay_by(&find, blocks, width, m, calls, replies);
    m.sections = aside;
    answer
}

fn replay_by(
    find: &impl Search,
    blocks: usize,
    width: usize,
    m: &mut Lent,
    calls: &[u64],
    replies: &mut [u64],
) -> Answer {
    if !calls.len().is_multiple_of(4) {
        return refusal(10);
    }
    if !calls.chunks_exact(4).all(is_call) {
        return refusal(9);
    }
    let count = calls.len() / 4;
    if replies.len() / 3 < count {
        return refusal(18);
    }
    format(blocks, m);
    for (call, reply) in calls.chunks_exact(4).zip(replies.chunks_exact_mut(3)) {
        let answer = step_by(find, blocks, width, m, call);
        reply[0] = answer.number as u64;
        reply[1] = answer.value as u64;
        reply[2] = answer.second as u64;
    }
    acceptance(count)
}

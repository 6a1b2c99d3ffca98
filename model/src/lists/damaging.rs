//! Damage to a sound heap, as a list of numbers to write into its buffers: one way of each kind 1 to 5 and 7, lists of
//! sections that are not true, wrong marks and lists of marked objects, and changes that may or may not be damage.

use crate::lists::file::Bench;
use crate::lists::random::Random;
use crate::rules::heap::{
    capacity, count, first_blocks, is_allocated, is_first_block, named, reference_places, set_bit,
    size, Memory, Ref, MAX_NUMBER,
};
use crate::rules::marks::{self, is_marked, is_open, listed, mark_and_list, take_off};
use std::ops::Range;

/// A load: buffer (by its number in file.rs), index, value.
pub type Load = (u64, usize, u64);

/// The aims of `some_damage`, the one that makes the list of sections untrue, and the one that makes marks wrong.
pub const AIMS: usize = 10;
pub const UNTRUE_LIST: usize = 6;
pub const WRONG_MARKS: usize = 8;

/// Loads that aim at a kind 1 to 5 or 7 of damage in a used heap. Four aims are no kind: 0 changes only what may stand in a
/// sound heap, 6 makes the list of sections untrue, 8 the mark map or the second list wrong, the last one changes anything. Where
/// a kind isn't possible in this heap it is another, or none. Seldom the list of sections is untrue besides, or there is a stray
/// D bit, or a wrong mark: other damage is found before it.
pub fn some_damage(random: &mut Random, bench: &Bench, aim: usize) -> Vec<Load> {
    let (blocks, memory) = (bench.blocks, &bench.memory);
    let free: Vec<usize> = (0..blocks).filter(|i| !is_allocated(memory, *i)).collect();
    let objects = first_blocks(blocks, memory);
    let loads = match aim {
        0 => harmless(random, bench, &objects),
        1 if !free.is_empty() => vec![flip(0, 1, &memory.b, random.pick(&free))],
        2 => open_end(random, blocks, memory, &free, &objects),
        3 => misaligned(random, blocks, memory, &free),
        4 => bad_reference(random, blocks, memory, &free, &objects),
        5 => bad_count(random, bench, &free, &objects),
        UNTRUE_LIST => untrue_list(random, bench),
        7 => stray_data(random, bench),
        WRONG_MARKS => wrong_marks(random, bench, &objects),
        _ => anything(random, bench),
    };
    let mut more = Vec::new();
    if loads.is_empty() || random.percent(10) {
        more = anything(random, bench);
    } else if aim > 0 && random.percent(15) {
        more = untrue_list(random, bench);
    } else if aim > 0 && random.percent(15) {
        more = stray_data(random, bench);
    } else if aim > 0 && random.percent(15) {
        more = wrong_marks(random, bench, &objects);
    }
    // Never two loads to one place: each is undone by the value before.
    more.retain(|new| loads.iter().all(|old| (old.0, old.1) != (new.0, new.1)));
    more.extend(loads);
    more
}

/// The blocks among these at which no object starts.
fn no_first_blocks(blocks: usize, memory: &Memory, among: Range<usize>) -> Vec<usize> {
    among
        .filter(|i| !is_first_block(blocks, memory, *i))
        .collect()
}

/// The load that turns one bit of a map of bytes. The map starts at this byte of its buffer.
fn flip(start: usize, buffer: u64, map: &[u8], i: usize) -> Load {
    let byte = map[start + i / 8] ^ (1 << (i % 8));
    (buffer, start + i / 8, byte as u64)
}

/// Rubbish in the waiting list, a count raised to the capacity, or, while a collection is open, one object more that is marked
/// and listed: none of these is damage.
fn harmless(random: &mut Random, bench: &Bench, objects: &[usize]) -> Vec<Load> {
    let mut loads: Vec<Load> = Vec::new();
    for i in 0..bench.blocks {
        if random.percent(40) {
            loads.push((5, i, (random.word() as Ref).into()));
        }
    }
    loads.truncate(6);
    if !objects.is_empty() && random.percent(50) {
        let first = random.pick(objects);
        for k in 0..bench.width {
            let place = k * bench.blocks / 8 + first / 8;
            let byte = bench.memory.counts[place] | (1 << (first % 8));
            loads.push((2, place, byte as u64));
        }
    }
    if !objects.is_empty() && is_open(bench.blocks, &bench.memory) {
        let mut memory = bench.memory.clone();
        mark_and_list(bench.blocks, &mut memory, random.pick(objects));
        loads.extend(to_marks_of(bench, &memory));
    }
    loads
}

/// The loads that make the mark map and the second list those of a memory.
fn to_marks_of(bench: &Bench, memory: &Memory) -> Vec<Load> {
    let bytes = memory.marks.iter().map(|byte| *byte as u64).enumerate();
    let numbers = memory.list.iter().map(|v| *v as u64).enumerate();
    let loads = bytes
        .map(|(index, value)| (8, index, value))
        .chain(numbers.map(|(index, value)| (9, index, value)));
    loads
        .filter(|(buffer, index, value)| bench.number_at(*buffer, *index) != *value)
        .collect()
}

/// Kind 2: a free block allocated with nothing after it, or the last block of an object not said to be last.
fn open_end(
    random: &mut Random,
    blocks: usize,
    memory: &Memory,
    free: &[usize],
    objects: &[usize],
) -> Vec<Load> {
    let next_is_free = |i: usize| i + 1 == blocks || !is_allocated(memory, i + 1);
    let alone: Vec<usize> = free.iter().copied().filter(|i| next_is_free(*i)).collect();
    let lasts: Vec<usize> = objects
        .iter()
        .map(|first| first + size(blocks, memory, *first) - 1)
        .filter(|last| next_is_free(*last))
        .collect();
    if !lasts.is_empty() && random.percent(50) {
        return vec![flip(0, 1, &memory.b, random.pick(&lasts))];
    }
    if alone.is_empty() {
        return Vec::new();
    }
    vec![flip(0, 0, &memory.a, random.pick(&alone))]
}

/// Kind 3: two free blocks made an object that starts at an odd block.
fn misaligned(random: &mut Random, blocks: usize, memory: &Memory, free: &[usize]) -> Vec<Load> {
    let starts: Vec<usize> = free
        .iter()
        .copied()
        .filter(|i| i % 2 == 1 && i + 1 < blocks && !is_allocated(memory, i + 1))
        .collect();
    if starts.is_empty() {
        return Vec::new();
    }
    let start = random.pick(&starts);
    let mut a = memory.a.clone();
    for i in [start, start + 1] {
        a[i / 8] |= 1 << (i % 8);
    }
    let mut loads = vec![(0, start / 8, a[start / 8] as u64)];
    if (start + 1) / 8 != start / 8 {
        loads.push((0, (start + 1) / 8, a[(start + 1) / 8] as u64));
    }
    loads.push(flip(0, 1, &memory.b, start + 1));
    loads
}

/// Kind 4: a cell of a free block that isn't 0, or a cell or root that names no object.
fn bad_reference(
    random: &mut Random,
    blocks: usize,
    memory: &Memory,
    free: &[usize],
    objects: &[usize],
) -> Vec<Load> {
    let no_object = no_first_blocks(blocks, memory, 0..blocks);
    let mut bad = vec![
        blocks as u64 + 1,
        blocks as u64 + 2,
        MAX_NUMBER.into(),
        // Cut down to 16 bits it is 0, or names what block 0 does.
        (1 + random.below(2) as u64) << 16 | random.below(2) as u64,
    ];
    bad.retain(|v| *v > blocks as u64);
    if !no_object.is_empty() {
        bad.push(1 + random.pick(&no_object) as u64);
        bad.push(1 + random.pick(&no_object) as u64);
    }
    let v = random.pick(&bad);
    match random.below(3) {
        0 if !free.is_empty() => {
            // Even the name of an object is damage in a cell of a free block.
            let v = if objects.is_empty() || random.percent(50) {
                v
            } else {
                1 + random.pick(objects) as u64
            };
            vec![(3, 4 * random.pick(free) + random.below(4), v)]
        }
        1 if !objects.is_empty() => {
            let first = random.pick(objects);
            let cells = 4 * size(blocks, memory, first);
            vec![(3, 4 * first + random.below(cells), v)]
        }
        _ => vec![(4, random.below(memory.roots.len()), v)],
    }
}

/// Kind 5: a count where no object starts, an object with count 0, or a count that isn't the number of
/// references (damage only below capacity, so at width 1 only the first two).
fn bad_count(random: &mut Random, bench: &Bench, free: &[usize], objects: &[usize]) -> Vec<Load> {
    let (blocks, width, memory) = (bench.blocks, bench.width, &bench.memory);
    let plane = random.below(width) * blocks / 8;
    match random.below(5) {
        4 if !free.is_empty() => {
            // One block more, a good object but for its count 0, and named by nothing.
            let block = random.pick(free);
            vec![flip(0, 0, &memory.a, block), flip(0, 1, &memory.b, block)]
        }
        0 => vec![flip(plane, 2, &memory.counts, random.below(blocks))],
        1 if !objects.is_empty() => {
            let first = random.pick(objects);
            let mut loads = Vec::new();
            for k in 0..width {
                let place = k * blocks / 8 + first / 8;
                let byte = memory.counts[place] & !(1 << (first % 8));
                loads.push((2, place, byte as u64));
            }
            loads
        }
        2 if !objects.is_empty() => {
            let below: Vec<usize> = objects
                .iter()
                .copied()
                .filter(|first| count(blocks, width, memory, *first) < capacity(width))
                .collect();
            if below.is_empty() {
                return Vec::new();
            }
            vec![flip(plane, 2, &memory.counts, random.pick(&below))]
        }
        _ => {
            // A root rewritten without counting.
            let r = random.below(memory.roots.len());
            let v = if objects.is_empty() || (memory.roots[r] != 0 && random.percent(50)) {
                0
            } else {
                1 + random.pick(objects) as u64
            };
            vec![(4, r, v)]
        }
    }
}

/// U4: "the list doesn't match the maps": one number of the list of sections is another, mostly by one.
fn untrue_list(random: &mut Random, bench: &Bench) -> Vec<Load> {
    let k = random.below(bench.memory.sections.len());
    let now = bench.number_at(6, k);
    // One below 0 is the largest number.
    let (more, less) = (now + 1, (now as Ref).wrapping_sub(1).into());
    let most = MAX_NUMBER.into();
    let value = random.pick(&[more, more, less, less, 2 * now + 1, (1 << 16) + now, most]);
    vec![(6, k, value)]
}

/// Kind 7: a D bit where no object starts, of free blocks and of second blocks of objects; often in the first or the last
/// byte.
fn stray_data(random: &mut Random, bench: &Bench) -> Vec<Load> {
    let (blocks, map) = (bench.blocks, &bench.memory.data);
    let places = match random.below(4) {
        0 => 0..8,
        1 => blocks - 8..blocks,
        _ => 0..blocks,
    };
    let strays = no_first_blocks(blocks, &bench.memory, places);
    let inside: Vec<usize> = strays
        .iter()
        .copied()
        .filter(|i| is_allocated(&bench.memory, *i))
        .collect();
    if !inside.is_empty() && random.percent(50) {
        return vec![flip(0, 7, map, random.pick(&inside))];
    }
    if strays.is_empty() {
        return Vec::new();
    }
    vec![flip(0, 7, map, random.pick(&strays))]
}

/// U8's 13, each of its clauses: something is wrong with the mark map or the second list.
fn wrong_marks(random: &mut Random, bench: &Bench, objects: &[usize]) -> Vec<Load> {
    for _ in 0..8 {
        let mut memory = bench.memory.clone();
        match random.below(8) {
            0..=1 => list_of_another_form(random, bench.blocks, &mut memory),
            2 => list_with_an_unmarked_object(random, bench.blocks, &mut memory, objects),
            3 => stray_mark(random, bench.blocks, &mut memory),
            4..=5 => unmarked_object_named(random, bench.blocks, &mut memory, objects),
            _ => opened_or_closed(random, bench.blocks, &mut memory, objects),
        }
        if marks::is_wrong(bench.blocks, &memory) {
            return to_marks_of(bench, &memory);
        }
    }
    Vec::new()
}

/// "the list isn't of that form": two numbers the wrong way round or equal, a 0 before a number, one that is no first block, or
/// another last place.
fn list_of_another_form(random: &mut Random, blocks: usize, memory: &mut Memory) {
    let held = listed(blocks, memory).len();
    let no_first = |random: &mut Random| {
        let any = [random.below(blocks), blocks, blocks + 1, 1 << 16, 1 << 31];
        (1 + random.pick(&any)) as Ref
    };
    let mut ways = vec![6];
    if held > 1 {
        ways.extend([0, 0, 1, 2]);
    }
    if held > 0 {
        ways.push(5);
    }
    if held < blocks {
        ways.push(4);
    }
    if held > 0 && held < blocks {
        ways.push(3);
    }
    match random.pick(&ways) {
        0 => {
            let place = random.below(held - 1);
            memory.list.swap(place, place + 1);
        }
        1 => {
            let place = random.below(held - 1);
            memory.list[place + 1] = memory.list[place];
        }
        2 => {
            let place = random.below(held - 1);
            memory.list[place] = 0;
        }
        3 => memory.list[held] = memory.list[held - 1],
        4 => {
            let place = random.pick(&[held, held, blocks - 1]);
            memory.list[place] = no_first(random);
        }
        5 => {
            let place = random.below(held);
            memory.list[place] = no_first(random);
        }
        _ => memory.list[blocks] = random.pick(&[2, 2, 3, 256, (1 << 16) + 1, MAX_NUMBER]),
    }
}

/// "or holds an unmarked object": a mark less, or a number more.
fn list_with_an_unmarked_object(
    random: &mut Random,
    blocks: usize,
    memory: &mut Memory,
    objects: &[usize],
) {
    let listed = listed(blocks, memory).into_iter();
    let listed: Vec<usize> = listed.filter(|first| *first < blocks).collect();
    if !listed.is_empty() && random.percent(50) {
        set_bit(&mut memory.marks, random.pick(&listed), 0);
    } else {
        let mut unmarked = objects.to_vec();
        unmarked.retain(|first| !is_marked(memory, *first));
        if !unmarked.is_empty() {
            let first = random.pick(&unmarked);
            mark_and_list(blocks, memory, first);
            set_bit(&mut memory.marks, first, 0);
        }
    }
}

/// "a mark isn't on a first block": on a free one, or on a second block of an object.
fn stray_mark(random: &mut Random, blocks: usize, memory: &mut Memory) {
    let strays = no_first_blocks(blocks, memory, 0..blocks);
    let inside: Vec<usize> = strays
        .iter()
        .copied()
        .filter(|i| is_allocated(memory, *i))
        .collect();
    if !inside.is_empty() && random.percent(50) {
        set_bit(&mut memory.marks, random.pick(&inside), 1);
    } else if !strays.is_empty() {
        set_bit(&mut memory.marks, random.pick(&strays), 1);
    }
}

/// "some root or marked unlisted object names an unmarked one": what such a one names loses its mark and its place, or a listed
/// object that names an unmarked one its place alone.
fn unmarked_object_named(
    random: &mut Random,
    blocks: usize,
    memory: &mut Memory,
    objects: &[usize],
) {
    if objects.is_empty() {
        return;
    }
    let listed = listed(blocks, memory);
    let names = |first: &usize| memory.cells[reference_places(blocks, memory, *first)].to_vec();
    let lose = match random.below(3) {
        0 => memory.roots.clone(),
        1 => {
            let is_done = |first: &&usize| is_marked(memory, **first) && !listed.contains(*first);
            let done = objects.iter().filter(is_done);
            done.flat_map(names).collect()
        }
        _ => {
            let names_unmarked = |first: &&usize| {
                let named = |v: Ref| named(blocks, memory, v).filter(|object| object != *first);
                let mut objects = names(first).into_iter().filter_map(named);
                objects.any(|object| !is_marked(memory, object))
            };
            let owners: Vec<usize> = objects.iter().filter(names_unmarked).copied().collect();
            if !owners.is_empty() {
                let first = random.pick(&owners);
                mark_and_list(blocks, memory, first);
                take_off(blocks, memory, first);
            }
            return;
        }
    };
    let lose: Vec<usize> = lose
        .into_iter()
        .filter_map(|v| named(blocks, memory, v))
        .collect();
    if !lose.is_empty() {
        let first = random.pick(&lose);
        take_off(blocks, memory, first);
        set_bit(&mut memory.marks, first, 0);
    }
}

/// "or a mark or list place isn't 0 while none is": a mark or a number more where none is open, or the last place alone; and the
/// last place 1 where nothing is marked.
fn opened_or_closed(random: &mut Random, blocks: usize, memory: &mut Memory, objects: &[usize]) {
    if is_open(blocks, memory) || objects.is_empty() || random.percent(20) {
        memory.list[blocks] = 1 - memory.list[blocks].min(1);
        return;
    }
    let first = random.pick(objects);
    match random.below(3) {
        0 => set_bit(&mut memory.marks, first, 1),
        1 => mark_and_list(blocks, memory, first),
        _ => memory.list[random.below(blocks)] = (1 + first) as Ref,
    }
}

/// One to three numbers of the heap changed at random.
fn anything(random: &mut Random, bench: &Bench) -> Vec<Load> {
    let mut loads: Vec<Load> = Vec::new();
    for _ in 0..1 + random.below(3) {
        // All but the waiting list.
        let buffer = random.pick(&[0, 1, 2, 3, 4, 6, 7, 8, 9]);
        let index = random.below(bench.length(buffer));
        if loads.iter().any(|(b, i, _)| (*b, *i) == (buffer, index)) {
            continue;
        }
        let now = bench.number_at(buffer, index);
        let value = match buffer {
            0..=2 | 7 | 8 => now ^ (1 << random.below(8)),
            _ => random.below(bench.blocks + 2) as u64,
        };
        loads.push((buffer, index, value));
    }
    loads
}

//! The families of lists. Each one writes at least so many entries at a desk, beginning with a format. Those in which
//! something is wrong, and those of sections and of steps, have files of their own.

use crate::lists::generate::Desk;
use crate::lists::random::Random;
use crate::lists::section_lists::sections;
use crate::lists::step_lists::steps;
use crate::lists::wrong_families::{damage, huge_arguments, wrong_lengths};
use crate::rules::calls::Call;
use crate::rules::chunks::least_power_of_two;
use crate::rules::heap::{free_count, Ref};

/// Writes at least so many entries of one family at a desk.
pub type Writer = fn(&mut Desk, usize);

/// All families by name.
pub const FAMILIES: [(&str, Writer); 11] = [
    ("random", random),
    ("near-full", near_full),
    ("saturation", saturation),
    ("cycles", cycles),
    ("self-references", self_references),
    ("deep-chains", deep_chains),
    ("damage", damage),
    ("wrong-lengths", wrong_lengths),
    ("huge-arguments", huge_arguments),
    ("sections", sections),
    ("steps", steps),
];

/// A good header, small mostly: blocks, width, roots. The width goes with the seed, so that four seeds in a
/// row have all four.
pub fn some_shape(seed: u64, random: &mut Random) -> [u64; 3] {
    let blocks = random.pick(&[8, 8, 16, 16, 32, 64]);
    let roots = random.pick(&[1, 2, 3, 4, 4, 5, 6, 8]);
    [blocks, 1 + seed % 4, roots]
}

/// The list of a family, cut to exactly so many entries; none where there is no such family. "mixed" has all
/// families one after another, each on heaps of its own.
pub fn generate(family: &str, seed: u64, count: usize) -> Option<Desk> {
    let mut random = Random::new(seed);
    let shape = some_shape(seed, &mut random);
    let mut desk = Desk::new(random, shape);
    if family == "mixed" {
        mixed(&mut desk, count);
    } else {
        let (_, write) = FAMILIES.iter().find(|(name, _)| *name == family)?;
        write(&mut desk, count);
    }
    desk.entries.truncate(count);
    Some(desk)
}

/// All families one after another, each on a new heap, until there are so many entries.
pub fn mixed(desk: &mut Desk, count: usize) {
    let end = desk.entries.len() + count;
    while desk.entries.len() < end {
        for (_, write) in FAMILIES {
            let seed = desk.random.word();
            let shape = some_shape(seed, &mut desk.random);
            desk.new_heap(shape);
            write(desk, 40);
        }
    }
}

/// Any calls.
pub fn random(desk: &mut Desk, count: usize) {
    let end = desk.entries.len() + count;
    desk.call(Call::Format);
    while desk.entries.len() < end {
        let call = desk.some_call();
        desk.call(call);
    }
}

/// Heaps with few free blocks: what is left is asked for, and a little more.
pub fn near_full(desk: &mut Desk, count: usize) {
    let end = desk.entries.len() + count;
    desk.call(Call::Format);
    while desk.entries.len() < end {
        let free = free_count(desk.blocks(), &desk.bench.memory);
        let call = match desk.random.below(10) {
            0..=3 => {
                let (n, r) = (1 + desk.random.below(free.max(1)), desk.some_root());
                desk.allocation(n, r)
            }
            4 => {
                let r = desk.some_root();
                desk.allocation(free.max(1), r)
            }
            5 => {
                let r = desk.some_root();
                desk.allocation(1, r)
            }
            // Kept by a cell, so that the root can take the next one.
            6..=7 => desk.some_cell_store(5),
            8 => desk.some_root_store(30),
            _ => {
                if desk.random.percent(15) {
                    Call::Collect
                } else {
                    desk.some_call()
                }
            }
        };
        if call != Call::Format {
            desk.call(call);
        }
        desk.some_numbers();
        desk.some_steps();
    }
}

/// Counts driven up to the capacity, past it, and down again, with values stored over themselves on the way.
pub fn saturation(desk: &mut Desk, count: usize) {
    let end = desk.entries.len() + count;
    desk.call(Call::Format);
    while desk.entries.len() < end {
        desk.call(Call::Allocate { n: 4, r: 0 });
        let call = desk.allocation(1, 0);
        desk.call(call);
        desk.some_numbers();
        let a = desk.some_object_as(false);
        let target = desk.some_object();
        let times = 1 + desk.random.below((1 << desk.bench.width) + 2);
        let cells = desk.cells_of(a);
        let v = 1 + target;
        for time in 0..times {
            let j = (time + desk.random.below(2)) % cells;
            desk.call(Call::StoreCell { a, j, v });
            desk.some_steps();
            if desk.random.percent(30) {
                let r = desk.some_root();
                desk.call(Call::StoreRoot { r, v });
                desk.call(Call::StoreRoot { r, v });
            }
        }
        desk.call(Call::Look { a: target });
        for j in 0..cells.min(times) {
            desk.call(Call::StoreCell { a, j, v: 0 });
        }
        desk.call(Call::Look { a: target });
        for _ in 0..3 {
            let call = desk.some_root_store(80);
            desk.call(call);
        }
        if desk.random.percent(60) {
            desk.call(Call::Collect);
            desk.call(Call::Look { a: target });
        }
    }
}

/// Rings of objects, let go by their roots, kept or collected, some of them hanging on other rings.
pub fn cycles(desk: &mut Desk, count: usize) {
    let end = desk.entries.len() + count;
    desk.call(Call::Format);
    while desk.entries.len() < end {
        let length = 1 + desk.random.below(5);
        let r = desk.random.below(desk.roots());
        let mut first = None;
        let mut before = None;
        for _ in 0..length {
            let n = 1 + desk.random.below(2);
            let call = desk.allocation(n, r);
            let reply = desk.call(call);
            desk.some_numbers();
            if reply.number != 0 {
                desk.call(Call::Collect);
                break;
            }
            desk.some_steps();
            // The new object names the one before it, which its root has let go only if a count held.
            let new = reply.value;
            first = first.or(Some(new));
            if let Some(old) = before.filter(|old| desk.objects().contains(old)) {
                let j = desk.random.below(4);
                desk.call(Call::StoreCell {
                    a: new,
                    j,
                    v: 1 + old,
                });
            }
            // Keep it by a second root, so that the next allocation into the first one doesn't free it.
            let other = desk.random.below(desk.roots());
            desk.call(Call::StoreRoot {
                r: other,
                v: 1 + new,
            });
            before = Some(new);
        }
        if let (Some(first), Some(last)) = (first, before) {
            if desk.objects().contains(&first) {
                let j = desk.random.below(4);
                desk.call(Call::StoreCell {
                    a: first,
                    j,
                    v: 1 + last,
                });
            }
        }
        if desk.random.percent(30) {
            let call = desk.some_return();
            desk.call(call);
        } else {
            for r in 0..desk.roots() {
                if desk.random.percent(70) {
                    desk.call(Call::StoreRoot { r, v: 0 });
                }
            }
        }
        if desk.random.percent(30) {
            let call = desk.some_cell_store(40);
            desk.call(call);
        }
        desk.call(Call::FreeBlocks);
        if desk.random.percent(40) {
            desk.call(Call::Collect);
        }
    }
}

/// Objects that name themselves, values stored over themselves, owners freed by their own store.
pub fn self_references(desk: &mut Desk, count: usize) {
    let end = desk.entries.len() + count;
    desk.call(Call::Format);
    while desk.entries.len() < end {
        let r = desk.random.below(desk.roots());
        let n = 1 + desk.random.below(2);
        let call = desk.allocation(n, r);
        desk.call(call);
        let a = desk.some_object();
        let v = 1 + a;
        let j = desk.random.below(desk.cells_of(a));
        desk.some_steps();
        // Data holds its own name as a number, which keeps nothing.
        desk.call(Call::WriteNumber { a, j, v: v as Ref });
        desk.call(Call::StoreCell { a, j, v });
        if desk.random.percent(50) {
            desk.call(Call::StoreCell { a, j, v });
        }
        if desk.random.percent(50) {
            // A root stored over itself.
            let held = desk.bench.memory.roots[r] as usize;
            desk.call(Call::StoreRoot { r, v: held });
        }
        if desk.random.percent(70) {
            // Only its own cell names it now; writing that cell frees the owner of the cell.
            for r in 0..desk.roots() {
                if desk.bench.memory.roots[r] as usize == v {
                    desk.call(Call::StoreRoot { r, v: 0 });
                }
            }
            let other = desk.some_value(40);
            desk.call(Call::StoreCell { a, j, v: other });
            desk.call(Call::Look { a });
        }
        if desk.random.percent(20) {
            desk.call(Call::Collect);
        }
    }
}

/// Long chains and wide stars, let go by one store.
pub fn deep_chains(desk: &mut Desk, count: usize) {
    let end = desk.entries.len() + count;
    while desk.entries.len() < end {
        desk.call(Call::Format);
        if desk.random.percent(60) || desk.blocks() < 16 {
            chain(desk);
        } else {
            star(desk);
        }
        desk.some_steps();
        let call = desk.some_call();
        desk.call(call);
        desk.call(Call::FreeBlocks);
        // Let go, by one return, or by each root that holds something.
        if desk.random.percent(40) {
            let call = desk.some_return();
            desk.call(call);
        }
        for r in 0..desk.roots() {
            if desk.bench.memory.roots[r] != 0 {
                desk.call(Call::StoreRoot { r, v: 0 });
            }
        }
        desk.call(Call::FreeBlocks);
        desk.call(Call::Collect);
    }
}

/// One block after another, each naming the one before; root 0 holds the last. Where there is a second root
/// the new one is allocated into it, else the old one is lost.
fn chain(desk: &mut Desk) {
    let new_root = desk.roots().min(2) - 1;
    let length = 2 + desk.random.below(desk.blocks());
    let call = desk.allocation(1, 0);
    desk.call(call);
    desk.some_numbers();
    for _ in 0..length {
        let held = desk.bench.memory.roots[0] as usize;
        let reply = desk.call(Call::Allocate { n: 1, r: new_root });
        if reply.number != 0 {
            break;
        }
        let new = 1 + reply.value;
        desk.some_steps();
        if new_root != 0 {
            let j = desk.random.below(4);
            let a = reply.value;
            desk.call(Call::StoreCell { a, j, v: held });
            desk.call(Call::StoreRoot { r: 0, v: new });
        }
    }
    if new_root != 0 {
        desk.call(Call::StoreRoot { r: new_root, v: 0 });
    }
}

/// One wide object whose cells name as many single blocks as there are, some of them twice.
fn star(desk: &mut Desk) {
    let blocks = desk.blocks();
    let n = least_power_of_two(blocks / 4) - desk.random.below(2);
    let new_root = desk.roots().min(2) - 1;
    desk.call(Call::Allocate { n, r: 0 });
    let mut j = 0;
    while j + 1 < 4 * n {
        let call = desk.allocation(1, new_root);
        let reply = desk.call(call);
        if reply.number != 0 || new_root == 0 {
            break;
        }
        desk.some_numbers();
        desk.some_steps();
        let v = 1 + reply.value;
        desk.call(Call::StoreCell { a: 0, j, v });
        j += 1;
        if desk.random.percent(30) {
            desk.call(Call::StoreCell { a: 0, j, v });
            j += 1;
        }
    }
    if new_root != 0 {
        desk.call(Call::StoreRoot { r: new_root, v: 0 });
    }
}

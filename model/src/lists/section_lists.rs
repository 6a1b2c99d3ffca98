//! The family of sections (U4): heaps of 256 blocks and more, objects about as long as a section or longer, and lists of
//! sections that are not true.

use crate::lists::damaging::UNTRUE_LIST;
use crate::lists::generate::Desk;
use crate::lists::wrong_families::damage_and_mend;
use crate::rules::calls::Call;

/// On a new heap of several sections, seldom of one, with the width and the roots of the present one.
pub fn sections(desk: &mut Desk, count: usize) {
    let end = desk.entries.len() + count;
    let blocks = desk.random.pick(&[256, 512, 512, 512, 1024]);
    desk.new_heap([blocks, desk.bench.width as u64, desk.roots() as u64]);
    desk.call(Call::Format);
    while desk.entries.len() < end {
        for _ in 0..12 {
            let call = some_call(desk);
            desk.call(call);
            desk.some_steps();
        }
        damage_and_mend(desk, UNTRUE_LIST);
    }
}

/// Calls that fill sections, leave parts of them, and let go across their borders.
fn some_call(desk: &mut Desk) -> Call {
    match desk.random.below(20) {
        0..=8 => {
            let (n, r) = (some_size(desk), desk.some_root());
            desk.allocation(n, r)
        }
        // Kept by a cell, so that the root can take the next one.
        9..=12 => desk.some_cell_store(10),
        13..=15 => desk.some_root_store(60),
        16 => desk.some_return(),
        17 if desk.random.percent(40) => Call::Collect,
        _ => desk.some_call(),
    }
}

/// Sizes about a section's length and its half, about two sections and half the heap, and any; seldom too large.
fn some_size(desk: &mut Desk) -> usize {
    let blocks = desk.blocks();
    match desk.random.below(20) {
        0..=4 => 1 + desk.random.below(4),
        5..=8 => desk.random.pick(&[32, 63, 64, 65, 100, 127, 128]),
        9..=12 => desk.random.pick(&[129, 200, 255, 256]),
        13..=15 => desk.random.pick(&[257, 300, 384, 511, 512, 513]),
        16..=17 => desk.random.pick(&[blocks / 2, blocks / 2 + 1, blocks]),
        _ => 1 + desk.random.below(blocks),
    }
}

//! The lists of the large file that belong to request U4: sections with a largest size. The list of sections is printed
//! with the other buffers where a heap ends, so each case has a new heap.

use crate::lists::generate::Desk;
use crate::lists::request_vectors::on_new_heap;
use crate::rules::calls::short::{allocate, cell, chosen, look, root};
use crate::rules::calls::Call;
use crate::rules::heap::{Ref, MAX_BLOCKS, MAX_NUMBER};
use crate::rules::sections::figures;

const FORMAT: Call = Call::Format;

/// The number of the list of sections among the buffers.
const SECTIONS: u64 = 6;

pub fn sections(desk: &mut Desk) {
    formats(desk);
    figures_of_one_section(desk);
    lowest_section(desk);
    longer_than_a_section(desk);
    across_borders(desk);
    untrue_by_one(desk);
    damage_first(desk);
    before_own_refusals(desk);
    wrong_lengths(desk);
    letting_go(desk);
    largest_heap(desk);
}

/// Every call but format, with arguments that fit a heap with an object at 0.
const EVERY_CALL: [Call; 8] = [
    Call::Check,
    Call::Allocate { n: 1, r: 1 },
    Call::StoreRoot { r: 0, v: 0 },
    Call::StoreCell { a: 0, j: 0, v: 1 },
    Call::Collect,
    Call::Look { a: 0 },
    Call::FreeBlocks,
    Call::ReturnRoots { chosen: 1 },
];

fn calls(desk: &mut Desk, calls: &[Call]) {
    for call in calls {
        desk.call(*call);
    }
}

/// A number of the list, whatever stood there.
fn load(desk: &mut Desk, k: usize, figure: usize) {
    desk.load(SECTIONS, k, (figure as Ref).into());
}

/// "every accepted call, format too, leaves the list true": 8; 128; 256; 256 256. Before it, 2 for a heap that isn't
/// formatted, whatever the list holds.
fn formats(desk: &mut Desk) {
    for blocks in [8, 128, 256, 512] {
        desk.new_heap([blocks, 2, 4]);
        for k in 0..desk.bench.memory.sections.len() {
            load(desk, k, MAX_NUMBER as usize - k);
        }
        calls(desk, &[Call::Check, FORMAT, Call::Check, Call::FreeBlocks]);
    }
}

/// A heap of eight blocks, of which these are let go by a set of roots.
fn blocks_let_go(desk: &mut Desk, blocks: u64) {
    on_new_heap(desk, [8, 2, 8], &[FORMAT]);
    for r in 0..8 {
        desk.call(allocate(1, r));
    }
    desk.call(chosen(blocks));
}

/// "its largest free aligned chunk", not the longest free stretch, "0 if none".
fn figures_of_one_section(desk: &mut Desk) {
    // Blocks 1 to 7 are free: 4. Then 3 and 7: 1. 5 to 7: 2. None: 0.
    for fill in [
        &[allocate(1, 0)][..],
        &[allocate(2, 0), allocate(1, 1), allocate(3, 2)],
        &[allocate(5, 0)],
        &[allocate(8, 0)],
    ] {
        on_new_heap(desk, [8, 2, 4], &[&[FORMAT], fill].concat());
    }
    // 1 to 6: 2. 3 and 4, which are no chunk: 1. 2 and 3: 2. 4 to 7: 4.
    for blocks in [126, 24, 12, 240] {
        blocks_let_go(desk, blocks);
    }
    desk.new_heap([8, 1, 4]);
    calls(desk, &[FORMAT, allocate(4, 0), allocate(2, 1)]);
    calls(desk, &[allocate(1, 2), allocate(1, 2), root(0, 0)]);
    calls(desk, &[allocate(2, 3), Call::Collect]);
    for (blocks, half) in [(128, 64), (256, 128)] {
        // Half of it and one block more; then what is left, piece by piece.
        let fill = [FORMAT, allocate(half + 1, 0), allocate(half, 1)];
        on_new_heap(desk, [blocks, 2, 4], &fill);
        let pieces = [allocate(half / 2, 1), allocate(half / 4, 2), allocate(2, 3)];
        calls(desk, &pieces);
        // All of it; and a half, where the lower one has a used block.
        on_new_heap(desk, [blocks, 2, 4], &[FORMAT, allocate(2 * half, 0)]);
        let fill = [allocate(1, 0), allocate(half, 1), allocate(half, 2)];
        on_new_heap(desk, [blocks, 2, 4], &[&[FORMAT], &fill[..]].concat());
    }
}

/// "Allocation of at most a section's length goes to the lowest section whose figure suffices."
fn lowest_section(desk: &mut Desk) {
    // Block 0, not 256; then 256, with 128 left in the lower section; then 128 and, let go of, 0.
    let lower = [allocate(1, 0), allocate(256, 1), allocate(128, 2)];
    let again = [root(0, 0), allocate(128, 3), allocate(1, 0)];
    on_new_heap(desk, [512, 2, 4], &[&[FORMAT], &lower[..], &again].concat());
    // The lower section is full: 256 and 384. Then no figure is 256, nor 128, and 64 is left.
    let upper = [allocate(256, 0), allocate(1, 1), allocate(128, 2)];
    let none = [allocate(129, 3), allocate(65, 3), allocate(64, 3)];
    on_new_heap(desk, [512, 2, 4], &[&[FORMAT], &upper[..], &none].concat());
    // The third of four sections is the first whose figure suffices.
    let third = [allocate(256, 0), allocate(1, 1), allocate(200, 2)];
    on_new_heap(desk, [1024, 2, 4], &[&[FORMAT], &third[..]].concat());
    calls(desk, &[allocate(100, 3), look(384), look(512)]);
}

/// "Longer ones search as before": no figure is above 256, and sizes of 257 to 512 need a chunk of 512.
fn longer_than_a_section(desk: &mut Desk) {
    // Both figures are 256 exactly where the whole heap of 512 is free: then it is block 0.
    for n in [257, 300, 511, 512] {
        on_new_heap(desk, [512, 2, 4], &[FORMAT, allocate(n, 0)]);
        calls(desk, &[allocate(256, 1), allocate(128, 2), allocate(1, 3)]);
    }
    // One block is used: 5, though the upper figure is 256. Let go, it is block 0 again.
    let refused = [allocate(257, 1), allocate(512, 1)];
    let used = [&[FORMAT, allocate(1, 0)], &refused[..]].concat();
    on_new_heap(desk, [512, 2, 4], &used);
    on_new_heap(desk, [512, 2, 4], &used);
    calls(desk, &[root(0, 0), allocate(257, 1)]);
    // Four sections, each an object, and some of them let go. The two in the middle are 512 free blocks and two figures of
    // 256, but no chunk of 512.
    let fill = [0, 1, 2, 3].map(|r| allocate(256, r));
    for (let_go, n) in [
        (6, 257),
        (6, 512),
        (3, 257),
        (12, 512),
        (7, 512),
        (7, 513),
        (14, 512),
        (15, 513),
    ] {
        on_new_heap(desk, [1024, 2, 4], &[&[FORMAT], &fill[..]].concat());
        calls(desk, &[chosen(let_go), allocate(n, 1), allocate(256, 2)]);
    }
}

/// An object of 300 blocks: 0 to 299, with 128 left in its second section. Let go, both sections are free.
fn across_borders(desk: &mut Desk) {
    let object = [FORMAT, allocate(300, 0), look(0)];
    on_new_heap(desk, [1024, 2, 4], &object);
    let beside = [allocate(128, 1), allocate(64, 2), allocate(4, 3)];
    on_new_heap(desk, [1024, 2, 4], &[&object[..], &beside].concat());
    on_new_heap(desk, [1024, 2, 4], &[&object[..], &beside].concat());
    calls(desk, &[root(0, 0), allocate(257, 0), allocate(256, 0)]);
    // Two of them; one over three sections; one over all.
    let two = [allocate(300, 1), root(0, 0), allocate(512, 2)];
    on_new_heap(desk, [1024, 2, 4], &[&object[..], &two].concat());
    for n in [700, 1024] {
        on_new_heap(desk, [1024, 2, 4], &[FORMAT, allocate(n, 0)]);
        calls(desk, &[allocate(64, 1), allocate(256, 2)]);
    }
    on_new_heap(desk, [512, 2, 4], &[FORMAT, allocate(300, 0), root(0, 0)]);
}

/// "11, the list doesn't match the maps": one number is another by one, for every call; and what format makes of it.
fn untrue_by_one(desk: &mut Desk) {
    for (blocks, n, places) in [(8, 2, 1), (512, 300, 2), (8, 8, 1)] {
        for k in 0..places {
            for by in [1, MAX_NUMBER as usize, 1 << 16] {
                on_new_heap(desk, [blocks, 2, 4], &[FORMAT, allocate(n, 0)]);
                let due = desk.bench.memory.sections[k] as usize;
                load(desk, k, due + by);
                // Rubbish in the waiting list, which the refusals keep.
                desk.load(5, 1, 7);
                calls(desk, &EVERY_CALL);
                load(desk, k, due);
                calls(desk, &[Call::Check]);
                load(desk, k, due + by);
            }
        }
    }
    calls(desk, &[FORMAT, Call::Check]);
    // The figures of two sections exchanged; and those of format, with the A-map of a used heap.
    let used = [FORMAT, allocate(300, 0)];
    for wrong in [[128, 0], [256, 256], [0, 0]] {
        on_new_heap(desk, [512, 2, 4], &used);
        load(desk, 0, wrong[0]);
        load(desk, 1, wrong[1]);
        calls(desk, &[Call::Check, allocate(256, 1), allocate(64, 1)]);
    }
    // Blocks 1 to 6 are free: the longest stretch, 6, and 4, which fits it, in the place of the largest chunk, 2.
    for figure in [6, 4, 2] {
        blocks_let_go(desk, 126);
        load(desk, 0, figure);
        calls(desk, &[Call::Check, allocate(3, 1), allocate(2, 1)]);
    }
}

/// "next after 2": a damaged heap whose list isn't true either, or is true of the damaged maps.
fn damage_first(desk: &mut Desk) {
    // Kinds 1, 2 and 3 as in P11, with the list as format left it, with that of these maps, and with another.
    for (a, b) in [(0, 254), (1, 255), (6, 251)] {
        on_new_heap(desk, [8, 2, 4], &[FORMAT]);
        desk.load(0, 0, a);
        desk.load(1, 0, b);
        calls(desk, &[Call::Check, allocate(1, 0)]);
        let due = figures(8, &desk.bench.memory)[0] as usize;
        for figure in [due, due + 1] {
            load(desk, 0, figure);
            calls(desk, &[Call::Check, Call::Collect, look(9)]);
        }
    }
    // Kinds 4 and 5: a cell of a free block, a count that is too large. Mended, 11 is left; then that is mended.
    for (buffer, index, wrong) in [(3, 31, 1), (2, 1, 1)] {
        on_new_heap(desk, [8, 3, 4], &[FORMAT, allocate(2, 0)]);
        let (before, due) = (
            desk.bench.number_at(buffer, index),
            desk.bench.number_at(SECTIONS, 0),
        );
        desk.load(buffer, index, wrong);
        desk.load(SECTIONS, 0, due + 1);
        calls(desk, &EVERY_CALL);
        desk.load(buffer, index, before);
        calls(desk, &EVERY_CALL);
        desk.load(SECTIONS, 0, due);
        calls(desk, &EVERY_CALL);
    }
    // An A-map that is no damage with other maps to it: a block at 4 with a count and a root, and the list as it was.
    on_new_heap(desk, [8, 2, 4], &[FORMAT]);
    for (buffer, index, value) in [(0, 0, 16), (1, 0, 239), (2, 0, 16), (4, 0, 5)] {
        desk.load(buffer, index, value);
    }
    calls(desk, &[Call::Check, look(4), root(0, 0)]);
    load(desk, 0, 4);
    calls(desk, &[Call::Check, look(4), root(0, 0)]);
}

/// Before the numbers that a call has for itself.
fn before_own_refusals(desk: &mut Desk) {
    let refused = [
        allocate(0, 0),
        allocate(9, 4),
        allocate(1, 4),
        allocate(8, 1),
        root(4, 0),
        root(0, 2),
        cell(1, 0, 0),
        cell(0, 8, 0),
        cell(0, 0, 9),
        look(1),
        look(8),
        chosen(16),
    ];
    on_new_heap(desk, [8, 2, 4], &[FORMAT, allocate(2, 0)]);
    load(desk, 0, 5);
    calls(desk, &refused);
    load(desk, 0, 4);
    calls(desk, &refused);
}

/// "Lengths .. that later requests fix fall under 1 too, in every call that takes them", format too; before 2 and 11.
fn wrong_lengths(desk: &mut Desk) {
    for (blocks, lengths) in [(8, [0, 2]), (256, [0, 2]), (512, [1, 3]), (1024, [3, 32])] {
        for length in lengths {
            on_new_heap(desk, [blocks, 2, 4], &[FORMAT, allocate(2, 0)]);
            let right = desk.bench.length(SECTIONS);
            desk.length(SECTIONS, length);
            calls(desk, &EVERY_CALL);
            calls(desk, &[FORMAT]);
            // Untrue and damaged besides.
            desk.load(0, 0, 255);
            if length > 0 {
                load(desk, 0, 9);
            }
            calls(desk, &[Call::Check, FORMAT]);
            desk.length(SECTIONS, right);
            calls(desk, &[Call::Check, FORMAT, Call::Check]);
        }
    }
}

/// The list after each call that may free something.
fn letting_go(desk: &mut Desk) {
    let small = [8, 2, 4];
    let held = [FORMAT, allocate(1, 0), allocate(4, 1), cell(0, 0, 5)];
    let cycle = [cell(4, 0, 1), root(0, 0), root(1, 0)];
    for (shape, end) in [
        // A root; then a return.
        (small, &[root(1, 0), root(0, 0)][..]),
        (small, &[chosen(3)]),
        (small, &[chosen(1)]),
        // A cell, and one whose owner goes with what it named.
        (small, &[root(1, 0), cell(0, 0, 0)]),
        (
            small,
            &[cell(4, 0, 1), root(0, 0), root(1, 0), cell(4, 0, 0)],
        ),
        // A collection of a cycle, one of stuck objects, and one that frees nothing.
        (small, &[cycle[0], cycle[1], cycle[2], Call::Collect]),
        ([8, 1, 4], &[chosen(3), Call::FreeBlocks, Call::Collect]),
        (small, &[Call::Collect]),
        // An allocation that frees what stood in its root, and with it what that named; one after another.
        (small, &[root(1, 0), allocate(1, 0)]),
        (small, &[allocate(1, 0), allocate(1, 1)]),
        // What is stored is there already, and what is refused.
        (small, &[cell(0, 0, 5), root(1, 5), root(2, 0)]),
        (small, &[allocate(4, 0), root(4, 0), cell(0, 0, 9)]),
    ] {
        on_new_heap(desk, shape, &[&held[..], end].concat());
    }
    // The same over two sections and more.
    for (blocks, end) in [
        (512, &[allocate(256, 0), allocate(256, 0)][..]),
        (1024, &[allocate(300, 0), allocate(300, 0)]),
        (1024, &[allocate(300, 0), allocate(300, 1), chosen(3)]),
        (1024, &[allocate(300, 0), cell(0, 1199, 1), root(0, 0)]),
    ] {
        on_new_heap(desk, [blocks, 2, 4], &[&[FORMAT], end].concat());
    }
    calls(desk, &[Call::Collect, Call::Check]);
}

/// 65,536 blocks have 256 sections.
fn largest_heap(desk: &mut Desk) {
    let (all, half) = (MAX_BLOCKS, MAX_BLOCKS / 2);
    on_new_heap(
        desk,
        [all as u64, 2, 4],
        &[FORMAT, allocate(all, 0), look(0)],
    );
    // Block 0 anew, then the upper half; the second section, and what is left of the first.
    calls(desk, &[root(0, 0), allocate(1, 0), allocate(half + 1, 1)]);
    calls(desk, &[allocate(half, 1), allocate(200, 2)]);
    calls(desk, &[allocate(128, 3), allocate(300, 3), Call::Check]);
    let end = desk.bench.length(SECTIONS) - 1;
    let last = desk.bench.memory.sections[end] as usize;
    load(desk, end, last + 1);
    calls(desk, &[Call::Check, root(1, 0)]);
    load(desk, end, last);
    calls(
        desk,
        &[root(1, 0), allocate(half, 1), allocate(half / 2, 2)],
    );
    calls(desk, &[Call::Collect, Call::FreeBlocks]);
    desk.lend_little();
}

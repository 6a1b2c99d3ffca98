//! The one large file of lists that the program `calls` is tested with: the paper cases, all families on
//! many small heaps, a few large heaps, and every complaint that a file can meet.

use crate::lists::copy_vectors::{copies, large_copy};
use crate::lists::families::{some_shape, FAMILIES};
use crate::lists::file::{
    COPY, LENGTH, LOAD, MOST_BLOCKS, MOST_LENGTHS, MOST_REASON, MOST_ROOTS, MOST_SHAPE, MOST_WIDTH,
    NEW, REASON, SHAPE,
};
use crate::lists::generate::Desk;
use crate::lists::large_vectors::large;
use crate::lists::number_vectors::numbers;
use crate::lists::output_vectors::outputs;
use crate::lists::paper::{self, Step};
use crate::lists::random::Random;
use crate::lists::request_vectors::{moments, present_values, returns};
use crate::lists::section_vectors::sections;
use crate::lists::step_vectors::steps;
use crate::rules::calls::short::{allocate, cell, root};
use crate::rules::calls::Call;
use crate::rules::heap::MAX_NUMBER;

/// The paper cases as a list, each part of a case on a new heap.
pub fn paper_cases(desk: &mut Desk) {
    for case in paper::cases() {
        for part in case.parts() {
            desk.new_heap([paper::BLOCKS as u64, case.width as u64, paper::ROOTS as u64]);
            for step in part.again.into_iter().chain(part.steps) {
                match step {
                    Step::Gives(call, ..) => {
                        desk.call(call);
                    }
                    Step::Given(a, b) => {
                        desk.load(0, 0, a as u64);
                        desk.load(1, 0, b as u64);
                    }
                    Step::Maps(..) | Step::Free(_) => {}
                }
            }
        }
    }
}

/// The paper cases as a file of their own.
pub fn paper_file() -> Vec<u8> {
    let mut desk = Desk::new(Random::new(0), [8, 2, 4]);
    paper_cases(&mut desk);
    desk.file()
}

/// The large file. Its last entry is cut off.
pub fn vectors(seed: u64) -> Vec<u8> {
    let mut desk = Desk::new(Random::new(seed), [8, 2, 4]);
    // Before the format: nothing is formatted by itself.
    for call in [Call::Check, Call::FreeBlocks, Call::Look { a: 0 }] {
        desk.call(call);
    }
    paper_cases(&mut desk);
    complaints(&mut desk);
    shapes(&mut desk);
    whole_words(&mut desk);
    waiting_list(&mut desk);
    present_values(&mut desk);
    returns(&mut desk);
    moments(&mut desk);
    sections(&mut desk);
    numbers(&mut desk);
    steps(&mut desk);
    with_outputs(&mut desk);
    with_copies(&mut desk);
    for round in 0..16 {
        for (_, write) in FAMILIES {
            let shape = some_shape(round, &mut desk.random);
            desk.new_heap(shape);
            write(&mut desk, 80);
        }
    }
    large_heaps(&mut desk);
    large(&mut desk);
    large_copy(&mut desk);
    let mut file = desk.file();
    file.extend(Call::FreeBlocks.words()[0].to_le_bytes());
    file.extend([0; 5]);
    file
}

/// The lists of reasons and shapes, and what is wrong with their entries.
fn with_outputs(desk: &mut Desk) {
    let own = outputs();
    desk.new_heap(own.header);
    for words in own.entries {
        desk.words(words);
    }
    let m = u64::MAX;
    for more in [MOST_REASON + 1, 1 << 32, m] {
        desk.words([REASON, 0, more, 0]);
    }
    for more in [MOST_SHAPE + 1, 1 << 32, m] {
        desk.words([SHAPE, more, 0, 0]);
    }
    // Words that they don't use aren't looked at.
    desk.words([REASON, 0, 60, m]);
    desk.words([SHAPE, 9, m, m]);
}

/// The lists of copies, and what is wrong with their entries.
fn with_copies(desk: &mut Desk) {
    let own = copies();
    desk.new_heap(own.header);
    for words in own.entries {
        desk.words(words);
    }
    let m = u64::MAX;
    for second in [
        [MOST_BLOCKS + 1, 2, 4],
        [8, MOST_WIDTH + 1, 4],
        [8, 2, MOST_ROOTS + 1],
        [m, m, m],
    ] {
        desk.words([COPY, second[0], second[1], second[2]]);
    }
}

/// Every line that says what is wrong with an entry, but for the last one's "cut off".
fn complaints(desk: &mut Desk) {
    let m = u64::MAX;
    desk.new_heap([8, 2, 4]);
    desk.call(Call::Format);
    desk.call(Call::Allocate { n: 2, r: 0 });
    for unknown in [14, 15, 243, 252, 256, 268, 269, 1 << 32, (1 << 32) + 8, m] {
        desk.words([unknown, 1, 2, 3]);
    }
    // A number write whose number no cell can hold is no call, wherever it would go.
    let wide = u64::from(MAX_NUMBER) + 1;
    for [a, j, v] in [[0, 0, wide], [0, 0, wide + 1], [m, m, 1 << 48], [1, 8, m]] {
        desk.words([10, a, j, v]);
    }
    for load in [[0, 1, 0], [0, 0, 256], [3, 32, 0], [3, 0, wide]] {
        desk.words([LOAD, load[0], load[1], load[2]]);
    }
    for load in [
        [4, 4, 0],
        [5, 8, 1],
        [6, 1, 0],
        [6, 0, wide],
        [7, 1, 0],
        [7, 0, 256],
        [8, 1, 0],
        [8, 0, 256],
        [9, 9, 0],
        [9, 0, wide],
        [10, 0, 0],
        [m, 0, 0],
        [0, m, 0],
        [4, 0, m],
    ] {
        desk.words([LOAD, load[0], load[1], load[2]]);
    }
    for (buffer, most) in (0..).zip(MOST_LENGTHS) {
        desk.words([LENGTH, buffer, most + 1, 0]);
    }
    for [buffer, length] in [[10, 0], [m, 1], [0, m]] {
        desk.words([LENGTH, buffer, length, 0]);
    }
    for shape in [
        [MOST_BLOCKS + 1, 2, 4],
        [2 * MOST_BLOCKS, 2, 4],
        [8, MOST_WIDTH + 1, 4],
        [8, 2, MOST_ROOTS + 1],
        [m, 2, 4],
    ] {
        desk.words([NEW, shape[0], shape[1], shape[2]]);
    }
    for shape in [[8, m, 4], [8, 2, m]] {
        desk.words([NEW, shape[0], shape[1], shape[2]]);
    }
    // Words that a call doesn't use aren't looked at.
    desk.words([1, m, m, m]);
    desk.words([2, 1, 1, m]);
    desk.words([6, 0, m, m]);
    desk.words([8, 0, m, m]);
    desk.words([9, 1, 2, m]);
    desk.words([11, 3, 0, m]);
    desk.words([12, m, m, m]);
    desk.words([13, 0, m, m]);
    desk.words([13, m, m, m]);
    desk.words([3, 2, 0, m]);
    // A buffer made shorter and longer again keeps what lay beyond.
    desk.words([LOAD, 4, 3, 3]);
    desk.words([LOAD, 4, 1, 0]);
    desk.call(Call::Check);
    for length in [1, 4, 65, 3, 0, 4] {
        desk.words([LENGTH, 4, length, 0]);
        desk.call(Call::Check);
        desk.call(Call::StoreRoot { r: 3, v: 0 });
    }
    for length in [32, 2, 0, 1] {
        desk.words([LENGTH, 6, length, 0]);
        desk.words([LOAD, 6, 1, 7]);
        desk.call(Call::Check);
    }
}

/// Each size up to 256 blocks and each width, formatted and used once; and the bad ones beside them.
fn shapes(desk: &mut Desk) {
    for blocks in [8, 16, 32, 64, 128, 256] {
        for width in 1..=4 {
            desk.new_heap([blocks, width, 1 + (blocks + width) % 64]);
            desk.call(Call::Format);
            let n = blocks as usize / 2 + 1;
            desk.call(Call::Allocate { n, r: 0 });
            desk.call(Call::Allocate { n: 2, r: 1 });
            desk.call(Call::StoreCell {
                a: 0,
                j: 4 * n - 1,
                v: 1,
            });
            desk.call(Call::StoreRoot { r: 0, v: 0 });
            desk.call(Call::Look { a: 0 });
            desk.call(Call::Collect);
            desk.call(Call::FreeBlocks);
        }
    }
    for bad in [
        [4, 2, 4],
        [12, 2, 4],
        [8, 0, 4],
        [8, 5, 4],
        [8, 2, 0],
        [8, 2, 65],
    ] {
        desk.new_heap(bad);
        desk.call(Call::Format);
        desk.call(Call::Check);
    }
    // Not a power of two, with buffers that fit all the same.
    for blocks in [4, 12, 20, 24, 40, 48, 96, 1000] {
        desk.new_heap([blocks, 2, 4]);
        desk.length(2, 2 * (blocks as usize / 8));
        for call in desk.one_of_each() {
            desk.call(call);
        }
    }
    // The blocks of one heap with the buffers of another.
    desk.new_heap([12, 2, 4]);
    for (buffer, length) in [
        (0, 2),
        (1, 2),
        (2, 4),
        (3, 64),
        (5, 16),
        (7, 2),
        (8, 2),
        (9, 17),
    ] {
        desk.length(buffer, length);
    }
    desk.call(Call::Format);
}

/// Values up to the largest word: "8 if v is neither 0 nor 1 + a first block", and the numbers that come before 8. Cut
/// down to 32 bits, or to 16, four of these would be 0 or name the object at 0.
fn whole_words(desk: &mut Desk) {
    let most = MAX_NUMBER as usize;
    let values = [65_535, 65_536, 65_537, most, most + 1, most + 2, usize::MAX];
    let stores = |v| [root(0, v), root(3, v), cell(0, 0, v), cell(0, 7, v)];
    // Before 8: a root, a block or a cell out of range.
    let refused_before = |v| {
        let m = usize::MAX;
        [
            root(4, v),
            root(m, v),
            cell(1, 0, v),
            cell(m, 0, v),
            cell(0, 8, v),
            cell(0, m, v),
        ]
    };
    desk.new_heap([8, 2, 4]);
    // Not formatted: 2 before all of them.
    for v in values {
        desk.call(root(0, v));
        desk.call(cell(0, 0, v));
    }
    desk.call(Call::Format);
    desk.call(allocate(2, 0));
    for v in values {
        for call in [&stores(v)[..], &refused_before(v)].concat() {
            desk.call(call);
        }
    }
    desk.call(Call::Check);
    // A buffer too short: 1.
    desk.length(5, 7);
    for v in values {
        desk.call(root(4, v));
        desk.call(cell(8, 0, v));
    }
}

/// Rubbish in the waiting list before one call, accepted or refused; the new heap after it prints the list.
fn waiting_list(desk: &mut Desk) {
    let calls = [
        Call::Format,
        Call::Check,
        Call::Allocate { n: 1, r: 2 },
        Call::Allocate { n: 1, r: 0 },
        Call::Allocate { n: 8, r: 2 },
        Call::StoreRoot { r: 1, v: 0 },
        Call::StoreRoot { r: 0, v: 0 },
        Call::StoreRoot { r: 0, v: 1 },
        Call::StoreRoot { r: 0, v: 9 },
        Call::StoreCell { a: 0, j: 0, v: 0 },
        Call::StoreCell { a: 0, j: 7, v: 0 },
        Call::StoreCell { a: 0, j: 1, v: 3 },
        Call::StoreCell { a: 0, j: 8, v: 0 },
        Call::Collect,
        Call::Look { a: 0 },
        Call::Look { a: 1 },
        Call::FreeBlocks,
        Call::ReturnRoots { chosen: 0 },
        Call::ReturnRoots { chosen: 3 },
        Call::ReturnRoots { chosen: 16 },
    ];
    for width in [1, 2] {
        for call in calls {
            desk.new_heap([8, width, 4]);
            desk.call(Call::Format);
            desk.call(Call::Allocate { n: 2, r: 0 });
            desk.call(Call::Allocate { n: 1, r: 1 });
            desk.call(Call::StoreCell { a: 0, j: 7, v: 3 });
            desk.call(Call::StoreRoot { r: 1, v: 0 });
            for i in 0..8 {
                desk.load_rubbish(i);
            }
            desk.call(call);
        }
    }
}

/// A chain of 1,024 blocks given by loads and let go by one store; and heaps of 8,192 blocks.
fn large_heaps(desk: &mut Desk) {
    let blocks = 1024;
    desk.new_heap([blocks as u64, 2, 2]);
    desk.call(Call::Format);
    for byte in 0..blocks / 8 {
        desk.load(0, byte, 255);
        desk.load(1, byte, 0);
        desk.load(2, byte, 255);
    }
    for block in 1..blocks {
        // Block by block, each names the one before it: 0 is named by 1, and so on.
        desk.load(3, 4 * block + block % 4, block as u64);
    }
    desk.load(4, 1, blocks as u64);
    // The list is still that of the format.
    desk.call(Call::Check);
    for k in 0..blocks / 256 {
        desk.load(6, k, 0);
    }
    desk.call(Call::Check);
    desk.call(Call::Allocate { n: 1, r: 0 });
    desk.call(Call::StoreRoot { r: 1, v: 0 });
    desk.call(Call::FreeBlocks);

    desk.new_heap([512, 3, 3]);
    crate::lists::families::deep_chains(desk, 700);

    for (width, roots) in [(4, 64), (1, 5)] {
        desk.new_heap([8192, width, roots]);
        desk.call(Call::Format);
        desk.call(Call::Allocate { n: 8192, r: 0 });
        desk.call(Call::StoreCell {
            a: 0,
            j: 32_767,
            v: 1,
        });
        desk.call(Call::StoreCell {
            a: 0,
            j: 32_768,
            v: 1,
        });
        desk.call(Call::Look { a: 0 });
        desk.call(Call::StoreRoot { r: 0, v: 0 });
        desk.call(Call::StoreCell {
            a: 0,
            j: 32_767,
            v: 0,
        });
        desk.call(Call::Collect);
        for n in [8193, 4097, 4096, 2049, 1, 1000, 1] {
            desk.call(Call::Allocate { n, r: 1 });
            desk.call(Call::StoreRoot { r: 2, v: 4097 });
        }
        crate::lists::families::random(desk, 120);
        crate::lists::wrong_families::damage(desk, 60);
    }
}

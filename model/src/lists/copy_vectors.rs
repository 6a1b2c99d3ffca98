//! The lists that belong to the copy into a second heap (U14): fragmented heaps, other sizes and widths, data, garbage, objects that find
//! no chunk at their turn, and each refusal before the ones behind it.

use crate::lists::generate::Desk;
use crate::lists::output_vectors::heaps;
use crate::lists::random::Random;
use crate::lists::request_vectors::on_new_heap;
use crate::rules::calls::short::{allocate, cell, chosen, data, root, step, write_number, OPEN};
use crate::rules::calls::Call;
use crate::rules::heap::{MAX_BLOCKS, MAX_NUMBER};

const FORMAT: Call = Call::Format;
const SMALL: [u64; 3] = [8, 2, 4];

/// The lists as one, beginning with a heap that isn't formatted.
pub fn copies() -> Desk {
    let mut desk = Desk::new(Random::new(14), SMALL);
    desk.copy([8, 2, 4]);
    for (shape, calls) in heaps() {
        on_new_heap(&mut desk, shape, &[&[FORMAT], &calls[..]].concat());
        let [blocks, width, roots] = shape;
        desk.copy([blocks, 5 - width, roots]);
        desk.copy([2 * blocks, 1, roots]);
    }
    by_hand(&mut desk);
    refusals(&mut desk);
    waiting_list(&mut desk);
    any_heaps(&mut desk);
    desk
}

/// Cases that tell the order and the place of the copies, and what becomes of counts and numbers.
fn by_hand(desk: &mut Desk) {
    // Fragmented: blocks 1 and 3 to 6 are free, and no chunk of four. In the copy four find room.
    let fragmented = [
        FORMAT,
        allocate(1, 0),
        allocate(1, 1),
        allocate(1, 2),
        allocate(4, 3),
        allocate(1, 1),
        root(3, 0),
        allocate(4, 3),
    ];
    on_new_heap(desk, SMALL, &fragmented);
    for width in 1..=4 {
        desk.copy([8, width, 4]);
    }
    // In U13's order and not by blocks: the object of two blocks at 2 is met first, then that of one at 0, behind it one at 1.
    let order = [
        FORMAT,
        allocate(1, 1),
        allocate(1, 3),
        allocate(2, 0),
        cell(0, 3, 2),
        root(3, 0),
    ];
    on_new_heap(desk, SMALL, &order);
    desk.copy([8, 3, 4]);
    desk.copy([16, 1, 4]);
    // Counts of every number of references at every width: stuck ones are counted anew.
    for width in 1..=4 {
        let mut calls = vec![FORMAT, allocate(4, 0), allocate(1, 1)];
        calls.extend((0..16).map(|j| cell(0, j, 5)));
        calls.extend((0..12).map(|j| cell(0, j, 0)));
        on_new_heap(desk, [8, width, 4], &calls);
        for other in 1..=4 {
            desk.copy([8, other, 4]);
        }
    }
    // Numbers of data that look like references stay; a cycle and a reference to itself move.
    let numbers = [
        FORMAT,
        allocate(1, 3),
        data(1, 0),
        allocate(1, 1),
        write_number(1, 0, 3),
        write_number(1, 3, MAX_NUMBER),
        cell(2, 1, 3),
        cell(2, 0, 2),
        root(3, 0),
    ];
    on_new_heap(desk, SMALL, &numbers);
    desk.copy([8, 2, 4]);
    desk.copy([32, 4, 4]);
    // 17 at the last turn: chunks of four blocks for three, so the last of the three objects finds none in 8 blocks; and an object that
    // is larger than the second heap.
    let three = [
        FORMAT,
        allocate(3, 0),
        allocate(3, 1),
        allocate(3, 2),
        allocate(1, 3),
    ];
    on_new_heap(desk, [16, 2, 4], &three);
    desk.copy([8, 2, 4]);
    desk.copy([16, 2, 4]);
    desk.call(root(2, 0));
    desk.copy([8, 2, 4]);
    on_new_heap(desk, [16, 2, 4], &[FORMAT, allocate(9, 0)]);
    desk.copy([8, 2, 4]);
}

/// "1, 2, 11, 13, 14, 17", each before the ones behind it, on a heap with an object that is too large for the second.
fn refusals(desk: &mut Desk) {
    let calls = [
        FORMAT,
        allocate(9, 0),
        allocate(1, 1),
        cell(0, 7, 17),
        chosen(2),
    ];
    let each = |desk: &mut Desk| {
        for second in [[8, 2, 4], [16, 3, 4], [16, 3, 3]] {
            desk.copy(second);
        }
    };
    for buffer in 0..10 {
        on_new_heap(desk, [32, 2, 4], &calls);
        let length = desk.bench.length(buffer);
        let wrong = match buffer {
            4 => [0, 65],
            _ => [length - 1, length + 1],
        };
        for length in wrong {
            desk.length(buffer, length);
            each(desk);
        }
    }
    on_new_heap(desk, [32, 2, 4], &calls);
    for second in [
        [4, 2, 4],
        [12, 2, 4],
        [8, 0, 4],
        [8, 5, 4],
        [8, 2, 0],
        [8, 2, 65],
        [8, 2, 5],
    ] {
        desk.copy(second);
    }
    // 14 alone; 13 before it; 11 before both; a damage kind before all of them.
    desk.call(OPEN);
    each(desk);
    desk.load(8, 1, 128);
    each(desk);
    desk.load(6, 0, 1);
    each(desk);
    desk.load(7, 0, 2);
    each(desk);
    desk.load(1, 3, 127);
    each(desk);
}

/// Rubbish in the first heap's waiting list is kept, accepted or not; the new heap after it prints the list.
fn waiting_list(desk: &mut Desk) {
    for blocks in [8, 16] {
        on_new_heap(desk, [16, 2, 4], &[FORMAT, allocate(9, 0), allocate(1, 1)]);
        for i in 0..16 {
            desk.load(5, i, u64::from(MAX_NUMBER) - i as u64);
        }
        desk.copy([blocks, 2, 4]);
    }
}

/// Random heaps, data and a collection open among them, into heaps that may be too small.
fn any_heaps(desk: &mut Desk) {
    for round in 0..60 {
        let blocks = desk.random.pick(&[8, 16, 32]);
        let roots = 1 + desk.random.below(6) as u64;
        desk.new_heap([blocks, 1 + round % 4, roots]);
        desk.call(FORMAT);
        for _ in 0..15 + desk.random.below(30) {
            let call = match desk.random.below(12) {
                0..=4 => {
                    let (n, r) = (1 + desk.random.below(4), desk.some_root());
                    desk.allocation(n, r)
                }
                5..=9 => desk.some_cell_store(10),
                10 => desk.some_number_write(),
                _ => desk.some_root_store(60),
            };
            desk.call(call);
        }
        if round % 10 == 9 {
            desk.call(OPEN);
            desk.call(step(1));
        }
        for second in [8, 16, 32] {
            desk.copy([second, 1 + (round + second / 8) % 4, roots]);
        }
    }
    // Full heaps of small objects into smaller ones: the turn at which there is no chunk is a late one.
    for round in 0..90 {
        desk.new_heap([16, 1 + round % 4, 16]);
        desk.call(FORMAT);
        for r in 0..16 {
            let n = 1 + desk.random.below(2);
            desk.call(allocate(n, r));
        }
        desk.copy([8, 1 + round % 3, 16]);
        desk.copy([16, 4, 16]);
    }
}

/// The largest heap, from one whose objects lie apart, of which little is printed behind it.
pub fn large_copy(desk: &mut Desk) {
    let most = MAX_BLOCKS as u64;
    desk.new_heap([most, 2, 2]);
    desk.call(FORMAT);
    desk.halves();
    desk.copy([8, 2, 2]);
    desk.lend_little();
}

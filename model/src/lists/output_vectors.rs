//! The lists that belong to the calls which write an output: reasons (U11) and shapes (U13). Chains, fans, cycles, data that looks
//! like references, orders that tell breadth first from depth first, and outputs of every length around the right one.

use crate::lists::generate::Desk;
use crate::lists::random::Random;
use crate::lists::request_vectors::on_new_heap;
use crate::rules::calls::short::{allocate, cell, chosen, data, root, step, write_number, OPEN};
use crate::rules::calls::Call;
use crate::rules::heap::MAX_NUMBER;
use crate::rules::outputs::{due_reason, due_shape};

const FORMAT: Call = Call::Format;
const SMALL: [u64; 3] = [8, 2, 4];

/// The lists as one, beginning with a heap that isn't formatted.
pub fn outputs() -> Desk {
    let mut desk = Desk::new(Random::new(11), SMALL);
    desk.reason(0, 40);
    desk.shape(40);
    for (shape, calls) in heaps() {
        on_new_heap(&mut desk, shape, &[&[FORMAT], &calls[..]].concat());
        ask(&mut desk, false);
    }
    every_length(&mut desk);
    refusals(&mut desk);
    waiting_list(&mut desk);
    longer_chains(&mut desk);
    any_heaps(&mut desk);
    desk
}

/// Small heaps by hand, each with what is told by it.
pub fn heaps() -> Vec<([u64; 3], Vec<Call>)> {
    let three = [allocate(1, 0), allocate(1, 1), allocate(1, 2)];
    let four = [&three[..], &[allocate(1, 3)]].concat();
    // Six objects of one block at 0 to 5; the last two are only named by root 3 for a time.
    let six = |links: &[Call]| {
        let last = [
            allocate(1, 0),
            allocate(1, 1),
            allocate(1, 2),
            allocate(1, 3),
            cell(0, 3, 4),
            allocate(1, 3),
            cell(0, 2, 5),
            allocate(1, 3),
        ];
        [&last[..], links].concat()
    };
    vec![
        // Nothing; one object; the same in two roots; roots that are empty in front.
        (SMALL, vec![]),
        ([8, 1, 1], vec![]),
        (SMALL, vec![allocate(1, 0)]),
        (SMALL, vec![allocate(3, 2), root(3, 1)]),
        ([16, 2, 64], vec![allocate(1, 63), allocate(1, 10)]),
        // The document's own sentences: `root 1 cell 2 block 4`, `no root reaches block 4`.
        (
            SMALL,
            vec![
                allocate(2, 0),
                allocate(1, 1),
                allocate(3, 2),
                cell(2, 2, 5),
                root(2, 0),
            ],
        ),
        (
            SMALL,
            vec![
                allocate(2, 0),
                allocate(1, 1),
                allocate(3, 2),
                cell(4, 11, 5),
                root(2, 0),
            ],
        ),
        // Fewest links before the lowest root: 2 in root 3 itself, and behind 0 and 1.
        (
            SMALL,
            [
                &three[..],
                &[cell(0, 0, 2), cell(1, 0, 3), root(3, 3), root(2, 0)],
            ]
            .concat(),
        ),
        // The lowest root before the lowest cell: 2 behind cell 3 of what root 0 names, and cell 0 of what root 1 does.
        (
            SMALL,
            [&three[..], &[cell(0, 3, 3), cell(1, 0, 3), root(2, 0)]].concat(),
        ),
        // The lowest root of two that name one object, met by its number and not by where it lies.
        (
            SMALL,
            [&three[..], &[root(0, 3), root(2, 2), root(3, 3)]].concat(),
        ),
        // The lowest cell at the first difference: over cell 0 and cell 3, not over cell 1 and cell 0. Then the other way around.
        (
            SMALL,
            [
                &four[..],
                &[
                    cell(0, 0, 2),
                    cell(0, 1, 3),
                    cell(1, 3, 4),
                    cell(2, 0, 4),
                    chosen(14),
                ],
            ]
            .concat(),
        ),
        (
            SMALL,
            [
                &four[..],
                &[
                    cell(0, 0, 3),
                    cell(0, 1, 2),
                    cell(1, 0, 4),
                    cell(2, 3, 4),
                    chosen(14),
                ],
            ]
            .concat(),
        ),
        // Two cells of one object name the same; a later one is never said.
        (
            SMALL,
            [
                &three[..],
                &[
                    cell(0, 1, 2),
                    cell(0, 3, 2),
                    cell(1, 2, 3),
                    cell(1, 3, 3),
                    chosen(6),
                ],
            ]
            .concat(),
        ),
        // A cell number of two digits, within its owner and not in the heap.
        (
            [16, 2, 4],
            vec![
                allocate(4, 0),
                allocate(4, 1),
                allocate(1, 2),
                cell(4, 13, 9),
                root(2, 0),
            ],
        ),
        // Breadth first is 0, 1, 2, 3; depth first would be 0, 1, 3, 2. Then with roots that are met before all cells.
        (
            SMALL,
            [
                &four[..],
                &[cell(0, 0, 2), cell(0, 1, 3), cell(1, 0, 4), chosen(14)],
            ]
            .concat(),
        ),
        (
            SMALL,
            [
                &four[..],
                &[cell(0, 0, 3), cell(0, 1, 4), cell(3, 0, 2), chosen(12)],
            ]
            .concat(),
        ),
        (
            [16, 3, 4],
            six(&[
                cell(1, 0, 5),
                cell(4, 2, 6),
                cell(5, 3, 3),
                root(2, 0),
                root(3, 0),
            ]),
        ),
        // The highest cell leads to what lies lowest.
        (
            SMALL,
            [&three[..], &[cell(2, 3, 1), cell(2, 0, 2), chosen(3)]].concat(),
        ),
        // Cycles: of one, of two, reached and not; back to the object in the root.
        (SMALL, vec![allocate(1, 0), cell(0, 0, 1)]),
        (SMALL, vec![allocate(1, 0), cell(0, 0, 1), root(0, 0)]),
        (
            SMALL,
            [
                &three[..],
                &[cell(0, 0, 2), cell(1, 0, 3), cell(2, 0, 1), chosen(6)],
            ]
            .concat(),
        ),
        (
            SMALL,
            [
                &three[..],
                &[cell(0, 0, 2), cell(1, 0, 1), cell(1, 1, 3), chosen(7)],
            ]
            .concat(),
        ),
        // Garbage that names what is reached: no chain goes that way, and it has no number.
        (
            SMALL,
            [
                &three[..],
                &[cell(0, 0, 1), cell(0, 1, 3), cell(1, 3, 3), chosen(5)],
            ]
            .concat(),
        ),
        // Data that looks like a reference: what it names isn't reached by it, or over more links.
        (
            SMALL,
            vec![
                data(1, 0),
                allocate(1, 1),
                cell(1, 0, 2),
                write_number(0, 0, 2),
                root(1, 0),
            ],
        ),
        (
            SMALL,
            vec![
                data(2, 0),
                allocate(1, 1),
                allocate(1, 2),
                cell(2, 3, 4),
                write_number(0, 0, 4),
                write_number(0, 7, MAX_NUMBER),
                root(2, 0),
            ],
        ),
        // Data that is named by a cell, and data in two roots with equal numbers.
        (
            SMALL,
            vec![
                allocate(1, 0),
                data(1, 1),
                write_number(1, 3, 1),
                cell(0, 2, 2),
                root(1, 0),
            ],
        ),
        (
            SMALL,
            vec![
                data(1, 0),
                data(1, 2),
                write_number(0, 1, 7),
                write_number(1, 1, 7),
            ],
        ),
        // The first of these again, as an ordinary object; and one block more.
        (SMALL, vec![allocate(1, 0), allocate(1, 2)]),
        (SMALL, vec![allocate(2, 0), allocate(1, 2)]),
        (SMALL, vec![data(2, 0), allocate(1, 2)]),
        // The same shape elsewhere, on another heap, with other counts and garbage.
        (SMALL, [&three[..], &[cell(0, 0, 2), root(1, 0)]].concat()),
        (
            [32, 4, 4],
            vec![
                allocate(8, 3),
                cell(0, 31, 1),
                allocate(1, 2),
                allocate(1, 1),
                allocate(1, 0),
                cell(10, 0, 10),
                chosen(10),
            ],
        ),
        // A fan: a large object names many of one block, the last of them by its first cell.
        ([16, 2, 2], fan()),
        // With a collection open: the same; with a step taken.
        (
            SMALL,
            [&three[..], &[cell(0, 0, 2), cell(1, 1, 3), chosen(6), OPEN]].concat(),
        ),
        (
            SMALL,
            [
                &three[..],
                &[cell(0, 0, 2), cell(1, 1, 3), chosen(6), OPEN, step(1)],
            ]
            .concat(),
        ),
        // The chain with as many links as it can have.
        ([8, 2, 1], chain(8)),
    ]
}

/// Single blocks 0, 1, .. so many, each named by the next in the cell of its number mod 3, and the one root names the last. A
/// birth takes the root: an object keeps itself in cell 3 until the next one names it.
pub fn chain(length: usize) -> Vec<Call> {
    let mut list = vec![allocate(1, 0), cell(0, 3, 1)];
    for new in 1..length {
        let before = new - 1;
        list.extend([allocate(1, 0), cell(new, new % 3, new), cell(before, 3, 0)]);
        list.push(cell(new, 3, 1 + new));
    }
    list
}

/// An object of two blocks at 0 in root 0, whose cells name those of one block, downwards.
fn fan() -> Vec<Call> {
    let mut list = vec![allocate(2, 0)];
    for k in 0..8 {
        list.extend([allocate(1, 1), cell(0, 7 - k, 3 + k)]);
    }
    list.push(root(1, 0));
    list
}

/// The length of a sentence, and of the shape; 20 where the heap is refused.
pub fn right_length(desk: &Desk, block: Option<usize>) -> usize {
    let bench = &desk.bench;
    let (blocks, width, memory) = (bench.blocks, bench.width, &bench.memory);
    let right = match block {
        Some(a) => due_reason(blocks, width, memory, a).map(|text| text.len()),
        None => due_shape(blocks, width, memory).map(|list| list.len()),
    };
    right.unwrap_or(20)
}

/// The shape, and the reason of every object and of some blocks where none starts: with none of the output, with one too few, as
/// many, and two more; or with every length from 0 to two more.
fn ask(desk: &mut Desk, every: bool) {
    let mut blocks: Vec<Option<usize>> = desk.objects().into_iter().map(Some).collect();
    blocks.extend([
        None,
        Some(desk.blocks() - 1),
        Some(desk.blocks()),
        Some(usize::MAX),
    ]);
    for block in blocks {
        let right = right_length(desk, block);
        let lengths = match every {
            true => (0..=right + 2).collect(),
            false => vec![0, right - 1, right, right + 2],
        };
        for length in lengths {
            match block {
                Some(a) => desk.reason(a, length),
                None => desk.shape(length),
            };
        }
    }
}

/// Outputs of every length, for a chain of two links, data, and garbage.
fn every_length(desk: &mut Desk) {
    let calls = [
        FORMAT,
        allocate(1, 0),
        allocate(1, 1),
        data(1, 2),
        allocate(1, 3),
        cell(0, 2, 2),
        cell(1, 3, 3),
        write_number(2, 1, 4),
        cell(3, 0, 4),
        chosen(14),
    ];
    on_new_heap(desk, SMALL, &calls);
    ask(desk, true);
    on_new_heap(desk, [8, 1, 1], &[FORMAT]);
    ask(desk, true);
}

/// Each refusal before the ones behind it: "1, 2, 11, 13, 6, 15" and "1, 2, 11, 13, 16".
fn refusals(desk: &mut Desk) {
    // A block that is damaged, has no object, and no output.
    let both = |desk: &mut Desk| {
        for a in [0, 1, 7, 8, usize::MAX] {
            for length in [0, 60] {
                desk.reason(a, length);
            }
        }
        for length in [0, 60] {
            desk.shape(length);
        }
    };
    let calls = [FORMAT, allocate(2, 0), allocate(1, 1), cell(0, 7, 3)];
    for buffer in 0..10 {
        on_new_heap(desk, SMALL, &calls);
        let length = desk.bench.length(buffer);
        // As many roots as are lent: none of them, or too many.
        for length in if buffer == 4 {
            [0, 65]
        } else {
            [length - 1, length + 1]
        } {
            desk.length(buffer, length);
            both(desk);
        }
    }
    // 13 alone; 11 before it; a damage kind before both.
    on_new_heap(desk, SMALL, &calls);
    desk.load(8, 0, 1);
    both(desk);
    desk.load(6, 0, 1);
    both(desk);
    for (buffer, value) in [(1, 254), (7, 2), (3, 9)] {
        let before = desk.bench.number_at(buffer, 0);
        desk.load(buffer, 0, value);
        both(desk);
        desk.load(buffer, 0, before);
    }
    desk.load(8, 0, 0);
    both(desk);
    desk.load(6, 0, 4);
    both(desk);
}

/// Rubbish in the waiting list is kept, accepted or not; the new heap after it prints the list.
fn waiting_list(desk: &mut Desk) {
    for k in 0..5 {
        on_new_heap(desk, SMALL, &[FORMAT, allocate(2, 0), allocate(1, 1)]);
        for i in 0..8 {
            desk.load(5, i, u64::from(MAX_NUMBER) - i as u64);
        }
        match k {
            0 => desk.reason(2, 40),
            1 => desk.reason(2, 4),
            2 => desk.reason(1, 40),
            3 => desk.shape(40),
            _ => desk.shape(16),
        };
    }
}

/// Chains that are given by loads: every block names the one before it, and the last is in root 1. Cells of one to four digits.
fn longer_chains(desk: &mut Desk) {
    for blocks in [64, 256, 1024] {
        desk.new_heap([blocks as u64, 2, 2]);
        desk.call(FORMAT);
        for byte in 0..blocks / 8 {
            desk.load(0, byte, 255);
            desk.load(1, byte, 0);
            desk.load(2, byte, 255);
            desk.load(2, blocks / 8 + byte, 255);
        }
        for block in 1..blocks {
            desk.load(3, 4 * block + block % 4, block as u64);
        }
        desk.load(4, 1, blocks as u64);
        for k in 0..desk.bench.length(6) {
            desk.load(6, k, 0);
        }
        for a in [0, 1, blocks / 2, blocks - 1] {
            let right = right_length(desk, Some(a));
            for length in [right - 1, right] {
                desk.reason(a, length);
            }
        }
        let right = right_length(desk, None);
        desk.shape(right - 1);
        desk.shape(right);
    }
    // One object of all blocks but some, whose last cell names another: a cell of four digits.
    desk.new_heap([1024, 3, 64]);
    for call in [
        FORMAT,
        allocate(512, 63),
        allocate(1, 5),
        cell(0, 2047, 513),
        root(5, 0),
    ] {
        desk.call(call);
    }
    desk.reason(512, 40);
    desk.reason(0, 40);
    desk.shape(4000);
}

/// Random heaps, data and a collection open among them.
fn any_heaps(desk: &mut Desk) {
    for round in 0..40 {
        let blocks = desk.random.pick(&[8, 8, 16, 32]);
        let roots = 1 + desk.random.below(6) as u64;
        desk.new_heap([blocks, 1 + round % 4, roots]);
        desk.call(FORMAT);
        for _ in 0..15 + desk.random.below(30) {
            let call = match desk.random.below(12) {
                0..=3 => {
                    let (n, r) = (1 + desk.random.below(2), desk.some_root());
                    desk.allocation(n, r)
                }
                4..=9 => desk.some_cell_store(10),
                10 => desk.some_number_write(),
                _ => desk.some_root_store(60),
            };
            desk.call(call);
        }
        if round % 3 == 0 {
            desk.call(OPEN);
            desk.call(step(1));
        }
        ask(desk, false);
    }
}

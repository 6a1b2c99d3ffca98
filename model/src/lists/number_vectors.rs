//! The lists of the large file that belong to request U6: arrays of numbers. The D-map and the cells are printed with the
//! other buffers where a heap ends, so each case has a new heap.

use crate::lists::generate::Desk;
use crate::lists::request_vectors::on_new_heap;
use crate::rules::calls::short::{
    allocate, cell, chosen, data, look, read_number, root, write_number,
};
use crate::rules::calls::Call;
use crate::rules::heap::{Ref, MAX_BLOCKS, MAX_NUMBER};

const FORMAT: Call = Call::Format;
const CHECK: Call = Call::Check;
const COLLECT: Call = Call::Collect;

/// The numbers of some buffers.
const CELLS: u64 = 3;
const WAITING: u64 = 5;
const SECTIONS: u64 = 6;
const DATA: u64 = 7;

const SMALL: [u64; 3] = [8, 2, 4];

pub fn numbers(desk: &mut Desk) {
    formats(desk);
    making(desk);
    writing_and_reading(desk);
    references_in_data(desk);
    kept_alive(desk);
    never_counted(desk);
    never_followed(desk);
    freed(desk);
    every_byte(desk);
    read_as_references(desk);
    kind_7(desk);
    before_own_refusals(desk);
    wrong_lengths(desk);
    waiting_list(desk);
    largest(desk);
}

/// Every call but format, with arguments that fit a heap with an ordinary object at 0 and data at 2.
const EVERY_CALL: [Call; 11] = [
    Call::Check,
    Call::Allocate { n: 1, r: 3 },
    Call::StoreRoot { r: 2, v: 1 },
    Call::StoreCell { a: 0, j: 0, v: 1 },
    Call::Collect,
    Call::Look { a: 2 },
    Call::FreeBlocks,
    Call::ReturnRoots { chosen: 8 },
    Call::AllocateData { n: 1, r: 3 },
    Call::WriteNumber { a: 2, j: 0, v: 7 },
    Call::ReadNumber { a: 2, j: 0 },
];

fn calls(desk: &mut Desk, calls: &[Call]) {
    for call in calls {
        desk.call(*call);
    }
}

/// An ordinary object of two blocks at 0 in root 0, and data of two blocks at 2 in root 1.
fn both_kinds(desk: &mut Desk, shape: [u64; 3]) {
    on_new_heap(desk, shape, &[FORMAT, allocate(2, 0), data(2, 1)]);
}

/// "A-map 0, B-map all ones, everything else 0": the D-map too, whatever it held.
fn formats(desk: &mut Desk) {
    for blocks in [8, 32] {
        desk.new_heap([blocks, 2, 4]);
        for k in 0..desk.bench.length(DATA) {
            desk.load(DATA, k, 255 - k as u64);
        }
        calls(desk, &[CHECK, FORMAT, CHECK, Call::FreeBlocks]);
    }
}

/// "1 on the first block of an object made as data", and otherwise as an allocation: its address, 3, 4 and 5, what its root
/// lets go, and the birth at width 1.
fn making(desk: &mut Desk) {
    // P1, P2 and P3 with data.
    let p1 = [FORMAT, data(2, 0), data(1, 1), data(3, 2), look(4)];
    on_new_heap(desk, SMALL, &p1);
    on_new_heap(desk, SMALL, &p1);
    calls(desk, &[data(2, 3), data(1, 3), look(3)]);
    let p3 = [FORMAT, data(5, 0), data(3, 1), data(2, 1)];
    on_new_heap(desk, SMALL, &p3);
    // The numbers 3, 4 and 5 in order.
    let refused = [
        data(0, 4),
        data(9, 4),
        data(usize::MAX, 0),
        data(8, 4),
        data(1, usize::MAX),
        data(5, 1),
        data(4, 1),
    ];
    on_new_heap(desk, SMALL, &[&[FORMAT, data(4, 0)], &refused[..]].concat());
    // Both kinds beside each other, and each in the place of the other.
    both_kinds(desk, SMALL);
    calls(
        desk,
        &[root(0, 0), data(2, 2), root(1, 0), allocate(2, 3), CHECK],
    );
    // Over what stands in the root; what that frees is not used by the call.
    let over = [data(4, 0), data(4, 0), allocate(4, 0), data(4, 0)];
    on_new_heap(desk, SMALL, &[&[FORMAT], &over[..]].concat());
    on_new_heap(desk, SMALL, &[FORMAT, data(8, 0), data(8, 0)]);
    // Births.
    for width in 1..=4 {
        let births = [FORMAT, data(1, 0), data(2, 0), allocate(1, 1), data(1, 1)];
        on_new_heap(desk, [8, width, 4], &births);
        calls(desk, &[look(2), data(9, 0), data(1, 4)]);
    }
}

/// "There are calls to allocate data and to write and read one of its cells", and 6, 7, 12 in this order.
fn writing_and_reading(desk: &mut Desk) {
    both_kinds(desk, SMALL);
    for (j, v) in [0, 1, 3, 9, 65_535, 65_537, 1 << 31, MAX_NUMBER]
        .into_iter()
        .enumerate()
    {
        calls(desk, &[read_number(2, j), write_number(2, j, v)]);
        calls(desk, &[read_number(2, j), CHECK]);
    }
    // The number that is there, another, and none.
    for v in [MAX_NUMBER, MAX_NUMBER, 1, 0, 0] {
        calls(desk, &[write_number(2, 7, v), read_number(2, 7)]);
    }
    both_kinds(desk, SMALL);
    let most = usize::MAX;
    for (a, j) in [
        // 6: a second block, of either kind; free; past the end.
        (1, 0),
        (3, 0),
        (4, 0),
        (7, 99),
        (8, 0),
        (most, most),
        // 7: of data, and of an ordinary object, where 12 would come.
        (2, 8),
        (2, most),
        (2, most / 4 + 1),
        (0, 8),
        (0, most),
        // 12.
        (0, 0),
        (0, 7),
        // None.
        (2, 0),
        (2, 7),
    ] {
        calls(desk, &[write_number(a, j, 3), read_number(a, j)]);
    }
}

/// "12, a reference store or read on data ..., placed after 7": so before 8, and before what U2 says of the value present.
fn references_in_data(desk: &mut Desk) {
    both_kinds(desk, SMALL);
    calls(desk, &[write_number(2, 1, 1)]);
    // Cut down to the bits of a cell it would be 1.
    let wide = MAX_NUMBER as usize + 2;
    let most = usize::MAX;
    for (a, j, v) in [
        (3, 0, 9),
        (2, 8, 9),
        (2, most, wide),
        // 12: a value that is good, present as a number, of no object, too wide.
        (2, 0, 0),
        (2, 1, 1),
        (2, 0, 3),
        (2, 7, 2),
        (2, 7, 9),
        (2, 7, wide),
        (2, 0, most),
        // The same in the ordinary object: accepted, or 8.
        (0, 7, 2),
        (0, 7, wide),
        (0, 7, 3),
        (0, 7, 3),
        (0, 7, 0),
    ] {
        desk.call(cell(a, j, v));
    }
    calls(desk, &[look(0), look(2), CHECK]);
}

/// Naming data from a root or a cell is no error: it counts, and keeps the data with its numbers.
fn kept_alive(desk: &mut Desk) {
    let hold = [
        cell(0, 0, 3),
        write_number(2, 7, MAX_NUMBER),
        root(1, 0),
        look(2),
    ];
    let after = [COLLECT, read_number(2, 7), look(2), CHECK];
    for end in [&[][..], &[cell(0, 0, 0)], &[root(0, 0)], &[chosen(15)]] {
        both_kinds(desk, SMALL);
        calls(desk, &[&hold[..], &after, end].concat());
    }
    // By several roots, over itself and over an ordinary object.
    both_kinds(desk, SMALL);
    calls(desk, &[root(3, 3), root(3, 3), look(2), root(3, 0)]);
    calls(desk, &[root(0, 3), look(2), root(1, 0), root(0, 0)]);
    // Stuck by roots and cells, told once; collected; let go.
    both_kinds(desk, SMALL);
    calls(desk, &[root(2, 3), cell(0, 3, 3), cell(0, 4, 3), look(2)]);
    calls(desk, &[chosen(6), root(0, 0), look(2), COLLECT]);
    // An unreached ordinary object names it: let go, collected.
    both_kinds(desk, SMALL);
    calls(desk, &[cell(0, 0, 1), cell(0, 1, 3), root(0, 0), look(2)]);
    calls(desk, &[COLLECT, look(2), root(1, 0)]);
}

/// Numbers are never counted, and what they look like is not let go: neither where they are written nor where the data goes.
fn never_counted(desk: &mut Desk) {
    let all = |v: Ref| (0..8).map(move |j| write_number(2, j, v));
    for width in 1..=3 {
        // The name of a living object, of the data itself, of a free block, of a second block, of no block.
        for v in [1, 3, 6, 4, 9, MAX_NUMBER] {
            both_kinds(desk, [8, width, 4]);
            let fill: Vec<Call> = all(v).collect();
            calls(desk, &fill);
            calls(desk, &[look(0), look(2), CHECK, COLLECT, look(0), look(2)]);
            // The data goes, and leaves the ordinary object as it was; then all of it.
            calls(desk, &[root(1, 0), look(0), CHECK, root(0, 0), COLLECT]);
        }
    }
    // The living object dies, and the number stays; another one is born there.
    both_kinds(desk, SMALL);
    calls(desk, &[write_number(2, 3, 1), root(0, 0), look(0), CHECK]);
    calls(desk, &[read_number(2, 3), allocate(1, 0), look(0), CHECK]);
    // Numbers written over numbers let nothing go.
    both_kinds(desk, SMALL);
    let over = [1, 0, 3, 1, 1, MAX_NUMBER, 0];
    calls(desk, &over.map(|v| write_number(2, 0, v)));
    calls(desk, &[look(0), look(2), CHECK]);
    // What goes by a chain: an ordinary object that names data, whose numbers name the one behind it.
    let chain = [FORMAT, allocate(1, 0), data(1, 1), allocate(1, 2)];
    on_new_heap(desk, [8, 3, 4], &chain);
    calls(desk, &[cell(0, 0, 2), write_number(1, 0, 3), root(1, 0)]);
    calls(desk, &[root(0, 0), look(2), CHECK]);
}

/// "never followed": a collection takes a number for nothing.
fn never_followed(desk: &mut Desk) {
    // A cycle of one, named by a number alone.
    for v in [1, 3] {
        both_kinds(desk, SMALL);
        calls(desk, &[cell(0, 0, 1), write_number(2, 0, v), root(0, 0)]);
        calls(desk, &[look(0), COLLECT, look(0), look(2), CHECK]);
    }
    // One more cycle, named by numbers of data that a root and a cell lead to, and by the data's own.
    for width in 1..=3 {
        both_kinds(desk, [8, width, 4]);
        calls(desk, &[allocate(1, 2), cell(4, 0, 5), cell(0, 0, 3)]);
        calls(desk, &[write_number(2, 3, 5), write_number(2, 4, 3)]);
        calls(desk, &[chosen(6), COLLECT, look(4), look(2), CHECK]);
    }
    // Data that no root leads to, which holds the names of living ones: at width 1 nothing is let go before.
    both_kinds(desk, [8, 1, 4]);
    calls(desk, &[write_number(2, 0, 1), write_number(2, 7, 3)]);
    calls(desk, &[root(1, 0), look(2), COLLECT, look(0), look(2)]);
    // Numbers far out of range, of data that is reached.
    both_kinds(desk, SMALL);
    for (j, v) in [8, 9, 10, 255, 65_537, 1 << 31, MAX_NUMBER]
        .into_iter()
        .enumerate()
    {
        desk.call(write_number(2, j, v));
    }
    calls(desk, &[COLLECT, CHECK, look(0), look(2), read_number(2, 6)]);
}

/// "and, with its D bit, are cleared when it is freed": by each call that may free, and an ordinary object in that place.
fn freed(desk: &mut Desk) {
    let again = [allocate(2, 3), CHECK, cell(2, 7, 3), write_number(2, 7, 3)];
    let keep_in_cell = [cell(0, 0, 3), root(1, 0)];
    for (width, end) in [
        (2, &[root(1, 0)][..]),
        (2, &[root(1, 1)]),
        (2, &[allocate(1, 1)]),
        (2, &[data(1, 1)]),
        (2, &[chosen(2)]),
        (2, &[chosen(3)]),
        (2, &[keep_in_cell[0], keep_in_cell[1], cell(0, 0, 0)]),
        (2, &[keep_in_cell[0], keep_in_cell[1], cell(0, 0, 1)]),
        (2, &[keep_in_cell[0], keep_in_cell[1], root(0, 0)]),
        // By a collection: stuck, and behind a cycle.
        (1, &[root(1, 0), COLLECT]),
        (1, &[chosen(3), COLLECT]),
        (
            2,
            &[
                keep_in_cell[0],
                keep_in_cell[1],
                cell(0, 1, 1),
                root(0, 0),
                COLLECT,
            ],
        ),
        (2, &[FORMAT]),
    ] {
        for and_then in [&[][..], &again] {
            both_kinds(desk, [8, width, 4]);
            let fill = [1, 3, MAX_NUMBER].map(|v| write_number(2, v as usize % 8, v));
            calls(desk, &fill);
            calls(desk, end);
            calls(desk, and_then);
        }
    }
}

/// Data in the first byte of the map, in the last one and between them; made and let go one after another.
fn every_byte(desk: &mut Desk) {
    let single = [FORMAT, data(1, 0), allocate(1, 1), data(1, 2)];
    let fill = [data(4, 3), data(8, 4), allocate(8, 5), data(8, 6)];
    for let_go in [0, 1, 4, 8, 16, 64, 127] {
        for width in [1, 3] {
            on_new_heap(desk, [32, width, 8], &single);
            calls(desk, &fill);
            calls(desk, &[data(1, 7), write_number(24, 31, MAX_NUMBER), CHECK]);
            calls(desk, &[chosen(let_go), CHECK, COLLECT, CHECK]);
        }
    }
    // Eight of them, a byte of ones; each second one let go.
    on_new_heap(desk, [16, 2, 8], &[FORMAT, allocate(8, 0)]);
    for r in 0..8 {
        desk.call(data(1, r));
    }
    calls(desk, &[CHECK, chosen(0b1010_1010), CHECK, data(1, 1)]);
    // Over two sections.
    on_new_heap(desk, [512, 2, 4], &[FORMAT, data(300, 0), data(100, 1)]);
    calls(desk, &[write_number(0, 1199, 9), read_number(0, 1199)]);
    calls(desk, &[read_number(0, 1200), root(0, 0), CHECK]);
}

/// A number of a buffer, written over the one that is there, and the check's reply.
fn check_with(desk: &mut Desk, loads: &[(u64, usize, u64)]) {
    for (buffer, index, value) in loads {
        desk.load(*buffer, *index, *value);
    }
    desk.call(CHECK);
}

/// "damage kinds 4 and 5 read the rest as before": the cells of data alone are passed over, and the D bit is read at the first
/// blocks of objects alone.
fn read_as_references(desk: &mut Desk) {
    // Any number in a cell of data, wherever it is in the object.
    for place in 8..16 {
        for v in [1, 2, 3, 5, 9, MAX_NUMBER.into()] {
            both_kinds(desk, SMALL);
            check_with(desk, &[(CELLS, place, v)]);
        }
    }
    // The same in the ordinary object before it, in free blocks behind it, and in an ordinary object behind it.
    for place in [0, 7, 16, 19, 31] {
        for v in [1, 2, 3, 9, MAX_NUMBER.into()] {
            both_kinds(desk, SMALL);
            check_with(desk, &[(CELLS, place, v)]);
        }
    }
    let behind = [FORMAT, data(2, 0), allocate(1, 1), allocate(3, 2)];
    for place in [8, 11, 12, 16, 27] {
        for v in [1, 2, 3, 5, 9] {
            on_new_heap(desk, SMALL, &behind);
            check_with(desk, &[(CELLS, place, v)]);
        }
    }
    // An ordinary object behind data holds what it may, and its references are counted.
    on_new_heap(desk, SMALL, &behind);
    calls(desk, &[cell(2, 0, 1), cell(4, 11, 3), cell(4, 4, 1), CHECK]);
    calls(desk, &[look(0), look(2), root(0, 0), look(0), CHECK]);
    // Data behind a free block, and an ordinary object behind another one.
    for v in [3, 9] {
        let apart = [FORMAT, data(2, 0), allocate(2, 1), data(2, 2), root(1, 0)];
        for place in [8, 15, 16, 23, 24] {
            on_new_heap(desk, SMALL, &apart);
            check_with(desk, &[(CELLS, place, v)]);
        }
    }
    // A D bit on the second block of an ordinary object makes no data of it: kind 4 of its cells, then kind 7. Likewise on a
    // free block.
    for place in [4, 7, 16, 19] {
        both_kinds(desk, SMALL);
        let stray = if place < 8 { 2 + 4 } else { 16 + 4 };
        check_with(desk, &[(DATA, 0, stray), (CELLS, place, 9)]);
        check_with(desk, &[(CELLS, place, 0)]);
        check_with(desk, &[(DATA, 0, 4)]);
    }
    // The D bit of an ordinary object that names another one: the other one's count is too large then, kind 5. Of one that
    // names none: it is data from here on.
    both_kinds(desk, SMALL);
    calls(desk, &[cell(0, 7, 3)]);
    check_with(desk, &[(DATA, 0, 1 + 4)]);
    both_kinds(desk, SMALL);
    check_with(desk, &[(DATA, 0, 1 + 4)]);
    calls(desk, &[write_number(0, 0, 9), cell(0, 1, 1), CHECK]);
    // No D bit on what was data: its numbers are read as references. Kind 4, kind 5, or none where they are 0.
    for v in [9, 4, 1, 3, 0] {
        both_kinds(desk, SMALL);
        calls(desk, &[write_number(2, 5, v)]);
        check_with(desk, &[(DATA, 0, 0)]);
        calls(desk, &[cell(2, 0, 1), write_number(2, 0, 1)]);
    }
}

/// "damage kind 7 is a D bit where no object starts": after 5, before 11, in every call but format.
fn kind_7(desk: &mut Desk) {
    // The second block of an ordinary object, that of data, free blocks.
    for block in [1, 3, 4, 7] {
        both_kinds(desk, SMALL);
        desk.load(WAITING, 1, 7);
        desk.load(DATA, 0, 4 + (1 << block));
        calls(desk, &EVERY_CALL);
        calls(desk, &[FORMAT, CHECK]);
    }
    // In the first, a middle and the last byte of the map, on an empty heap and on one of single blocks.
    for byte in [0, 1, 2, 3] {
        for bit in [0, 3, 7] {
            on_new_heap(desk, [32, 2, 4], &[FORMAT]);
            check_with(desk, &[(DATA, byte, 1 << bit)]);
            on_new_heap(desk, [32, 2, 4], &[FORMAT, data(16, 0), allocate(16, 1)]);
            let now = desk.bench.number_at(DATA, byte);
            check_with(desk, &[(DATA, byte, now ^ (1 << bit))]);
        }
    }
    // Kinds 1, 2 and 3 as in P11, with a stray D bit.
    for (a, b) in [(0, 254), (1, 255), (6, 251)] {
        on_new_heap(desk, SMALL, &[FORMAT]);
        check_with(desk, &[(0, 0, a), (1, 0, b), (DATA, 0, 128)]);
    }
    // Kind 4 of a root, kind 5 of a count that is too large: mended one after another; then 7, 11 and none.
    for (buffer, index, wrong) in [(4, 3, 4), (2, 1, 1)] {
        both_kinds(desk, [8, 3, 4]);
        let before = desk.bench.number_at(buffer, index);
        let figure = desk.bench.number_at(SECTIONS, 0);
        desk.load(SECTIONS, 0, figure + 1);
        check_with(desk, &[(buffer, index, wrong), (DATA, 0, 4 + 64)]);
        calls(desk, &EVERY_CALL);
        desk.load(buffer, index, before);
        calls(desk, &EVERY_CALL);
        desk.load(DATA, 0, 4);
        calls(desk, &EVERY_CALL);
        desk.load(SECTIONS, 0, figure);
        calls(desk, &EVERY_CALL);
    }
}

/// 2 and 11 come before the numbers that a call has for itself.
fn before_own_refusals(desk: &mut Desk) {
    let refused = [
        data(0, 0),
        data(9, 4),
        data(1, 4),
        data(8, 0),
        write_number(1, 0, 1),
        write_number(2, 8, 1),
        write_number(0, 0, 1),
        read_number(8, 0),
        read_number(2, 8),
        read_number(0, 0),
        cell(2, 0, 9),
    ];
    for (buffer, wrong) in [(DATA, 4 + 128), (SECTIONS, 5)] {
        both_kinds(desk, SMALL);
        let right = desk.bench.number_at(buffer, 0);
        desk.load(buffer, 0, wrong);
        calls(desk, &refused);
        desk.load(buffer, 0, right);
        calls(desk, &refused);
    }
}

/// "Lengths ... that later requests fix fall under 1 too, in every call that takes them": before 2.
fn wrong_lengths(desk: &mut Desk) {
    for (blocks, lengths) in [(8, [0, 2, 8]), (32, [3, 5, 32]), (512, [63, 65, 1024])] {
        for length in lengths {
            both_kinds(desk, [blocks, 2, 4]);
            let right = desk.bench.length(DATA);
            desk.length(DATA, length);
            calls(desk, &EVERY_CALL);
            calls(desk, &[FORMAT]);
            // Damaged besides.
            desk.load(0, 0, 255);
            calls(desk, &[CHECK, FORMAT]);
            desk.length(DATA, right);
            calls(desk, &[CHECK, FORMAT, CHECK]);
        }
    }
}

/// Rubbish in the waiting list before one call: a number write keeps it, also where the number is there already; so do a read
/// and each refusal. An allocation of data leaves it 0.
fn waiting_list(desk: &mut Desk) {
    for call in [
        write_number(2, 0, 9),
        write_number(2, 0, 1),
        write_number(2, 3, 0),
        read_number(2, 0),
        write_number(0, 0, 1),
        write_number(2, 8, 1),
        write_number(3, 0, 1),
        read_number(0, 0),
        read_number(2, 8),
        cell(2, 0, 1),
        data(1, 2),
        data(1, 1),
        data(8, 2),
        data(0, 2),
        data(1, 4),
        root(1, 0),
        COLLECT,
    ] {
        both_kinds(desk, SMALL);
        calls(desk, &[write_number(2, 0, 1)]);
        for i in 0..8 {
            desk.load(WAITING, i, u64::from(MAX_NUMBER) - i as u64);
        }
        desk.call(call);
    }
}

/// The largest heap as one array, and two arrays in halves.
fn largest(desk: &mut Desk) {
    let (all, half) = (MAX_BLOCKS, MAX_BLOCKS / 2);
    on_new_heap(desk, [all as u64, 2, 4], &[FORMAT, data(all, 0), look(0)]);
    for (j, v) in [(0, 1), (4 * all - 1, MAX_NUMBER), (4 * all, 2)] {
        calls(desk, &[write_number(0, j, v), read_number(0, j)]);
    }
    calls(desk, &[CHECK, COLLECT, root(0, 0), data(half, 0)]);
    calls(
        desk,
        &[data(half, 1), write_number(half, 5, all as Ref), CHECK],
    );
    calls(desk, &[read_number(half, 5), root(0, 0), COLLECT]);
    // The last byte of its map.
    let last = desk.bench.length(DATA) - 1;
    check_with(desk, &[(DATA, last, 128)]);
    check_with(desk, &[(DATA, last, 0)]);
    desk.lend_little();
}

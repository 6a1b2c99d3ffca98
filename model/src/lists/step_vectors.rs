//! The lists of the large file that belong to request U8: collection in small steps. The mark map and the list are printed with the
//! other buffers where a heap ends, so each case has a new heap, and one whose every call is of interest has one for each prefix.

use crate::lists::generate::Desk;
use crate::lists::request_vectors::on_new_heap;
use crate::rules::calls::short::{
    allocate, cell, chosen, data, look, read_number, root, step, write_number, OPEN,
};
use crate::rules::calls::Call;
use crate::rules::heap::{MAX_BLOCKS, MAX_NUMBER};

const FORMAT: Call = Call::Format;
const CHECK: Call = Call::Check;
const COLLECT: Call = Call::Collect;
const FREE_BLOCKS: Call = Call::FreeBlocks;

/// The numbers of some buffers.
const WAITING: u64 = 5;
const SECTIONS: u64 = 6;
const MARKS: u64 = 8;
const LIST: u64 = 9;

const SMALL: [u64; 3] = [8, 2, 4];

/// The largest number that a place holds.
const MOST: u64 = MAX_NUMBER as u64;

/// A budget for all that there can be.
const ALL: usize = 99;

pub fn steps(desk: &mut Desk) {
    formats(desk);
    openings(desk);
    taking_steps(desk);
    budgets(desk);
    closes(desk);
    births(desk);
    stores(desk);
    freed_while_open(desk);
    returns(desk);
    other_calls(desk);
    whole_lists(desk);
    number_13(desk);
    number_14(desk);
    wrong_lengths(desk);
    waiting_list(desk);
    every_byte(desk);
    largest(desk);
}

/// Every call but format, with arguments that fit a heap with an ordinary object at 0 and data at 2.
const EVERY_CALL: [Call; 13] = [
    Call::Check,
    Call::Allocate { n: 1, r: 3 },
    Call::StoreRoot { r: 2, v: 1 },
    Call::StoreCell { a: 0, j: 0, v: 1 },
    Call::Collect,
    Call::Look { a: 2 },
    Call::FreeBlocks,
    Call::ReturnRoots { chosen: 8 },
    Call::AllocateData { n: 1, r: 3 },
    Call::WriteNumber { a: 2, j: 0, v: 7 },
    Call::ReadNumber { a: 2, j: 0 },
    Call::OpenCollection,
    Call::StepCollection { budget: 1 },
];

fn calls(desk: &mut Desk, calls: &[Call]) {
    for call in calls {
        desk.call(*call);
    }
}

/// A new heap for each prefix of these calls that ends behind one which writes, and for all of them, behind those that come before.
fn each_prefix(desk: &mut Desk, shape: [u64; 3], before: &[Call], then: &[Call]) {
    for end in 1..=then.len() {
        if end == then.len() || !then[end - 1].only_reads() {
            on_new_heap(desk, shape, &[&[FORMAT], before, &then[..end]].concat());
        }
    }
}

/// An ordinary object of two blocks at 0 in root 0, and data of two blocks at 2 in root 1.
const BOTH_KINDS: [Call; 2] = [
    Call::Allocate { n: 2, r: 0 },
    Call::AllocateData { n: 2, r: 1 },
];

/// A cycle of one at 0 that no root leads to, whose cells 0 and 1 name the object at 1, in root 1.
fn garbage() -> Vec<Call> {
    vec![
        allocate(1, 0),
        allocate(1, 1),
        cell(0, 0, 2),
        cell(0, 1, 2),
        cell(0, 2, 1),
        root(0, 0),
    ]
}

/// Single blocks 0, 1, .. so many, each naming the next in cell 0, and root 0 the first.
fn chain(length: usize) -> Vec<Call> {
    let mut list = vec![allocate(1, 0)];
    for new in 1..length {
        list.extend([allocate(1, 1), cell(new - 1, 0, 1 + new), root(1, 0)]);
    }
    list
}

/// "A-map 0, B-map all ones, everything else 0": marks and list too, whatever they held; and while one is open.
fn formats(desk: &mut Desk) {
    for blocks in [8, 32] {
        desk.new_heap([blocks, 2, 4]);
        for (buffer, most) in [(MARKS, 255), (LIST, MOST)] {
            for k in 0..desk.bench.length(buffer) {
                desk.load(buffer, k, most - k as u64);
            }
        }
        calls(desk, &[CHECK, FORMAT, CHECK, FREE_BLOCKS]);
    }
    let open = [&garbage()[..], &[OPEN, step(1)]].concat();
    for end in [0, 1, 2] {
        on_new_heap(desk, SMALL, &[&[FORMAT], &open[..]].concat());
        calls(desk, &[FORMAT, step(1), OPEN][..=end]);
    }
}

/// "Opening marks every object a root names, in a new mark map of N/8 bytes, and puts it on a second list."
fn openings(desk: &mut Desk) {
    for before in [
        // No root names anything; one does; two name the same one; two in the other order; data.
        &[][..],
        &[allocate(2, 3)],
        &[allocate(1, 0), root(2, 1)],
        &[allocate(1, 1), allocate(1, 0), allocate(4, 3)],
        &[data(1, 2)],
        &[allocate(2, 0), data(2, 1), cell(0, 0, 3), root(1, 0)],
        // What is behind a root isn't marked, nor what no root leads to.
        &chain(3),
        &garbage(),
    ] {
        for width in 1..=3 {
            let list = [&[FORMAT], before, &[OPEN, CHECK, OPEN]].concat();
            on_new_heap(desk, [8, width, 4], &list);
        }
    }
    // As many objects as there are blocks: the list is full, and its last place is its last.
    for blocks in [8, 16] {
        on_new_heap(desk, [blocks, 2, 16], &[FORMAT]);
        for r in 0..blocks as usize {
            desk.call(allocate(1, (5 * r) % blocks as usize));
        }
        calls(desk, &[OPEN, CHECK]);
    }
}

/// "A step takes the lowest." "Steps mark and list what they first meet", data too, and each once.
fn taking_steps(desk: &mut Desk) {
    let one_by_one = [OPEN, step(1), step(1), step(1), step(1), step(1)];
    each_prefix(desk, SMALL, &chain(4), &one_by_one);
    // The object at 4 names the one at 1, which is taken before those at 5 and 6.
    let lower = [
        allocate(1, 0),
        allocate(1, 1),
        allocate(1, 2),
        allocate(1, 3),
        allocate(1, 3),
        cell(4, 0, 2),
        cell(4, 3, 4),
        root(1, 5),
        root(0, 0),
        root(3, 3),
        root(2, 0),
    ];
    each_prefix(desk, SMALL, &lower, &one_by_one);
    // A cycle that a root leads to, an object that names itself, one that is named twice.
    let ring = [
        allocate(1, 0),
        allocate(1, 1),
        cell(0, 0, 2),
        cell(0, 1, 2),
        cell(1, 0, 1),
        cell(1, 3, 2),
        root(1, 0),
    ];
    each_prefix(desk, [8, 3, 4], &ring, &one_by_one);
    // Data is taken, and its numbers are names of nothing.
    let numbers = [
        BOTH_KINDS[0],
        BOTH_KINDS[1],
        cell(0, 7, 3),
        root(1, 0),
        allocate(1, 2),
        cell(4, 0, 5),
        root(2, 0),
        write_number(2, 0, 5),
        write_number(2, 1, 9),
    ];
    each_prefix(desk, SMALL, &numbers, &one_by_one);
}

/// "A call may take at most the given number of steps": "all of them unless the list ran out". "When a call with a budget above 0
/// leaves the list empty": also where it found it so, and where the last step was the last that it may take.
fn budgets(desk: &mut Desk) {
    for budget in [0, 1, 2, 3, 4, 5, 99, usize::MAX] {
        let before = [&chain(4)[..], &[OPEN]].concat();
        each_prefix(desk, SMALL, &before, &[step(budget), step(budget)]);
    }
    // Nothing on the list.
    for budget in [0, 1, 2, usize::MAX] {
        each_prefix(desk, SMALL, &[OPEN], &[step(0), step(budget), step(1)]);
    }
    // The list is emptied by a release: budget 0 leaves it open, 1 closes it with no step.
    let emptied = [allocate(1, 0), OPEN, root(0, 0)];
    each_prefix(desk, SMALL, &emptied, &[step(0), step(0), step(1)]);
}

/// "it frees all objects then unmarked, marking none of them, and counts down the survivors that these named, once for each cell
/// (one that reaches 0 is freed as in a store), and clears the mark map and the list."
fn closes(desk: &mut Desk) {
    for width in 1..=3 {
        let shape = [8, width, 4];
        let close = [OPEN, step(1), look(0), look(1), CHECK, COLLECT];
        each_prefix(desk, shape, &garbage(), &close);
        // The survivor loses its root while it is open: the two cells were its last references.
        let last = [OPEN, root(1, 0), look(1), step(ALL), look(1), FREE_BLOCKS];
        each_prefix(desk, shape, &garbage(), &last);
        // And with it what it named; and one that a root holds besides.
        let more = [
            allocate(1, 0),
            cell(1, 0, 3),
            allocate(1, 2),
            cell(1, 3, 4),
            cell(2, 1, 4),
        ];
        let last = [OPEN, root(1, 0), root(0, 0), step(ALL), look(3), CHECK];
        each_prefix(desk, shape, &[&garbage()[..], &more].concat(), &last);
    }
    // Garbage that names garbage, and data; a cycle of two; unmarked data that was stuck.
    let tangle = [
        allocate(1, 0),
        allocate(1, 1),
        data(1, 2),
        cell(0, 0, 2),
        cell(1, 0, 1),
        cell(1, 1, 3),
        cell(0, 3, 3),
        allocate(2, 3),
        cell(1, 2, 5),
    ];
    for width in 1..=4 {
        let end = [chosen(7), OPEN, step(1), CHECK, FREE_BLOCKS];
        each_prefix(desk, [8, width, 4], &tangle, &end);
    }
    // A survivor that was stuck stays so: nothing is counted anew. Then a full collection does.
    let stick = [allocate(1, 0), root(1, 1), root(2, 1), chosen(6), look(0)];
    let end = [OPEN, step(ALL), look(0), COLLECT, look(0)];
    each_prefix(desk, SMALL, &stick, &end);
    let stick = [&garbage()[..], &[cell(1, 0, 2), cell(1, 1, 2)]].concat();
    each_prefix(desk, SMALL, &stick, &end);
    // Nothing is unmarked, and nothing stands.
    each_prefix(desk, SMALL, &chain(3), &[OPEN, step(ALL), OPEN, step(ALL)]);
    each_prefix(desk, SMALL, &[], &[OPEN, step(1), OPEN, step(ALL)]);
}

/// "While open, objects are born marked", of either kind, and not listed; "an allocation's included": its root's old object.
fn births(desk: &mut Desk) {
    for width in [1, 2] {
        for birth in [allocate(2, 3), data(2, 3), allocate(1, 1), data(1, 1)] {
            let then = [birth, step(1), root(3, 0), step(ALL), CHECK];
            let before = [&garbage()[..], &[OPEN]].concat();
            each_prefix(desk, [8, width, 4], &before, &then);
        }
        // What is refused is not born.
        let before = [&garbage()[..], &[OPEN]].concat();
        let refused = [allocate(0, 0), data(9, 0), allocate(1, 4), allocate(8, 0)];
        each_prefix(desk, [8, width, 4], &before, &refused);
    }
    // Over an object that is freed, whose cell names one that is unmarked and lives on, or not.
    let over = [
        allocate(1, 0),
        allocate(1, 1),
        allocate(1, 2),
        cell(0, 0, 2),
        cell(0, 1, 3),
        cell(2, 2, 2),
        cell(2, 0, 3),
        root(1, 0),
        root(2, 0),
        OPEN,
    ];
    let then = [allocate(1, 0), data(1, 0), step(1), step(ALL), CHECK];
    each_prefix(desk, [8, 3, 4], &over, &then);
    // Born and dead before the close, and another one in its place, which was never marked: none is open then.
    let then = [OPEN, allocate(1, 3), root(3, 0), step(ALL), allocate(1, 3)];
    each_prefix(desk, SMALL, &garbage(), &then);
}

/// "each reference store that changes a value ... marks and lists what is unmarked among its owner, old and new objects".
fn stores(desk: &mut Desk) {
    // Three cycles of one at 0, 1 and 2 that no root leads to; 0 names 1. Data at 3, which the cycle at 0 names; root 3 names 4.
    let heap = [
        allocate(1, 0),
        allocate(1, 1),
        allocate(1, 2),
        cell(0, 0, 1),
        cell(1, 0, 2),
        cell(2, 0, 3),
        cell(0, 1, 2),
        data(1, 3),
        cell(0, 2, 4),
        allocate(1, 3),
        chosen(7),
        OPEN,
    ];
    for store in [
        // Owner, old and new all unmarked; owner and old; owner and new; owner alone, which is old and new too.
        cell(0, 1, 3),
        cell(0, 1, 0),
        cell(0, 3, 3),
        cell(0, 3, 1),
        cell(0, 0, 0),
        // A new one, or an old one, that is marked; and data as either.
        cell(0, 3, 5),
        cell(0, 1, 5),
        cell(0, 2, 0),
        cell(1, 3, 4),
        // By a marked owner.
        cell(4, 0, 1),
        cell(4, 0, 4),
        cell(4, 0, 5),
        // In a root: the new one. Its old one is marked already.
        root(0, 2),
        root(0, 4),
        root(3, 3),
        root(0, 5),
        // The value present, and what is refused.
        cell(0, 1, 2),
        cell(0, 3, 0),
        root(3, 5),
        root(0, 0),
        cell(0, 1, 9),
        cell(3, 0, 1),
        cell(0, 4, 3),
        root(4, 2),
    ] {
        for taken in [0, 1] {
            let before = [&heap[..], &[step(taken)]].concat();
            each_prefix(desk, [8, 3, 4], &before, &[store, step(ALL)]);
        }
        each_prefix(desk, [8, 1, 4], &heap, &[store, step(1)]);
    }
    // A store after which nothing but the new place holds the object: it is not lost.
    let hide = [
        OPEN,
        root(1, 2),
        cell(0, 0, 0),
        step(1),
        step(1),
        step(1),
        CHECK,
    ];
    each_prefix(desk, SMALL, &chain(3), &hide);
    let move_up = [
        OPEN,
        root(2, 3),
        cell(1, 0, 0),
        cell(0, 1, 3),
        root(2, 0),
        step(ALL),
    ];
    each_prefix(desk, SMALL, &chain(4), &move_up);
}

/// "clearing a freed object's cells marks and lists the unmarked ones they named; a freed object leaves map and list."
fn freed_while_open(desk: &mut Desk) {
    // On the list; marked and taken off; unmarked, in a chain of which the end is held by a cycle.
    for let_go in [
        &[root(0, 0)][..],
        &[step(1), root(0, 0)],
        &[cell(0, 0, 0)],
        &[step(1), cell(0, 0, 0)],
        &[step(2), cell(1, 0, 0)],
        &[allocate(1, 0)],
        &[chosen(1)],
    ] {
        let end = [&[OPEN], let_go, &[step(1), step(ALL), CHECK]].concat();
        each_prefix(desk, SMALL, &chain(4), &end);
        let held = [allocate(1, 1), cell(4, 0, 5), cell(2, 2, 5), root(1, 0)];
        each_prefix(desk, SMALL, &[&chain(4)[..], &held].concat(), &end);
        let held = [allocate(1, 1), cell(4, 0, 5), cell(4, 1, 3), root(1, 0)];
        each_prefix(desk, SMALL, &[&chain(4)[..], &held].concat(), &end);
    }
    // An unmarked object is freed by a store in a cell of garbage: what its cells named is marked, and is garbage.
    let heap = [
        &garbage()[..],
        &[
            allocate(1, 0),
            allocate(1, 2),
            cell(2, 0, 4),
            cell(3, 3, 4),
            cell(0, 3, 3),
            root(0, 0),
            root(2, 0),
            OPEN,
        ],
    ]
    .concat();
    for width in [2, 3] {
        let end = [cell(0, 3, 0), step(1), step(ALL), CHECK, COLLECT];
        each_prefix(desk, [8, width, 4], &heap, &end);
    }
    // The owner goes by its own store, with the new value in it.
    for new in [0, 2, 3] {
        let heap = [
            allocate(1, 0),
            cell(0, 0, 1),
            allocate(1, 1),
            allocate(1, 2),
            cell(2, 0, 3),
            root(0, 0),
            root(2, 0),
            OPEN,
        ];
        let end = [cell(0, 0, new), step(1), step(ALL), CHECK];
        each_prefix(desk, SMALL, &heap, &end);
    }
    // Freed data names nothing.
    let heap = [
        BOTH_KINDS[0],
        BOTH_KINDS[1],
        allocate(1, 2),
        cell(4, 0, 5),
        root(2, 0),
        write_number(2, 0, 5),
        OPEN,
    ];
    each_prefix(desk, SMALL, &heap, &[root(1, 0), step(1), step(ALL)]);
}

/// U10: "with one open, in ascending order".
fn returns(desk: &mut Desk) {
    let heap = [
        allocate(1, 0),
        allocate(1, 1),
        allocate(1, 2),
        allocate(1, 3),
        cell(3, 0, 4),
        cell(0, 0, 4),
        cell(1, 0, 1),
        cell(1, 1, 3),
        cell(2, 2, 4),
        root(3, 0),
        OPEN,
    ];
    for set in [0, 1, 2, 3, 4, 5, 6, 7, 15, 16] {
        for taken in [0, 1, 2] {
            let before = [&heap[..], &[step(taken)]].concat();
            each_prefix(desk, [8, 3, 4], &before, &[chosen(set), step(ALL), CHECK]);
        }
    }
}

/// The calls that write no reference keep map and list; and so does every refusal.
fn other_calls(desk: &mut Desk) {
    let before = [&BOTH_KINDS[..], &[cell(0, 0, 1), root(0, 0), OPEN]].concat();
    for call in [
        CHECK,
        look(0),
        look(5),
        FREE_BLOCKS,
        write_number(2, 0, 1),
        write_number(2, 0, MAX_NUMBER),
        write_number(0, 0, 1),
        read_number(2, 0),
        read_number(2, 8),
        cell(2, 0, 1),
        chosen(0),
        chosen(32),
        OPEN,
        COLLECT,
    ] {
        each_prefix(desk, SMALL, &before, &[call, step(ALL), CHECK]);
    }
}

/// From the opening to the close with something between all steps; then again.
fn whole_lists(desk: &mut Desk) {
    for budget in [1, 2, 3] {
        on_new_heap(desk, [16, 2, 4], &[FORMAT]);
        for _ in 0..2 {
            calls(desk, &[allocate(2, 0), allocate(1, 1), data(1, 2)]);
            calls(desk, &[cell(0, 0, 3), cell(0, 7, 4), cell(2, 0, 1)]);
            calls(desk, &[OPEN, step(budget), allocate(1, 3)]);
            calls(desk, &[cell(4, 0, 3), root(0, 0), step(budget)]);
            calls(desk, &[cell(2, 1, 5), root(3, 0), step(budget), root(1, 0)]);
            calls(desk, &[step(budget), FREE_BLOCKS, CHECK, step(budget)]);
            calls(desk, &[step(ALL), CHECK, step(1), COLLECT, FREE_BLOCKS]);
        }
    }
}

/// Loads, then every call. 11 comes before it, and 2 before that.
fn refused_with(desk: &mut Desk, before: &[Call], loads: &[(u64, usize, u64)]) {
    on_new_heap(desk, SMALL, &[&[FORMAT], before].concat());
    desk.load(WAITING, 1, 7);
    for (buffer, index, value) in loads {
        desk.load(*buffer, *index, *value);
    }
    let figure = desk.bench.number_at(SECTIONS, 0);
    desk.load(SECTIONS, 0, figure + 1);
    desk.load(4, 3, 9);
    calls(desk, &[CHECK, step(1)]);
    desk.load(4, 3, 0);
    calls(desk, &[CHECK, OPEN, step(1), COLLECT]);
    desk.load(SECTIONS, 0, figure);
    calls(desk, &EVERY_CALL);
}

/// "13, the list isn't of that form or holds an unmarked object, a mark isn't on a first block, some root or marked unlisted object
/// names an unmarked one while a collection is open, or a mark or list place isn't 0 while none is, next after 11".
fn number_13(desk: &mut Desk) {
    // Objects at 0 (two blocks) and 4, data at 2; the one at 0 names that at 4, which names itself.
    let heap = [
        BOTH_KINDS[0],
        BOTH_KINDS[1],
        allocate(1, 2),
        cell(0, 7, 5),
        cell(4, 0, 5),
        root(2, 0),
    ];
    let open = [&heap[..], &[OPEN]].concat();
    let taken = [&heap[..], &[OPEN, step(1)]].concat();
    // Marks 5 and the list 1, 3 at first; then marks 21 and the list 3, 5.
    for loads in [
        // Not rising, equal, a 0 between, no first block (second, free, past the end), at any place; and more behind.
        &[(LIST, 0, 3), (LIST, 1, 1)][..],
        &[(LIST, 1, 1)],
        &[(LIST, 0, 3)],
        &[(LIST, 0, 0)],
        &[(LIST, 1, 0), (LIST, 2, 3)],
        &[(LIST, 0, 2)],
        &[(LIST, 1, 4)],
        &[(LIST, 1, 6)],
        &[(LIST, 1, 9)],
        &[(LIST, 1, MOST)],
        &[(LIST, 1, 65_539)],
        &[(LIST, 2, 2)],
        &[(LIST, 2, 9)],
        &[(LIST, 7, 5)],
        &[(LIST, 7, MOST)],
        // The last place.
        &[(LIST, 8, 2)],
        &[(LIST, 8, 3)],
        &[(LIST, 8, MOST)],
        &[(LIST, 8, 65_537)],
        &[(LIST, 8, 0)],
        // An unmarked object on the list.
        &[(MARKS, 0, 4)],
        &[(MARKS, 0, 1)],
        &[(MARKS, 0, 0)],
        &[(LIST, 2, 5)],
        // A mark on a second block, of either kind, and on a free one.
        &[(MARKS, 0, 5 + 2)],
        &[(MARKS, 0, 5 + 8)],
        &[(MARKS, 0, 5 + 32)],
        &[(MARKS, 0, 5 + 128)],
        // A root names an unmarked object.
        &[(MARKS, 0, 4), (LIST, 0, 3), (LIST, 1, 0)],
        &[(MARKS, 0, 1), (LIST, 1, 0)],
        &[(MARKS, 0, 0), (LIST, 0, 0), (LIST, 1, 0)],
        // A marked unlisted object names an unmarked one. Data doesn't.
        &[(LIST, 0, 3), (LIST, 1, 0)],
        &[(LIST, 0, 0), (LIST, 1, 0)],
        // None of these: data is off the list; garbage is marked and listed, or marked and names marked ones alone.
        &[(LIST, 1, 0)],
        &[(MARKS, 0, 21), (LIST, 2, 5)],
        &[(MARKS, 0, 21)],
        &[(MARKS, 0, 21), (LIST, 0, 0), (LIST, 1, 0)],
    ] {
        refused_with(desk, &open, loads);
    }
    for loads in [
        &[(LIST, 0, 5), (LIST, 1, 3)][..],
        &[(MARKS, 0, 5), (LIST, 1, 0)],
        &[(MARKS, 0, 5)],
        &[(LIST, 8, 0)],
        // None of these: the one at 4 names itself alone, so it may go off the list; the one at 0 may go on it again.
        &[(LIST, 1, 0)],
        &[(LIST, 0, 1), (LIST, 1, 3), (LIST, 2, 5)],
    ] {
        refused_with(desk, &taken, loads);
    }
    // None is open.
    for loads in [
        &[(MARKS, 0, 1)][..],
        &[(MARKS, 0, 2)],
        &[(MARKS, 0, 128)],
        &[(LIST, 0, 1)],
        &[(LIST, 7, 5)],
        &[(LIST, 3, MOST)],
        &[(MARKS, 0, 1), (LIST, 0, 1)],
        &[(LIST, 8, 1)],
        &[(LIST, 8, 2)],
        &[(LIST, 8, 256)],
        &[(MARKS, 0, 5), (LIST, 0, 1), (LIST, 1, 3)],
        // One that is open from here on, as an opening leaves it.
        &[(MARKS, 0, 5), (LIST, 0, 1), (LIST, 1, 3), (LIST, 8, 1)],
    ] {
        refused_with(desk, &heap, loads);
    }
    // Whatever it is, format ends it.
    calls(desk, &[FORMAT, CHECK]);
    // A heap with nothing in it may have a collection open.
    refused_with(desk, &[], &[(LIST, 8, 1)]);
    // Numbers in data name nothing.
    let named = [
        &BOTH_KINDS[..],
        &[allocate(1, 2), cell(4, 0, 5), root(2, 0)],
        &[write_number(2, 0, 5), write_number(2, 7, 9), OPEN],
    ]
    .concat();
    refused_with(desk, &named, &[(LIST, 1, 0)]);
    own_refusals(desk, &open);
}

/// 13 comes before the numbers that a call has for itself, and 14 among them.
fn own_refusals(desk: &mut Desk, open: &[Call]) {
    let refused = [
        allocate(0, 0),
        data(9, 4),
        allocate(1, 4),
        data(8, 0),
        root(4, 0),
        root(0, 2),
        cell(1, 0, 0),
        cell(0, 8, 0),
        cell(2, 0, 9),
        cell(0, 0, 9),
        look(1),
        chosen(16),
        write_number(1, 0, 1),
        write_number(2, 8, 1),
        write_number(0, 0, 1),
        read_number(0, 0),
        OPEN,
        COLLECT,
    ];
    on_new_heap(desk, SMALL, &[&[FORMAT], open].concat());
    desk.load(LIST, 8, 2);
    calls(desk, &refused);
    calls(desk, &[step(1)]);
    desk.load(LIST, 8, 1);
    calls(desk, &refused);
}

/// "14, a step with none open, or an opening or full collection with one open, after 13."
fn number_14(desk: &mut Desk) {
    let none = [step(0), step(1), step(usize::MAX), CHECK, COLLECT, step(1)];
    each_prefix(desk, SMALL, &garbage(), &none);
    each_prefix(desk, SMALL, &[], &none);
    let one = [OPEN, OPEN, COLLECT, step(1), step(1), OPEN, COLLECT, OPEN];
    each_prefix(desk, SMALL, &garbage(), &one);
    each_prefix(desk, SMALL, &[], &one);
    // Not formatted: 2.
    desk.new_heap(SMALL);
    calls(desk, &[OPEN, step(1), COLLECT]);
}

/// "Lengths ... that later requests fix fall under 1 too, in every call that takes them": before 2, 11 and 13.
fn wrong_lengths(desk: &mut Desk) {
    for (blocks, buffer, lengths) in [
        (8, MARKS, [0, 2, 8]),
        (8, LIST, [0, 8, 10]),
        (32, MARKS, [3, 5, 32]),
        (32, LIST, [32, 34, 64]),
        (512, MARKS, [63, 65, 1024]),
        (512, LIST, [512, 514, 1024]),
    ] {
        for length in lengths {
            for open in [&[][..], &[OPEN]] {
                let list = [&[FORMAT], &BOTH_KINDS[..], open].concat();
                on_new_heap(desk, [blocks, 2, 4], &list);
                let right = desk.bench.length(buffer);
                desk.length(buffer, length);
                calls(desk, &EVERY_CALL);
                calls(desk, &[FORMAT]);
                // Damaged besides.
                desk.load(0, 0, 255);
                calls(desk, &[CHECK, OPEN, step(1), FORMAT]);
                desk.length(buffer, right);
                calls(desk, &[CHECK, FORMAT, CHECK]);
            }
        }
    }
}

/// Rubbish in the waiting list before one call: an opening keeps it; a step leaves it 0, whatever its budget; a refusal keeps it.
fn waiting_list(desk: &mut Desk) {
    for (before, call) in [
        (&[][..], OPEN),
        (&[], step(1)),
        (&[], step(0)),
        (&[OPEN], OPEN),
        (&[OPEN], COLLECT),
        (&[OPEN], step(0)),
        (&[OPEN], step(1)),
        (&[OPEN], step(ALL)),
        (&[OPEN], root(1, 0)),
        (&[OPEN], cell(0, 0, 0)),
        (&[OPEN], write_number(0, 0, 1)),
    ] {
        on_new_heap(desk, SMALL, &[&[FORMAT], &garbage()[..], before].concat());
        for i in 0..8 {
            desk.load(WAITING, i, MOST - i as u64);
        }
        desk.call(call);
    }
}

/// Marks in the first byte of the map, in the last one and between them.
fn every_byte(desk: &mut Desk) {
    let single = [allocate(1, 0), data(1, 1), allocate(1, 2), allocate(4, 3)];
    let fill = [data(8, 4), allocate(8, 5), allocate(8, 6), allocate(1, 7)];
    let names = [
        cell(24, 31, 17),
        cell(16, 0, 3),
        cell(2, 0, 1),
        cell(4, 15, 9),
    ];
    for let_go in [0, 1, 4, 8, 32, 36, 64, 255] {
        for budget in [1, 3] {
            on_new_heap(desk, [32, 2, 8], &[FORMAT]);
            calls(desk, &[&single[..], &fill, &names].concat());
            calls(desk, &[OPEN, chosen(let_go), CHECK]);
            calls(desk, &[step(budget); 5]);
            calls(desk, &[CHECK]);
            on_new_heap(desk, [32, 2, 8], &[FORMAT]);
            calls(desk, &[&single[..], &fill, &names].concat());
            calls(desk, &[chosen(let_go), OPEN, step(budget), CHECK]);
            calls(desk, &[step(budget); 5]);
        }
    }
}

/// 65,536 blocks: the last block is marked and listed, the list's last place is far behind.
fn largest(desk: &mut Desk) {
    let (all, half) = (MAX_BLOCKS, MAX_BLOCKS / 2);
    on_new_heap(desk, [all as u64, 2, 4], &[FORMAT]);
    desk.halves();
    calls(desk, &[cell(all - 1, 0, 1), CHECK, OPEN, step(1), CHECK]);
    calls(
        desk,
        &[
            allocate(1, 1),
            step(2),
            cell(0, 4 * half - 1, half + 1),
            step(1),
        ],
    );
    calls(desk, &[step(1), CHECK, step(ALL), FREE_BLOCKS, OPEN]);
    // Its last byte and its last places.
    for (buffer, index, wrong) in [(MARKS, all / 8 - 1, 64), (LIST, all - 1, 1), (LIST, all, 2)] {
        let right = desk.bench.number_at(buffer, index);
        desk.load(buffer, index, wrong);
        calls(desk, &[CHECK, step(1)]);
        desk.load(buffer, index, right);
        calls(desk, &[CHECK]);
    }
    calls(desk, &[step(ALL), COLLECT]);
    desk.lend_little();
}

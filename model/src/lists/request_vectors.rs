//! The lists of the large file that belong to requests of document 02. U4 has a file of its own.

use crate::lists::generate::Desk;
use crate::rules::calls::short::{allocate, cell, chosen, look, root};
use crate::rules::calls::Call;
use crate::rules::heap::MAX_NUMBER;

/// Values stored over themselves (U2), each case on a new heap.
pub fn present_values(desk: &mut Desk) {
    let format = Call::Format;
    // P9 in a cell. Then the object goes when the last reference does.
    let p9 = [cell(0, 0, 2), root(1, 0), cell(0, 0, 2), look(1)];
    let second_half = [
        cell(0, 1, 2),
        cell(0, 1, 2),
        look(1),
        cell(0, 0, 0),
        cell(0, 1, 0),
    ];
    let fill = [format, allocate(1, 0), allocate(1, 1)];
    on_new_heap(desk, [8, 2, 4], &[&fill[..], &p9, &second_half].concat());
    // A stuck object over itself, in a root and in a cell.
    let stick = [format, allocate(1, 0), root(1, 1), cell(0, 2, 1), look(0)];
    let over = [root(1, 1), cell(0, 2, 1), look(0), Call::Collect, look(0)];
    on_new_heap(desk, [8, 2, 4], &[stick, over].concat());
    // An unreached object, named by two of its own cells: stored over itself it still can be let go.
    let unreached = [
        format,
        allocate(1, 0),
        cell(0, 0, 1),
        root(0, 0),
        cell(0, 1, 1),
    ];
    let over = [
        cell(0, 0, 1),
        look(0),
        cell(0, 1, 0),
        look(0),
        cell(0, 0, 0),
    ];
    on_new_heap(desk, [8, 2, 4], &[unreached, over].concat());
    // Six roots at width 3, one stored over itself, all cleared: freed, not stuck.
    let hold = [1, 2, 3, 4, 5, 5].map(|r| root(r, 1));
    let clear = [0, 1, 2, 3, 4, 5].map(|r| root(r, 0));
    on_new_heap(
        desk,
        [8, 3, 6],
        &[&[format, allocate(1, 0)], &hold[..], &[look(0)], &clear].concat(),
    );
    // "Document 004 counts down first": the new object is held by the old one alone.
    let held = [
        format,
        allocate(1, 0),
        allocate(1, 1),
        cell(0, 0, 2),
        root(1, 0),
    ];
    on_new_heap(
        desk,
        [8, 2, 4],
        &[&held[..], &[root(0, 2), look(0), look(1)]].concat(),
    );
    let held = [
        format,
        allocate(1, 0),
        allocate(1, 1),
        allocate(1, 2),
        cell(1, 0, 3),
    ];
    let in_cell = [
        cell(0, 0, 2),
        root(1, 0),
        root(2, 0),
        cell(0, 0, 3),
        look(1),
        look(2),
    ];
    on_new_heap(desk, [8, 2, 4], &[&held[..], &in_cell].concat());
    // Rubbish in the waiting list: 0 over 0 in a root and in a cell, and an object over itself.
    for call in [root(1, 0), cell(0, 3, 0), root(0, 1)] {
        on_rubbish(desk, call);
    }
}

/// Sets of roots returned (U10), each case on a new heap.
pub fn returns(desk: &mut Desk) {
    let format = Call::Format;
    let all = u64::MAX;
    // The least set that is refused, and all roots of an empty heap.
    on_new_heap(
        desk,
        [8, 2, 4],
        &[format, chosen(16), chosen(15), chosen(1 << 63), chosen(all)],
    );
    // One object in roots 0 and 1.
    let two = [
        format,
        allocate(3, 0),
        root(1, 1),
        chosen(2),
        root(1, 1),
        chosen(3),
    ];
    on_new_heap(desk, [8, 2, 4], &two);
    // One in three roots, stuck.
    let three = [
        format,
        allocate(1, 0),
        root(1, 1),
        root(2, 1),
        chosen(7),
        look(0),
    ];
    on_new_heap(desk, [8, 2, 4], &three);
    // A cycle held by both roots.
    let cycle = [
        format,
        allocate(1, 0),
        allocate(1, 1),
        cell(0, 0, 2),
        cell(1, 0, 1),
    ];
    on_new_heap(
        desk,
        [8, 2, 4],
        &[&cycle[..], &[chosen(3), Call::Collect]].concat(),
    );
    // A set of which the last root frees nothing: the value is the sum.
    let sum = [
        format,
        allocate(2, 0),
        allocate(1, 1),
        allocate(1, 2),
        root(3, 3),
    ];
    on_new_heap(
        desk,
        [8, 2, 4],
        &[&sum[..], &[chosen(13), Call::FreeBlocks]].concat(),
    );
    // As many roots as bits, one fewer, and one alone.
    let last = [format, allocate(1, 0), allocate(2, 63), allocate(4, 62)];
    on_new_heap(
        desk,
        [8, 2, 64],
        &[&last[..], &[chosen(1 << 63), chosen(all)]].concat(),
    );
    on_new_heap(
        desk,
        [8, 2, 63],
        &[
            &last[..],
            &[chosen(1 << 63), chosen(1 << 62), chosen(all / 2)],
        ]
        .concat(),
    );
    on_new_heap(
        desk,
        [8, 2, 1],
        &[&last[..], &[chosen(2), chosen(0), chosen(1)]].concat(),
    );
    // Not formatted: damage comes before a wrong set.
    on_new_heap(desk, [8, 2, 4], &[chosen(16), chosen(0)]);
    // Rubbish in the waiting list: an empty set ends it, a refused one keeps it.
    for set in [0, 1, 16] {
        on_rubbish(desk, chosen(set));
    }
}

/// Objects that come to the capacity (U5), each case on a new heap.
pub fn moments(desk: &mut Desk) {
    let format = Call::Format;
    // Births at width 1, into a root that is in use, too, and births at the other widths.
    for width in 1..=4 {
        let births = [format, allocate(1, 0), allocate(2, 0), allocate(3, 1)];
        on_new_heap(
            desk,
            [8, width, 4],
            &[&births[..], &[look(0), look(2)]].concat(),
        );
    }
    // A birth that frees what stood in the root; and a refused one.
    let hold = [format, allocate(4, 0), allocate(3, 1), allocate(2, 1)];
    on_new_heap(
        desk,
        [8, 2, 2],
        &[&hold[..], &[allocate(4, 0), allocate(9, 0), allocate(1, 2)]].concat(),
    );
    // The third reference of width 2, a fourth one, and each of them over itself.
    let three = [
        format,
        allocate(1, 0),
        root(1, 1),
        cell(0, 0, 1),
        cell(0, 1, 1),
    ];
    let over = [
        root(1, 1),
        cell(0, 0, 1),
        cell(0, 1, 1),
        root(0, 1),
        look(0),
    ];
    on_new_heap(desk, [8, 2, 4], &[three, over].concat());
    // One below the capacity, over itself: in a root, in a cell.
    let two = [
        format,
        allocate(1, 0),
        cell(0, 3, 1),
        root(0, 1),
        cell(0, 3, 1),
        look(0),
    ];
    on_new_heap(desk, [8, 2, 4], &two);
    // Stuck; collected with three references and stuck as before; collected with two and stuck again.
    let stick = [
        format,
        allocate(1, 0),
        root(1, 1),
        root(2, 1),
        Call::Collect,
        look(0),
    ];
    let again = [
        root(2, 0),
        root(3, 1),
        Call::Collect,
        root(3, 0),
        Call::Collect,
        look(0),
        root(2, 1),
        look(0),
    ];
    on_new_heap(desk, [8, 2, 4], &[&stick[..], &again].concat());
    // The old object is one below the capacity and the new one is not; then the other way round.
    let olds = [
        format,
        allocate(1, 0),
        root(1, 1),
        allocate(1, 2),
        root(1, 2),
        look(0),
        look(1),
    ];
    let news = [root(3, 2), root(0, 2), look(1), Call::FreeBlocks];
    on_new_heap(desk, [8, 2, 4], &[&olds[..], &news].concat());
    // The new object is held by the old one alone, which goes; it comes to the capacity by that store.
    let held = [
        format,
        allocate(1, 0),
        allocate(1, 1),
        cell(0, 0, 2),
        cell(0, 1, 2),
        root(1, 0),
    ];
    on_new_heap(
        desk,
        [8, 2, 4],
        &[&held[..], &[look(1), root(0, 2), look(1)]].concat(),
    );
    // Refusals with an object one below the capacity.
    let refused = [
        root(4, 1),
        root(2, 2),
        cell(1, 0, 1),
        cell(0, 4, 1),
        cell(0, 0, 9),
        allocate(9, 0),
    ];
    on_new_heap(
        desk,
        [8, 2, 4],
        &[&[format, allocate(1, 0), root(1, 1)], &refused[..]].concat(),
    );
    // A return of three roots, and a collection, of a stuck object: neither tells of it.
    let stuck = [
        format,
        allocate(1, 0),
        root(1, 1),
        root(2, 1),
        chosen(6),
        Call::Collect,
        root(3, 1),
    ];
    on_new_heap(desk, [8, 2, 4], &stuck);
    // Width 3 with seven references and width 4 with fifteen, in the cells of the object itself; then one more.
    for (width, top) in [(3, 7), (4, 15)] {
        let cells: Vec<Call> = (0..top).map(|j| cell(0, j, 1)).collect();
        on_new_heap(
            desk,
            [8, width, 4],
            &[&[format, allocate(4, 0)], &cells[..], &[look(0)]].concat(),
        );
    }
}

/// These calls, on a new heap.
pub fn on_new_heap(desk: &mut Desk, shape: [u64; 3], calls: &[Call]) {
    desk.new_heap(shape);
    for call in calls {
        desk.call(*call);
    }
}

/// One object in root 0, rubbish in the waiting list, and this call.
fn on_rubbish(desk: &mut Desk, call: Call) {
    on_new_heap(desk, [8, 2, 4], &[Call::Format, allocate(1, 0)]);
    for i in 0..8 {
        desk.load(5, i, u64::from(MAX_NUMBER) - i as u64);
    }
    desk.call(call);
}

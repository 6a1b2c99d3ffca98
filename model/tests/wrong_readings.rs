//! "Plausible readings that are wrong": each is built here as a small variant and shown to give something
//! else than the model does, from the same heap.

mod common;
use common::{call_and_claims, fresh, say};
use model::rules::calls::short::{allocate, cell, root};
use model::rules::claims::{broken_claim, unsound};
use model::rules::collection::reached;
use model::rules::counting::{count_up, erase, references};
use model::rules::damage::damage;
use model::rules::heap::*;
use model::rules::sections::leave_list_true;
use model::{Call, Memory, Reply};

const N: usize = 8;

/// The values of accepted calls, one after another.
fn run(width: usize, memory: &mut Memory, calls: &[Call]) -> Vec<usize> {
    let mut values = Vec::new();
    for call in calls {
        let reply = call_and_claims(N, width, memory, *call);
        assert_eq!(reply.number, 0, "{call:?}");
        values.push(reply.value);
    }
    values
}

/// What look says: number, size, count.
fn look(width: usize, memory: &mut Memory, a: usize) -> (usize, usize, usize) {
    let reply = call_and_claims(N, width, memory, Call::Look { a });
    (reply.number, reply.value, reply.second)
}

/// "Taking the lowest run of n free blocks wherever it starts".
#[test]
fn lowest_run_wherever_it_starts() {
    let wrong = |memory: &Memory, n: usize| {
        (0..=N - n).find(|start| (*start..start + n).all(|i| !is_allocated(memory, i)))
    };
    let mut memory = fresh(N, 2, 4);
    run(2, &mut memory, &[allocate(1, 0)]);
    assert_eq!(wrong(&memory, 2), Some(1));
    assert_eq!(run(2, &mut memory, &[allocate(2, 1)]), [2]);
    // P2: blocks 3 and 7 free. P3 the other way: a run of 3 is there, a chunk of 4 is not.
    let mut memory = fresh(N, 2, 4);
    run(2, &mut memory, &[allocate(5, 0)]);
    assert_eq!(wrong(&memory, 3), Some(5));
    assert_eq!(call_and_claims(N, 2, &mut memory, allocate(3, 1)).number, 5);
    say("wrong reading: lowest run wherever it starts");
}

/// "or flipping all s."
#[test]
fn flipping_all_s() {
    let mut right = fresh(N, 2, 4);
    run(2, &mut right, &[allocate(3, 0)]);
    let mut wrong = right.clone();
    set_bit(&mut wrong.a, 3, 1);
    assert_eq!((right.a[0], wrong.a[0]), (7, 15));
    // "the rest stays free for smaller objects."
    let next = |memory: &Memory| (0..N).find(|i| !is_allocated(memory, *i));
    assert_eq!(run(2, &mut right, &[allocate(1, 1)]), [3]);
    assert_eq!(next(&wrong), Some(4));
    assert!(unsound(N, 2, &wrong).is_some());
    say("wrong reading: flipping all s");
}

/// "Leaving the B bit at 0 after a free: a later, longer object would seem to end there."
#[test]
fn leaving_the_b_bit() {
    let mut right = fresh(N, 2, 4);
    run(2, &mut right, &[allocate(2, 0)]);
    let mut wrong = right.clone();
    assert_eq!(run(2, &mut right, &[root(0, 0)]), [2]);
    wrong.roots[0] = 0;
    erase(N, 2, &mut wrong, 0);
    set_bit(&mut wrong.b, 1, 0);
    assert_eq!((right.b[0], wrong.b[0]), (255, 253));
    assert_eq!(damage(N, 2, &wrong), 1);
    // The later, longer object: four blocks.
    run(2, &mut right, &[allocate(4, 0)]);
    for i in 0..4 {
        set_bit(&mut wrong.a, i, 1);
    }
    set_bit(&mut wrong.b, 3, 0);
    assert_eq!((size(N, &right, 0), size(N, &wrong, 0)), (4, 2));
    say("wrong reading: leaving the B bit at 0");
}

/// Store 0 in a root, with a count-down that takes no notice of the capacity.
fn wrong_clear_counting_stuck_down(width: usize, memory: &mut Memory, r: usize) -> Reply {
    let first = memory.roots[r] as usize - 1;
    memory.roots[r] = 0;
    let now = count(N, width, memory, first);
    set_count(N, width, memory, first, now - 1);
    let size = size(N, memory, first);
    let value = if now == 1 { size } else { 0 };
    if now == 1 {
        erase(N, width, memory, first);
        leave_list_true(N, memory);
    }
    Reply {
        number: 0,
        value,
        second: 0,
    }
}

/// "Counting a stuck object down".
#[test]
fn counting_a_stuck_object_down() {
    // P4: three roots.
    let mut right = fresh(N, 2, 4);
    run(2, &mut right, &[allocate(1, 0), root(1, 1), root(2, 1)]);
    let mut wrong = right.clone();
    assert_eq!(
        run(2, &mut right, &[root(0, 0), root(1, 0), root(2, 0)]),
        [0, 0, 0]
    );
    assert_eq!(look(2, &mut right, 0), (0, 1, 3));
    let values: Vec<usize> = (0..3)
        .map(|r| wrong_clear_counting_stuck_down(2, &mut wrong, r).value)
        .collect();
    assert_eq!(values, [0, 0, 1]);
    // Four roots: the wrong one frees while root 3 still leads there, which the claims see.
    let mut wrong = fresh(N, 2, 4);
    let fill = [allocate(1, 0), root(1, 1), root(2, 1), root(3, 1)];
    run(2, &mut wrong, &fill);
    wrong_clear_counting_stuck_down(2, &mut wrong, 0);
    wrong_clear_counting_stuck_down(2, &mut wrong, 1);
    let before = wrong.clone();
    let reply = wrong_clear_counting_stuck_down(2, &mut wrong, 2);
    assert_eq!(reply.value, 1);
    assert!(broken_claim(N, 2, &before, root(2, 0), reply, &wrong).is_some());
    // P6: w = 1.
    let mut right = fresh(N, 1, 4);
    run(1, &mut right, &[allocate(1, 0)]);
    let mut wrong = right.clone();
    assert_eq!(run(1, &mut right, &[root(0, 0)]), [0]);
    assert_eq!(wrong_clear_counting_stuck_down(1, &mut wrong, 0).value, 1);
    say("wrong reading: counting a stuck object down");
}

/// "or treating 2^w as the capacity."
#[test]
fn two_to_the_w_as_the_capacity() {
    for width in 1..=4usize {
        let wrong_capacity = 1 << width;
        // As many references as the right capacity.
        let mut right = fresh(N, width, 4);
        run(width, &mut right, &[allocate(4, 0)]);
        for j in 1..wrong_capacity - 1 {
            run(width, &mut right, &[cell(0, j, 1)]);
        }
        let top = wrong_capacity - 1;
        assert_eq!(look(width, &mut right, 0), (0, 4, top));
        // One reference less: right stays stuck, wrong counts down.
        let now = count(N, width, &right, 0);
        let wrong_down = if now == wrong_capacity { now } else { now - 1 };
        let mut less = right.clone();
        run(width, &mut less, &[root(0, 0)]);
        assert_eq!(look(width, &mut less, 0), (0, 4, top));
        assert_eq!(wrong_down, top - 1);
        // One reference more: right stays stuck, wrong writes 2^w into w bits, which is 0.
        let mut more = right.clone();
        run(width, &mut more, &[root(1, 1)]);
        assert_eq!(look(width, &mut more, 0), (0, 4, top));
        let mut wrong = right.clone();
        set_count(N, width, &mut wrong, 0, now + 1);
        wrong.roots[1] = 1;
        assert_eq!(count(N, width, &wrong, 0), 0);
        assert_eq!(damage(N, width, &wrong), 5);
    }
    say("wrong reading: 2^w as the capacity, at each width");
}

/// "Counting references from unreached objects in a collection."
#[test]
fn counting_from_unreached_objects() {
    // Y names X in root 0, and itself, so that it stays when its root is cleared.
    let mut right = fresh(N, 2, 4);
    let fill = [
        allocate(1, 0),
        allocate(1, 1),
        cell(1, 0, 1),
        cell(1, 1, 2),
        root(1, 0),
    ];
    run(2, &mut right, &fill);
    let mut wrong = right.clone();
    let before = right.clone();
    assert_eq!(run(2, &mut right, &[Call::Collect]), [1]);
    assert_eq!(look(2, &mut right, 0), (0, 1, 1));
    for first in reached(N, &before) {
        set_count(
            N,
            2,
            &mut wrong,
            first,
            references(N, &before.cells, &before)[first].min(3),
        );
    }
    erase(N, 2, &mut wrong, 1);
    leave_list_true(N, &mut wrong);
    assert_eq!(count(N, 2, &wrong, 0), 2);
    assert_eq!(damage(N, 2, &wrong), 5);
    let reply = Reply {
        number: 0,
        value: 1,
        second: 0,
    };
    assert!(broken_claim(N, 2, &before, Call::Collect, reply, &wrong).is_some());
    say("wrong reading: counting references from unreached objects");
}

/// "Freeing the dropped object without letting go of what its cells name".
#[test]
fn not_letting_go_of_what_the_cells_name() {
    // P8.
    let mut right = fresh(N, 2, 4);
    run(
        2,
        &mut right,
        &[allocate(2, 0), allocate(1, 1), cell(0, 7, 3), root(1, 0)],
    );
    let mut wrong = right.clone();
    assert_eq!(run(2, &mut right, &[root(0, 0)]), [3]);
    let free = free_count(N, &wrong);
    wrong.roots[0] = 0;
    erase(N, 2, &mut wrong, 0);
    assert_eq!(free_count(N, &wrong) - free, 2);
    assert_eq!(damage(N, 2, &wrong), 5);
    say("wrong reading: not letting go of what the cells name");
}

/// "or letting go once for two equal cells."
#[test]
fn letting_go_once_for_two_equal_cells() {
    let mut right = fresh(N, 2, 4);
    let fill = [allocate(1, 0), allocate(1, 1), cell(0, 0, 2), cell(0, 2, 2)];
    run(2, &mut right, &fill);
    // At capacity it would stay: 3 references. So the width is 3 in a second try.
    run(2, &mut right, &[root(1, 0)]);
    assert_eq!(look(2, &mut right, 1), (0, 1, 3));
    let mut right = fresh(N, 3, 4);
    run(3, &mut right, &fill);
    run(3, &mut right, &[root(1, 0)]);
    let mut wrong = right.clone();
    assert_eq!(run(3, &mut right, &[root(0, 0)]), [2]);
    let names: std::collections::BTreeSet<Ref> = wrong.cells[0..4].iter().copied().collect();
    wrong.roots[0] = 0;
    erase(N, 3, &mut wrong, 0);
    for v in names.into_iter().filter(|v| *v != 0) {
        let now = count(N, 3, &wrong, v as usize - 1);
        set_count(N, 3, &mut wrong, v as usize - 1, now - 1);
    }
    assert_eq!(count(N, 3, &wrong, 1), 1);
    assert_eq!(damage(N, 3, &wrong), 5);
    say("wrong reading: letting go once for two equal cells");
}

/// "Clearing counts before marking and losing one when an object is met a second time." Two ways to do so.
#[test]
fn losing_a_count_when_met_again() {
    let mut right = fresh(N, 3, 4);
    run(3, &mut right, &[allocate(1, 0), root(1, 1), root(2, 1)]);
    let before = right.clone();
    assert_eq!(run(3, &mut right, &[Call::Collect]), [0]);
    assert_eq!(look(3, &mut right, 0), (0, 1, 3));
    let due = count(N, 3, &right, 0);
    // A count above 0 is taken for the mark, and the second meeting does nothing.
    let mut wrong = before.clone();
    wrong.counts.fill(0);
    for v in before.roots.iter().filter(|v| **v != 0) {
        if count(N, 3, &wrong, *v as usize - 1) == 0 {
            set_count(N, 3, &mut wrong, *v as usize - 1, 1);
        }
    }
    assert_eq!((due, count(N, 3, &wrong, 0)), (3, 1));
    assert_eq!(damage(N, 3, &wrong), 5);
    // The first meeting marks, and only later ones count.
    let mut wrong = before.clone();
    wrong.counts.fill(0);
    let mut marked = std::collections::BTreeSet::new();
    for v in before.roots.iter().filter(|v| **v != 0) {
        if !marked.insert(*v) {
            count_up(N, 3, &mut wrong, *v);
        }
    }
    assert_eq!((due, count(N, 3, &wrong, 0)), (3, 2));
    assert_eq!(damage(N, 3, &wrong), 5);
    say("wrong reading: losing a count when an object is met again");
}

/// "Document 004 counts down first, which would free an object stored over itself." Since U2 that store does nothing;
/// what tells is a new object held by the old one alone.
#[test]
fn counting_down_first() {
    let mut right = fresh(N, 2, 4);
    let fill = [allocate(1, 0), allocate(1, 1), cell(0, 0, 2), root(1, 0)];
    run(2, &mut right, &fill);
    let before = right.clone();
    assert_eq!(run(2, &mut right, &[root(0, 2)]), [1]);
    assert_eq!(look(2, &mut right, 1), (0, 1, 1));
    // The old object is let go first, and the new one with it.
    let mut wrong = before.clone();
    let values = run(2, &mut wrong, &[root(0, 0)]);
    wrong.roots[0] = 2;
    assert_eq!(values, [2]);
    assert_eq!(damage(N, 2, &wrong), 4);
    let reply = Reply {
        number: 0,
        value: 2,
        second: 0,
    };
    assert!(broken_claim(N, 2, &before, root(0, 2), reply, &wrong).is_some());
    say("wrong reading: counting down first");
}

/// "The search happens before the old root reference is let go, so what that frees is not used by this call."
#[test]
fn letting_go_before_the_search() {
    let mut right = fresh(N, 2, 4);
    run(2, &mut right, &[allocate(8, 0)]);
    let mut wrong = right.clone();
    assert_eq!(call_and_claims(N, 2, &mut right, allocate(8, 0)).number, 5);
    run(2, &mut wrong, &[root(0, 0)]);
    assert_eq!(call_and_claims(N, 2, &mut wrong, allocate(8, 0)).number, 0);
    say("wrong reading: letting go before the search");
}

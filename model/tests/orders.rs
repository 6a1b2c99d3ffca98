//! Document 02, U7: "Implementers differ in the order of taking the objects waiting to be freed. Show that from
//! an undamaged heap each order ends in the same maps, cells, counts and freed blocks." Every call of random lists
//! is made in several orders, a random pick among them; and two heaps that are wrong are told apart.

mod common;
use common::{each_call, say};
use model::lists::families::FAMILIES;
use model::lists::file::Bench;
use model::lists::generate::Desk;
use model::lists::random::Random;
use model::rules::calls::apply_in_order;
use model::rules::counting::{count_up, erase, longest_waiting, Order};
use model::rules::heap::*;
use model::rules::sections::leave_list_true;
use model::{apply, Call, Memory, Reply};

/// Carries out a call in an order.
type Heap = fn(usize, usize, &mut Memory, Call, Order) -> Reply;

/// What was tried.
#[derive(Default)]
struct Tried {
    /// Calls, each in every order.
    calls: usize,
    /// Takings with more than one object to choose from.
    choices: usize,
    /// Calls that ended otherwise than the model's own in some order.
    differences: usize,
}

/// One call by this heap in each order, against the model in its own.
fn try_call(heap: Heap, bench: &Bench, call: Call, random: &mut Random, tried: &mut Tried) {
    let mut due = bench.memory.clone();
    let reply_due = apply(bench.blocks, bench.width, &mut due, call);
    let choices = &mut tried.choices;
    let mut pick = |waiting: &[usize]| {
        *choices += usize::from(waiting.len() > 1);
        random.below(waiting.len())
    };
    let mut lowest = |waiting: &[usize]| {
        let least = waiting.iter().min().unwrap();
        waiting.iter().position(|first| first == least).unwrap()
    };
    let mut last_pushed = |waiting: &[usize]| waiting.len() - 1;
    let orders: [Order; 4] = [
        &mut pick,
        &mut lowest,
        &mut last_pushed,
        &mut longest_waiting,
    ];
    let mut same = true;
    for order in orders {
        let mut memory = bench.memory.clone();
        let reply = heap(bench.blocks, bench.width, &mut memory, call, order);
        // Maps, counts, cells, roots, the waiting list too; and the value, the number of freed blocks.
        same &= memory == due && reply == reply_due;
    }
    tried.calls += 1;
    tried.differences += usize::from(!same);
}

/// Objects that are all held by the one in root 0, each named by one cell or two of those before it.
fn tangle(seed: u64) -> Bench {
    let mut random = Random::new(seed);
    let shape = [random.pick(&[16, 32, 64]), 2 + seed % 3, 2];
    let mut desk = Desk::new(random, shape);
    desk.call(Call::Format);
    desk.call(Call::Allocate { n: 4, r: 0 });
    for _ in 0..desk.blocks() {
        let n = 1 + desk.random.below(2);
        let owners = [desk.some_object(), desk.some_object()];
        let reply = desk.call(Call::Allocate { n, r: 1 });
        for a in owners {
            let j = desk.random.below(desk.cells_of(a));
            if reply.number == 0 && desk.bench.memory.cells[4 * a + j] == 0 {
                let v = 1 + reply.value;
                desk.call(Call::StoreCell { a, j, v });
            }
        }
        desk.call(Call::StoreRoot { r: 1, v: 0 });
    }
    desk.bench
}

/// Every call of lists of every family, and tangles let go by one store.
fn try_all(heap: Heap) -> Tried {
    let mut tried = Tried::default();
    for (family, _) in FAMILIES {
        for seed in 0..40 {
            let mut random = Random::new(seed);
            each_call(family, seed, 120, |bench, call| {
                try_call(heap, bench, call, &mut random, &mut tried);
            });
        }
    }
    for seed in 0..150 {
        let clear = Call::StoreRoot { r: 0, v: 0 };
        try_call(
            heap,
            &tangle(seed),
            clear,
            &mut Random::new(seed),
            &mut tried,
        );
    }
    tried
}

#[test]
fn each_order_ends_the_same() {
    let tried = try_all(apply_in_order);
    assert_eq!(tried.differences, 0);
    assert!(tried.choices > 1000, "{}", tried.choices);
    say(&format!(
        "every family, and tangles: {} calls in four orders, {} random picks among several",
        tried.calls, tried.choices
    ));
}

/// What is wrong with a heap.
#[derive(Clone, Copy, PartialEq)]
enum Fault {
    /// An object is counted down twice for one cell, when the owner of the cell is taken.
    CountedDownTwice,
    /// An object that begins to wait is put on the list twice.
    PushedTwice,
}

/// A store whose release has a fault. All else is the model's.
fn faulty(fault: Fault, memory: &mut Memory, shape: [usize; 2], call: Call, order: Order) -> Reply {
    let [blocks, width] = shape;
    let mut right = memory.clone();
    let reply = apply(blocks, width, &mut right, call);
    let written = match call {
        Call::StoreRoot { r, v } if reply.number == 0 => (&mut memory.roots[r], v),
        Call::StoreCell { a, j, v } if reply.number == 0 => (&mut memory.cells[4 * a + j], v),
        _ => {
            *memory = right;
            return reply;
        }
    };
    let (place, v) = (written.0, written.1 as Ref);
    let old = std::mem::replace(place, v);
    count_up(blocks, width, memory, v);
    let mut waiting = Vec::new();
    count_down(fault, 1, memory, shape, old, &mut waiting);
    let mut freed = 0;
    while !waiting.is_empty() {
        let first = waiting.remove(order(&waiting));
        let cells = memory.cells[cell_places(blocks, memory, first)].to_vec();
        freed += size(blocks, memory, first);
        erase(blocks, width, memory, first);
        let times = if fault == Fault::CountedDownTwice {
            2
        } else {
            1
        };
        for v in cells {
            count_down(fault, times, memory, shape, v, &mut waiting);
        }
    }
    memory.waiting.fill(0);
    leave_list_true(blocks, memory);
    Reply {
        value: freed,
        ..reply
    }
}

/// So many count-downs. What a wrong heap has freed already is left alone.
fn count_down(
    fault: Fault,
    times: usize,
    memory: &mut Memory,
    [blocks, width]: [usize; 2],
    v: Ref,
    waiting: &mut Vec<usize>,
) {
    for _ in 0..times {
        let Some(first) = named(blocks, memory, v) else {
            return;
        };
        let now = count(blocks, width, memory, first);
        if now == 0 || now == capacity(width) {
            return;
        }
        set_count(blocks, width, memory, first, now - 1);
        if now == 1 {
            waiting.push(first);
            if fault == Fault::PushedTwice {
                waiting.push(first);
            }
        }
    }
}

#[test]
fn wrong_heaps_are_told_apart() {
    let heaps: [(&str, Heap); 2] = [
        (
            "counted down twice at one taking",
            |blocks, width, memory, call, order| {
                faulty(
                    Fault::CountedDownTwice,
                    memory,
                    [blocks, width],
                    call,
                    order,
                )
            },
        ),
        (
            "pushed twice onto the waiting list",
            |blocks, width, memory, call, order| {
                faulty(Fault::PushedTwice, memory, [blocks, width], call, order)
            },
        ),
    ];
    for (name, heap) in heaps {
        let tried = try_all(heap);
        assert!(tried.differences > 100, "{name}: {}", tried.differences);
        say(&format!(
            "a wrong heap, {name}: {} calls of {} end otherwise",
            tried.differences, tried.calls
        ));
    }
}

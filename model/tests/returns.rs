//! Document 02, U10: "Give one call a set of roots as a 64-bit number, bit r for root r." "With no collection open,
//! the heap afterwards is that of clearing them singly in whatever order; with one open, in ascending order." The heaps of half of the
//! lists have one open: there, too, no order was met that ends otherwise.

mod common;
use common::{call_and_claims, each_call, fresh, say};
use model::lists::families::FAMILIES;
use model::lists::file::Bench;
use model::lists::generate::Desk;
use model::lists::random::Random;
use model::rules::calls::is_chosen;
use model::rules::calls::short::{allocate, cell, root};
use model::{apply, Call, Memory, Reply};

/// Makes a return: the model's, or a wrong one.
type Return = fn(usize, usize, &mut Memory, u64) -> Reply;

fn return_roots(blocks: usize, width: usize, memory: &mut Memory, chosen: u64) -> Reply {
    apply(blocks, width, memory, Call::ReturnRoots { chosen })
}

/// Clears roots singly, in this order. The values.
fn clear_singly(blocks: usize, width: usize, memory: &mut Memory, roots: &[usize]) -> Vec<usize> {
    let mut values = Vec::new();
    for r in roots {
        let reply = apply(blocks, width, memory, Call::StoreRoot { r: *r, v: 0 });
        assert_eq!(reply.number, 0);
        values.push(reply.value);
    }
    values
}

/// The roots of a set, ascending.
fn roots_of(chosen: u64) -> Vec<usize> {
    (0..64).filter(|r| is_chosen(chosen, *r)).collect()
}

/// Orders of the roots of a set, each root once: all of them where they are few, else some.
fn orders(random: &mut Random, chosen: u64) -> Vec<Vec<usize>> {
    let roots = roots_of(chosen);
    if roots.len() <= 4 {
        return every_order(&roots);
    }
    (0..5).map(|_| some_order(random, roots.clone())).collect()
}

fn every_order(roots: &[usize]) -> Vec<Vec<usize>> {
    if roots.is_empty() {
        return vec![Vec::new()];
    }
    let mut orders = Vec::new();
    for (k, first) in roots.iter().enumerate() {
        let others = [&roots[..k], &roots[k + 1..]].concat();
        for rest in every_order(&others) {
            orders.push([&[*first], &rest[..]].concat());
        }
    }
    orders
}

fn some_order(random: &mut Random, mut roots: Vec<usize>) -> Vec<usize> {
    for k in (1..roots.len()).rev() {
        roots.swap(k, random.below(k + 1));
    }
    roots
}

/// What was tried.
#[derive(Default)]
struct Tried {
    returns: usize,
    orders: usize,
    /// Returns that freed something.
    freeing: usize,
    /// Returns that ended otherwise than single stores in some order.
    differences: usize,
}

/// A return of a random set, against clearing its roots singly. An unsound or misshapen heap isn't tried.
fn try_return(make: Return, bench: &Bench, random: &mut Random, tried: &mut Tried) {
    let (blocks, width) = (bench.blocks, bench.width);
    let mut memory = bench.memory.clone();
    if apply(blocks, width, &mut memory, Call::Check).number != 0 {
        return;
    }
    let there = u64::MAX >> (64 - memory.roots.len());
    let chosen = random.word() & there;
    let reply = make(blocks, width, &mut memory, chosen);
    assert_eq!((reply.number, reply.second), (0, 0));
    let mut same = memory.waiting.iter().all(|v| *v == 0);
    for order in orders(random, chosen) {
        let mut singly = bench.memory.clone();
        let values = clear_singly(blocks, width, &mut singly, &order);
        same &= memory.same_but_for_waiting(&singly);
        same &= reply.value == values.iter().sum::<usize>();
        tried.orders += 1;
    }
    tried.returns += 1;
    tried.freeing += usize::from(reply.value > 0);
    tried.differences += usize::from(!same);
}

/// Returns on the way of lists of every family, and on heaps with as many roots as there can be.
fn try_all(make: Return) -> Tried {
    let mut tried = Tried::default();
    let mut random = Random::new(7);
    for (family, _) in FAMILIES {
        for seed in 0..20 {
            let mut k = 0;
            each_call(family, seed, 120, |bench, _| {
                k += 1;
                if k % 8 == 0 {
                    try_return(make, bench, &mut random, &mut tried);
                }
            });
        }
    }
    for seed in 0..160 {
        let mut desk = Desk::new(Random::new(seed), [32, 1 + seed % 4, 63 + seed / 4 % 2]);
        desk.call(Call::Format);
        for _ in 0..60 {
            let call = desk.some_call();
            desk.call(call);
        }
        try_return(make, &desk.bench, &mut random, &mut tried);
    }
    tried
}

#[test]
fn a_return_is_single_stores_in_every_order() {
    let tried = try_all(return_roots);
    assert_eq!(tried.differences, 0);
    assert!(tried.freeing > 500, "{}", tried.freeing);
    say(&format!(
        "{} returns against {} orders of clearing singly, {} of them freed something",
        tried.returns, tried.orders, tried.freeing
    ));
}

#[test]
fn wrong_returns_are_told_apart() {
    let wrong: [(&str, Return); 4] = [
        ("starts at root 1", |blocks, width, memory, chosen| {
            return_roots(blocks, width, memory, chosen & !1)
        }),
        (
            "clears the roots not in the set",
            |blocks, width, memory, chosen| {
                let there = u64::MAX >> (64 - memory.roots.len());
                return_roots(blocks, width, memory, !chosen & there)
            },
        ),
        ("stops before root 63", |blocks, width, memory, chosen| {
            return_roots(blocks, width, memory, chosen & u64::MAX >> 1)
        }),
        ("gives the last value", |blocks, width, memory, chosen| {
            let values = clear_singly(blocks, width, memory, &roots_of(chosen));
            memory.waiting.fill(0);
            Reply {
                number: 0,
                value: values.last().copied().unwrap_or(0),
                second: 0,
            }
        }),
    ];
    for (name, make) in wrong {
        let tried = try_all(make);
        assert!(tried.differences > 0, "{name}");
        say(&format!(
            "a wrong return, {name}: {} of {} end otherwise",
            tried.differences, tried.returns
        ));
    }
}

/// "It is refused with 4 if any bit is at or past the number of roots", and only then.
#[test]
fn each_bit_with_each_number_of_roots() {
    for roots in 1..=64 {
        let mut memory = fresh(8, 2, roots);
        for r in 0..64 {
            for chosen in [1 << r, 1 << r | 1] {
                memory.waiting.fill(9);
                let before = memory.clone();
                let reply = call_and_claims(8, 2, &mut memory, Call::ReturnRoots { chosen });
                let number = if r < roots { 0 } else { 4 };
                assert_eq!((reply.number, reply.value), (number, 0));
                let due = if number == 0 { [0; 8] } else { [9; 8] };
                assert_eq!(memory.waiting, due);
                assert!(memory.same_but_for_waiting(&before));
            }
        }
    }
}

/// The cases of the vectors, with their values.
#[test]
fn by_hand() {
    let cycle = [allocate(1, 0), allocate(1, 1), cell(0, 0, 2), cell(1, 0, 1)];
    let last = [allocate(1, 0), allocate(2, 62), allocate(4, 63)];
    for (roots, fill, chosen, number, value) in [
        (4, &[][..], 16, 4, 0),
        (4, &[][..], 15, 0, 0),
        (4, &[allocate(3, 0), root(1, 1)], 3, 0, 3),
        (4, &[allocate(3, 0), root(1, 1)], 2, 0, 0),
        (4, &[allocate(1, 0), root(1, 1), root(2, 1)], 7, 0, 0),
        (4, &cycle, 3, 0, 0),
        (64, &last, u64::MAX, 0, 7),
        (63, &last[..2], 1 << 63, 4, 0),
        (63, &last[..2], 1 << 62, 0, 2),
    ] {
        let mut memory = fresh(8, 2, roots);
        for call in fill {
            assert_eq!(call_and_claims(8, 2, &mut memory, *call).number, 0);
        }
        let reply = call_and_claims(8, 2, &mut memory, Call::ReturnRoots { chosen });
        assert_eq!((reply.number, reply.value), (number, value), "{chosen}");
    }
    // A damaged heap with a wrong set: 2 comes first; and 1 before that.
    let mut memory = Memory::zeros(8, 2, 4);
    assert_eq!(return_roots(8, 2, &mut memory, 16).number, 2);
    assert_eq!(return_roots(12, 2, &mut memory, 16).number, 1);
}

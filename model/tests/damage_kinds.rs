//! The damage kinds: every part of kinds 1 to 5 and 7 by hand, all A and B maps of eight blocks, and random damage.

mod common;
use common::{fresh, say};
use model::rules::claims::unsound;
use model::rules::damage::{damage, kind_1, kind_2};
use model::rules::heap::*;
use model::rules::mark_claims::ill_marked;
use model::rules::section_claims::untrue_list;
use model::texts::trace;
use model::{apply, Call, Memory};
use std::sync::atomic::{AtomicUsize, Ordering};

/// X of two blocks at 0 in roots 0 and 1, naming Y of one block at 2 in its cell 7. w = 2.
fn sample() -> Memory {
    let mut memory = fresh(8, 2, 4);
    let calls = [
        Call::Allocate { n: 2, r: 0 },
        Call::StoreRoot { r: 1, v: 1 },
        Call::Allocate { n: 1, r: 2 },
        Call::StoreCell { a: 0, j: 7, v: 3 },
        Call::StoreRoot { r: 2, v: 0 },
    ];
    for call in calls {
        assert_eq!(apply(8, 2, &mut memory, call).number, 0);
    }
    assert_eq!(damage(8, 2, &memory), 0);
    memory
}

/// How many changes were tried.
static CHANGES: AtomicUsize = AtomicUsize::new(0);

/// The kind after a change to the sample.
fn kind(change: impl Fn(&mut Memory)) -> usize {
    CHANGES.fetch_add(1, Ordering::Relaxed);
    let mut memory = sample();
    change(&mut memory);
    damage(8, 2, &memory)
}

#[test]
fn each_part_of_each_kind() {
    // 1: a 0 in the B-map on a free block.
    assert_eq!(kind(|m| set_bit(&mut m.b, 5, 0)), 1);
    assert_eq!(kind(|m| set_bit(&mut m.a, 2, 0)), 1);
    // 2: an open end before a free block, and at the end of the heap.
    assert_eq!(kind(|m| set_bit(&mut m.b, 2, 1)), 2);
    assert_eq!(kind(|m| set_bit(&mut m.a, 7, 1)), 2);
    // 3: X and Y run together to three blocks at 0 is aligned; Y and 3 at 2 too; 1 to 2 is not.
    assert_ne!(kind(|m| set_bit(&mut m.b, 1, 1)), 3);
    assert_eq!(
        kind(|m| {
            set_bit(&mut m.b, 0, 0);
            set_bit(&mut m.b, 1, 1);
        }),
        3
    );
    // 4: a cell of a free block, even with a good name; a cell or root that names no first block.
    assert_eq!(kind(|m| m.cells[4 * 3] = 1), 4);
    assert_eq!(kind(|m| m.cells[31] = MAX_NUMBER), 4);
    assert_eq!(kind(|m| m.cells[0] = 2), 4);
    assert_eq!(kind(|m| m.cells[0] = 9), 4);
    assert_eq!(kind(|m| m.roots[3] = 4), 4);
    assert_eq!(kind(|m| m.roots[3] = 9), 4);
    // 5: a count where no object starts, on a free block or inside an object.
    assert_eq!(kind(|m| set_count(8, 2, m, 5, 1)), 5);
    assert_eq!(kind(|m| set_count(8, 2, m, 1, 3)), 5);
    // 5: an object with count 0; a count that is not the number of references.
    assert_eq!(kind(|m| set_count(8, 2, m, 2, 0)), 5);
    assert_eq!(
        kind(|m| {
            set_count(8, 2, m, 2, 0);
            m.cells[7] = 0;
        }),
        5
    );
    assert_eq!(kind(|m| set_count(8, 2, m, 0, 1)), 5);
    assert_eq!(kind(|m| m.roots[3] = 1), 5);
    assert_eq!(kind(|m| m.cells[0] = 3), 5);
    // 7: a D bit where no object starts, on a free block or inside an object.
    assert_eq!(kind(|m| set_bit(&mut m.data, 1, 1)), 7);
    assert_eq!(kind(|m| set_bit(&mut m.data, 3, 1)), 7);
    assert_eq!(kind(|m| set_bit(&mut m.data, 7, 1)), 7);
    // Not damage: data that names nothing. Data that named something: a count is too large then.
    assert_eq!(kind(|m| set_bit(&mut m.data, 2, 1)), 0);
    assert_eq!(kind(|m| set_bit(&mut m.data, 0, 1)), 5);
    // Not damage: a count at capacity, with any number of references, none included; the waiting list.
    assert_eq!(kind(|m| set_count(8, 2, m, 0, 3)), 0);
    assert_eq!(
        kind(|m| {
            set_count(8, 2, m, 0, 3);
            m.roots.fill(0);
        }),
        0
    );
    assert_eq!(kind(|m| m.waiting.fill(MAX_NUMBER)), 0);
    // "Each is tested over the whole heap before the next": the lower kind at the higher block.
    assert_eq!(
        kind(|m| {
            m.cells[0] = 2;
            set_bit(&mut m.b, 7, 0);
        }),
        1
    );
    assert_eq!(
        kind(|m| {
            set_count(8, 2, m, 0, 0);
            m.roots[3] = 9;
        }),
        4
    );
    assert_eq!(
        kind(|m| {
            set_bit(&mut m.data, 1, 1);
            set_count(8, 2, m, 2, 0);
        }),
        5
    );
    let changes = CHANGES.load(Ordering::Relaxed);
    say(&format!(
        "{changes} changes to a heap, each with its damage kind"
    ));
}

/// All 65,536 pairs of maps of eight blocks, in a heap of count width 1 that is otherwise fresh.
fn all_pairs_of_maps() -> impl Iterator<Item = Memory> {
    let bytes = |one: u8| (0..=255).map(move |other| [one, other]);
    (0..=255).flat_map(bytes).map(|pair| {
        let mut memory = fresh(8, 1, 1);
        [memory.a[0], memory.b[0]] = pair;
        memory
    })
}

/// With count 1, the capacity, at each first block: no damage is found exactly where demand 3's claims hold.
#[test]
fn all_maps_of_eight_blocks() {
    let mut met = [0; 8];
    for mut memory in all_pairs_of_maps() {
        for first in first_blocks(8, &memory) {
            set_count(8, 1, &mut memory, first, 1);
        }
        let kind = damage(8, 1, &memory);
        met[kind] += 1;
        assert_eq!(kind == 0, unsound(8, 1, &memory).is_none(), "{memory:?}");
    }
    say(&format!("65536 pairs of maps, kinds 0 to 7: {met:?}"));
}

/// Document 02, U9: "Show that a heap passing kinds 1 and 2 has as many objects as 0 bits in the B-map." Neither
/// kind alone is enough.
#[test]
fn objects_are_the_ends_without_kinds_1_and_2() {
    let [mut pairs, mut passing, mut passing_1, mut passing_2] = [0; 4];
    for memory in all_pairs_of_maps() {
        let differs = first_blocks(8, &memory).len() != memory.b[0].count_zeros() as usize;
        let passes = [!kind_1(8, &memory), !kind_2(8, &memory)];
        assert!(!differs || passes != [true, true], "{memory:?}");
        pairs += 1;
        passing += usize::from(passes == [true, true]);
        passing_1 += usize::from(passes[0] && differs);
        passing_2 += usize::from(passes[1] && differs);
    }
    assert_eq!(pairs, 65_536);
    say(&format!(
        "{passing} of {pairs} pairs of maps pass kinds 1 and 2; objects and ends differ in {passing_1} that pass \
         kind 1, and in {passing_2} that pass kind 2"
    ));
    assert_eq!((passing, passing_1, passing_2), (1597, 4964, 14_163));
}

/// The damaged memories that `model damaged` prints: damage and the claims agree, and each call refuses.
#[test]
fn random_damage() {
    let (mut met, mut untrue, mut ill) = ([0; 8], [0; 2], [0; 2]);
    for line in trace::damaged(3, 4000).lines() {
        let fields: Vec<Vec<Ref>> = line
            .split('|')
            .map(|field| {
                field
                    .split_whitespace()
                    .map(|w| w.parse().unwrap())
                    .collect()
            })
            .collect();
        let bytes = |k: usize| fields[k].iter().map(|n| *n as u8).collect::<Vec<u8>>();
        let (blocks, width) = (fields[0][0] as usize, fields[0][1] as usize);
        let mut memory = Memory {
            a: bytes(1),
            b: bytes(2),
            counts: bytes(3),
            cells: fields[4].clone(),
            roots: fields[5].clone(),
            waiting: fields[6].clone(),
            sections: fields[7].clone(),
            data: bytes(8),
            marks: bytes(9),
            list: fields[10].clone(),
        };
        let kind = fields[11][0] as usize;
        let is_untrue = untrue_list(blocks, &memory).is_some();
        untrue[usize::from(kind != 0)] += usize::from(is_untrue);
        let is_ill_marked = kind == 0 && ill_marked(blocks, &memory).is_some();
        ill[usize::from(is_untrue)] += usize::from(is_ill_marked);
        met[kind] += 1;
        assert_eq!(damage(blocks, width, &memory), kind);
        assert_eq!(kind == 0, unsound(blocks, width, &memory).is_none());
        for call in [
            Call::Check,
            Call::Allocate { n: 0, r: 9 },
            Call::StoreRoot { r: 9, v: 9 },
            Call::StoreCell {
                a: 99,
                j: 99,
                v: 99,
            },
            Call::Look { a: 99 },
            Call::FreeBlocks,
            Call::Collect,
            Call::ReturnRoots { chosen: u64::MAX },
            Call::AllocateData { n: 0, r: 9 },
            Call::WriteNumber { a: 99, j: 99, v: 9 },
            Call::ReadNumber { a: 99, j: 99 },
            Call::OpenCollection,
            Call::StepCollection { budget: 0 },
        ] {
            let reply = common::call_and_claims(blocks, width, &mut memory, call);
            assert_eq!(reply.number == 2, kind != 0);
            assert!(kind == 0 || reply.value == kind);
            // "11, the list doesn't match the maps, next after 2."
            assert_eq!(reply.number == 11, kind == 0 && is_untrue);
            // 13 "next after 11". The two calls that may be accepted come last.
            assert_eq!(reply.number == 13, is_ill_marked && !is_untrue);
        }
    }
    let met_kinds = [0, 1, 2, 3, 4, 5, 7].map(|kind| met[kind]);
    assert!(met_kinds.iter().chain(&untrue).all(|number| *number > 100));
    assert!(ill[0] > 100 && ill[1] > 10, "{ill:?}");
    say(&format!(
        "4000 damaged memories, kinds 0 to 7: {met:?}; untrue lists of sections without and with damage: {untrue:?}; wrong marks with true and untrue lists: {ill:?}"
    ));
}

//! Equal shape (U13), by hand; and equality of lists against the search for a pairing.

mod common;
use common::{fresh, say};
use model::lists::generate::Desk;
use model::lists::output_vectors::heaps;
use model::lists::random::Random;
use model::rules::calls::short::{allocate, cell, chosen, data, root, step, write_number, OPEN};
use model::rules::heap::{MAX_BLOCKS, MAX_NUMBER};
use model::rules::outputs;
use model::rules::shapes::{can_be_paired, shape};
use model::{apply, Call, Memory};

/// A heap after these calls, each accepted.
fn heap(blocks: usize, width: usize, roots: usize, calls: &[Call]) -> Memory {
    let mut memory = fresh(blocks, width, roots);
    for call in calls {
        assert_eq!(
            apply(blocks, width, &mut memory, *call).number,
            0,
            "{call:?}"
        );
    }
    memory
}

#[test]
fn a_formatted_heap_is_its_roots() {
    assert_eq!(shape(8, &fresh(8, 2, 4)), [4, 0, 0, 0, 0]);
    assert_eq!(shape(MAX_BLOCKS, &fresh(MAX_BLOCKS, 4, 1)), [1, 0]);
}

/// Number of roots, roots, then size, D bit and cells of each object.
#[test]
fn the_layout_of_the_list() {
    let memory = heap(
        8,
        2,
        4,
        &[
            data(1, 1),
            allocate(2, 3),
            write_number(0, 0, 3),
            write_number(0, 3, MAX_NUMBER),
            cell(2, 7, 1),
            cell(2, 0, 3),
        ],
    );
    let roots = [4, 0, 1, 0, 2];
    let first = [1, 1, 3, 0, 0, MAX_NUMBER];
    let second = [2, 0, 2, 0, 0, 0, 0, 0, 0, 1];
    assert_eq!(shape(8, &memory), [&roots[..], &first, &second].concat());
}

/// 0 names 1 and 2, and 1 names 3: depth first would number 3 before 2.
#[test]
fn breadth_first_and_not_depth_first() {
    let four = [
        allocate(1, 0),
        allocate(1, 1),
        allocate(1, 2),
        allocate(1, 3),
    ];
    let links = [cell(0, 0, 2), cell(0, 1, 3), cell(1, 0, 4), chosen(14)];
    let memory = heap(8, 2, 4, &[&four[..], &links].concat());
    let due = [
        [1, 0, 2, 3, 0, 0],
        [1, 0, 4, 0, 0, 0],
        [1, 0, 0, 0, 0, 0],
        [1, 0, 0, 0, 0, 0],
    ];
    assert_eq!(
        shape(8, &memory),
        [&[4, 1, 0, 0, 0], &due.concat()[..]].concat()
    );
    // All roots come before all cells.
    let memory = heap(8, 2, 4, &[&four[..], &[cell(0, 0, 4), chosen(12)]].concat());
    assert_eq!(shape(8, &memory)[..11], [4, 1, 2, 0, 0, 1, 0, 3, 0, 0, 0]);
}

/// 16 writes nothing; 0 is too short; every length from the right one on is accepted.
#[test]
fn outputs_of_every_length() {
    let memory = heap(8, 2, 4, &[allocate(1, 0), cell(0, 2, 1)]);
    let due = [4, 1, 0, 0, 0, 1, 0, 0, 0, 1, 0];
    for length in 0..=due.len() + 3 {
        let mut output = vec![7; length];
        let reply = outputs::shape(8, 2, &memory, &mut output);
        if length < due.len() {
            assert_eq!((reply.number, reply.value, reply.second), (16, 0, 0));
            assert_eq!(output, vec![7; length]);
        } else {
            assert_eq!((reply.number, reply.value, reply.second), (0, due.len(), 0));
            assert_eq!(output[..due.len()], due);
            assert!(output[due.len()..].iter().all(|number| *number == 7));
        }
    }
}

/// "16, ... after the check's refusals".
#[test]
fn refusals_in_order() {
    let mut memory = heap(8, 2, 4, &[allocate(2, 0), OPEN]);
    let number = |memory: &Memory, length: usize| {
        let mut output = vec![7; length];
        let reply = outputs::shape(8, 2, memory, &mut output);
        assert!(reply.number == 0 || output == vec![7; length]);
        reply.number
    };
    // With a collection open.
    assert_eq!([number(&memory, 14), number(&memory, 15)], [16, 0]);
    memory.marks[0] = 2;
    assert_eq!([number(&memory, 0), number(&memory, 60)], [13; 2]);
    memory.sections[0] = 3;
    assert_eq!([number(&memory, 0), number(&memory, 60)], [11; 2]);
    memory.data[0] = 2;
    assert_eq!([number(&memory, 0), number(&memory, 60)], [2; 2]);
    memory.waiting.pop();
    assert_eq!([number(&memory, 0), number(&memory, 60)], [1; 2]);
}

/// The small heaps by hand, each with each.
#[test]
fn heaps_by_hand_in_pairs() {
    let heaps: Vec<(usize, Memory)> = heaps()
        .into_iter()
        .map(|([blocks, width, roots], calls)| {
            let [blocks, width, roots] = [blocks, width, roots].map(|number| number as usize);
            (blocks, heap(blocks, width, roots, &calls))
        })
        .collect();
    let (mut pairs, mut equal) = (0, 0);
    for (n, one) in &heaps {
        for (m, other) in &heaps {
            let same = shape(*n, one) == shape(*m, other);
            assert_eq!(
                same,
                can_be_paired((*n, one), (*m, other)),
                "{one:?} {other:?}"
            );
            pairs += 1;
            equal += usize::from(same);
        }
    }
    // More than each with itself.
    assert!(equal > heaps.len());
    say(&format!(
        "{pairs} pairs of heaps by hand, {equal} of one shape"
    ));
}

/// What differs in one thing only.
#[test]
fn each_part_of_a_pairing_tells() {
    let base = [
        allocate(1, 0),
        data(1, 1),
        cell(0, 1, 2),
        write_number(1, 2, 5),
    ];
    let one = heap(8, 2, 4, &base);
    let different = |what: &str, roots: usize, calls: &[Call]| {
        let other = heap(16, 3, roots, calls);
        assert_ne!(shape(8, &one), shape(16, &other), "{what}");
        assert!(!can_be_paired((8, &one), (16, &other)), "{what}");
    };
    different("one root less", 3, &base);
    different(
        "another root",
        4,
        &[&base[..], &[root(2, 1), root(0, 0)]].concat(),
    );
    different("a root more", 4, &[&base[..], &[root(2, 1)]].concat());
    different(
        "another size",
        4,
        &[
            allocate(2, 0),
            data(1, 1),
            cell(0, 1, 3),
            write_number(2, 2, 5),
        ],
    );
    different(
        "no data",
        4,
        &[allocate(1, 0), allocate(1, 1), cell(0, 1, 2)],
    );
    different(
        "another number",
        4,
        &[&base[..], &[write_number(1, 2, 6)]].concat(),
    );
    different(
        "another reference",
        4,
        &[&base[..], &[cell(0, 1, 1)]].concat(),
    );
    different(
        "another cell",
        4,
        &[&base[..], &[cell(0, 2, 2), cell(0, 1, 0)]].concat(),
    );
    different("no object", 4, &[]);
    // Where objects lie, counts, garbage and an open collection don't tell.
    let other = heap(
        16,
        1,
        4,
        &[
            allocate(4, 3),
            data(1, 1),
            allocate(1, 0),
            write_number(4, 2, 5),
            cell(5, 1, 5),
            root(3, 0),
            OPEN,
            step(0),
        ],
    );
    assert_eq!(shape(8, &one), shape(16, &other));
    assert!(can_be_paired((8, &one), (16, &other)));
}

/// Random small heaps, each against the one before, a copy of itself made otherwise, and that with one change.
#[test]
fn equal_lists_and_pairings_agree() {
    let (mut pairs, mut equal) = (0, 0);
    let mut compare = |one: (usize, &Memory), other: (usize, &Memory)| {
        let same = shape(one.0, one.1) == shape(other.0, other.1);
        assert_eq!(same, can_be_paired(one, other), "{one:?} {other:?}");
        pairs += 1;
        equal += usize::from(same);
        same
    };
    let mut before = fresh(8, 2, 2);
    for seed in 0..3_000 {
        let mut random = Random::new(seed);
        let count = random.below(12);
        let mut desk = Desk::new(random, [8, 2, 2]);
        desk.call(Call::Format);
        for _ in 0..count {
            let call = match desk.random.below(10) {
                0..=3 => {
                    let (n, r) = (1 + desk.random.below(2), desk.random.below(2));
                    desk.allocation(n, r)
                }
                4..=7 => desk.some_cell_store(20),
                8 => desk.some_number_write(),
                _ => desk.some_root_store(50),
            };
            desk.call(call);
        }
        let memory = &desk.bench.memory;
        compare((8, memory), (8, &before));
        let moved = elsewhere(memory, &mut desk.random);
        assert!(compare((8, memory), (32, &moved)));
        let mut changed = moved.clone();
        let place = desk.random.below(changed.roots.len() + 8);
        match changed.roots.get(place) {
            Some(_) => changed.roots[place] = 0,
            None => {
                let cells: Vec<usize> = (0..128).filter(|k| changed.cells[*k] != 0).collect();
                if !cells.is_empty() {
                    changed.cells[desk.random.pick(&cells)] = 0;
                }
            }
        }
        compare((8, memory), (32, &changed));
        before = memory.clone();
    }
    assert!(equal > 3_500 && pairs - equal > 3_500, "{pairs} {equal}");
    say(&format!(
        "{pairs} pairs of small heaps, {equal} of one shape"
    ));
}

/// The same objects on 32 blocks, in another order, each at a multiple of two or four blocks. (Counts and sections aren't made.)
fn elsewhere(memory: &Memory, random: &mut Random) -> Memory {
    use model::rules::heap::{first_blocks, is_data, set_bit, size, Ref};
    let mut moved = fresh(32, 2, memory.roots.len());
    let mut objects = first_blocks(8, memory);
    for k in (1..objects.len()).rev() {
        objects.swap(k, random.below(k + 1));
    }
    let mut new: [Ref; 9] = [0; 9];
    let mut next = 0;
    for first in &objects {
        new[1 + first] = 1 + next as Ref;
        next += size(8, memory, *first).next_power_of_two().max(2);
    }
    for first in &objects {
        let (n, to) = (size(8, memory, *first), new[1 + first] as usize - 1);
        (to..to + n).for_each(|i| set_bit(&mut moved.a, i, 1));
        set_bit(&mut moved.b, to + n - 1, 0);
        set_bit(&mut moved.data, to, u8::from(is_data(memory, *first)));
        for j in 0..4 * n {
            let v = memory.cells[4 * first + j];
            let kept = is_data(memory, *first);
            moved.cells[4 * to + j] = if kept { v } else { new[v as usize] };
        }
    }
    moved.roots = memory.roots.iter().map(|v| new[*v as usize]).collect();
    moved
}

//! Collection in small steps (request U8): 8 blocks, width 2 and 4 roots unless said.

mod common;
use common::{
    block, call, freed, is_out_of_turn, lent_to_calls, refusal, refused, FORMATTING, OTHERS,
};
use huwekapo::{Buffers, Heap, Look, Ref, Refusal, Stepped};

/// The mark map, and the list up to its first 0.
fn progress(heap: &Heap) -> (u8, Vec<Ref>) {
    let (places, last) = heap.list().split_at(heap.blocks());
    assert_eq!(last, [Ref::from(heap.is_open())]);
    let listed = places.iter().take_while(|place| **place != 0).count();
    assert!(places[listed..].iter().all(|place| *place == 0));
    (heap.marks()[0], places[..listed].to_vec())
}

fn steps(steps: usize, freed: usize) -> Result<Stepped, Refusal> {
    Ok(Stepped { steps, freed })
}

/// Root 0 names the object of 2 blocks at block 0, which names that at 2, which names that at 3. That at 4 names itself, and as
/// further cells say.
fn chain(width: usize, cells_of_4: &[usize]) -> Heap {
    let mut heap = Heap::new(8, width, 4).expect("a good shape");
    for (n, r, at) in [(2, 0, 0), (1, 1, 2), (1, 2, 3), (1, 3, 4)] {
        assert_eq!(heap.allocate(n, r).map(block), Ok(at));
    }
    for (at, j, v) in [(0, 7, 3), (2, 1, 4), (4, 0, 5)] {
        assert_eq!(heap.store_cell(at, j, v).map(freed), Ok(0));
    }
    for (j, v) in cells_of_4.iter().enumerate() {
        assert_eq!(heap.store_cell(4, 1 + j, *v).map(freed), Ok(0));
    }
    assert_eq!(heap.return_roots(14), Ok(0));
    heap
}

fn opened(width: usize, cells_of_4: &[usize]) -> Heap {
    let mut heap = chain(width, cells_of_4);
    assert_eq!(heap.open_collection(), Ok(()));
    assert_eq!(progress(&heap), (1, vec![1]));
    heap
}

fn with_rubbish(heap: Heap) -> Heap {
    let mut buffers = heap.into_buffers();
    buffers.waiting.fill(99);
    Heap::from_buffers(8, 2, buffers)
}

/// "Opening marks every object a root names .. and puts it on a second list", data too, each once, and writes nothing else.
#[test]
fn an_opening() {
    let mut heap = chain(2, &[]);
    assert_eq!(heap.allocate_data(1, 3).map(block), Ok(5));
    assert_eq!(heap.store_root(1, 4).map(freed), Ok(0));
    assert_eq!(heap.store_root(2, 1).map(freed), Ok(0));
    let mut heap = with_rubbish(heap);
    let before = heap.clone().into_buffers();
    assert!(!heap.is_open());
    assert_eq!(heap.open_collection(), Ok(()));
    assert_eq!(progress(&heap), (0b10_1001, vec![1, 4, 6]));
    assert_eq!(heap.check(), Ok(()));
    let (marks, list) = (heap.marks().to_vec(), heap.list().to_vec());
    assert_eq!(heap.buffers().waiting, [99; 8]);
    assert_eq!(
        heap.into_buffers(),
        Buffers {
            marks,
            list,
            ..before
        }
    );
}

/// One step at a time: the lowest is taken, what it names is marked and listed, and the last step closes.
#[test]
fn one_by_one() {
    let mut heap = opened(2, &[]);
    for (due, marks, list) in [(1, 0b101, vec![3]), (1, 0b1101, vec![4])] {
        assert_eq!(heap.step_collection(1), steps(due, 0));
        assert_eq!(progress(&heap), (marks, list));
        assert_eq!(heap.check(), Ok(()));
    }
    assert_eq!(heap.step_collection(1), steps(1, 1));
    assert_eq!(progress(&heap), (0, vec![]));
    let mut at_once = chain(2, &[]);
    assert_eq!(at_once.collect(), Ok(1));
    assert_eq!(heap, at_once);
}

/// "all of them unless the list ran out": by any budget 3 objects are taken.
#[test]
fn budgets() {
    for budget in [1, 2, 3, 4, 100, usize::MAX] {
        let mut heap = opened(2, &[]);
        let (mut taken, mut let_go) = (0, 0);
        while heap.is_open() {
            let done = heap.step_collection(budget).expect("open");
            assert_eq!(done.steps, budget.min(3 - taken));
            taken += done.steps;
            let_go += done.freed;
            assert_eq!(heap.is_open(), taken < 3);
        }
        assert_eq!((taken, let_go), (3, 1));
    }
}

/// Budget 0 takes no step, and never closes: not with an empty list either. It leaves the waiting list 0.
#[test]
fn budget_0() {
    let mut heap = with_rubbish(opened(2, &[]));
    assert_eq!(heap.step_collection(0), steps(0, 0));
    assert_eq!(heap, opened(2, &[]));
    assert_eq!(heap.buffers().waiting, [0; 8]);

    let mut none = Heap::new(8, 2, 4).expect("a good shape");
    assert_eq!(none.open_collection(), Ok(()));
    assert_eq!(none.step_collection(0), steps(0, 0));
    assert_eq!(progress(&none), (0, vec![]));
    assert!(none.is_open());
    assert_eq!(none.step_collection(1), steps(0, 0));
    assert_eq!(none, Heap::new(8, 2, 4).expect("a good shape"));
}

/// A step for data too; what its cells look like is not met.
#[test]
fn data_is_a_step() {
    let mut heap = chain(2, &[]);
    assert_eq!(heap.allocate_data(1, 1).map(block), Ok(5));
    for j in 0..4 {
        assert_eq!(heap.write_number(5, j, 5), Ok(()));
    }
    assert_eq!(heap.open_collection(), Ok(()));
    assert_eq!(progress(&heap), (0b10_0001, vec![1, 6]));
    assert_eq!(heap.step_collection(3), steps(3, 0));
    assert_eq!(progress(&heap), (0b10_1101, vec![6]));
    assert_eq!(heap.step_collection(1), steps(1, 1));
    assert_eq!(heap.read_number(5, 0), Ok(5));
}

/// "While open, objects are born marked", and not listed.
#[test]
fn born_marked() {
    let mut heap = opened(2, &[]);
    assert_eq!(heap.allocate(1, 1).map(block), Ok(5));
    assert_eq!(heap.allocate_data(2, 2).map(block), Ok(6));
    assert_eq!(progress(&heap), (0b110_0001, vec![1]));
    assert_eq!(heap.check(), Ok(()));
    assert_eq!(heap.step_collection(9), steps(3, 1));
    assert_eq!(heap.look(6), Ok(Look { size: 2, count: 1 }));
}

/// "each reference store that changes a value, an allocation's included, marks and lists what is unmarked among its owner, old
/// and new objects"
#[test]
fn stores_mark() {
    // The owner at 2, and the new one at 3; then, of the value present, nothing.
    let mut heap = opened(2, &[]);
    assert_eq!(heap.store_cell(2, 0, 4).map(freed), Ok(0));
    assert_eq!(progress(&heap), (0b1101, vec![1, 3, 4]));
    let mut heap = opened(2, &[]);
    assert_eq!(heap.store_cell(2, 1, 4).map(freed), Ok(0));
    assert_eq!(progress(&heap), (1, vec![1]));
    // The new one of a root.
    assert_eq!(heap.store_root(1, 4).map(freed), Ok(0));
    assert_eq!(progress(&heap), (0b1001, vec![1, 4]));
    assert_eq!(heap.store_root(1, 0).map(freed), Ok(0));
    assert_eq!(progress(&heap), (0b1001, vec![1, 4]));
    // The old one at 2, which that at 4 holds.
    let mut heap = opened(2, &[3]);
    assert_eq!(heap.store_cell(0, 7, 0).map(freed), Ok(0));
    assert_eq!(progress(&heap), (0b101, vec![1, 3]));
    // A number is no reference.
    let mut heap = opened(2, &[]);
    assert_eq!(heap.allocate_data(1, 1).map(block), Ok(5));
    assert_eq!(heap.write_number(5, 0, 3), Ok(()));
    assert_eq!(progress(&heap), (0b10_0001, vec![1]));
}

/// "clearing a freed object's cells marks and lists the unmarked ones they named; a freed object leaves map and list."
#[test]
fn what_is_freed() {
    // The object at 4 lets go of itself, and so of that at 2.
    let mut heap = opened(2, &[3]);
    assert_eq!(heap.store_cell(4, 0, 0).map(freed), Ok(1));
    assert_eq!(progress(&heap), (0b101, vec![1, 3]));
    // All of the chain.
    let mut heap = opened(2, &[]);
    assert_eq!(heap.step_collection(1), steps(1, 0));
    assert_eq!(progress(&heap), (0b101, vec![3]));
    assert_eq!(heap.return_roots(1), Ok(4));
    assert_eq!(progress(&heap), (0, vec![]));
    assert_eq!(heap.check(), Ok(()));
    // An object that is freed off the list is no step.
    assert_eq!(heap.step_collection(9), steps(0, 1));
    assert!(!heap.is_open());
}

/// The close "counts down the survivors that these named, once for each cell (one that reaches 0 is freed as in a store)"; it
/// does not recount.
#[test]
fn the_close() {
    let mut heap = opened(3, &[3, 3, 4]);
    assert_eq!(heap.look(2), Ok(Look { size: 1, count: 3 }));
    assert_eq!(heap.step_collection(9), steps(3, 1));
    assert_eq!(heap.look(2), Ok(Look { size: 1, count: 1 }));
    assert_eq!(heap.look(3), Ok(Look { size: 1, count: 1 }));

    // Marked, and held by what is freed alone: that at 2, and with it that at 3.
    let mut heap = opened(3, &[3]);
    assert_eq!(heap.step_collection(1), steps(1, 0));
    assert_eq!(heap.store_cell(0, 7, 0).map(freed), Ok(0));
    assert_eq!(heap.step_collection(9), steps(2, 3));
    assert_eq!(heap.free_blocks(), Ok(6));

    // Stuck stays stuck.
    let mut heap = opened(2, &[3, 3]);
    assert_eq!(heap.step_collection(9), steps(3, 1));
    assert_eq!(heap.look(2), Ok(Look { size: 1, count: 3 }));
}

/// "14, a step with none open, or an opening or full collection with one open, after 13"; all other calls are made.
#[test]
fn out_of_turn() {
    for open in [false, true] {
        for name in OTHERS {
            let mut buffers = lent_to_calls(8, open);
            if is_out_of_turn(name, open) {
                assert_eq!(refused(name, 8, &buffers), refusal(14), "{name}");
                buffers.marks[0] ^= 16;
                assert_eq!(refused(name, 8, &buffers), refusal(13), "{name}");
            } else {
                assert_eq!(call(name, 8, &mut buffers).number, 0, "{name}");
            }
        }
    }
    let mut heap = opened(2, &[]);
    assert_eq!(heap.collect(), Err(Refusal::OutOfTurn));
    assert_eq!(heap.open_collection(), Err(Refusal::OutOfTurn));
    assert_eq!(heap.format(), Ok(()));
    assert_eq!(progress(&heap), (0, vec![]));
    assert_eq!(heap.step_collection(1), Err(Refusal::OutOfTurn));
}

/// Every clause of 13. On the heap of `lent_to_calls` the list is 1, 2 where one is open, both are marked, and the object at 2,
/// which that at 0 names, is not.
#[test]
fn untidy() {
    let wrong: [(bool, fn(&mut Buffers)); 18] = [
        // Not "strictly rising, then 0s".
        (true, |heap| heap.list[..2].copy_from_slice(&[2, 1])),
        (true, |heap| heap.list[..3].copy_from_slice(&[1, 1, 2])),
        (true, |heap| heap.list[..3].copy_from_slice(&[0, 1, 2])),
        (true, |heap| heap.list[7] = 2),
        // Not "1 + first blocks": that of a free block, and past the end.
        (true, |heap| heap.list[2] = 4),
        (true, |heap| heap.list[2] = 9),
        (true, |heap| heap.list[2] = Ref::MAX),
        // "or holds an unmarked object"
        (true, |heap| heap.list[2] = 3),
        // "a mark isn't on a first block"
        (true, |heap| heap.marks[0] |= 8),
        (true, |heap| heap.marks[0] |= 128),
        // "some root .. names an unmarked one"
        (true, |heap| {
            heap.marks[0] = 2;
            heap.list[..2].copy_from_slice(&[2, 0]);
        }),
        // ".. or marked unlisted object names an unmarked one"
        (true, |heap| heap.list[..2].copy_from_slice(&[2, 0])),
        // The last place is neither 0 nor 1: then none is open, and the list is not 0.
        (true, |heap| heap.list[8] = 2),
        (true, |heap| heap.list[8] = 0),
        // "or a mark or list place isn't 0 while none is"
        (false, |heap| heap.marks[0] = 1),
        (false, |heap| heap.list[0] = 1),
        (false, |heap| heap.list[7] = 1),
        (false, |heap| heap.list[8] = Ref::MAX),
    ];
    for (i, (open, change)) in wrong.into_iter().enumerate() {
        let mut buffers = lent_to_calls(8, open);
        change(&mut buffers);
        for name in OTHERS {
            assert_eq!(refused(name, 8, &buffers), refusal(13), "{i}, {name}");
        }
        for name in FORMATTING {
            let mut now = buffers.clone();
            assert_eq!(call(name, 8, &mut now), refusal(0), "{i}, {name}");
            let fresh = Heap::new(8, 2, 4).expect("a good shape");
            assert_eq!(&now, fresh.buffers(), "{i}, {name}");
        }
        // "next after 11", and before a call's own numbers.
        let mut heap = Heap::from_buffers(8, 2, buffers.clone());
        assert_eq!(heap.allocate(0, 9), Err(Refusal::BadMarks));
        assert_eq!(heap.look(9), Err(Refusal::BadMarks));
        buffers.sections[0] = 8;
        assert_eq!(refused("check", 8, &buffers), refusal(11));
        buffers.counts[0] ^= 1;
        assert_eq!(refused("check", 8, &buffers).number, 2);
    }
    // What is right in 13's neighbourhood: all marked, and listed or not.
    for (marks, list) in [
        (7, [1, 2, 3]),
        (7, [3, 0, 0]),
        (7, [0, 0, 0]),
        (3, [1, 0, 0]),
    ] {
        let mut buffers = lent_to_calls(8, true);
        buffers.marks[0] = marks;
        buffers.list[..3].copy_from_slice(&list);
        assert_eq!(
            Heap::from_buffers(8, 2, buffers).check(),
            Ok(()),
            "{list:?}"
        );
    }
}

/// Another length of the mark map or of the list is 1.
#[test]
fn another_length_is_refused() {
    let shorter: [fn(&mut Buffers); 4] = [
        |heap| heap.marks.clear(),
        |heap| heap.marks.push(0),
        |heap| heap.list.truncate(8),
        |heap| heap.list.push(0),
    ];
    for change in shorter {
        for open in [false, true] {
            let mut buffers = lent_to_calls(8, open);
            change(&mut buffers);
            for name in FORMATTING.iter().chain(&OTHERS) {
                assert_eq!(refused(name, 8, &buffers), refusal(1), "{name}");
            }
        }
    }
}

/// The first blocks of the objects, by the maps.
fn objects(heap: &Heap) -> Vec<usize> {
    (0..heap.blocks())
        .filter(|at| heap.look(*at).is_ok())
        .collect()
}

/// Collections with calls between their steps: after each call the heap is sound; the steps of each are at most the objects at
/// its opening; where nothing was stored between, it leaves the objects that a full collection leaves.
#[test]
fn among_other_calls() {
    let mut state = 8_u64;
    let mut next = move |below: usize| {
        state = state
            .wrapping_mul(6_364_136_223_846_793_005)
            .wrapping_add(1_442_695_040_888_963_407);
        (state >> 33) as usize % below
    };
    let (mut closes, mut quiet, mut let_go) = (0, 0, 0);
    for (blocks, width) in [(8, 1), (16, 2), (64, 3), (256, 2)] {
        let mut heap = Heap::new(blocks, width, 8).expect("a good shape");
        // The steps so far, those that there may be, and what a full collection at the opening would leave.
        let mut open: Option<(usize, usize, Option<Vec<usize>>)> = None;
        for _ in 0..600 {
            if let (Some((taken, most, left)), 0..=2) = (&mut open, next(6)) {
                let done = heap.step_collection(next(4)).expect("open");
                *taken += done.steps;
                assert!(*taken <= *most, "{taken} steps, {most} objects");
                let_go += done.freed;
                if !heap.is_open() {
                    if let Some(left) = left {
                        assert_eq!(objects(&heap), *left);
                        quiet += usize::from(done.freed > 0);
                    }
                    closes += 1;
                    open = None;
                }
            } else if open.is_none() && next(4) == 0 {
                let mut at_once = heap.clone();
                at_once.collect().expect("none open");
                open = Some((0, objects(&heap).len(), Some(objects(&at_once))));
                heap.open_collection().expect("none open");
            } else if open.is_none() || next(8) == 0 {
                let (root, value) = (next(8), heap.roots()[next(8)] as usize);
                let owner = heap.roots()[root] as usize;
                let done = match next(8) {
                    0..=3 => heap.allocate(1 + next(3), root).map(|_| ()),
                    4 => heap.allocate_data(1 + next(3), root).map(|_| ()),
                    5 if owner != 0 => heap.store_cell(owner - 1, next(4), value).map(|_| ()),
                    6 => heap.store_root(root, value).map(|_| ()),
                    _ => heap.store_root(root, 0).map(|_| ()),
                };
                let refusals = [Refusal::NoChunk, Refusal::WrongKind];
                assert!(done.is_ok() || refusals.contains(&done.unwrap_err()));
                if let Some((_, _, left)) = &mut open {
                    *left = None;
                }
            }
            assert_eq!(heap.check(), Ok(()));
            assert_eq!(heap.is_open(), open.is_some());
        }
    }
    assert!(
        closes > 50 && quiet > 5 && let_go > 50,
        "{closes} {quiet} {let_go}"
    );
}

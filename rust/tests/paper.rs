//! The paper cases through the Rust interface: 8 blocks, width 2 and 4 roots unless said.

mod common;
use common::{block, freed};
use huwekapo::{Buffers, Damage, Heap, Look, Refusal};

fn fresh(width: usize) -> Heap {
    Heap::new(8, width, 4).expect("a good shape")
}

fn maps(heap: &Heap) -> (u8, u8) {
    (heap.buffers().a[0], heap.buffers().b[0])
}

fn seen(size: usize, count: usize) -> Result<Look, Refusal> {
    Ok(Look { size, count })
}

#[test]
fn p1_p2() {
    let mut heap = fresh(2);
    assert_eq!(heap.allocate(2, 0).map(block), Ok(0));
    assert_eq!(heap.allocate(1, 1).map(block), Ok(2));
    assert_eq!(heap.allocate(3, 2).map(block), Ok(4));
    assert_eq!(maps(&heap), (119, 185));
    assert_eq!(heap.look(4), seen(3, 1));
    assert_eq!(heap.allocate(2, 3), Err(Refusal::NoChunk));
    assert_eq!(heap.free_blocks(), Ok(2));
    assert_eq!(heap.allocate(1, 3).map(block), Ok(3));
}

#[test]
fn p3() {
    let mut heap = fresh(2);
    assert_eq!(heap.allocate(5, 0).map(block), Ok(0));
    assert_eq!(heap.allocate(3, 1), Err(Refusal::NoChunk));
    assert_eq!(heap.allocate(2, 1).map(block), Ok(6));
}

#[test]
fn p4_p5() {
    let mut heap = fresh(2);
    assert_eq!(heap.allocate(1, 0).map(block), Ok(0));
    assert_eq!(heap.store_root(1, 1).map(freed), Ok(0));
    assert_eq!(heap.store_root(0, 0).map(freed), Ok(0));
    assert_eq!(heap.look(0), seen(1, 1));
    assert_eq!(heap.store_root(1, 0).map(freed), Ok(1));
    assert_eq!(heap.look(0), Err(Refusal::NoObject));
    assert_eq!(heap.allocate(1, 0).map(block), Ok(0));
    assert_eq!(heap.store_root(1, 1).map(freed), Ok(0));
    assert_eq!(heap.store_root(2, 1).map(freed), Ok(0));
    for r in 0..3 {
        assert_eq!(heap.store_root(r, 0).map(freed), Ok(0));
    }
    assert_eq!(heap.look(0), seen(1, 3));
    assert_eq!(heap.collect(), Ok(1));
}

#[test]
fn p6() {
    let mut heap = fresh(1);
    assert_eq!(heap.allocate(1, 0).map(block), Ok(0));
    assert_eq!(heap.store_root(0, 0).map(freed), Ok(0));
    assert_eq!(heap.collect(), Ok(1));
}

#[test]
fn p7() {
    let mut heap = fresh(2);
    assert_eq!(heap.allocate(1, 0).map(block), Ok(0));
    assert_eq!(heap.allocate(1, 1).map(block), Ok(1));
    assert_eq!(heap.store_cell(0, 0, 2).map(freed), Ok(0));
    assert_eq!(heap.store_cell(1, 0, 1).map(freed), Ok(0));
    assert_eq!(heap.store_root(0, 0).map(freed), Ok(0));
    assert_eq!(heap.store_root(1, 0).map(freed), Ok(0));
    assert_eq!(heap.look(0), seen(1, 1));
    assert_eq!(heap.look(1), seen(1, 1));
    assert_eq!(heap.collect(), Ok(2));
}

#[test]
fn p8() {
    let mut heap = fresh(2);
    assert_eq!(heap.allocate(2, 0).map(block), Ok(0));
    assert_eq!(heap.allocate(1, 1).map(block), Ok(2));
    assert_eq!(heap.store_cell(0, 8, 3), Err(Refusal::BadCell));
    assert_eq!(heap.store_cell(0, 7, 3).map(freed), Ok(0));
    assert_eq!(heap.store_root(1, 0).map(freed), Ok(0));
    assert_eq!(heap.store_root(0, 0).map(freed), Ok(3));
}

#[test]
fn p9() {
    let mut heap = fresh(2);
    assert_eq!(heap.allocate(1, 0).map(block), Ok(0));
    assert_eq!(heap.store_root(0, 1).map(freed), Ok(0));
    assert_eq!(heap.look(0), seen(1, 1));
    assert_eq!(heap.store_root(1, 1).map(freed), Ok(0));
    assert_eq!(heap.store_root(1, 1).map(freed), Ok(0));
    assert_eq!(heap.look(0), seen(1, 2));
}

#[test]
fn p10_and_the_other_refusals() {
    let mut heap = fresh(2);
    for (n, r) in [(0, 0), (9, 0), (0, 4), (9, usize::MAX)] {
        assert_eq!(heap.allocate(n, r), Err(Refusal::BadSize));
    }
    assert_eq!(heap.allocate(8, 4), Err(Refusal::BadRoot));
    assert_eq!(heap.allocate(8, 0).map(block), Ok(0));
    assert_eq!(heap.store_root(1, 2), Err(Refusal::BadReference));
    assert_eq!(heap.store_cell(1, 0, 0), Err(Refusal::NoObject));
    assert_eq!(heap.look(usize::MAX), Err(Refusal::NoObject));
}

/// Values that no cell can hold, and of which 16 bits would make 1, and 32 bits 1, 0 and the largest number. A refusal writes
/// nothing.
#[test]
fn values_are_whole_words() {
    let mut heap = fresh(2);
    assert_eq!(heap.allocate(2, 0).map(block), Ok(0));
    let mut buffers = heap.into_buffers();
    buffers.waiting.fill(99);
    let mut heap = Heap::from_buffers(8, 2, buffers.clone());
    for v in [65_537, (1 << 32) + 1, 1 << 32, usize::MAX] {
        for r in 0..4 {
            assert_eq!(heap.store_root(r, v), Err(Refusal::BadReference));
        }
        for j in 0..8 {
            assert_eq!(heap.store_cell(0, j, v), Err(Refusal::BadReference));
        }
        assert_eq!(heap.store_root(4, v), Err(Refusal::BadRoot));
        assert_eq!(heap.store_cell(1, 0, v), Err(Refusal::NoObject));
        assert_eq!(heap.store_cell(0, 8, v), Err(Refusal::BadCell));
    }
    assert_eq!(heap.buffers().waiting, [99; 8]);
    assert_eq!(heap.into_buffers(), buffers);
}

#[test]
fn p11() {
    for (a, b, damage) in [
        (0, 254, Damage::EndOnFree),
        (1, 255, Damage::OpenEnd),
        (6, 251, Damage::Unaligned),
    ] {
        let mut buffers = fresh(2).into_buffers();
        buffers.a[0] = a;
        buffers.b[0] = b;
        let heap = Heap::from_buffers(8, 2, buffers);
        assert_eq!(heap.check(), Err(Refusal::Damaged(damage)));
    }
}

#[test]
fn shapes() {
    for blocks in [8, 4096, 8192, 16_384, 32_768, 65_536] {
        assert!(Heap::new(blocks, 4, 64).is_ok());
    }
    for (blocks, width, roots) in [
        (4, 2, 4),
        (12, 2, 4),
        (65_535, 2, 4),
        (131_072, 2, 4),
        (usize::MAX, 2, 4),
        (8, 0, 4),
        (8, 5, 4),
        (8, usize::MAX, 4),
        (8, 2, 0),
        (8, 2, 65),
        (8, 2, usize::MAX),
    ] {
        assert_eq!(Heap::new(blocks, width, roots), Err(Refusal::Misshapen));
    }
}

/// "Where two heaps or two outcomes are compared, the waiting list is left out." Every other list is looked at.
#[test]
fn equality_leaves_out_the_waiting_list() {
    let heap = fresh(2);
    let with = |change: fn(&mut Buffers)| {
        let mut buffers = heap.clone().into_buffers();
        change(&mut buffers);
        Heap::from_buffers(8, 2, buffers)
    };
    let rubbish = with(|buffers| buffers.waiting.fill(99));
    assert_ne!(rubbish.buffers().waiting, heap.buffers().waiting);
    assert_eq!(rubbish, heap);
    assert_eq!(rubbish.buffers(), heap.buffers());
    let others: [fn(&mut Buffers); 9] = [
        |buffers| buffers.a[0] = 1,
        |buffers| buffers.b[0] = 1,
        |buffers| buffers.counts[0] = 1,
        |buffers| buffers.cells[0] = 1,
        |buffers| buffers.roots[0] = 1,
        |buffers| buffers.sections[0] = 1,
        |buffers| buffers.data[0] = 1,
        |buffers| buffers.marks[0] = 1,
        |buffers| buffers.list[0] = 1,
    ];
    for other in others.map(with) {
        assert_ne!(other, heap);
        assert_ne!(other.buffers(), heap.buffers());
    }
    assert_ne!(Heap::from_buffers(16, 2, heap.clone().into_buffers()), heap);
    assert_ne!(Heap::from_buffers(8, 1, heap.clone().into_buffers()), heap);
}

#[test]
fn getters() {
    let mut heap = fresh(2);
    assert_eq!((heap.blocks(), heap.width()), (8, 2));
    assert_eq!(heap.allocate(2, 1).map(block), Ok(0));
    assert_eq!(heap.allocate(1, 3).map(block), Ok(2));
    assert_eq!(heap.roots(), [0, 1, 0, 3]);
    assert_eq!(heap.sections(), [4]);
}

#[test]
fn words() {
    assert_eq!(
        Refusal::Damaged(Damage::EndOnFree).to_string(),
        "2: the heap is damaged, kind 1: a 0 in the B-map on a free block"
    );
    assert_eq!(
        Refusal::BadRoot.to_string(),
        "4: r is not below the number of roots, or a bit of `chosen` is at or past it"
    );
    assert_eq!(
        Refusal::CutOff.to_string(),
        "10: the list ends inside a call"
    );
    assert_eq!(
        Refusal::StaleSections.to_string(),
        "11: a number of `sections` is not the size of the largest free chunk of its section"
    );
    assert_eq!(
        Refusal::Damaged(Damage::StrayData).to_string(),
        "2: the heap is damaged, kind 7: a D bit where no object starts"
    );
    assert_eq!(Refusal::WrongKind.number(), 12);
    assert_eq!(Refusal::BadMarks.number(), 13);
    assert_eq!(
        Refusal::OutOfTurn.to_string(),
        "14: a step while no collection is open; an opening or a full collection while one is"
    );
}

#[test]
fn allocations_and_stores_tell_when_an_object_becomes_stuck() {
    // The third reference at width 2; the first at width 1.
    let mut heap = Heap::new(8, 2, 4).unwrap();
    assert!(!heap.allocate(1, 0).unwrap().became_stuck);
    assert!(!heap.store_root(1, 1).unwrap().became_stuck);
    assert!(heap.store_cell(0, 0, 1).unwrap().became_stuck);
    // It is stuck already; a store of the value present, or of none, counts nothing up.
    assert!(!heap.store_root(2, 1).unwrap().became_stuck);
    assert!(!heap.store_root(2, 1).unwrap().became_stuck);
    assert!(!heap.store_root(2, 0).unwrap().became_stuck);
    let mut heap = Heap::new(8, 1, 4).unwrap();
    assert!(heap.allocate(1, 0).unwrap().became_stuck);
}

#[test]
fn the_library_is_the_one_that_the_crate_is_for() {
    assert!(huwekapo::is_this_library());
    let (version, buffers) = huwekapo::linked();
    let parts = [version / 1_000_000, version / 1000 % 1000, version % 1000];
    assert_eq!(
        parts.map(|part| part.to_string()).join("."),
        huwekapo::VERSION
    );
    assert_eq!(buffers, huwekapo::lent::BUFFERS);
}

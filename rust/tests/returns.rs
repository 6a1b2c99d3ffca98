//! Returns of sets of roots: 8 blocks, width 2 and 4 roots unless said.

mod common;
use common::{block, freed};
use huwekapo::{Damage, Heap, Look, Refusal};

fn fresh() -> Heap {
    Heap::new(8, 2, 4).expect("a good shape")
}

/// The heap with anything in its waiting list.
fn with_rubbish(heap: Heap) -> Heap {
    let mut buffers = heap.into_buffers();
    buffers.waiting.fill(99);
    Heap::from_buffers(8, 2, buffers)
}

/// One object of 2 blocks, in roots 0 to last.
fn shared_by(last: usize) -> Heap {
    let mut heap = fresh();
    assert_eq!(heap.allocate(2, 0).map(block), Ok(0));
    for r in 1..=last {
        assert_eq!(heap.store_root(r, 1).map(freed), Ok(0));
    }
    heap
}

#[test]
fn empty_roots() {
    let mut heap = fresh();
    assert_eq!(heap.return_roots(0), Ok(0));
    assert_eq!(heap.return_roots(15), Ok(0));
    assert_eq!(heap, fresh());
}

#[test]
fn a_bit_past_the_roots() {
    let mut heap = with_rubbish(shared_by(0));
    for chosen in [16, 17, 1 << 63, u64::MAX] {
        assert_eq!(heap.return_roots(chosen), Err(Refusal::BadRoot));
    }
    assert_eq!(heap, shared_by(0));
    assert_eq!(heap.buffers().waiting, [99; 8]);
}

#[test]
fn the_waiting_list_is_left_0() {
    let mut heap = with_rubbish(shared_by(0));
    assert_eq!(heap.return_roots(0), Ok(0));
    assert_eq!(heap, shared_by(0));
    assert_eq!(heap.buffers().waiting, [0; 8]);
}

#[test]
fn one_object_in_some_roots() {
    let mut heap = shared_by(1);
    assert_eq!(heap.return_roots(3), Ok(2));
    assert_eq!(heap, fresh());
    let mut stuck = shared_by(2);
    assert_eq!(stuck.return_roots(7), Ok(0));
    assert_eq!(stuck.look(0), Ok(Look { size: 2, count: 3 }));
    assert_eq!(stuck.buffers().roots, [0; 4]);
}

#[test]
fn only_the_set() {
    let mut heap = fresh();
    for (n, r, at) in [(2, 0, 0), (1, 1, 2), (1, 2, 3), (2, 3, 4)] {
        assert_eq!(heap.allocate(n, r).map(block), Ok(at));
    }
    assert_eq!(heap.return_roots(10), Ok(3));
    assert_eq!(heap.buffers().roots, [1, 0, 4, 0]);
    assert_eq!(heap.return_roots(5), Ok(3));
    assert_eq!(heap, fresh());
}

#[test]
fn a_cycle() {
    let mut heap = fresh();
    assert_eq!(heap.allocate(1, 0).map(block), Ok(0));
    assert_eq!(heap.allocate(1, 1).map(block), Ok(1));
    assert_eq!(heap.store_cell(0, 0, 2).map(freed), Ok(0));
    assert_eq!(heap.store_cell(1, 0, 1).map(freed), Ok(0));
    assert_eq!(heap.return_roots(3), Ok(0));
    assert_eq!(heap.look(0), Ok(Look { size: 1, count: 1 }));
    assert_eq!(heap.look(1), Ok(Look { size: 1, count: 1 }));
    assert_eq!(heap.collect(), Ok(2));
}

#[test]
fn sixty_four_roots() {
    let mut heap = Heap::new(64, 1, 64).expect("a good shape");
    for r in 0..64 {
        assert_eq!(heap.allocate(1, r).map(block), Ok(r));
    }
    // At width 1 a new object is stuck.
    assert_eq!(heap.return_roots(u64::MAX), Ok(0));
    assert_eq!(heap.buffers().roots, [0; 64]);
    assert_eq!(heap.collect(), Ok(64));

    let mut heap = Heap::new(64, 2, 64).expect("a good shape");
    for r in 0..64 {
        assert_eq!(heap.allocate(1, r).map(block), Ok(r));
    }
    assert_eq!(heap.return_roots(1 << 63 | 1), Ok(2));
    assert_eq!(heap.return_roots(u64::MAX), Ok(62));
}

#[test]
fn sixty_three_roots() {
    let mut heap = Heap::new(64, 2, 63).expect("a good shape");
    assert_eq!(heap.allocate(1, 62).map(block), Ok(0));
    assert_eq!(heap.return_roots(1 << 63), Err(Refusal::BadRoot));
    assert_eq!(heap.return_roots(1 << 62), Ok(1));
}

#[test]
fn damage_comes_first() {
    let mut buffers = fresh().into_buffers();
    buffers.b[0] = 254;
    let mut heap = Heap::from_buffers(8, 2, buffers.clone());
    assert_eq!(
        heap.return_roots(16),
        Err(Refusal::Damaged(Damage::EndOnFree))
    );
    assert_eq!(heap.into_buffers(), buffers);
    buffers.waiting.pop();
    let mut heap = Heap::from_buffers(8, 2, buffers);
    assert_eq!(heap.return_roots(16), Err(Refusal::Misshapen));

    let mut buffers = fresh().into_buffers();
    buffers.sections[0] = 7;
    let mut heap = Heap::from_buffers(8, 2, buffers);
    assert_eq!(heap.return_roots(16), Err(Refusal::StaleSections));
}

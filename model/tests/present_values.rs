//! Document 02, U2: "From now on an accepted store of the value present changes no buffer but the waiting list".

mod common;
use common::{call_and_claims, fresh};
use model::rules::calls::short::{allocate, cell, root};

/// The waiting list is left all 0; a refused store keeps it.
#[test]
fn only_the_waiting_list() {
    let mut memory = fresh(8, 2, 4);
    for call in [
        allocate(2, 0),
        root(1, 1),
        cell(0, 0, 1),
        allocate(1, 2),
        cell(2, 1, 3),
    ] {
        assert_eq!(call_and_claims(8, 2, &mut memory, call).number, 0);
    }
    // The object at 2 is unreached from here on.
    assert_eq!(call_and_claims(8, 2, &mut memory, root(2, 0)).number, 0);
    for (call, number) in [
        (root(3, 0), 0),
        (root(0, 1), 0),
        (cell(0, 0, 1), 0),
        (cell(0, 7, 0), 0),
        (cell(2, 1, 3), 0),
        (root(4, 0), 4),
        (cell(1, 0, 0), 6),
        (cell(0, 8, 0), 7),
    ] {
        memory.waiting.fill(9);
        let before = memory.clone();
        let reply = call_and_claims(8, 2, &mut memory, call);
        assert_eq!((reply.number, reply.value), (number, 0), "{call:?}");
        assert!(memory.same_but_for_waiting(&before));
        let due = if number == 0 { 0 } else { 9 };
        assert_eq!(memory.waiting, [due; 8], "{call:?}");
    }
}

/// Six roots at w = 3, one stored over itself, all cleared: freed, not stuck.
#[test]
fn six_roots() {
    let mut memory = fresh(8, 3, 6);
    call_and_claims(8, 3, &mut memory, allocate(1, 0));
    for r in [1, 2, 3, 4, 5, 5] {
        call_and_claims(8, 3, &mut memory, root(r, 1));
    }
    let freed: Vec<usize> = (0..6)
        .map(|r| call_and_claims(8, 3, &mut memory, root(r, 0)).value)
        .collect();
    assert_eq!(freed, [0, 0, 0, 0, 0, 1]);
}

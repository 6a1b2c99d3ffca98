//! v is a whole word: 8 where it is neither 0 nor 1 + a first block, and never what is left of it in 32 bits, or in 16.

mod common;
use common::{call_and_claims, fresh, say};
use model::rules::calls::short::{allocate, cell, root};
use model::{apply, Call, Memory, Reply};

/// 0, good names and bad ones, and the same with higher bits set.
fn values() -> Vec<usize> {
    let low = [0, 1, 2, 3, 5, 8, 9, 65_535, 4_294_967_295];
    let above = [0, 1 << 16, 1 << 17, 1 << 31, 1 << 32, 1 << 40, 1 << 63];
    let mut values: Vec<usize> = above
        .iter()
        .flat_map(|above| low.map(|low| above + low))
        .collect();
    values.extend([
        usize::MAX,
        usize::MAX - 1,
        usize::MAX - 65_535,
        usize::MAX - 4_294_967_295,
    ]);
    values
}

/// Objects at 0 and 4, of 2 blocks each.
fn two_objects() -> Memory {
    let mut memory = fresh(8, 2, 4);
    for call in [allocate(2, 0), allocate(2, 1), allocate(2, 2), root(1, 0)] {
        assert_eq!(apply(8, 2, &mut memory, call).number, 0);
    }
    memory
}

#[test]
fn every_value_is_taken_whole() {
    let mut stores = 0;
    for v in values() {
        let good = [0, 1, 5].contains(&v);
        for call in [root(3, v), root(0, v), cell(0, 7, v), cell(4, 0, v)] {
            let mut memory = two_objects();
            let reply = call_and_claims(8, 2, &mut memory, call);
            assert_eq!(reply.number, if good { 0 } else { 8 }, "{call:?}");
            stores += 1;
        }
        // The numbers before 8.
        for (call, number) in [
            (root(4, v), 4),
            (root(usize::MAX, v), 4),
            (cell(1, 0, v), 6),
            (cell(8, 0, v), 6),
            (cell(usize::MAX, 0, v), 6),
            (cell(0, 8, v), 7),
            (cell(0, usize::MAX, v), 7),
        ] {
            let mut memory = two_objects();
            assert_eq!(call_and_claims(8, 2, &mut memory, call).number, number);
            stores += 1;
        }
    }
    say(&format!(
        "{stores} stores of {} values, wide ones among them",
        values().len()
    ));
}

/// A store that cuts v down to so many bits before it tests it.
fn narrowing(bits: u32, memory: &mut Memory, call: Call) -> Reply {
    let narrow = |v: usize| v % (1 << bits);
    let narrow = match call {
        Call::StoreRoot { r, v } => root(r, narrow(v)),
        Call::StoreCell { a, j, v } => cell(a, j, narrow(v)),
        other => other,
    };
    apply(8, 2, memory, narrow)
}

#[test]
fn cutting_v_down_is_told_apart() {
    for (bits, call) in [
        (16, root(1, 65_537)),
        (16, cell(0, 0, (1 << 32) + 1)),
        (16, root(0, 65_536)),
        (32, root(1, (1 << 32) + 1)),
        (32, cell(0, 0, (1 << 40) + 1)),
        (32, root(0, 1 << 32)),
    ] {
        let (mut right, mut wrong) = (two_objects(), two_objects());
        assert_eq!(apply(8, 2, &mut right, call).number, 8);
        assert_eq!(right, two_objects());
        assert_eq!(narrowing(bits, &mut wrong, call).number, 0);
        assert_ne!(wrong, right);
    }
    say("wrong reading: v cut down to 16 bits, and to 32, before it is tested");
}

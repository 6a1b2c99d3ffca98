//! P1 to P11 and the unnumbered cases of document 01.

mod common;
use common::{call_and_claims, say};
use model::lists::paper::{cases, Step, BLOCKS, ROOTS};
use model::rules::heap::{Ref, MAX_BLOCKS};
use model::rules::replay::replay;
use model::{apply, Call, Memory};

#[test]
fn p1_to_p11() {
    let mut calls = 0;
    let mut maps = 0;
    for case in cases() {
        let width = case.width;
        let mut memory = Memory::zeros(BLOCKS, width, ROOTS);
        let steps = case.before.into_iter().chain(case.steps);
        for (k, step) in steps.enumerate() {
            let line = format!("{}, line {k}: {step:?}", case.name);
            match step {
                Step::Gives(call, number, value, second) => {
                    let reply = call_and_claims(BLOCKS, width, &mut memory, call);
                    let got = (reply.number, reply.value, reply.second);
                    assert_eq!(got, (number, value, second), "{line}");
                    calls += 1;
                }
                Step::Maps(a, b) => {
                    assert_eq!((memory.a[0], memory.b[0]), (a, b), "{line}");
                    maps += 1;
                }
                Step::Free(blocks) => {
                    let free = (0..BLOCKS).filter(|i| memory.a[0] >> i & 1 == 0);
                    assert_eq!(free.collect::<Vec<_>>(), blocks, "{line}");
                    maps += 1;
                }
                Step::Given(a, b) => {
                    memory.a[0] = a;
                    memory.b[0] = b;
                }
            }
        }
    }
    say(&format!(
        "P1 to P11, {calls} calls and the maps {maps} times"
    ));
}

/// "N = 8,192 accepted by format; 4, 12 .. refused 1. w = 0 and 5 refused 1." Document 02, U12: "16,384 to 65,536 blocks are now
/// accepted and 131,072 is refused 1." And the roots beside.
#[test]
fn formats_accepted_and_refused() {
    let mut formats = 0;
    let mut number = |blocks, width, roots| {
        let mut memory = Memory::zeros(blocks, width, roots);
        memory.cells.fill(7);
        let before = memory.clone();
        let reply = apply(blocks, width, &mut memory, Call::Format);
        assert_eq!((reply.value, reply.second), (0, 0));
        if reply.number != 0 {
            assert_eq!(memory, before);
        }
        formats += 1;
        reply.number
    };
    for blocks in (3..=16).map(|power| 1 << power) {
        for width in 1..=4 {
            assert_eq!(number(blocks, width, 4), 0, "{blocks} {width}");
        }
    }
    for blocks in [4, 12, 131_072, 0, 1, 2, 7, 9, 24, 65_535, 65_537, 98_304] {
        assert_eq!(number(blocks, 2, 4), 1, "{blocks}");
    }
    for width in [0, 5, 8] {
        assert_eq!(number(8, width, 4), 1, "{width}");
    }
    assert_eq!(number(8, 2, 1), 0);
    assert_eq!(number(8, 2, 64), 0);
    assert_eq!(number(8, 2, 0), 1);
    assert_eq!(number(8, 2, 65), 1);
    say(&format!("{formats} formats of good and bad numbers"));
}

const EVERY_CALL: [Call; 9] = [
    Call::Format,
    Call::Check,
    Call::Allocate { n: 1, r: 0 },
    Call::StoreRoot { r: 0, v: 0 },
    Call::StoreCell { a: 0, j: 0, v: 0 },
    Call::Collect,
    Call::Look { a: 0 },
    Call::FreeBlocks,
    Call::ReturnRoots { chosen: 16 },
];

/// "131,072 is refused 1": by every call and by a replay, with buffers that fit. 65,536 is not.
#[test]
fn too_many_blocks_in_every_call() {
    let heap = |blocks, width| {
        let mut memory = Memory::zeros(blocks, width, 64);
        memory.b.fill(255);
        memory.waiting.fill(7);
        memory
    };
    let mut refused = 0;
    for (blocks, width) in (1..=4).flat_map(|width| [(65_536, width), (131_072, width)]) {
        let due = blocks > 65_536;
        for call in EVERY_CALL {
            let mut memory = heap(blocks, width);
            let reply = apply(blocks, width, &mut memory, call);
            assert_eq!(reply.number == 1, due, "{blocks} {width} {call:?}");
            if due {
                assert_eq!((reply.value, reply.second), (0, 0), "{call:?}");
                assert_eq!(memory, heap(blocks, width), "{call:?}");
                refused += 1;
            }
        }
        let mut memory = heap(blocks, width);
        let reply = replay(
            blocks,
            width,
            &mut memory,
            &Call::Check.words(),
            &mut [7; 3],
        );
        assert_eq!(reply.number == 1, due, "{blocks} {width}, a replay");
        assert_eq!(memory == heap(blocks, width), due);
    }
    say(&format!("{refused} calls on 131,072 blocks, all refused 1"));
}

/// A wrong length of any buffer is refused 1 by each of the calls, and so are N and w themselves.
#[test]
fn every_wrong_length_in_every_call() {
    let mut refused = 0;
    for call in EVERY_CALL {
        for buffer in 0..7 {
            for by in [-1i64, 1] {
                let mut memory = common::fresh(16, 3, 4);
                let longer = |length: usize| (length as i64 + by) as usize;
                match buffer {
                    0 => memory.a.resize(longer(2), 0),
                    1 => memory.b.resize(longer(2), 255),
                    2 => memory.counts.resize(longer(6), 0),
                    3 => memory.cells.resize(longer(64), 0),
                    4 => memory.roots.resize(if by < 0 { 0 } else { 65 }, 0),
                    5 => memory.waiting.resize(longer(16), 0),
                    _ => memory.sections.resize(longer(1), 0),
                }
                let before = memory.clone();
                assert_eq!(
                    apply(16, 3, &mut memory, call).number,
                    1,
                    "{call:?} {buffer}"
                );
                assert_eq!(memory, before);
                refused += 1;
            }
        }
        for (blocks, width) in [
            (8, 3),
            (32, 3),
            (16, 2),
            (16, 4),
            (usize::MAX, 3),
            (16, usize::MAX),
        ] {
            let mut memory = common::fresh(16, 3, 4);
            assert_eq!(apply(blocks, width, &mut memory, call).number, 1);
            refused += 1;
        }
    }
    say(&format!(
        "{refused} calls with a wrong length, all refused 1"
    ));
}

/// "The owner of the written cell may itself be freed this way": X and Y name each other, Z hangs in root 2.
#[test]
fn an_owner_freed_by_its_own_store() {
    let mut memory = common::fresh(8, 2, 4);
    let mut number = |call| {
        let reply = call_and_claims(8, 2, &mut memory, call);
        (reply.number, reply.value, reply.second)
    };
    for r in 0..3 {
        assert_eq!(number(Call::Allocate { n: 1, r }), (0, r, 0));
    }
    number(Call::StoreCell { a: 0, j: 0, v: 2 });
    number(Call::StoreCell { a: 1, j: 0, v: 1 });
    number(Call::StoreRoot { r: 0, v: 0 });
    number(Call::StoreRoot { r: 1, v: 0 });
    assert_eq!(number(Call::StoreCell { a: 0, j: 0, v: 3 }), (0, 2, 0));
    assert_eq!(number(Call::Look { a: 2 }), (0, 1, 1));
    assert_eq!(number(Call::Look { a: 0 }), (6, 0, 0));
}

/// A chain over the whole of the largest heap is let go by one store.
#[test]
fn the_longest_chain() {
    let blocks = MAX_BLOCKS;
    let mut memory = Memory::zeros(blocks, 2, 1);
    memory.a.fill(255);
    memory.counts[..blocks / 8].fill(255);
    for block in 1..blocks {
        memory.cells[4 * block] = block as Ref;
    }
    memory.roots[0] = blocks as Ref;
    assert_eq!(apply(blocks, 2, &mut memory, Call::Check).number, 0);
    let reply = apply(blocks, 2, &mut memory, Call::StoreRoot { r: 0, v: 0 });
    assert_eq!((reply.number, reply.value), (0, blocks));
    assert_eq!(memory, common::fresh(blocks, 2, 1));
}

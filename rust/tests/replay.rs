//! The replay of a list of calls: P1, and each refusal, with what is behind the replies kept.

mod common;
use common::lend;
use huwekapo::lent::{replay, Reply};
use huwekapo::{Buffers, Heap, Look, Refusal};

/// P1: allocate 2, 1 and 3, and look at 4. Words that a call does not name hold anything.
const P1: [u64; 16] = [2, 2, 0, 9, 2, 1, 1, 9, 2, 3, 2, 9, 6, 4, 9, 9];

/// Buffers for 8 blocks, width 2 and 4 roots, with anything in them.
fn used() -> Buffers {
    Buffers {
        a: vec![0xa5; 1],
        b: vec![0x5a; 1],
        counts: vec![0xc3; 2],
        cells: vec![77; 32],
        roots: vec![88; 4],
        waiting: vec![99; 8],
        sections: vec![66; 1],
        data: vec![0x99; 1],
        marks: vec![0x96; 1],
        list: vec![55; 9],
    }
}

fn reply(number: usize, value: usize) -> Reply {
    Reply {
        number,
        value,
        second: 0,
    }
}

/// The number that refuses a replay. Nothing is written.
fn refusal(blocks: usize, calls: &[u64], room: usize) -> usize {
    let mut buffers = used();
    let mut replies = vec![7; room];
    let refused = replay(lend(blocks, 2, &mut buffers), calls, &mut replies);
    assert_ne!(refused.number, 0);
    assert_eq!(refused, reply(refused.number, 0));
    assert_eq!(buffers, used());
    assert_eq!(buffers.waiting, used().waiting);
    assert_eq!(replies, vec![7; room]);
    refused.number
}

#[test]
fn p1() {
    let mut buffers = used();
    let mut replies = [7; 14];
    let accepted = replay(lend(8, 2, &mut buffers), &P1, &mut replies);
    assert_eq!(accepted, reply(0, 4));
    assert_eq!(replies, [0, 0, 0, 0, 2, 0, 0, 4, 0, 0, 3, 1, 7, 7]);

    let mut heap = Heap::new(8, 2, 4).expect("a good shape");
    for (n, r) in [(2, 0), (1, 1), (3, 2)] {
        heap.allocate(n, r).expect("a free chunk");
    }
    assert_eq!(&buffers, heap.buffers());
    assert_eq!(buffers.waiting, [0; 8]);
    assert_eq!((buffers.a[0], buffers.b[0]), (119, 185));
    assert_eq!(buffers.sections, [1]);
}

/// The same on a heap that owns its buffers, with the refusals by name.
#[test]
fn on_a_heap() {
    let mut heap = Heap::from_buffers(8, 2, used());
    let mut replies = [7; 14];
    for (calls, room, refusal) in [
        (&P1[..15], 12, Refusal::CutOff),
        (&[14, 0, 0, 0][..], 3, Refusal::NoCall),
        (&P1[..], 11, Refusal::ShortReplies),
    ] {
        assert_eq!(heap.replay(calls, &mut replies[..room]), Err(refusal));
    }
    assert_eq!(heap.buffers(), &used());
    assert_eq!(replies, [7; 14]);
    assert_eq!(heap.replay(&P1, &mut replies), Ok(4));
    assert_eq!(replies, [0, 0, 0, 0, 2, 0, 0, 4, 0, 0, 3, 1, 7, 7]);
    assert_eq!(heap.look(4), Ok(Look { size: 3, count: 1 }));
}

/// P1, then roots 0 and 2 returned, with anything in the words that a return does not name, and root 1 by a set
/// that has a root too many, and by its own.
#[test]
fn a_return_in_a_list() {
    let mut calls = P1.to_vec();
    calls.extend([8, 5, u64::MAX, u64::MAX, 8, 18, 0, 0, 8, 2, 0, 0]);
    let mut buffers = used();
    let mut replies = [7; 21];
    let accepted = replay(lend(8, 2, &mut buffers), &calls, &mut replies);
    assert_eq!(accepted, reply(0, 7));
    assert_eq!(replies[12..], [0, 5, 0, 4, 0, 0, 0, 1, 0]);
    assert_eq!(Ok(buffers), Heap::new(8, 2, 4).map(Heap::into_buffers));
}

/// A value that no cell can hold is refused 8, and the list goes on.
#[test]
fn a_wide_value_in_a_list() {
    for v in [65_536, 65_537, 1 << 32, (1 << 32) + 1, 1 << 40, u64::MAX] {
        let mut calls = vec![3, 0, v, 0];
        calls.extend(P1);
        calls.extend([3, 0, v, 0, 4, 0, 7, v, 6, 0, 0, 0]);
        let mut buffers = used();
        let mut replies = [7; 25];
        let accepted = replay(lend(8, 2, &mut buffers), &calls, &mut replies);
        assert_eq!(accepted, reply(0, 8));
        assert_eq!(replies[..3], [8, 0, 0]);
        assert_eq!(replies[3..15], [0, 0, 0, 0, 2, 0, 0, 4, 0, 0, 3, 1]);
        assert_eq!(replies[15..], [8, 0, 0, 8, 0, 0, 0, 2, 1, 7]);

        let mut alone = used();
        assert_eq!(
            replay(lend(8, 2, &mut alone), &P1, &mut replies),
            reply(0, 4)
        );
        assert_eq!(buffers, alone);
    }
}

/// 2 blocks of data in root 0, a number in its last cell, read back with anything in the words that a read does not name;
/// an object in root 1, whose cells are no numbers.
#[test]
fn numbers_in_a_list() {
    let calls = [
        [9, 2, 0, 9],
        [10, 0, 7, u64::from(u32::MAX)],
        [11, 0, 7, u64::MAX],
        [2, 1, 1, 0],
        [10, 2, 0, 0],
        [4, 0, 7, 1],
        [3, 0, 0, 0],
    ];
    let mut buffers = used();
    let mut replies = [7; 21];
    let accepted = replay(lend(8, 2, &mut buffers), calls.as_flattened(), &mut replies);
    assert_eq!(accepted, reply(0, 7));
    assert_eq!(replies[..7], [0; 7]);
    assert_eq!(replies[7..9], [u64::from(u32::MAX), 0]);
    assert_eq!(replies[9..], [0, 2, 0, 12, 0, 0, 12, 0, 0, 0, 2, 0]);
    assert_eq!(buffers.data, [0]);
    assert_eq!(buffers.cells, [0; 32]);
}

/// A number that no cell can hold is no call: the list is refused 9, also where there is no room for the replies.
#[test]
fn a_wide_number_in_a_list() {
    for v in [1 << 32, (1 << 32) + 1, u64::MAX] {
        let calls = [[9, 1, 0, 0], [10, 0, 0, v]];
        for room in [0, 5, 6] {
            assert_eq!(refusal(8, calls.as_flattened(), room), 9);
        }
        assert_eq!(refusal(8, &calls.as_flattened()[..7], 6), 10);
        assert_eq!(refusal(16, calls.as_flattened(), 6), 1);
        // No other call has a number.
        let calls = [[9, 1, 0, v], [11, 0, 0, v]];
        let mut replies = [7; 6];
        let accepted = replay(lend(8, 2, &mut used()), calls.as_flattened(), &mut replies);
        assert_eq!(accepted, reply(0, 2));
        assert_eq!(replies, [0; 6]);
    }
}

/// A chain of 3 objects and one that names itself alone. The collection is opened and stepped, with anything in the words that
/// the calls do not name: a full one and a second opening are refused meanwhile, and a step behind the close.
#[test]
fn steps_in_a_list() {
    let calls = [
        [2, 1, 0, 0],
        [2, 1, 1, 0],
        [2, 1, 2, 0],
        [2, 1, 3, 0],
        [4, 0, 0, 2],
        [4, 1, 0, 3],
        [4, 3, 0, 4],
        [8, 14, 0, 0],
        [13, 1, 0, 0],
        [12, 9, 9, 9],
        [12, 0, 0, 0],
        [5, 0, 0, 0],
        [13, 0, 9, 9],
        [13, 1, 0, 0],
        [13, u64::MAX, 0, 0],
        [13, 1, 0, 0],
        [7, 0, 0, 0],
    ];
    let mut buffers = used();
    let mut replies = [7; 51];
    let accepted = replay(lend(8, 2, &mut buffers), calls.as_flattened(), &mut replies);
    assert_eq!(accepted, reply(0, 17));
    assert_eq!(replies[24..36], [14, 0, 0, 0, 0, 0, 14, 0, 0, 14, 0, 0]);
    assert_eq!(replies[36..45], [0, 0, 0, 0, 1, 0, 0, 2, 1]);
    assert_eq!(replies[45..], [14, 0, 0, 0, 5, 0]);
    assert_eq!(
        (&buffers.marks[..], &buffers.list[..]),
        (&[0][..], &[0; 9][..])
    );
}

#[test]
fn an_empty_list_formats() {
    let mut buffers = used();
    let mut replies = [7; 2];
    let accepted = replay(lend(8, 2, &mut buffers), &[], &mut replies);
    assert_eq!(accepted, reply(0, 0));
    assert_eq!(replies, [7; 2]);
    assert_eq!(Ok(buffers), Heap::new(8, 2, 4).map(Heap::into_buffers));
}

#[test]
fn refusals() {
    assert_eq!(refusal(16, &P1, 12), 1);
    for length in 13..16 {
        assert_eq!(refusal(8, &P1[..length], 12), 10);
    }
    for code in [14, 256, u64::MAX] {
        let mut calls = P1;
        calls[8] = code;
        assert_eq!(refusal(8, &calls, 12), 9);
    }
    for room in [0, 3, 11] {
        assert_eq!(refusal(8, &P1, room), 18);
    }
}

#[test]
fn refusals_in_order() {
    let mut calls = P1;
    calls[0] = 14;
    assert_eq!(refusal(8, &calls, 11), 9);
    assert_eq!(refusal(8, &calls[..15], 8), 10);
    assert_eq!(refusal(16, &calls[..15], 8), 1);
}

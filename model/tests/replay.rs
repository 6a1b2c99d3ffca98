//! The model's replay of a list, and a list of calls on a heap as it stands: P1, and each refusal before those that come after it.

mod common;
use common::{fresh, say};
use model::rules::replay::{make_calls, replay};
use model::{Call, Memory};

/// The words of calls, one after another.
fn words(calls: &[Call]) -> Vec<u64> {
    calls.iter().flat_map(|call| call.words()).collect()
}

#[test]
fn p1() {
    let list = words(&[
        Call::Allocate { n: 2, r: 0 },
        Call::Allocate { n: 1, r: 1 },
        Call::Allocate { n: 3, r: 2 },
        Call::Look { a: 4 },
    ]);
    let mut memory = Memory::zeros(8, 2, 4);
    memory.waiting.fill(9);
    let mut replies = [7; 14];
    let reply = replay(8, 2, &mut memory, &list, &mut replies);
    assert_eq!((reply.number, reply.value, reply.second), (0, 4, 0));
    assert_eq!(replies, [0, 0, 0, 0, 2, 0, 0, 4, 0, 0, 3, 1, 7, 7]);
    assert_eq!((memory.a[0], memory.b[0]), (119, 185));
    assert_eq!(memory.waiting, [0; 8]);
}

/// "The list ... may be empty."
#[test]
fn an_empty_list() {
    let mut memory = Memory::zeros(8, 2, 4);
    let reply = replay(8, 2, &mut memory, &[], &mut []);
    assert_eq!((reply.number, reply.value), (0, 0));
    assert_eq!(memory, fresh(8, 2, 4));
}

/// Each set of the four faults, in the order in which they are refused.
#[test]
fn refusals_in_order() {
    let numbers = [1, 10, 9, 18];
    for faults in 0..16 {
        let has = |k: usize| faults >> k & 1 == 1;
        let blocks = if has(0) { 131_072 } else { 8 };
        let mut list = words(&[Call::Check, Call::Collect]);
        if has(1) {
            list.push(0);
        }
        if has(2) {
            list[4] = 14;
        }
        let mut replies = vec![7; if has(3) { 5 } else { 6 }];
        let mut memory = Memory::zeros(blocks, 2, 4);
        let reply = replay(blocks, 2, &mut memory, &list, &mut replies);
        let due = (0..4).find(|k| has(*k)).map_or(0, |k| numbers[k]);
        let value = if faults == 0 { 2 } else { 0 };
        assert_eq!((reply.number, reply.value, reply.second), (due, value, 0));
        if faults != 0 {
            assert_eq!(memory, Memory::zeros(blocks, 2, 4));
            assert!(replies.iter().all(|word| *word == 7));
        }
    }
    say("a replay with each set of its four faults");
}

/// "9 where an entry is no call (an unknown code)"
#[test]
fn what_is_no_call() {
    let most = u64::MAX;
    for (list, number) in [
        ([14, 0, 0, 0], 9),
        ([12, most, most, most], 0),
        ([13, most, most, most], 0),
        // A number write whose number no cell can hold; and the words that the others don't name.
        ([10, 0, 0, 4_294_967_296], 9),
        ([10, 0, 0, most], 9),
        ([10, most, most, 4_294_967_295], 0),
        ([9, most, most, most], 0),
        ([11, most, most, most], 0),
        ([253, 0, 0, 0], 9),
        ([255, 8, 2, 4], 9),
        ([most, 0, 0, 0], 9),
        ([3, most, most, most], 0),
        ([4, most, most, most], 0),
        ([2, most, most, most], 0),
        ([7, most, most, most], 0),
        ([8, most, most, most], 0),
    ] {
        let mut memory = Memory::zeros(8, 2, 4);
        let reply = replay(8, 2, &mut memory, &list, &mut [0; 3]);
        assert_eq!(reply.number, number, "{list:?}");
    }
}

/// A store of a value that no cell can hold is answered 8, and the list goes on.
#[test]
fn a_value_that_no_cell_can_hold() {
    let list = words(&[
        Call::Allocate { n: 1, r: 0 },
        Call::StoreRoot { r: 1, v: 1 << 40 },
        Call::StoreRoot {
            r: 1,
            v: (1 << 32) + 1,
        },
        Call::StoreCell {
            a: 0,
            j: 0,
            v: usize::MAX,
        },
        Call::StoreRoot { r: 1, v: 1 },
        Call::Look { a: 0 },
    ]);
    let mut memory = Memory::zeros(8, 2, 4);
    let mut replies = [7; 18];
    let reply = replay(8, 2, &mut memory, &list, &mut replies);
    assert_eq!((reply.number, reply.value, reply.second), (0, 6, 0));
    let numbers: Vec<u64> = replies.chunks(3).map(|reply| reply[0]).collect();
    assert_eq!(numbers, [0, 8, 8, 8, 0, 0]);
    assert_eq!(replies[15..], [0, 1, 2]);
}

/// A replay formats, so it takes any list of sections of the right length, and leaves a true one (U4).
#[test]
fn any_list_of_sections() {
    let list = words(&[
        Call::Allocate { n: 300, r: 0 },
        Call::Allocate { n: 1, r: 1 },
        Call::StoreRoot { r: 0, v: 0 },
        Call::Check,
    ]);
    let mut replies = [7; 12];
    let mut memory = Memory::zeros(512, 2, 4);
    memory.sections.fill(5);
    let reply = replay(512, 2, &mut memory, &list, &mut replies);
    assert_eq!((reply.number, reply.value), (0, 4));
    assert_eq!(replies, [0, 0, 0, 0, 300, 0, 0, 300, 0, 0, 0, 0]);
    assert_eq!(memory.sections, [256, 128]);
    for length in [0, 1, 3] {
        let mut memory = Memory::zeros(512, 2, 4);
        memory.sections.resize(length, 5);
        let before = memory.clone();
        let reply = replay(512, 2, &mut memory, &list, &mut replies);
        assert_eq!((reply.number, memory), (1, before));
    }
}

/// Every set of the faults of a list of calls on a heap as it stands, in the order in which they are refused. Each fault of the heap
/// is one that the others leave as it is.
#[test]
fn refusals_of_a_list_on_a_heap() {
    let numbers = [1, 2, 11, 13, 10, 9, 18];
    for faults in 0..1 << numbers.len() {
        let has = |k: usize| faults >> k & 1 == 1;
        let mut given = fresh(8, 2, 4);
        given.waiting.fill(9);
        let blocks = if has(0) { 16 } else { 8 };
        given.cells[0] = if has(1) { 7 } else { 0 };
        given.sections[0] = if has(2) { 4 } else { 8 };
        given.list[0] = if has(3) { 1 } else { 0 };
        let mut list = words(&[Call::Check, Call::Allocate { n: 1, r: 0 }]);
        if has(4) {
            list.push(0);
        }
        if has(5) {
            list[4] = 14;
        }
        let mut replies = vec![7; if has(6) { 5 } else { 6 }];
        let mut memory = given.clone();
        let reply = make_calls(blocks, 2, &mut memory, &list, &mut replies);
        let due = (0..numbers.len()).find(|k| has(*k));
        let value = match due {
            None => 2,
            // A cell of a free block that isn't 0.
            Some(1) => 4,
            Some(_) => 0,
        };
        let number = due.map_or(0, |k| numbers[k]);
        assert_eq!(
            (reply.number, reply.value, reply.second),
            (number, value, 0)
        );
        if due.is_some() {
            assert_eq!(memory, given);
            assert!(replies.iter().all(|word| *word == 7));
        } else {
            assert_eq!(replies, [0; 6]);
            assert_eq!(memory.waiting, [0; 8]);
            assert_eq!(memory.roots, [1, 0, 0, 0]);
        }
    }
    say("a list of calls with each set of its seven faults");
}

/// Behind the calls of a list, the others are made as by themselves; an empty list leaves all but the waiting list.
#[test]
fn a_list_goes_on_where_the_heap_stands() {
    let front = [Call::Allocate { n: 2, r: 0 }, Call::OpenCollection];
    let behind = [
        Call::StoreCell { a: 0, j: 7, v: 1 },
        Call::AllocateData { n: 1, r: 1 },
        Call::OpenCollection,
        Call::StepCollection { budget: 9 },
    ];
    let mut whole = fresh(8, 2, 4);
    let mut parts = whole.clone();
    let mut replies = [7; 18];
    let all = [&front[..], &behind[..]].concat();
    assert_eq!(
        make_calls(8, 2, &mut whole, &words(&all), &mut replies).value,
        6
    );
    let (first, rest) = (&mut [7; 6], &mut [7; 12]);
    assert_eq!(make_calls(8, 2, &mut parts, &words(&front), first).value, 2);
    parts.waiting.fill(3);
    let before = parts.clone();
    assert_eq!(make_calls(8, 2, &mut parts, &[], &mut []).number, 0);
    assert_eq!(parts.waiting, [0; 8]);
    assert_eq!(
        Memory {
            waiting: before.waiting.clone(),
            ..parts.clone()
        },
        before
    );
    assert_eq!(make_calls(8, 2, &mut parts, &words(&behind), rest).value, 4);
    assert_eq!(whole, parts);
    assert_eq!(replies[..6], first[..]);
    assert_eq!(replies[6..], rest[..]);
    assert_eq!(replies[12..], [14, 0, 0, 0, 1, 0]);
}

//! Exhaustive short lists on eight blocks, with demand 3's claims after every call.

mod common;
use common::{call_and_claims, fresh, say};
use model::{Call, Memory};
use std::collections::HashSet;

const N: usize = 8;

/// The calls that the lists are made of.
const ALPHABET: [Call; 21] = [
    Call::Allocate { n: 1, r: 0 },
    Call::Allocate { n: 1, r: 1 },
    Call::Allocate { n: 2, r: 0 },
    Call::Allocate { n: 3, r: 1 },
    Call::Allocate { n: 5, r: 0 },
    Call::StoreRoot { r: 0, v: 0 },
    Call::StoreRoot { r: 1, v: 0 },
    Call::StoreRoot { r: 0, v: 1 },
    Call::StoreRoot { r: 1, v: 1 },
    Call::StoreRoot { r: 0, v: 3 },
    Call::StoreRoot { r: 1, v: 2 },
    Call::StoreCell { a: 0, j: 0, v: 0 },
    Call::StoreCell { a: 0, j: 0, v: 1 },
    Call::StoreCell { a: 0, j: 1, v: 2 },
    Call::StoreCell { a: 0, j: 4, v: 3 },
    Call::StoreCell { a: 1, j: 0, v: 1 },
    Call::StoreCell { a: 1, j: 1, v: 2 },
    Call::StoreCell { a: 2, j: 0, v: 1 },
    Call::StoreCell { a: 2, j: 3, v: 3 },
    Call::Collect,
    Call::ReturnRoots { chosen: 3 },
];

/// The calls that lists with data are made of (U6). The numbers look like references to the objects that the lists make.
const WITH_DATA: [Call; 15] = [
    Call::Allocate { n: 1, r: 0 },
    Call::Allocate { n: 2, r: 1 },
    Call::AllocateData { n: 1, r: 0 },
    Call::AllocateData { n: 2, r: 1 },
    Call::StoreRoot { r: 0, v: 0 },
    Call::StoreRoot { r: 1, v: 1 },
    Call::StoreRoot { r: 0, v: 3 },
    Call::StoreCell { a: 0, j: 0, v: 3 },
    Call::StoreCell { a: 2, j: 4, v: 1 },
    Call::StoreCell { a: 0, j: 1, v: 1 },
    Call::WriteNumber { a: 0, j: 0, v: 3 },
    Call::WriteNumber { a: 2, j: 7, v: 1 },
    Call::WriteNumber { a: 2, j: 0, v: 9 },
    Call::Collect,
    Call::ReturnRoots { chosen: 3 },
];

/// Calls that only read or are refused on every heap of eight blocks and two roots.
const BESIDE: [Call; 15] = [
    Call::Check,
    Call::FreeBlocks,
    Call::Look { a: 2 },
    Call::Look { a: 8 },
    Call::Allocate { n: 9, r: 0 },
    Call::StoreRoot { r: 2, v: 0 },
    Call::StoreCell { a: 0, j: 32, v: 0 },
    Call::StoreRoot {
        r: 0,
        v: (1 << 32) + 1,
    },
    Call::StoreCell {
        a: 0,
        j: 0,
        v: 65_537,
    },
    Call::ReturnRoots { chosen: 4 },
    Call::AllocateData { n: 9, r: 0 },
    Call::AllocateData { n: 1, r: 2 },
    Call::WriteNumber { a: 0, j: 32, v: 1 },
    Call::ReadNumber { a: 0, j: 0 },
    Call::ReadNumber { a: 2, j: 7 },
];

#[derive(Default)]
struct Ran {
    lists: usize,
    calls: usize,
    numbers: [usize; 15],
}

/// All lists that go on from here with at most so many calls.
fn lists(alphabet: &[Call], width: usize, memory: &Memory, left: usize, ran: &mut Ran) {
    ran.lists += 1;
    let mut same = memory.clone();
    for call in BESIDE {
        call_and_claims(N, width, &mut same, call);
        ran.calls += 1;
    }
    assert_eq!(&same, memory);
    if left == 0 {
        return;
    }
    for call in alphabet {
        let mut after = memory.clone();
        let reply = call_and_claims(N, width, &mut after, *call);
        ran.calls += 1;
        ran.numbers[reply.number] += 1;
        lists(alphabet, width, &after, left - 1, ran);
    }
}

#[test]
fn all_lists_of_up_to_four_calls() {
    for width in [1, 2] {
        let mut ran = Ran::default();
        lists(&ALPHABET, width, &fresh(N, width, 2), 4, &mut ran);
        assert_eq!(ran.lists, 1 + 21 + 441 + 9261 + 194_481);
        say(&format!(
            "w = {width}: all {} lists of up to 4 of 21 calls, {} calls with claims, replies by number {:?}",
            ran.lists, ran.calls, ran.numbers
        ));
    }
}

#[test]
fn all_lists_with_data_of_up_to_four_calls() {
    for width in [1, 2] {
        let mut ran = Ran::default();
        lists(&WITH_DATA, width, &fresh(N, width, 2), 4, &mut ran);
        assert_eq!(ran.lists, 1 + 15 + 225 + 3375 + 50_625);
        assert!(ran.numbers[12] > 0);
        say(&format!(
            "w = {width}: all {} lists of up to 4 of 15 calls with data, {} calls with claims, replies by number {:?}",
            ran.lists, ran.calls, ran.numbers
        ));
    }
}

/// The same lists, longer: a heap that was met before isn't gone on from again, since the same calls do the
/// same to it. How many heaps and calls.
fn heaps(alphabet: &[Call], width: usize, depth: usize) -> (usize, usize) {
    let mut met: HashSet<Memory> = HashSet::from([fresh(N, width, 2)]);
    let mut last: Vec<Memory> = met.iter().cloned().collect();
    let mut calls = 0;
    for _ in 0..depth {
        let mut next = Vec::new();
        for memory in &last {
            for call in alphabet {
                let mut after = memory.clone();
                call_and_claims(N, width, &mut after, *call);
                calls += 1;
                if met.insert(after.clone()) {
                    next.push(after);
                }
            }
        }
        last = next;
    }
    (met.len(), calls)
}

#[test]
fn all_heaps_of_longer_lists() {
    for (width, depth) in [(1, 9), (2, 9), (3, 8), (4, 8)] {
        let (heaps, calls) = heaps(&ALPHABET, width, depth);
        say(&format!(
            "w = {width}: all {heaps} heaps of lists of up to {depth} calls, {calls} calls with claims"
        ));
    }
}

#[test]
fn all_heaps_of_longer_lists_with_data() {
    for (width, depth) in [(1, 8), (2, 9), (3, 9)] {
        let (heaps, calls) = heaps(&WITH_DATA, width, depth);
        say(&format!(
            "w = {width}: all {heaps} heaps of lists with data of up to {depth} calls, {calls} calls with claims"
        ));
    }
}

//! The copy into a second heap (U14): by hand, by its claims on what random lists leave, and wrong readings told apart.

mod common;
use common::{fresh, say};
use model::lists::families::{generate, FAMILIES};
use model::lists::file::Bench;
use model::lists::random::Random;
use model::rules::answers::{format, refused_first};
use model::rules::calls::short::{allocate, cell, chosen, data, root, write_number, OPEN};
use model::rules::collection::sweep_and_recount;
use model::rules::copies::{copy, due_copy, Sizes};
use model::rules::copy_claims::broken_copy;
use model::rules::heap::*;
use model::rules::marks::is_open;
use model::rules::sections::leave_list_true;
use model::rules::shapes::met_in_order;
use model::{apply, Call, Memory, Reply};
use std::collections::BTreeMap;

fn heap(blocks: usize, width: usize, roots: usize, calls: &[Call]) -> Memory {
    let mut memory = fresh(blocks, width, roots);
    for call in calls {
        assert_eq!(
            apply(blocks, width, &mut memory, *call).number,
            0,
            "{call:?}"
        );
    }
    memory
}

/// A second heap that holds anything.
fn junk(blocks: usize, width: usize, roots: usize) -> Memory {
    let mut into = Memory::zeros(blocks, width, roots);
    for map in [
        &mut into.a,
        &mut into.b,
        &mut into.counts,
        &mut into.data,
        &mut into.marks,
    ] {
        map.fill(165);
    }
    for list in [
        &mut into.cells,
        &mut into.roots,
        &mut into.waiting,
        &mut into.sections,
        &mut into.list,
    ] {
        list.fill(9);
    }
    into
}

fn reply(number: usize, value: usize) -> Reply {
    Reply {
        number,
        value,
        second: 0,
    }
}

/// The object in root 0 is met first, though it lies behind the others, and what its cell names behind that of root 1.
#[test]
fn in_the_order_of_the_shape() {
    let calls = [
        allocate(1, 2),
        allocate(1, 1),
        allocate(1, 0),
        cell(2, 0, 1),
        root(2, 0),
    ];
    let memory = heap(8, 2, 3, &calls);
    let mut into = junk(8, 2, 3);
    assert_eq!(copy((8, 2), &memory, (8, 2), &mut into), reply(0, 3));
    assert_eq!((&into.a[..], &into.b[..]), (&[7][..], &[248][..]));
    assert_eq!((&into.roots[..], into.cells[0]), (&[1, 2, 0][..], 3));
    assert_eq!(
        (&into.sections[..], &into.waiting[..]),
        (&[4][..], &[0; 8][..])
    );
}

#[test]
fn stuck_objects_are_counted_anew() {
    let calls = [
        allocate(1, 0),
        root(1, 1),
        root(2, 1),
        root(1, 0),
        root(2, 0),
    ];
    let memory = heap(8, 2, 4, &calls);
    assert_eq!(count(8, 2, &memory, 0), 3);
    for width in 1..=4 {
        let mut into = junk(16, width, 4);
        assert_eq!(copy((8, 2), &memory, (16, width), &mut into), reply(0, 1));
        assert_eq!(count(16, width, &into, 0), 1);
    }
}

#[test]
fn no_chunk_at_its_turn() {
    // A full heap of 5, 1 and 2 blocks: in the order 1, 5, 2 there is no chunk of eight left for the 5.
    let memory = heap(8, 2, 3, &[allocate(5, 1), allocate(1, 0), allocate(2, 2)]);
    let mut into = junk(8, 2, 3);
    let before = into.clone();
    assert_eq!(copy((8, 2), &memory, (8, 2), &mut into), reply(17, 0));
    assert_eq!(into, before);
    assert_eq!(
        copy((8, 2), &memory, (16, 2), &mut junk(16, 2, 3)),
        reply(0, 8)
    );
    // Larger than the second heap.
    let memory = heap(16, 2, 1, &[allocate(9, 0)]);
    assert_eq!(
        copy((16, 2), &memory, (8, 2), &mut junk(8, 2, 1)),
        reply(17, 0)
    );
    let mut into = junk(512, 1, 1);
    assert_eq!(copy((16, 2), &memory, (512, 1), &mut into), reply(0, 9));
    assert_eq!(into.sections, [128, 256]);
}

#[test]
fn free_blocks_lie_together() {
    let mut calls: Vec<Call> = (0..8).map(|r| allocate(1, r)).collect();
    calls.extend([2, 4, 5, 7].map(|r| root(r, 0)));
    let mut memory = heap(8, 2, 8, &calls);
    assert_eq!(apply(8, 2, &mut memory.clone(), allocate(4, 0)).number, 5);
    let mut into = junk(8, 2, 8);
    assert_eq!(copy((8, 2), &memory, (8, 2), &mut into), reply(0, 4));
    assert_eq!(into.a, [15]);
    assert_eq!(apply(8, 2, &mut into, allocate(4, 7)), reply(0, 4));
    memory.waiting.fill(3);
    assert_eq!(
        due_copy((8, 2), &memory, (8, 2), &junk(8, 2, 8)).unwrap().0,
        4
    );
}

#[test]
fn data_is_copied_as_it_is() {
    let calls = [data(1, 1), allocate(1, 0), write_number(0, 2, 2)];
    let memory = heap(8, 2, 2, &calls);
    let mut into = junk(8, 2, 2);
    assert_eq!(copy((8, 2), &memory, (8, 2), &mut into), reply(0, 2));
    assert_eq!(
        (into.data[0], into.cells[6], &into.roots[..]),
        (2, 2, &[1, 2][..])
    );
}

#[test]
fn refusals_in_their_order() {
    let mut open = heap(16, 2, 2, &[allocate(9, 0), OPEN]);
    let small = junk(8, 2, 2);
    let number = |first: &Memory, second: Sizes, into: &Memory| {
        due_copy((16, 2), first, second, into).unwrap_err().number
    };
    assert_eq!(number(&open, (8, 2), &junk(8, 2, 3)), 1);
    assert_eq!(number(&open, (8, 3), &small), 1);
    assert_eq!(number(&open, (8, 2), &small), 14);
    open.marks[1] = 255;
    assert_eq!(number(&open, (8, 2), &small), 13);
    open.sections[0] = 9;
    assert_eq!(number(&open, (8, 2), &small), 11);
    open.counts[0] = 0;
    assert_eq!(
        due_copy((16, 2), &open, (8, 2), &small),
        Err(Reply {
            number: 2,
            value: 5,
            second: 0
        })
    );
}

/// What random lists leave, damaged or not.
fn benches() -> impl Iterator<Item = Bench> {
    (0..60).flat_map(|seed| {
        let family = |(name, _): &(&str, _)| generate(name, seed, 40).map(|desk| desk.bench);
        FAMILIES.iter().filter_map(family).collect::<Vec<Bench>>()
    })
}

#[test]
fn the_claims_hold_of_random_copies() {
    let (mut copies, mut refused) = (0, 0);
    let mut random = Random::new(5);
    for bench in benches() {
        let first = (bench.blocks, bench.width);
        let quiet = refused_first(first.0, first.1, &bench.memory, Call::Check).is_none();
        if !quiet || is_open(first.0, &bench.memory) {
            continue;
        }
        for _ in 0..4 {
            let second = (8 << random.below(5), 1 + random.below(4));
            let into = junk(second.0, second.1, bench.memory.roots.len());
            assert_eq!(broken_copy(first, &bench.memory, second, &into), None);
            match due_copy(first, &bench.memory, second, &into) {
                Ok(_) => copies += 1,
                Err(_) => refused += 1,
            }
        }
    }
    say(&format!("{copies} copies, {refused} without room"));
    assert!(copies > 200 && refused > 20);
}

// ---- wrong readings, each of another copy written once more

#[derive(Clone, Copy, Debug, PartialEq)]
enum Wrong {
    Nothing,
    ByBlockNumber,
    LastRootFirst,
    GarbageToo,
    CountsKept,
    CountsOfTheOldWidth,
    DataMoved,
    ReferencesAsTheyStand,
    RootsAsTheyStand,
    DataMadeOrdinary,
    WholeChunks,
    ChunksOfTheSize,
    HighestChunk,
    OverWhatStood,
    FourteenLast,
    FourteenBeforeThirteen,
    OtherRoots,
    SecondTested,
    OpenSecondRefused,
    FormattedAt17,
    ValueOfTheFirst,
    ValueInObjects,
    FirstWaitingKept,
}

use Wrong::*;

const ALL: [Wrong; 22] = [
    ByBlockNumber,
    LastRootFirst,
    GarbageToo,
    CountsKept,
    CountsOfTheOldWidth,
    DataMoved,
    ReferencesAsTheyStand,
    RootsAsTheyStand,
    DataMadeOrdinary,
    WholeChunks,
    ChunksOfTheSize,
    HighestChunk,
    OverWhatStood,
    FourteenLast,
    FourteenBeforeThirteen,
    OtherRoots,
    SecondTested,
    OpenSecondRefused,
    FormattedAt17,
    ValueOfTheFirst,
    ValueInObjects,
    FirstWaitingKept,
];

fn copied_wrongly(
    wrong: Wrong,
    first: Sizes,
    memory: &Memory,
    second: Sizes,
    into: &mut Memory,
) -> Reply {
    let ((n1, w1), (n2, w2)) = (first, second);
    let roots_differ = memory.roots.len() != into.roots.len();
    if misshapen(n1, w1, memory) || misshapen(n2, w2, into) || roots_differ && wrong != OtherRoots {
        return reply(1, 0);
    }
    let checked = refused_first(n1, w1, memory, Call::Check);
    let open = memory.list[n1] == 1;
    if wrong == FourteenBeforeThirteen && open && checked.is_some_and(|due| due.number == 13) {
        return reply(14, 0);
    }
    if let Some(due) = checked {
        return due;
    }
    if wrong == SecondTested {
        if let Some(due) = refused_first(n2, w2, into, Call::Check) {
            return due;
        }
    }
    if open && wrong != FourteenLast || wrong == OpenSecondRefused && into.list[n2] == 1 {
        return reply(14, 0);
    }
    let mut order = met_in_order(n1, memory);
    match wrong {
        ByBlockNumber => order.sort(),
        LastRootFirst => order.reverse(),
        GarbageToo => {
            let rest = first_blocks(n1, memory);
            order.extend(
                rest.into_iter()
                    .filter(|i| !met_in_order(n1, memory).contains(i)),
            );
        }
        _ => {}
    }
    let mut made = into.clone();
    made.roots.resize(memory.roots.len(), 0);
    if wrong == OverWhatStood {
        made.a.fill(0);
        made.b.fill(255);
        made.counts.fill(0);
        made.data.fill(0);
        made.marks.fill(0);
        made.list.fill(0);
        made.waiting.fill(0);
    } else {
        format(n2, &mut made);
    }
    let mut places = BTreeMap::new();
    for object in &order {
        let n = size(n1, memory, *object);
        let s = if wrong == ChunksOfTheSize {
            n
        } else {
            n.next_power_of_two()
        };
        let mut starts: Vec<usize> = (0..n2).step_by(s).filter(|at| at + s <= n2).collect();
        if wrong == HighestChunk {
            starts.reverse();
        }
        let free = |at: &usize| (*at..at + s).all(|i| !is_allocated(&made, i));
        let Some(at) = starts.into_iter().find(free) else {
            if wrong == FormattedAt17 {
                format(n2, into);
            }
            return reply(17, 0);
        };
        let filled = if wrong == WholeChunks { s } else { n };
        for i in at..at + filled {
            set_bit(&mut made.a, i, 1);
        }
        set_bit(&mut made.b, at + filled - 1, 0);
        let bit = is_data(memory, *object) && wrong != DataMadeOrdinary;
        set_bit(&mut made.data, at, u8::from(bit));
        places.insert(*object, at);
    }
    let moved = |v: Ref| {
        let object = named(n1, memory, v);
        object
            .and_then(|object| places.get(&object))
            .map_or(0, |at| *at as Ref + 1)
    };
    for (object, at) in &places {
        for (k, v) in memory.cells[cell_places(n1, memory, *object)]
            .iter()
            .enumerate()
        {
            let kept =
                is_data(memory, *object) && wrong != DataMoved || wrong == ReferencesAsTheyStand;
            made.cells[4 * at + k] = if kept { *v } else { moved(*v) };
        }
    }
    made.roots = memory
        .roots
        .iter()
        .map(|v| {
            if wrong == RootsAsTheyStand {
                *v
            } else {
                moved(*v)
            }
        })
        .collect();
    if wrong == GarbageToo {
        // Counted, and not swept.
        let cells = made.cells.clone();
        for (object, at) in &places {
            let _ = object;
            let number = cells
                .iter()
                .chain(&made.roots)
                .filter(|v| **v == *at as Ref + 1)
                .count();
            set_count(n2, w2, &mut made, *at, number.min(capacity(w2)));
        }
    } else {
        sweep_and_recount(n2, w2, &mut made);
    }
    for (object, at) in &places {
        let before = count(n1, w1, memory, *object);
        match wrong {
            CountsKept => set_count(n2, w2, &mut made, *at, before.min(capacity(w2))),
            CountsOfTheOldWidth => {
                let now = count(n2, w2, &made, *at);
                set_count(n2, w2, &mut made, *at, now.min(capacity(w1)));
            }
            _ => {}
        }
    }
    leave_list_true(n2, &mut made);
    if wrong == FirstWaitingKept {
        made.waiting = into.waiting.clone();
    }
    let used = |blocks: usize, memory: &Memory| blocks - free_count(blocks, memory);
    let value = match wrong {
        ValueOfTheFirst => used(n1, memory),
        ValueInObjects => places.len(),
        _ => used(n2, &made),
    };
    *into = made;
    reply(0, value)
}

#[test]
fn wrong_copies_are_told_apart() {
    let mut told = BTreeMap::new();
    let mut random = Random::new(6);
    let opened = |blocks: usize, width: usize, roots: usize| {
        let mut memory = heap(blocks, width, roots, &[allocate(1, 0)]);
        apply(blocks, width, &mut memory, OPEN);
        memory
    };
    let mut wrong_marks = opened(8, 2, 2);
    wrong_marks.marks[0] = 128;
    let by_hand = [
        (8, 2, opened(8, 2, 2)),
        (8, 2, wrong_marks),
        (
            8,
            2,
            heap(
                8,
                2,
                2,
                &[allocate(1, 0), allocate(1, 1), cell(1, 0, 1), chosen(1)],
            ),
        ),
    ];
    let all = benches().map(|bench| (bench.blocks, bench.width, bench.memory));
    for (blocks, width, memory) in by_hand.into_iter().chain(all) {
        let first = (blocks, width);
        let roots = memory.roots.len().clamp(1, 64);
        let blocks = 8 << random.below(4);
        let second = (blocks, 1 + random.below(4));
        let seconds = [
            junk(blocks, second.1, roots),
            junk(blocks, second.1, roots % 64 + 1),
            opened(blocks, second.1, roots),
        ];
        for into in seconds {
            let mut due = into.clone();
            let replied = copy(first, &memory, second, &mut due);
            let mut once_more = into.clone();
            assert_eq!(
                copied_wrongly(Nothing, first, &memory, second, &mut once_more),
                replied
            );
            assert_eq!(once_more, due);
            for wrong in ALL {
                let mut other = into.clone();
                let differs = copied_wrongly(wrong, first, &memory, second, &mut other) != replied
                    || other != due;
                *told.entry(wrong as usize).or_insert(0) += usize::from(differs);
            }
        }
    }
    for wrong in ALL {
        assert!(
            told[&(wrong as usize)] > 0,
            "{wrong:?} is not told from the right reading"
        );
    }
    say(&format!(
        "{} wrong readings of a copy told apart",
        ALL.len()
    ));
}

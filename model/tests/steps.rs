//! Document 02, U8: collection in small steps, worked by hand; and its three claims over random lists.

mod common;
use common::{call_and_claims, fresh, say};
use model::history::figures::Figures;
use model::history::record::bytes;
use model::history::record::short as record;
use model::history::run::run_records;
use model::history::Run;
use model::lists::every_list::{clauses, CLAUSES};
use model::lists::families::{generate, FAMILIES};
use model::lists::file::{Bench, Entry};
use model::lists::generate::Desk;
use model::lists::random::Random;
use model::lists::step_vectors::steps as step_vectors;
use model::rules::calls::short::{
    allocate, cell, chosen, data, look, read_number, root, step, write_number, OPEN,
};
use model::rules::claims::broken_claim;
use model::rules::heap::Ref;
use model::rules::step_claims::{follow, Opened};
use model::{apply, Call, Memory};
use std::collections::{BTreeMap, BTreeSet};

const N: usize = 8;
const CHECK: Call = Call::Check;
const COLLECT: Call = Call::Collect;

/// Number, value and second value of each call, with all claims.
fn replies(width: usize, memory: &mut Memory, calls: &[Call]) -> Vec<[usize; 3]> {
    let reply = |call: &Call| {
        let reply = call_and_claims(N, width, memory, *call);
        [reply.number, reply.value, reply.second]
    };
    calls.iter().map(reply).collect()
}

/// The heap that these calls leave, each accepted.
fn after(width: usize, calls: &[Call]) -> Memory {
    let mut memory = fresh(N, width, 4);
    for [number, ..] in replies(width, &mut memory, calls) {
        assert_eq!(number, 0);
    }
    memory
}

/// The mark map, and the list without the 0s that are behind, its last place apart.
fn marks_and_list(memory: &Memory) -> (u8, Vec<Ref>, Ref) {
    let mut list = memory.list[..N].to_vec();
    while list.last() == Some(&0) {
        list.pop();
    }
    (memory.marks[0], list, memory.list[N])
}

/// Single blocks 0, 1, 2, .. so many, each naming the next in cell 0; root 0 names the first.
fn chain(length: usize) -> Vec<Call> {
    let mut list = vec![allocate(1, 0)];
    for new in 1..length {
        list.extend([allocate(1, 1), cell(new - 1, 0, 1 + new), root(1, 0)]);
    }
    list
}

/// A cycle of one at 0 that no root leads to, whose cells 0 and 1 name the object at 1, in root 1.
fn garbage() -> Vec<Call> {
    vec![
        allocate(1, 0),
        allocate(1, 1),
        cell(0, 0, 2),
        cell(0, 1, 2),
        cell(0, 2, 1),
        root(0, 0),
    ]
}

/// A heap, then one call: its reply, and what it leaves of marks and list.
fn tried(width: usize, before: &[Call], call: Call) -> ([usize; 3], (u8, Vec<Ref>, Ref)) {
    let mut memory = after(width, before);
    let reply = replies(width, &mut memory, &[call])[0];
    (reply, marks_and_list(&memory))
}

/// "Opening marks every object a root names, ... and puts it on a second list." "1 + first blocks, strictly rising, then 0s, the last
/// place being 1 while a collection is open and else 0."
#[test]
fn opening() {
    let none = ([0, 0, 0], (0, vec![], 1));
    assert_eq!(tried(2, &[], OPEN), none);
    let heap = [allocate(2, 3), data(1, 0), allocate(1, 2), root(1, 3)];
    assert_eq!(tried(2, &heap, OPEN), ([0, 0, 0], (13, vec![1, 3, 4], 1)));
    assert_eq!(tried(2, &chain(3), OPEN), ([0, 0, 0], (1, vec![1], 1)));
    assert_eq!(tried(3, &garbage(), OPEN), ([0, 0, 0], (2, vec![2], 1)));
    // The waiting list keeps its content.
    let mut memory = after(2, &heap);
    memory.waiting.fill(9);
    replies(2, &mut memory, &[OPEN]);
    assert_eq!(memory.waiting, [9; N]);
    // As many as there are blocks.
    let mut memory = fresh(N, 2, 8);
    for r in [5, 0, 3, 7, 1, 2, 6, 4] {
        replies(2, &mut memory, &[allocate(1, r)]);
    }
    replies(2, &mut memory, &[OPEN]);
    assert_eq!(memory.list, [1, 2, 3, 4, 5, 6, 7, 8, 1]);
}

/// "A step takes the lowest." "Steps mark and list what they first meet."
#[test]
fn steps_take_the_lowest() {
    // The objects at 2 and 4 are in roots; that at 2 names the one at 0, that at 4 those at 1 and 3.
    let heap = [
        allocate(1, 0),
        allocate(1, 1),
        allocate(1, 2),
        cell(2, 3, 1),
        allocate(1, 3),
        allocate(1, 0),
        cell(4, 0, 2),
        cell(4, 1, 4),
        root(1, 0),
        root(3, 0),
    ];
    let mut memory = after(3, &heap);
    let due = [
        (OPEN, [0, 0, 0], (0b10100, vec![3, 5], 1)),
        (step(0), [0, 0, 0], (0b10100, vec![3, 5], 1)),
        // What the object at 2 named is the lowest from now on.
        (step(1), [0, 1, 0], (0b10101, vec![1, 5], 1)),
        (step(1), [0, 1, 0], (0b10101, vec![5], 1)),
        (step(1), [0, 1, 0], (0b11111, vec![2, 4], 1)),
        (step(1), [0, 1, 0], (0b11111, vec![4], 1)),
        (step(1), [0, 1, 0], (0, vec![], 0)),
        (step(1), [14, 0, 0], (0, vec![], 0)),
    ];
    for (call, reply, marks) in due {
        assert_eq!(replies(3, &mut memory, &[call]), [reply]);
        assert_eq!(marks_and_list(&memory), marks, "{call:?}");
    }
}

/// "the steps taken, all of them unless the list ran out"; "a call with a budget above 0 leaves the list empty": also by its last
/// step, and where it was empty.
#[test]
fn budgets() {
    let open = [&chain(3)[..], &[OPEN]].concat();
    for (budget, steps, is_closed) in [
        (0, 0, false),
        (1, 1, false),
        (2, 2, false),
        (3, 3, true),
        (4, 3, true),
        (usize::MAX, 3, true),
    ] {
        let (reply, marks) = tried(2, &open, step(budget));
        assert_eq!(reply, [0, steps, 0]);
        assert_eq!(marks.2, Ref::from(!is_closed));
    }
    assert_eq!(tried(2, &[OPEN], step(0)), ([0, 0, 0], (0, vec![], 1)));
    assert_eq!(tried(2, &[OPEN], step(1)), ([0, 0, 0], (0, vec![], 0)));
    let emptied = [allocate(1, 0), OPEN, root(0, 0)];
    assert_eq!(tried(2, &emptied, step(0)), ([0, 0, 0], (0, vec![], 1)));
    assert_eq!(tried(2, &emptied, step(9)), ([0, 0, 0], (0, vec![], 0)));
}

/// "one for each object taken off the list, data too"
#[test]
fn data_is_a_step() {
    let heap = [allocate(2, 0), data(2, 1), allocate(1, 2), cell(4, 0, 5)];
    let more = [
        root(2, 0),
        cell(0, 7, 3),
        write_number(2, 0, 5),
        root(1, 0),
        OPEN,
    ];
    let mut memory = after(2, &[&heap[..], &more].concat());
    let calls = [step(1), step(1), look(4), read_number(2, 0), CHECK];
    let due = [[0, 1, 0], [0, 1, 1], [6, 0, 0], [0, 5, 0], [0, 0, 0]];
    assert_eq!(replies(2, &mut memory, &calls), due);
}

/// "it frees all objects then unmarked, ... and counts down the survivors that these named, once for each cell (one that reaches 0 is
/// freed as in a store)"
#[test]
fn close() {
    // Two cells and a root named the survivor.
    let mut memory = after(3, &garbage());
    let calls = [look(1), OPEN, step(1), look(0), look(1), CHECK];
    let due = [
        [0, 1, 3],
        [0, 0, 0],
        [0, 1, 1],
        [6, 0, 0],
        [0, 1, 1],
        [0, 0, 0],
    ];
    assert_eq!(replies(3, &mut memory, &calls), due);
    // Stuck, it stays so; a full collection counts anew.
    let mut memory = after(2, &garbage());
    let calls = [OPEN, step(9), look(1), COLLECT, look(1)];
    let due = [[0, 0, 0], [0, 1, 1], [0, 1, 3], [0, 0, 0], [0, 1, 1]];
    assert_eq!(replies(2, &mut memory, &calls), due);
    // The root is cleared while it is open: the survivor reaches 0, and what it named with it.
    let more = [allocate(1, 0), cell(1, 3, 3), root(0, 0), OPEN, root(1, 0)];
    let mut memory = after(3, &[&garbage()[..], &more].concat());
    assert_eq!(marks_and_list(&memory), (2, vec![2], 1));
    let due = [[0, 1, 0], [0, 1, 3]];
    assert_eq!(replies(3, &mut memory, &[step(1), step(1)]), due);
    assert_eq!(memory, fresh(N, 3, 4));
}

/// "While open, objects are born marked", and not listed.
#[test]
fn births() {
    let open = [&garbage()[..], &[OPEN]].concat();
    for (birth, marks) in [(allocate(2, 3), 0b110), (data(2, 3), 0b110)] {
        let (reply, left) = tried(3, &open, birth);
        assert_eq!((reply, left), ([0, 2, 0], (marks, vec![2], 1)));
    }
    // Over the marked and listed object of a root, which lives on by the cycle.
    let (reply, left) = tried(3, &open, allocate(1, 1));
    assert_eq!((reply, left), ([0, 2, 0], (0b110, vec![2], 1)));
}

/// "each reference store that changes a value ... marks and lists what is unmarked among its owner, old and new objects"
#[test]
fn stores() {
    // Cycles at 0, 1 and 2, the one at 0 names that at 1 in cell 1; root 3 names the object at 3.
    let heap = [
        allocate(1, 0),
        allocate(1, 1),
        allocate(1, 2),
        cell(0, 0, 1),
        cell(1, 0, 2),
        cell(2, 0, 3),
        cell(0, 1, 2),
        allocate(1, 3),
        chosen(7),
        OPEN,
    ];
    for (store, marks, list) in [
        // Owner, old, new; owner and old; owner and new; owner; new alone.
        (cell(0, 1, 3), 15, vec![1, 2, 3, 4]),
        (cell(0, 1, 0), 11, vec![1, 2, 4]),
        (cell(0, 2, 3), 13, vec![1, 3, 4]),
        (cell(0, 2, 1), 9, vec![1, 4]),
        (cell(3, 0, 2), 10, vec![2, 4]),
        (root(0, 2), 10, vec![2, 4]),
        (root(3, 2), 2, vec![2]),
        // The value present.
        (cell(0, 1, 2), 8, vec![4]),
        (cell(0, 2, 0), 8, vec![4]),
        (root(3, 4), 8, vec![4]),
    ] {
        let (reply, left) = tried(3, &heap, store);
        assert_eq!((reply[0], left), (0, (marks, list, 1)), "{store:?}");
    }
}

/// "clearing a freed object's cells marks and lists the unmarked ones they named; a freed object leaves map and list."
#[test]
fn freed_while_open() {
    // A chain of three, the end of which a cycle of garbage at 3 names too.
    let held = [allocate(1, 1), cell(3, 0, 4), cell(3, 1, 3), root(1, 0)];
    let heap = [&chain(3)[..], &held, &[OPEN]].concat();
    assert_eq!(tried(3, &heap, root(0, 0)), ([0, 2, 0], (4, vec![3], 1)));
    // Half way: the object at 0 is off the list, that at 1 on it.
    let heap = [&heap[..], &[step(1)]].concat();
    assert_eq!(tried(3, &heap, chosen(1)), ([0, 2, 0], (4, vec![3], 1)));
    assert_eq!(tried(3, &heap, cell(0, 0, 0)), ([0, 1, 0], (5, vec![3], 1)));
    // The owner goes by its own store; the new object it held is marked.
    let own = [allocate(1, 0), cell(0, 0, 1), allocate(1, 1), cell(1, 0, 2)];
    let heap = [&own[..], &[chosen(3), OPEN]].concat();
    assert_eq!(tried(3, &heap, cell(0, 0, 2)), ([0, 1, 0], (2, vec![2], 1)));
}

/// What a program does between steps can't hide an object: moved from behind the steps to before them.
#[test]
fn nothing_reachable_is_freed() {
    let hide = [OPEN, step(1), root(1, 3), cell(1, 0, 0), cell(0, 1, 3)];
    let mut memory = after(2, &[&chain(3)[..], &hide, &[root(1, 0)]].concat());
    let due = [[0, 2, 0], [0, 1, 1], [0, 0, 0]];
    assert_eq!(replies(2, &mut memory, &[step(9), look(2), CHECK]), due);
}

/// Each clause of 13, next after 11, in every call but format; and heaps that it isn't said of.
#[test]
fn number_13() {
    let heap = [
        allocate(2, 0),
        data(2, 1),
        allocate(1, 2),
        cell(0, 7, 5),
        cell(4, 0, 5),
        root(2, 0),
    ];
    let open = after(2, &[&heap[..], &[OPEN]].concat());
    assert_eq!(marks_and_list(&open), (5, vec![1, 3], 1));
    let closed = after(2, &heap);
    type Change = fn(&mut Memory);
    let wrong: [(&Memory, Change); 18] = [
        (&open, |m| m.list.swap(0, 1)),
        (&open, |m| m.list[1] = 1),
        (&open, |m| m.list[0] = 0),
        (&open, |m| m.list[1] = 4),
        (&open, |m| m.list[2] = 9),
        (&open, |m| m.list[7] = 5),
        (&open, |m| m.list[8] = 2),
        (&open, |m| m.marks[0] = 4),
        (&open, |m| m.list[2] = 5),
        (&open, |m| m.marks[0] = 7),
        (&open, |m| m.marks[0] = 133),
        (&open, |m| (m.marks[0], m.list[1]) = (1, 0)),
        (&open, |m| (m.list[0], m.list[1]) = (3, 0)),
        (&open, |m| m.list[8] = 0),
        (&closed, |m| m.marks[0] = 1),
        (&closed, |m| m.list[0] = 1),
        (&closed, |m| m.list[8] = 1),
        (&closed, |m| m.list[8] = 3),
    ];
    let every_call = [
        CHECK,
        allocate(0, 9),
        data(0, 9),
        root(9, 9),
        cell(9, 9, 9),
        COLLECT,
        look(9),
        Call::FreeBlocks,
        chosen(u64::MAX),
        write_number(9, 9, 9),
        read_number(9, 9),
        OPEN,
        step(1),
    ];
    for (memory, change) in wrong {
        let mut memory = memory.clone();
        change(&mut memory);
        assert_eq!(replies(2, &mut memory, &every_call), [[13, 0, 0]; 13]);
        memory.sections[0] += 1;
        assert_eq!(replies(2, &mut memory, &every_call), [[11, 0, 0]; 13]);
        memory.roots[3] = 9;
        assert_eq!(replies(2, &mut memory, &every_call), [[2, 4, 0]; 13]);
        assert_eq!(replies(2, &mut memory, &[Call::Format]), [[0, 0, 0]]);
        assert_eq!(memory, fresh(N, 2, 4));
    }
    let right: [Change; 4] = [
        // Data names nothing; garbage may be listed, or marked alone where it names marked ones.
        |m| m.list[1] = 0,
        |m| (m.marks[0], m.list[2]) = (21, 5),
        |m| m.marks[0] = 21,
        |m| (m.marks[0], m.list[0], m.list[1]) = (21, 3, 0),
    ];
    for change in right {
        let mut memory = open.clone();
        change(&mut memory);
        assert_eq!(replies(2, &mut memory, &[CHECK]), [[0, 0, 0]]);
    }
}

/// "14, a step with none open, or an opening or full collection with one open, after 13."
#[test]
fn number_14() {
    let mut memory = after(3, &garbage());
    let calls = [step(0), step(1), OPEN, OPEN, COLLECT, step(1), COLLECT];
    let due = [
        [14, 0, 0],
        [14, 0, 0],
        [0, 0, 0],
        [14, 0, 0],
        [14, 0, 0],
        [0, 1, 1],
        [0, 0, 0],
    ];
    assert_eq!(replies(3, &mut memory, &calls), due);
}

/// "Lengths ... that later requests fix fall under 1 too"
#[test]
fn other_lengths() {
    type Change = fn(&mut Memory);
    let changes: [Change; 4] = [
        |m| m.marks.clear(),
        |m| m.marks.push(0),
        |m| m.list.push(0),
        |m| m.list.truncate(8),
    ];
    for change in changes {
        let mut memory = after(3, &garbage());
        change(&mut memory);
        let calls = [Call::Format, CHECK, OPEN, step(1), COLLECT, root(0, 0)];
        assert_eq!(replies(3, &mut memory, &calls), [[1, 0, 0]; 6]);
    }
}

/// Runs of records on a heap with a collection open: record 6 stops with 14; a forced collection is refused and not counted, and the
/// second try's 5 stops the run.
#[test]
fn runs_with_one_open() {
    let open = [&garbage()[..], &[OPEN]].concat();
    let run = |memory: &mut Memory, records: &[_]| {
        let (reply, run) = run_records(N, 3, memory, Run::default(), &bytes(records));
        assert_eq!(reply.number, 0);
        run
    };
    let mut memory = after(3, &open);
    let before = memory.clone();
    let stopped = run(&mut memory, &[record::COLLECT]);
    assert_eq!((stopped.number, stopped.records), (14, 0));
    assert_eq!((stopped.figures, &memory), (Figures::default(), &before));
    // Six blocks are free, and no chunk of eight: 5, and no collection in the figures.
    for allocation in [record::allocate(8, 0), record::data(8, 0)] {
        let stopped = run(&mut memory, &[allocation]);
        assert_eq!((stopped.number, stopped.records), (5, 0));
        assert_eq!((stopped.figures, &memory), (Figures::default(), &before));
    }
    // The other records are as ever, and mark.
    let records = [
        record::allocate(1, 0),
        record::write(1, 0, 0),
        record::data(1, 2),
        record::write_number(2, 0, 2),
        record::clear(1),
        record::read(0, 0, 3),
        record::copy(3, 1),
        record::COLLECT,
    ];
    let stopped = run(&mut memory, &records);
    assert_eq!((stopped.number, stopped.records), (14, 7));
    assert_eq!(stopped.figures.in_order(), [2, 2, 1, 0, 4, 0]);
    assert_eq!(marks_and_list(&memory), (0b1110, vec![2], 1));
    // 13 is a refusal of the run, after 11 and before 19.
    let too_many = Run {
        records: 4_294_967_296,
        ..Run::default()
    };
    memory.list[8] = 2;
    for (so_far, due) in [(Run::default(), 13), (too_many, 13)] {
        let (reply, run) = run_records(N, 3, &mut memory, so_far, &bytes(&records));
        assert_eq!((reply.number, run), (due, Run::default()));
    }
    memory.sections[0] += 1;
    let (reply, _) = run_records(N, 3, &mut memory, too_many, &[]);
    assert_eq!(reply.number, 11);
}

/// The lists of the large file meet each clause.
#[test]
fn the_lists_meet_each_clause() {
    let mut desk = Desk::new(Random::new(0), [8, 2, 4]);
    step_vectors(&mut desk);
    let mut met: BTreeMap<&str, usize> = BTreeMap::new();
    let mut bench = Bench::of_any_size(desk.header);
    for words in &desk.entries {
        let entry = Entry::from_words(*words);
        let before = bench.memory.clone();
        let reply = bench.carry_out(entry, apply);
        if let (Entry::Call(call), Some(reply)) = (entry, reply) {
            let (blocks, width) = (bench.blocks, bench.width);
            let broken = broken_claim(blocks, width, &before, call, reply, &bench.memory);
            assert_eq!(broken, None, "{call:?}");
            for clause in clauses(bench.width, &before, call, reply, &bench.memory) {
                *met.entry(clause).or_default() += 1;
            }
        }
    }
    for clause in CLAUSES {
        assert!(met.contains_key(clause), "never met: {clause}");
    }
    say(&format!("the lists of U8 in the large file: {met:?}"));
}

/// What was followed.
#[derive(Default)]
struct Followed {
    calls: usize,
    openings: usize,
    closes: usize,
    most_steps: usize,
}

/// A list as in demand 3, each call with all claims.
fn followed(desk: &Desk, told: &mut Followed) {
    let mut bench = Bench::of_any_size(desk.header);
    let mut so_far: Option<Opened> = None;
    for words in &desk.entries {
        let entry = Entry::from_words(*words);
        let before = bench.clone();
        let reply = bench.carry_out(entry, apply);
        let (Entry::Call(call), Some(reply)) = (entry, reply) else {
            // A load, a length or a new heap: the list ends, and another begins with the next format.
            so_far = None;
            bench = before;
            bench.carry_out(entry, apply);
            if bench.has_one_open() {
                return;
            }
            continue;
        };
        let (blocks, width) = (bench.blocks, bench.width);
        let memory = &before.memory;
        let broken = broken_claim(blocks, width, memory, call, reply, &bench.memory);
        assert_eq!(broken, None, "{call:?}");
        let was_open = so_far.clone();
        so_far = follow(blocks, so_far, memory, call, reply, &bench.memory).unwrap();
        assert!(reply.number != 0 || so_far.is_some() == bench.has_one_open());
        told.calls += 1;
        told.openings += usize::from(call == OPEN && reply.number == 0);
        if let (Call::StepCollection { .. }, Some(opened), None) = (call, was_open, &so_far) {
            told.closes += 1;
            told.most_steps = told.most_steps.max(opened.steps + reply.value);
        }
    }
}

/// "Three things hold in every list of calls as in demand 3."
#[test]
fn claims_over_random_lists() {
    for (family, _) in FAMILIES {
        let mut told = Followed::default();
        for seed in 0..40 {
            followed(&generate(family, seed, 150).unwrap(), &mut told);
        }
        say(&format!(
            "{family}: {} calls with U8's claims, {} openings, {} closes, most steps {}",
            told.calls, told.openings, told.closes, told.most_steps
        ));
    }
    // Without loads, on larger heaps too.
    let mut told = Followed::default();
    for seed in 0..150 {
        let mut random = Random::new(seed);
        let blocks = random.pick(&[8, 16, 32, 64]);
        let mut desk = Desk::new(random, [blocks, 1 + seed % 4, 4]);
        desk.call(Call::Format);
        for _ in 0..300 {
            let call = desk.some_call();
            desk.call(call);
        }
        followed(&desk, &mut told);
    }
    assert!(told.openings > 500 && told.closes > 300 && told.most_steps > 10);
    say(&format!(
        "random lists: {} calls with U8's claims, {} openings, {} closes, most steps {}",
        told.calls, told.openings, told.closes, told.most_steps
    ));
}

/// Each claim notices what breaks it.
#[test]
fn broken_claims_are_seen() {
    let step_of = |before: &Memory, call, reply, after: &Memory, so_far| {
        follow(N, so_far, before, call, reply, after).is_err()
    };
    let before = after(3, &[&garbage()[..], &[OPEN]].concat());
    let opened = Some(Opened {
        present: 2,
        steps: 0,
        may_stay: BTreeSet::from([(1, 1)]),
    });
    let mut closed = before.clone();
    let reply = apply(N, 3, &mut closed, step(9));
    assert!(!step_of(&before, step(9), reply, &closed, opened.clone()));
    // Three steps where two objects were present; and garbage that is left.
    let more = model::Reply { value: 3, ..reply };
    assert!(step_of(&before, step(9), more, &closed, opened.clone()));
    let mut left = before.clone();
    left.marks.fill(0);
    left.list.fill(0);
    assert!(step_of(&before, step(9), reply, &left, opened));
    // A reached object that is gone.
    let gone = fresh(N, 3, 4);
    assert!(broken_claim(N, 3, &before, step(9), reply, &gone).is_some());
}

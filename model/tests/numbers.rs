//! Document 02, U6: arrays of numbers, worked by hand.

mod common;
use common::{call_and_claims, fresh, say};
use model::history::garbage::garbage;
use model::history::record::bytes;
use model::history::record::short as record;
use model::history::report;
use model::history::run::run_records;
use model::history::Run;
use model::lists::generate::Desk;
use model::lists::random::Random;
use model::rules::calls::short::{
    allocate, cell, chosen, data, look, read_number, root, write_number,
};
use model::rules::damage::damage;
use model::rules::heap::{set_bit, Ref, MAX_NUMBER};
use model::rules::list_claims::{numbers_lost, Step};
use model::{Call, Memory};
use std::collections::BTreeSet;

const N: usize = 8;

/// Number, value and second value of each call, with demand 3's claims.
fn replies(width: usize, memory: &mut Memory, calls: &[Call]) -> Vec<[usize; 3]> {
    let reply = |call: &Call| {
        let reply = call_and_claims(N, width, memory, *call);
        [reply.number, reply.value, reply.second]
    };
    calls.iter().map(reply).collect()
}

/// An ordinary object of two blocks at 0 in root 0, data of two blocks at 2 in root 1.
fn both_kinds(width: usize) -> Memory {
    let mut memory = fresh(N, width, 4);
    let stuck = usize::from(width == 1);
    let due = [[0, 0, stuck], [0, 2, stuck]];
    assert_eq!(
        replies(width, &mut memory, &[allocate(2, 0), data(2, 1)]),
        due
    );
    assert_eq!((memory.a[0], memory.b[0], memory.data[0]), (15, 245, 4));
    memory
}

/// P1 with data: the same addresses and maps, and 1 on each first block in the D-map.
#[test]
fn data_is_placed_as_objects_are() {
    let mut memory = fresh(N, 2, 4);
    let made = [data(2, 0), data(1, 1), data(3, 2), look(4)];
    let due = [[0, 0, 0], [0, 2, 0], [0, 4, 0], [0, 3, 1]];
    assert_eq!(replies(2, &mut memory, &made), due);
    assert_eq!((memory.a[0], memory.b[0], memory.data[0]), (119, 185, 21));
    let refused = [data(2, 3), data(0, 4), data(9, 4), data(1, 4), data(1, 3)];
    let due = [[5, 0, 0], [3, 0, 0], [3, 0, 0], [4, 0, 0], [0, 3, 0]];
    assert_eq!(replies(2, &mut memory, &refused), due);
    assert_eq!(memory.data[0], 29);
}

/// "a birth at width 1 included"
#[test]
fn a_birth_at_width_1() {
    let mut memory = fresh(N, 1, 4);
    let births = [data(1, 0), data(1, 0), data(9, 0), allocate(1, 1)];
    let due = [[0, 0, 1], [0, 1, 1], [3, 0, 0], [0, 2, 1]];
    assert_eq!(replies(1, &mut memory, &births), due);
}

/// "Its cells hold any .. number", of 32 bits with U12: written, read, and nothing else changes.
#[test]
fn numbers_written_are_read() {
    let mut memory = both_kinds(2);
    memory.waiting.fill(9);
    for v in [0, 1, 3, 9, 65_535, 65_536, 1 << 31, MAX_NUMBER] {
        for j in 0..8 {
            let mut due = memory.clone();
            due.cells[8 + j] = v;
            // The second time it is there already.
            let calls = [
                write_number(2, j, v),
                write_number(2, j, v),
                read_number(2, j),
            ];
            let said = [[0, 0, 0], [0, 0, 0], [0, v as usize, 0]];
            assert_eq!(replies(2, &mut memory, &calls), said);
            assert_eq!(memory, due);
        }
    }
    assert_eq!(memory.waiting, [9; 8]);
}

/// "placed after 7": 6, 7, 12, and 8 behind it.
#[test]
fn refusals_in_order() {
    let mut memory = both_kinds(2);
    let before = memory.clone();
    let most = usize::MAX;
    for (number, calls) in [
        (
            6,
            &[write_number(3, 0, 1), read_number(8, 0), cell(3, 0, 9)][..],
        ),
        (
            6,
            &[
                read_number(most, most),
                write_number(1, 8, 1),
                read_number(7, 0),
            ],
        ),
        // 7, where 12 would follow too.
        (7, &[write_number(0, 8, 1), read_number(0, most)]),
        (
            7,
            &[write_number(2, 8, 1), read_number(2, 8), cell(2, 8, 9)],
        ),
        (12, &[write_number(0, 7, 1), read_number(0, 0)]),
        // 12, where 8 would follow, and where the value is present.
        (
            12,
            &[
                cell(2, 7, 9),
                cell(2, 0, most),
                cell(2, 0, 0),
                cell(2, 0, 1),
            ],
        ),
        (
            8,
            &[
                cell(0, 7, 9),
                cell(0, 0, 2),
                cell(0, 0, 65_537),
                cell(0, 0, (1 << 32) + 1),
            ],
        ),
    ] {
        for call in calls {
            let said = replies(2, &mut memory, &[*call]);
            assert_eq!(said, [[number, 0, 0]], "{call:?}");
        }
    }
    assert_eq!(memory, before);
}

/// "never followed, counted": the number 1 looks like a reference to the object at 0.
#[test]
fn a_number_holds_nothing() {
    let mut memory = both_kinds(2);
    let calls = [
        write_number(2, 0, 1),
        write_number(2, 5, 1),
        look(0),
        Call::Collect,
        look(0),
        root(0, 0),
        look(0),
        Call::Check,
        read_number(2, 5),
    ];
    let due = [
        [0, 0, 0],
        [0, 0, 0],
        [0, 2, 1],
        [0, 0, 0],
        [0, 2, 1],
        [0, 2, 0],
        [6, 0, 0],
        [0, 0, 0],
        [0, 1, 0],
    ];
    assert_eq!(replies(2, &mut memory, &calls), due);
    // Another object is born there, with a count of its own; the data goes, and leaves it.
    let calls = [allocate(2, 2), look(0), root(1, 0), look(0), Call::Check];
    let due = [[0, 0, 0], [0, 2, 1], [0, 2, 0], [0, 2, 1], [0, 0, 0]];
    assert_eq!(replies(2, &mut memory, &calls), due);
    assert_eq!((memory.data[0], &memory.cells[8..16]), (0, &[0; 8][..]));
}

/// A cycle of one that only a number names is collected.
#[test]
fn a_collection_goes_by_references() {
    let mut memory = both_kinds(2);
    let calls = [
        cell(0, 0, 1),
        write_number(2, 0, 1),
        root(0, 0),
        Call::Collect,
    ];
    let due = [[0, 0, 0], [0, 0, 0], [0, 0, 0], [0, 2, 0]];
    assert_eq!(replies(2, &mut memory, &calls), due);
    assert_eq!((memory.a[0], memory.data[0], memory.cells[8]), (12, 4, 1));
}

/// Named by a cell, data lives on with its numbers.
#[test]
fn data_is_kept_alive_by_cells() {
    let mut memory = both_kinds(2);
    let calls = [
        write_number(2, 7, MAX_NUMBER),
        cell(0, 3, 3),
        look(2),
        root(1, 0),
        Call::Collect,
        read_number(2, 7),
        look(2),
        root(0, 0),
    ];
    let due = [
        [0, 0, 0],
        [0, 0, 0],
        [0, 2, 2],
        [0, 0, 0],
        [0, 0, 0],
        [0, MAX_NUMBER as usize, 0],
        [0, 2, 1],
        [0, 4, 0],
    ];
    assert_eq!(replies(2, &mut memory, &calls), due);
    assert_eq!(memory, fresh(N, 2, 4));
}

/// "and, with its D bit, are cleared when it is freed": by a store, a return, an allocation, and at width 1 by a collection.
#[test]
fn freed_data_leaves_nothing() {
    for (width, end) in [
        (2, &[root(1, 0), root(0, 0)][..]),
        (2, &[chosen(3)]),
        (2, &[allocate(1, 1), chosen(3)]),
        (2, &[data(1, 1), chosen(3)]),
        (1, &[chosen(3), Call::Collect]),
    ] {
        let mut memory = both_kinds(width);
        for j in 0..8 {
            replies(width, &mut memory, &[write_number(2, j, 1 + j as Ref)]);
        }
        for [number, ..] in replies(width, &mut memory, end) {
            assert_eq!(number, 0);
        }
        assert_eq!(memory, fresh(N, width, 4));
    }
}

/// "damage kinds 4 and 5 read the rest as before; damage kind 7 is a D bit where no object starts", after 5.
#[test]
fn damage_beside_data() {
    let kind = |change: &dyn Fn(&mut Memory)| {
        let mut memory = both_kinds(2);
        change(&mut memory);
        damage(N, 2, &memory)
    };
    for v in [1, 2, 3, 9, MAX_NUMBER] {
        for place in 8..16 {
            assert_eq!(kind(&|m| m.cells[place] = v), 0);
        }
        assert_eq!(kind(&|m| m.cells[16] = v), 4);
    }
    assert_eq!(kind(&|m| m.cells[0] = 3), 5);
    assert_eq!(kind(&|m| m.cells[0] = 9), 4);
    for block in [1, 3, 4, 7] {
        assert_eq!(kind(&|m| set_bit(&mut m.data, block, 1)), 7);
    }
    // Kind 4 of cells with a stray D bit: of the second block of an ordinary object, of a free block.
    for (block, place) in [(1, 4), (4, 16)] {
        let stray = |m: &mut Memory| {
            set_bit(&mut m.data, block, 1);
            m.cells[place] = 9;
        };
        assert_eq!(kind(&stray), 4);
    }
    let both = |m: &mut Memory| {
        set_bit(&mut m.data, 7, 1);
        m.roots[3] = 1;
    };
    assert_eq!(kind(&both), 5);
    // 7 before 11.
    let mut memory = both_kinds(2);
    set_bit(&mut memory.data, 7, 1);
    memory.sections[0] = 5;
    assert_eq!(replies(2, &mut memory, &[Call::Check]), [[2, 7, 0]]);
    set_bit(&mut memory.data, 7, 0);
    assert_eq!(replies(2, &mut memory, &[Call::Check]), [[11, 0, 0]]);
}

/// "Lengths ... that later requests fix fall under 1 too"
#[test]
fn other_lengths() {
    for length in [0, 2] {
        let mut memory = both_kinds(2);
        memory.data.resize(length, 0);
        let calls = [
            Call::Format,
            Call::Check,
            allocate(1, 0),
            root(0, 0),
            cell(0, 0, 0),
            Call::Collect,
            look(0),
            Call::FreeBlocks,
            chosen(0),
            data(1, 0),
            write_number(2, 0, 1),
            read_number(2, 0),
        ];
        assert_eq!(replies(2, &mut memory, &calls), [[1, 0, 0]; 12]);
    }
}

/// Operations 7 and 8: all that stops them, and the lines of those that are accepted.
#[test]
fn records() {
    let before = [record::allocate(2, 0), record::data(2, 1)];
    let line = |more: &[_]| report(&bytes(&[&before[..], more].concat()));
    for (more, due) in [
        (record::write_number(MAX_NUMBER, 7, 1), "2 4 2 0 4 0\n"),
        (record::write_number(0, 0, 1), "2 4 2 0 4 0\n"),
        (record::write_number(1, 0, 64), "refused 4 at record 2\n"),
        (record::write_number(1, 8, 2), "refused 6 at record 2\n"),
        (record::write_number(1, 8, 0), "refused 7 at record 2\n"),
        (record::write_number(1, 7, 0), "refused 12 at record 2\n"),
        (record::write(0, 8, 1), "refused 7 at record 2\n"),
        (record::write(0, 7, 1), "refused 12 at record 2\n"),
        (record::read(8, 1, 0), "refused 7 at record 2\n"),
        (record::read(7, 1, 0), "refused 12 at record 2\n"),
        (record::data(0, 64), "refused 3 at record 2\n"),
        (record::data(4097, 64), "refused 3 at record 2\n"),
        (record::data(4096, 64), "refused 4 at record 2\n"),
        (record::data(4096, 2), "refused 5 at record 2\n"),
        (record::data(2048, 2), "3 2052 2048 0 2052 0\n"),
        // Over what it holds itself: both stand for a moment inside the record, which no figure shows.
        (record::data(3, 1), "3 7 3 0 5 0\n"),
        (record::write(1, 7, 0), "2 4 2 0 4 0\n"),
    ] {
        assert_eq!(line(&[more]), due, "{more:?}");
    }
    // Garbage of 2,048 blocks: a forced collection, and the second try.
    let cycle = [
        record::allocate(2048, 2),
        record::write(2, 0, 2),
        record::clear(2),
        record::data(2048, 3),
    ];
    assert_eq!(report(&bytes(&cycle)), "2 4096 2048 0 4096 0\n");
    let forced = [&cycle[..], &[record::data(2048, 4)]].concat();
    assert_eq!(report(&bytes(&forced)), "3 6144 2048 1 4096 0\n");
}

/// At w = 1 an allocation of data is a moment of the sixth figure; a number write is none.
#[test]
fn records_at_width_1() {
    let mut memory = fresh(N, 1, 4);
    let records = [
        record::data(1, 0),
        record::data(2, 1),
        record::write_number(3, 0, 1),
        record::allocate(1, 2),
    ];
    let (reply, run) = run_records(N, 1, &mut memory, Run::default(), &bytes(&records));
    assert_eq!((reply.number, run.line()), (0, "3 4 2 0 4 3\n".to_string()));
    assert_eq!((memory.data[0], memory.cells[8]), (5, 3));
}

/// What no root reaches, by what holds it: stuck data whose number looks like a reference to a cycle holds it not.
#[test]
fn garbage_goes_by_references() {
    let mut memory = both_kinds(2);
    let calls = [
        cell(0, 0, 1),
        write_number(2, 0, 1),
        root(2, 3),
        root(3, 3),
        chosen(15),
    ];
    let due = [[0, 0, 0], [0, 0, 0], [0, 0, 0], [0, 0, 1], [0, 0, 0]];
    assert_eq!(replies(2, &mut memory, &calls), due);
    let found = garbage(N, 2, &memory);
    assert_eq!(found.stuck, BTreeSet::from([2]));
    assert_eq!(found.cycles, BTreeSet::from([0]));
}

/// A random list from a formatted heap, as it was carried out.
fn steps(seed: u64) -> (usize, Vec<Step>) {
    let mut random = Random::new(seed);
    let blocks = random.pick(&[8, 16, 32]);
    let mut desk = Desk::new(random, [blocks as u64, 1 + seed % 4, 4]);
    desk.call(Call::Format);
    let step = |_| {
        let call = desk.some_call();
        let before = desk.bench.memory.clone();
        let reply = desk.call(call);
        let after = desk.bench.memory.clone();
        Step {
            before,
            call,
            reply,
            after,
        }
    };
    (blocks, (0..150).map(step).collect())
}

/// What was made as data is data as long as it lives, with its numbers, in every list; and each thing that may go wrong on
/// the way is seen.
#[test]
fn numbers_stay_over_lists() {
    let (mut written, mut read) = (0, 0);
    let mut seen = [0; 3];
    for seed in 0..120 {
        let (blocks, steps) = steps(seed);
        assert_eq!(numbers_lost(blocks, &steps), None, "seed {seed}");
        let accepted = steps.iter().filter(|step| step.reply.number == 0);
        for step in accepted {
            written += usize::from(matches!(step.call, Call::WriteNumber { .. }));
            read += usize::from(matches!(step.call, Call::ReadNumber { .. }));
        }
        // A cell of data cleared, its D bit cleared, a D bit more: after the last call.
        let last = steps.len() - 1;
        let memory = &steps[last].after;
        let data = |place: &usize| memory.cells[*place] != 0 && starts_data(memory, place / 4);
        let changes: [&dyn Fn(&mut Memory); 3] = [
            &|m| {
                if let Some(place) = (0..4 * blocks).find(data) {
                    m.cells[place] = 0;
                }
            },
            &|m| m.data[0] &= m.data[0].wrapping_sub(1),
            &|m| m.data[0] |= m.data[0].wrapping_add(1),
        ];
        for (change, seen) in changes.into_iter().zip(&mut seen) {
            let mut wrong = steps.clone();
            change(&mut wrong[last].after);
            let differs = wrong[last].after != *memory;
            assert_eq!(numbers_lost(blocks, &wrong).is_some(), differs);
            *seen += usize::from(differs);
        }
    }
    assert!(written > 500 && read > 200, "{written} {read}");
    assert!(seen.iter().all(|number| *number > 20), "{seen:?}");
    say(&format!(
        "numbers over lists: {written} written, {read} read; {seen:?} changes seen"
    ));
}

/// Whether the block is the first of an object that is data.
fn starts_data(memory: &Memory, block: usize) -> bool {
    memory.data[block / 8] >> (block % 8) & 1 == 1
}

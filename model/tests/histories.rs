//! Runs of histories: the line, what a stop leaves, pieces, and the limit.

mod common;
use common::{fresh, say};
use model::history::figures::Figures;
use model::history::record::bytes;
use model::history::record::short::{
    allocate, clear, copy, data, read, write, write_number, COLLECT,
};
use model::history::record::RECORD;
use model::history::run::{new_heap, run_as_report, run_records, BLOCKS, MOST_RECORDS, WIDTH};
use model::history::vectors::all_but_the_longest;
use model::history::{report, Record, Run};
use model::lists::random::Random;
use model::{apply, Call};

#[test]
fn the_lines_of_document_02() {
    // "an empty file gives five zeros"
    assert_eq!(report(&[]), "0 0 0 0 0 0\n");
    let three = bytes(&[allocate(2, 0), allocate(1, 1), allocate(3, 2)]);
    assert_eq!(report(&three), "3 6 3 0 6 0\n");
    // "`refused 5 at record 7`, say"
    let mut full = vec![COLLECT; 6];
    full.extend([allocate(4096, 0), allocate(1, 1)]);
    assert_eq!(report(&bytes(&full)), "refused 5 at record 7\n");
}

/// "the heap stands as before that record, save a forced collection."
#[test]
fn what_a_stop_leaves() {
    let stuck = (1..8).map(|d| copy(0, d)).chain((0..8).map(clear));
    let mut before = vec![allocate(9, 0)];
    before.extend(stuck);
    before.extend([allocate(3, 0), write(0, 5, 0), allocate(4, 1), copy(1, 2)]);
    before.extend([data(2, 3), write_number(1, 7, 3)]);
    let mut stops = 0;
    for (number, record) in [
        (3, allocate(0, 0).record()),
        (4, allocate(1, 64).record()),
        (5, allocate(4096, 2).record()),
        (4, copy(0, 64).record()),
        (4, copy(64, 0).record()),
        (6, write(0, 0, 9).record()),
        (7, write(0, 12, 0).record()),
        (6, read(0, 9, 0).record()),
        (7, read(12, 0, 0).record()),
        (4, clear(64).record()),
        (3, data(0, 0).record()),
        (4, data(1, 64).record()),
        (5, data(4096, 2).record()),
        (4, write_number(1, 0, 64).record()),
        (6, write_number(1, 0, 9).record()),
        (7, write_number(1, 8, 3).record()),
        (12, write_number(1, 0, 0).record()),
        (12, write(0, 0, 3).record()),
        (12, read(7, 3, 0).record()),
        (
            9,
            Record {
                operation: 9,
                ..Record::default()
            },
        ),
        (
            9,
            Record {
                unused: 1,
                ..COLLECT.record()
            },
        ),
    ] {
        let mut memory = new_heap();
        let so_far = run_as_report(&mut memory, Run::default(), &bytes(&before));
        assert_eq!(so_far.number, 0);
        let mut due = memory.clone();
        let mut figures = so_far.figures;
        if number == 5 {
            // It frees the 9 blocks, and counts, though the second try is refused too.
            let reply = apply(BLOCKS, WIDTH, &mut due, Call::Collect);
            assert_eq!((reply.number, reply.value), (0, 9));
            figures.collections += 1;
        }
        let stopped = run_as_report(&mut memory, so_far, &record.bytes());
        assert_eq!((stopped.number, stopped.records), (number, so_far.records));
        assert_eq!(stopped.figures, figures, "{record:?}");
        assert!(memory.same_but_for_waiting(&due), "{record:?}");
        assert_eq!(memory.waiting, [0; BLOCKS]);
        // Handed in again, it stays stopped.
        let again = run_as_report(&mut memory, stopped, &bytes(&[clear(0), COLLECT]));
        assert_eq!(again, stopped);
        assert!(memory.same_but_for_waiting(&due), "{record:?}");
        stops += 1;
    }
    say(&format!("{stops} stops, and what they leave"));
}

/// Pieces of whole records come to what the whole comes to.
#[test]
fn pieces_and_the_whole() {
    let mut random = Random::new(3);
    let mut cuts = 0;
    for history in all_but_the_longest() {
        let records = history.bytes.len() / RECORD;
        if records > 2000 {
            continue;
        }
        let mut whole = new_heap();
        let at_once = run_as_report(&mut whole, Run::default(), &history.bytes);
        for _ in 0..3 {
            let mut memory = new_heap();
            let mut so_far = Run::default();
            let mut rest = &history.bytes[..];
            while !rest.is_empty() {
                // The last piece has the tail, if there is one.
                let piece = RECORD * random.below(rest.len() / RECORD + 1);
                let piece = if rest.len() - piece < RECORD {
                    rest.len()
                } else {
                    piece
                };
                so_far = run_as_report(&mut memory, so_far, &rest[..piece]);
                rest = &rest[piece..];
                cuts += 1;
            }
            assert_eq!(so_far, at_once, "{}", history.name);
            assert_eq!(memory, whole, "{}", history.name);
        }
    }
    say(&format!("{cuts} pieces of histories"));
}

/// "going on past 4,294,967,295 records, met after the whole records up to that number."
#[test]
fn the_limit() {
    let far = Run {
        number: 0,
        records: MOST_RECORDS - 1,
        figures: Figures::default(),
    };
    let ends = |piece: &[u8]| {
        let end = run_as_report(&mut new_heap(), far, piece);
        (end.number, end.records, end.figures.allocations)
    };
    let one = allocate(1, 0).record().bytes();
    assert_eq!(ends(&[]), (0, 4_294_967_294, 0));
    assert_eq!(ends(&one), (0, 4_294_967_295, 1));
    let two = [one, one].concat();
    assert_eq!(ends(&two), (10, 4_294_967_295, 1));
    // A tail, or an unknown operation, past the limit: 10 too.
    assert_eq!(ends(&two[..RECORD + 1]), (10, 4_294_967_295, 1));
    let unknown = [one, [9; RECORD]].concat();
    assert_eq!(ends(&unknown), (10, 4_294_967_295, 1));
    // The last record that is allowed is refused for itself.
    assert_eq!(ends(&[9; RECORD]), (9, 4_294_967_294, 0));
    assert_eq!(ends(&[9; RECORD - 1]), (10, 4_294_967_294, 0));
    let line = run_as_report(&mut new_heap(), far, &two).line();
    assert_eq!(line, "refused 10 at record 4294967295\n");
}

/// Each set of the four faults, in the order in which they are refused: 1, 2, U4's 11, 19. A refusal answers a run of all 0.
#[test]
fn refusals_in_order() {
    let history = bytes(&[allocate(3, 0), allocate(1, 1), COLLECT, clear(0)]);
    for faults in 0..16 {
        let has = |k: usize| faults >> k & 1 == 1;
        let mut memory = fresh(8, 2, 4);
        memory.waiting.fill(9);
        if has(1) {
            memory.cells[31] = 1;
        }
        if has(2) {
            memory.sections[0] = 7;
        }
        if has(0) {
            memory.sections.clear();
        }
        let mut so_far = Run::default();
        so_far.figures.allocations = u64::from(has(3));
        let before = memory.clone();
        let (reply, run) = run_records(8, 2, &mut memory, so_far, &history);
        let numbers = [1, 2, 11, 19];
        let due = (0..4).find(|k| has(*k)).map_or(0, |k| numbers[k]);
        assert_eq!(reply.number, due);
        if due == 0 {
            // Block 3 is left.
            assert_eq!(run.line(), "2 4 3 1 4 0\n");
            assert_eq!(
                (&memory.sections[..], &memory.waiting[..]),
                (&[4][..], &[0; 8][..])
            );
        } else {
            assert_eq!((run, memory), (Run::default(), before));
        }
    }
    say("a run of records with each set of the faults 1, 2, 11 and 19");
}

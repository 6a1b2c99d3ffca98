//! Runs of recorded histories.

mod common;
use common::{allocate, clear, collect, copy, lend, lists, read, write, Bytes};
use huwekapo::lent::{self, Ran, Reply};
use huwekapo::{Buffers, Damage, Heap, Record, Refusal, Run, RunError, SoFar, Stopped, Tally};
use huwekapo::{MAX_BLOCKS, REPORT_BLOCKS};
use std::io::{self, ErrorKind, Read};

/// "10 for a file .. going on past 4,294,967,295 records"
const MOST_RECORDS: usize = 4_294_967_295;

/// 8 blocks, width 2, 4 roots.
fn small_heap() -> Heap {
    Heap::new(8, 2, 4).expect("a good shape")
}

fn tally(figures: [u64; 6]) -> Tally {
    let mut tally = Tally::default();
    [
        tally.allocations,
        tally.blocks,
        tally.largest,
        tally.collections,
        tally.peak,
        tally.stuck,
    ] = figures;
    tally
}

fn so_far(number: usize, records: usize, figures: [u64; 6]) -> SoFar {
    SoFar {
        number,
        records,
        tally: tally(figures),
    }
}

/// A history run from its start on a heap.
fn run_on(heap: Heap, history: &[u8]) -> (SoFar, Heap) {
    let mut run = Run::new(heap);
    let so_far = run.read(history).expect("a sound heap");
    assert_eq!(so_far, run.so_far());
    (so_far, run.into_heap())
}

/// The line of a history on the program's heap.
fn line(history: &[u8]) -> String {
    run_on(Heap::of_report(), history).0.to_string()
}

/// Random records for 8 roots, with no collection in them.
fn random_history(seed: u64, records: usize) -> Vec<u8> {
    let mut state = seed;
    let mut next = |below: u64| {
        state = state
            .wrapping_mul(6_364_136_223_846_793_005)
            .wrapping_add(1_442_695_040_888_963_407);
        (state >> 33) % below
    };
    let mut history = Vec::new();
    for _ in 0..records {
        let (d, s) = (next(8) as u8, next(8) as u8);
        history.extend(match next(8) {
            0..=2 => allocate(1 + next(8) as u32, d),
            3..=5 => copy(s, d),
            _ => clear(d),
        });
    }
    history
}

/// Gives what it has in small reads, every other one interrupted.
struct Halting<'a> {
    bytes: &'a [u8],
    step: usize,
}

impl Read for Halting<'_> {
    fn read(&mut self, to: &mut [u8]) -> io::Result<usize> {
        self.step += 1;
        if self.step.is_multiple_of(2) {
            return Err(ErrorKind::Interrupted.into());
        }
        let length = (self.step % 13).max(1).min(to.len());
        self.bytes.read(&mut to[..length])
    }
}

/// Fails once, after so many bytes.
struct Failing<'a> {
    bytes: &'a [u8],
    left: Option<usize>,
}

impl Read for Failing<'_> {
    fn read(&mut self, to: &mut [u8]) -> io::Result<usize> {
        if self.left == Some(0) {
            self.left = None;
            return Err(ErrorKind::ConnectionReset.into());
        }
        let length = self.left.unwrap_or(to.len()).min(to.len());
        let read = self.bytes.read(&mut to[..length])?;
        self.left = self.left.map(|left| left - read);
        Ok(read)
    }
}

/// "Allocating 2, 1, 3 into roots 0, 1, 2 prints `3 6 3 0 6`", with U5 `3 6 3 0 6 0`; "an empty file gives five zeros", and now six.
#[test]
fn the_example() {
    let history = [allocate(2, 0), allocate(1, 1), allocate(3, 2)];
    let (so_far, heap) = run_on(Heap::of_report(), history.as_flattened());
    assert_eq!(so_far, self::so_far(0, 3, [3, 6, 3, 0, 6, 0]));
    assert_eq!(so_far.to_string(), "3 6 3 0 6 0");
    assert_eq!(so_far.outcome(), Ok(tally([3, 6, 3, 0, 6, 0])));
    assert_eq!(heap.free_blocks(), Ok(REPORT_BLOCKS - 6));
    assert_eq!(line(&[]), "0 0 0 0 0 0");
}

/// The same records on a heap of eight blocks: P1, P2 and the figures.
#[test]
fn another_heap() {
    let p1 = [allocate(2, 0), allocate(1, 1), allocate(3, 2)];
    let (run, heap) = run_on(small_heap(), p1.as_flattened());
    assert_eq!(run.tally, tally([3, 6, 3, 0, 6, 0]));
    assert_eq!((heap.buffers().a[0], heap.buffers().b[0]), (119, 185));

    // "Then allocate 2 into root 3: refused 5": after a collection that frees nothing.
    let (run, heap) = run_on(heap, &allocate(2, 3));
    assert_eq!(run, so_far(5, 0, [0, 0, 0, 1, 0, 0]));
    assert_eq!(heap.free_blocks(), Ok(2));

    // One root, and counts of one bit: the object is born stuck.
    let heap = Heap::new(8, 1, 1).expect("a good shape");
    let (run, heap) = run_on(heap, [allocate(1, 0), copy(0, 1)].as_flattened());
    assert_eq!(run, so_far(4, 1, [1, 1, 1, 0, 1, 1]));
    assert_eq!(heap.free_blocks(), Ok(7));
}

#[test]
fn every_operation() {
    let history = [
        allocate(2, 0),
        allocate(1, 1),
        write(1, 7, 0),
        clear(1),
        read(7, 0, 2),
        copy(2, 3),
        clear(2),
        clear(3),
        clear(0),
        collect(),
    ];
    let (run, heap) = run_on(small_heap(), history.as_flattened());
    assert_eq!(run, so_far(0, 10, [2, 3, 2, 1, 3, 1]));
    assert_eq!(heap, small_heap());
}

/// Each number that stops a run, with the record, and what it says.
#[test]
fn stops() {
    const BLOCKS: u32 = REPORT_BLOCKS as u32;
    let of = |operation, at: usize| -> Bytes {
        let mut bytes = [0; Record::LENGTH];
        bytes[0] = operation;
        bytes[at] = 1;
        bytes
    };
    for (number, record) in [
        (3, allocate(0, 9)),
        (3, allocate(BLOCKS + 1, 64)),
        (3, allocate(BLOCKS + 65_536, 64)),
        (3, allocate(u32::MAX, 64)),
        (4, allocate(BLOCKS, 64)),
        (4, copy(64, 0)),
        (6, write(0, 0, 1)),
        (6, read(0, 1, 0)),
        (7, write(0, 4, 0)),
        (7, write(0, 65_536, 0)),
        (7, read(4, 0, 1)),
        (7, read(u32::MAX, 0, 1)),
        (9, of(9, 1)),
        (9, of(0, 1)),
        (9, of(5, 3)),
        (9, of(5, 4)),
        (9, of(5, 7)),
        (9, of(5, 11)),
        (9, of(3, 8)),
        (9, of(1, 7)),
    ] {
        let history = [allocate(1, 0), record, collect()];
        let (run, heap) = run_on(Heap::of_report(), history.as_flattened());
        assert_eq!(run, so_far(number, 1, [1, 1, 1, 0, 1, 0]));
        assert_eq!(run.to_string(), format!("refused {number} at record 1"));
        assert_eq!(run.outcome(), Err(Stopped { number, record: 1 }));
        assert_eq!(heap.free_blocks(), Ok(REPORT_BLOCKS - 1));
    }
    assert_eq!(
        Stopped {
            number: 6,
            record: 1
        }
        .reason(),
        "a root is empty where an object is needed"
    );
}

/// "10 for a file ending inside a record .. met after the whole records", also where the tail would be 9.
#[test]
fn a_history_that_is_cut_off() {
    for length in 1..Record::LENGTH {
        let mut history = [allocate(2, 0), allocate(1, 1)].as_flattened().to_vec();
        history.extend(&[9; Record::LENGTH][..length]);
        assert_eq!(line(&history), "refused 10 at record 2");
    }
}

/// "When allocation gives 5 the run collects and tries once more." A collection counts also where it is no help.
#[test]
fn forced_collections() {
    // At width 2 three references stick an object: only a collection frees it.
    let garbage = [
        allocate(5, 0),
        copy(0, 1),
        copy(0, 2),
        clear(0),
        clear(1),
        clear(2),
    ];
    let (run, heap) = run_on(small_heap(), garbage.as_flattened());
    assert_eq!(run, so_far(0, 6, [1, 5, 5, 0, 5, 1]));
    assert_eq!(heap.free_blocks(), Ok(3));

    let mut heap_now = heap.clone();
    let helped = heap_now.run_records(run, &allocate(8, 0));
    assert_eq!(helped, Ok(so_far(0, 7, [2, 13, 8, 1, 8, 1])));

    // A held block in the way: the garbage is gone all the same, and the figures have the collection.
    let mut heap_now = heap;
    let held = heap_now.run_records(run, &allocate(1, 3));
    assert_eq!(held, Ok(so_far(0, 7, [2, 6, 5, 0, 6, 1])));
    let refused = heap_now.run_records(held.expect("accepted"), &allocate(8, 0));
    assert_eq!(refused, Ok(so_far(5, 7, [2, 6, 5, 1, 6, 1])));
    assert_eq!(heap_now.free_blocks(), Ok(7));
    assert_eq!(heap_now.roots(), [0, 0, 0, 6]);
}

/// While a collection in steps is open, a record that collects stops the run with 14; and where no chunk is free none is forced
/// or counted, and 5 stops it. Every other record is run.
#[test]
fn with_a_collection_open() {
    let mut heap = small_heap();
    let run = heap.run_records(SoFar::default(), &allocate(5, 0));
    let run = run.expect("accepted");
    assert_eq!(heap.open_collection(), Ok(()));
    let others = [copy(0, 1), write(1, 3, 0), read(3, 0, 2), clear(1)];
    let run = heap.run_records(run, others.as_flattened());
    assert_eq!(run, Ok(so_far(0, 5, [1, 5, 5, 0, 5, 1])));
    let run = run.expect("accepted");
    let open = heap.clone();
    assert!(open.is_open());

    let stopped = heap.run_records(run, &collect());
    assert_eq!(stopped, Ok(so_far(14, 5, [1, 5, 5, 0, 5, 1])));
    assert_eq!(
        stopped.expect("accepted").to_string(),
        "refused 14 at record 5"
    );
    assert_eq!(heap, open);
    let stopped = heap.run_records(run, &allocate(8, 0));
    assert_eq!(stopped, Ok(so_far(5, 5, [1, 5, 5, 0, 5, 1])));
    assert_eq!(heap, open);

    // Closed, both are run.
    let closed = heap.step_collection(9).expect("open");
    assert_eq!((closed.steps, closed.freed), (1, 0));
    let history = [collect(), clear(0), clear(2), allocate(8, 1)];
    let run = heap.run_records(run, history.as_flattened());
    assert_eq!(run, Ok(so_far(0, 9, [2, 13, 8, 2, 8, 1])));
}

/// A history in pieces of whole records comes to what the whole comes to, by each way in.
#[test]
fn pieces_are_the_whole() {
    let (mut stopped, mut collections) = (0, 0);
    for seed in 0..60 {
        let heap = Heap::new(32, 2, 8).expect("a good shape");
        let history = random_history(seed, 60);
        let whole = run_on(heap.clone(), &history);
        stopped += u64::from(whole.0.number != 0);
        collections += whole.0.tally.collections;

        for cut in (0..=history.len()).step_by(Record::LENGTH) {
            let (first, rest) = history.split_at(cut);
            let mut heap = heap.clone();
            let run = heap.run_records(SoFar::default(), first).expect("sound");
            let run = heap.run_records(run, rest).expect("sound");
            assert_eq!((run, heap), whole);
        }
        // Pieces that are cut anywhere are put together.
        for length in [1, 3, 8, 11, 12, 13, 100, 65_535] {
            let mut run = Run::new(heap.clone());
            for piece in history.chunks(length) {
                run.feed(piece).expect("sound");
            }
            assert_eq!((run.finish().expect("sound"), run.into_heap()), whole);
        }
    }
    // Both outcomes were met, and forced collections that helped.
    assert!(stopped > 5 && stopped < 55, "{stopped} of 60 stopped");
    assert!(
        collections > stopped + 5,
        "{collections} collections, {stopped} runs stopped"
    );
}

/// The tail of a history in pieces, however they are cut.
#[test]
fn pieces_of_a_history_that_is_cut_off() {
    let mut history = [allocate(2, 0), allocate(1, 1)].as_flattened().to_vec();
    history.extend([9; 5]);
    for length in 1..=history.len() {
        let mut run = Run::new(Heap::of_report());
        for piece in history.chunks(length) {
            run.feed(piece).expect("sound");
        }
        assert_eq!(run.so_far().number, 0);
        let end = run.finish().expect("sound");
        assert_eq!(end, so_far(10, 2, [2, 3, 2, 0, 3, 0]));
    }
}

#[test]
fn short_and_interrupted_reads() {
    // 3,000,000 bytes, which is more than two pieces.
    let mut history = Vec::new();
    for _ in 0..125_000 {
        history.extend(allocate(3, 0));
        history.extend(copy(0, 1));
    }
    let whole = run_on(small_heap(), &history);
    assert_eq!(whole.0, so_far(0, 250_000, [125_000, 375_000, 3, 0, 6, 0]));
    let mut run = Run::new(small_heap());
    let halting = Halting {
        bytes: &history,
        step: 0,
    };
    let so_far = run
        .read(halting)
        .expect("interrupted reads are tried again");
    assert_eq!((so_far, run.into_heap()), whole);
}

/// A read that fails: the run stands behind the whole records, and goes on with the same reader.
#[test]
fn a_failed_read() {
    let history = [allocate(2, 0), allocate(1, 1), allocate(3, 2)];
    let history = history.as_flattened();
    for bytes in 0..=history.len() {
        let mut run = Run::new(Heap::of_report());
        let mut reader = Failing {
            bytes: history,
            left: Some(bytes),
        };
        match run.read(&mut reader) {
            Err(RunError::Read(error)) => assert_eq!(error.kind(), ErrorKind::ConnectionReset),
            other => panic!("{other:?}"),
        }
        assert_eq!(run.so_far().records, bytes / Record::LENGTH);
        let end = run.read(&mut reader).expect("it fails once");
        assert_eq!(end.to_string(), "3 6 3 0 6 0");
    }
}

/// A run that was stopped is handed back as it is, and nothing but the waiting list is written.
#[test]
fn a_stopped_run_handed_in_again() {
    let history = [allocate(2, 0), allocate(0, 0), allocate(1, 1)];
    let (stopped, heap) = run_on(small_heap(), history.as_flattened());
    assert_eq!(stopped, so_far(3, 1, [1, 2, 2, 0, 2, 0]));
    for bytes in [history.as_flattened(), &[], &[9], &allocate(1, 1)] {
        let mut buffers = heap.buffers().clone();
        buffers.waiting.fill(99);
        let mut again = Heap::from_buffers(8, 2, buffers);
        assert_eq!(again.run_records(stopped, bytes), Ok(stopped));
        assert_eq!(again, heap);
        assert_eq!(again.buffers().waiting, [0; 8]);

        let mut run = Run::resume(again, stopped);
        assert_eq!(run.feed(bytes), Ok(stopped));
        assert_eq!(run.read(bytes).expect("sound"), stopped);
        assert_eq!(run.finish(), Ok(stopped));
        assert_eq!(run.heap(), &heap);
    }
}

/// "met after the whole records up to that number": the last record that a run may have, and what stands behind it.
#[test]
fn the_limit() {
    let near = so_far(0, MOST_RECORDS - 1, [0; 6]);
    let last = so_far(0, MOST_RECORDS, [1, 2, 2, 0, 2, 0]);
    let past = SoFar { number: 10, ..last };
    let one = allocate(2, 0);
    let two = [one, allocate(1, 1)];
    let two = two.as_flattened();
    for (start, bytes, end) in [
        (near, &one[..], last),
        (near, &two[..13], past),
        (near, two, past),
        (near, &one[..11], SoFar { number: 10, ..near }),
        (last, &[], last),
        (last, &[0], past),
        (last, &one[..], past),
        (last, two, past),
    ] {
        let mut heap = small_heap();
        assert_eq!(heap.run_records(start, bytes), Ok(end));
        let ran = end.records > start.records;
        assert_eq!(heap.free_blocks(), Ok(if ran { 6 } else { 8 }));

        let mut run = Run::resume(small_heap(), start);
        assert_eq!(run.read(bytes).expect("sound"), end);
    }
    assert_eq!(past.to_string(), "refused 10 at record 4294967295");
}

/// A heap that is lent, with anything in its waiting list.
fn refused(width: usize, buffers: &Buffers, run: SoFar, bytes: &[u8]) -> Reply {
    let mut lent = buffers.clone();
    let Ran { reply, run } = lent::run_records(lend(8, width, &mut lent), run, bytes);
    assert_ne!(reply.number, 0);
    assert_eq!(run, SoFar::default());
    assert!(lists(&lent) == lists(buffers));
    reply
}

/// 1, 2, 11, 13, 19, in this order; a refusal writes nothing and answers a run of all 0.
#[test]
fn refusals() {
    let reply = |number, value| Reply {
        number,
        value,
        second: 0,
    };
    let record = allocate(1, 0);
    let good = so_far(0, 3, [3, 6, 3, 0, 6, 0]);
    let bad = so_far(0, 3, [4, 6, 3, 0, 6, 0]);
    let mut buffers = small_heap().into_buffers();
    buffers.waiting.fill(99);
    let mut untidy = buffers.clone();
    untidy.list[7] = 1;
    let mut stale = untidy.clone();
    stale.sections[0] = 4;
    let mut damaged = stale.clone();
    damaged.b[0] = 254;
    let mut short = damaged.clone();
    short.waiting.pop();
    for run in [good, bad] {
        assert_eq!(refused(1, &buffers, run, &record), reply(1, 0));
        assert_eq!(refused(2, &short, run, &record), reply(1, 0));
        assert_eq!(refused(2, &damaged, run, &record), reply(2, 1));
        assert_eq!(refused(2, &stale, run, &record), reply(11, 0));
        assert_eq!(refused(2, &untidy, run, &record), reply(13, 0));
    }
    assert_eq!(refused(2, &buffers, bad, &record), reply(19, 0));

    let mut run = Run::new(Heap::from_buffers(8, 2, damaged));
    let refusal = Refusal::Damaged(Damage::EndOnFree);
    assert_eq!(run.feed(&record), Err(refusal));
    assert_eq!(run.so_far(), SoFar::default());
    match run.read(&record[..]) {
        Err(RunError::Refused(by)) => assert_eq!(by, refusal),
        other => panic!("{other:?}"),
    }
}

/// 19: each bound from both sides. The largest size and the peak are not looked at, nor is the number.
#[test]
fn runs_out_of_range() {
    const RECORDS: u64 = MOST_RECORDS as u64;
    const MOST: u64 = MAX_BLOCKS as u64;
    let run_of = |run: SoFar| small_heap().run_records(run, &[]);
    for run in [
        so_far(0, 0, [0; 6]),
        so_far(0, 1, [1, MOST, u64::MAX, 1, u64::MAX, 0]),
        so_far(5, 1, [1, MOST, MOST, 2, MOST, 0]),
        so_far(77, 0, [0, 0, 0, 1, 0, 0]),
        so_far(0, 1, [0, 0, 0, 0, 0, 1]),
        so_far(0, MOST_RECORDS, [RECORDS, MOST * RECORDS, 0, RECORDS, 0, 0]),
        so_far(10, MOST_RECORDS, [0, 0, 0, RECORDS + 1, 0, 0]),
    ] {
        assert_eq!(run_of(run), Ok(run));
    }
    for run in [
        so_far(0, MOST_RECORDS + 1, [0; 6]),
        so_far(0, usize::MAX, [0; 6]),
        so_far(10, MOST_RECORDS + 1, [0; 6]),
        so_far(0, 0, [1, 0, 0, 0, 0, 0]),
        so_far(0, 1, [2, 0, 0, 0, 0, 0]),
        so_far(5, 1, [2, 0, 0, 0, 0, 0]),
        so_far(0, 0, [0, 1, 0, 0, 0, 0]),
        so_far(0, 1, [1, MOST + 1, 0, 0, 0, 0]),
        so_far(0, 1, [0, 0, 0, 2, 0, 0]),
        so_far(5, 1, [0, 0, 0, 3, 0, 0]),
        so_far(0, 1, [0, 0, 0, 0, 0, 2]),
        so_far(5, 1, [0, 0, 0, 0, 0, 2]),
        so_far(0, 1, [0, 0, 0, 0, 0, u64::MAX]),
        so_far(0, 1, [u64::MAX, 0, 0, 0, 0, 0]),
        so_far(0, 1, [0, u64::MAX, 0, 0, 0, 0]),
        so_far(0, 1, [0, 0, 0, u64::MAX, 0, 0]),
    ] {
        assert_eq!(run_of(run), Err(Refusal::BadRun), "{run:?}");
        match Run::resume(small_heap(), run).read(io::empty()) {
            Err(RunError::Refused(refusal)) => assert_eq!(refusal, Refusal::BadRun),
            other => panic!("{other:?}"),
        }
    }
}

//! The largest free chunk of each section (request U4): the lent list is true after every accepted call, and refused where it
//! is not.

mod common;
use common::{allocate, clear, write};
use common::{block, call, is_out_of_turn, lent_to_calls, refusal, refused, FORMATTING, OTHERS};
use huwekapo::{Heap, Ref, Refusal, SoFar, MAX_BLOCKS};

fn fresh(blocks: usize) -> Heap {
    Heap::new(blocks, 2, 4).expect("a good shape")
}

/// The size of the largest chunk of a section of the A-map that is free: each power of two, at each of its multiples.
fn figure(a: &[u8], section: std::ops::Range<usize>) -> Ref {
    let is_free = |block: usize| a[block / 8] >> (block % 8) & 1 == 0;
    let mut largest = 0;
    let mut size = 1;
    while size <= section.len() {
        let mut chunks = section.clone().step_by(size);
        if chunks.any(|at| (at..at + size).all(is_free)) {
            largest = size;
        }
        size *= 2;
    }
    largest as Ref
}

fn figures(heap: &Heap) -> Vec<Ref> {
    let size = heap.blocks().min(256);
    let starts = (0..heap.blocks()).step_by(size);
    starts
        .map(|at| figure(&heap.buffers().a, at..at + size))
        .collect()
}

#[test]
fn the_calls_are_accepted() {
    for blocks in [8, 256, 512, 8192, MAX_BLOCKS] {
        for open in [false, true] {
            for name in FORMATTING.iter().chain(&OTHERS) {
                let mut buffers = lent_to_calls(blocks, open);
                let due = if is_out_of_turn(name, open) { 14 } else { 0 };
                assert_eq!(call(name, blocks, &mut buffers).number, due, "{name}");
                let heap = Heap::from_buffers(blocks, 2, buffers);
                assert_eq!(heap.sections(), figures(&heap), "{name}");
            }
        }
    }
}

#[test]
fn formatted() {
    assert_eq!(fresh(8).sections(), [8]);
    assert_eq!(fresh(128).sections(), [128]);
    assert_eq!(fresh(256).sections(), [256]);
    assert_eq!(fresh(512).sections(), [256, 256]);
    assert_eq!(fresh(8192).sections(), [256; 32]);
    assert_eq!(fresh(MAX_BLOCKS).sections(), [256; 256]);
}

#[test]
fn a_wrong_length() {
    for (blocks, lengths) in [
        (8, &[0, 2][..]),
        (128, &[0, 2]),
        (256, &[0, 2]),
        (512, &[0, 1, 3, 512]),
        (8192, &[0, 31, 33]),
        (MAX_BLOCKS, &[0, 32, 255, 257]),
    ] {
        for length in lengths {
            let mut buffers = lent_to_calls(blocks, false);
            buffers.sections.resize(*length, 256);
            for name in FORMATTING.iter().chain(&OTHERS) {
                assert_eq!(refused(name, blocks, &buffers), refusal(1), "{name}");
            }
        }
    }
}

/// One number that is one too large or one too small, or far off, in the first section or the last.
#[test]
fn a_stale_list() {
    for (blocks, open) in [8, 256, 512, 8192, MAX_BLOCKS]
        .into_iter()
        .zip([false, true, true, false, true])
    {
        let good = lent_to_calls(blocks, open);
        let last = good.sections.len() - 1;
        for place in [0, last] {
            let right = good.sections[place];
            for wrong in [right - 1, right + 1, 0, 65_535, Ref::MAX] {
                let mut buffers = good.clone();
                buffers.sections[place] = wrong;
                for name in OTHERS {
                    assert_eq!(refused(name, blocks, &buffers), refusal(11), "{name}");
                }
                for name in FORMATTING {
                    let mut now = buffers.clone();
                    assert_eq!(call(name, blocks, &mut now), refusal(0), "{name}");
                    assert_eq!(&now, fresh(blocks).buffers(), "{name}");
                }
            }
        }
    }
}

/// "11, the list doesn't match the maps, next after 2": behind 1 and 2, before the call's own numbers.
#[test]
fn refusals_in_order() {
    let mut stale = lent_to_calls(8, false);
    stale.sections[0] = 8;
    let mut heap = Heap::from_buffers(8, 2, stale.clone());
    assert_eq!(heap.allocate(0, 9), Err(Refusal::StaleSections));
    assert_eq!(heap.store_root(9, 9), Err(Refusal::StaleSections));
    assert_eq!(heap.store_cell(9, 99, 9), Err(Refusal::StaleSections));
    assert_eq!(heap.return_roots(u64::MAX), Err(Refusal::StaleSections));
    assert_eq!(heap.look(9), Err(Refusal::StaleSections));
    assert_eq!(heap.step_collection(1), Err(Refusal::StaleSections));
    assert_eq!(Refusal::StaleSections.number(), 11);

    let mut damaged = stale.clone();
    damaged.counts[0] = 0;
    assert_eq!(refused("check", 8, &damaged).number, 2);
    let mut short = damaged;
    short.roots.clear();
    assert_eq!(refused("check", 8, &short).number, 1);
}

/// "goes to the lowest section whose figure suffices. Longer ones search as before."
#[test]
fn where_an_allocation_goes() {
    let mut heap = fresh(512);
    assert_eq!(heap.allocate(200, 0).map(block), Ok(0));
    assert_eq!(heap.sections(), [32, 256]);
    assert_eq!(heap.allocate(33, 1).map(block), Ok(256));
    assert_eq!(heap.sections(), [32, 128]);
    assert_eq!(heap.allocate(17, 2).map(block), Ok(224));
    assert_eq!(heap.sections(), [16, 128]);
    assert_eq!(heap.allocate(300, 3), Err(Refusal::NoChunk));
    assert_eq!(heap.allocate(129, 3), Err(Refusal::NoChunk));
    assert_eq!(heap.return_roots(7), Ok(250));
    assert_eq!(heap.allocate(300, 3).map(block), Ok(0));
    assert_eq!(heap.sections(), [0, 128]);

    // Longer than a section: the first two have no free chunk of 512 blocks together.
    let mut heap = fresh(1024);
    assert_eq!(heap.allocate(1, 0).map(block), Ok(0));
    assert_eq!(heap.allocate(257, 1).map(block), Ok(512));
    assert_eq!(heap.sections(), [128, 256, 0, 128]);
}

/// Lists of allocations, stores and returns at random: the list is what the A-map says after each.
#[test]
fn true_after_every_call() {
    let (mut full, mut refused, mut freed) = (0, 0, 0);
    for (seed, blocks) in [8, 16, 128, 256, 512, 2048, 8192, MAX_BLOCKS]
        .into_iter()
        .enumerate()
    {
        let mut state = seed as u64;
        let mut next = |below: usize| {
            state = state
                .wrapping_mul(6_364_136_223_846_793_005)
                .wrapping_add(1_442_695_040_888_963_407);
            (state >> 33) as usize % below
        };
        let mut heap = Heap::new(blocks, 2, 16).expect("a good shape");
        for step in 0..300 {
            // Small sizes at most times, so that sections fill up in part.
            let magnitude = next(blocks.ilog2() as usize + 1);
            let size = 1 + next(1 << magnitude);
            let done = match next(8) {
                0..=3 => heap.allocate(size, next(16)).map(|_| 0),
                4 => heap
                    .store_root(next(16), heap.roots()[next(16)] as usize)
                    .map(|done| done.freed),
                5 => heap.return_roots(1 << next(16) | 1 << next(16)),
                6 => heap.store_root(next(16), 0).map(|done| done.freed),
                _ => match heap.roots()[next(16)] {
                    0 => heap.collect(),
                    owner => heap
                        .store_cell(owner as usize - 1, 0, heap.roots()[next(16)] as usize)
                        .map(|done| done.freed),
                },
            };
            assert_eq!(heap.check(), Ok(()));
            assert_eq!(
                heap.sections(),
                figures(&heap),
                "{blocks} blocks, step {step}"
            );
            full += usize::from(heap.sections().contains(&0));
            refused += usize::from(done == Err(Refusal::NoChunk));
            freed += usize::from(done.is_ok_and(|blocks| blocks > 0));
        }
    }
    // Sections with nothing free were met, requests that none can meet, and blocks given back.
    assert!(
        full > 100 && refused > 100 && freed > 100,
        "{full} {refused} {freed}"
    );
}

/// The same behind runs of records, in which a forced collection frees.
#[test]
fn true_after_a_run() {
    // Garbage that names itself, two objects in the other half, and one that needs the garbage's place.
    let history = [
        allocate(256, 0),
        write(0, 0, 0),
        clear(0),
        allocate(3, 1),
        allocate(100, 2),
        allocate(200, 3),
    ];
    let mut heap = fresh(512);
    let run = heap.run_records(SoFar::default(), history.as_flattened());
    let run = run.expect("a sound heap");
    assert_eq!((run.number, run.tally.collections), (0, 1));
    assert_eq!(heap.sections(), figures(&heap));
    assert_eq!(heap.sections(), [32, 64]);
}

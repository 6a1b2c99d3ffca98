//! The port that the benchmark uses does what the model does, so that the two sides of the benchmark do the
//! same work.

use model::history::figures::Figures;
use model::history::record::{bytes, short as record, RECORD};
use model::history::report;
use model::history::run::run_records;
use model::history::vectors::all_but_the_longest;
use model::history::Run;
use model::lists::damaging::{some_damage, AIMS};
use model::lists::file::{Bench, Entry, BUFFERS};
use model::lists::generate::Desk;
use model::lists::random::Random;
use model::lists::runs::{some_records, some_run};
use model::lists::section_lists::sections;
use model::product::port::{self, lend, Searched, SoFar, Tally};
use model::rules::heap::Ref;
use model::rules::replay::replay;
use model::rules::sections::leave_list_true;
use model::{apply, Call, Memory};

/// A list of calls, replayed by both and, but for the list of sections, by the searches that the port had before.
fn same_replay(shape: [u64; 3], list: &[u64]) -> Memory {
    let [blocks, width, roots] = shape.map(|number| number as usize);
    let mut due = Memory::zeros(blocks, width, roots);
    let mut replies_due = vec![0; list.len() / 4 * 3];
    let reply = replay(blocks, width, &mut due, list, &mut replies_due);
    assert_eq!(reply.number, 0);
    let mut memory = Memory::zeros(blocks, width, roots);
    let mut replies = vec![0; replies_due.len()];
    let m = &mut lend(&mut memory);
    let answer = port::replay(blocks, width, m, list, &mut replies);
    assert_eq!((answer.number, answer.value), (reply.number, reply.value));
    assert_eq!((&memory, &replies), (&due, &replies_due), "{shape:?}");
    assert_eq!(port::check(blocks, width, &lend(&mut memory)).number, 0);
    for find in [port::search_in_one_walk, port::search_in_two_passes] {
        let mut memory = Memory::zeros(blocks, width, roots);
        memory.sections.fill(7);
        let m = &mut lend(&mut memory);
        port::replay_without_list(find, blocks, width, m, list, &mut replies);
        assert!(memory.sections.iter().all(|number| *number == 7));
        leave_list_true(blocks, &mut memory);
        assert_eq!((&memory, &replies), (&due, &replies_due), "{shape:?}");
    }
    due
}

#[test]
fn port_is_the_model_on_random_lists() {
    for seed in 0..40 {
        let mut random = Random::new(seed);
        let shape = [random.pick(&[8, 16, 64, 256, 512]), 1 + seed % 4, 4];
        let mut desk = Desk::new(random, shape);
        desk.call(Call::Format);
        for _ in 0..300 {
            let call = desk.some_call();
            desk.call(call);
        }
        let memory = same_replay(shape, &desk.entries.concat());
        assert_eq!(memory, desk.bench.memory, "seed {seed}");
    }
}

/// Lists of several sections, their calls alone.
#[test]
fn port_is_the_model_on_sections() {
    for seed in 0..24 {
        let mut desk = Desk::new(Random::new(seed), [8, 1 + seed % 4, 4]);
        sections(&mut desk, 150);
        let calls = desk.entries.iter().copied();
        let calls = calls.filter(|words| Entry::from_words(*words).call().is_some());
        let list: Vec<u64> = calls.flatten().collect();
        same_replay([desk.blocks() as u64, 1 + seed % 4, 4], &list);
    }
}

/// 1, 2 and 11: heaps as they are, damaged, with an untrue list of sections, and with buffers of another length.
#[test]
fn port_checks_as_the_model_does() {
    let mut met = [0; 15];
    for seed in 0..600 {
        let desk = some_used_desk(seed);
        let mut bench = desk.bench.clone();
        let mut random = desk.random.clone();
        let aim = seed as usize % (AIMS + 1);
        if aim == AIMS {
            let buffer = random.below(BUFFERS) as u64;
            let length = bench.length(buffer) as u64 + 1;
            bench.set_length(buffer, length);
        } else {
            for (buffer, index, value) in some_damage(&mut random, &bench, aim) {
                bench.load(buffer, index as u64, value);
            }
        }
        let Bench {
            blocks,
            width,
            mut memory,
            ..
        } = bench;
        let answer = port::check(blocks, width, &lend(&mut memory));
        let reply = apply(blocks, width, &mut memory, Call::Check);
        assert_eq!((answer.number, answer.value), (reply.number, reply.value));
        met[reply.number] += 1;
    }
    assert!(
        [0, 1, 2, 11].iter().all(|number| met[*number] > 20),
        "{met:?}"
    );
}

/// A used heap of one section or more.
fn some_used_desk(seed: u64) -> Desk {
    let mut random = Random::new(seed);
    let shape = [random.pick(&[8, 8, 16, 64, 512]), 1 + seed % 4, 4];
    let mut desk = Desk::new(random, shape);
    desk.call(Call::Format);
    for _ in 0..20 {
        let call = desk.some_call();
        desk.call(call);
    }
    desk
}

/// Runs of records, as they are and spoilt.
#[test]
fn port_runs_records_as_the_model_does() {
    let mut met = [0; 20];
    for seed in 0..600 {
        let mut desk = some_used_desk(seed);
        let (blocks, roots) = (desk.blocks(), desk.roots());
        let records = some_records(&mut desk.random, blocks, roots);
        let handed = some_run(seed, &desk.bench, &records);
        let (mut due, mut memory) = (handed.bench.memory.clone(), handed.bench.memory);
        let width = handed.bench.width;
        let (reply, run) = run_records(blocks, width, &mut due, handed.run, &handed.bytes);
        let m = &mut lend(&mut memory);
        match port::run_records(blocks, width, m, so_far(handed.run), &handed.bytes) {
            Ok(after) => assert_eq!((0, after), (reply.number, so_far(run))),
            Err(answer) => assert_eq!((answer.number, answer.value), (reply.number, reply.value)),
        }
        assert_eq!(memory, due, "seed {seed}");
        met[reply.number] += 1;
    }
    assert!(
        [0, 1, 2, 11, 19].iter().all(|number| met[*number] > 5),
        "{met:?}"
    );
}

/// Where a run stands, for the port.
fn so_far(run: Run) -> SoFar {
    let Figures {
        allocations,
        blocks,
        largest,
        collections,
        most_in_use,
        became_stuck,
    } = run.figures;
    SoFar {
        number: run.number,
        records: run.records as usize,
        tally: Tally {
            allocations,
            blocks,
            largest,
            collections,
            peak: most_in_use,
            stuck: became_stuck,
        },
    }
}

#[test]
fn port_is_the_model_on_histories() {
    for history in all_but_the_longest() {
        let line = port::report(&history.bytes[..]).expect("a slice can be read");
        assert_eq!(line, report(&history.bytes), "{}", history.name);
    }
}

/// Pieces of whole records, runs that are stopped and runs out of range: what the port does where a run is handed
/// in.
#[test]
fn port_hands_runs_in_and_out() {
    let history = bytes(&[record::allocate(2, 0), record::allocate(9, 0)]);
    let mut memory = Memory::zeros(8, 2, 4);
    memory.b.fill(255);
    memory.sections.fill(8);
    let mut lent = lend(&mut memory);
    let mut run = |so_far, bytes: &[u8]| port::run_records(8, 2, &mut lent, so_far, bytes);
    let first = run(SoFar::default(), &history[..RECORD]).expect("accepted");
    assert_eq!(first.to_string(), "1 2 2 0 2 0\n");
    let stopped = run(first, &history[RECORD..]).expect("accepted");
    assert_eq!(stopped.to_string(), "refused 3 at record 1\n");
    assert_eq!(run(stopped, &history), Ok(stopped));
    let wrong = SoFar {
        records: 4_294_967_296,
        ..first
    };
    assert_eq!(
        run(wrong, &history).map_err(|answer| answer.number),
        Err(19)
    );
}

/// The A-map's blocks from `from` up to `to`, searched chunk by chunk and block by block, with nothing remembered.
fn plain_search(a: &[u8], from: usize, to: usize, size: usize) -> Searched {
    let is_free = |block: usize| a[block / 8] >> (block % 8) & 1 == 0;
    let mut starts = (from..to).step_by(size);
    match starts.find(|&start| (start..start + size).all(is_free)) {
        Some(at) => Searched {
            at,
            looks: at + size - from,
        },
        None => Searched {
            at: to,
            looks: to - from,
        },
    }
}

/// The same section by section, where it is no longer than one: the first section that has a chunk is searched alone, and where
/// none has, nothing is.
fn search_by_sections(a: &[u8], size: usize) -> Searched {
    if size > 256 {
        return plain_search(a, 0, BLOCKS, size);
    }
    let mut sections = (0..BLOCKS).step_by(256);
    let found = sections.find_map(|from| {
        let found = plain_search(a, from, from + 256, size);
        (found.at != from + 256).then_some(found)
    });
    found.unwrap_or(Searched {
        at: BLOCKS,
        looks: 0,
    })
}

/// The list of sections of a map, by the port.
fn true_list(a: &[u8]) -> Vec<Ref> {
    let mut list = vec![port::UNKNOWN; BLOCKS / 256];
    port::renew(BLOCKS, a, &mut list);
    list
}

/// The blocks of the maps that are searched.
const BLOCKS: usize = 1024;

#[test]
fn all_searches_find_the_lowest_chunk_and_the_later_ones_count_their_looks() {
    for seed in 0..400 {
        let mut random = Random::new(seed);
        let rarely_mixed = random.below(9);
        let some_byte = |random: &mut Random| match random.below(10) {
            k if k < rarely_mixed => random.pick(&[0, 0, 255]),
            _ => (random.word() & random.word()) as u8,
        };
        let map: Vec<u8> = (0..BLOCKS / 8).map(|_| some_byte(&mut random)).collect();
        for size in (0..=10).map(|k| 1 << k) {
            let step = size.max(8);
            let (one, other) = (
                random.below(BLOCKS / step + 1),
                random.below(BLOCKS / step + 1),
            );
            let (from, to) = (one.min(other) * step, one.max(other) * step);
            let expected = plain_search(&map, from, to, size);
            assert_eq!(
                port::lowest_chunk(&map, from, to, size),
                expected,
                "seed {seed}, {from}..{to}, {size}"
            );
            let by_sections = search_by_sections(&map, size);
            let list = true_list(&map);
            assert_eq!(
                port::find_chunk(BLOCKS, &map, &list, size),
                by_sections,
                "seed {seed}, {size}"
            );
            let whole = plain_search(&map, 0, BLOCKS, size);
            assert_eq!(
                port::lowest_chunk(&map, 0, BLOCKS, size),
                whole,
                "seed {seed}, {size}"
            );
            assert_eq!(
                port::search_in_two_passes(&map, BLOCKS, size),
                whole.at,
                "seed {seed}, {size}"
            );
            assert_eq!(by_sections.at, whole.at, "seed {seed}, {size}");
        }
    }
}

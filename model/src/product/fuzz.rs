//! Random lists and damaged memories, on the model and on the product's library side by side: call by call, then the calls
//! of the list as one replay, as they are and spoilt, then calls in lists and runs of records on what the list left. On that, too, the shape and reasons with outputs of
//! every length around the right one, and the sentences read back. First come the check of
//! every pair of maps of eight blocks, of every A-map of eight blocks with every figure, of every sound pair of maps with every
//! D-map, of every mark map with every short list, and lists that are always the same, which meet all that can be met; then fresh ones.

use crate::lists::damaging::{some_damage, AIMS, WRONG_MARKS};
use crate::lists::families::{random as random_calls, some_shape, FAMILIES};
use crate::lists::file::{Bench, Entry, REASON, SHAPE};
use crate::lists::generate::Desk;
use crate::lists::output_vectors;
use crate::lists::random::Random;
use crate::lists::runs::{some_records, some_run};
use crate::lists::section_lists::sections;
use crate::lists::spoiling::{some_batch, some_replay, spoilt_sentence};
use crate::product::busy::{busy, chain};
use crate::product::compare::{
    batched, call_by_call, differing_copy, differing_output, ran, read_back, replayed, Library,
};
use crate::product::met::{sizes, Met, PAIRS_OF_MAPS, TOO_MANY_BLOCKS};
use crate::product::shrink::shrink;
use crate::rules::calls::short::{allocate, cell, chosen, data, root, step, OPEN};
use crate::rules::damage::damage;
use crate::rules::heap::{first_blocks, Memory, MAX_BLOCKS};
use crate::rules::outputs::due_reason;
use crate::rules::reasons::read;
use crate::rules::sections::figures;
use crate::Call;
use std::time::{Duration, Instant};

/// After the first difference the search goes on for so many seconds, for a shorter list that shows one.
const FURTHER: Duration = Duration::from_secs(5);

/// So many lists of calls on what a list left, and so many runs of records.
const BATCHES: usize = 4;
const RUNS: usize = 6;

/// On heaps of more blocks, where the model is slow, so many calls in a list at most.
const LARGE: usize = 1024;
const FEW: usize = 3;

/// The reasons of so many objects of what a list left, and so many spoilt texts of each.
const REASONS: usize = 8;
const SPOILT: usize = 6;

/// A difference, with the length of the list that shows it.
struct Found {
    length: usize,
    text: String,
}

/// Checks all pairs of maps, all figures, all D-maps, all mark maps and the lists that are always the same, then runs fresh lists for
/// so many seconds.
/// What was met, and a difference, as text.
pub fn fuzz(seconds: u64, seed: u64, library: Library) -> (Met, Option<String>) {
    let mut met = Met::default();
    let difference = pairs_of_maps(library, &mut met)
        .or_else(|| maps_with_figures(library, &mut met))
        .or_else(|| maps_with_data(library, &mut met))
        .or_else(|| marks_with_lists(library, &mut met))
        .or_else(|| reasons_and_shapes(library));
    if difference.is_some() {
        return (met, difference);
    }
    let mut end = Instant::now() + Duration::from_secs(seconds);
    let mut random = Random::new(seed);
    let mut always = always().into_iter();
    let mut every_size = every_size();
    let mut shortest: Option<Found> = None;
    loop {
        // Once there is a difference, large heaps would take too long.
        let large = || every_size.next().filter(|_| shortest.is_none());
        let desk = match always.next().or_else(large) {
            Some(desk) => desk,
            None if Instant::now() < end => some_list(&mut random),
            None => break,
        };
        met.lists += 1;
        let Some(found) = try_list(library, &desk, &mut met) else {
            continue;
        };
        match &shortest {
            None => end = end.min(Instant::now() + FURTHER),
            Some(before) if before.length <= found.length => continue,
            Some(_) => {}
        }
        shortest = Some(found);
    }
    (met, shortest.map(|found| found.text))
}

/// The check of every pair of an A-map and a B-map of eight blocks, in a heap that is otherwise fresh.
fn pairs_of_maps(library: Library, met: &mut Met) -> Option<String> {
    let shape = [8, 2, 4];
    (0..PAIRS_OF_MAPS as u64).find_map(|pair| {
        let mut desk = Desk::new(Random::new(0), shape);
        desk.call(Call::Format);
        desk.load(0, 0, pair / 256);
        desk.load(1, 0, pair % 256);
        desk.call(Call::Check);
        met.pairs_of_maps += 1;
        call_by_call(library, desk.start(), &desk.entries, &mut Met::default())
    })
}

/// The check of every A-map of eight blocks with the figures 0 to 9, of which one is right: each used block is an object, and
/// at width 1 a count of 1 needs no reference.
fn maps_with_figures(library: Library, met: &mut Met) -> Option<String> {
    let shape = [8, 1, 4];
    (0..256).find_map(|a| {
        let mut desk = Desk::new(Random::new(0), shape);
        desk.call(Call::Format);
        for (buffer, value) in [(0, a), (1, 255 - a), (2, a)] {
            desk.load(buffer, 0, value);
        }
        for figure in 0..10 {
            desk.load(6, 0, figure);
            desk.call(Call::Check);
            met.maps_with_figures += 1;
        }
        call_by_call(library, desk.start(), &desk.entries, &mut Met::default())
    })
}

/// The check of every pair of maps of eight blocks that passes kinds 1 to 3, with every D-map and a number that names nothing
/// in one cell: kind 4, unless it is a cell of data; then kind 7, unless each D bit is on a first block. At width 1 a count of 1
/// needs no reference.
fn maps_with_data(library: Library, met: &mut Met) -> Option<String> {
    let shape = [8, 1, 4];
    let mut pairs = 0;
    (0..PAIRS_OF_MAPS as u64).find_map(|pair| {
        let mut memory = Memory::zeros(8, 1, 4);
        [memory.a[0], memory.b[0]] = [(pair / 256) as u8, (pair % 256) as u8];
        if (1..=3).contains(&damage(8, 1, &memory)) {
            return None;
        }
        let counts: u64 = first_blocks(8, &memory).iter().map(|i| 1 << i).sum();
        let mut desk = Desk::new(Random::new(0), shape);
        desk.call(Call::Format);
        desk.load(0, 0, pair / 256);
        desk.load(1, 0, pair % 256);
        desk.load(2, 0, counts);
        desk.load(6, 0, figures(8, &memory)[0] as u64);
        for data in 0..256 {
            let block = (data as usize + pairs) % 8;
            let place = 4 * block + block % 4;
            desk.load(7, 0, data);
            desk.load(3, place, 9);
            desk.call(Call::Check);
            desk.load(3, place, 0);
            met.maps_with_data += 1;
        }
        pairs += 1;
        call_by_call(library, desk.start(), &desk.entries, &mut Met::default())
    })
}

/// The check of every mark map of eight blocks with the lists that hold two numbers of 0 to 9 and have a last place of 0 to 2. On a
/// heap of three objects that a root, an object and nothing names, the last one data; and on one that is empty.
fn marks_with_lists(library: Library, met: &mut Met) -> Option<String> {
    let shape = [8, 1, 2];
    let three = vec![
        allocate(2, 0),
        allocate(1, 1),
        data(1, 1),
        root(1, 0),
        cell(0, 7, 3),
    ];
    let heaps = [three, Vec::new()];
    heaps.iter().find_map(|calls| {
        (0..256).find_map(|marks| {
            let mut desk = Desk::new(Random::new(0), shape);
            desk.call(Call::Format);
            for call in calls {
                desk.call(*call);
            }
            desk.call(OPEN);
            desk.load(8, 0, marks);
            for list in 0..300 {
                for (place, value) in [(0, list % 10), (1, list / 10 % 10), (8, list / 100)] {
                    desk.load(9, place, value);
                }
                desk.call(Call::Check);
                met.marks_with_lists += 1;
            }
            call_by_call(library, desk.start(), &desk.entries, &mut Met::default())
        })
    })
}

/// The lists of reasons and shapes of the large file.
fn reasons_and_shapes(library: Library) -> Option<String> {
    let desk = output_vectors::outputs();
    call_by_call(library, desk.start(), &desk.entries, &mut Met::default())
}

/// The lists that are always the same, at each width: every family, every aim of damage on several heaps, wrong marks, sections, and
/// every call on too many blocks with buffers that fit; and the small heaps of reasons and shapes. `Met::unmet` says what they would leave out.
fn always() -> Vec<Desk> {
    let mut lists = Vec::new();
    let mut list = |shape: [u64; 3], write: &dyn Fn(&mut Desk)| {
        let mut desk = Desk::new(Random::new(lists.len() as u64), shape);
        write(&mut desk);
        lists.push(desk);
    };
    for width in 1..=4 {
        list([TOO_MANY_BLOCKS as u64, width, 4], &every_call);
        list([8, width, 4], &|desk| wrong_marks_calls(desk, 40));
        // Of as many sections as the header says, for the replay.
        for blocks in [256, 512, 1024] {
            list([blocks, width, 4], &|desk| sections(desk, 60));
        }
        for blocks in [8, 16, 32] {
            for (_, write) in FAMILIES {
                list([blocks, width, 4], &|desk| write(desk, 60));
            }
            for aim in 0..AIMS {
                list([blocks, width, 4], &|desk| damaged_calls(desk, 40, aim));
            }
        }
    }
    // For their reasons and shapes: among them the longest chain. 6 and 15 are met on each that has an object at 0.
    for (shape, calls) in output_vectors::heaps() {
        list(shape, &|desk| {
            for call in [&[Call::Format], &calls[..]].concat() {
                desk.call(call);
            }
            desk.reason(shape[0] as usize, 40);
            desk.reason(0, 10);
        });
    }
    lists
}

/// A list on a heap with much in it (busy.rs), of every size, for each aim of damage and for none; and chains over all blocks.
fn every_size() -> impl Iterator<Item = Desk> {
    let busy = sizes().flat_map(|blocks| {
        let width = 1 + blocks.ilog2() as usize % 4;
        let bench = Bench::of(blocks, width, busy(blocks, width));
        (0..=AIMS).map(move |aim| {
            let mut desk = Desk::given(Random::new(aim as u64), bench.clone());
            calls_on_given(&mut desk, (aim < AIMS).then_some(aim));
            desk
        })
    });
    busy.chain(chains())
}

/// Calls on a heap that is in use, then damage of an aim, if any, and every call.
fn calls_on_given(desk: &mut Desk, aim: Option<usize>) {
    for _ in 0..4 {
        let call = desk.some_call();
        desk.call(call);
    }
    if let Some(aim) = aim {
        for (buffer, index, value) in some_damage(&mut desk.random, &desk.bench, aim) {
            desk.load(buffer, index, value);
        }
    }
    every_call(desk);
}

/// Objects of one block each over all of a heap, each naming the one before it, the last one in root 1: looked at, collected, let go as
/// a whole, by steps, and as garbage.
fn chains() -> impl Iterator<Item = Desk> {
    let lists = |blocks: usize| {
        let own_end = cell(blocks - 1, 0, blocks);
        let half = step(blocks / 2);
        [
            vec![Call::Check],
            vec![Call::Collect, root(1, 0), Call::FreeBlocks],
            vec![own_end, root(1, 0), Call::Collect],
            vec![OPEN, half, Call::Check, step(blocks), chosen(2)],
            vec![own_end, root(1, 0), OPEN, step(1)],
            vec![OPEN, step(10), root(1, 0), step(blocks)],
        ]
    };
    [256, 8192, MAX_BLOCKS].into_iter().flat_map(move |blocks| {
        lists(blocks).into_iter().map(move |calls| {
            let bench = Bench::of(blocks, 2, chain(blocks, 2));
            let mut desk = Desk::given(Random::new(blocks as u64), bench);
            for call in calls {
                desk.call(call);
            }
            desk
        })
    })
}

/// A list call by call, its calls replayed, as they are and spoilt, and calls in lists and runs of records on what it left.
fn try_list(library: Library, desk: &Desk, met: &mut Met) -> Option<Found> {
    let found = cut_down(&desk.entries, met, |entries, met| {
        call_by_call(library, desk.start(), entries, met)
    });
    if found.is_some() {
        return found;
    }
    // From the list's own seed.
    let mut random = desk.random.clone();
    let found = outputs(library, desk, random.clone(), met);
    if found.is_some() {
        return found;
    }
    let found = copies(library, desk, random.clone(), met);
    if found.is_some() {
        return found;
    }
    let calls = calls_of(desk, &mut random);
    let seed = random.word();
    let found = [false, true].into_iter().find_map(|spoilt| {
        cut_down(&calls, met, |calls, met| {
            let lent = some_replay(seed, desk.header, calls, spoilt);
            replayed(library, &lent, met)
        })
    });
    if found.is_some() {
        return found;
    }
    let found = batches(library, desk, &mut random, met);
    if found.is_some() {
        return found;
    }
    (0..RUNS).find_map(|_| {
        let records = some_records(&mut random, desk.blocks(), desk.roots().max(1));
        let seed = random.word();
        cut_down(&records, met, |records, met| {
            ran(library, &some_run(seed, &desk.bench, records), met)
        })
    })
}

/// The calls of a list, some of them or all, made once more on what it left.
fn batches(library: Library, desk: &Desk, random: &mut Random, met: &mut Met) -> Option<Found> {
    let calls = calls_of(desk, &mut Random::new(random.word()));
    (0..BATCHES).find_map(|_| {
        let from = random.below(calls.len() + 1);
        let many = desk.blocks() <= LARGE && random.percent(70);
        let most = if many { usize::MAX } else { FEW };
        let some: Vec<[u64; 4]> = calls[from..].iter().take(most).copied().collect();
        let seed = random.word();
        cut_down(&some, met, |calls, met| {
            batched(library, &some_batch(seed, &desk.bench, calls), met)
        })
    })
}

/// So many copies of what a list left.
const COPIES: usize = 6;

/// The model looks for each object's chunk from block 0 on: no copies where that takes more looks.
const LOOKS: usize = 20_000_000;

/// Copies of what a list left into second heaps of other sizes and widths, of any content.
fn copies(library: Library, desk: &Desk, mut random: Random, met: &mut Met) -> Option<Found> {
    let bench = &desk.bench;
    (0..COPIES).find_map(|_| {
        let (second, into) = some_second(&mut random, bench);
        if desk.objects().len() * second.0.min(MAX_BLOCKS) > LOOKS {
            return None;
        }
        differing_copy(library, bench, second, &into, met).then(|| Found {
            length: desk.entries.len(),
            text: format!(
                "a difference: a copy into {second:?}, behind {:?}\n",
                desk.entries
            ),
        })
    })
}

/// A second heap: mostly of the right lengths and as many roots, and filled with anything.
fn some_second(random: &mut Random, bench: &Bench) -> ((usize, usize), Memory) {
    let near = bench.blocks.next_power_of_two().clamp(8, MAX_BLOCKS);
    let blocks = match random.below(6) {
        0 => 8,
        1 => (near / 2).max(8),
        2 => (2 * near).min(MAX_BLOCKS),
        3 => (4 * near).min(MAX_BLOCKS),
        _ => near,
    };
    let width = 1 + random.below(4);
    let roots = match random.below(20) {
        0 => 1 + random.below(64),
        _ => bench.memory.roots.len(),
    };
    let mut into = Memory::zeros(blocks, width, roots);
    let bytes = [
        &mut into.a,
        &mut into.b,
        &mut into.counts,
        &mut into.data,
        &mut into.marks,
    ];
    for byte in bytes.into_iter().flatten() {
        *byte = random.word() as u8;
    }
    let lists = [
        &mut into.cells,
        &mut into.roots,
        &mut into.waiting,
        &mut into.sections,
        &mut into.list,
    ];
    for number in lists.into_iter().flatten() {
        *number = random.word() as u32;
    }
    match random.below(40) {
        0 => into.sections.push(0),
        1 => drop(into.list.pop()),
        2 => return ((blocks, 5), into),
        3 => return ((2 * blocks, width), into),
        _ => {}
    }
    ((blocks, width), into)
}

/// The shape of what a list left, and the reasons of some blocks, with outputs of every length around the right one; and the sentences
/// read back, as they are and spoilt.
fn outputs(library: Library, desk: &Desk, mut random: Random, met: &mut Met) -> Option<Found> {
    let bench = &desk.bench;
    let objects = desk.objects();
    let mut blocks = vec![None, Some(random.below(bench.blocks + 3)), Some(usize::MAX)];
    // All objects of a small heap; else the first one, to which a chain over all blocks is the longest, and some.
    blocks.extend(
        objects
            .first()
            .filter(|_| objects.len() > REASONS)
            .map(|first| Some(*first)),
    );
    for k in 0..objects.len().min(REASONS) {
        let any = random.below(objects.len());
        let which = if objects.len() <= REASONS { k } else { any };
        blocks.push(Some(objects[which]));
    }
    for block in blocks {
        if let Some(length) = differing_output(library, bench, block, &mut random, met) {
            let entry = match block {
                Some(a) => [REASON, a as u64, length as u64, 0],
                None => [SHAPE, length as u64, 0, 0],
            };
            let entries = [&desk.entries[..], &[entry]].concat();
            let shown = cut_down(&entries, met, |entries, met| {
                call_by_call(library, desk.start(), entries, met)
            });
            // What differs only over other bytes than those that an entry lends is shown as it is.
            return Some(shown.unwrap_or_else(|| Found {
                length: entries.len(),
                text: format!(
                    "a difference: an output of {length} that holds anything, for {block:?}\n"
                ),
            }));
        }
        let Some(a) = block else { continue };
        let Ok(sentence) = due_reason(bench.blocks, bench.width, &bench.memory, a) else {
            continue;
        };
        let text = read_back_spoilt(library, &sentence, &mut random, met);
        if let Some(text) = text {
            return Some(Found {
                length: sentence.len(),
                text,
            });
        }
    }
    None
}

/// A sentence read back with room for more cells than it has, as many, and fewer; then spoilt in some ways.
fn read_back_spoilt(
    library: Library,
    sentence: &[u8],
    random: &mut Random,
    met: &mut Met,
) -> Option<String> {
    let links = read(sentence)?.chain.map_or(0, |chain| chain.cells.len());
    let rooms = links.saturating_sub(2)..=links + 2;
    let found = rooms
        .into_iter()
        .find_map(|room| read_back(library, sentence, room, met));
    found.or_else(|| {
        (0..SPOILT).find_map(|_| {
            let text = spoilt_sentence(sentence, random);
            let room = random.below(links + 3);
            read_back(library, &text, room, met)
        })
    })
}

/// The calls of a list without its first entry, a format: a replay has to format by itself. Seldom only a few of
/// them, or none.
fn calls_of(desk: &Desk, random: &mut Random) -> Vec<[u64; 4]> {
    let most = if random.percent(10) {
        random.below(5)
    } else {
        usize::MAX
    };
    let is_call = |words: &&[u64; 4]| Entry::from_words(**words).call().is_some();
    let entries = desk.entries.iter().skip(1);
    entries.filter(is_call).take(most).copied().collect()
}

/// The difference that a list shows, if any, shown by a list that is as short as can be.
fn cut_down<T: Clone>(
    list: &[T],
    met: &mut Met,
    difference: impl Fn(&[T], &mut Met) -> Option<String>,
) -> Option<Found> {
    difference(list, met)?;
    let again = |list: &[T]| difference(list, &mut Met::default());
    let short = shrink(list, |list| again(list).is_some());
    Some(Found {
        length: short.len(),
        text: again(&short)?,
    })
}

/// A list of one family, or calls on a damaged memory; seldom on a large heap, where the model is slow, or on
/// one that is too large.
fn some_list(random: &mut Random) -> Desk {
    let seed = random.word();
    let mut own = Random::new(seed);
    let mut shape = some_shape(seed, &mut own);
    if own.percent(30) {
        shape[2] = 1 + own.below(64) as u64;
    }
    let kind = own.below(100);
    shape[0] = match kind {
        0..=1 => {
            // The largest are the slowest.
            let large = MAX_BLOCKS as u64 >> own.below(3);
            own.pick(&[256, 512, 1024, 2048, 4096, 8192, large])
        }
        2 => TOO_MANY_BLOCKS as u64,
        3..=5 => own.pick(&[256, 512, 1024]),
        _ => shape[0],
    };
    if kind < 2 && own.percent(60) {
        let [blocks, width, _] = shape.map(|number| number as usize);
        let mut desk = Desk::given(own, Bench::of(blocks, width, busy(blocks, width)));
        let aim = desk.random.below(AIMS);
        calls_on_given(&mut desk, (kind == 0).then_some(aim));
        return desk;
    }
    let mut desk = Desk::new(own, shape);
    let count = 20 + desk.random.below(150);
    let aim = desk.random.below(AIMS);
    match kind {
        0 => damaged_calls(&mut desk, 16, aim),
        1 => random_calls(&mut desk, 16),
        2 => every_call(&mut desk),
        3..=5 => sections(&mut desk, 60),
        6..=7 => wrong_marks_calls(&mut desk, 4),
        8..=27 => damaged_calls(&mut desk, count, aim),
        _ => {
            let (_, write) = desk.random.pick(&FAMILIES);
            write(&mut desk, count);
        }
    }
    desk
}

/// Every call on a memory with damage of an aim, before anything mends it.
fn damaged_calls(desk: &mut Desk, count: usize, aim: usize) {
    desk.call(Call::Format);
    for _ in 0..count / 2 {
        let call = desk.some_call();
        desk.call(call);
    }
    for (buffer, index, value) in some_damage(&mut desk.random, &desk.bench, aim) {
        desk.load(buffer, index, value);
    }
    every_call(desk);
}

/// Every call but format on memories with wrong marks, and some with an untrue list of sections besides; mended by a format.
fn wrong_marks_calls(desk: &mut Desk, rounds: usize) {
    for _ in 0..rounds {
        desk.call(Call::Format);
        for _ in 0..12 {
            let call = desk.some_call();
            desk.call(call);
        }
        if desk.random.percent(70) {
            desk.call(OPEN);
        }
        for (buffer, index, value) in some_damage(&mut desk.random, &desk.bench, WRONG_MARKS) {
            desk.load(buffer, index, value);
        }
        every_call_but_format(desk);
    }
    // What is met seldom: a marked object that names an unmarked one is taken off the list.
    for call in [Call::Format, allocate(1, 0), allocate(1, 1), cell(0, 0, 2)] {
        desk.call(call);
    }
    for call in [root(1, 0), OPEN] {
        desk.call(call);
    }
    desk.load(9, 0, 0);
    every_call_but_format(desk);
}

/// Some calls with an untrue list of sections, and all of them with a true one.
fn every_call_but_format(desk: &mut Desk) {
    let figure = desk.bench.number_at(6, 0);
    desk.load(6, 0, figure + 1);
    let calls = desk.one_of_each();
    let some = desk.random.pick(&calls[..calls.len() - 1]);
    for call in [Call::Check, some] {
        desk.call(call);
    }
    reason_and_shape(desk);
    desk.load(6, 0, figure);
    for call in &calls[..calls.len() - 1] {
        desk.call(*call);
    }
    reason_and_shape(desk);
}

/// The two calls that write an output first, and format last.
fn every_call(desk: &mut Desk) {
    reason_and_shape(desk);
    for call in desk.one_of_each() {
        desk.call(call);
    }
}

/// The reason of an object, seldom of another block, and the shape, most of them with outputs that suffice for small heaps.
fn reason_and_shape(desk: &mut Desk) {
    let a = match desk.some_look() {
        Call::Look { a } => a,
        _ => 0,
    };
    let length = desk.random.pick(&[10, 40, 400]);
    desk.reason(a, length);
    let length = desk.random.pick(&[10, 60, 400]);
    desk.shape(length);
}

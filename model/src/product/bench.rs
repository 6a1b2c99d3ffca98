//! Times of the product's library against the port in plain safe Rust: one run, same input, buffers warm. And those of the
//! port's searches against each other (search_bench), and of its check by bytes against that by blocks (check_bench).

use crate::lists::file::Entry;
use crate::lists::random::Random;
use crate::product::check_bench::{by_bytes, check_times, collect_times};
use crate::product::data_bench::half_data;
use crate::product::library::{apply, unique};
use crate::product::pause_bench::{self, SETUP};
use crate::product::port::{self, lend};
use crate::product::timing::{by_turns, compared};
use crate::product::{copy_bench, growth_bench, search_bench, size_bench};
use crate::rules::calls::Call;
use crate::rules::heap::{first_blocks, free_count, size, Memory};
use huwekapo::lent;
use std::fmt::Write;
use std::hint::black_box;
use std::time::Duration;

const WIDTH: usize = 3;
const ROOTS: usize = 64;
const BLOCKS: usize = 8192;
const CALLS: usize = 200_000;
const MANY_CALLS: usize = 1_000_000;
const BATCH: usize = 1000;

/// All figures, as text.
pub fn bench() -> String {
    let mut out = String::new();
    let list = mixed_calls(BLOCKS, CALLS, 1);
    say_what(&mut out, &list);
    calls(&mut out, &list);
    calls(&mut out, &mixed_calls(BLOCKS, MANY_CALLS, 3));
    batch(&mut out, &mixed_calls(BLOCKS, SETUP + BATCH, 1));
    search_bench::lists(&mut out, WIDTH, ROOTS, &list);
    search_bench::searches(&mut out);
    search_bench::growth(&mut out);
    check(&mut out, &list);
    by_bytes(&mut out);
    half_data(&mut out);
    out += &pauses();
    growth(&mut out);
    out + &sizes()
}

/// Collections in small steps.
pub fn pauses() -> String {
    let mut out = String::new();
    pause_bench::pauses(&mut out, &mixed_calls(BLOCKS, SETUP, 1));
    out
}

/// What depends on the number of blocks: single calls, and how they grow.
pub fn sizes() -> String {
    let mut out = String::new();
    size_bench::single_calls(&mut out);
    growth_bench::growth(&mut out);
    growth_bench::over_sizes(&mut out);
    copy_bench::copies(&mut out);
    out
}

/// The first roots hold tables, objects of many cells, so that most of the heap is in use.
const TABLES: usize = 6;

/// A list of calls, four words each, that fills a heap, tangles it and lets parts of it go. Each call is carried
/// out by the port, so that the next one fits.
fn mixed_calls(blocks: usize, count: usize, seed: u64) -> Vec<u64> {
    let mut random = Random::new(seed);
    let mut memory = Memory::zeros(blocks, WIDTH, ROOTS);
    let mut list: Vec<u64> = Vec::with_capacity(4 * count);
    while list.len() < 4 * count {
        let words = match list.len() / 4 {
            0 => [0; 4],
            k if k <= TABLES => [2, blocks as u64 / 128, k as u64 - 1, 0],
            _ => some_call(&mut random, blocks, &memory),
        };
        list.extend(words);
        port::step(blocks, WIDTH, &mut lend(&mut memory), &words);
    }
    list
}

/// One call that fits the heap, once the tables are there.
fn some_call(random: &mut Random, blocks: usize, memory: &Memory) -> [u64; 4] {
    let r = TABLES + random.below(ROOTS - TABLES);
    let owner = if random.percent(70) {
        memory.roots[random.below(TABLES)] as usize
    } else {
        memory.roots[random.below(ROOTS)] as usize
    };
    let held = memory.roots[random.below(ROOTS)] as u64;
    match random.below(1000) {
        0..=249 => [2, 1 + random.below(6) as u64, r as u64, 0],
        250..=399 => [3, r as u64, held, 0],
        400..=449 => [3, r as u64, 0, 0],
        450..=849 if owner != 0 => {
            let cells = 4 * size(blocks, memory, owner - 1);
            let v = memory.roots[r] as u64;
            [4, owner as u64 - 1, random.below(cells) as u64, v]
        }
        850..=979 if held != 0 => [6, held - 1, 0, 0],
        980..=997 => [7, 0, 0, 0],
        998 => [5, 0, 0, 0],
        _ => [1, 0, 0, 0],
    }
}

/// What the list does.
fn say_what(out: &mut String, list: &[u64]) {
    let mut memory = Memory::zeros(BLOCKS, WIDTH, ROOTS);
    let mut replies = vec![0; list.len() / 4 * 3];
    port::replay(BLOCKS, WIDTH, &mut lend(&mut memory), list, &mut replies);
    let calls = |kind: u64| list.chunks(4).filter(|call| call[0] == kind).count();
    let kinds: Vec<String> = [2, 3, 4, 5, 6, 7]
        .map(|kind| calls(kind).to_string())
        .to_vec();
    let accepted = replies.chunks(3).filter(|reply| reply[0] == 0).count();
    let objects = first_blocks(BLOCKS, &memory).len();
    let free = free_count(BLOCKS, &memory);
    writeln!(
        out,
        "the list: allocate, store in a root, store in a cell, collect, look, free blocks: {}",
        kinds.join(", ")
    )
    .unwrap();
    writeln!(
        out,
        "  {accepted} of {CALLS} accepted; at the end {objects} objects, {free} free blocks"
    )
    .unwrap();
}

fn ratio(times: [Duration; 2]) -> String {
    compared(["library", "plain Rust"], times)
}

/// The inner calls, by the library's run of a list and by the port's. Replies and buffers must be equal.
fn calls(out: &mut String, list: &[u64]) {
    let mut memories = [0, 1].map(|_| Memory::zeros(BLOCKS, WIDTH, ROOTS));
    let mut replies = [0, 1].map(|_| vec![0u64; list.len() / 4 * 3]);
    let [first, second] = &mut memories;
    let [by_library, by_port] = &mut replies;
    let times = by_turns(
        || {
            let reply = lent::replay(unique(BLOCKS, WIDTH, first), black_box(list), by_library);
            assert_eq!(reply.number, 0);
        },
        || {
            let answer = port::replay(BLOCKS, WIDTH, &mut lend(second), black_box(list), by_port);
            assert_eq!(answer.number, 0);
        },
    );
    assert!(memories[0] == memories[1] && replies[0] == replies[1]);
    let count = list.len() / 4;
    let rate = count as f64 / times[0].as_secs_f64();
    writeln!(
        out,
        "{count} mixed calls, N = {BLOCKS}, w = {WIDTH}: {}",
        ratio(times)
    )
    .unwrap();
    writeln!(out, "  {rate:.0} calls a second by the library").unwrap();
}

/// The last calls of a list on the heap that the others leave: as one list, which checks the heap once, and one by one. The heap is
/// copied in both times. Replies and buffers must be equal.
fn batch(out: &mut String, list: &[u64]) {
    let (front, list) = list.split_at(4 * SETUP);
    let start = used(BLOCKS, front);
    let single: Vec<Call> = list
        .chunks(4)
        .filter_map(|words| Entry::from_words(words.try_into().unwrap()).call())
        .collect();
    assert_eq!(single.len(), BATCH);
    let mut memories = [start.clone(), start.clone()];
    let mut replies = [0, 1].map(|_| vec![0u64; 3 * BATCH]);
    let [first, second] = &mut memories;
    let [by_list, by_calls] = &mut replies;
    let times = by_turns(
        || {
            *first = start.clone();
            let reply = lent::make_calls(unique(BLOCKS, WIDTH, first), black_box(list), by_list);
            assert_eq!((reply.number, reply.value), (0, BATCH));
        },
        || {
            *second = start.clone();
            for (call, numbers) in single.iter().zip(by_calls.chunks_mut(3)) {
                let reply = apply(BLOCKS, WIDTH, second, black_box(*call));
                let words = [reply.number, reply.value, reply.second];
                numbers.copy_from_slice(&words.map(|number| number as u64));
            }
        },
    );
    assert!(memories[0] == memories[1] && replies[0] == replies[1]);
    writeln!(
        out,
        "{BATCH} mixed calls in one list, N = {BLOCKS}, w = {WIDTH}: {}",
        compared(["make_calls", "one by one"], times)
    )
    .unwrap();
}

/// A heap as a list of calls leaves it.
fn used(blocks: usize, list: &[u64]) -> Memory {
    let mut memory = Memory::zeros(blocks, WIDTH, ROOTS);
    let mut replies = vec![0; list.len() / 4 * 3];
    port::replay(blocks, WIDTH, &mut lend(&mut memory), list, &mut replies);
    memory
}

/// One whole-heap check, out of many.
fn check(out: &mut String, list: &[u64]) {
    let times = check_times(BLOCKS, &used(BLOCKS, list));
    writeln!(out, "a check, N = {BLOCKS}, w = {WIDTH}: {}", times.ratio()).unwrap();
}

/// Check and collect on heaps of growing size.
fn growth(out: &mut String) {
    for blocks in [1024, 2048, 4096, 8192] {
        let memory = used(blocks, &mixed_calls(blocks, 8 * blocks, 2));
        let check = check_times(blocks, &memory).ratio();
        let collect = collect_times(blocks, &memory).ratio();
        writeln!(out, "N = {blocks}: check   {check}").unwrap();
        writeln!(out, "N = {blocks}: collect {collect}").unwrap();
    }
}

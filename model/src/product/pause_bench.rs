//! Pauses (U8): what a collection takes in small steps against the full collection, on one heap in one run. Rounds without the checks,
//! by replays; and the longest single call, with the check that every public call makes.

use crate::product::library::{shared, unique};
use crate::product::long_lists::{at_random, wide_tree, zigzag};
use crate::product::port::{self, lend};
use crate::rules::heap::{first_blocks, Memory};
use huwekapo::lent;
use std::fmt::Write;
use std::hint::black_box;
use std::time::{Duration, Instant};

const WIDTH: usize = 3;
const ROOTS: usize = 64;
const BLOCKS: usize = 8192;

/// The calls of a list that fills the heap: few, so that the rounds behind them take most of the time.
pub const SETUP: usize = 12_000;

const COLLECT: [u64; 4] = [5, 0, 0, 0];
const OPEN: [u64; 4] = [12, 0, 0, 0];

fn step(budget: u64) -> [u64; 4] {
    [13, budget, 0, 0]
}

/// A round in calls of so many steps, on a heap in which so many objects are reached.
fn round(budget: usize, reached: usize) -> Vec<u64> {
    let calls = reached.div_ceil(budget);
    let steps = vec![step(budget as u64); calls.max(1)];
    [&[OPEN][..], &steps].concat().concat()
}

/// Makes a replay: the library, or the port.
type Replay = fn(&mut Memory, &[u64], &mut [u64]) -> usize;

const SIDES: [Replay; 2] = [
    |memory, list, replies| {
        let heap = unique(BLOCKS, WIDTH, memory);
        lent::replay(heap, black_box(list), replies).number
    },
    |memory, list, replies| {
        port::replay(BLOCKS, WIDTH, &mut lend(memory), black_box(list), replies).number
    },
];

/// The least of seven times of replays of three lists, by turns, so that a change of the machine's speed meets all of them; and the last
/// one's buffers and replies.
fn replays(side: Replay, lists: [&[u64]; 3]) -> ([f64; 3], Memory, Vec<u64>) {
    let mut least = [f64::MAX; 3];
    let mut memory = Memory::zeros(BLOCKS, WIDTH, ROOTS);
    let mut replies = Vec::new();
    for turn in 0..8 {
        for (list, least) in lists.iter().zip(&mut least) {
            replies = vec![0; list.len() / 4 * 3];
            let start = Instant::now();
            let number = side(&mut memory, list, &mut replies);
            let time = start.elapsed().as_secs_f64();
            assert_eq!(number, 0);
            if turn > 0 {
                *least = least.min(time);
            }
        }
    }
    (least, memory, replies)
}

/// A full collection and a round of these calls, out of many behind a list, without the list's own time, by the library and by the port.
/// Replies and buffers must be equal.
fn round_times(list: &[u64], calls: &[u64], rounds: usize) -> [[f64; 2]; 2] {
    const COLLECTIONS: usize = 200;
    let full = [list, &COLLECT.repeat(COLLECTIONS)].concat();
    let stepped = [list, &calls.repeat(rounds)].concat();
    let sides = SIDES.map(|side| replays(side, [list, &full, &stepped]));
    assert!(sides[0].1 == sides[1].1 && sides[0].2 == sides[1].2);
    assert!(sides[0]
        .2
        .chunks(3)
        .rev()
        .take(2)
        .all(|reply| reply[0] == 0));
    sides.map(|([own, full, stepped], ..)| {
        let full = (full - own) / COLLECTIONS as f64;
        [full, (stepped - own) / rounds as f64]
    })
}

/// The time of an opening, or of a call of steps.
fn timed(memory: &mut Memory, budget: Option<usize>) -> Duration {
    let heap = unique(BLOCKS, WIDTH, memory);
    let start = Instant::now();
    let reply = match budget {
        Some(budget) => lent::step_collection(heap, budget),
        None => lent::open_collection(heap),
    };
    let time = start.elapsed();
    assert_eq!(reply.number, 0);
    time
}

/// The longest call from the opening to the close, each the least of seven times.
fn longest_call(memory: &Memory, budget: usize) -> Duration {
    let mut least: Vec<Duration> = Vec::new();
    for turn in 0..8 {
        let mut memory = memory.clone();
        let mut calls = vec![timed(&mut memory, None)];
        while memory.list[BLOCKS] == 1 {
            calls.push(timed(&mut memory, Some(budget)));
        }
        match turn {
            0 => {}
            1 => least = calls,
            _ => {
                for (least, time) in least.iter_mut().zip(calls) {
                    *least = time.min(*least);
                }
            }
        }
    }
    least.into_iter().max().unwrap_or_default()
}

/// The least of seven times of one call on a copy of a heap.
fn least(memory: &Memory, call: impl Fn(&mut Memory)) -> Duration {
    let times = (0..8).map(|_| {
        let mut memory = memory.clone();
        let start = Instant::now();
        call(&mut memory);
        start.elapsed()
    });
    times.skip(1).min().unwrap_or_default()
}

fn check_once(memory: &mut Memory) {
    assert_eq!(lent::check(shared(BLOCKS, WIDTH, memory)).number, 0);
}

/// All figures, on a heap of mixed calls and on heaps with long lists.
pub fn pauses(out: &mut String, mixed: &[u64]) {
    pauses_on(out, "mixed calls", mixed);
    pauses_on(out, "a wide tree", &wide_tree(BLOCKS));
    pauses_on(out, "references at random", &at_random(BLOCKS));
    pauses_on(out, "a zigzag", &zigzag(BLOCKS));
}

/// All figures, on the heap that a list leaves.
fn pauses_on(out: &mut String, heap: &str, list: &[u64]) {
    let mut memory = Memory::zeros(BLOCKS, WIDTH, ROOTS);
    let mut replies = vec![0; list.len() / 4 * 3];
    // What a round leaves, so that every later one is alike.
    let settled = [list, &COLLECT].concat();
    port::replay(BLOCKS, WIDTH, &mut lend(&mut memory), list, &mut replies);
    let mut reached = memory.clone();
    port::full_collection(BLOCKS, WIDTH, &mut lend(&mut reached));
    let (all, live) = (
        first_blocks(BLOCKS, &memory).len(),
        first_blocks(BLOCKS, &reached).len(),
    );
    writeln!(
        out,
        "pauses, {heap}: {all} objects, of which {live} are reached, N = {BLOCKS}, w = {WIDTH}"
    )
    .unwrap();
    for (name, budget, rounds) in [
        ("one call", BLOCKS, 200),
        ("calls of 100", 100, 100),
        ("calls of 10", 10, 20),
        ("calls of 1", 1, 2),
    ] {
        let [library, plain] = round_times(&settled, &round(budget, live), rounds);
        let in_words = |[full, stepped]: [f64; 2]| {
            let ratio = stepped / full;
            format!(
                "{:.1} µs, {ratio:.3} of the full collection's {:.1} µs",
                1e6 * stepped,
                1e6 * full
            )
        };
        writeln!(
            out,
            "  a round in {name}, without checks: {}; plain Rust {}",
            in_words(library),
            in_words(plain),
        )
        .unwrap();
    }
    let check = least(&memory, check_once);
    // All but one of the steps are taken: as many objects are marked as there will be.
    let mut stepped = memory.clone();
    timed(&mut stepped, None);
    timed(&mut stepped, Some(live - 1));
    let check_open = least(&stepped, check_once);
    let collect = least(&memory, |memory| {
        assert_eq!(lent::collect(unique(BLOCKS, WIDTH, memory)).number, 0);
    });
    writeln!(
        out,
        "  the full collection with its check: {collect:.1?}, the check alone {check:.1?}, with a collection open {check_open:.1?}"
    )
    .unwrap();
    for budget in [1, 10, 100, BLOCKS] {
        let longest = longest_call(&memory, budget);
        writeln!(
            out,
            "  the longest call with budget {budget}: {longest:.1?}, {:.3} of the full collection; the check is {:.3} of it",
            longest.as_secs_f64() / collect.as_secs_f64(),
            check_open.as_secs_f64() / longest.as_secs_f64(),
        )
        .unwrap();
    }
}

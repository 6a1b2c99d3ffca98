//! Times of the searches for a free chunk, each in plain safe Rust, in one run: that by sections (U4), the one walk before it
//! (U3), and the two passes of the first delivery.

use crate::lists::random::Random;
use crate::product::port::{self, lend, Searched};
use crate::product::timing::{by_turns, compared};
use crate::rules::heap::{Memory, Ref};
use std::fmt::Write;
use std::hint::black_box;
use std::time::Duration;

const BLOCKS: usize = 8192;
const TWO_PASSES: &str = "two passes";
const ONE_WALK: &str = "one walk";
const BY_SECTIONS: &str = "by sections";

/// A search of an A-map by its blocks and a size.
type Search<'a> = &'a dyn Fn(&[u8], usize, usize) -> usize;

/// A list of calls with each of the later searches against the two passes. The list of sections is kept only where it is
/// searched by.
pub fn lists(out: &mut String, width: usize, roots: usize, list: &[u64]) {
    let replay = |m: &mut port::Lent, list: &[u64], replies: &mut [u64]| {
        port::replay(BLOCKS, width, m, list, replies)
    };
    let without_list = |find: Search, m: &mut port::Lent, list: &[u64], replies: &mut [u64]| {
        port::replay_without_list(find, BLOCKS, width, m, list, replies)
    };
    for name in [ONE_WALK, BY_SECTIONS] {
        let mut memories = [0, 1].map(|_| Memory::zeros(BLOCKS, width, roots));
        let mut replies = [0, 1].map(|_| vec![0u64; list.len() / 4 * 3]);
        let [first, second] = &mut memories;
        let [after, before] = &mut replies;
        let times = by_turns(
            || {
                let (m, list) = (&mut lend(first), black_box(list));
                let answer = match name {
                    BY_SECTIONS => replay(m, list, after),
                    _ => without_list(&port::search_in_one_walk, m, list, after),
                };
                assert_eq!(answer.number, 0);
            },
            || {
                let (m, list) = (&mut lend(second), black_box(list));
                let answer = without_list(&port::search_in_two_passes, m, list, before);
                assert_eq!(answer.number, 0);
            },
        );
        // What was not kept is the same from here on.
        memories
            .iter_mut()
            .for_each(|memory| memory.sections.fill(0));
        assert!(memories[0] == memories[1] && replies[0] == replies[1]);
        let calls = list.len() / 4;
        let times = compared([name, TWO_PASSES], times);
        writeln!(out, "{calls} mixed calls, plain Rust: {times}").unwrap();
    }
}

/// The searches alone on A-maps of several kinds.
pub fn searches(out: &mut String) {
    let half = |byte| if byte < BLOCKS / 16 { 255 } else { 0 };
    let mut random = Random::new(4);
    let three_of_four = (0..BLOCKS / 8)
        .map(|_| (0..8).map(|i| u8::from(random.below(4) < 3) << i).sum())
        .collect();
    let maps: [(&str, Vec<u8>); 4] = [
        ("full", vec![255; BLOCKS / 8]),
        ("lower half full", (0..BLOCKS / 8).map(half).collect()),
        ("three of four used", three_of_four),
        ("one of eight used", vec![128; BLOCKS / 8]),
    ];
    for (kind, map) in &maps {
        for size in [1, 2, 8, 64, 512] {
            for name in [ONE_WALK, BY_SECTIONS] {
                let looks = searched(name, map, size).looks;
                let times = search_times([name, TWO_PASSES], map, size);
                writeln!(out, "{kind}, size {size}, {looks} looks: {times}").unwrap();
            }
        }
    }
}

/// The search for one block on heaps of growing size, all used but for their last block.
pub fn growth(out: &mut String) {
    for blocks in [1024, 2048, 4096, 8192] {
        let mut map = vec![255; blocks / 8];
        map[blocks / 8 - 1] = 127;
        let times = search_times([BY_SECTIONS, ONE_WALK], &map, 1);
        let looks = searched(BY_SECTIONS, &map, 1).looks;
        writeln!(out, "N = {blocks}: one block, {looks} looks: {times}").unwrap();
    }
}

/// What one of the two later searches finds.
fn searched(name: &str, map: &[u8], size: usize) -> Searched {
    let blocks = 8 * map.len();
    match name {
        BY_SECTIONS => port::find_chunk(blocks, map, &true_list(map), size),
        _ => port::lowest_chunk(map, 0, blocks, size),
    }
}

/// The list of sections of a map.
fn true_list(map: &[u8]) -> Vec<Ref> {
    let blocks = 8 * map.len();
    let mut list = vec![port::UNKNOWN; blocks / port::section_length(blocks)];
    port::renew(blocks, map, &mut list);
    list
}

/// Two searches by name on a map, which find the same.
fn search_times(names: [&str; 2], map: &[u8], size: usize) -> String {
    const ROUNDS: u32 = 500;
    let blocks = 8 * map.len();
    let list = true_list(map);
    let due = searched(ONE_WALK, map, size).at;
    let rounds = |find: Search| {
        for _ in 0..ROUNDS {
            assert_eq!(find(black_box(map), blocks, size), due);
        }
    };
    let by_sections = |map: &[u8], blocks: usize, size: usize| {
        port::find_chunk(blocks, map, black_box(&list), size).at
    };
    let find = |name: &str| -> Search {
        match name {
            TWO_PASSES => &port::search_in_two_passes,
            ONE_WALK => &port::search_in_one_walk,
            _ => &by_sections,
        }
    };
    let [one, other] = names.map(find);
    let times: [Duration; 2] = by_turns(|| rounds(one), || rounds(other));
    compared(names, times.map(|time| time / ROUNDS))
}

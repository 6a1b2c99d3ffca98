//! How check, collection and a light record grow from 8,192 to 65,536 blocks (U12): a walk over the heap by the factor of the blocks, a
//! record hardly.

use crate::product::busy::busy;
use crate::product::check_bench::{check_times, collect_times};
use crate::product::port::{self, lend};
use crate::product::size_bench::light_record;
use crate::rules::heap::{Memory, MAX_BLOCKS};
use std::fmt::Write;

const WIDTH: usize = 3;
const SMALL: usize = 8192;

/// All blocks but those of the last section belong to objects of 128 blocks: the search for a chunk passes every other section.
fn room_at_the_end(blocks: usize) -> Memory {
    let mut memory = Memory::zeros(blocks, WIDTH, 64);
    let mut lent = lend(&mut memory);
    let mut call = |words: [u64; 4]| {
        let answer = port::step(blocks, WIDTH, &mut lent, &words);
        assert_eq!(answer.number, 0);
        answer.value as u64
    };
    call([0; 4]);
    for held in 0..(blocks as u64 - 256) / 128 {
        let made = call([2, 128, 1, 0]);
        let before = if held == 0 { 0 } else { made - 127 };
        call([4, made, 0, before]);
        call([3, 0, 1 + made, 0]);
    }
    call([3, 1, 0, 0]);
    memory
}

/// Times of both sizes, and their ratio beside the one aimed at.
fn line(out: &mut String, name: &str, aim: f64, time: impl Fn(usize) -> f64) {
    let [small, large] = [SMALL, MAX_BLOCKS].map(time);
    let ratio = large / small;
    writeln!(
        out,
        "  {name:<42} {small:>12.1} ns {large:>12.1} ns   ratio {ratio:.2}, aim {aim}"
    )
    .unwrap();
}

/// All figures.
pub fn growth(out: &mut String) {
    writeln!(out, "from {SMALL} to {MAX_BLOCKS} blocks:").unwrap();
    let nanoseconds = |time: std::time::Duration| time.as_secs_f64() * 1e9;
    let heaps = [SMALL, MAX_BLOCKS].map(|blocks| busy(blocks, WIDTH));
    let busy = |blocks: usize| &heaps[usize::from(blocks != SMALL)];
    line(out, "check of a busy heap", 10.0, |blocks| {
        nanoseconds(check_times(blocks, busy(blocks)).library)
    });
    line(
        out,
        "collect of a busy heap, with its check",
        10.0,
        |blocks| nanoseconds(collect_times(blocks, busy(blocks)).library),
    );
    line(out, "a light record on a busy heap", 1.5, |blocks| {
        light_record(blocks, &with_one_kept(blocks, busy(blocks)))
    });
    line(
        out,
        "a light record, room in the last section",
        1.5,
        |blocks| light_record(blocks, &with_one_kept(blocks, &room_at_the_end(blocks))),
    );
}

/// The number of blocks, and what a check, a collection with its check and a light record take on a busy heap of it, in nanoseconds:
/// the lines that docs/figures/speed.py draws.
pub fn over_sizes(out: &mut String) {
    writeln!(
        out,
        "blocks, check, collection with its check, light record, in ns:"
    )
    .unwrap();
    for blocks in [64, 256, 1024, 4096, 8192, 16_384, 32_768, MAX_BLOCKS] {
        let memory = busy(blocks, WIDTH);
        let check = check_times(blocks, &memory).library;
        let collect = collect_times(blocks, &memory).library;
        let record = light_record(blocks, &with_one_kept(blocks, &memory));
        writeln!(
            out,
            "  {blocks} {} {} {record:.1}",
            check.as_nanos(),
            collect.as_nanos()
        )
        .unwrap();
    }
}

/// The object that light records name, in its root.
fn with_one_kept(blocks: usize, memory: &Memory) -> Memory {
    let mut memory = memory.clone();
    let answer = port::step(blocks, WIDTH, &mut lend(&mut memory), &[2, 1, 36, 0]);
    assert_eq!(answer.number, 0);
    memory
}

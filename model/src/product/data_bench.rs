//! Times with data (U6): the check and the collection of a heap of which half is arrays, made as data or as ordinary objects
//! whose cells are all 0. Data is not scanned.

use crate::lists::random::Random;
use crate::product::check_bench::{check_times, collect_times, Times};
use crate::product::port::{self, lend};
use crate::product::timing::compared;
use crate::rules::heap::Memory;
use std::fmt::Write;

const WIDTH: usize = 3;
const ROOTS: usize = 64;
const BLOCKS: usize = 8192;

/// The codes of an allocation in a list.
const ORDINARY: u64 = 2;
const DATA: u64 = 9;

/// Tables of 64 blocks hold arrays of 128 blocks, and behind them small objects that name each other.
fn heap(array: u64) -> Memory {
    const TABLES: u64 = 6;
    const ARRAYS: u64 = 32;
    let mut random = Random::new(5);
    let mut memory = Memory::zeros(BLOCKS, WIDTH, ROOTS);
    let mut lent = lend(&mut memory);
    let mut call = |words: [u64; 4]| port::step(BLOCKS, WIDTH, &mut lent, &words);
    call([0, 0, 0, 0]);
    let tables: Vec<u64> = (0..TABLES)
        .map(|r| call([ORDINARY, 64, r, 0]).value as u64)
        .collect();
    let last = ROOTS as u64 - 1;
    let mut before = 1 + tables[0];
    for held in 0..TABLES * 256 {
        let made = match held {
            _ if held < ARRAYS => call([array, 128, last, 0]),
            _ => call([ORDINARY, 1 + random.below(4) as u64, last, 0]),
        };
        if made.number != 0 {
            break;
        }
        let made = made.value as u64;
        call([4, tables[(held / 256) as usize], held % 256, 1 + made]);
        if held >= ARRAYS {
            call([4, made, random.below(4) as u64, before]);
            before = 1 + made;
        }
    }
    call([3, last, 0, 0]);
    memory
}

/// Both heaps, each by the library and by the port; and the library's times on them against each other.
pub fn half_data(out: &mut String) {
    let heaps = [heap(DATA), heap(ORDINARY)];
    let ways: [(&str, fn(usize, &Memory) -> Times); 2] =
        [("check", check_times), ("collect", collect_times)];
    for (name, times) in ways {
        let [data, ordinary] = heaps.each_ref().map(|heap| times(BLOCKS, heap));
        writeln!(out, "half of it data, {name}: {}", data.ratio()).unwrap();
        writeln!(out, "half of it arrays of 0s, {name}: {}", ordinary.ratio()).unwrap();
        let libraries = compared(["as data", "as objects"], [data.library, ordinary.library]);
        writeln!(out, "  {name} by the library: {libraries}").unwrap();
    }
}

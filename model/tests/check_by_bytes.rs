//! The check goes by bytes of the maps: numbers changed in the first, a middle and the last byte, and in those of an object that takes two,
//! on heaps of 8 to 8,192 blocks. The port, the port by blocks and, with the feature `library`, the library answer as the model does.

mod common;
use common::say;
use model::product::busy::{busy, known_bytes};
use model::product::port::{self, lend, Answer};
use model::rules::heap::{first_blocks, free_count, Ref};
use model::{apply, Call, Memory, Reply};

/// A check by another than the model.
type Check = fn(usize, usize, &mut Memory) -> Reply;

fn by_port(blocks: usize, width: usize, memory: &mut Memory) -> Reply {
    reply(port::check(blocks, width, &lend(memory)))
}

fn by_blocks(blocks: usize, width: usize, memory: &mut Memory) -> Reply {
    reply(port::check_by_blocks(blocks, width, &lend(memory)))
}

fn reply(answer: Answer) -> Reply {
    Reply {
        number: answer.number,
        value: answer.value,
        second: answer.second,
    }
}

#[cfg(feature = "library")]
fn by_library(blocks: usize, width: usize, memory: &mut Memory) -> Reply {
    model::product::library::apply(blocks, width, memory, Call::Check)
}

#[cfg(feature = "library")]
const CHECKS: [Check; 3] = [by_port, by_blocks, by_library];
#[cfg(not(feature = "library"))]
const CHECKS: [Check; 2] = [by_port, by_blocks];

/// The first, a middle and the last byte of the maps.
fn three_bytes(blocks: usize) -> [usize; 3] {
    let bytes = blocks / 8;
    [0, bytes / 2, bytes - 1]
}

/// Those of an object of sixteen blocks near the middle.
fn bytes_of_one_object(blocks: usize) -> Vec<usize> {
    match blocks {
        8 | 16 => Vec::new(),
        _ => [2, 3].map(|byte| blocks / 128 * 8 + byte).to_vec(),
    }
}

/// Heaps that differ from one in one bit of one byte of a map, in one cell of its blocks, or in a root that names one of these.
fn changed(blocks: usize, width: usize, memory: &Memory, byte: usize, bit: usize) -> Vec<Memory> {
    let block = 8 * byte + bit;
    let mut all = Vec::new();
    let mut change = |write: &dyn Fn(&mut Memory)| {
        let mut other = memory.clone();
        write(&mut other);
        all.push(other);
    };
    change(&|m| m.a[byte] ^= 1 << bit);
    change(&|m| m.b[byte] ^= 1 << bit);
    change(&|m| m.data[byte] ^= 1 << bit);
    for plane in 0..width {
        change(&|m| m.counts[plane * blocks / 8 + byte] ^= 1 << bit);
    }
    // Nothing, the object itself or none, the first one, none, one past the end, and the largest number.
    for v in [0, 1 + block, 1, 2, blocks + 1, 65_535] {
        change(&|m| m.cells[4 * block + bit % 4] = v as Ref);
    }
    change(&|m| m.roots[63] = (1 + block) as Ref);
    all
}

/// Which bits of a byte are changed: on large heaps, where the model is slow, those that meet every kind.
fn bits(blocks: usize) -> Vec<usize> {
    match blocks {
        1024 | 8192 => vec![0, 2, 3, 7],
        _ => (0..8).collect(),
    }
}

fn widths(blocks: usize) -> Vec<usize> {
    match blocks {
        8192 => vec![3],
        1024 => vec![1, 4],
        _ => vec![1, 2, 3, 4],
    }
}

/// The model's answer, which all others give.
fn same_answer(blocks: usize, width: usize, memory: &mut Memory) -> Reply {
    let due = apply(blocks, width, memory, Call::Check);
    for check in CHECKS {
        assert_eq!(check(blocks, width, memory), due, "{blocks} blocks");
    }
    due
}

#[test]
fn damage_of_every_kind_in_three_bytes() {
    let mut changes = 0;
    for blocks in [8, 16, 64, 1024, 8192] {
        for width in widths(blocks) {
            let mut memory = known_bytes(blocks, width);
            assert_eq!(same_answer(blocks, width, &mut memory).number, 0);
            let mut kinds_in = |byte: usize| {
                let mut met = [false; 8];
                for bit in bits(blocks) {
                    for mut other in changed(blocks, width, &memory, byte, bit) {
                        let reply = same_answer(blocks, width, &mut other);
                        met[if reply.number == 2 { reply.value } else { 0 }] = true;
                        changes += 1;
                    }
                }
                met
            };
            for byte in three_bytes(blocks) {
                let met = kinds_in(byte);
                let unmet = [1, 2, 3, 4, 5, 7].into_iter().find(|kind| !met[*kind]);
                assert_eq!(unmet, None, "{blocks} blocks, width {width}, byte {byte}");
            }
            for byte in bytes_of_one_object(blocks) {
                kinds_in(byte);
            }
        }
    }
    say(&format!(
        "{changes} changes to single bytes of heaps, each checked as the model does"
    ));
}

/// The heap of the benchmark: two thirds used, and sound.
#[test]
fn busy_heaps_are_sound() {
    for blocks in [64, 1024, 8192] {
        let mut memory = busy(blocks, 3);
        assert_eq!(same_answer(blocks, 3, &mut memory).number, 0);
        let used = blocks - free_count(blocks, &memory);
        assert!(
            (50..80).contains(&(100 * used / blocks)),
            "{used} of {blocks}"
        );
    }
    let memory = busy(8192, 3);
    let objects = first_blocks(8192, &memory).len();
    let references = memory.cells.iter().filter(|v| **v != 0).count();
    assert!((2000..2400).contains(&objects), "{objects}");
    assert!((2900..3500).contains(&references), "{references}");
}

/// A tally stops at 255: an object that 300 cells name, with its count at capacity and below it.
#[test]
fn more_references_than_a_byte_counts() {
    for width in 1..=4 {
        let blocks = 1024;
        let mut memory = Memory::zeros(blocks, width, 1);
        let mut call = |words: [u64; 4]| {
            let answer = port::step(blocks, width, &mut lend(&mut memory), &words);
            assert_eq!(answer.number, 0);
        };
        call([0; 4]);
        call([2, 128, 0, 0]);
        for cell in 0..300 {
            call([4, 0, cell, 1]);
        }
        assert_eq!(same_answer(blocks, width, &mut memory).number, 0);
        for plane in 0..width {
            let mut other = memory.clone();
            other.counts[plane * blocks / 8] ^= 1;
            let reply = same_answer(blocks, width, &mut other);
            assert_eq!((reply.number, reply.value), (2, 5));
        }
    }
}

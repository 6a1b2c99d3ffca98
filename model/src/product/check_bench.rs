//! Times of the check and of the collection with its check: the library, the port, the port as it was by blocks, and one read of the
//! heap's memory, in one run.

use crate::product::busy::busy;
use crate::product::library::{shared, unique};
use crate::product::port::{self, lend, Answer, Lent};
use crate::product::timing::{compared, in_turn};
use crate::rules::heap::{first_blocks, free_count, Memory, Ref};
use huwekapo::lent::{self, Reply};
use std::fmt::Write;
use std::hint::black_box;
use std::time::Duration;

const WIDTH: usize = 3;

/// What one call takes.
pub struct Times {
    pub library: Duration,
    pub port: Duration,
    by_blocks: Duration,
    read: Duration,
}

impl Times {
    fn new(of_all: [Duration; 4], rounds: u32) -> Times {
        let [library, port, by_blocks, read] = of_all.map(|time| time / rounds);
        Times {
            library,
            port,
            by_blocks,
            read,
        }
    }

    /// The library's time over the port's.
    pub fn ratio(&self) -> String {
        compared(["library", "plain Rust"], [self.library, self.port])
    }

    /// All of them under a name.
    fn lines(&self, name: &str) -> String {
        let before = compared(["plain Rust", "by blocks"], [self.port, self.by_blocks]);
        let reads = |time: Duration| time.as_secs_f64() / self.read.as_secs_f64();
        format!(
            "  {name}: {}\n  {name}: {before}\n  {name}, in reads of the memory of {:.3?}: library {:.1}, plain Rust {:.1}, by blocks {:.1}\n",
            self.ratio(),
            self.read,
            reads(self.library),
            reads(self.port),
            reads(self.by_blocks),
        )
    }
}

/// So many calls in a turn that small heaps take as long as large ones.
fn rounds(blocks: usize) -> u32 {
    (50 * 8192 / blocks).max(10) as u32
}

fn numbers(reply: Reply) -> Answer {
    Answer {
        number: reply.number,
        value: reply.value,
        second: reply.second,
    }
}

/// One read of a heap's memory: the or of all its bytes.
fn read(memory: &Memory) -> Ref {
    let maps = [
        &memory.a,
        &memory.b,
        &memory.counts,
        &memory.data,
        &memory.marks,
    ];
    let lists = [
        &memory.cells,
        &memory.roots,
        &memory.waiting,
        &memory.sections,
        &memory.list,
    ];
    let of_map = |map: &Vec<u8>| map.iter().fold(0, |any, byte| any | byte);
    let of_list = |list: &Vec<Ref>| list.iter().fold(0, |any, number| any | number);
    let bytes = maps.map(of_map).iter().fold(0, |any, byte| any | byte);
    lists
        .map(of_list)
        .iter()
        .fold(bytes as Ref, |any, v| any | v)
}

/// One check of a sound heap.
pub fn check_times(blocks: usize, memory: &Memory) -> Times {
    let rounds = rounds(blocks);
    let mut other = memory.clone();
    let other = lend(&mut other);
    let sound = Answer {
        number: 0,
        value: 0,
        second: 0,
    };
    let by_port = |check: fn(usize, usize, &Lent) -> Answer| {
        for _ in 0..rounds {
            assert_eq!(check(blocks, WIDTH, black_box(&other)), sound);
        }
    };
    let times = in_turn([
        &mut || {
            for _ in 0..rounds {
                let reply = lent::check(shared(blocks, WIDTH, black_box(memory)));
                assert_eq!(numbers(reply), sound);
            }
        },
        &mut || by_port(port::check),
        &mut || by_port(port::check_by_blocks),
        &mut || {
            for _ in 0..rounds {
                black_box(read(black_box(memory)));
            }
        },
    ]);
    Times::new(times, rounds)
}

/// One collection, with the check that the public call makes before it. What it frees and the buffers must be equal.
pub fn collect_times(blocks: usize, memory: &Memory) -> Times {
    let rounds = rounds(blocks);
    let mut memories = [0, 1, 2].map(|_| memory.clone());
    let mut freed = [0; 3];
    let [first, second, third] = &mut memories;
    let [by_library, by_port, by_blocks] = &mut freed;
    let times = in_turn([
        &mut || {
            for _ in 0..rounds {
                let reply = lent::collect(unique(blocks, WIDTH, black_box(first)));
                assert_eq!(reply.number, 0);
                *by_library += reply.value;
            }
        },
        &mut || {
            for _ in 0..rounds {
                let mut m = lend(black_box(second));
                assert_eq!(port::check(blocks, WIDTH, &m).number, 0);
                m.waiting.fill(0);
                *by_port += port::full_collection(blocks, WIDTH, &mut m);
            }
        },
        &mut || {
            for _ in 0..rounds {
                let mut m = lend(black_box(third));
                assert_eq!(port::check_by_blocks(blocks, WIDTH, &m).number, 0);
                m.waiting.fill(0);
                *by_blocks += port::collection_by_blocks(blocks, WIDTH, &mut m);
            }
        },
        &mut || {
            for _ in 0..rounds {
                black_box(read(black_box(memory)));
            }
        },
    ]);
    assert!(memories.iter().all(|other| *other == memories[0]));
    assert!(freed.iter().all(|other| *other == freed[0]));
    Times::new(times, rounds)
}

/// A fresh heap and a busy one, of three sizes.
pub fn by_bytes(out: &mut String) {
    for blocks in [64, 1024, 8192] {
        let mut fresh = Memory::zeros(blocks, WIDTH, 64);
        port::step(blocks, WIDTH, &mut lend(&mut fresh), &[0; 4]);
        for (name, memory) in [("fresh", fresh), ("busy", busy(blocks, WIDTH))] {
            let used = blocks - free_count(blocks, &memory);
            let objects = first_blocks(blocks, &memory).len();
            let references = memory.cells.iter().filter(|v| **v != 0).count();
            writeln!(
                out,
                "{name} heap, N = {blocks}: {used} blocks used, {objects} objects, {references} references in cells"
            )
            .unwrap();
            out.push_str(&check_times(blocks, &memory).lines("check"));
            out.push_str(&collect_times(blocks, &memory).lines("collect with check"));
        }
    }
}

//! What single calls of the library take, by the number of blocks, each with the check that every public call makes. The figures are for
//! two builds of the library beside each other, before and after a change: README.md says how. So nothing here is newer than request U13.

use crate::history::record::bytes;
use crate::history::record::short::{allocate, clear, copy, read, write};
use crate::product::busy::busy;
use crate::product::library::{shared, unique};
use crate::rules::heap::{first_blocks, Memory};
use huwekapo::lent;
use huwekapo::SoFar;
use std::fmt::Write;
use std::hint::black_box;
use std::time::Instant;

const WIDTH: usize = 3;

/// A heap with much in it, and room for what its calls write.
struct Heap {
    blocks: usize,
    memory: Memory,
    /// The first blocks of the first and of the last object.
    first: usize,
    last: usize,
    text: Vec<u8>,
    numbers: Vec<u32>,
}

/// The roots that the calls use, behind those of the heap.
const KEPT: usize = 36;
const STORED: usize = 62;
const BORN: usize = 63;
const DATA: usize = 61;

impl Heap {
    fn new(blocks: usize, with_data: bool) -> Heap {
        let memory = busy(blocks, WIDTH);
        let objects = first_blocks(blocks, &memory);
        let mut heap = Heap {
            blocks,
            first: objects[0],
            last: objects[objects.len() - 1],
            memory,
            text: vec![0; 12 * blocks + 100],
            numbers: vec![0; 6 * blocks + 100],
        };
        for (n, r) in [(1, KEPT), (1, BORN)] {
            let heap = unique(heap.blocks, WIDTH, &mut heap.memory);
            assert_eq!(lent::allocate(heap, n, r).number, 0);
        }
        if with_data {
            let lent = unique(heap.blocks, WIDTH, &mut heap.memory);
            assert_eq!(lent::allocate_data(lent, 1, DATA).number, 0);
        }
        heap
    }

    fn number(&mut self, call: impl Fn(lent::Unique) -> lent::Reply) {
        let reply = call(unique(self.blocks, WIDTH, black_box(&mut self.memory)));
        assert_eq!(reply.number, 0);
    }

    fn read(&self, call: impl Fn(lent::Shared) -> lent::Reply) {
        let reply = call(shared(self.blocks, WIDTH, black_box(&self.memory)));
        assert_eq!(reply.number, 0);
    }

    /// The block of the data in root 61.
    fn data(&self) -> usize {
        self.memory.roots[DATA] as usize - 1
    }
}

/// A call by name, or two that undo each other.
type Work = (&'static str, fn(&mut Heap));

const CHECK: Work = ("check", |heap| heap.read(lent::check));
const COLLECT: Work = ("collect", |heap| heap.number(lent::collect));
const REASON: Work = ("reason", |heap| {
    let lent = shared(heap.blocks, WIDTH, black_box(&heap.memory));
    assert_eq!(lent::reason(lent, heap.last, &mut heap.text).number, 0);
});
const SHAPE: Work = ("shape", |heap| {
    let lent = shared(heap.blocks, WIDTH, black_box(&heap.memory));
    assert_eq!(lent::shape(lent, &mut heap.numbers).number, 0);
});

/// On a heap without data, where the check goes by bytes.
const WORKS: [Work; 13] = [
    CHECK,
    ("free blocks", |heap| heap.read(lent::free_blocks)),
    ("look", |heap| {
        let a = heap.last;
        heap.read(|lent| lent::look(lent, a));
    }),
    ("store in a root, twice", |heap| {
        let v = 1 + heap.last;
        heap.number(|lent| lent::store_root(lent, STORED, v));
        heap.number(|lent| lent::store_root(lent, STORED, 0));
    }),
    ("store in a cell, twice", |heap| {
        let (a, v) = (heap.memory.roots[KEPT] as usize - 1, 1 + heap.first);
        heap.number(|lent| lent::store_cell(lent, a, 3, v));
        heap.number(|lent| lent::store_cell(lent, a, 3, 0));
    }),
    ("allocate one block over another", |heap| {
        heap.number(|lent| lent::allocate(lent, 1, BORN));
    }),
    ("return of no root", |heap| {
        heap.number(|lent| lent::return_roots(lent, 0));
    }),
    COLLECT,
    ("open, and all steps", |heap| {
        let blocks = heap.blocks;
        heap.number(lent::open_collection);
        heap.number(|lent| lent::step_collection(lent, blocks));
    }),
    ("open, one step, and the rest", |heap| {
        let blocks = heap.blocks;
        heap.number(lent::open_collection);
        heap.number(|lent| lent::step_collection(lent, 1));
        heap.number(|lent| lent::step_collection(lent, blocks));
    }),
    ("run of no record", |heap| {
        heap.number(|lent| lent::run_records(lent, SoFar::default(), &[]).reply);
    }),
    REASON,
    SHAPE,
];

/// On a heap with data.
const WORKS_WITH_DATA: [Work; 6] = [
    CHECK,
    ("write a number", |heap| {
        let a = heap.data();
        heap.number(|lent| lent::write_number(lent, a, 1, 7));
    }),
    ("read a number", |heap| {
        let a = heap.data();
        heap.read(|lent| lent::read_number(lent, a, 1));
    }),
    COLLECT,
    REASON,
    SHAPE,
];

/// The least time of a call in nanoseconds, of many turns of some milliseconds: other work on the machine can only add to one.
fn least(heap: &mut Heap, work: fn(&mut Heap)) -> f64 {
    let mut turn = |rounds: u32| {
        let start = Instant::now();
        for _ in 0..rounds {
            work(heap);
        }
        start.elapsed().as_secs_f64() * 1e9 / f64::from(rounds)
    };
    let first = turn(3);
    let rounds = (2e6 / first).clamp(1.0, 1e5) as u32;
    (0..20).map(|_| turn(rounds)).fold(first, f64::min)
}

/// Each call on busy heaps of three sizes.
pub fn single_calls(out: &mut String) {
    table(out, false, &WORKS);
    table(out, true, &WORKS_WITH_DATA);
}

fn table(out: &mut String, with_data: bool, works: &[Work]) {
    let sizes = [64, 512, 8192];
    let data = if with_data { " with data" } else { "" };
    writeln!(
        out,
        "nanoseconds a call on a busy heap{data}, N = {sizes:?}:"
    )
    .unwrap();
    let mut heaps = sizes.map(|blocks| Heap::new(blocks, with_data));
    for (name, work) in works {
        let times = heaps.each_mut().map(|heap| least(heap, *work));
        let words = times.map(|time| format!("{time:>11.1}"));
        writeln!(out, "  {name:<32} {}", words.join(" ")).unwrap();
    }
}

/// Records of a run that each do little: births and what they free, copies, writes, reads, clears.
fn light_records(count: usize) -> Vec<u8> {
    let five = |k: usize| {
        let d = 40 + k as u8 % 16;
        let n = 1 + k % 4;
        let kept = KEPT as u8;
        [
            allocate(n as _, d),
            copy(d, 39),
            write(kept, 0, d),
            read(0, d, 38),
            clear(d),
        ]
    };
    let records: Vec<_> = (0..count / 5).flat_map(five).collect();
    bytes(&records)
}

/// A record of a run, without the check of the run, in nanoseconds.
pub fn light_record(blocks: usize, memory: &Memory) -> f64 {
    const RECORDS: usize = 5000;
    let records = light_records(RECORDS);
    let mut memory = memory.clone();
    let mut run = |records: &[u8]| {
        let lent = unique(blocks, WIDTH, black_box(&mut memory));
        let start = Instant::now();
        let ran = lent::run_records(lent, SoFar::default(), records);
        let time = start.elapsed().as_secs_f64() * 1e9;
        assert_eq!((ran.reply.number, ran.run.number), (0, 0));
        time
    };
    run(&records);
    let least = |times: [f64; 15]| times.into_iter().fold(f64::MAX, f64::min);
    let own = least([(); 15].map(|()| run(&[])));
    let all = least([(); 15].map(|()| run(&records)));
    (all - own) / RECORDS as f64
}

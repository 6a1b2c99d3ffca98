//! Heaps with much in them, made by the port's calls: one at random for times, since an empty heap flatters a check; and one whose
//! bytes are known, for damage in each of them.

use crate::lists::random::Random;
use crate::product::port::{self, lend, Answer};
use crate::rules::heap::{Memory, Ref};

/// A heap of 64 roots, and the port's calls on it.
struct Made {
    blocks: usize,
    width: usize,
    memory: Memory,
}

impl Made {
    fn new(blocks: usize, width: usize) -> Made {
        let memory = Memory::zeros(blocks, width, 64);
        let mut made = Made {
            blocks,
            width,
            memory,
        };
        made.call([0, 0, 0, 0]);
        made
    }

    fn call(&mut self, words: [u64; 4]) -> Answer {
        port::step(self.blocks, self.width, &mut lend(&mut self.memory), &words)
    }

    /// The first block of a new object in a root, if there is room.
    fn allocate(&mut self, n: u64, r: u64) -> Option<u64> {
        let made = self.call([2, n, r, 0]);
        (made.number == 0).then_some(made.value as u64)
    }

    /// The same where there is room.
    fn made(&mut self, n: u64, r: u64) -> u64 {
        self.allocate(n, r).expect("there is room")
    }

    fn store_root(&mut self, r: u64, v: u64) {
        assert_eq!(self.call([3, r, v, 0]).number, 0);
    }

    fn store_cell(&mut self, a: u64, j: u64, v: u64) {
        assert_eq!(self.call([4, a, j, v]).number, 0);
    }

    /// Puts an object in front of the chain of what goes.
    fn let_go_later(&mut self, a: u64) {
        self.store_cell(a, 0, self.memory.roots[GOES as usize] as u64);
        self.store_root(GOES, 1 + a);
    }
}

/// The root of what stays, that of a chain of what goes at the end, and the first of those of new objects.
const STAYS: u64 = 0;
const GOES: u64 = 1;
const NEW: u64 = 2;

/// Objects of one to four blocks, until there is no room; then one of three goes. Each that stays is named by a cell of another, and about
/// half of them name one more: two thirds of the blocks are used, and 8,192 blocks have about 2,200 objects and 3,200 references in cells.
pub fn busy(blocks: usize, width: usize) -> Memory {
    let mut random = Random::new(6);
    let mut heap = Made::new(blocks, width);
    let first = heap.made(4, STAYS);
    let mut stay = vec![(first, 4)];
    let size = |random: &mut Random| 1 + random.below(4) as u64;
    let mut n = size(&mut random);
    while let Some(made) = heap.allocate(n, NEW) {
        if random.below(3) == 0 {
            heap.let_go_later(made);
        } else {
            let (owner, cell) = some_empty_cell(&mut random, &heap.memory, &stay);
            heap.store_cell(owner, cell, 1 + made);
            stay.push((made, n));
            if random.percent(46) {
                let (other, _) = random.pick(&stay);
                heap.store_cell(made, 0, 1 + other);
            }
        }
        n = size(&mut random);
    }
    heap.store_root(NEW, 0);
    heap.store_root(GOES, 0);
    heap.memory
}

/// Every block an object of its own, each of which names the one before it in the cell of its number mod 4; root 1 names the last.
pub fn chain(blocks: usize, width: usize) -> Memory {
    let mut memory = Memory::zeros(blocks, width, 2);
    memory.a.fill(255);
    memory.counts[..blocks / 8].fill(255);
    for block in 1..blocks {
        memory.cells[4 * block + block % 4] = block as Ref;
    }
    memory.roots[1] = blocks as Ref;
    memory
}

/// A cell that is 0, of an object that stays.
fn some_empty_cell(random: &mut Random, memory: &Memory, stay: &[(u64, u64)]) -> (u64, u64) {
    loop {
        let (owner, n) = random.pick(stay);
        let cell = random.below(4 * n as usize) as u64;
        if memory.cells[(4 * owner + cell) as usize] == 0 {
            return (owner, cell);
        }
    }
}

/// Each byte of the maps has an object of two blocks, one of one, a free block and one of four; but where a byte is the third of eight an
/// object of sixteen blocks takes it and the next. Cells of the first object of a byte name the others of it, and the last one before it.
pub fn known_bytes(blocks: usize, width: usize) -> Memory {
    let mut heap = Made::new(blocks, width);
    let mut before = 0;
    let mut byte = 0;
    while byte < blocks / 8 {
        let sizes: &[u64] = match byte % 8 {
            2 => &[16],
            _ => &[2, 1, 1, 4],
        };
        let made: Vec<u64> = (NEW..).zip(sizes).map(|(r, n)| heap.made(*n, r)).collect();
        heap.store_cell(made[0], 0, before);
        before = 1 + made[0];
        heap.store_root(STAYS, before);
        if let [first, second, free, last] = made[..] {
            heap.store_cell(first, 3, 1 + second);
            heap.store_cell(first, 7, 1 + last);
            heap.store_cell(last, 15, 1 + last);
            heap.let_go_later(free);
        }
        byte += sizes.iter().sum::<u64>() as usize / 8;
    }
    for r in [GOES, NEW, NEW + 1, NEW + 2, NEW + 3] {
        heap.store_root(r, 0);
    }
    // What a count of one bit keeps.
    assert_eq!(heap.call([5, 0, 0, 0]).number, 0);
    heap.memory
}

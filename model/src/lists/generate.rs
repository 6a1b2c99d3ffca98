//! The desk at which lists are written: it carries out each entry on the model as it writes it, so that the
//! next one can be chosen to fit the heap. Most calls are chosen to be accepted; some are chosen not to be.

use crate::lists::file::{bytes, Bench, Entry, BUFFERS, COPY, LENGTH, LOAD, NEW, REASON, SHAPE};
use crate::lists::random::Random;
use crate::rules::answers::Reply;
use crate::rules::calls::{apply, Call};
use crate::rules::heap::{first_blocks, is_data, misshapen, size, Ref, MAX_BLOCKS, MAX_NUMBER};

pub struct Desk {
    pub random: Random,
    pub header: [u64; 3],
    pub entries: Vec<[u64; 4]>,
    pub bench: Bench,
    /// The heap that the list begins with, where its buffers aren't zeros. Such a list has no file.
    given: Option<Bench>,
}

impl Desk {
    /// A desk whose file begins with this header.
    pub fn new(random: Random, header: [u64; 3]) -> Desk {
        Desk {
            random,
            header,
            entries: Vec::new(),
            bench: Bench::of_any_size(header),
            given: None,
        }
    }

    /// A desk whose list begins with a given heap.
    pub fn given(random: Random, bench: Bench) -> Desk {
        let roots = bench.memory.roots.len();
        Desk {
            random,
            header: [bench.blocks, bench.width, roots].map(|number| number as u64),
            entries: Vec::new(),
            given: Some(bench.clone()),
            bench,
        }
    }

    /// The heap that the list begins with.
    pub fn start(&self) -> Bench {
        match &self.given {
            Some(bench) => bench.clone(),
            None => Bench::of_any_size(self.header),
        }
    }

    /// The file as far as it is written.
    pub fn file(&self) -> Vec<u8> {
        assert!(self.given.is_none(), "a list that begins with zeros");
        bytes(self.header, &self.entries)
    }

    /// Writes any four words, and carries them out.
    pub fn words(&mut self, words: [u64; 4]) -> Option<Reply> {
        self.entries.push(words);
        self.bench.carry_out(Entry::from_words(words), apply)
    }

    pub fn call(&mut self, call: Call) -> Reply {
        self.words(call.words()).expect("a call has a reply")
    }

    /// The reason of a block, with an output of so many bytes.
    pub fn reason(&mut self, a: usize, length: usize) -> Reply {
        let words = [REASON, a as u64, length as u64, 0];
        self.words(words).expect("a length in range")
    }

    /// The shape, with an output of so many numbers.
    pub fn shape(&mut self, length: usize) -> Reply {
        let words = [SHAPE, length as u64, 0, 0];
        self.words(words).expect("a length in range")
    }

    /// The copy into a heap of so many blocks, of this width and with so many roots.
    pub fn copy(&mut self, [blocks, width, roots]: [u64; 3]) -> Reply {
        let words = [COPY, blocks, width, roots];
        self.words(words).expect("a heap that is not too large")
    }

    pub fn load(&mut self, buffer: u64, index: usize, value: u64) {
        self.words([LOAD, buffer, index as u64, value]);
    }

    /// Anything in a place of the waiting list.
    pub fn load_rubbish(&mut self, place: usize) {
        let rubbish = self.random.word() as Ref;
        self.load(5, place, rubbish.into());
    }

    pub fn length(&mut self, buffer: u64, length: usize) {
        self.words([LENGTH, buffer, length as u64, 0]);
    }

    pub fn new_heap(&mut self, shape: [u64; 3]) {
        self.words([NEW, shape[0], shape[1], shape[2]]);
    }

    /// Lends only the beginning of each long buffer: the new heap after it prints so much and no more.
    pub fn lend_little(&mut self) {
        const LITTLE: usize = 300;
        for buffer in 0..BUFFERS as u64 {
            if self.bench.length(buffer) > LITTLE {
                self.length(buffer, LITTLE);
            }
        }
    }

    /// Objects of half of the heap, of a quarter, and so on to the last block, one after another into root 0, each kept by its cell 3.
    pub fn halves(&mut self) {
        let mut n = self.blocks() / 2;
        while n > 0 {
            self.kept_by_itself(n);
            n /= 2;
        }
        self.kept_by_itself(1);
    }

    fn kept_by_itself(&mut self, n: usize) {
        let a = self.call(Call::Allocate { n, r: 0 }).value;
        self.call(Call::StoreCell { a, j: 3, v: 1 + a });
    }

    pub fn blocks(&self) -> usize {
        self.bench.blocks
    }

    pub fn roots(&self) -> usize {
        self.bench.memory.roots.len()
    }

    /// The first blocks of the present objects (none where the heap is misshapen).
    pub fn objects(&self) -> Vec<usize> {
        let bench = &self.bench;
        if misshapen(bench.blocks, bench.width, &bench.memory) {
            return Vec::new();
        }
        first_blocks(bench.blocks, &bench.memory)
    }

    /// A present object's first block, or 0 where there is none.
    pub fn some_object(&mut self) -> usize {
        let objects = self.objects();
        if objects.is_empty() {
            return 0;
        }
        self.random.pick(&objects)
    }

    /// A present object's first block, mostly one that is data, or mostly one that isn't; 0 where there is none.
    pub fn some_object_as(&mut self, as_data: bool) -> usize {
        let mut objects = self.objects();
        if self.random.percent(88) {
            objects.retain(|first| is_data(&self.bench.memory, *first) == as_data);
        }
        if objects.is_empty() {
            return self.some_object();
        }
        self.random.pick(&objects)
    }

    /// The number of cells of the object at a block (4 where there is none).
    pub fn cells_of(&self, a: usize) -> usize {
        if self.objects().contains(&a) {
            4 * size(self.bench.blocks, &self.bench.memory, a)
        } else {
            4
        }
    }

    /// A root, seldom one out of range.
    pub fn some_root(&mut self) -> usize {
        let roots = self.roots();
        if roots == 0 || self.random.percent(4) {
            return roots + self.random.below(3);
        }
        self.random.below(roots)
    }

    /// A value that no cell can hold, and that names an object once it is cut down to the bits of a cell.
    pub fn some_wide_value(&mut self) -> usize {
        let above = self.random.pick(&[1 << 32, 1 << 33, 1 << 48, 1 << 63]);
        above + 1 + self.some_object()
    }

    /// Any number that a cell holds: many of 16 bits, and many that name an object once they are cut down to these.
    pub fn some_cell_number(&mut self) -> usize {
        match self.random.below(3) {
            0 => self.random.below(1 << 16),
            1 => (self.random.below(1 << 16) << 16) + 1 + self.some_object(),
            _ => self.random.word() as Ref as usize,
        }
    }

    /// A value to store: mostly an object's name or 0, seldom one that names nothing.
    pub fn some_value(&mut self, percent_zero: usize) -> usize {
        if self.random.percent(4) {
            return self.random.below(self.bench.blocks + 4);
        }
        if self.random.percent(2) {
            return match self.random.below(2) {
                0 => self.some_cell_number(),
                _ => self.some_wide_value(),
            };
        }
        if self.random.percent(percent_zero) || self.objects().is_empty() {
            return 0;
        }
        1 + self.some_object()
    }

    /// A size: mostly small, seldom large, seldom refused.
    pub fn some_size(&mut self) -> usize {
        let blocks = self.blocks();
        match self.random.below(100) {
            0..=1 => 0,
            2..=3 => blocks + 1 + self.random.below(3),
            4..=8 => 1 + self.random.below(blocks.max(1)),
            9..=24 => 1 + self.random.below((blocks / 2).max(1)),
            25..=49 => 1 + self.random.below((blocks / 4).max(1)),
            _ => 1 + self.random.below(3),
        }
    }

    /// An allocation, of data in about one of five cases.
    pub fn allocation(&mut self, n: usize, r: usize) -> Call {
        if self.random.percent(20) {
            return Call::AllocateData { n, r };
        }
        Call::Allocate { n, r }
    }

    pub fn some_allocation(&mut self) -> Call {
        let (n, r) = (self.some_size(), self.some_root());
        self.allocation(n, r)
    }

    /// A number to write into data (U6): one that names an object, or no object, or that is no name at all.
    pub fn some_number(&mut self) -> Ref {
        let blocks = self.blocks();
        let number = match self.random.below(10) {
            0..=3 => 1 + self.some_object(),
            // Free, or the second block of an object, most of the time.
            4..=5 => 1 + self.random.below(blocks.max(1)),
            6 => blocks + 1 + self.random.below(4),
            7 => return MAX_NUMBER,
            8 => 0,
            _ => self.some_cell_number(),
        };
        number as Ref
    }

    /// An object, mostly data or mostly not, and one of its cells; seldom there is no such object or cell.
    fn some_place(&mut self, as_data: bool) -> (usize, usize) {
        let a = if self.random.percent(4) {
            self.random.below(self.bench.blocks + 3)
        } else {
            self.some_object_as(as_data)
        };
        let cells = self.cells_of(a);
        let j = if self.random.percent(4) {
            cells + self.random.below(3)
        } else {
            self.random.below(cells)
        };
        (a, j)
    }

    /// A number write, seldom of the number that is there.
    pub fn some_number_write(&mut self) -> Call {
        let (a, j) = self.some_place(true);
        let present = self.bench.memory.cells.get(4 * a + j).copied();
        let v = match present {
            Some(v) if self.random.percent(8) => v,
            _ => self.some_number(),
        };
        Call::WriteNumber { a, j, v }
    }

    pub fn some_number_read(&mut self) -> Call {
        let (a, j) = self.some_place(true);
        Call::ReadNumber { a, j }
    }

    /// Up to three number writes, where there is data; seldom with rubbish in the waiting list, which they keep.
    pub fn some_numbers(&mut self) {
        let objects = self.objects();
        if objects
            .iter()
            .any(|first| is_data(&self.bench.memory, *first))
        {
            for _ in 0..self.random.below(4) {
                if self.random.percent(15) {
                    let place = self.random.below(self.blocks());
                    self.load_rubbish(place);
                }
                let call = self.some_number_write();
                self.call(call);
            }
        }
    }

    /// A value to store where this one is present: seldom the same again.
    fn some_value_over(&mut self, present: Option<Ref>, percent_zero: usize) -> usize {
        match present {
            Some(v) if self.random.percent(8) => v as usize,
            _ => self.some_value(percent_zero),
        }
    }

    pub fn some_root_store(&mut self, percent_zero: usize) -> Call {
        let r = self.some_root();
        let present = self.bench.memory.roots.get(r).copied();
        let v = self.some_value_over(present, percent_zero);
        Call::StoreRoot { r, v }
    }

    pub fn some_cell_store(&mut self, percent_zero: usize) -> Call {
        let (a, j) = self.some_place(false);
        let present = self.bench.memory.cells.get(4 * a + j).copied();
        let v = self.some_value_over(present, percent_zero);
        Call::StoreCell { a, j, v }
    }

    /// A set of roots: some, most or all of those that there are, seldom one out of range too.
    pub fn some_return(&mut self) -> Call {
        let roots = self.roots().min(64);
        let percent = self.random.pick(&[0, 30, 30, 70, 100]);
        let mut chosen = 0;
        for r in 0..roots {
            if self.random.percent(percent) {
                chosen |= 1 << r;
            }
        }
        if roots < 64 && self.random.percent(4) {
            chosen |= 1 << (roots + self.random.below(64 - roots));
        }
        Call::ReturnRoots { chosen }
    }

    /// Whether a collection is open.
    pub fn is_open(&self) -> bool {
        self.bench.has_one_open()
    }

    /// A budget: mostly for a step or a few, seldom none, seldom more than there can be objects.
    fn some_budget(&mut self) -> usize {
        match self.random.below(20) {
            0..=2 => 0,
            3..=12 => 1,
            13..=16 => 2 + self.random.below(2),
            17..=18 => 1 + self.random.below(self.bench.blocks + 1),
            _ => self
                .random
                .pick(&[self.bench.blocks, MAX_BLOCKS, 1 << 32, usize::MAX]),
        }
    }

    /// An opening where none is open, else steps; seldom the other, which is refused 14.
    pub fn some_collecting(&mut self) -> Call {
        let budget = self.some_budget();
        if self.is_open() != self.random.percent(6) {
            return Call::StepCollection { budget };
        }
        Call::OpenCollection
    }

    /// For lists in which a collection is open about half of the time: an opening now and then, and steps.
    pub fn some_steps(&mut self) {
        let percent = if self.is_open() { 25 } else { 20 };
        if self.random.percent(percent) {
            let call = self.some_collecting();
            self.call(call);
        }
    }

    pub fn some_look(&mut self) -> Call {
        let a = if self.random.percent(25) {
            self.random.below(self.bench.blocks + 3)
        } else {
            self.some_object()
        };
        Call::Look { a }
    }

    /// Any call, weighted so that heaps fill, tangle and empty again.
    pub fn some_call(&mut self) -> Call {
        if self.objects().is_empty() && self.random.percent(60) {
            return self.some_allocation();
        }
        // So that about half of the calls have a collection open.
        if !self.is_open() && self.random.percent(6) {
            return Call::OpenCollection;
        }
        match self.random.below(256) {
            200..=221 => self.some_number_write(),
            222..=229 => self.some_number_read(),
            230..=255 => self.some_collecting(),
            0..=59 => self.some_allocation(),
            60..=98 => self.some_root_store(55),
            99..=104 => self.some_return(),
            105..=163 => self.some_cell_store(25),
            164..=172 => Call::Collect,
            173..=186 => self.some_look(),
            187..=192 => Call::FreeBlocks,
            193..=198 => Call::Check,
            _ => Call::Format,
        }
    }

    /// A call of each kind, with arguments that would mostly be accepted.
    pub fn one_of_each(&mut self) -> [Call; 14] {
        [
            Call::Check,
            Call::Allocate {
                n: self.some_size(),
                r: self.some_root(),
            },
            self.some_root_store(50),
            self.some_cell_store(50),
            Call::Collect,
            self.some_look(),
            Call::FreeBlocks,
            self.some_return(),
            Call::AllocateData {
                n: self.some_size(),
                r: self.some_root(),
            },
            self.some_number_write(),
            self.some_number_read(),
            Call::OpenCollection,
            Call::StepCollection {
                budget: self.some_budget(),
            },
            Call::Format,
        ]
    }
}

//! Histories at random, each record chosen to fit the heap; some end with a record that doesn't.

use super::Shelf;
use crate::history::record::short::{
    allocate, clear, copy, data, read, write, write_number, COLLECT,
};
use crate::history::record::{Operation, Record};
use crate::history::run::{new_heap, run_as_report, Run, BLOCKS, ROOTS};
use crate::lists::random::Random;
use crate::rules::heap::{is_data, size, Memory, Ref, MAX_NUMBER};

/// What the records of a history are like.
#[derive(Clone, Copy)]
struct Kind {
    name: &'static str,
    /// Roots below this are used.
    roots: usize,
    /// Sizes are 1 to this.
    sizes: usize,
    /// Of a hundred records, so many clear a root.
    clears: usize,
    records: usize,
}

const KINDS: [Kind; 5] = [
    Kind {
        name: "small",
        roots: 8,
        sizes: 8,
        clears: 15,
        records: 60,
    },
    Kind {
        name: "tangled",
        roots: 4,
        sizes: 40,
        clears: 5,
        records: 400,
    },
    Kind {
        name: "full",
        roots: 64,
        sizes: 300,
        clears: 10,
        records: 800,
    },
    Kind {
        name: "huge",
        roots: 5,
        sizes: 2500,
        clears: 20,
        records: 300,
    },
    Kind {
        name: "stuck",
        roots: 40,
        sizes: 150,
        clears: 25,
        records: 1500,
    },
];

pub fn histories(shelf: &mut Shelf) {
    for kind in KINDS {
        for seed in 0..10 {
            let mut writer = Writer::new(seed, kind);
            writer.records(kind.records);
            if seed >= 5 {
                writer.wrong_record();
            }
            shelf.add(format!("random-{}-{seed}", kind.name), writer.bytes);
        }
    }
}

/// A bit of everything.
const MIXED: Kind = Kind {
    name: "mixed",
    roots: 64,
    sizes: 60,
    clears: 8,
    records: 200_000,
};

/// 200,000 records, and one that is refused behind them.
pub fn longest(shelf: &mut Shelf) {
    let mut writer = Writer::new(0, MIXED);
    writer.records(MIXED.records);
    shelf.add("random-200000-records", writer.bytes.clone());
    writer.wrong_record();
    shelf.add("random-200001-records", writer.bytes);
}

/// So many mixed records, each accepted.
pub fn mixed(seed: u64, count: usize) -> Vec<u8> {
    let mut writer = Writer::new(seed, MIXED);
    writer.records(count);
    writer.bytes
}

/// A history as it is written, with the heap that it has come to.
struct Writer {
    random: Random,
    kind: Kind,
    memory: Memory,
    run: Run,
    bytes: Vec<u8>,
}

impl Writer {
    fn new(seed: u64, kind: Kind) -> Writer {
        Writer {
            random: Random::new(seed),
            kind,
            memory: new_heap(),
            run: Run::default(),
            bytes: Vec::new(),
        }
    }

    /// Writes so many records, each accepted.
    fn records(&mut self, count: usize) {
        for _ in 0..count {
            while !self.write_if_accepted() {}
        }
    }

    fn write_if_accepted(&mut self) -> bool {
        let operation = self.some_operation();
        // Only a forced collection would remain of a record that is refused.
        let may_collect = matches!(
            operation,
            Operation::Allocate { .. } | Operation::AllocateData { .. }
        );
        let before = may_collect.then(|| self.memory.clone());
        let bytes = operation.record().bytes();
        let run = run_as_report(&mut self.memory, self.run, &bytes);
        if run.number != 0 {
            self.memory = before.expect("nothing else is refused");
            return false;
        }
        self.run = run;
        self.bytes.extend(bytes);
        true
    }

    /// One more record, which is refused.
    fn wrong_record(&mut self) {
        let owner = self.some_object(false).unwrap_or_default();
        let array = self.some_object(true).unwrap_or_default();
        let records: [Record; 12] = [
            allocate(0, 0).record(),
            allocate(1, 64).record(),
            copy(0, 200).record(),
            write(owner, MAX_NUMBER, owner).record(),
            read(65_536, owner, 0).record(),
            clear(255).record(),
            data(4097, 0).record(),
            write_number(1, 0, owner).record(),
            write(array, 0, array).record(),
            read(0, array, 0).record(),
            Record {
                unused: 1,
                ..COLLECT.record()
            },
            Record {
                operation: 77,
                ..Record::default()
            },
        ];
        let record = self.random.pick(&records);
        self.bytes.extend(record.bytes());
    }

    /// A root that holds an object that is data, or one that isn't, if one does.
    fn some_object(&mut self, as_data: bool) -> Option<u8> {
        let memory = &self.memory;
        let is_held = |r: &usize| match memory.roots[*r] as usize {
            0 => false,
            v => is_data(memory, v - 1) == as_data,
        };
        let held: Vec<usize> = (0..ROOTS).filter(is_held).collect();
        (!held.is_empty()).then(|| self.random.pick(&held) as u8)
    }

    fn any_root(&mut self) -> u8 {
        self.random.below(self.kind.roots) as u8
    }

    /// A cell of the object in a root that isn't empty; the first cells more often than the others.
    fn some_cell(&mut self, root: u8) -> Ref {
        let first = self.memory.roots[root as usize] as usize - 1;
        let cells = 4 * size(BLOCKS, &self.memory, first);
        let most = if self.random.percent(70) {
            cells.min(4)
        } else {
            cells
        };
        self.random.below(most) as Ref
    }

    /// Half of them look like references.
    fn some_number(&mut self) -> Ref {
        let any = self.random.word() as Ref;
        match self.random.below(4) {
            0 => self.memory.roots[self.random.below(ROOTS)],
            1 => any % (BLOCKS as Ref + 2),
            2 => MAX_NUMBER,
            _ => any,
        }
    }

    fn some_operation(&mut self) -> Operation {
        let (any, other) = (self.any_root(), self.any_root());
        let size = 1 + self.random.below(self.kind.sizes) as Ref;
        if self.random.percent(8) {
            return data(size, any);
        }
        if let (true, Some(array)) = (self.random.percent(12), self.some_object(true)) {
            let c = self.some_cell(array);
            return write_number(self.some_number(), c, array);
        }
        let Some(owner) = self.some_object(false) else {
            return allocate(size, any);
        };
        let c = self.some_cell(owner);
        let kind = self.random.below(1000);
        match kind {
            0..=2 => COLLECT,
            3..=299 => allocate(size, any),
            _ if kind < 300 + 10 * self.kind.clears => clear(any),
            _ if kind % 7 < 2 => copy(other, any),
            _ if kind % 7 < 3 => read(c, owner, any),
            _ => write(other, c, owner),
        }
    }
}

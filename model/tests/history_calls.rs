//! A run counts as the calls it makes: on small heaps, demand 3's claims of these calls, the numbers in the documents' order,
//! the figures, and the balance of blocks.

mod common;
use common::{fresh, say};
use model::history::run::run;
use model::history::{Record, Run};
use model::lists::random::Random;
use model::lists::runs::some_record;
use model::rules::claims::{broken_claim, objects};
use model::rules::heap::{bit, capacity, count, is_allocated, is_first_block, Memory, Ref};
use model::rules::list_claims::{before_letting_go, unduly_stuck, Step};
use model::{apply, Call};

/// A small heap, the calls made on it by runs one after another, and where the present run began.
struct Heap {
    blocks: usize,
    width: usize,
    memory: Memory,
    steps: Vec<Step>,
    run: Run,
    began: usize,
    in_use_then: usize,
    most_in_use: usize,
}

impl Heap {
    fn new(blocks: usize, width: usize, roots: usize) -> Heap {
        Heap {
            blocks,
            width,
            memory: fresh(blocks, width, roots),
            steps: Vec::new(),
            run: Run::default(),
            began: 0,
            in_use_then: 0,
            most_in_use: 0,
        }
    }

    fn in_use(&self) -> usize {
        let blocks = 0..self.blocks;
        blocks.filter(|i| is_allocated(&self.memory, *i)).count()
    }

    /// Runs a record, and checks each call that it makes. The numbers that these answered.
    fn run_record(&mut self, record: Record) -> Vec<usize> {
        let (blocks, width) = (self.blocks, self.width);
        let steps = &mut self.steps;
        let made_before = steps.len();
        let mut act = |memory: &mut Memory, call| {
            let before = memory.clone();
            let reply = apply(blocks, width, memory, call);
            let after = memory.clone();
            let broken = broken_claim(blocks, width, &before, call, reply, &after);
            assert_eq!(broken, None, "{call:?}");
            steps.push(Step {
                before,
                call,
                reply,
                after,
            });
            reply
        };
        let piece = record.bytes();
        self.run = run(blocks, &mut self.memory, self.run, &piece, &mut act);
        let made = self.steps[made_before..].iter();
        made.map(|step| step.reply.number).collect()
    }

    /// "as functions of the calls as made and of the A-map after each accepted record"
    fn check_figures(&mut self) {
        if self.run.number == 0 {
            self.most_in_use = self.most_in_use.max(self.in_use());
        }
        let accepted = || {
            let made = self.steps[self.began..].iter();
            made.filter(|step| step.reply.number == 0)
        };
        let sizes: Vec<u64> = accepted()
            .filter_map(|step| match step.call {
                Call::Allocate { n, .. } | Call::AllocateData { n, .. } => Some(n as u64),
                _ => None,
            })
            .collect();
        let collections = accepted().filter(|step| step.call == Call::Collect);
        let due = [
            sizes.len() as u64,
            sizes.iter().sum(),
            sizes.iter().copied().max().unwrap_or(0),
            collections.count() as u64,
            self.most_in_use as u64,
            accepted().filter(|step| self.sticks(step)).count() as u64,
        ];
        assert_eq!(self.run.figures.in_order(), due);
    }

    /// Whether the object that the call's own reference names came to the capacity, by the counts before the call and after it:
    /// what is stuck stays so whatever the call lets go.
    fn sticks(&self, step: &Step) -> bool {
        let (blocks, width) = (self.blocks, self.width);
        let named = match step.call {
            Call::Allocate { .. } | Call::AllocateData { .. } => step.reply.value + 1,
            Call::StoreRoot { v, .. } | Call::StoreCell { v, .. } => v,
            _ => 0,
        };
        let is_stuck = |memory: &Memory| {
            let first = named - 1;
            is_first_block(blocks, memory, first)
                && count(blocks, width, memory, first) == capacity(width)
        };
        named != 0 && !is_stuck(&step.before) && is_stuck(&step.after)
    }

    /// "blocks allocated in all, less the blocks freed by every call, allocations too, are the blocks in use", from the heap
    /// that the run began on.
    fn check_balance(&self) {
        let made = self.steps[self.began..].iter();
        let freed: usize = made.map(|step| self.freed(step)).sum();
        let allocated = self.run.figures.blocks as usize;
        assert_eq!(self.in_use_then + allocated, freed + self.in_use());
    }

    /// The blocks of the objects that a call freed: "if no object of that first block and size stands after it". The value
    /// of a store or a collection is this number.
    fn freed(&self, step: &Step) -> usize {
        let before = objects(self.blocks, &step.before);
        let after = objects(self.blocks, &step.after);
        let freed = before.difference(&after).map(|object| object.1).sum();
        match step.call {
            Call::Allocate { .. } | Call::AllocateData { .. } => {}
            _ => assert_eq!(step.reply.value, freed),
        }
        freed
    }

    /// A new run, on the heap as it is.
    fn begin(&mut self) {
        self.run = Run::default();
        self.began = self.steps.len();
        self.in_use_then = self.in_use();
        self.most_in_use = 0;
    }
}

/// The numbers but 5 that the documents give for a record, in their order, each with its condition.
fn conditions(blocks: usize, memory: &Memory, record: Record) -> Vec<(usize, bool)> {
    let Record {
        operation,
        d,
        s,
        unused,
        c,
        size,
    } = record;
    let out = |root: u8| root as usize >= memory.roots.len();
    let holds = |root: u8| memory.roots.get(root as usize).map_or(0, |v| *v as usize);
    let past = |root: u8| {
        let mut objects = objects(blocks, memory).into_iter();
        let object = objects.find(|object| object.0 + 1 == holds(root));
        c as usize >= object.map_or(0, |object| 4 * object.1)
    };
    let is_data = |root: u8| holds(root) != 0 && bit(&memory.data, holds(root) - 1) == 1;
    let nine = |fields: &[Ref]| (9, unused != 0 || fields.iter().any(|field| *field != 0));
    let roots = (4, out(d) || out(s));
    match operation {
        1 => vec![
            nine(&[s.into(), c]),
            (3, size == 0 || size as usize > blocks),
            (4, out(d)),
        ],
        2 => vec![nine(&[c, size]), roots],
        3 => vec![
            nine(&[size]),
            roots,
            (6, holds(d) == 0),
            (7, past(d)),
            (12, is_data(d)),
        ],
        4 => vec![
            nine(&[size]),
            roots,
            (6, holds(s) == 0),
            (7, past(s)),
            (12, is_data(s)),
        ],
        // U6: "allocate data into d as 1 does"
        7 => vec![
            nine(&[s.into(), c]),
            (3, size == 0 || size as usize > blocks),
            (4, out(d)),
        ],
        // "write the size field's number into cell c of the data in d, an empty d giving 6"
        8 => vec![
            nine(&[s.into()]),
            (4, out(d)),
            (6, holds(d) == 0),
            (7, past(d)),
            (12, !is_data(d)),
        ],
        5 => vec![nine(&[s.into(), c, size]), (4, out(d))],
        6 => vec![nine(&[d.into(), s.into(), c, size])],
        _ => vec![(9, true)],
    }
}

#[test]
fn the_calls_as_made() {
    let (mut runs, mut records, mut helped, mut no_help) = (0, 0, 0, 0);
    let mut stopped = [0; 15];
    for seed in 0..240 {
        let mut random = Random::new(seed);
        let blocks = random.pick(&[8, 8, 16, 32]);
        let roots = 1 + random.below(6);
        let mut heap = Heap::new(blocks, 1 + seed as usize % 4, roots);
        for _ in 0..150 {
            let record = some_record(&mut random, blocks, roots);
            let mut conditions = conditions(blocks, &heap.memory, record).into_iter();
            let first = conditions.find(|(_, applies)| *applies);
            let before = heap.memory.clone();
            let made = heap.run_record(record);
            let number = heap.run.number;
            match (first, &made[..]) {
                // "the refused operation changes nothing"
                (Some((due, _)), [] | [3] | [4]) => {
                    assert_eq!(number, due, "{record:?}");
                    assert_eq!(heap.memory, before, "{record:?}");
                }
                (None, [0]) => assert_eq!(number, 0),
                // "When allocation gives 5 the run collects and tries once more."
                (None, [5, 0, 0]) => {
                    assert_eq!(number, 0);
                    helped += 1;
                }
                (None, [5, 0, 5]) => {
                    assert_eq!(number, 5);
                    no_help += 1;
                }
                _ => panic!("{record:?}: {first:?}, {made:?}"),
            }
            heap.check_figures();
            heap.check_balance();
            records += 1;
            stopped[number] += 1;
            if number != 0 {
                heap.begin();
                runs += 1;
            }
        }
        let broken = unduly_stuck(blocks, heap.width, &heap.steps, before_letting_go);
        assert_eq!(broken, None, "U2, seed {seed}");
    }
    assert!(helped > 50 && no_help > 50);
    for number in [3, 4, 5, 6, 7, 9, 12] {
        assert!(stopped[number] > 50, "{number}: {}", stopped[number]);
    }
    say(&format!(
        "{records} records in {runs} runs on small heaps; forced collections: {helped} of help, {no_help} not"
    ));
}

//! Runs of records to be made on a heap as a list of calls left it, and ways to spoil them.

use crate::history::figures::Figures;
use crate::history::record::RECORD;
use crate::history::{Operation, Record, Run};
use crate::lists::damaging::{some_damage, AIMS};
use crate::lists::file::{Bench, BUFFERS};
use crate::lists::random::Random;
use crate::lists::wrong_families::wrong_length;
use crate::rules::answers::Reply;
use crate::rules::heap::{misshapen, Memory, Ref, MAX_BLOCKS};

/// What a run is handed: a heap, where the run stands, and the bytes of a piece.
#[derive(Clone, Debug)]
pub struct Handed {
    pub bench: Bench,
    pub run: Run,
    pub bytes: Vec<u8>,
}

/// What makes a run: the model's `run_records`, or another.
pub type RunRecords = fn(usize, usize, &mut Memory, Run, &[u8]) -> (Reply, Run);

impl Handed {
    /// Makes the run by the given function.
    pub fn run(&mut self, run_records: RunRecords) -> (Reply, Run) {
        let Bench {
            blocks,
            width,
            memory,
            ..
        } = &mut self.bench;
        run_records(*blocks, *width, memory, self.run, &self.bytes)
    }
}

/// A run of these records on a heap. The same seed spoils fewer records in the same ways.
pub fn some_run(seed: u64, bench: &Bench, records: &[[u8; RECORD]]) -> Handed {
    let mut random = Random::new(seed);
    let mut handed = Handed {
        bench: bench.clone(),
        run: Run::default(),
        bytes: records.concat(),
    };
    if random.percent(30) {
        handed.run = some_stand(&mut random);
    }
    if random.percent(40) {
        spoil_heap(&mut random, &mut handed.bench);
    }
    if random.percent(10) {
        let tail = 1 + random.below(RECORD - 1);
        handed.bytes.extend(vec![6; tail]);
    }
    handed
}

/// Damage of any aim, an untrue list of sections among them; or a buffer of another length.
pub fn spoil_heap(random: &mut Random, bench: &mut Bench) {
    if misshapen(bench.blocks, bench.width, &bench.memory) {
        return;
    }
    if random.percent(20) {
        let buffer = random.below(BUFFERS) as u64;
        let length = wrong_length(random, bench.length(buffer));
        bench.set_length(buffer, length as u64);
        return;
    }
    let aim = random.below(AIMS);
    for (buffer, index, value) in some_damage(random, bench, aim) {
        bench.load(buffer, index as u64, value);
    }
}

/// A run that stands somewhere: stopped or not, as runs leave it or not.
fn some_stand(random: &mut Random) -> Run {
    let mut run = Run {
        number: random.pick(&[0, 0, 0, 5, 10]),
        records: random.pick(&[0, 1, 5, 4_294_967_294, 4_294_967_295, 4_294_967_296]),
        figures: Figures::default(),
    };
    // As many as there can be, or one more.
    let more = random.below(2) as u64;
    match random.below(6) {
        0 => run.figures.allocations = run.records + more,
        1 => run.figures.blocks = MAX_BLOCKS as u64 * run.records + more,
        2 => run.figures.became_stuck = run.records + more,
        3 => run.figures.collections = run.records + more + random.below(2) as u64,
        _ => {}
    }
    run
}

/// Some records, most of which a heap of so many blocks and roots accepts.
pub fn some_records(random: &mut Random, blocks: usize, roots: usize) -> Vec<[u8; RECORD]> {
    let count = random.below(16);
    (0..count)
        .map(|_| some_record(random, blocks, roots).bytes())
        .collect()
}

/// A record that may be refused.
pub fn some_record(random: &mut Random, blocks: usize, roots: usize) -> Record {
    let mut up_to = |usual: usize, seldom: usize| {
        let bound = if random.percent(90) { usual } else { seldom };
        random.below(bound)
    };
    let (d, s) = (up_to(roots, roots + 1) as u8, up_to(roots, roots + 1) as u8);
    // Cut down to 16 bits, many of the last ones would be right.
    let c = (up_to(4, 20) + (up_to(1, 2) << 16)) as Ref;
    let size = (up_to(4, blocks + 2) + (up_to(1, 2) << 16)) as Ref;
    let number = up_to(blocks + 3, 1 << 32) as Ref;
    let operation = match random.below(100) {
        0..=21 => Operation::Allocate { size, d },
        22..=31 => Operation::AllocateData { size, d },
        32..=47 => Operation::Copy { s, d },
        48..=67 => Operation::Write { s, c, d },
        68..=77 => Operation::WriteNumber { number, c, d },
        78..=86 => Operation::Read { c, s, d },
        87..=96 => Operation::Clear { d },
        _ => Operation::Collect,
    };
    let mut bytes = operation.record().bytes();
    if random.percent(4) {
        bytes[random.below(RECORD)] = random.below(11) as u8;
    }
    Record::from_bytes(bytes)
}

//! Runs of recorded histories: each record is planned, carried out and noted.

use super::blocks::{count_zeros, get_bit, object_size};
use super::damage::check;
use super::replay::{
    allocate, format, full_collection, put_in_cell, put_in_root, search, write_number,
};
use super::steps::is_open;
use super::{lend, refusal, Answer, Lent};
use crate::history::record::RECORD;
use crate::history::run::{BLOCKS, ROOTS, WIDTH};
use crate::rules::heap::{Memory, Ref, MAX_BLOCKS};
use std::fmt;
use std::io::{self, Read};

const MAX_RECORDS: usize = 4_294_967_295;

/// The figures of a run.
#[derive(Clone, Copy, Debug, Default, PartialEq, Eq)]
pub struct Tally {
    pub allocations: u64,
    pub blocks: u64,
    pub largest: u64,
    pub collections: u64,
    pub peak: u64,
    pub stuck: u64,
}

/// Where a run stands.
#[derive(Clone, Copy, Debug, Default, PartialEq, Eq)]
pub struct SoFar {
    pub number: usize,
    pub records: usize,
    pub tally: Tally,
}

struct Fields {
    operation: usize,
    d: usize,
    s: usize,
    unused: usize,
    c: usize,
    size: usize,
}

enum Plan {
    Stop(usize),
    Allocate { n: usize, r: usize, as_data: bool },
    StoreRoot { r: usize, v: usize },
    StoreCell { at: usize, j: usize, v: usize },
    WriteNumber { at: usize, j: usize, v: Ref },
    Collect,
}

/// What came of a record's calls.
struct Done {
    number: usize,
    allocated: usize,
    collected: bool,
    freed: usize,
    stuck: bool,
}

fn fields_at(bytes: &[u8], at: usize) -> Fields {
    let byte = |k: usize| bytes[at + k] as usize;
    let four =
        |k: usize| byte(k) + 256 * byte(k + 1) + 65_536 * byte(k + 2) + 16_777_216 * byte(k + 3);
    Fields {
        operation: byte(0),
        d: byte(1),
        s: byte(2),
        unused: byte(3),
        c: four(4),
        size: four(8),
    }
}

fn unnamed_are_zero(f: &Fields) -> bool {
    let zero = |fields: &[usize]| fields.iter().all(|field| *field == 0);
    f.unused == 0
        && match f.operation {
            1 => zero(&[f.s, f.c]),
            2 => zero(&[f.c, f.size]),
            3 | 4 => f.size == 0,
            5 => zero(&[f.s, f.c, f.size]),
            6 => zero(&[f.d, f.s, f.c, f.size]),
            7 => zero(&[f.s, f.c]),
            8 => f.s == 0,
            _ => true,
        }
}

fn plan_of(blocks: usize, m: &Lent, f: &Fields) -> Plan {
    if !unnamed_are_zero(f) {
        return Plan::Stop(9);
    }
    match f.operation {
        1 | 7 => Plan::Allocate {
            n: f.size,
            r: f.d,
            as_data: f.operation == 7,
        },
        2..=4 if m.roots.len() <= f.d || m.roots.len() <= f.s => Plan::Stop(4),
        2 => Plan::StoreRoot {
            r: f.d,
            v: m.roots[f.s] as usize,
        },
        3 => match m.roots[f.d] as usize {
            0 => Plan::Stop(6),
            owner => Plan::StoreCell {
                at: owner - 1,
                j: f.c,
                v: m.roots[f.s] as usize,
            },
        },
        4 => match m.roots[f.s] as usize {
            0 => Plan::Stop(6),
            owner if 4 * object_size(blocks, m.b, owner - 1) <= f.c => Plan::Stop(7),
            owner if get_bit(m.data, owner - 1) == 1 => Plan::Stop(12),
            owner => Plan::StoreRoot {
                r: f.d,
                v: m.cells[4 * (owner - 1) + f.c] as usize,
            },
        },
        5 if m.roots.len() <= f.d => Plan::Stop(4),
        5 => Plan::StoreRoot { r: f.d, v: 0 },
        6 => Plan::Collect,
        8 if m.roots.len() <= f.d => Plan::Stop(4),
        8 => match m.roots[f.d] as usize {
            0 => Plan::Stop(6),
            owner => Plan::WriteNumber {
                at: owner - 1,
                j: f.c,
                v: f.size as Ref,
            },
        },
        _ => Plan::Stop(9),
    }
}

fn done(number: usize, freed: usize, second: usize) -> Done {
    Done {
        number,
        allocated: 0,
        collected: false,
        freed,
        stuck: second == 1,
    }
}

fn allocate_or_collect(
    blocks: usize,
    width: usize,
    m: &mut Lent,
    n: usize,
    r: usize,
    as_data: bool,
) -> Done {
    let (mut answer, mut freed) = allocate(&search, blocks, width, m, n, r, as_data);
    let collected = answer.number == 5 && !is_open(m);
    if collected {
        let by_collection = full_collection(blocks, width, m);
        (answer, freed) = allocate(&search, blocks, width, m, n, r, as_data);
        freed += by_collection;
    }
    Done {
        number: answer.number,
        allocated: if answer.number == 0 { n } else { 0 },
        collected,
        freed,
        stuck: answer.second == 1,
    }
}

fn act(blocks: usize, width: usize, m: &mut Lent, plan: Plan) -> Done {
    match plan {
        Plan::Stop(number) => done(number, 0, 0),
        Plan::Allocate { n, r, as_data } => allocate_or_collect(blocks, width, m, n, r, as_data),
        Plan::StoreRoot { r, v } => {
            let answer = put_in_root(blocks, width, m, r, v);
            done(answer.number, answer.value, answer.second)
        }
        Plan::StoreCell { at, j, v } => {
            let answer = put_in_cell(blocks, width, m, at, j, v);
            done(answer.number, answer.value, answer.second)
        }
        Plan::WriteNumber { at, j, v } => done(write_number(blocks, m, at, j, v).number, 0, 0),
        Plan::Collect if is_open(m) => done(14, 0, 0),
        Plan::Collect => Done {
            collected: true,
            ..done(0, full_collection(blocks, width, m), 0)
        },
    }
}

fn note(run: &mut SoFar, used: &mut usize, done: &Done) {
    let tally = &mut run.tally;
    if done.collected {
        tally.collections += 1;
    }
    if done.allocated != 0 {
        let n = done.allocated as u64;
        tally.allocations += 1;
        tally.blocks += n;
        tally.largest = tally.largest.max(n);
    }
    if done.stuck {
        tally.stuck += 1;
    }
    *used = *used + done.allocated - done.freed;
    run.number = done.number;
    if done.number == 0 {
        run.records += 1;
        tally.peak = tally.peak.max(*used as u64);
    }
}

fn in_range(run: &SoFar) -> bool {
    let records = run.records as u64;
    let forced = u64::from(run.number != 0);
    run.records <= MAX_RECORDS
        && run.tally.allocations <= records
        && run.tally.blocks <= MAX_BLOCKS as u64 * records
        && run.tally.stuck <= records
        && run.tally.collections <= records + forced
}

/// Runs the records of a piece. The heap is checked once; an error is a refusal.
pub fn run_records(
    blocks: usize,
    width: usize,
    m: &mut Lent,
    mut run: SoFar,
    bytes: &[u8],
) -> Result<SoFar, Answer> {
    let checked = check(blocks, width, m);
    if checked.number != 0 {
        return Err(checked);
    }
    if !in_range(&run) {
        return Err(refusal(19));
    }
    m.waiting.fill(0);
    if run.number != 0 {
        return Ok(run);
    }
    let n = (bytes.len() / RECORD).min(MAX_RECORDS - run.records);
    let mut used = blocks - count_zeros(m.a);
    for i in 0..n {
        let fields = fields_at(bytes, RECORD * i);
        let plan = plan_of(blocks, m, &fields);
        let done = act(blocks, width, m, plan);
        note(&mut run, &mut used, &done);
        if run.number != 0 {
            return Ok(run);
        }
    }
    if bytes.len() != RECORD * n {
        run.number = 10;
    }
    Ok(run)
}

impl fmt::Display for SoFar {
    fn fmt(&self, to: &mut fmt::Formatter) -> fmt::Result {
        let Tally {
            allocations,
            blocks,
            largest,
            collections,
            peak,
            stuck,
        } = self.tally;
        match self.number {
            0 => writeln!(
                to,
                "{allocations} {blocks} {largest} {collections} {peak} {stuck}"
            ),
            number => writeln!(to, "refused {number} at record {}", self.records),
        }
    }
}

/// The bytes of a piece that the program reads at once: as many whole records as a mebibyte has.
pub const PIECE: usize = RECORD * ((1 << 20) / RECORD);

/// The program `report`: its heap, its pieces, its line.
pub fn report(mut history: impl Read) -> io::Result<String> {
    let mut memory = Memory::zeros(BLOCKS, WIDTH, ROOTS);
    let mut lent = lend(&mut memory);
    format(BLOCKS, &mut lent);
    let mut run = SoFar::default();
    let mut piece = vec![0; PIECE];
    loop {
        let mut length = 0;
        while length < PIECE {
            match history.read(&mut piece[length..])? {
                0 => break,
                read => length += read,
            }
        }
        run = run_records(BLOCKS, WIDTH, &mut lent, run, &piece[..length])
            .expect("a formatted heap stays undamaged");
        if run.number != 0 || length < PIECE {
            return Ok(run.to_string());
        }
    }
}

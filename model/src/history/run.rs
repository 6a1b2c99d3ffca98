//! The run of a history, whole or in pieces, and its line.

use super::figures::Figures;
use super::record::{Record, RECORD};
use super::request::request;
use crate::rules::answers::{accepted, refused, refused_first, Reply};
use crate::rules::calls::{apply, apply_undamaged, Call};
use crate::rules::heap::{free_count, Memory, MAX_BLOCKS};
use crate::texts::expect::numbers;

/// The program's heap: "a new heap of .. blocks, w = 3, 64 roots." Document 02, U12: "The report program's heap becomes 4,096 blocks."
pub const BLOCKS: usize = 4096;
pub const WIDTH: usize = 3;
pub const ROOTS: usize = 64;

/// "10 for a file ending inside a record, or going on past 4,294,967,295 records"
pub const MOST_RECORDS: u64 = 4_294_967_295;

/// A run so far.
#[derive(Clone, Copy, Debug, Default, PartialEq, Eq)]
pub struct Run {
    /// The number that stopped it, or 0.
    pub number: usize,
    /// The records that were run; so the number, from 0, of the one that stopped it.
    pub records: u64,
    pub figures: Figures,
}

/// What carries out a call of a run.
pub type Act<'a> = &'a mut dyn FnMut(&mut Memory, Call) -> Reply;

/// Runs a piece of a history on an undamaged heap, by calls that `act` carries out. Pieces but the last one are whole
/// records. A run that was stopped stays so.
pub fn run(blocks: usize, memory: &mut Memory, mut run: Run, piece: &[u8], act: Act) -> Run {
    for bytes in piece.chunks(RECORD) {
        if run.number != 0 {
            break;
        }
        let stopped = match <[u8; RECORD]>::try_from(bytes) {
            // "met after the whole records up to that number"
            _ if run.records == MOST_RECORDS => 10,
            Err(_) => 10,
            Ok(bytes) => {
                let record = Record::from_bytes(bytes);
                run_record(blocks, memory, &mut run.figures, record, act)
            }
        };
        match stopped {
            0 => run.records += 1,
            number => run.number = number,
        }
    }
    run
}

/// Runs one record: 0, or the number that stops the run. "the refused operation changes nothing, and what earlier records
/// did remains."
pub fn run_record(
    blocks: usize,
    memory: &mut Memory,
    figures: &mut Figures,
    record: Record,
    act: Act,
) -> usize {
    // "9 ..., before all others of that record but 10"
    let Some(operation) = record.operation() else {
        return 9;
    };
    let call = match request(blocks, memory, operation) {
        Ok(call) => call,
        Err(number) => return number,
    };
    let mut make = |memory: &mut Memory, call| {
        let reply = act(memory, call);
        figures.call(call, reply);
        reply.number
    };
    let mut number = make(memory, call);
    // "When allocation gives 5 the run collects and tries once more."
    if number == 5 {
        make(memory, Call::Collect);
        number = make(memory, call);
    }
    if number == 0 {
        figures.after_record(blocks - free_count(blocks, memory));
    }
    number
}

/// The call on any heap, with its reply and where the run stands then. Document 01 has no such call: the rules quoted here are
/// those of docs/DECISIONS.md.
///
/// Its own refusals are those of the check, with U4's 11 "next after 2", and then 19. "A refusal changes no buffer, and the
/// run it answers is all 0".
pub fn run_records(
    blocks: usize,
    width: usize,
    memory: &mut Memory,
    so_far: Run,
    piece: &[u8],
) -> (Reply, Run) {
    if let Some(reply) = refused_first(blocks, width, memory, Call::Check) {
        return (reply, Run::default());
    }
    if is_out_of_range(so_far) {
        return (refused(19), Run::default());
    }
    // "Accepted, the waiting list is left all 0, also where no record was run."
    memory.waiting.fill(0);
    let after = run(blocks, memory, so_far, piece, &mut |memory, call| {
        apply_undamaged(blocks, width, memory, call)
    });
    (accepted(0), after)
}

/// "19 is for a run out of range: more than 4,294,967,295 records, more allocations than records, more than 65,536 blocks
/// for each record, more objects that became stuck than records (U5), or more collections than records (one more where the run
/// was stopped, ...)."
fn is_out_of_range(run: Run) -> bool {
    let figures = run.figures;
    let stopped = u64::from(run.number != 0);
    run.records > MOST_RECORDS
        || figures.allocations > run.records
        || figures.blocks > MAX_BLOCKS as u64 * run.records
        || figures.became_stuck > run.records
        || figures.collections > run.records + stopped
}

impl Run {
    /// "`3 6 3 0 6` and a line end (byte 10)" (U5: "`3 6 3 0 6 0`"). "Otherwise it prints `refused 5 at record 7`, say, ended likewise, counting
    /// from 0"
    pub fn line(&self) -> String {
        match self.number {
            0 => format!("{}\n", numbers(&self.figures.in_order())),
            number => format!("refused {number} at record {}\n", self.records),
        }
    }
}

/// A new heap, as the program has it.
pub fn new_heap() -> Memory {
    let mut memory = Memory::zeros(BLOCKS, WIDTH, ROOTS);
    for call in [Call::Format, Call::Check] {
        assert_eq!(apply(BLOCKS, WIDTH, &mut memory, call).number, 0);
    }
    memory
}

/// Runs a piece on a heap as the program has it.
pub fn run_as_report(memory: &mut Memory, so_far: Run, piece: &[u8]) -> Run {
    run(BLOCKS, memory, so_far, piece, &mut |memory, call| {
        apply_undamaged(BLOCKS, WIDTH, memory, call)
    })
}

/// What the program `report` prints for a history.
pub fn report(history: &[u8]) -> String {
    run_as_report(&mut new_heap(), Run::default(), history).line()
}

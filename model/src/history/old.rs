//! Records as they were before request U12, and their widening. No program but the one that widens reads them: here they are
//! for the sentence that "the widened one must print the line the old form gives on a heap of that size."

use super::record::{low_byte_first, Record, RECORD};
use super::run::{new_heap, run_record, Run, BLOCKS, MOST_RECORDS, WIDTH};
use crate::rules::calls::apply_undamaged;
use crate::rules::heap::Memory;

/// Document 01: "A history, as users store it, is a file of eight-byte records".
pub const OLD_RECORD: usize = 8;

/// "bytes 4 and 5 a cell number c, bytes 6 and 7 a size, low byte first."
pub fn read_old(bytes: [u8; OLD_RECORD]) -> Record {
    let [operation, d, s, unused, ..] = bytes;
    Record {
        operation,
        d,
        s,
        unused,
        c: low_byte_first(&bytes[4..6]),
        size: low_byte_first(&bytes[6..]),
    }
}

/// "A second program widens old histories record by record, a cut-off tail copied as it is". Each whole record is read and written
/// in the new form, whatever it says.
pub fn widened(history: &[u8]) -> Vec<u8> {
    let (records, tail) = history.as_chunks::<OLD_RECORD>();
    let mut wide: Vec<u8> = records
        .iter()
        .flat_map(|record| read_old(*record).bytes())
        .collect();
    wide.extend(tail);
    wide
}

/// The old history that this one is the widening of; none where there is none.
pub fn narrowed(history: &[u8]) -> Option<Vec<u8>> {
    let (records, tail) = history.as_chunks::<RECORD>();
    let mut old = Vec::new();
    for [operation, d, s, unused, c_0, c_1, c_2, c_3, size_0, size_1, size_2, size_3] in records {
        if [c_2, c_3, size_2, size_3] != [&0; 4] {
            return None;
        }
        old.extend([operation, d, s, unused, c_0, c_1, size_0, size_1]);
    }
    old.extend(tail);
    (tail.len() < OLD_RECORD).then_some(old)
}

/// Runs a history of the old form on a heap of so many blocks, by document 01 and U1: what a whole record comes to is not of its
/// form.
pub fn run_old(blocks: usize, width: usize, memory: &mut Memory, history: &[u8]) -> Run {
    let (records, tail) = history.as_chunks::<OLD_RECORD>();
    let mut run = Run::default();
    for record in records {
        run.number = match run.records {
            MOST_RECORDS => 10,
            _ => {
                let act =
                    &mut |memory: &mut Memory, call| apply_undamaged(blocks, width, memory, call);
                run_record(blocks, memory, &mut run.figures, read_old(*record), act)
            }
        };
        if run.number != 0 {
            return run;
        }
        run.records += 1;
    }
    if !tail.is_empty() {
        run.number = 10;
    }
    run
}

/// "the line the old form gives on a heap of that size": of the program `report`.
pub fn report_old(history: &[u8]) -> String {
    run_old(BLOCKS, WIDTH, &mut new_heap(), history).line()
}

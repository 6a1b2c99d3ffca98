//! What an operation comes to on a heap: a call of document 01, or a number that stops the run.

use super::record::Operation;
use crate::rules::answers::{no_such_cell, Kind};
use crate::rules::calls::Call;
use crate::rules::heap::{named, Memory, Ref};

/// "A root out of range gives 4, in operation 1 only after 3. Then an empty root gives 6 where an object is needed, which
/// is d in 3 and s in 4; elsewhere an empty root is copied or written as 0. Then comes 7, in 4 as in 3." Document 02, U6: "an
/// empty d giving 6" in 8; "12, a reference store or read on data, or a number on an ordinary object, placed after 7."
pub fn request(blocks: usize, memory: &Memory, operation: Operation) -> Result<Call, usize> {
    match operation {
        // The call itself has 3, 4 and 5, in this order.
        Operation::Allocate { size, d } => Ok(Call::Allocate {
            n: size as usize,
            r: d as usize,
        }),
        Operation::Copy { s, d } => {
            let [s, d] = roots_in_range(memory, [s, d])?;
            store_root(d, memory.roots[s])
        }
        Operation::Write { s, c, d } => {
            let [s, d] = roots_in_range(memory, [s, d])?;
            let a = object_in(blocks, memory, d)?;
            let j = cell_of(blocks, memory, Kind::Ordinary, a, c)?;
            let v = memory.roots[s] as usize;
            Ok(Call::StoreCell { a, j, v })
        }
        Operation::Read { c, s, d } => {
            let [s, d] = roots_in_range(memory, [s, d])?;
            let a = object_in(blocks, memory, s)?;
            let j = cell_of(blocks, memory, Kind::Ordinary, a, c)?;
            store_root(d, memory.cells[4 * a + j])
        }
        Operation::Clear { d } => {
            let [d] = roots_in_range(memory, [d])?;
            store_root(d, 0)
        }
        Operation::Collect => Ok(Call::Collect),
        // "allocate data into d as 1 does"
        Operation::AllocateData { size, d } => Ok(Call::AllocateData {
            n: size as usize,
            r: d as usize,
        }),
        Operation::WriteNumber { number, c, d } => {
            let [d] = roots_in_range(memory, [d])?;
            let a = object_in(blocks, memory, d)?;
            let j = cell_of(blocks, memory, Kind::Data, a, c)?;
            Ok(Call::WriteNumber { a, j, v: number })
        }
    }
}

fn store_root(r: usize, v: Ref) -> Result<Call, usize> {
    let v = v as usize;
    Ok(Call::StoreRoot { r, v })
}

/// "A root out of range gives 4"
fn roots_in_range<const COUNT: usize>(
    memory: &Memory,
    roots: [u8; COUNT],
) -> Result<[usize; COUNT], usize> {
    let roots = roots.map(usize::from);
    if roots.iter().any(|root| *root >= memory.roots.len()) {
        return Err(4);
    }
    Ok(roots)
}

/// "Then an empty root gives 6 where an object is needed": the first block of the object in a root.
fn object_in(blocks: usize, memory: &Memory, root: usize) -> Result<usize, usize> {
    named(blocks, memory, memory.roots[root]).ok_or(6)
}

/// "Then comes 7", and 12 behind it, as in the calls: the number of the cell.
fn cell_of(blocks: usize, memory: &Memory, kind: Kind, a: usize, c: Ref) -> Result<usize, usize> {
    let j = c as usize;
    match no_such_cell(blocks, memory, kind, a, j) {
        Some(number) => Err(number),
        None => Ok(j),
    }
}

//! The program `report` once more, by way of this crate: runs the history on standard input and prints its line. Blocks,
//! width and roots may be given; without them they are the program's. Its status is 3 where the run stopped.

use huwekapo::{Heap, Run};
use std::error::Error;
use std::process::ExitCode;

fn main() -> Result<ExitCode, Box<dyn Error>> {
    let mut numbers = Vec::new();
    for argument in std::env::args().skip(1) {
        numbers.push(argument.parse()?);
    }
    let heap = match numbers[..] {
        [] => Heap::of_report(),
        [blocks, width, roots] => Heap::new(blocks, width, roots)?,
        _ => return Err("usage: report [BLOCKS WIDTH ROOTS] < HISTORY".into()),
    };
    let mut run = Run::new(heap);
    let so_far = run.read(std::io::stdin().lock())?;
    println!("{so_far}");
    Ok(ExitCode::from(if so_far.number == 0 { 0 } else { 3 }))
}

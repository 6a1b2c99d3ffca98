//! Times of a copy into a second heap of the same size (U14), against the check and the collection of the first.

use crate::product::busy::busy;
use crate::product::library::{shared, unique};
use crate::product::timing::in_turn;
use crate::rules::heap::Memory;
use huwekapo::lent;
use std::fmt::Write;
use std::hint::black_box;

const WIDTH: usize = 3;

/// The copy of a busy heap, with its check, over what the check alone and a collection with its check take.
pub fn copies(out: &mut String) {
    writeln!(
        out,
        "a copy of a busy heap into one of the same size, by the library:"
    )
    .unwrap();
    for blocks in [64, 1024, 8192, 65_536] {
        let memory = busy(blocks, WIDTH);
        let mut collected = memory.clone();
        let mut second = Memory::zeros(blocks, WIDTH, memory.roots.len());
        let rounds = (25 * 8192 / blocks).max(5);
        let [copy, check, collect] = in_turn([
            &mut || {
                for _ in 0..rounds {
                    let first = shared(blocks, WIDTH, black_box(&memory));
                    let reply = lent::copy(first, unique(blocks, WIDTH, &mut second));
                    assert_eq!(reply.number, 0);
                }
            },
            &mut || {
                for _ in 0..rounds {
                    let reply = lent::check(shared(blocks, WIDTH, black_box(&memory)));
                    assert_eq!(reply.number, 0);
                }
            },
            &mut || {
                for _ in 0..rounds {
                    let reply = lent::collect(unique(blocks, WIDTH, black_box(&mut collected)));
                    assert_eq!(reply.number, 0);
                }
            },
        ])
        .map(|time| time.as_secs_f64() / rounds as f64);
        writeln!(
            out,
            "  {blocks:>6} blocks: copy {:.1} µs, of the check {:.2}, of the collection with its check {:.2}",
            1e6 * copy,
            copy / check,
            copy / collect
        )
        .unwrap();
    }
}

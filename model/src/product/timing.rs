//! Times of two ways to do the same, taken by turns.

use std::time::{Duration, Instant};

/// The least of seven times of each of two, taken by turns after one turn that warms up: other work on the machine
/// can only add to a time.
pub fn by_turns(mut one: impl FnMut(), mut other: impl FnMut()) -> [Duration; 2] {
    in_turn([&mut one, &mut other])
}

/// The same of any number of ways.
pub fn in_turn<const WAYS: usize>(mut ways: [&mut dyn FnMut(); WAYS]) -> [Duration; WAYS] {
    let mut least = [Duration::MAX; WAYS];
    for turn in 0..8 {
        for (way, least) in ways.iter_mut().zip(&mut least) {
            let start = Instant::now();
            way();
            let time = start.elapsed();
            if turn > 0 {
                *least = time.min(*least);
            }
        }
    }
    least
}

/// Both times by name, and the first over the second.
pub fn compared(names: [&str; 2], times: [Duration; 2]) -> String {
    let ratio = times[0].as_secs_f64() / times[1].as_secs_f64();
    format!(
        "{} {:>12.3?}   {} {:>12.3?}   ratio {ratio:.3}",
        names[0], times[0], names[1], times[1]
    )
}

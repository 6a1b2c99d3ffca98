//! Histories of the old form (document 01) for the program that widens them: those of `report` that have one, tails of every length,
//! every operation, known or not, files of anything, and lengths about the pieces that a program reads at once.

use super::{all_but_the_longest, History, Shelf};
use crate::history::old::{narrowed, OLD_RECORD};
use crate::lists::random::Random;

/// All of them, always the same.
pub fn old_histories() -> Vec<History> {
    let mut shelf = Shelf::default();
    for History { name, bytes } in all_but_the_longest() {
        if let Some(old) = narrowed(&bytes) {
            shelf.add(format!("old-{name}"), old);
        }
    }
    tails(&mut shelf);
    operations(&mut shelf);
    sizes(&mut shelf);
    anything(&mut shelf);
    lengths(&mut shelf);
    shelf.histories
}

/// "a cut-off tail copied as it is": behind none, one and some records, of any bytes.
fn tails(shelf: &mut Shelf) {
    let mut random = Random::new(12);
    for whole in [0, 1, 2, 9] {
        for tail in 0..OLD_RECORD {
            let bytes = any(&mut random, OLD_RECORD * whole + tail);
            shelf.add(format!("old-any-{whole}-and-{tail}"), bytes);
        }
    }
}

/// Operation bytes are not looked at.
fn operations(shelf: &mut Shelf) {
    for operation in 0..=255 {
        let record = [operation, 1, 2, 3, 4, 5, 6, 7];
        let two = [&[1, 0, 0, 0, 0, 0, 2, 0][..], &record].concat();
        shelf.add(format!("old-operation-{operation}"), two);
    }
}

/// What the old form had room for: sizes that the heap of `report` no longer has, one of them twice, and the largest numbers.
fn sizes(shelf: &mut Shelf) {
    let mut add = |name: &str, records: &[[u8; OLD_RECORD]]| {
        shelf.add(format!("old-{name}"), records.concat());
    };
    let allocate = |low, high| [1, 0, 0, 0, 0, 0, low, high];
    add("allocate-8192", &[allocate(0, 32)]);
    add("allocate-4096", &[allocate(0, 16)]);
    add("allocate-4096-twice", &[allocate(0, 16); 2]);
    add("allocate-65535", &[allocate(255, 255)]);
    let data = [7, 0, 0, 0, 0, 0, 65, 0];
    add("number-65535", &[data, [8, 0, 0, 0, 3, 1, 255, 255]]);
    add("cell-260", &[data, [8, 0, 0, 0, 4, 1, 1, 0]]);
    add("cell-65535", &[data, [8, 0, 0, 0, 255, 255, 1, 0]]);
    add("cell-1-of-operation-1", &[[1, 0, 0, 0, 1, 0, 2, 0]]);
}

/// A hundred files of any bytes.
fn anything(shelf: &mut Shelf) {
    let mut random = Random::new(100);
    for k in 0..100 {
        let length = random.below(3000);
        let bytes = any(&mut random, length);
        shelf.add(format!("old-anything-{k}"), bytes);
    }
}

/// Files about as long as pieces of 64 KiB and of 1 MiB.
fn lengths(shelf: &mut Shelf) {
    let mut random = Random::new(64);
    for piece in [1 << 16, 1 << 20] {
        for length in [
            piece - 8,
            piece - 1,
            piece,
            piece + 1,
            piece + 8,
            piece + 12,
        ] {
            shelf.add(format!("old-{length}-bytes"), any(&mut random, length));
        }
        let length = 3 * piece + 5;
        shelf.add(format!("old-{length}-bytes"), any(&mut random, length));
    }
}

fn any(random: &mut Random, length: usize) -> Vec<u8> {
    (0..length).map(|_| random.word() as u8).collect()
}

//! The families in which something is wrong: damage, lengths, arguments far out of range.

use crate::lists::damaging::{some_damage, AIMS};
use crate::lists::file::{BUFFERS, MOST_BLOCKS};
use crate::lists::generate::Desk;
use crate::lists::random::Random;
use crate::rules::calls::Call;
use crate::rules::heap::MAX_NUMBER;

/// Used heaps that are damaged by loads, in each kind, or whose list of sections is made untrue, or whose marks are made wrong;
/// called, and mended again.
pub fn damage(desk: &mut Desk, count: usize) {
    let end = desk.entries.len() + count;
    desk.call(Call::Format);
    let mut aim = desk.random.below(AIMS);
    while desk.entries.len() < end {
        for _ in 0..6 {
            let call = desk.some_call();
            if call != Call::Collect || desk.random.percent(30) {
                desk.call(call);
            }
        }
        damage_and_mend(desk, aim);
        aim = (aim + 1) % AIMS;
    }
}

/// Damage of an aim, some calls, and the numbers before.
pub fn damage_and_mend(desk: &mut Desk, aim: usize) {
    let loads = some_damage(&mut desk.random, &desk.bench, aim);
    let undo: Vec<(u64, usize, u64)> = loads
        .iter()
        .map(|(buffer, index, _)| (*buffer, *index, desk.bench.number_at(*buffer, *index)))
        .collect();
    for (buffer, index, value) in loads {
        desk.load(buffer, index, value);
    }
    desk.call(Call::Check);
    for call in desk.one_of_each() {
        if call != Call::Format && desk.random.percent(40) {
            desk.call(call);
        }
    }
    // A call that was accepted after all has changed the heap: then it stays as it is.
    if desk.call(Call::Check).number != 0 {
        for (buffer, index, value) in undo.into_iter().rev() {
            desk.load(buffer, index, value);
        }
    }
    if desk.call(Call::Check).number != 0 {
        desk.call(Call::Format);
    }
}

/// Headers that no heap has.
pub const BAD_SHAPES: [[u64; 3]; 13] = [
    [0, 2, 4],
    [1, 2, 4],
    [4, 2, 4],
    [7, 1, 1],
    [12, 2, 4],
    [24, 2, 4],
    [48, 3, 4],
    [8, 0, 4],
    [8, 5, 4],
    [8, 2, 0],
    [8, 2, 65],
    [16, 1, 65],
    [0, 0, 0],
];

/// Another length for a buffer of this length, which isn't 0; seldom the same one.
pub fn wrong_length(random: &mut Random, length: usize) -> usize {
    match random.below(5) {
        0 => length - 1,
        1 => length + 1,
        2 => 0,
        3 => 2 * length,
        _ => random.below(length + 1),
    }
}

/// Buffers lent too long or too short, and headers that no heap has.
pub fn wrong_lengths(desk: &mut Desk, count: usize) {
    let end = desk.entries.len() + count;
    let good = [
        desk.blocks() as u64,
        desk.bench.width as u64,
        desk.roots() as u64,
    ];
    desk.call(Call::Format);
    while desk.entries.len() < end {
        for _ in 0..5 {
            let call = desk.some_call();
            desk.call(call);
        }
        let buffer = desk.random.below(BUFFERS) as u64;
        let length = desk.bench.length(buffer);
        let wrong = wrong_length(&mut desk.random, length);
        desk.length(buffer, wrong);
        for call in desk.one_of_each() {
            // Format would be accepted where the length is a right one after all (roots).
            if call != Call::Format || desk.random.percent(30) {
                desk.call(call);
            }
        }
        desk.length(buffer, length);
        desk.call(Call::Check);
        if desk.random.percent(20) {
            let bad = desk.random.pick(&BAD_SHAPES);
            desk.new_heap(bad);
            desk.call(Call::Format);
            for call in desk.one_of_each() {
                desk.call(call);
            }
            desk.new_heap(good);
            desk.call(Call::Format);
        }
    }
}

/// Arguments far out of range, where sums and products of them would not fit a word.
pub fn huge_arguments(desk: &mut Desk, count: usize) {
    let end = desk.entries.len() + count;
    desk.call(Call::Format);
    while desk.entries.len() < end {
        let call = desk.some_call();
        desk.call(call);
        let blocks = desk.blocks() as u64;
        let huge = [
            u64::MAX,
            u64::MAX - 1,
            u64::MAX - 3,
            u64::MAX / 2,
            u64::MAX / 2 + 1,
            u64::MAX / 4,
            u64::MAX / 4 + 1,
            u64::MAX / 8 + 1,
            1 << 32,
            (1 << 32) - 1,
            (1 << 32) + 1,
            (1 << 16) - 1,
            1 << 16,
            (1 << 16) + 1,
            MOST_BLOCKS / 2,
            2 * MOST_BLOCKS,
            4 * blocks,
            4 * blocks - 1,
            blocks + 1,
            blocks,
            blocks - 1,
        ];
        let (x, y) = (desk.random.pick(&huge), desk.random.pick(&huge));
        let r = desk.some_root() as u64;
        let a = desk.some_object() as u64;
        let v = desk.some_value(50) as u64;
        let wide = desk.some_wide_value() as u64;
        let cell_number = desk.some_cell_number() as u64;
        let bad_v = [
            blocks,
            blocks + 1,
            cell_number,
            cell_number,
            x,
            x,
            wide,
            wide,
            wide,
        ];
        let bad_v = desk.random.pick(&bad_v);
        let data = desk.some_object_as(true) as u64;
        let number = desk.some_number() as u64;
        let words = match desk.random.below(24) {
            0 => [2, x, r, 0],
            1 => [2, 1, x, 0],
            2 => [2, x, y, 0],
            3 => [3, x, v, 0],
            4 => [3, r, bad_v, 0],
            5 => [3, x, bad_v, 0],
            6 => [4, x, 0, v],
            7 => [4, a, x, v],
            8 => [4, a, 0, bad_v],
            9 => [4, x, y, bad_v],
            10 => [4, a, x, bad_v],
            11 => [8, x, y, 0],
            12 => [8, 1 << desk.random.below(64), 0, 0],
            13 => [6, x, 0, 0],
            14 => [9, x, r, 0],
            15 => [9, 1, x, 0],
            16 => [10, x, y, number],
            17 => [10, data, x, number],
            // A number that no cell can hold is no call.
            18 => [10, data, 0, wide],
            19 => [10, data, 0, MAX_NUMBER.into()],
            20 => [11, x, y, wide],
            21 => [12, x, y, 0],
            22 => [13, x, y, 0],
            _ => [11, data, x, 0],
        };
        desk.words(words);
    }
}

//! Lists, damaged memories, single calls and garbage as plain text. README.md states the four forms.

use crate::history::garbage;
use crate::lists::damaging::{some_damage, AIMS};
use crate::lists::file::Bench;
use crate::lists::generate::Desk;
use crate::lists::random::Random;
use crate::rules::calls::Call;
use crate::rules::damage::damage;
use crate::rules::heap::{Memory, Ref};
use crate::texts::expect::buffer_lines;
use std::fmt::Write;

/// A random list, one call a line, with its reply and the ten buffers after it.
pub fn trace(seed: u64, count: usize, blocks: usize, width: usize) -> String {
    // Another list for each N and w, not the same one again.
    let mut random = Random::new(seed + ((blocks as u64) << 32) + ((width as u64) << 48));
    let roots = 1 + random.below(4);
    let shape = [blocks as u64, width as u64, roots as u64];
    let mut desk = Desk::new(random, shape);
    // Rubbish in the waiting list, in that of sections and in the second list: the first accepted call, a format, leaves one true
    // and the others all 0.
    for buffer in [5, 6, 9] {
        for i in 0..desk.bench.length(buffer) {
            let v = desk.random.word() as Ref;
            desk.load(buffer, i, v.into());
        }
    }
    let mut out = format!("{blocks} {width} {roots}\n");
    writeln!(out, "{}", buffers(&desk.bench.memory)).unwrap();
    for k in 0..count {
        let call = if k == 0 {
            Call::Format
        } else {
            desk.some_call()
        };
        let reply = desk.call(call);
        let [c, x, y, z] = call.words();
        write!(out, "{c} {x} {y} {z}").unwrap();
        write!(out, " | {} {} {}", reply.number, reply.value, reply.second).unwrap();
        writeln!(out, " | {}", buffers(&desk.bench.memory)).unwrap();
    }
    out
}

/// Small used memories, most of them damaged, one a line, with the damage kind that the model finds.
pub fn damaged(seed: u64, count: usize) -> String {
    let mut random = Random::new(seed);
    let mut out = String::new();
    for k in 0..count {
        let shape = [
            random.pick(&[8, 16]),
            1 + random.below(4) as u64,
            1 + random.below(4) as u64,
        ];
        let mut desk = Desk::new(Random::new(random.word()), shape);
        desk.call(Call::Format);
        for _ in 0..desk.random.below(30) {
            let call = desk.some_call();
            desk.call(call);
        }
        for (buffer, index, value) in some_damage(&mut desk.random, &desk.bench, k % AIMS) {
            desk.load(buffer, index, value);
        }
        let bench = &desk.bench;
        let kind = damage(bench.blocks, bench.width, &bench.memory);
        let lists = buffers(&bench.memory);
        writeln!(out, "{} {} | {lists} | {kind}", shape[0], shape[1]).unwrap();
    }
    out
}

/// Single calls, one a line, each on a small used memory of its own: before, call, reply, after. The waiting
/// list holds rubbish before; one memory in eight is damaged too, or its list of sections untrue, or its marks wrong.
pub fn steps(seed: u64, count: usize) -> String {
    let mut random = Random::new(seed);
    let mut out = String::new();
    for k in 0..count {
        let shape = [
            random.pick(&[8, 8, 16, 32]),
            1 + random.below(4) as u64,
            1 + random.below(4) as u64,
        ];
        let mut desk = Desk::new(Random::new(random.word()), shape);
        desk.call(Call::Format);
        for _ in 0..desk.random.below(40) {
            let call = desk.some_call();
            desk.call(call);
        }
        for i in 0..desk.blocks() {
            desk.load_rubbish(i);
        }
        if k % 8 == 7 {
            for (buffer, index, value) in some_damage(&mut desk.random, &desk.bench, k / 8 % AIMS) {
                desk.load(buffer, index, value);
            }
        }
        let before = buffers(&desk.bench.memory);
        let call = desk.some_call();
        let reply = desk.call(call);
        let [c, x, y, z] = call.words();
        write!(
            out,
            "{} {} | {before} | {c} {x} {y} {z}",
            shape[0], shape[1]
        )
        .unwrap();
        write!(out, " | {} {} {}", reply.number, reply.value, reply.second).unwrap();
        writeln!(out, " | {}", buffers(&desk.bench.memory)).unwrap();
    }
    out
}

/// Used memories, one a line, with the objects and blocks of their garbage: held by stuck counts alone, by cycles alone,
/// by both.
pub fn garbage(seed: u64, count: usize) -> String {
    let mut random = Random::new(seed);
    let mut out = String::new();
    for k in 0..count {
        let shape = [
            random.pick(&[8, 16, 32, 64, 128]),
            1 + k as u64 % 4,
            1 + random.below(6) as u64,
        ];
        let mut desk = Desk::new(Random::new(random.word()), shape);
        tangle(&mut desk);
        let Bench {
            blocks,
            width,
            memory,
            ..
        } = &desk.bench;
        assert_eq!(
            damage(*blocks, *width, memory),
            0,
            "no such list damages a heap"
        );
        let found = garbage::garbage(*blocks, *width, memory);
        let parts = found.text(*blocks, memory);
        writeln!(out, "{blocks} {width} | {} | {parts}", buffers(memory)).unwrap();
    }
    out
}

/// Many small objects that name each other, and then most roots let go.
fn tangle(desk: &mut Desk) {
    desk.call(Call::Format);
    for _ in 0..desk.random.below(3 * desk.blocks()) {
        let n = 1 + desk.random.below(3);
        let r = desk.random.below(desk.roots());
        let call = desk.allocation(n, r);
        let made = desk.call(call);
        desk.some_numbers();
        let named = if made.number == 0 && desk.random.percent(60) {
            made.value
        } else {
            // The lowest objects are named by many.
            (0..5).map(|_| desk.some_object()).min().unwrap_or(0)
        };
        let a = desk.some_object();
        let j = desk.random.below(desk.cells_of(a));
        desk.call(Call::StoreCell { a, j, v: 1 + named });
    }
    // Apart from these, where there is room: an object that sticks since eight cells name it, and one that names itself.
    if desk.roots() > 1 && desk.random.percent(60) {
        desk.call(Call::Allocate { n: 1, r: 1 });
        let shared = desk.call(Call::Allocate { n: 1, r: 1 });
        let owner = desk.call(Call::Allocate { n: 2, r: 0 });
        if shared.number == 0 && owner.number == 0 {
            for j in 0..8 {
                let (a, v) = (owner.value, 1 + shared.value);
                desk.call(Call::StoreCell { a, j, v });
            }
        }
        let selfish = desk.call(Call::Allocate { n: 1, r: 0 });
        if selfish.number == 0 {
            let (a, v) = (selfish.value, 1 + selfish.value);
            desk.call(Call::StoreCell { a, j: 0, v });
        }
    }
    for r in 0..desk.roots() {
        if desk.random.percent(70) {
            desk.call(Call::StoreRoot { r, v: 0 });
        }
    }
}

/// The ten buffers on one line.
fn buffers(memory: &Memory) -> String {
    buffer_lines(memory).join(" | ")
}

//! What several test files use.
#![allow(dead_code)]

use model::lists::families::generate;
use model::lists::file::{Bench, Entry};
use model::rules::claims;
use model::{apply, Call, Memory, Reply};
use std::io::Write;

/// Says what a test ran. Written past the test harness, which would keep it back.
pub fn say(text: &str) {
    let _ = std::io::stderr().write_all(format!("ran: {text}\n").as_bytes());
}

/// A formatted heap.
pub fn fresh(blocks: usize, width: usize, roots: usize) -> Memory {
    let mut memory = Memory::zeros(blocks, width, roots);
    assert_eq!(apply(blocks, width, &mut memory, Call::Format).number, 0);
    memory
}

/// Carries out one call and checks demand 3's claims on it.
pub fn call_and_claims(blocks: usize, width: usize, memory: &mut Memory, call: Call) -> Reply {
    let before = memory.clone();
    let reply = apply(blocks, width, memory, call);
    if let Some(what) = claims::broken_claim(blocks, width, &before, call, reply, memory) {
        panic!("{what}\ncall {call:?}\nreply {reply:?}\nbefore {before:?}\nafter {memory:?}");
    }
    reply
}

/// Shows every call of a family's list, with the heap before it.
pub fn each_call(family: &str, seed: u64, entries: usize, mut show: impl FnMut(&Bench, Call)) {
    let desk = generate(family, seed, entries).unwrap();
    let mut bench = Bench::of_any_size(desk.header);
    for words in desk.entries {
        let entry = Entry::from_words(words);
        if let Entry::Call(call) = entry {
            show(&bench, call);
        }
        bench.carry_out(entry, apply);
    }
}

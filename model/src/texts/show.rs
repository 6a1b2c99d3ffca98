//! Entries and replies in words, and the paper cases beside what the program `calls` printed for them.

use crate::lists::file::{Entry, BUFFERS};
use crate::lists::paper::{cases, Case, Part, Step, BLOCKS, ROOTS};
use crate::rules::calls::{is_chosen, Call};
use std::fmt::Write;
use std::str::Lines;

/// An entry in words.
pub fn entry_in_words(words: [u64; 4]) -> String {
    match Entry::from_words(words) {
        Entry::Call(call) => call_in_words(call),
        Entry::Reason { a, length } => format!("reason of {a} into {length} bytes"),
        Entry::Shape { length } => format!("shape into {length} numbers"),
        Entry::Copy {
            blocks,
            width,
            roots,
        } => format!("copy into heap: {blocks} blocks, width {width}, {roots} roots"),
        Entry::Load {
            buffer,
            index,
            value,
        } => format!("load {value} at {index} of {}", buffer_name(buffer)),
        Entry::Length { buffer, length } => format!("lend {length} of {}", buffer_name(buffer)),
        Entry::New {
            blocks,
            width,
            roots,
        } => format!("new heap: {blocks} blocks, width {width}, {roots} roots"),
        Entry::NumberOutOfRange => "a number write whose number no cell can hold".to_string(),
        Entry::Unknown(number) => format!("unknown call {number}"),
    }
}

/// A call in words.
pub fn call_in_words(call: Call) -> String {
    match call {
        Call::Format => "format".to_string(),
        Call::Check => "check".to_string(),
        Call::Allocate { n, r } => format!("allocate {n} into root {r}"),
        Call::StoreRoot { r, v } => format!("store {v} in root {r}"),
        Call::StoreCell { a, j, v } => format!("store {v} in cell {j} of the object at {a}"),
        Call::Collect => "collect".to_string(),
        Call::Look { a } => format!("look at {a}"),
        Call::FreeBlocks => "free blocks".to_string(),
        Call::ReturnRoots { chosen: 0 } => "return, no root".to_string(),
        Call::ReturnRoots { chosen } => format!("return, roots {}", chosen_in_words(chosen)),
        Call::AllocateData { n, r } => format!("allocate data {n} into root {r}"),
        Call::WriteNumber { a, j, v } => {
            format!("write number {v} in cell {j} of the data at {a}")
        }
        Call::ReadNumber { a, j } => format!("read number in cell {j} of the data at {a}"),
        Call::OpenCollection => "open collection".to_string(),
        Call::StepCollection { budget } => format!("step collection {budget}"),
    }
}

/// The roots of a set.
fn chosen_in_words(chosen: u64) -> String {
    let chosen = (0..64).filter(|r| is_chosen(chosen, *r));
    let roots: Vec<String> = chosen.map(|r| r.to_string()).collect();
    roots.join(" ")
}

/// The name of a buffer by its number.
pub fn buffer_name(buffer: u64) -> String {
    let names = [
        "a", "b", "counts", "cells", "roots", "waiting", "sections", "data", "marks", "list",
    ];
    match names.get(buffer as usize) {
        Some(name) => name.to_string(),
        None => format!("buffer {buffer}"),
    }
}

/// A reply to a call in words.
pub fn reply_in_words(call: Call, [number, value, second]: [usize; 3]) -> String {
    if number == 2 {
        return format!("refused 2, damage {value}");
    }
    if number != 0 {
        return format!("refused {number}");
    }
    let stuck = if second == 1 { ", stuck" } else { "" };
    match call {
        Call::Format | Call::Check | Call::WriteNumber { .. } => "accepted".to_string(),
        Call::OpenCollection => "accepted".to_string(),
        Call::StepCollection { .. } => format!("steps: {value}, blocks freed: {second}"),
        Call::ReadNumber { .. } => format!("number {value}"),
        Call::Allocate { .. } | Call::AllocateData { .. } => format!("block {value}{stuck}"),
        Call::StoreRoot { .. } | Call::StoreCell { .. } => format!("blocks freed: {value}{stuck}"),
        Call::Collect | Call::ReturnRoots { .. } => format!("blocks freed: {value}"),
        Call::Look { .. } => format!("size {value}, count {second}"),
        Call::FreeBlocks => format!("blocks free: {value}"),
    }
}

/// The paper cases, line by line, beside what `calls` printed for `model paper`; and whether each is what the
/// documents say. A line that is not there counts as different.
pub fn paper(printed: &str) -> (String, bool) {
    let mut shown = Shown {
        lines: printed.lines(),
        out: String::new(),
        all_same: true,
    };
    // The heap of the header, which no case uses, is printed first.
    shown.all_same &= shown.maps().is_some();
    for case in cases() {
        shown.case(&case);
    }
    shown.all_same &= shown.lines.next().is_none();
    let verdict = if shown.all_same {
        "all as the documents say"
    } else {
        "DIFFERENT from the documents"
    };
    writeln!(shown.out, "{verdict}").unwrap();
    (shown.out, shown.all_same)
}

/// What is printed and not yet read, and what was made of the rest.
struct Shown<'a> {
    lines: Lines<'a>,
    out: String,
    all_same: bool,
}

impl Shown<'_> {
    fn case(&mut self, case: &Case) {
        let (name, width) = (case.name, case.width);
        let start = if case.before.is_empty() {
            format!("{BLOCKS} blocks, width {width}, {ROOTS} roots")
        } else {
            "then".to_string()
        };
        writeln!(self.out, "{name}: {start}").unwrap();
        for part in case.parts() {
            self.part(&part);
        }
    }

    /// A part of a case, and the maps that its heap ends with, where its last line reads them.
    fn part(&mut self, part: &Part) {
        for step in &part.again {
            self.step(*step, false);
        }
        for step in &part.steps {
            self.step(*step, true);
        }
        let maps = self.maps();
        self.all_same &= maps.is_some();
        match part.steps.last() {
            Some(Step::Maps(a, b)) => {
                let same = maps == Some([*a as usize, *b as usize]);
                let found = in_words(maps, |[a, b]| format!("A = {a}, B = {b}"));
                self.line("the maps", &found, same);
            }
            Some(Step::Free(free)) => {
                let found = maps.map(|[a, _]| free_blocks(a));
                let same = found.as_deref() == Some(*free);
                self.line("the blocks that are free", &in_words(found, list), same);
            }
            _ => {}
        }
    }

    /// A line of a case beside its reply. What is carried out once more is shown only where it differs.
    fn step(&mut self, step: Step, is_new: bool) {
        match step {
            Step::Gives(call, number, value, second) => {
                let found: Option<[usize; 3]> = self.numbers();
                let same = found == Some([number, value, second]);
                if is_new || !same {
                    let reply = in_words(found, |reply| reply_in_words(call, reply));
                    self.line(&call_in_words(call), &reply, same);
                }
            }
            Step::Given(a, b) if is_new => {
                self.line(
                    "the maps are overwritten",
                    &format!("A = {a}, B = {b}"),
                    true,
                );
            }
            Step::Given(..) | Step::Maps(..) | Step::Free(_) => {}
        }
    }

    fn line(&mut self, what: &str, found: &str, same: bool) {
        let remark = if same {
            ""
        } else {
            "   DIFFERENT from the documents"
        };
        writeln!(self.out, "  {what:<38} {found}{remark}").unwrap();
        self.all_same &= same;
    }

    /// The next line, where it is so many numbers.
    fn numbers<const COUNT: usize>(&mut self) -> Option<[usize; COUNT]> {
        let words = self.lines.next()?.split(' ');
        let numbers: Option<Vec<usize>> = words.map(|word| word.parse().ok()).collect();
        numbers?.try_into().ok()
    }

    /// The ten lines of a heap of eight blocks: the bytes of its A-map and its B-map.
    fn maps(&mut self) -> Option<[usize; 2]> {
        let maps = [self.numbers::<1>(), self.numbers::<1>()];
        let others = [(); BUFFERS - 2].map(|()| self.lines.next());
        let complete = others.iter().all(|line| line.is_some());
        match maps {
            [Some([a]), Some([b])] if complete => Some([a, b]),
            _ => None,
        }
    }
}

/// What was printed, in words, or that it wasn't.
fn in_words<T>(found: Option<T>, words: impl FnOnce(T) -> String) -> String {
    found.map_or("nothing is printed".to_string(), words)
}

/// The blocks whose bit is 0 in this byte.
fn free_blocks(byte: usize) -> Vec<usize> {
    (0..BLOCKS).filter(|i| byte >> i & 1 == 0).collect()
}

fn list(numbers: Vec<usize>) -> String {
    let words: Vec<String> = numbers.iter().map(|number| number.to_string()).collect();
    words.join(", ")
}

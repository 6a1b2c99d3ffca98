//! What the program `calls` must print for a file. docs/FILES.md states the rules; they are
//! followed in order.

use crate::lists::file::{Bench, Entry, BUFFERS};
use crate::rules::answers::Reply;
use crate::rules::copies::copy;
use crate::rules::heap::Memory;
use std::fmt::{Display, Write};

/// Numbers met on the way.
#[derive(Clone, Debug, Default, PartialEq, Eq)]
pub struct Tally {
    pub heaps: usize,
    pub calls: usize,
    /// Replies by number, 0 to 8 and 11 to 17.
    pub numbers: [usize; 18],
    /// Damage kinds reported, by kind, 1 to 5 and 7.
    pub kinds: [usize; 8],
    /// Lines that say what is wrong with an entry.
    pub complaints: usize,
}

impl Tally {
    fn call(&mut self, reply: Reply) {
        self.calls += 1;
        self.numbers[reply.number] += 1;
        if reply.number == 2 {
            self.kinds[reply.value] += 1;
        }
    }
}

/// A reply as it is printed.
fn reply_line(reply: Reply) -> String {
    format!("{} {} {}\n", reply.number, reply.value, reply.second)
}

/// What the program prints, and what was met.
pub fn expect(file: &[u8]) -> (String, Tally) {
    let mut out = String::new();
    let mut tally = Tally::default();
    if file.len() < 24 {
        out.push_str("header: cut off\n");
        tally.complaints += 1;
        return (out, tally);
    }
    let word = |place: usize| u64::from_le_bytes(file[place..place + 8].try_into().unwrap());
    let Some(mut bench) = Bench::new(word(0), word(8), word(16)) else {
        out.push_str("header: too large\n");
        tally.complaints += 1;
        return (out, tally);
    };
    tally.heaps += 1;
    let mut place = 24;
    let mut k = 0;
    while place < file.len() {
        let mut complain = |what: &str| {
            writeln!(out, "call {k}: {what}").unwrap();
            tally.complaints += 1;
        };
        if file.len() < place + 32 {
            complain("cut off");
            break;
        }
        let words = [
            word(place),
            word(place + 8),
            word(place + 16),
            word(place + 24),
        ];
        match Entry::from_words(words) {
            Entry::Call(call) => {
                let reply = bench.call(call);
                out += &reply_line(reply);
                tally.call(reply);
            }
            Entry::Reason { a, length } => match bench.reason(a, length) {
                Some((reply, output)) => {
                    out += &(reply_line(reply) + &numbers(&output) + "\n");
                    tally.call(reply);
                }
                None => complain("length out of range"),
            },
            Entry::Shape { length } => match bench.shape(length) {
                Some((reply, output)) => {
                    out += &(reply_line(reply) + &numbers(&output) + "\n");
                    tally.call(reply);
                }
                None => complain("length out of range"),
            },
            Entry::Copy {
                blocks,
                width,
                roots,
            } => match bench.copy([blocks, width, roots], copy) {
                Some((reply, second)) => {
                    out += &reply_line(reply);
                    print_buffers(&mut out, &second);
                    tally.call(reply);
                }
                None => complain("too large"),
            },
            Entry::Load {
                buffer,
                index,
                value,
            } => {
                if !bench.load(buffer, index, value) {
                    complain("load out of range");
                }
            }
            Entry::Length { buffer, length } => {
                if !bench.set_length(buffer, length) {
                    complain("length out of range");
                }
            }
            Entry::New {
                blocks,
                width,
                roots,
            } => match Bench::new(blocks, width, roots) {
                Some(next) => {
                    print_buffers(&mut out, &bench.memory);
                    bench = next;
                    tally.heaps += 1;
                }
                None => complain("too large"),
            },
            Entry::NumberOutOfRange => complain("number out of range"),
            Entry::Unknown(number) => complain(&format!("unknown call {number}")),
        }
        place += 32;
        k += 1;
    }
    print_buffers(&mut out, &bench.memory);
    (out, tally)
}

/// The ten buffers, a line each.
pub fn print_buffers(out: &mut String, memory: &Memory) {
    for line in buffer_lines(memory) {
        out.push_str(&line);
        out.push('\n');
    }
}

/// "decimal numbers parted by one space", for each of the ten buffers.
pub fn buffer_lines(memory: &Memory) -> [String; BUFFERS] {
    [
        numbers(&memory.a),
        numbers(&memory.b),
        numbers(&memory.counts),
        numbers(&memory.cells),
        numbers(&memory.roots),
        numbers(&memory.waiting),
        numbers(&memory.sections),
        numbers(&memory.data),
        numbers(&memory.marks),
        numbers(&memory.list),
    ]
}

/// One such line.
pub(crate) fn numbers<T: Display>(list: &[T]) -> String {
    let words: Vec<String> = list.iter().map(|number| number.to_string()).collect();
    words.join(" ")
}

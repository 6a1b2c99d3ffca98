//! The file form of a list of calls, and the bench that it runs on. docs/FILES.md states the form.

use crate::rules::answers::Reply;
use crate::rules::calls::{apply, Call};
use crate::rules::copies::{copy, Copies};
use crate::rules::heap::{section_count, Memory, Ref, MAX_BLOCKS};
use crate::rules::outputs::{reason, shape};

/// The largest numbers that a header (or an entry "new") may ask for: one more than is good where that
/// makes refusal 1 reachable.
pub const MOST_BLOCKS: u64 = MAX_BLOCKS as u64;
pub const MOST_WIDTH: u64 = 5;
pub const MOST_ROOTS: u64 = 65;

/// The lent buffers, by number: 0 a, 1 b, 2 counts, 3 cells, 4 roots, 5 waiting, 6 sections, 7 data, 8 marks, 9 list.
pub const BUFFERS: usize = 10;

/// The largest length of each of them.
pub const MOST_LENGTHS: [u64; BUFFERS] = {
    let map = MOST_BLOCKS / 8;
    [
        map,
        map,
        MOST_WIDTH * map,
        4 * MOST_BLOCKS,
        MOST_ROOTS,
        MOST_BLOCKS,
        section_count(MAX_BLOCKS) as u64,
        map,
        map,
        MOST_BLOCKS + 1,
    ]
};

/// Word 0 of the calls that write an output. They have no code in a replay.
pub const REASON: u64 = 240;
pub const SHAPE: u64 = 241;

/// Word 0 of the copy into a second heap, which has no code in a replay either.
pub const COPY: u64 = 242;

/// The largest length of an output, which is enough for every heap: of a reason in bytes, of a shape in numbers.
pub const MOST_REASON: u64 = 12 * MOST_BLOCKS + 8;
pub const MOST_SHAPE: u64 = 65 + 6 * MOST_BLOCKS;

/// What stands in each place of an output before the call: no sentence has such a byte, and no shape such a number.
pub const UNWRITTEN_BYTE: u8 = 255;
pub const UNWRITTEN_NUMBER: u32 = u32::MAX;

/// Word 0 of the entries that are no calls: behind all calls to come.
pub const LOAD: u64 = 253;
pub const LENGTH: u64 = 254;
pub const NEW: u64 = 255;

/// The four words of an entry, after their meaning.
#[derive(Clone, Copy, Debug, PartialEq, Eq)]
pub enum Entry {
    Call(Call),
    /// U11, with an output of so many bytes.
    Reason {
        a: u64,
        length: u64,
    },
    /// U13, with an output of so many numbers.
    Shape {
        length: u64,
    },
    /// U14, into a heap of these numbers all of whose bits are 1.
    Copy {
        blocks: u64,
        width: u64,
        roots: u64,
    },
    Load {
        buffer: u64,
        index: u64,
        value: u64,
    },
    Length {
        buffer: u64,
        length: u64,
    },
    New {
        blocks: u64,
        width: u64,
        roots: u64,
    },
    /// A number write whose number no cell can hold. "Nothing is truncated": it is no call.
    NumberOutOfRange,
    Unknown(u64),
}

/// What carries out one call: the model's `apply`, or another.
pub type Apply = fn(usize, usize, &mut Memory, Call) -> Reply;

impl Entry {
    /// What four words mean. Words that the meaning doesn't use aren't looked at.
    pub fn from_words(words: [u64; 4]) -> Entry {
        let [kind, x, y, z] = words;
        let (p, q) = (x as usize, y as usize);
        match kind {
            0 => Entry::Call(Call::Format),
            1 => Entry::Call(Call::Check),
            2 => Entry::Call(Call::Allocate { n: p, r: q }),
            3 => Entry::Call(Call::StoreRoot { r: p, v: q }),
            4 => Entry::Call(Call::StoreCell {
                a: p,
                j: q,
                v: z as usize,
            }),
            5 => Entry::Call(Call::Collect),
            6 => Entry::Call(Call::Look { a: p }),
            7 => Entry::Call(Call::FreeBlocks),
            8 => Entry::Call(Call::ReturnRoots { chosen: x }),
            9 => Entry::Call(Call::AllocateData { n: p, r: q }),
            10 => match Ref::try_from(z) {
                Ok(v) => Entry::Call(Call::WriteNumber { a: p, j: q, v }),
                Err(_) => Entry::NumberOutOfRange,
            },
            11 => Entry::Call(Call::ReadNumber { a: p, j: q }),
            12 => Entry::Call(Call::OpenCollection),
            13 => Entry::Call(Call::StepCollection { budget: p }),
            REASON => Entry::Reason { a: x, length: y },
            SHAPE => Entry::Shape { length: x },
            COPY => Entry::Copy {
                blocks: x,
                width: y,
                roots: z,
            },
            LOAD => Entry::Load {
                buffer: x,
                index: y,
                value: z,
            },
            LENGTH => Entry::Length {
                buffer: x,
                length: y,
            },
            NEW => Entry::New {
                blocks: x,
                width: y,
                roots: z,
            },
            unknown => Entry::Unknown(unknown),
        }
    }

    /// The call, where the entry is one.
    pub fn call(self) -> Option<Call> {
        match self {
            Entry::Call(call) => Some(call),
            _ => None,
        }
    }
}

/// A heap as the program lends it: the buffers at their present lengths, and what lies beyond each of them.
#[derive(Clone, Debug)]
pub struct Bench {
    pub blocks: usize,
    pub width: usize,
    pub memory: Memory,
    beyond: Memory,
}

impl Bench {
    /// Zeroed buffers, not formatted; none where the numbers are too large for a file.
    pub fn new(blocks: u64, width: u64, roots: u64) -> Option<Bench> {
        if blocks > MOST_BLOCKS || width > MOST_WIDTH || roots > MOST_ROOTS {
            return None;
        }
        Some(Bench::of_any_size([blocks, width, roots]))
    }

    /// Zeroed buffers, not formatted.
    pub fn of_any_size(shape: [u64; 3]) -> Bench {
        let [blocks, width, roots] = shape.map(|number| number as usize);
        Bench::of(blocks, width, Memory::zeros(blocks, width, roots))
    }

    /// These buffers.
    pub fn of(blocks: usize, width: usize, memory: Memory) -> Bench {
        Bench {
            blocks,
            width,
            memory,
            beyond: Memory::default(),
        }
    }

    pub fn call(&mut self, call: Call) -> Reply {
        apply(self.blocks, self.width, &mut self.memory, call)
    }

    /// Carries out an entry, a call by the given function. The reply, where it is a call; what is out of range
    /// does nothing.
    pub fn carry_out(&mut self, entry: Entry, apply: Apply) -> Option<Reply> {
        match entry {
            Entry::Call(call) => {
                return Some(apply(self.blocks, self.width, &mut self.memory, call));
            }
            Entry::Load {
                buffer,
                index,
                value,
            } => {
                self.load(buffer, index, value);
            }
            Entry::Length { buffer, length } => {
                self.set_length(buffer, length);
            }
            Entry::New {
                blocks,
                width,
                roots,
            } => {
                if let Some(next) = Bench::new(blocks, width, roots) {
                    *self = next;
                }
            }
            Entry::Reason { a, length } => return self.reason(a, length).map(|(reply, _)| reply),
            Entry::Shape { length } => return self.shape(length).map(|(reply, _)| reply),
            Entry::Copy {
                blocks,
                width,
                roots,
            } => {
                let copied = self.copy([blocks, width, roots], copy);
                return copied.map(|(reply, _)| reply);
            }
            Entry::NumberOutOfRange | Entry::Unknown(_) => {}
        }
        None
    }

    /// The reason of an entry by the model, with the output as it is then; none where the length is out of range.
    pub fn reason(&self, a: u64, length: u64) -> Option<(Reply, Vec<u8>)> {
        if length > MOST_REASON {
            return None;
        }
        let mut output = vec![UNWRITTEN_BYTE; length as usize];
        let reply = reason(
            self.blocks,
            self.width,
            &self.memory,
            a as usize,
            &mut output,
        );
        Some((reply, output))
    }

    /// The shape of an entry by the model, likewise.
    pub fn shape(&self, length: u64) -> Option<(Reply, Vec<u32>)> {
        if length > MOST_SHAPE {
            return None;
        }
        let mut output = vec![UNWRITTEN_NUMBER; length as usize];
        let reply = shape(self.blocks, self.width, &self.memory, &mut output);
        Some((reply, output))
    }

    /// The copy of an entry by the given function, with the second heap as it is then; none where that is too large for a file.
    pub fn copy(
        &self,
        [blocks, width, roots]: [u64; 3],
        copies: Copies,
    ) -> Option<(Reply, Memory)> {
        let second = Bench::new(blocks, width, roots)?;
        let mut into = second.memory;
        into.fill(u8::MAX, Ref::MAX);
        let first = (self.blocks, self.width);
        let reply = copies(
            first,
            &self.memory,
            (second.blocks, second.width),
            &mut into,
        );
        Some((reply, into))
    }

    /// Whether a collection is open: not where the list has another length.
    pub fn has_one_open(&self) -> bool {
        let list = &self.memory.list;
        list.len() == self.blocks.wrapping_add(1) && list[self.blocks] == 1
    }

    /// Writes one number into a lent buffer; false where the buffer, the index or the value is out of range.
    pub fn load(&mut self, buffer: u64, index: u64, value: u64) -> bool {
        let memory = &mut self.memory;
        match buffer {
            0 => load_byte(&mut memory.a, index, value),
            1 => load_byte(&mut memory.b, index, value),
            2 => load_byte(&mut memory.counts, index, value),
            3 => load_number(&mut memory.cells, index, value),
            4 => load_number(&mut memory.roots, index, value),
            5 => load_number(&mut memory.waiting, index, value),
            6 => load_number(&mut memory.sections, index, value),
            7 => load_byte(&mut memory.data, index, value),
            8 => load_byte(&mut memory.marks, index, value),
            9 => load_number(&mut memory.list, index, value),
            _ => false,
        }
    }

    /// Sets the lent length of a buffer; false where the buffer or the length is out of range.
    pub fn set_length(&mut self, buffer: u64, length: u64) -> bool {
        if buffer >= BUFFERS as u64 || length > MOST_LENGTHS[buffer as usize] {
            return false;
        }
        let (memory, beyond) = (&mut self.memory, &mut self.beyond);
        let length = length as usize;
        match buffer {
            0 => lend(&mut memory.a, &mut beyond.a, length),
            1 => lend(&mut memory.b, &mut beyond.b, length),
            2 => lend(&mut memory.counts, &mut beyond.counts, length),
            3 => lend(&mut memory.cells, &mut beyond.cells, length),
            4 => lend(&mut memory.roots, &mut beyond.roots, length),
            5 => lend(&mut memory.waiting, &mut beyond.waiting, length),
            6 => lend(&mut memory.sections, &mut beyond.sections, length),
            7 => lend(&mut memory.data, &mut beyond.data, length),
            8 => lend(&mut memory.marks, &mut beyond.marks, length),
            _ => lend(&mut memory.list, &mut beyond.list, length),
        }
        true
    }

    /// The number in a lent buffer.
    pub fn number_at(&self, buffer: u64, index: usize) -> u64 {
        let memory = &self.memory;
        match buffer {
            0 => memory.a[index] as u64,
            1 => memory.b[index] as u64,
            2 => memory.counts[index] as u64,
            3 => memory.cells[index] as u64,
            4 => memory.roots[index] as u64,
            5 => memory.waiting[index] as u64,
            6 => memory.sections[index] as u64,
            7 => memory.data[index] as u64,
            8 => memory.marks[index] as u64,
            _ => memory.list[index] as u64,
        }
    }

    /// The lent length of a buffer.
    pub fn length(&self, buffer: u64) -> usize {
        let memory = &self.memory;
        match buffer {
            0 => memory.a.len(),
            1 => memory.b.len(),
            2 => memory.counts.len(),
            3 => memory.cells.len(),
            4 => memory.roots.len(),
            5 => memory.waiting.len(),
            6 => memory.sections.len(),
            7 => memory.data.len(),
            8 => memory.marks.len(),
            _ => memory.list.len(),
        }
    }
}

fn load_byte(list: &mut [u8], index: u64, value: u64) -> bool {
    if index >= list.len() as u64 || value > 255 {
        return false;
    }
    list[index as usize] = value as u8;
    true
}

fn load_number(list: &mut [Ref], index: u64, value: u64) -> bool {
    match Ref::try_from(value) {
        Ok(value) if index < list.len() as u64 => list[index as usize] = value,
        _ => return false,
    }
    true
}

/// Lends so many numbers of a buffer. What lies beyond keeps its values; what never was written is 0.
fn lend<T: Copy + Default>(lent: &mut Vec<T>, beyond: &mut Vec<T>, length: usize) {
    lent.append(beyond);
    if lent.len() < length {
        lent.resize(length, T::default());
    }
    *beyond = lent.split_off(length);
}

/// The bytes of a file.
pub fn bytes(header: [u64; 3], entries: &[[u64; 4]]) -> Vec<u8> {
    let words = header.iter().chain(entries.iter().flatten());
    words.flat_map(|word| word.to_le_bytes()).collect()
}

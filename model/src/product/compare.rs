//! The model and the product's library side by side: the first difference, as text.

use crate::history::run::run_records;
use crate::history::{text, Run};
use crate::lists::file::{
    Apply, Bench, Entry, BUFFERS, MOST_REASON, MOST_SHAPE, UNWRITTEN_BYTE, UNWRITTEN_NUMBER,
};
use crate::lists::random::Random;
use crate::lists::runs::{Handed, RunRecords};
use crate::lists::spoiling::{Lent, Replay};
use crate::product::met::{place_of, Met};
use crate::rules::answers::Reply;
use crate::rules::calls::apply;
use crate::rules::copies::{copy, Copies, Sizes};
use crate::rules::heap::Memory;
use crate::rules::outputs::{
    due_reason, due_shape, reason, shape, write_due, SHORT_REASON, SHORT_SHAPE,
};
use crate::rules::reasons::{read, read_reason, Reading};
use crate::rules::replay::{make_calls, replay};
use crate::texts::expect::{buffer_lines, numbers};
use crate::texts::show::{buffer_name, entry_in_words};
use std::fmt::Write;

/// The library, or in a test another heap in its place.
#[derive(Clone, Copy)]
pub struct Library {
    pub apply: Apply,
    pub replay: Replay,
    pub make_calls: Replay,
    pub run_records: RunRecords,
    pub reason: ReasonOf,
    pub shape: ShapeOf,
    pub read_reason: ReadReason,
    pub copy: Copies,
}

/// What writes a reason or a shape, and what reads a sentence: the model's, or another.
pub type ReasonOf = fn(usize, usize, &Memory, usize, &mut [u8]) -> Reply;
pub type ShapeOf = fn(usize, usize, &Memory, &mut [u32]) -> Reply;
pub type ReadReason = fn(&[u8], &mut [u32]) -> Reading;

/// So many places behind an output are looked at, too: they must be as before.
const BEHIND: usize = 8;

/// What one side answered and left. An entry that is no call has no reply; only a list of calls has replies, and only a run
/// stands somewhere.
#[derive(PartialEq, Eq)]
struct Outcome<'a> {
    reply: Option<Reply>,
    memory: &'a Memory,
    replies: &'a [u64],
    run: Option<Run>,
    /// The output of a reason or a shape, and what lies behind it; of a copy the second heap.
    output: Vec<u32>,
}

/// Runs a list on both, comparing the reply and every buffer after every entry.
pub fn call_by_call(
    other: Library,
    start: Bench,
    entries: &[[u64; 4]],
    met: &mut Met,
) -> Option<String> {
    let title = title(&start);
    let mut model = start;
    let mut library = model.clone();
    for (k, words) in entries.iter().enumerate() {
        let entry = Entry::from_words(*words);
        let open = model.has_one_open();
        let (by_model, output) = carried_out(entry, &mut model, apply, (reason, shape, copy));
        let (by_library, library_output) = carried_out(
            entry,
            &mut library,
            other.apply,
            (other.reason, other.shape, other.copy),
        );
        if let (Some(code), Some(reply)) = (place_of(entry), by_model) {
            met.call(model.blocks, code, reply);
            met.call_with(open, reply);
            met.refused(model.blocks, &model.memory, reply);
        }
        let sides = [
            (by_model, &model, output),
            (by_library, &library, library_output),
        ];
        let sides = sides.map(|(reply, bench, output)| Outcome {
            reply,
            memory: &bench.memory,
            replies: &[],
            run: None,
            output,
        });
        if sides[0] != sides[1] {
            let list = entry_lines(&entries[..=k].concat());
            return Some(difference(&title, &list, sides));
        }
    }
    None
}

/// The heap that a list begins with, in words.
fn title(start: &Bench) -> String {
    let (blocks, width, memory) = (start.blocks, start.width, &start.memory);
    let roots = memory.roots.len();
    let zeros = memory.b.iter().all(|byte| *byte == 0) && memory.cells.iter().all(|v| *v == 0);
    let given = if zeros { "" } else { ", a heap in use" };
    format!("{blocks} blocks, width {width}, {roots} roots{given}")
}

/// Carries out an entry on one side. A reason and a shape have an output, and some places behind it that aren't lent; a copy has the
/// second heap.
fn carried_out(
    entry: Entry,
    bench: &mut Bench,
    apply: Apply,
    (reason, shape, copies): (ReasonOf, ShapeOf, Copies),
) -> (Option<Reply>, Vec<u32>) {
    let (blocks, width) = (bench.blocks, bench.width);
    match entry {
        Entry::Reason { a, length } if length <= MOST_REASON => {
            let length = length as usize;
            let mut output = vec![UNWRITTEN_BYTE; length + BEHIND];
            let lent = &mut output[..length];
            let reply = reason(blocks, width, &bench.memory, a as usize, lent);
            (Some(reply), output.into_iter().map(u32::from).collect())
        }
        Entry::Shape { length } if length <= MOST_SHAPE => {
            let length = length as usize;
            let mut output = vec![UNWRITTEN_NUMBER; length + BEHIND];
            let reply = shape(blocks, width, &bench.memory, &mut output[..length]);
            (Some(reply), output)
        }
        Entry::Copy {
            blocks,
            width,
            roots,
        } => match bench.copy([blocks, width, roots], copies) {
            Some((reply, second)) => (Some(reply), numbers_of(&second)),
            None => (None, Vec::new()),
        },
        _ => (bench.carry_out(entry, apply), Vec::new()),
    }
}

/// Every number of a heap, buffer by buffer.
fn numbers_of(memory: &Memory) -> Vec<u32> {
    let maps = [
        &memory.a,
        &memory.b,
        &memory.counts,
        &memory.data,
        &memory.marks,
    ];
    let lists = [
        &memory.cells,
        &memory.roots,
        &memory.waiting,
        &memory.sections,
        &memory.list,
    ];
    let bytes = maps.into_iter().flatten().map(|byte| u32::from(*byte));
    bytes.chain(lists.into_iter().flatten().copied()).collect()
}

/// Copies what a list left into a second heap, by the model and by the library. Whether they differ, in the reply or in any buffer of the
/// second heap.
pub fn differing_copy(
    other: Library,
    bench: &Bench,
    second: Sizes,
    into: &Memory,
    met: &mut Met,
) -> bool {
    let first = (bench.blocks, bench.width);
    let (mut model, mut library) = (into.clone(), into.clone());
    let by_model = copy(first, &bench.memory, second, &mut model);
    let by_library = (other.copy)(first, &bench.memory, second, &mut library);
    met.copies[by_model.number] += 1;
    (by_model, model) != (by_library, library)
}

/// Asks the library for the reason of a block, or for the shape where there is none, with outputs of these lengths, on what a list
/// left. The due output is the model's; the output holds anything before. The length with which the library differs.
pub fn differing_output(
    other: Library,
    bench: &Bench,
    block: Option<usize>,
    random: &mut Random,
    met: &mut Met,
) -> Option<usize> {
    let (blocks, width, memory) = (bench.blocks, bench.width, &bench.memory);
    match block {
        Some(a) => {
            let due = due_reason(blocks, width, memory, a);
            if let Ok(Some(said)) = due.as_ref().map(|text| read(text)) {
                met.said(&said);
            }
            let right = due.as_ref().ok().map(Vec::len);
            lengths_around(blocks, right).into_iter().find(|length| {
                met.output(0, *length, right);
                let behind = length + BEHIND;
                let before: Vec<u8> = (0..behind).map(|_| random.word() as u8).collect();
                let (mut model, mut library) = (before.clone(), before);
                let by_model = write_due(&due, SHORT_REASON, &mut model[..*length]);
                let lent = &mut library[..*length];
                let by_library = (other.reason)(blocks, width, memory, a, lent);
                (by_model, model) != (by_library, library)
            })
        }
        None => {
            let due = due_shape(blocks, width, memory);
            let right = due.as_ref().ok().map(Vec::len);
            lengths_around(blocks, right).into_iter().find(|length| {
                met.output(1, *length, right);
                let behind = length + BEHIND;
                let before: Vec<u32> = (0..behind).map(|_| random.word() as u32).collect();
                let (mut model, mut library) = (before.clone(), before);
                let by_model = write_due(&due, SHORT_SHAPE, &mut model[..*length]);
                let by_library = (other.shape)(blocks, width, memory, &mut library[..*length]);
                (by_model, model) != (by_library, library)
            })
        }
    }
}

/// Every length from 0 to the right one and two more; of a long output the first and the last of them, and some between; on a large
/// heap, where a call takes long, few. Where there is no right one, two lengths.
fn lengths_around(blocks: usize, right: Option<usize>) -> Vec<usize> {
    match right {
        None => vec![0, 64],
        Some(right) if blocks > 2048 => vec![0, right / 2, right - 1, right, right + 2],
        Some(right) if right <= EVERY_LENGTH => (0..=right + 2).collect(),
        Some(right) => {
            let between = (3..right - 3).step_by(right / 16);
            (0..3).chain(between).chain(right - 3..=right + 2).collect()
        }
    }
}

/// Up to this length of the right output, every length is tried.
const EVERY_LENGTH: usize = 300;

/// Reads a text on both, with room for so many cells, comparing what is said and the cells.
pub fn read_back(other: Library, text: &[u8], room: usize, met: &mut Met) -> Option<String> {
    let mut cells = [vec![UNWRITTEN_NUMBER; room + BEHIND], Vec::new()];
    cells[1] = cells[0].clone();
    let by_model = read_reason(text, &mut cells[0][..room]);
    let by_library = (other.read_reason)(text, &mut cells[1][..room]);
    met.readings[by_model.kind] += 1;
    (by_model != by_library || cells[0] != cells[1]).then(|| {
        format!(
            "a difference: a text read back, with room for {room} cells\n  {:?}\nby the model     {by_model:?} {:?}\nby the library   {by_library:?} {:?}\n",
            String::from_utf8_lossy(text),
            cells[0],
            cells[1],
        )
    })
}

/// Makes a replay on both, comparing the reply, every buffer and every word of the list of replies.
pub fn replayed(other: Library, lent: &Lent, met: &mut Met) -> Option<String> {
    let (by_model, difference) = listed("a replay", [replay, other.replay], lent);
    met.replay(by_model);
    difference
}

/// The same of a list of calls on a heap as it stands.
pub fn batched(other: Library, lent: &Lent, met: &mut Met) -> Option<String> {
    let (by_model, difference) = listed("a list of calls", [make_calls, other.make_calls], lent);
    met.batch(by_model, lent.bench.has_one_open());
    difference
}

/// Makes a list of calls on both. The model's reply, and a difference.
fn listed(name: &str, ways: [Replay; 2], lent: &Lent) -> (Reply, Option<String>) {
    let mut sides = [lent.clone(), lent.clone()];
    let replies = [0, 1].map(|side| sides[side].replay(ways[side]));
    let outcomes = [0, 1].map(|side| Outcome {
        reply: Some(replies[side]),
        memory: &sides[side].bench.memory,
        replies: &sides[side].replies,
        run: None,
        output: Vec::new(),
    });
    let difference = (outcomes[0] != outcomes[1]).then(|| {
        difference(
            &listed_title(name, lent),
            &entry_lines(&lent.words),
            outcomes,
        )
    });
    (replies[0], difference)
}

/// Makes a run of records on both, comparing the reply, where the run stands, and every buffer.
pub fn ran(other: Library, handed: &Handed, met: &mut Met) -> Option<String> {
    let (mut model, mut library) = (handed.clone(), handed.clone());
    let by_model = model.run(run_records);
    let by_library = library.run(other.run_records);
    met.run(by_model.0, by_model.1.number, handed.bench.has_one_open());
    let sides =
        [(by_model, &model), (by_library, &library)].map(|((reply, run), handed)| Outcome {
            reply: Some(reply),
            memory: &handed.bench.memory,
            replies: &[],
            run: Some(run),
            output: Vec::new(),
        });
    (sides[0] != sides[1]).then(|| {
        let bench = &handed.bench;
        let title = format!(
            "a run of records, {} blocks, width {}, from {:?}",
            bench.blocks, bench.width, handed.run
        );
        let before: Vec<String> = named_buffers(&bench.memory)
            .into_iter()
            .map(|(name, numbers)| format!("  {name} before   {numbers}\n"))
            .collect();
        let list = before.concat() + &text::words(&handed.bytes);
        difference(&title, &list, sides)
    })
}

/// The shape of a list of calls in words.
fn listed_title(name: &str, lent: &Lent) -> String {
    let bench = &lent.bench;
    let buffers = 0..BUFFERS as u64;
    let lengths: Vec<usize> = buffers.map(|buffer| bench.length(buffer)).collect();
    format!(
        "{name} of {} words with room for {} words of replies, {} blocks, width {}, buffers of {}",
        lent.words.len(),
        lent.replies.len(),
        bench.blocks,
        bench.width,
        numbers(&lengths),
    )
}

/// Entries in numbers and words, a line each.
fn entry_lines(words: &[u64]) -> String {
    let lines = words.chunks_exact(4).map(|four| {
        let in_words = entry_in_words([four[0], four[1], four[2], four[3]]);
        format!("  {}   {in_words}\n", numbers(four))
    });
    lines.collect()
}

/// A list that shows a difference, with both replies and what differs.
fn difference(title: &str, list: &str, [model, library]: [Outcome; 2]) -> String {
    let mut out = format!("a difference: {title}\n{list}");
    writeln!(out, "the model's reply     {}", reply_numbers(model.reply)).unwrap();
    writeln!(
        out,
        "the library's reply   {}",
        reply_numbers(library.reply)
    )
    .unwrap();
    let sides = lists(&model).into_iter().zip(lists(&library));
    for ((name, by_model), (_, by_library)) in sides {
        if by_model != by_library {
            writeln!(out, "{name} by the model     {by_model}").unwrap();
            writeln!(out, "{name} by the library   {by_library}").unwrap();
        }
    }
    out
}

fn reply_numbers(reply: Option<Reply>) -> String {
    match reply {
        Some(reply) => numbers(&[reply.number, reply.value, reply.second]),
        None => "none".to_string(),
    }
}

/// The buffers, by name.
fn named_buffers(memory: &Memory) -> Vec<(String, String)> {
    let names = (0..BUFFERS as u64).map(buffer_name);
    names.zip(buffer_lines(memory)).collect()
}

/// The buffers, the replies, where a run stands and an output, by name.
fn lists(outcome: &Outcome) -> Vec<(String, String)> {
    let mut lists = named_buffers(outcome.memory);
    lists.push(("replies".to_string(), numbers(outcome.replies)));
    lists.push(("run".to_string(), format!("{:?}", outcome.run)));
    lists.push(("output".to_string(), numbers(&outcome.output)));
    lists
}

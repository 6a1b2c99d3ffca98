//! What a run of the fuzz met, counted, and what it could have met and didn't.

use crate::lists::file::Entry;
use crate::rules::answers::Reply;
use crate::rules::heap::{Memory, MAX_BLOCKS};
use crate::rules::mark_claims::{ill_marked, ILL};
use crate::rules::reasons::Said;

/// More blocks than a heap can have: "131,072 is refused 1".
pub const TOO_MANY_BLOCKS: usize = 2 * MAX_BLOCKS;

/// The numbers of blocks that a heap can have: 8 doubled so often.
pub const SIZES: usize = (MAX_BLOCKS / 8).ilog2() as usize + 1;

pub fn sizes() -> impl Iterator<Item = usize> {
    (0..SIZES).map(|doubled| 8 << doubled)
}

/// Each call, by its place here, with the numbers that it can answer, in the documents' order. The place is the code, but for the
/// last two, which have no code in a replay.
pub const CALLS: [(&str, &[usize]); 16] = [
    ("format", &[0, 1]),
    ("check", &[0, 1, 2, 11, 13]),
    ("allocate", &[0, 1, 2, 11, 13, 3, 4, 5]),
    ("store in a root", &[0, 1, 2, 11, 13, 4, 8]),
    ("store in a cell", &[0, 1, 2, 11, 13, 6, 7, 12, 8]),
    ("collect", &[0, 1, 2, 11, 13, 14]),
    ("look", &[0, 1, 2, 11, 13, 6]),
    ("free blocks", &[0, 1, 2, 11, 13]),
    ("return", &[0, 1, 2, 11, 13, 4]),
    ("allocate data", &[0, 1, 2, 11, 13, 3, 4, 5]),
    ("write a number", &[0, 1, 2, 11, 13, 6, 7, 12]),
    ("read a number", &[0, 1, 2, 11, 13, 6, 7, 12]),
    ("open a collection", &[0, 1, 2, 11, 13, 14]),
    ("step a collection", &[0, 1, 2, 11, 13, 14]),
    ("reason", &[0, 1, 2, 11, 13, 6, 15]),
    ("shape", &[0, 1, 2, 11, 13, 16]),
];

/// One more than the largest number that a call can answer.
pub const NUMBERS: usize = 18;

/// The place of an entry in `CALLS`, where it is a call.
pub fn place_of(entry: Entry) -> Option<usize> {
    match entry {
        Entry::Call(call) => Some(call.words()[0] as usize),
        Entry::Reason { .. } => Some(14),
        Entry::Shape { .. } => Some(15),
        _ => None,
    }
}

/// The kinds of damage. There is no kind 6 (U9).
pub const KINDS: [usize; 6] = [1, 2, 3, 4, 5, 7];

/// The numbers that a replay can answer, in docs/DECISIONS.md's order.
pub const REPLAY: [usize; 5] = [0, 1, 10, 9, 18];

/// The numbers that a list of calls on a heap as it stands can answer, in docs/DECISIONS.md's order.
pub const BATCH: [usize; 8] = [0, 1, 2, 11, 13, 10, 9, 18];

/// The numbers that a run of records can answer, in docs/DECISIONS.md's order with U4's and U8's; and those that can stop one.
pub const RUN: [usize; 6] = [0, 1, 2, 11, 13, 19];
pub const STOPS: [usize; 10] = [0, 10, 9, 3, 4, 5, 6, 7, 12, 14];

/// The pairs of an A-map and a B-map of eight blocks.
pub const PAIRS_OF_MAPS: usize = 256 * 256;

/// The A-maps of eight blocks, each with the figures 0 to 9.
pub const MAPS_WITH_FIGURES: usize = 2_560;

/// The pairs of an A-map and a B-map of eight blocks that pass kinds 1 to 3, each with every D-map.
pub const MAPS_WITH_DATA: usize = 802 * 256;

/// The mark maps of eight blocks with each of the lists of up to two numbers 0 to 9, and with each last place 0 to 2, on two heaps.
pub const MARKS_WITH_LISTS: usize = 2 * 256 * 100 * 3;

/// What is counted by the size of the heap.
pub const BY_SIZE: [&str; 2] = ["an accepted call", "a damaged heap"];

/// The lengths of an output beside the right one.
pub const AROUND: [&str; 3] = ["one too short", "of the right length", "that is longer"];

/// What a text says, read as a sentence, by kind.
pub const READINGS: [&str; 4] = ["no sentence", "a chain", "no root", "no room for the cells"];

/// Calls one by one, and replays.
#[derive(Clone, Debug, Default)]
pub struct Met {
    pub lists: usize,
    /// Replies by call and number, 0 to 8 and 11 to 16.
    pub numbers: [[usize; NUMBERS]; CALLS.len()],
    /// Damage kinds by call and kind.
    pub kinds: [[usize; 8]; CALLS.len()],
    /// Calls on too many blocks, by call.
    pub too_many_blocks: [usize; CALLS.len()],
    /// Calls that were accepted and calls on damaged heaps, by the size of the heap.
    pub by_size: [[usize; 2]; SIZES],
    /// Pairs of an A-map and a B-map that were checked.
    pub pairs_of_maps: usize,
    pub replays: usize,
    /// Calls of the replays that were accepted.
    pub replayed_calls: usize,
    /// Replies to replays by number, 0 to 18.
    pub replay_numbers: [usize; 19],
    /// Lists of calls on a heap as it stands: replies by number, 0 to 18, damage by kind, and the calls of those that were accepted, and
    /// of these those that found a collection open.
    pub batch_numbers: [usize; 19],
    pub batch_kinds: [usize; 8],
    pub batched_calls: usize,
    pub batched_with_one_open: usize,
    /// A-maps whose figure was checked, with each figure.
    pub maps_with_figures: usize,
    /// Pairs of maps that were checked with each D-map.
    pub maps_with_data: usize,
    /// Mark maps that were checked with each list.
    pub marks_with_lists: usize,
    /// Calls on wrong marks by the clause of 13, those that 11 was said of and those that 13 was.
    pub ill_marked: [[usize; 2]; ILL.len()],
    /// Calls made with a collection open, of those on a heap that isn't refused first; and all of these.
    pub with_one_open: usize,
    pub with_either: usize,
    /// Replies to runs of records by number, 0 to 19.
    pub run_numbers: [usize; 20],
    /// Accepted runs by the number that stopped them, 0 to 14.
    pub stops: [usize; 15],
    /// Accepted runs on a heap with a collection open, and those of them that 5 stopped.
    pub runs_with_one_open: usize,
    pub full_with_one_open: usize,
    /// Outputs lent for a reason and for a shape on what a list left, of every length around the right one.
    pub outputs: [usize; 2],
    pub copies: [usize; NUMBERS],
    /// Reasons and shapes by whether the output was shorter than the right length by one, of it, and longer.
    pub around: [[usize; 3]; 2],
    /// The longest chain of a reason, in links, and sentences that no root reaches a block.
    pub most_links: usize,
    pub no_root: usize,
    /// Texts read back, by what they say.
    pub readings: [usize; 4],
}

impl Met {
    /// Counts the reply to a call, by its place, on so many blocks.
    pub fn call(&mut self, blocks: usize, code: usize, reply: Reply) {
        self.numbers[code][reply.number] += 1;
        if reply.number == 2 {
            self.kinds[code][reply.value] += 1;
        }
        if blocks == TOO_MANY_BLOCKS {
            self.too_many_blocks[code] += 1;
        }
        if let Some(size) = sizes().position(|size| size == blocks) {
            match reply.number {
                0 => self.by_size[size][0] += 1,
                2 => self.by_size[size][1] += 1,
                _ => {}
            }
        }
    }

    /// Counts the reply to a replay. Its value is the number of calls, and 0 where it was refused.
    pub fn replay(&mut self, reply: Reply) {
        self.replays += 1;
        self.replay_numbers[reply.number] += 1;
        self.replayed_calls += reply.value;
    }

    /// Counts the reply to a list of calls on a heap as it stands, and whether a collection is open there.
    pub fn batch(&mut self, reply: Reply, open: bool) {
        self.batch_numbers[reply.number] += 1;
        match reply.number {
            0 => {
                self.batched_calls += reply.value;
                self.batched_with_one_open += if open { reply.value } else { 0 };
            }
            2 => self.batch_kinds[reply.value] += 1,
            _ => {}
        }
    }

    /// Counts a call that is refused 11 or 13 by what is wrong with the marks.
    pub fn refused(&mut self, blocks: usize, memory: &Memory, reply: Reply) {
        if let 11 | 13 = reply.number {
            if let Some(clause) = ill_marked(blocks, memory) {
                self.ill_marked[clause][usize::from(reply.number == 13)] += 1;
            }
        }
    }

    /// Counts a call by whether a collection is open, unless the heap is refused.
    pub fn call_with(&mut self, open: bool, reply: Reply) {
        if ![1, 2, 11, 13].contains(&reply.number) {
            self.with_either += 1;
            self.with_one_open += usize::from(open);
        }
    }

    /// Counts the reply to a run of records, the number that stopped it, and whether a collection is open.
    pub fn run(&mut self, reply: Reply, stopped: usize, open: bool) {
        self.run_numbers[reply.number] += 1;
        if reply.number == 0 {
            self.stops[stopped] += 1;
            self.runs_with_one_open += usize::from(open);
            self.full_with_one_open += usize::from(open && stopped == 5);
        }
    }

    /// Counts an output lent for a reason (0) or a shape (1), beside the right length.
    pub fn output(&mut self, which: usize, length: usize, right: Option<usize>) {
        self.outputs[which] += 1;
        if let Some(right) = right {
            let around = &mut self.around[which];
            around[0] += usize::from(length + 1 == right);
            around[1] += usize::from(length == right);
            around[2] += usize::from(length > right);
        }
    }

    /// Counts what a sentence says.
    pub fn said(&mut self, said: &Said) {
        match &said.chain {
            Some(chain) => self.most_links = self.most_links.max(chain.cells.len()),
            None => self.no_root += 1,
        }
    }

    /// What can be met and was not: each number of each call, each damage kind in each call that has number 2, each
    /// call on too many blocks, each clause of 13, before 11 and behind it, each pair of maps, each map with each figure and with each D-map, each mark map with each list, each
    /// number of a replay, of a list of calls and of a run, and each that stops one. And a collection is open in half of the calls.
    pub fn unmet(&self) -> Vec<String> {
        let mut unmet = Vec::new();
        let mut expect = |count: usize, what: String| {
            if count == 0 {
                unmet.push(what);
            }
        };
        for (code, (name, numbers)) in CALLS.into_iter().enumerate() {
            for number in numbers {
                let count = self.numbers[code][*number];
                expect(count, format!("{name}, number {number}"));
            }
            for kind in KINDS.into_iter().filter(|_| numbers.contains(&2)) {
                expect(self.kinds[code][kind], format!("{name}, damage {kind}"));
            }
            let count = self.too_many_blocks[code];
            expect(count, format!("{name}, {TOO_MANY_BLOCKS} blocks"));
        }
        for number in REPLAY {
            let count = self.replay_numbers[number];
            expect(count, format!("replay, number {number}"));
        }
        for number in BATCH {
            let count = self.batch_numbers[number];
            expect(count, format!("a list of calls, number {number}"));
        }
        for kind in KINDS {
            let count = self.batch_kinds[kind];
            expect(count, format!("a list of calls, damage {kind}"));
        }
        let open = self.batched_with_one_open;
        expect(open, "a list of calls with one open".to_string());
        for number in RUN {
            let count = self.run_numbers[number];
            expect(count, format!("run, number {number}"));
        }
        for number in STOPS {
            expect(self.stops[number], format!("run, stopped by {number}"));
        }
        for (blocks, counts) in sizes().zip(self.by_size) {
            for (what, count) in BY_SIZE.into_iter().zip(counts) {
                expect(count, format!("{what} on {blocks} blocks"));
            }
        }
        let all_pairs = self.pairs_of_maps == PAIRS_OF_MAPS;
        expect(all_pairs as usize, "every pair of maps".to_string());
        let all_figures = self.maps_with_figures == MAPS_WITH_FIGURES;
        expect(all_figures as usize, "every map with figures".to_string());
        let all_data = self.maps_with_data == MAPS_WITH_DATA;
        expect(all_data as usize, "every map with data".to_string());
        let all_marks = self.marks_with_lists == MARKS_WITH_LISTS;
        expect(all_marks as usize, "every mark map with lists".to_string());
        for (clause, counts) in ILL.into_iter().zip(self.ill_marked) {
            for (number, count) in [11, 13].into_iter().zip(counts) {
                expect(count, format!("{clause}, refused {number}"));
            }
        }
        for (name, around) in ["reason", "shape"].into_iter().zip(self.around) {
            for (what, count) in AROUND.into_iter().zip(around) {
                expect(count, format!("{name}, an output {what}"));
            }
        }
        let links = self.most_links == MAX_BLOCKS - 1;
        expect(links as usize, "reason, the most links".to_string());
        expect(self.no_root, "reason, no root".to_string());
        for (kind, count) in READINGS.into_iter().zip(self.readings) {
            expect(count, format!("reading, {kind}"));
        }
        let full = self.full_with_one_open;
        expect(full, "run, stopped by 5 with one open".to_string());
        // "with collections open half of the time"
        let share = 100 * self.with_one_open / self.with_either.max(1);
        let half = (40..=60).contains(&share) as usize;
        expect(
            half,
            format!("a collection open in half of the calls, but in {share} %"),
        );
        unmet
    }

    /// The counts, some to a line.
    pub fn lines(&self) -> String {
        let number = |number: usize| self.numbers.iter().map(|by| by[number]).sum::<usize>();
        let kind = |kind: usize| self.kinds.iter().map(|by| by[kind]).sum::<usize>();
        format!(
            "lists {}, calls {}, accepted {}\n\
             refusals by number  {}\n\
             damage by kind      {}\n\
             pairs of maps checked   {}, maps with figures {}, with data {}, mark maps with lists {}\n\
             calls with a collection open {} of {}; on wrong marks, by clause, 11 and 13 {:?}\n\
             calls on {TOO_MANY_BLOCKS} blocks  {}; accepted and damaged, by size {:?}\n\
             replays {}, accepted {}, calls in those {}\n\
             refusals of replays {}\n\
             lists of calls on a heap as it stands {}, calls in those accepted {}, with a collection open {}\n\
             refusals of these {}\n\
             runs of records {}, refusals {}, stopped by {}; with a collection open {}, of these stopped by 5 {}\n\
             outputs for reasons and shapes {:?}, one too short, right, longer {:?}; most links {}, no root {}\n\
             texts read back {}\n\
             copies into a second heap, by number {}\n",
            self.lists,
            (0..NUMBERS).map(number).sum::<usize>(),
            number(0),
            by((1..=8).chain(11..=16), number),
            by(KINDS, kind),
            self.pairs_of_maps,
            self.maps_with_figures,
            self.maps_with_data,
            self.marks_with_lists,
            self.with_one_open,
            self.with_either,
            self.ill_marked,
            self.too_many_blocks.iter().sum::<usize>(),
            self.by_size,
            self.replays,
            self.replay_numbers[0],
            self.replayed_calls,
            by(REPLAY.into_iter().skip(1), |number| self.replay_numbers
                [number]),
            self.batch_numbers.iter().sum::<usize>(),
            self.batched_calls,
            self.batched_with_one_open,
            by(BATCH.into_iter().skip(1), |number| self.batch_numbers
                [number]),
            self.run_numbers.iter().sum::<usize>(),
            by(RUN.into_iter().skip(1), |number| self.run_numbers[number]),
            by(STOPS.into_iter().skip(1), |number| self.stops[number]),
            self.runs_with_one_open,
            self.full_with_one_open,
            self.outputs,
            self.around,
            self.most_links,
            self.no_root,
            by(0..READINGS.len(), |kind| self.readings[kind]),
            by([0, 1, 2, 11, 13, 14, 17], |number| self.copies[number]),
        )
    }
}

/// The counts of some numbers.
fn by(numbers: impl IntoIterator<Item = usize>, count: impl Fn(usize) -> usize) -> String {
    let words: Vec<String> = numbers
        .into_iter()
        .map(|number| format!("{number}: {}", count(number)))
        .collect();
    words.join(", ")
}

//! Wrong readings of document 02, U11 and U13: each writes something else than the model does, or answers otherwise, for calls of the
//! lists of reasons and shapes in the large file, and on what random lists leave. The chain is the lowest of all that are written out,
//! and the numbers go by a queue: both once more, apart from the model.

mod common;
use common::say;
use model::lists::families::{generate, FAMILIES};
use model::lists::file::{Bench, Entry, UNWRITTEN_BYTE, UNWRITTEN_NUMBER};
use model::lists::generate::Desk;
use model::lists::output_vectors::outputs;
use model::lists::random::Random;
use model::rules::answers::refused_first;
use model::rules::calls::short::{allocate, cell, root};
use model::rules::heap::*;
use model::rules::output_claims::chains_of_fewest_links;
use model::rules::outputs::{reason, shape};
use model::rules::reasons::Chain;
use model::{apply, Call, Memory, Reply};
use std::collections::{BTreeMap, VecDeque};

/// Declares the readings, and lists all but the right one.
macro_rules! readings {
    ($name:ident, $list:ident: $($(#[$about:meta])* $wrong:ident,)*) => {
        #[derive(Clone, Copy, Debug, PartialEq)]
        enum $name {
            Nothing,
            $($(#[$about])* $wrong,)*
        }

        const $list: &[$name] = &[$($name::$wrong,)*];
    };
}

readings! { OfReason, REASONS:
    /// The first chain that a walk into the depth finds.
    DepthFirst,
    /// The lowest root with a chain, and its fewest links.
    LowestRootBeforeFewestLinks,
    MostLinks,
    HighestRoot,
    HighestCell,
    CellsBeforeRoot,
    LowestCellAtTheLastDifference,
    NumbersAreFollowed,
    /// What garbage names is taken for reached, from a root that isn't there.
    GarbageLeads,
    CellsOfTheHeap,
    CellsFromOne,
    RootsFromOne,
    BlocksFromOne,
    /// The block is that of the object in the root.
    BlockOfTheRoot,
    ChainFromItsEnd,
    NoCells,
    LeadingZeros,
    TwoSpaces,
    SpaceBeforeTheLineEnd,
    NoLineEnd,
    LineEndIsNotCounted,
    TwoLineEnds,
    CapitalLetter,
    NoChainIsRefused,
    NoChainIsEmpty,
    LaterBytesAreZero,
    OneLaterByteIsZero,
    FifteenWritesWhatFits,
    FifteenWritesZeros,
    FifteenWhereItJustFits,
    OneByteTooFewIsEnough,
    CutOffIsAccepted,
    FifteenTellsTheLength,
    FifteenBeforeSix,
    FifteenBeforeTheCheck,
    SixBeforeTheCheck,
    SecondBlocksAreObjects,
    ValueIsTheRoom,
    SecondIsTheLinks,
    RefusedWhileOneIsOpen,
}

readings! { OfShape, SHAPES:
    DepthFirst,
    /// Each root is followed by what it leads to, before the next one.
    RootAfterCells,
    HighestRootFirst,
    HighestCellFirst,
    ByBlock,
    NumbersFromZero,
    NumbersFromTwo,
    AllObjects,
    NumbersAreFollowed,
    NumbersAreReferences,
    ReferencesAsTheyAre,
    EmptyCellsAreLeftOut,
    SizeInCells,
    SizeOfTheChunk,
    NoDataBit,
    DataBitBeforeSize,
    DataBitIsNot,
    CountsToo,
    NoNumberOfRoots,
    NumberOfObjectsFirst,
    EmptyRootsAreLeftOut,
    RootsBehindObjects,
    LaterNumbersAreZero,
    OneLaterNumberIsZero,
    SixteenWritesWhatFits,
    SixteenWritesZeros,
    SixteenWhereItJustFits,
    OneNumberTooFewIsEnough,
    CutOffIsAccepted,
    SixteenTellsTheLength,
    SixteenBeforeTheCheck,
    ValueInBytes,
    ValueIsTheObjects,
    RefusedWhileOneIsOpen,
}

fn reply(number: usize, value: usize, second: usize) -> Reply {
    Reply {
        number,
        value,
        second,
    }
}

fn refused(number: usize) -> Reply {
    reply(number, 0, 0)
}

/// A heap that is only read.
struct Heap<'a> {
    blocks: usize,
    width: usize,
    memory: &'a Memory,
}

impl Heap<'_> {
    /// What an object's cells name, by cells; those of data only where numbers are followed.
    fn names(&self, first: usize, numbers_too: bool) -> Vec<(usize, usize)> {
        let memory = self.memory;
        if is_data(memory, first) && !numbers_too {
            return Vec::new();
        }
        let cells = &memory.cells[cell_places(self.blocks, memory, first)];
        let named =
            |(j, v): (usize, &Ref)| named(self.blocks, memory, *v).map(|object| (j, object));
        cells.iter().enumerate().filter_map(named).collect()
    }

    fn roots(&self) -> Vec<(usize, usize)> {
        let roots = self.memory.roots.iter().enumerate();
        let named =
            |(r, v): (usize, &Ref)| named(self.blocks, self.memory, *v).map(|object| (r, object));
        roots.filter_map(named).collect()
    }

    /// The first refusal, with 14 where a collection is open if that is what is wrong.
    fn refused_first(&self, not_while_open: bool) -> Option<Reply> {
        let first = refused_first(self.blocks, self.width, self.memory, Call::Check);
        first.or_else(|| {
            let open = self.memory.list.last() == Some(&1);
            (not_while_open && open).then(|| refused(14))
        })
    }

    /// The chains of the fewest links from these roots; too many of them are not written out.
    fn fewest(&self, memory: &Memory, at: usize) -> Option<Vec<Chain>> {
        chains_of_fewest_links(self.blocks, memory, at).ok()
    }

    /// A chain without an object twice: the first one that a walk into the depth finds, or the longest.
    fn into_the_depth(&self, at: usize, longest: bool) -> Option<Chain> {
        let mut best: Option<Chain> = None;
        for (root, object) in self.roots() {
            let mut cells = Vec::new();
            let mut seen = vec![object];
            self.deeper(at, &mut seen, &mut cells, root, longest, &mut best);
            if best.is_some() && !longest {
                break;
            }
        }
        best
    }

    fn deeper(
        &self,
        at: usize,
        seen: &mut Vec<usize>,
        cells: &mut Vec<usize>,
        root: usize,
        longest: bool,
        best: &mut Option<Chain>,
    ) {
        let here = seen[seen.len() - 1];
        if here == at {
            let links = best.as_ref().map(|chain| chain.cells.len());
            if links.is_none_or(|links| longest && links < cells.len()) {
                let cells = cells.clone();
                *best = Some(Chain { root, cells });
            }
            return;
        }
        // Enough for small heaps.
        if cells.len() > 6 {
            return;
        }
        for (j, object) in self.names(here, false) {
            if seen.contains(&object) || (best.is_some() && !longest) {
                continue;
            }
            seen.push(object);
            cells.push(j);
            self.deeper(at, seen, cells, root, longest, best);
            cells.pop();
            seen.pop();
        }
    }

    /// The chain that a reading says; the outer none where it can't be said here.
    fn chain(&self, wrong: OfReason, at: usize) -> Option<Option<Chain>> {
        let chains = self.fewest(self.memory, at)?;
        let key = |chain: &Chain| (chain.root, chain.cells.clone());
        Some(match wrong {
            OfReason::DepthFirst => self.into_the_depth(at, false),
            OfReason::MostLinks => self.into_the_depth(at, true),
            OfReason::LowestRootBeforeFewestLinks => {
                let mut alone = self.memory.clone();
                let from = (0..self.memory.roots.len()).find_map(|r| {
                    alone.roots.fill(0);
                    alone.roots[r] = self.memory.roots[r];
                    self.fewest(&alone, at)?.into_iter().min_by_key(key)
                });
                from
            }
            OfReason::HighestRoot => {
                let highest = chains.iter().map(|chain| chain.root).max();
                let of_it = chains
                    .into_iter()
                    .filter(|chain| Some(chain.root) == highest);
                of_it.min_by_key(key)
            }
            OfReason::HighestCell => {
                let lowest = chains.iter().map(|chain| chain.root).min();
                let of_it = chains
                    .into_iter()
                    .filter(|chain| Some(chain.root) == lowest);
                of_it.max_by_key(key)
            }
            OfReason::CellsBeforeRoot => chains
                .into_iter()
                .min_by_key(|chain| (chain.cells.clone(), chain.root)),
            OfReason::LowestCellAtTheLastDifference => chains.into_iter().min_by_key(|chain| {
                let from_the_end: Vec<usize> = chain.cells.iter().rev().copied().collect();
                (chain.root, from_the_end)
            }),
            OfReason::NumbersAreFollowed => {
                let mut ordinary = self.memory.clone();
                ordinary.data.fill(0);
                self.fewest(&ordinary, at)?.into_iter().min_by_key(key)
            }
            OfReason::GarbageLeads if chains.is_empty() => {
                let owner = first_blocks(self.blocks, self.memory)
                    .into_iter()
                    .find_map(|owner| {
                        let names = self.names(owner, false);
                        let cell = names.into_iter().find(|(_, object)| *object == at);
                        cell.map(|(j, _)| j)
                    });
                owner.map(|j| Chain {
                    root: 0,
                    cells: vec![j],
                })
            }
            _ => chains.into_iter().min_by_key(key),
        })
    }

    /// The sentence of a chain, its numbers as a reading has them.
    fn sentence(&self, wrong: OfReason, chain: Option<Chain>, at: usize) -> String {
        let number = |number: usize| match wrong {
            OfReason::LeadingZeros => format!("{number:02}"),
            _ => number.to_string(),
        };
        let one = |reading: OfReason| usize::from(wrong == reading);
        let Some(chain) = chain else {
            let at = number(at + one(OfReason::BlocksFromOne));
            let text = format!("no root reaches block {at}");
            return finished(wrong, text);
        };
        let mut here = named(self.blocks, self.memory, self.memory.roots[chain.root]);
        let start = here.unwrap_or(at);
        let mut links = Vec::new();
        for j in &chain.cells {
            let owner = here.unwrap_or(0);
            links.push(match wrong {
                OfReason::CellsOfTheHeap => 4 * owner + j,
                _ => j + one(OfReason::CellsFromOne),
            });
            let cell = self.memory.cells.get(4 * owner + j).copied().unwrap_or(0);
            here = named(self.blocks, self.memory, cell);
        }
        match wrong {
            OfReason::ChainFromItsEnd => links.reverse(),
            OfReason::NoCells => links.clear(),
            _ => {}
        }
        let block = match wrong {
            OfReason::BlockOfTheRoot => start,
            _ => at + one(OfReason::BlocksFromOne),
        };
        let root = number(chain.root + one(OfReason::RootsFromOne));
        let links: Vec<String> = links
            .iter()
            .map(|j| format!(" cell {}", number(*j)))
            .collect();
        finished(
            wrong,
            format!("root {root}{} block {}", links.concat(), number(block)),
        )
    }

    /// A reason by a reading; none where it can't be told here.
    fn reason(&self, wrong: OfReason, a: usize, output: &mut [u8]) -> Option<Reply> {
        let room = output.len();
        let first = self.refused_first(wrong == OfReason::RefusedWhileOneIsOpen);
        let is_object = |a: usize| match wrong {
            OfReason::SecondBlocksAreObjects => a < self.blocks && is_allocated(self.memory, a),
            _ => is_first_block(self.blocks, self.memory, a),
        };
        if let Some(first) = first {
            let shaped = first.number != 1;
            let six = shaped && wrong == OfReason::SixBeforeTheCheck && !is_object(a);
            let fifteen = wrong == OfReason::FifteenBeforeTheCheck && room == 0;
            return Some(match (six, fifteen) {
                (true, _) => refused(6),
                (_, true) => refused(15),
                _ => first,
            });
        }
        if wrong == OfReason::FifteenBeforeSix && room == 0 {
            return Some(refused(15));
        }
        if !is_object(a) {
            return Some(refused(6));
        }
        let chain = self.chain(wrong, a)?;
        let links = chain.as_ref().map_or(0, |chain| chain.cells.len());
        if chain.is_none() && wrong == OfReason::NoChainIsRefused {
            return Some(refused(6));
        }
        let text = match chain {
            None if wrong == OfReason::NoChainIsEmpty => Vec::new(),
            chain => self.sentence(wrong, chain, a).into_bytes(),
        };
        let need = match wrong {
            OfReason::FifteenWhereItJustFits => text.len() + 1,
            OfReason::OneByteTooFewIsEnough => text.len() - 1,
            OfReason::CutOffIsAccepted => 0,
            _ => text.len(),
        };
        let fits = text.len().min(room);
        if room < need {
            match wrong {
                OfReason::FifteenWritesWhatFits => output.copy_from_slice(&text[..fits]),
                OfReason::FifteenWritesZeros => output.fill(0),
                _ => {}
            }
            let told = wrong == OfReason::FifteenTellsTheLength;
            return Some(reply(15, if told { text.len() } else { 0 }, 0));
        }
        output[..fits].copy_from_slice(&text[..fits]);
        match wrong {
            OfReason::LaterBytesAreZero => output[fits..].fill(0),
            OfReason::OneLaterByteIsZero => output[fits..].iter_mut().take(1).for_each(|b| *b = 0),
            _ => {}
        }
        let value = match wrong {
            OfReason::ValueIsTheRoom => room,
            OfReason::LineEndIsNotCounted => text.len() - 1,
            _ => text.len(),
        };
        let second = usize::from(wrong == OfReason::SecondIsTheLinks) * links;
        Some(reply(0, value, second))
    }

    /// The numbered objects in a reading's order.
    fn met(&self, wrong: OfShape) -> Vec<usize> {
        let numbers_too = wrong == OfShape::NumbersAreFollowed;
        let mut roots: Vec<usize> = self.roots().into_iter().map(|(_, object)| object).collect();
        if wrong == OfShape::HighestRootFirst {
            roots.reverse();
        }
        let cells = |object: usize| {
            let named = self.names(object, numbers_too).into_iter();
            let mut objects: Vec<usize> = named.map(|(_, object)| object).collect();
            if wrong == OfShape::HighestCellFirst {
                objects.reverse();
            }
            objects
        };
        let mut met: Vec<usize> = Vec::new();
        match wrong {
            OfShape::DepthFirst => {
                let mut stack: Vec<usize> = roots.iter().rev().copied().collect();
                while let Some(object) = stack.pop() {
                    if !met.contains(&object) {
                        met.push(object);
                        stack.extend(cells(object).iter().rev());
                    }
                }
            }
            OfShape::RootAfterCells => {
                for root in roots {
                    let mut queue = VecDeque::from([root]);
                    while let Some(object) = queue.pop_front() {
                        if !met.contains(&object) {
                            met.push(object);
                            queue.extend(cells(object));
                        }
                    }
                }
            }
            _ => {
                let mut queue = VecDeque::from(roots);
                while let Some(object) = queue.pop_front() {
                    if !met.contains(&object) {
                        met.push(object);
                        queue.extend(cells(object));
                    }
                }
            }
        }
        match wrong {
            OfShape::ByBlock => met.sort(),
            OfShape::AllObjects => {
                let all = first_blocks(self.blocks, self.memory).into_iter();
                let more: Vec<usize> = all.filter(|object| !met.contains(object)).collect();
                met.extend(more);
            }
            _ => {}
        }
        met
    }

    /// The list of a reading, and the objects in it.
    fn list(&self, wrong: OfShape) -> (Vec<u32>, usize) {
        let memory = self.memory;
        let met = self.met(wrong);
        let from = match wrong {
            OfShape::NumbersFromZero => 0,
            OfShape::NumbersFromTwo => 2,
            _ => 1,
        };
        let numbers: BTreeMap<usize, u32> = met.iter().copied().zip(from..).collect();
        let number = |v: Ref| match named(self.blocks, memory, v) {
            _ if wrong == OfShape::ReferencesAsTheyAre => v,
            Some(object) => numbers.get(&object).copied().unwrap_or(0),
            None => 0,
        };
        let roots = memory.roots.iter().map(|v| number(*v));
        let roots: Vec<u32> = match wrong {
            OfShape::EmptyRootsAreLeftOut => roots.filter(|number| *number != 0).collect(),
            _ => roots.collect(),
        };
        let mut of_objects = Vec::new();
        for object in &met {
            let n = size(self.blocks, memory, *object);
            let data = is_data(memory, *object);
            let n_told = match wrong {
                OfShape::SizeInCells => 4 * n,
                OfShape::SizeOfTheChunk => n.next_power_of_two(),
                _ => n,
            } as u32;
            let bit = u32::from(data != (wrong == OfShape::DataBitIsNot));
            match wrong {
                OfShape::NoDataBit => of_objects.push(n_told),
                OfShape::DataBitBeforeSize => of_objects.extend([bit, n_told]),
                _ => of_objects.extend([n_told, bit]),
            }
            if wrong == OfShape::CountsToo {
                of_objects.push(count(self.blocks, self.width, memory, *object) as u32);
            }
            for v in &memory.cells[cell_places(self.blocks, memory, *object)] {
                let as_it_is = data && wrong != OfShape::NumbersAreReferences;
                let cell = if as_it_is { *v } else { number(*v) };
                if cell != 0 || wrong != OfShape::EmptyCellsAreLeftOut {
                    of_objects.push(cell);
                }
            }
        }
        let mut list = match wrong {
            OfShape::NoNumberOfRoots => Vec::new(),
            OfShape::NumberOfObjectsFirst => vec![met.len() as u32],
            _ => vec![memory.roots.len() as u32],
        };
        match wrong {
            OfShape::RootsBehindObjects => list.extend(of_objects.into_iter().chain(roots)),
            _ => list.extend(roots.into_iter().chain(of_objects)),
        }
        (list, met.len())
    }

    /// A shape by a reading.
    fn shape(&self, wrong: OfShape, output: &mut [u32]) -> Reply {
        let room = output.len();
        let first = self.refused_first(wrong == OfShape::RefusedWhileOneIsOpen);
        if let Some(first) = first {
            let sixteen = wrong == OfShape::SixteenBeforeTheCheck && room == 0;
            return if sixteen { refused(16) } else { first };
        }
        let (list, objects) = self.list(wrong);
        let need = match wrong {
            OfShape::SixteenWhereItJustFits => list.len() + 1,
            OfShape::OneNumberTooFewIsEnough => list.len() - 1,
            OfShape::CutOffIsAccepted => 0,
            _ => list.len(),
        };
        let fits = list.len().min(room);
        if room < need {
            match wrong {
                OfShape::SixteenWritesWhatFits => output.copy_from_slice(&list[..fits]),
                OfShape::SixteenWritesZeros => output.fill(0),
                _ => {}
            }
            let told = wrong == OfShape::SixteenTellsTheLength;
            return reply(16, if told { list.len() } else { 0 }, 0);
        }
        output[..fits].copy_from_slice(&list[..fits]);
        match wrong {
            OfShape::LaterNumbersAreZero => output[fits..].fill(0),
            OfShape::OneLaterNumberIsZero => output[fits..].iter_mut().take(1).for_each(|n| *n = 0),
            _ => {}
        }
        let value = match wrong {
            OfShape::ValueInBytes => 4 * list.len(),
            OfShape::ValueIsTheObjects => objects,
            _ => list.len(),
        };
        reply(0, value, 0)
    }
}

/// What closes a sentence.
fn finished(wrong: OfReason, text: String) -> String {
    match wrong {
        OfReason::TwoSpaces => text.replacen(' ', "  ", 1) + "\n",
        OfReason::SpaceBeforeTheLineEnd => text + " \n",
        OfReason::NoLineEnd => text,
        OfReason::TwoLineEnds => text + "\n\n",
        OfReason::CapitalLetter => text[..1].to_uppercase() + &text[1..] + "\n",
        _ => text + "\n",
    }
}

/// A reason or a shape that is asked for on a heap.
#[derive(Clone, Copy)]
enum Asked {
    Reason(usize, usize),
    Shape(usize),
}

/// How many of the outputs differ, by what is wrong; and of how many reasons and shapes.
#[derive(Default)]
struct Told {
    reasons: Vec<usize>,
    shapes: Vec<usize>,
    asked: [usize; 2],
}

impl Told {
    fn new() -> Told {
        Told {
            reasons: vec![0; REASONS.len()],
            shapes: vec![0; SHAPES.len()],
            asked: [0; 2],
        }
    }

    fn ask(&mut self, bench: &Bench, asked: Asked) {
        let (blocks, width, memory) = (bench.blocks, bench.width, &bench.memory);
        let heap = Heap {
            blocks,
            width,
            memory,
        };
        match asked {
            Asked::Reason(a, length) => {
                let mut due = vec![UNWRITTEN_BYTE; length];
                let reply = reason(blocks, width, memory, a, &mut due);
                let differs = |wrong: OfReason| {
                    let mut output = vec![UNWRITTEN_BYTE; length];
                    let by_reading = heap.reason(wrong, a, &mut output);
                    by_reading.map(|by_reading| (by_reading, output) != (reply, due.clone()))
                };
                let Some(right) = differs(OfReason::Nothing) else {
                    return;
                };
                assert!(!right, "{a} {length} {memory:?}");
                self.asked[0] += 1;
                for (told, wrong) in self.reasons.iter_mut().zip(REASONS) {
                    *told += usize::from(differs(*wrong) == Some(true));
                }
            }
            Asked::Shape(length) => {
                let mut due = vec![UNWRITTEN_NUMBER; length];
                let reply = shape(blocks, width, memory, &mut due);
                let differs = |wrong: OfShape| {
                    let mut output = vec![UNWRITTEN_NUMBER; length];
                    let by_reading = heap.shape(wrong, &mut output);
                    (by_reading, output) != (reply, due.clone())
                };
                assert!(!differs(OfShape::Nothing), "{length} {memory:?}");
                self.asked[1] += 1;
                for (told, wrong) in self.shapes.iter_mut().zip(SHAPES) {
                    *told += usize::from(differs(*wrong));
                }
            }
        }
    }

    /// Says how often each is told apart, which is at least once.
    fn say(&self, what: &str) {
        let words = |names: Vec<String>, told: &[usize]| {
            let never: Vec<&String> = names
                .iter()
                .zip(told)
                .filter(|(_, told)| **told == 0)
                .map(|(name, _)| name)
                .collect();
            assert!(never.is_empty(), "never told apart by {what}: {never:?}");
            let words = names
                .iter()
                .zip(told)
                .map(|(name, told)| format!("{name} {told}"));
            words.collect::<Vec<String>>().join(", ")
        };
        let reasons = words(
            REASONS.iter().map(|wrong| format!("{wrong:?}")).collect(),
            &self.reasons,
        );
        let shapes = words(
            SHAPES.iter().map(|wrong| format!("{wrong:?}")).collect(),
            &self.shapes,
        );
        say(&format!(
            "{} wrong readings of reasons, outputs of {} that differ by {what}: {reasons}",
            REASONS.len(),
            self.asked[0]
        ));
        say(&format!(
            "{} wrong readings of shapes, outputs of {} that differ by {what}: {shapes}",
            SHAPES.len(),
            self.asked[1]
        ));
    }
}

#[test]
fn the_lists_tell_wrong_outputs_apart() {
    let desk = outputs();
    let mut told = Told::new();
    let mut bench = desk.start();
    for words in &desk.entries {
        let entry = Entry::from_words(*words);
        // Large heaps show nothing more, and take long.
        if bench.blocks <= 32 {
            match entry {
                Entry::Reason { a, length } => {
                    told.ask(&bench, Asked::Reason(a as usize, length as usize));
                }
                Entry::Shape { length } => told.ask(&bench, Asked::Shape(length as usize)),
                _ => {}
            }
        }
        bench.carry_out(entry, apply);
    }
    told.say("the lists");
}

/// What random lists leave: reasons of every block and the shape, with outputs of every length up to a bound.
#[test]
fn random_lists_tell_wrong_outputs_apart() {
    let mut told = Told::new();
    let mut random = Random::new(35);
    for (family, _) in FAMILIES {
        for seed in 0..12 {
            let desk: Desk = generate(family, seed, 60).unwrap();
            let mut bench = desk.start();
            for (k, words) in desk.entries.iter().enumerate() {
                bench.carry_out(Entry::from_words(*words), apply);
                if k % 5 != 0 || bench.blocks > 32 {
                    continue;
                }
                for _ in 0..3 {
                    let a = random.below(bench.blocks + 2);
                    let length = random.pick(&[0, 10, 15, 16, 22, 23, 24, 60]);
                    told.ask(&bench, Asked::Reason(a, length));
                }
                let length = random.pick(&[0, 5, 11, 100, 400]);
                told.ask(&bench, Asked::Shape(length));
                // The right length and its neighbours.
                let mut room = vec![0; 400];
                let right = shape(bench.blocks, bench.width, &bench.memory, &mut room).value;
                for length in [right.saturating_sub(1), right, right + 1] {
                    told.ask(&bench, Asked::Shape(length));
                }
            }
        }
    }
    // Up to three ways of two links to one object.
    for seed in 0..150 {
        let mut desk = Desk::new(Random::new(seed), [8, 3, 2]);
        let start = [Call::Format, allocate(1, 0)];
        let way = |middle: usize, desk: &mut Desk| {
            let j = desk.random.below(4);
            [allocate(1, 1), cell(0, j, 1 + middle)]
        };
        let mut calls = start.to_vec();
        calls.extend((1..4).flat_map(|middle| way(middle, &mut desk)));
        calls.push(allocate(1, 1));
        calls.extend((1..4).map(|middle| cell(middle, desk.random.below(4), 5)));
        calls.push(root(1, 0));
        for call in calls {
            desk.call(call);
        }
        for a in desk.objects() {
            told.ask(&desk.bench, Asked::Reason(a, 60));
        }
    }
    told.say("random lists");
}

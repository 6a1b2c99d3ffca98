//! The histories that the program `report` is tested with: what their names say, what they meet, and that each wrong
//! reading of the documents prints another line for one of them.

mod common;
use common::{fresh, say};
use model::history::old::{read_old, OLD_RECORD};
use model::history::record::RECORD;
use model::history::run::{BLOCKS, ROOTS, WIDTH};
use model::history::vectors::{all_but_the_longest, histories, History};
use model::history::{report, Record};
use model::rules::calls::{apply_undamaged, Call};
use model::rules::chunks::least_power_of_two;
use model::rules::heap::{free_count, is_data, size, Memory};
use std::collections::BTreeSet;

#[test]
fn names_say_what_is_printed() {
    let all = all_but_the_longest();
    let names: BTreeSet<&str> = all.iter().map(|history| &history.name[..]).collect();
    assert_eq!(names.len(), all.len());
    assert!(all.len() >= 300);
    let (mut given, mut printed) = ([0; 15], 0);
    for History { name, bytes } in &all {
        let line = report(bytes);
        let words: Vec<&str> = name.split('-').collect();
        match words[0] {
            "gives" => {
                let number: usize = words[1].parse().unwrap();
                // The last record, whole or cut off.
                let record = (bytes.len() - 1) / RECORD;
                let due = format!("refused {number} at record {record}\n");
                assert_eq!(line, due, "{name}");
                given[number] += 1;
            }
            "prints" => {
                assert_eq!(line, words[1..7].join(" ") + "\n", "{name}");
                printed += 1;
            }
            "stops" => assert_eq!(line, "refused 4 at record 3\n", "{name}"),
            "random" => {}
            _ => assert!(!line.starts_with("refused"), "{name}: {line}"),
        }
    }
    for number in [3, 4, 5, 6, 7, 9, 10, 12] {
        assert!(given[number] >= 4, "{number}: {}", given[number]);
    }
    let records: usize = all.iter().map(|history| history.bytes.len() / RECORD).sum();
    say(&format!(
        "{} histories of {records} records, {printed} with their line in their name",
        all.len()
    ));
}

/// 200,000 records, with collections forced and recorded, and one more that is refused.
#[test]
fn the_longest() {
    let all = histories();
    let [.., whole, refused] = &all[..] else {
        panic!("no histories");
    };
    assert_eq!(whole.bytes.len(), RECORD * 200_000);
    assert_eq!(refused.bytes[..RECORD * 200_000], whole.bytes);
    let line = report(&whole.bytes);
    let figures: Vec<usize> = line
        .split_whitespace()
        .map(|word| word.parse().unwrap())
        .collect();
    let recorded = whole
        .bytes
        .chunks(RECORD)
        .filter(|record| record[0] == 6)
        .count();
    assert!(recorded > 100 && figures[3] > recorded + 100, "{line}");
    let line = report(&refused.bytes);
    assert!(line.ends_with(" at record 200000\n"), "{line}");
}

/// What the documents don't say.
#[derive(Clone, Copy, Debug, PartialEq)]
enum Wrong {
    Nothing,
    HighByteFirst,
    RecordsOfEightBytes,
    NumbersOfTwoBytes,
    SizeFromByteSix,
    SizeBeforeCell,
    HeapOf8192Blocks,
    UnusedFieldNotLookedAt,
    Byte3NotLookedAt,
    UnknownOperationPassedOver,
    NineAfterTheOthers,
    NineInTheTail,
    TenBeforeAllRecords,
    TailPassedOver,
    FourBeforeThree,
    SixBeforeFour,
    SixAndSevenExchanged,
    SevenBeforeSix,
    SevenNotInFour,
    EmptyRootOfTheOtherField,
    EmptyRootNeverGood,
    CopiedTheOtherWay,
    NoSecondTry,
    SecondTryWithoutCollecting,
    ForcedNotCounted,
    RecordedNotCounted,
    MostInsideARecord,
    MostAtTheEnd,
    BlocksByTheChunk,
    MostByTheChunk,
    LargestIsTheLast,
    RefusedAllocationCounted,
    CountedFromOne,
    StuckByEveryReferenceMore,
    StuckObjectsAtTheEnd,
    CollectionsForStuck,
    TwelveBeforeSeven,
    TwelveBeforeFour,
    NoTwelveInThree,
    NoTwelveInFour,
    NoTwelveInEight,
    DataIsOrdinary,
    NoSecondTryForData,
    DataNotAmongTheFigures,
    NumberIsASize,
    NumberCounted,
    EmptyRootOfEight,
}

const WRONG: [Wrong; 46] = [
    Wrong::HighByteFirst,
    Wrong::RecordsOfEightBytes,
    Wrong::NumbersOfTwoBytes,
    Wrong::SizeFromByteSix,
    Wrong::SizeBeforeCell,
    Wrong::HeapOf8192Blocks,
    Wrong::UnusedFieldNotLookedAt,
    Wrong::Byte3NotLookedAt,
    Wrong::UnknownOperationPassedOver,
    Wrong::NineAfterTheOthers,
    Wrong::NineInTheTail,
    Wrong::TenBeforeAllRecords,
    Wrong::TailPassedOver,
    Wrong::FourBeforeThree,
    Wrong::SixBeforeFour,
    Wrong::SixAndSevenExchanged,
    Wrong::SevenBeforeSix,
    Wrong::SevenNotInFour,
    Wrong::EmptyRootOfTheOtherField,
    Wrong::EmptyRootNeverGood,
    Wrong::CopiedTheOtherWay,
    Wrong::NoSecondTry,
    Wrong::SecondTryWithoutCollecting,
    Wrong::ForcedNotCounted,
    Wrong::RecordedNotCounted,
    Wrong::MostInsideARecord,
    Wrong::MostAtTheEnd,
    Wrong::BlocksByTheChunk,
    Wrong::MostByTheChunk,
    Wrong::LargestIsTheLast,
    Wrong::RefusedAllocationCounted,
    Wrong::CountedFromOne,
    Wrong::StuckByEveryReferenceMore,
    Wrong::StuckObjectsAtTheEnd,
    Wrong::CollectionsForStuck,
    Wrong::TwelveBeforeSeven,
    Wrong::TwelveBeforeFour,
    Wrong::NoTwelveInThree,
    Wrong::NoTwelveInFour,
    Wrong::NoTwelveInEight,
    Wrong::DataIsOrdinary,
    Wrong::NoSecondTryForData,
    Wrong::DataNotAmongTheFigures,
    Wrong::NumberIsASize,
    Wrong::NumberCounted,
    Wrong::EmptyRootOfEight,
];

/// A record of twelve bytes.
fn read(wrong: Wrong, mut bytes: [u8; RECORD]) -> Record {
    match wrong {
        Wrong::HighByteFirst => {
            bytes[4..8].reverse();
            bytes[8..].reverse();
        }
        // Cell and size in two bytes each.
        Wrong::NumbersOfTwoBytes => {
            bytes[6..8].fill(0);
            bytes[10..].fill(0);
        }
        Wrong::SizeFromByteSix => bytes.copy_within(6..10, 8),
        Wrong::SizeBeforeCell => bytes[4..].rotate_left(4),
        _ => {}
    }
    Record::from_bytes(bytes)
}

/// A run written once more, by the numbers of bytes and fields alone, with one thing wrong.
struct Reading {
    wrong: Wrong,
    memory: Memory,
    blocks: usize,
    /// Allocations, blocks, largest, collections, most in use, moments at which an object became stuck.
    figures: [usize; 6],
}

impl Reading {
    fn report(wrong: Wrong, history: &[u8]) -> String {
        let blocks = match wrong {
            Wrong::HeapOf8192Blocks => 8192,
            _ => BLOCKS,
        };
        let mut reading = Reading {
            wrong,
            memory: fresh(blocks, WIDTH, ROOTS),
            blocks,
            figures: [0; 6],
        };
        let from = usize::from(wrong == Wrong::CountedFromOne);
        let length = match wrong {
            Wrong::RecordsOfEightBytes => OLD_RECORD,
            _ => RECORD,
        };
        if wrong == Wrong::TenBeforeAllRecords && !history.len().is_multiple_of(length) {
            return format!("refused 10 at record {}\n", history.len() / length);
        }
        for (k, bytes) in history.chunks(length).enumerate() {
            let number = match bytes.len() {
                whole if whole == length => reading.record(bytes),
                _ if wrong == Wrong::TailPassedOver => 0,
                _ if wrong == Wrong::NineInTheTail && !(1..=8).contains(&bytes[0]) => 9,
                _ => 10,
            };
            if number != 0 {
                return format!("refused {number} at record {}\n", from + k);
            }
        }
        let [allocations, blocks, largest, collections, most, stuck] = reading.figures;
        format!("{allocations} {blocks} {largest} {collections} {most} {stuck}\n")
    }

    fn record(&mut self, bytes: &[u8]) -> usize {
        let wrong = self.wrong;
        let record = match wrong {
            Wrong::RecordsOfEightBytes => read_old(bytes.try_into().unwrap()),
            _ => read(wrong, bytes.try_into().unwrap()),
        };
        let known = (1..=8).contains(&record.operation);
        if wrong == Wrong::UnknownOperationPassedOver && !known {
            return 0;
        }
        let nine = match wrong {
            Wrong::UnusedFieldNotLookedAt => !known || record.unused != 0,
            Wrong::Byte3NotLookedAt => Record {
                unused: 0,
                ..record
            }
            .operation()
            .is_none(),
            _ => record.operation().is_none(),
        };
        if nine && (wrong != Wrong::NineAfterTheOthers || !known) {
            return 9;
        }
        let number = match self.request(record) {
            Ok(call) if !nine => self.perform(call),
            Ok(_) => 9,
            Err(number) => number,
        };
        if number == 0 {
            self.sample();
        }
        number
    }

    fn sample(&mut self) {
        let in_use = self.blocks - free_count(self.blocks, &self.memory);
        let in_use = match self.wrong {
            Wrong::MostByTheChunk => {
                let firsts =
                    model::rules::heap::first_blocks(self.blocks, &self.memory).into_iter();
                let sizes = firsts.map(|first| size(self.blocks, &self.memory, first));
                sizes.map(least_power_of_two).sum()
            }
            _ => in_use,
        };
        self.figures[4] = match self.wrong {
            Wrong::MostAtTheEnd => in_use,
            _ => self.figures[4].max(in_use),
        };
    }

    fn request(&self, record: Record) -> Result<Call, usize> {
        let Record { operation, c, .. } = record;
        let (mut d, mut s) = (record.d as usize, record.s as usize);
        if self.wrong == Wrong::CopiedTheOtherWay && operation == 2 {
            (d, s) = (s, d);
        }
        let n = record.size as usize;
        let holds = |root: usize| self.memory.roots.get(root).map_or(0, |v| *v as usize);
        let out = d >= 64 || s >= 64;
        if operation == 1 || operation == 7 {
            if self.wrong == Wrong::FourBeforeThree && d >= 64 {
                return Err(4);
            }
            if operation == 7 && self.wrong != Wrong::DataIsOrdinary {
                return Ok(Call::AllocateData { n, r: d });
            }
            return Ok(Call::Allocate { n, r: d });
        }
        if operation == 8 && self.wrong == Wrong::NumberIsASize && (n == 0 || n > self.blocks) {
            return Err(3);
        }
        if operation == 6 {
            return Ok(Call::Collect);
        }
        let mut needed = match operation {
            3 => Some(d),
            4 => Some(s),
            8 if self.wrong != Wrong::EmptyRootOfEight => Some(d),
            _ => None,
        };
        if self.wrong == Wrong::EmptyRootOfTheOtherField {
            needed = needed.map(|root| d + s - root);
        }
        let is_empty = needed.is_some_and(|root| holds(root) == 0);
        let owner = if operation == 4 { holds(s) } else { holds(d) };
        let cells = match owner {
            0 => 0,
            v => 4 * size(self.blocks, &self.memory, v - 1),
        };
        let is_past = needed.is_some() && c as usize >= cells;
        let is_past = is_past && (self.wrong != Wrong::SevenNotInFour || operation != 4);
        let other_kind = needed.is_some()
            && owner != 0
            && is_data(&self.memory, owner - 1) != (operation == 8)
            && match self.wrong {
                Wrong::NoTwelveInThree => operation != 3,
                Wrong::NoTwelveInFour => operation != 4,
                Wrong::NoTwelveInEight => operation != 8,
                _ => true,
            };
        let never_good = self.wrong == Wrong::EmptyRootNeverGood && operation < 5 && holds(s) == 0;
        let conditions = match self.wrong {
            Wrong::SixBeforeFour => [(is_empty, 6), (out, 4), (is_past, 7), (other_kind, 12)],
            Wrong::SixAndSevenExchanged => {
                [(out, 4), (is_empty, 7), (is_past, 6), (other_kind, 12)]
            }
            Wrong::SevenBeforeSix => [(out, 4), (is_past, 7), (is_empty, 6), (other_kind, 12)],
            Wrong::TwelveBeforeSeven => [(out, 4), (is_empty, 6), (other_kind, 12), (is_past, 7)],
            Wrong::TwelveBeforeFour => [(other_kind, 12), (out, 4), (is_empty, 6), (is_past, 7)],
            _ => [
                (out, 4),
                (is_empty || never_good, 6),
                (is_past, 7),
                (other_kind, 12),
            ],
        };
        if let Some((_, number)) = conditions.into_iter().find(|(applies, _)| *applies) {
            return Err(number);
        }
        Ok(match operation {
            2 => Call::StoreRoot { r: d, v: holds(s) },
            // What the wrong readings let through.
            3 | 4 | 8 if owner == 0 || c as usize >= cells => Call::Check,
            3 | 4 | 8 if is_data(&self.memory, owner - 1) != (operation == 8) => Call::Check,
            3 => Call::StoreCell {
                a: owner - 1,
                j: c as usize,
                v: holds(s),
            },
            4 => Call::StoreRoot {
                r: d,
                v: self.memory.cells[4 * (owner - 1) + c as usize] as usize,
            },
            8 => Call::WriteNumber {
                a: owner - 1,
                j: c as usize,
                v: record.size,
            },
            _ => Call::StoreRoot { r: d, v: 0 },
        })
    }

    fn perform(&mut self, call: Call) -> usize {
        let number = self.call(call, false);
        let is_data = matches!(call, Call::AllocateData { .. });
        let once = match self.wrong {
            Wrong::NoSecondTry => true,
            Wrong::NoSecondTryForData => is_data,
            _ => false,
        };
        if number != 5 || once {
            return number;
        }
        if self.wrong != Wrong::SecondTryWithoutCollecting {
            self.call(Call::Collect, true);
        }
        self.call(call, false)
    }

    /// Whether the call's own reference brought an object to the capacity, by the counts before and after.
    fn sticks(&self, before: &Memory, call: Call, value: usize) -> bool {
        let (named, present) = match call {
            Call::Allocate { .. } | Call::AllocateData { .. } => (value + 1, 0),
            Call::StoreRoot { r, v } => (v, before.roots[r] as usize),
            Call::StoreCell { a, j, v } => (v, before.cells[4 * a + j] as usize),
            _ => (0, 0),
        };
        let was = named != 0
            && is_stuck(self.blocks, before, named - 1)
            && self.wrong != Wrong::StuckByEveryReferenceMore;
        named != 0 && named != present && !was && is_stuck(self.blocks, &self.memory, named - 1)
    }

    fn call(&mut self, call: Call, forced: bool) -> usize {
        let free = free_count(self.blocks, &self.memory);
        let before = self.memory.clone();
        let reply = apply_undamaged(self.blocks, WIDTH, &mut self.memory, call);
        let accepted = reply.number == 0;
        self.figures[5] = match self.wrong {
            Wrong::StuckObjectsAtTheEnd => {
                let firsts =
                    model::rules::heap::first_blocks(self.blocks, &self.memory).into_iter();
                firsts
                    .filter(|first| is_stuck(self.blocks, &self.memory, *first))
                    .count()
            }
            Wrong::CollectionsForStuck => self.figures[3],
            _ => self.figures[5] + usize::from(accepted && self.sticks(&before, call, reply.value)),
        };
        match call {
            Call::AllocateData { .. } if self.wrong == Wrong::DataNotAmongTheFigures => {}
            Call::WriteNumber { .. } if accepted && self.wrong == Wrong::NumberCounted => {
                self.figures[0] += 1;
            }
            Call::Allocate { n, .. } | Call::AllocateData { n, .. }
                if accepted || self.wrong == Wrong::RefusedAllocationCounted =>
            {
                self.figures[0] += 1;
                self.figures[1] += match self.wrong {
                    Wrong::BlocksByTheChunk => least_power_of_two(n),
                    _ => n,
                };
                self.figures[2] = match self.wrong {
                    Wrong::LargestIsTheLast => n,
                    _ => self.figures[2].max(n),
                };
                if self.wrong == Wrong::MostInsideARecord {
                    self.figures[4] = self.figures[4].max(self.blocks - free + n);
                }
            }
            Call::Collect => {
                let counted = match self.wrong {
                    Wrong::ForcedNotCounted => !forced,
                    Wrong::RecordedNotCounted => forced,
                    _ => true,
                };
                self.figures[3] += usize::from(counted);
            }
            _ => {}
        }
        reply.number
    }
}

fn is_stuck(blocks: usize, memory: &Memory, first: usize) -> bool {
    use model::rules::heap::{capacity, count, is_first_block};
    is_first_block(blocks, memory, first) && count(blocks, WIDTH, memory, first) == capacity(WIDTH)
}

/// The histories that a wrong reading is tried on.
fn tried() -> Vec<History> {
    let mut all = all_but_the_longest();
    all.retain(|history| history.bytes.len() < RECORD * 1000);
    all
}

#[test]
fn wrong_readings_are_told_apart() {
    let histories = tried();
    let lines: Vec<String> = histories
        .iter()
        .map(|history| report(&history.bytes))
        .collect();
    let others = |wrong: Wrong| {
        let both = histories.iter().zip(&lines);
        both.filter(|(history, line)| Reading::report(wrong, &history.bytes) != **line)
            .count()
    };
    assert_eq!(others(Wrong::Nothing), 0);
    for wrong in WRONG {
        let count = others(wrong);
        assert!(count > 0, "{wrong:?}");
        let all = histories.len();
        say(&format!(
            "wrong reading of histories, {wrong:?}: {count} of {all} lines differ"
        ));
    }
}
